/* The time of a map of 256 Alloc-IDs of 64 ONUs, as bytes and as grants, with a report of each ONU after each map. */
#define _POSIX_C_SOURCE 200809L
#include "sezhimow.h"

#include <stdio.h>
#include <stdlib.h>
#include <time.h>

static double now(void) {
    struct timespec at;
    clock_gettime(CLOCK_MONOTONIC, &at);
    return (double)at.tv_sec * 1e6 + (double)at.tv_nsec / 1e3;
}

static uint32_t next(uint32_t *seed) {
    *seed = *seed * 1103515245u + 12345u;
    return *seed >> 16;
}

static bool report_all(sez_port *port, uint64_t frame, uint32_t *seed) {
    for (uint16_t onu = 0; onu < 64; onu++) {
        uint32_t words[4];
        for (int k = 0; k < 4; k++) words[k] = next(seed) % 400;
        if (sez_report(port, frame, onu, words, 4) != SEZ_DONE) return false;
    }
    return true;
}

static uint8_t room[SEZ_MAP_ROOM];
static sez_grant_info grants[SEZ_MAX_GRANTS];

/* Makes a map, and returns its frame. */
static uint64_t make_map(sez_port *port, bool as_grants) {
    sez_map_info map = {0, 0};
    sez_grants_info info = {0, 0};
    uint32_t told = as_grants ? sez_map_grants(port, grants, SEZ_MAX_GRANTS, &info) : sez_map(port, room, sizeof room, &map);
    if (told != SEZ_DONE) exit(4);
    return as_grants ? info.frame : map.frame;
}

static int measure(bool as_grants) {
    sez_port port = SEZ_CLOSED_HANDLE;
    if (sez_open(&port, 16, 0, 0) != SEZ_DONE) return 2;
    for (uint16_t k = 0; k < 256; k++)
        if (sez_admit(&port, k / 4, 1024 + k, 1024, k % 3 != 0 ? 1024 : 0, 50000 + 100 * (uint64_t)k,
                      k % 3 == 0 ? 2 : (uint8_t)(k % 3)) != SEZ_DONE)
            return 3;
    double maps = 0, reports = 0, least = 1e9, least_reports = 1e9;
    const int frames = 900;
    uint32_t seed = 1;
    for (int frame = 0; frame < frames; frame++) {
        double from = now();
        uint64_t made_frame = make_map(&port, as_grants);
        double made = now();
        if (!report_all(&port, made_frame, &seed)) return 5;
        double done = now();
        maps += made - from;
        reports += done - made;
        if (made - from < least) least = made - from;
        if (done - made < least_reports) least_reports = done - made;
    }
    printf("%d maps as %s: %.1f us a map (least %.1f), %.1f us for 64 reports (least %.1f)\n", frames,
           as_grants ? "grants" : "bytes", maps / frames, least, reports / frames, least_reports);
    return sez_close(&port) == SEZ_DONE ? 0 : 6;
}

int main(void) {
    int told = measure(false);
    return told != 0 ? told : measure(true);
}
