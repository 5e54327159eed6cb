/* Makes the maps of 256 Alloc-IDs of 16 ONUs for a number of frames, as grants or with a report of each ONU for each map if
 * asked to, and prints how often it asked for memory. Run for two numbers of frames, the difference is what the frames between cost. */
#include "sezhimow.h"

#include <stdio.h>
#include <stdlib.h>
#include <string.h>

void *__real_malloc(size_t size);
void *__real_realloc(void *old, size_t size);
void *__wrap_malloc(size_t size);
void *__wrap_realloc(void *old, size_t size);

static long asked = 0;

void *__wrap_malloc(size_t size) {
    asked++;
    return __real_malloc(size);
}

void *__wrap_realloc(void *old, size_t size) {
    asked++;
    return __real_realloc(old, size);
}

static bool admit(sez_port *port, uint16_t k) {
    uint8_t class_ = (uint8_t)(k % 3);
    uint64_t assured = class_ == SEZ_CLASS_NON_ASSURED ? 1024 : 0;
    return sez_admit(port, k / 16, 1024 + k, 1024, assured, 50000 + 100 * (uint64_t)k, class_) == SEZ_DONE;
}

static bool report_all(sez_port *port, uint64_t frame) {
    uint32_t words[16];
    for (uint32_t k = 0; k < 16; k++) words[k] = (uint32_t)(frame * 37u + k * 11u) % 400u;
    for (uint16_t onu = 0; onu < 16; onu++)
        if (sez_report(port, frame, onu, words, 16) != SEZ_DONE) return false;
    return true;
}

static bool make_map(sez_port *port, bool as_grants) {
    static uint8_t room[SEZ_MAP_ROOM];
    static sez_grant_info grants[SEZ_MAX_GRANTS];
    sez_map_info map;
    sez_grants_info info;
    if (as_grants) return sez_map_grants(port, grants, SEZ_MAX_GRANTS, &info) == SEZ_DONE;
    return sez_map(port, room, sizeof room, &map) == SEZ_DONE;
}

int main(int count, char **arguments) {
    sez_port port = SEZ_CLOSED_HANDLE;
    if (count != 3 || sez_open(&port, 16, 0, 0) != SEZ_DONE) return 1;
    bool reports = strcmp(arguments[2], "reports") == 0, as_grants = strcmp(arguments[2], "grants") == 0;
    for (uint16_t k = 0; k < 256; k++)
        if (!admit(&port, k)) return 2;
    long frames = atol(arguments[1]);
    for (long frame = 0; frame < frames; frame++) {
        if (!make_map(&port, as_grants)) return 3;
        if (reports && !report_all(&port, (uint64_t)frame)) return 4;
    }
    printf("%ld\n", asked);
    return sez_close(&port) == SEZ_DONE ? 0 : 5;
}
