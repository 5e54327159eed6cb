/* A port is recorded, closed and resumed twice, and makes the maps of one that was never closed. PREFIX gets its chapters in
 * one file. Then each return value of sez_resume. */
#include "sezhimow.h"

#include <stdio.h>
#include <stdlib.h>
#include <string.h>

#define FRAMES 300
#define NUMBER 5

static uint8_t recording[4000000];
static size_t end;
static sez_verdict_info verdict;

static void must(bool holds, const char *what) {
    if (holds) return;
    fprintf(stderr, "resume: %s\n", what);
    exit(1);
}

static void want(uint32_t value, uint32_t told, const char *what) {
    if (told != value) fprintf(stderr, "resume: told %u, not %u\n", (unsigned)told, (unsigned)value);
    must(told == value, what);
}

static void report_all(sez_port *port, uint64_t frame) {
    for (uint16_t onu = 0; onu < 8; onu++) {
        uint32_t words[2] = {(uint32_t)(frame * 31u + onu * 37u) % 400u, frame % 7u == 0 ? SEZ_GARBLED : (uint32_t)(frame % 50u)};
        must(sez_report(port, frame, onu, words, 2) == SEZ_DONE, "report");
    }
}

/* Both ports make the same maps. */
static void serve(sez_port *port, sez_port *other) {
    static uint8_t room[SEZ_MAP_ROOM], room2[SEZ_MAP_ROOM];
    sez_map_info map, map2;
    for (int k = 0; k < FRAMES; k++) {
        must(sez_map(port, room, sizeof room, &map) == SEZ_DONE && sez_map(other, room2, sizeof room2, &map2) == SEZ_DONE, "map");
        must(map.frame == map2.frame && map.size == map2.size && memcmp(room, room2, map.size) == 0, "the same map");
        report_all(port, map.frame);
        report_all(other, map.frame);
    }
}

/* Adds the chapter of a port to the recording, and closes the port. */
static void save(sez_port *port) {
    sez_chapter chapter = SEZ_CLOSED_HANDLE;
    size_t size, skipped = end == 0 ? 0 : SEZ_MAGIC_BYTES;
    must(sez_turn(port, &chapter) == SEZ_DONE && sez_close(port) == SEZ_DONE, "turn");
    uint8_t *bytes = (uint8_t *)malloc(sizeof recording - end + SEZ_MAGIC_BYTES);
    must(bytes != NULL && sez_chapter_bytes(&chapter, NUMBER, bytes, sizeof recording - end, &size) == SEZ_DONE, "bytes");
    memcpy(recording + end, bytes + skipped, size - skipped);
    end += size - skipped;
    free(bytes);
    must(sez_chapter_close(&chapter) == SEZ_DONE, "close");
}

/* A chapter with an opening of no rows, and one map of `onus` grants in its window if there are any: the bytes of
 * docs/olt-recording.5. */
static size_t forged(uint8_t *bytes, uint8_t rule, uint64_t number, uint16_t onus) {
    size_t at = 0;
    const uint8_t head[] = {'P', 'O', 'N', 'R', 'E', 'C', '0', '2', 'C', 0, 0, 0, 0, rule, NUMBER};
    memcpy(bytes, head, sizeof head);
    at = sizeof head;
    for (int k = 7; k >= 0; k--) bytes[at++] = (uint8_t)(number >> (8 * k));
    const uint8_t opening[] = {0, 16, 0, 0, 0, 0, 0, 0, 0, 0, 0, 8, 0, 0, 0, 0, 0, 0, 0, 0, 0, 0};
    memcpy(bytes + at, opening, sizeof opening);
    at += sizeof opening;
    bytes[at++] = onus > 0;
    if (onus > 0) {
        const uint8_t map[] = {0, 0, 0, 0, 0, 0, 0, 7, (uint8_t)(onus >> 8), (uint8_t)onus};
        memcpy(bytes + at, map, sizeof map);
        at += sizeof map;
        for (uint16_t onu = 0; onu < onus; onu++) {
            const uint8_t grant[] = {(uint8_t)(onu >> 8), (uint8_t)onu, (uint8_t)((1024 + onu) >> 8), (uint8_t)(1024 + onu), 0, 1};
            memcpy(bytes + at, grant, sizeof grant);
            at += sizeof grant;
        }
        bytes[at++] = 0;
    }
    for (int k = 0; k < 4; k++) bytes[at++] = 0;
    size_t body = at - SEZ_MAGIC_BYTES - 5;
    for (int k = 0; k < 4; k++) bytes[9 + k] = (uint8_t)(body >> (8 * (3 - k)));
    return at;
}

static uint32_t resume_forged(sez_port *port, uint8_t rule, uint64_t number, uint16_t onus) {
    static uint8_t bytes[2000];
    size_t size = forged(bytes, rule, number, onus);
    return sez_resume(port, bytes, size, NUMBER, &verdict);
}

static void values(void) {
    sez_port port = SEZ_CLOSED_HANDLE;
    want(SEZ_BAD_PORT, sez_resume(&port, recording, 0, 64, &verdict), "a number above 63");
    want(SEZ_NOT_GOOD, sez_resume(&port, recording, end - 1, 63, &verdict), "a cut recording");
    must(verdict.verdict == SEZ_TRUNCATED && verdict.place > SEZ_MAGIC_BYTES, "the verdict on it");
    want(SEZ_NO_CHAPTER, sez_resume(&port, recording, end, 63, &verdict), "another port");
    must(verdict.verdict == SEZ_GOOD && verdict.maps == 3 * FRAMES, "the verdict on the whole");
    want(SEZ_NO_CHAPTER, sez_resume(&port, recording, SEZ_MAGIC_BYTES, NUMBER, &verdict), "no chapters");
    recording[end / 2] ^= 1;
    want(SEZ_NOT_GOOD, sez_resume(&port, recording, end, NUMBER, &verdict), "a changed recording");
    recording[end / 2] ^= 1;
    want(SEZ_DONE, resume_forged(&port, 2, 0, 0), "a port that was just opened");
    want(SEZ_IS_OPEN, sez_resume(&port, recording, end, 64, &verdict), "an open handle");
    want(SEZ_DONE, sez_close(&port), "close");
    want(SEZ_DONE, resume_forged(&port, 2, UINT64_MAX - 1, 128), "the last number");
    want(SEZ_DONE, sez_close(&port), "close");
    want(SEZ_CHAPTER_FULL, resume_forged(&port, 2, UINT64_MAX, 128), "no number is left");
    want(SEZ_BAD_STATE, resume_forged(&port, 1, 3, 0), "rule one");
    must(verdict.verdict == SEZ_GOOD, "a good recording under rule one");
    want(SEZ_BAD_STATE, resume_forged(&port, 2, 3, 129), "a map of 129 ONUs");
    must(verdict.verdict == SEZ_GOOD, "a good recording with a map of 129 ONUs");
    want(SEZ_CLOSED, sez_close(&port), "the handle is still closed");
}

int main(int count, char **arguments) {
    sez_port port = SEZ_CLOSED_HANDLE, other = SEZ_CLOSED_HANDLE;
    sez_state_info state, state2;
    must(count == 2, "give a file");
    must(sez_open(&port, 16, 0, 7) == SEZ_DONE && sez_open(&other, 16, 0, 7) == SEZ_DONE, "open");
    for (uint16_t k = 0; k < 16; k++) {
        must(sez_admit(&port, k / 2, 1024 + k, 2560, 1000, 400000, 1 + k % 2) == SEZ_DONE, "admit");
        must(sez_admit(&other, k / 2, 1024 + k, 2560, 1000, 400000, 1 + k % 2) == SEZ_DONE, "admit");
    }
    serve(&port, &other);
    for (uint64_t k = 1; k <= 2; k++) {
        save(&port);
        want(SEZ_DONE, sez_resume(&port, recording, end, NUMBER, &verdict), "resume");
        must(verdict.verdict == SEZ_GOOD && verdict.maps == k * FRAMES, "verdict");
        must(sez_state(&port, &state) == SEZ_DONE && sez_state(&other, &state2) == SEZ_DONE, "state");
        must(state.chapter == k && state.kept == 0 && state.taken == state2.taken && state.next_frame == state2.next_frame, "the same state");
        serve(&port, &other);
    }
    save(&port);
    values();
    FILE *file = fopen(arguments[1], "wb");
    must(file != NULL && fwrite(recording, 1, end, file) == end && fclose(file) == 0, "write");
    printf("a port resumed twice makes the maps of one that was never closed\n");
    return sez_close(&other) == SEZ_DONE ? 0 : 1;
}
