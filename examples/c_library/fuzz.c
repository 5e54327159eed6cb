/* A byte script of calls: each byte picks a call, and those after it its arguments. For libFuzzer (LLVMFuzzerTestOneInput),
 * or as a program that runs the scripts in the files that it is given. After each refusal the state must be as it was; at
 * the end the recording of what was kept must be good, and a port that goes on from it must be as the port was. */
#include "sezhimow.h"

#include <stdio.h>
#include <stdlib.h>
#include <string.h>

int LLVMFuzzerTestOneInput(const uint8_t *data, size_t size);

static const uint8_t *script;
static size_t left;

static uint64_t take(size_t bytes) {
    uint64_t number = 0;
    for (; bytes > 0 && left > 0; bytes--, left--) number = number << 8 | *script++;
    return number;
}

static void must(bool holds) {
    if (!holds) abort();
}

/* A rate: mostly one that fits the line. */
static uint64_t rate(void) {
    uint64_t first = take(1);
    return first < 250 ? first * 5000 + take(1) : take(8);
}

static uint16_t alloc_id(void) { return (uint16_t)(take(1) == 255 ? take(2) : 1024 + take(1) % 40); }

static uint16_t onu(void) { return (uint16_t)(take(1) == 255 ? take(2) : take(1) % 12); }

static uint32_t report(sez_port *port, uint64_t next) {
    uint32_t words[20];
    size_t count = take(1) % 20;
    for (size_t k = 0; k < count; k++) {
        uint64_t first = take(1);
        words[k] = first == 255 ? (uint32_t)take(4) : first == 254 ? SEZ_GARBLED : (uint32_t)(first * 16);
    }
    uint64_t frame = take(1) == 255 ? take(8) : next - 1 - take(1) % 70;
    return sez_report(port, frame, onu(), words, count);
}

static uint32_t make_map(sez_port *port, uint64_t next) {
    static uint8_t room[SEZ_MAP_ROOM + 1];
    static sez_structure_info rows[512];
    sez_decoded_info decoded;
    sez_map_info map;
    size_t short_of = take(1) == 255;
    room[SEZ_MAP_ROOM] = 77;
    uint32_t told = sez_map(port, room, SEZ_MAP_ROOM - short_of, &map);
    must(room[SEZ_MAP_ROOM] == 77);
    if (told == SEZ_DONE) {
        must(map.frame == next && sez_map_decode(room, map.size, rows, 512, &decoded) == SEZ_DONE);
        must(decoded.size == map.size && decoded.corrected == 0);
    }
    return told;
}

static uint32_t make_grants(sez_port *port, const sez_state_info *state) {
    static sez_grant_info grants[SEZ_MAX_GRANTS + 1];
    sez_grants_info info;
    size_t short_of = take(1) == 255;
    grants[SEZ_MAX_GRANTS].words = 77;
    uint32_t told = sez_map_grants(port, grants, SEZ_MAX_GRANTS - short_of, &info);
    must(grants[SEZ_MAX_GRANTS].words == 77);
    if (told == SEZ_DONE) must(info.frame == state->next_frame && info.count == state->alloc_ids);
    if (told == SEZ_DONE && info.count > 0) must(grants[0].start != SEZ_NO_START && grants[info.count - 1].words > 0);
    return told;
}

static void look(sez_port *port, size_t alloc_ids) {
    static uint8_t room[2000];
    static bool na[512], be[512];
    sez_row_info row;
    sez_why_info why;
    sez_levels_info levels;
    size_t size = 0;
    must(sez_row(port, alloc_ids, &row) == SEZ_NO_ROW);
    if (alloc_ids > 0) must(sez_row(port, take(1) % alloc_ids, &row) == SEZ_DONE && sez_find(port, row.alloc_id, &row) == SEZ_DONE);
    uint32_t told = sez_why(port, alloc_id(), &why);
    must(told == SEZ_DONE || told == SEZ_NO_MAP || told == SEZ_NO_SUCH_ALLOC || told == SEZ_ALLOC_RANGE);
    told = sez_levels(port, na, 512, be, 512, &levels);
    must(told == SEZ_DONE || told == SEZ_NO_MAP);
    uint32_t again = sez_certificate(port, room, take(2) % sizeof room, &size);
    must(again == SEZ_DONE || again == SEZ_NO_ROOM || (again == SEZ_NO_MAP && told == SEZ_NO_MAP));
}

/* Goes on from a recording, in place of the port that it is of. */
static void resume(sez_port *port, const uint8_t *bytes, size_t size) {
    sez_port resumed = SEZ_CLOSED_HANDLE;
    sez_state_info before, after;
    sez_verdict_info verdict;
    must(sez_resume(&resumed, bytes, size, 3, &verdict) == SEZ_DONE && verdict.verdict == SEZ_GOOD);
    must(sez_state(port, &before) == SEZ_DONE && sez_state(&resumed, &after) == SEZ_DONE);
    must(memcmp(&before, &after, offsetof(sez_state_info, cause) + 1) == 0);
    for (size_t place = 0; place < before.alloc_ids; place++) {
        sez_row_info row, same;
        must(sez_row(port, place, &row) == SEZ_DONE && sez_row(&resumed, place, &same) == SEZ_DONE);
        must(memcmp(&row, &same, offsetof(sez_row_info, has_report) + 1) == 0);
    }
    must(sez_close(port) == SEZ_DONE);
    *port = resumed;
}

/* Bytes that may be no recording have a verdict, and only a good one opens a port, which makes a map unless it is failed. */
static void resume_if_good(const uint8_t *bytes, size_t size, uint8_t number) {
    static uint8_t room[SEZ_MAP_ROOM];
    sez_port port = SEZ_CLOSED_HANDLE;
    sez_map_info map;
    sez_verdict_info verdict, again;
    must(sez_audit(bytes, size, &verdict) == SEZ_DONE);
    uint32_t told = sez_resume(&port, bytes, size, number, &again);
    if (number > 63) must(told == SEZ_BAD_PORT);
    else must((told == SEZ_NOT_GOOD) == (verdict.verdict != SEZ_GOOD) && again.verdict == verdict.verdict && again.place == verdict.place);
    if (told == SEZ_DONE) {
        told = sez_map(&port, room, sizeof room, &map);
        must(told == SEZ_DONE || told == SEZ_PORT_DOWN || told == SEZ_FRAME_LIMIT);
    }
    (void)sez_close(&port);
}

static void finish(sez_port *port, sez_chapter *chapter) {
    sez_verdict_info verdict;
    size_t size = 0;
    uint8_t none[1];
    must(sez_chapter_bytes(chapter, 3, none, 0, &size) == SEZ_NO_ROOM);
    uint8_t *bytes = (uint8_t *)malloc(size);
    must(bytes != NULL && sez_chapter_bytes(chapter, 3, bytes, size, &size) == SEZ_DONE);
    must(sez_audit(bytes, size, &verdict) == SEZ_DONE && verdict.verdict == SEZ_GOOD);
    resume(port, bytes, size);
    /* A changed byte has some verdict. */
    if (size > 0) bytes[take(2) % size] ^= (uint8_t)take(1);
    resume_if_good(bytes, size - take(1) % size, (uint8_t)(take(1) == 255 ? take(1) : 3));
    free(bytes);
    must(sez_chapter_close(chapter) == SEZ_DONE);
}

static void codecs(void) {
    sez_structure_info rows[4];
    sez_decoded_info decoded;
    sez_header_info header;
    sez_map_head_info head;
    sez_item_info items[4];
    bool flags[4];
    uint32_t words;
    uint8_t bytes[4];
    size_t count = left < 60 ? left : 60, place;
    (void)sez_map_decode(script, count, rows, 4, &decoded);
    resume_if_good(script, count, 3);
    if (sez_header_open(script, count, &header) == SEZ_DONE) {
        must(sez_header_seal(header.onu, header.indications, bytes, 4) == SEZ_DONE);
        must((memcmp(bytes, script, 4) == 0) == (header.corrected == 0));
    }
    if (sez_map_head_open(script, count, &head) == SEZ_DONE) {
        must(sez_map_head_seal(head.structures, head.messages, bytes, 4) == SEZ_DONE);
        must((memcmp(bytes, script, 4) == 0) == (head.corrected == 0));
    }
    if (sez_report_open(script, count, &words) == SEZ_DONE)
        must(sez_report_seal(words, bytes, 4) == SEZ_DONE && memcmp(bytes, script, 4) == 0);
    for (size_t k = 0; k < 4; k++) {
        items[k].weight = take(2);
        items[k].cap = rate();
        flags[k] = take(1) & 1;
    }
    (void)sez_check_class(items, take(1) % 5, rate(), (uint8_t)take(1), take(4), take(2), flags, take(1) % 5, &place);
}

static uint32_t step(sez_port *port, const sez_state_info *state) {
    switch (take(1) % 16) {
    case 0: case 1: case 2: return sez_admit(port, onu(), alloc_id(), rate(), rate(), rate(), (uint8_t)(take(1) % 4));
    case 3: return sez_change(port, alloc_id(), rate(), rate(), rate(), (uint8_t)(take(1) % 4));
    case 4: return sez_remove(port, alloc_id());
    case 5: return sez_fail(port, (uint8_t)(take(1) % 11));
    case 6: case 7: return sez_restore(port);
    case 8: case 9: case 10: return report(port, state->next_frame);
    case 11: look(port, state->alloc_ids); return SEZ_NO_ROW;
    case 12: codecs(); return SEZ_NO_ROW;
    case 13: return make_grants(port, state);
    default: return make_map(port, state->next_frame);
    }
}

int LLVMFuzzerTestOneInput(const uint8_t *data, size_t size) {
    sez_port port = SEZ_CLOSED_HANDLE;
    sez_chapter chapter = SEZ_CLOSED_HANDLE;
    sez_state_info before, after;
    script = data;
    left = size;
    uint16_t gap = (uint16_t)(take(1) == 255 ? take(2) : 16);
    uint8_t profile = (uint8_t)(take(1) % 5);
    uint64_t first = take(1) == 255 ? take(8) : 100;
    uint32_t told = sez_open(&port, gap, profile, first);
    must((told == SEZ_DONE) == (gap >= 1 && gap <= 256 && profile <= 3));
    if (told != SEZ_DONE) {
        must(sez_state(&port, &before) == SEZ_CLOSED && sez_close(&port) == SEZ_CLOSED);
        return 0;
    }
    for (int steps = 0; left > 0 && steps < 400; steps++) {
        must(sez_state(&port, &before) == SEZ_DONE);
        told = step(&port, &before);
        must(sez_state(&port, &after) == SEZ_DONE);
        if (told == SEZ_DONE) must(after.taken == before.taken + 1);
        else must(memcmp(&before, &after, offsetof(sez_state_info, cause) + 1) == 0);
        if (told == SEZ_DONE && take(1) == 250) {
            must(sez_turn(&port, &chapter) == SEZ_DONE && sez_turn(&port, &chapter) == SEZ_IS_OPEN);
            finish(&port, &chapter);
        }
    }
    must(sez_turn(&port, &chapter) == SEZ_DONE);
    finish(&port, &chapter);
    must(sez_close(&port) == SEZ_DONE);
    return 0;
}

#ifndef SEZ_FUZZER
int main(int count, char **names) {
    static uint8_t data[1 << 16];
    for (int k = 1; k < count; k++) {
        FILE *file = fopen(names[k], "rb");
        if (file == NULL) return 2;
        size_t size = fread(data, 1, sizeof data, file);
        fclose(file);
        LLVMFuzzerTestOneInput(data, size);
    }
    printf("%d scripts of calls run as they should\n", count - 1);
    return 0;
}
#endif
