/* The limits of the product, each return value that a caller can bring about, and what stays the same after it. */
#include "sezhimow.h"

#include <stdio.h>
#include <stdlib.h>
#include <string.h>

static int tried;

#define WANT(value, call)                                                                               \
    do {                                                                                                \
        uint32_t told = (call);                                                                         \
        tried++;                                                                                        \
        if (told != (value)) {                                                                          \
            printf("line %d: told %u, not %s, by %s\n", __LINE__, (unsigned)told, #value, #call);        \
            exit(1);                                                                                    \
        }                                                                                               \
    } while (0)

static uint8_t room[SEZ_MAP_ROOM];
static sez_map_info map;
static sez_state_info state;
static sez_row_info row;
static sez_why_info why;
static sez_levels_info levels;
static sez_verdict_info verdict;
static sez_header_info header;
static sez_map_head_info head;
static sez_structure_info rows[512];
static sez_grant_info grants[SEZ_MAX_GRANTS];
static sez_grants_info given;
static sez_decoded_info decoded;
static bool na[512], be[512];
static size_t size;

/* Every call but sez_open is refused at a closed handle. */
static void closed_handle(void) {
    sez_port port = SEZ_CLOSED_HANDLE;
    sez_chapter chapter = SEZ_CLOSED_HANDLE;
    uint32_t words[1] = {1};
    WANT(SEZ_CLOSED, sez_close(&port));
    WANT(SEZ_CLOSED, sez_admit(&port, 1, 1024, 256, 0, 256, SEZ_CLASS_NONE));
    WANT(SEZ_CLOSED, sez_change(&port, 1024, 256, 0, 256, SEZ_CLASS_NONE));
    WANT(SEZ_CLOSED, sez_remove(&port, 1024));
    WANT(SEZ_CLOSED, sez_report(&port, 0, 1, words, 1));
    WANT(SEZ_CLOSED, sez_fail(&port, 1));
    WANT(SEZ_CLOSED, sez_restore(&port));
    WANT(SEZ_CLOSED, sez_map(&port, room, sizeof room, &map));
    WANT(SEZ_CLOSED, sez_map_grants(&port, grants, SEZ_MAX_GRANTS, &given));
    WANT(SEZ_CLOSED, sez_certificate(&port, room, sizeof room, &size));
    WANT(SEZ_CLOSED, sez_levels(&port, na, 512, be, 512, &levels));
    WANT(SEZ_CLOSED, sez_state(&port, &state));
    WANT(SEZ_CLOSED, sez_why(&port, 1024, &why));
    WANT(SEZ_CLOSED, sez_row(&port, 0, &row));
    WANT(SEZ_CLOSED, sez_find(&port, 1024, &row));
    WANT(SEZ_CLOSED, sez_turn(&port, &chapter));
    WANT(SEZ_CLOSED, sez_chapter_bytes(&chapter, 0, room, sizeof room, &size));
    WANT(SEZ_CLOSED, sez_chapter_close(&chapter));
}

static void opening(void) {
    sez_port port = SEZ_CLOSED_HANDLE;
    WANT(SEZ_BAD_GAP, sez_open(&port, 0, 0, 0));
    WANT(SEZ_BAD_GAP, sez_open(&port, 257, 4, 0));
    WANT(SEZ_BAD_PROFILE, sez_open(&port, 256, 4, 0));
    WANT(SEZ_DONE, sez_open(&port, 256, 3, UINT64_MAX));
    WANT(SEZ_IS_OPEN, sez_open(&port, 0, 0, 0));
    WANT(SEZ_DONE, sez_state(&port, &state));
    if (state.next_frame != UINT64_MAX) exit(1);
    WANT(SEZ_FRAME_LIMIT, sez_map(&port, room, sizeof room, &map));
    WANT(SEZ_FRAME_LIMIT, sez_map_grants(&port, grants, SEZ_MAX_GRANTS, &given));
    WANT(SEZ_DONE, sez_close(&port));
    WANT(SEZ_CLOSED, sez_close(&port));
}

static void arguments(void) {
    sez_port port = SEZ_CLOSED_HANDLE;
    uint32_t words[17] = {0};
    WANT(SEZ_DONE, sez_open(&port, 1, 0, 5));
    WANT(SEZ_ALLOC_RANGE, sez_admit(&port, 1023, 1023, UINT64_MAX, 0, 0, 3));
    WANT(SEZ_ALLOC_RANGE, sez_admit(&port, 0, 16384, 0, 0, 0, 0));
    WANT(SEZ_ONU_RANGE, sez_admit(&port, 1023, 1024, UINT64_MAX, 0, 0, 3));
    WANT(SEZ_BAD_CLASS, sez_admit(&port, 1022, 1024, UINT64_MAX, 0, 0, 3));
    WANT(SEZ_RATE_RANGE, sez_admit(&port, 1022, 1024, UINT64_MAX, UINT64_MAX, 0, 2));
    WANT(SEZ_MAX_BELOW_GUARANTEED, sez_admit(&port, 1022, 1024, 2, 1, 2, 2));
    WANT(SEZ_NEEDS_GUARANTEE, sez_admit(&port, 1022, 1024, 0, 0, 2, SEZ_CLASS_NON_ASSURED));
    WANT(SEZ_NO_SURPLUS_ROOM, sez_admit(&port, 1022, 1024, 1, 1, 2, SEZ_CLASS_BEST_EFFORT));
    WANT(SEZ_DONE, sez_admit(&port, 1022, 1024, 1, 1, 3, SEZ_CLASS_BEST_EFFORT));
    WANT(SEZ_ALLOC_TAKEN, sez_admit(&port, 0, 1024, 1, 1, 3, SEZ_CLASS_BEST_EFFORT));
    WANT(SEZ_CAPACITY, sez_admit(&port, 0, 1025, 2488320, 0, 2488320, SEZ_CLASS_NONE));
    WANT(SEZ_NO_SUCH_ALLOC, sez_change(&port, 1025, 1, 1, 3, SEZ_CLASS_BEST_EFFORT));
    WANT(SEZ_BAD_CLASS, sez_change(&port, 1024, 1, 1, 3, 255));
    WANT(SEZ_NO_SUCH_ALLOC, sez_remove(&port, 1025));
    WANT(SEZ_ALLOC_RANGE, sez_remove(&port, 0));
    WANT(SEZ_PORT_UP, sez_restore(&port));
    WANT(SEZ_BAD_CAUSE, sez_fail(&port, 0));
    WANT(SEZ_BAD_CAUSE, sez_fail(&port, 10));
    WANT(SEZ_NO_MAP, sez_certificate(&port, room, sizeof room, &size));
    WANT(SEZ_NO_ROOM, sez_map(&port, room, SEZ_MAP_ROOM - 1, &map));
    WANT(SEZ_STALE_FRAME, sez_report(&port, 5, 1022, words, 1));
    WANT(SEZ_DONE, sez_map(&port, room, sizeof room, &map));
    if (map.frame != 5 || map.size != 12) exit(1);
    WANT(SEZ_ONU_RANGE, sez_report(&port, 5, 1023, words, 17));
    WANT(SEZ_BAD_COUNT, sez_report(&port, 5, 1022, words, 17));
    words[0] = 16777216;
    WANT(SEZ_BAD_OCCUPANCY, sez_report(&port, 5, 1022, words, 1));
    WANT(SEZ_NOT_POLLED, sez_report(&port, 5, 3, words + 1, 1));
    WANT(SEZ_REPORT_COUNT, sez_report(&port, 5, 1022, words + 1, 2));
    words[0] = 16777215;
    WANT(SEZ_DONE, sez_report(&port, 5, 1022, words, 1));
    WANT(SEZ_ALREADY_REPORTED, sez_report(&port, 5, 1022, words, 1));
    WANT(SEZ_DONE, sez_find(&port, 1024, &row));
    if (row.onu != 1022 || row.report_words != 16777215 || !row.has_report || row.report_frame != 5) exit(1);
    if (row.load != 256ull * 16777215 || row.class_ != SEZ_CLASS_BEST_EFFORT || row.max != 3) exit(1);
    WANT(SEZ_NO_SUCH_ALLOC, sez_find(&port, 1025, &row));
    WANT(SEZ_ALLOC_RANGE, sez_find(&port, 1, &row));
    WANT(SEZ_NO_ROOM, sez_certificate(&port, room, 1, &size));
    size_t needed = size;
    WANT(SEZ_DONE, sez_certificate(&port, room, needed, &size));
    if (size != needed) exit(1);
    WANT(SEZ_DONE, sez_fail(&port, 9));
    WANT(SEZ_PORT_DOWN, sez_map(&port, room, sizeof room, &map));
    WANT(SEZ_PORT_DOWN, sez_map_grants(&port, grants, SEZ_MAX_GRANTS, &given));
    WANT(SEZ_DONE, sez_state(&port, &state));
    if (state.cause != 9 || state.alloc_ids != 1 || state.onus != 1 || state.guaranteed != 2 || state.next_frame != 6) exit(1);
    WANT(SEZ_DONE, sez_restore(&port));
    WANT(SEZ_DONE, sez_close(&port));
}

static void must(bool holds, const char *what) {
    tried++;
    if (holds) return;
    printf("not so: %s\n", what);
    exit(1);
}

/* Two Alloc-IDs share what is left, and the certificate of that map is checked. */
static void shares(void) {
    sez_port port = SEZ_CLOSED_HANDLE;
    WANT(SEZ_DONE, sez_open(&port, 16, 0, 0));
    WANT(SEZ_DONE, sez_admit(&port, 1, 1024, 2560, 0, 2488320, SEZ_CLASS_NON_ASSURED));
    WANT(SEZ_DONE, sez_admit(&port, 2, 1025, 0, 0, 2488320, SEZ_CLASS_BEST_EFFORT));
    WANT(SEZ_NO_MAP, sez_why(&port, 1024, &why));
    WANT(SEZ_NO_MAP, sez_levels(&port, na, 512, be, 512, &levels));
    WANT(SEZ_ALLOC_RANGE, sez_why(&port, 1, &why));
    WANT(SEZ_DONE, sez_map(&port, room, sizeof room, &map));
    uint32_t waiting = 16777215;
    WANT(SEZ_DONE, sez_report(&port, 0, 1, &waiting, 1));
    WANT(SEZ_DONE, sez_map(&port, room, sizeof room, &map));
    WANT(SEZ_NO_SUCH_ALLOC, sez_why(&port, 1026, &why));
    WANT(SEZ_DONE, sez_why(&port, 1024, &why));
    must(why.frame == 1 && why.onu == 1 && why.alloc_id == 1024 && why.class_ == SEZ_CLASS_NON_ASSURED, "why: the row");
    must(why.guaranteed == 2560 && why.has_report && why.report_words > 16777000 && why.load == 256ull * why.report_words, "why: the load");
    must(why.owed == why.carry + why.guaranteed + why.surplus_num / why.surplus_den, "why: what is owed");
    WANT(SEZ_NO_ROOM, sez_levels(&port, na, 0, be, 512, &levels));
    WANT(SEZ_NO_ROOM, sez_levels(&port, na, 512, be, 0, &levels));
    WANT(SEZ_DONE, sez_levels(&port, na, levels.na_count, be, levels.be_count, &levels));
    must(levels.na_count == 1 && levels.be_count == 1 && be[0] && levels.be_level == SEZ_LEVEL_ALL, "levels");

    sez_item_info item = {why.weight, why.cap};
    WANT(SEZ_DONE, sez_state(&port, &state));
    uint64_t surplus = state.capacity - why.guaranteed;
    WANT(SEZ_DONE, sez_check_class(&item, 1, surplus, why.level, why.level_num, why.level_den, na, 1, &size));
    WANT(SEZ_CERT_LENGTH, sez_check_class(&item, 1, surplus, why.level, why.level_num, why.level_den, na, 0, &size));
    WANT(SEZ_BAD_LEVEL, sez_check_class(&item, 1, surplus, SEZ_LEVEL_NONE, 1, 1, na, 1, &size));
    WANT(SEZ_BAD_LEVEL, sez_check_class(&item, 1, surplus, SEZ_LEVEL_FRACTION, 1, 0, na, 1, &size));
    WANT(SEZ_BAD_PROBLEM, sez_check_class(&item, 1, 2488321, SEZ_LEVEL_ALL, 0, 0, na, 1, &size));
    bool flag = true;
    sez_item_info small = {1, 5};
    WANT(SEZ_DONE, sez_check_class(&small, 1, 5, SEZ_LEVEL_ALL, 0, 0, &flag, 1, &size));
    WANT(SEZ_CERT_OVERSPENT, sez_check_class(&small, 1, 4, SEZ_LEVEL_ALL, 0, 0, &flag, 1, &size));
    flag = false;
    WANT(SEZ_CERT_UNSATURATED, sez_check_class(&small, 1, 5, SEZ_LEVEL_ALL, 0, 0, &flag, 1, &size));
    WANT(SEZ_DONE, sez_check_class(&small, 1, 4, SEZ_LEVEL_FRACTION, 4, 1, &flag, 1, &size));
    WANT(SEZ_CERT_DENOMINATOR, sez_check_class(&small, 1, 4, SEZ_LEVEL_FRACTION, 8, 2, &flag, 1, &size));
    WANT(SEZ_CERT_NOT_EXHAUSTED, sez_check_class(&small, 1, 4, SEZ_LEVEL_FRACTION, 3, 1, &flag, 1, &size));
    sez_item_info two[2] = {{1, 9}, {1, 9}};
    bool flags[2] = {false, true};
    WANT(SEZ_CERT_SATURATED, sez_check_class(two, 2, 8, SEZ_LEVEL_FRACTION, 4, 1, flags, 2, &size));
    must(size == 1, "the place of a fault");

    WANT(SEZ_DONE, sez_map_head_open(room, map.size, &head));
    must(head.structures == 2 && head.messages == 0 && head.corrected == 0, "the head of a map");
    WANT(SEZ_DONE, sez_map_decode(room, map.size, rows, 512, &decoded));
    must(decoded.count == 2 && decoded.size == map.size && decoded.corrected == 0, "decode");
    must(rows[0].alloc_id == 1024 && rows[0].start == why.start && rows[0].grant == why.grant && rows[0].dbru, "decode: a row");
    room[5] ^= 1;
    WANT(SEZ_DONE, sez_map_decode(room, map.size, rows, 2, &decoded));
    must(decoded.corrected == 1 && rows[0].alloc_id == 1024, "a corrected bit");
    WANT(SEZ_NO_ROOM, sez_map_decode(room, map.size, rows, 1, &decoded));
    WANT(SEZ_SHORT, sez_map_decode(room, map.size - 1, rows, 2, &decoded));
    room[12] ^= 7;
    WANT(SEZ_BAD_CODE, sez_map_decode(room, map.size, rows, 2, &decoded));
    must(decoded.count == 1, "the place of a fault in a map");
    WANT(SEZ_DONE, sez_close(&port));
}

static void headers_and_reports(void) {
    uint8_t bytes[5] = {9, 9, 9, 9, 9};
    uint32_t words;
    WANT(SEZ_BAD_HEADER, sez_header_seal(1024, 0, bytes, 0));
    WANT(SEZ_BAD_HEADER, sez_header_seal(0, 512, bytes, 4));
    WANT(SEZ_NO_ROOM, sez_header_seal(1023, 511, bytes, 3));
    WANT(SEZ_DONE, sez_header_seal(1022, 257, bytes, 5));
    must(bytes[4] == 9, "the rest of the room");
    bytes[0] ^= 0x42;
    WANT(SEZ_DONE, sez_header_open(bytes, 5, &header));
    must(header.onu == 1022 && header.indications == 257 && header.corrected == 2, "header");
    bytes[1] ^= 0x15;
    WANT(SEZ_BAD_CODE, sez_header_open(bytes, 4, &header));
    WANT(SEZ_SHORT, sez_header_open(bytes, 3, &header));
    WANT(SEZ_BAD_HEADER, sez_map_head_seal(2048, 0, bytes, 0));
    WANT(SEZ_NO_ROOM, sez_map_head_seal(2047, 255, bytes, 3));
    WANT(SEZ_DONE, sez_map_head_seal(2047, 254, bytes, 5));
    must(bytes[4] == 9, "the rest of the room");
    bytes[0] ^= 0x42;
    WANT(SEZ_DONE, sez_map_head_open(bytes, 5, &head));
    must(head.structures == 2047 && head.messages == 254 && head.corrected == 2, "head");
    bytes[1] ^= 0x15;
    WANT(SEZ_BAD_CODE, sez_map_head_open(bytes, 4, &head));
    WANT(SEZ_SHORT, sez_map_head_open(bytes, 3, &head));
    WANT(SEZ_BAD_OCCUPANCY, sez_report_seal(16777216, bytes, 4));
    WANT(SEZ_NO_ROOM, sez_report_seal(16777215, bytes, 3));
    WANT(SEZ_DONE, sez_report_seal(16777215, bytes, 4));
    WANT(SEZ_DONE, sez_report_open(bytes, 4, &words));
    must(words == 16777215, "report");
    bytes[3] ^= 1;
    WANT(SEZ_BAD_REPORT, sez_report_open(bytes, 4, &words));
    WANT(SEZ_SHORT, sez_report_open(bytes, 0, &words));
}

/* Closes a port, and resumes it from its chapter. */
static void resume(sez_port *port) {
    static uint8_t bytes[60000];
    sez_chapter chapter = SEZ_CLOSED_HANDLE;
    WANT(SEZ_DONE, sez_turn(port, &chapter));
    WANT(SEZ_DONE, sez_chapter_bytes(&chapter, 63, bytes, sizeof bytes, &size));
    WANT(SEZ_DONE, sez_chapter_close(&chapter));
    WANT(SEZ_IS_OPEN, sez_resume(port, bytes, size, 63, &verdict));
    WANT(SEZ_DONE, sez_close(port));
    WANT(SEZ_BAD_PORT, sez_resume(port, bytes, size, 64, &verdict));
    WANT(SEZ_NO_CHAPTER, sez_resume(port, bytes, size, 0, &verdict));
    WANT(SEZ_DONE, sez_resume(port, bytes, size, 63, &verdict));
    must(verdict.verdict == SEZ_GOOD && verdict.maps == 1, "the verdict");
}

/* 512 Alloc-IDs, 16 of an ONU, 128 ONUs. */
static void most(void) {
    sez_port port = SEZ_CLOSED_HANDLE;
    WANT(SEZ_DONE, sez_open(&port, 1, 0, 0));
    for (uint16_t k = 0; k < 16; k++) WANT(SEZ_DONE, sez_admit(&port, 0, 1024 + k, 0, 0, 9999, SEZ_CLASS_BEST_EFFORT));
    WANT(SEZ_SERIES_FULL, sez_admit(&port, 0, 1040, 0, 0, 9999, SEZ_CLASS_BEST_EFFORT));
    for (uint16_t k = 1; k < 128; k++) WANT(SEZ_DONE, sez_admit(&port, k, 1040 + k, 0, 0, 9999, SEZ_CLASS_BEST_EFFORT));
    WANT(SEZ_TOO_MANY_ONUS, sez_admit(&port, 128, 2000, 0, 0, 9999, SEZ_CLASS_BEST_EFFORT));
    for (uint16_t k = 143; k < 512; k++)
        WANT(SEZ_DONE, sez_admit(&port, 1 + k % 100, 1100 + k, 0, 0, 9999, SEZ_CLASS_BEST_EFFORT));
    WANT(SEZ_TOO_MANY_ALLOCS, sez_admit(&port, 0, 3000, 0, 0, 9999, SEZ_CLASS_BEST_EFFORT));
    WANT(SEZ_DONE, sez_map(&port, room, sizeof room, &map));
    if (map.size != SEZ_MAP_ROOM) exit(1);
    resume(&port);
    WANT(SEZ_DONE, sez_map(&port, room, sizeof room, &map));
    must(map.size == SEZ_MAP_ROOM && map.frame == 1, "the next map");
    WANT(SEZ_NO_ROOM, sez_map_grants(&port, grants, SEZ_MAX_GRANTS - 1, &given));
    WANT(SEZ_DONE, sez_map_grants(&port, grants, SEZ_MAX_GRANTS, &given));
    must(given.frame == 2 && given.count == 512 && grants[0].start == 1 && grants[15].start == SEZ_NO_START, "grants");
    WANT(SEZ_DONE, sez_map(&port, room, sizeof room, &map));
    WANT(SEZ_DONE, sez_map_decode(room, map.size, rows, 512, &decoded));
    for (size_t k = 0; k < 512; k++) {
        must(grants[k].alloc_id == rows[k].alloc_id && grants[k].start == rows[k].start && grants[k].words == rows[k].grant, "the grants of the bytes");
        must(rows[k].dbru && !rows[k].ploam && !rows[k].fwi && rows[k].profile == 0, "the rest of a structure");
    }
    WANT(SEZ_DONE, sez_row(&port, 511, &row));
    if (row.onu != 127) exit(1);
    WANT(SEZ_NO_ROW, sez_row(&port, 512, &row));
    WANT(SEZ_DONE, sez_close(&port));
}

/* A chapter of 65,536 events is full: the port turns. */
static void full_chapter(void) {
    sez_port port = SEZ_CLOSED_HANDLE;
    sez_chapter chapter = SEZ_CLOSED_HANDLE;
    WANT(SEZ_DONE, sez_open(&port, 16, 0, 0));
    WANT(SEZ_DONE, sez_admit(&port, 5, 1024, 2560, 0, 2560, SEZ_CLASS_NONE));
    for (int k = 1; k < 65536; k++) WANT(SEZ_DONE, sez_map(&port, room, sizeof room, &map));
    WANT(SEZ_CHAPTER_FULL, sez_map(&port, room, sizeof room, &map));
    WANT(SEZ_CHAPTER_FULL, sez_map_grants(&port, grants, SEZ_MAX_GRANTS, &given));
    WANT(SEZ_DONE, sez_turn(&port, &chapter));
    WANT(SEZ_IS_OPEN, sez_turn(&port, &chapter));
    WANT(SEZ_DONE, sez_map(&port, room, sizeof room, &map));
    if (map.frame != 65535) exit(1);
    WANT(SEZ_DONE, sez_state(&port, &state));
    if (state.chapter != 1 || state.kept != 1 || state.taken != 65537) exit(1);
    WANT(SEZ_BAD_PORT, sez_chapter_bytes(&chapter, 64, room, sizeof room, &size));
    WANT(SEZ_NO_ROOM, sez_chapter_bytes(&chapter, 63, room, sizeof room, &size));
    uint8_t *bytes = (uint8_t *)malloc(size);
    size_t written = 0;
    if (bytes == NULL) exit(1);
    WANT(SEZ_NO_ROOM, sez_chapter_bytes(&chapter, 63, bytes, size - 1, &written));
    WANT(SEZ_DONE, sez_chapter_bytes(&chapter, 63, bytes, size, &written));
    if (written != size || memcmp(bytes, "PONREC02", 8) != 0) exit(1);
    WANT(SEZ_DONE, sez_audit(bytes, size, &verdict));
    must(verdict.verdict == SEZ_GOOD && verdict.maps == 65535, "a good recording");
    WANT(SEZ_DONE, sez_audit(bytes, size - 1, &verdict));
    must(verdict.verdict == SEZ_TRUNCATED && verdict.place == SEZ_MAGIC_BYTES, "a cut recording");
    bytes[0] ^= 1;
    WANT(SEZ_DONE, sez_audit(bytes, size, &verdict));
    must(verdict.verdict == SEZ_MALFORMED && verdict.place == 0, "another file");
    bytes[0] ^= 1;
    bytes[size / 2] ^= 1;
    WANT(SEZ_DONE, sez_audit(bytes, size, &verdict));
    must(verdict.verdict != SEZ_GOOD, "a changed recording");
    free(bytes);
    WANT(SEZ_DONE, sez_chapter_close(&chapter));
    WANT(SEZ_DONE, sez_close(&port));
}

int main(void) {
    closed_handle();
    opening();
    arguments();
    shares();
    headers_and_reports();
    most();
    full_chapter();
    printf("%d calls at the limits tell what they should\n", tried);
    return 0;
}
