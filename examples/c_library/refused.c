/* Each allocation of a short run is refused once: the call returns SEZ_OUT_OF_MEMORY and changes nothing, and the same
 * call again gives what it would have given. An audit is tried once more if memory was refused, so sez_audit and sez_resume do
 * without any one block of it; and sez_resume, which reads the recording again after its audit, without some blocks then. */
#include "sezhimow.h"

#include <stdio.h>
#include <stdlib.h>
#include <string.h>

void *__real_malloc(size_t size);
void *__real_realloc(void *old, size_t size);
void *__wrap_malloc(size_t size);
void *__wrap_realloc(void *old, size_t size);

static long left = -1;
static long asked = 0;
static long refused = 0;
static long spared = 0;
static long audited = 0;
static bool reading = false;

/* The blocks that the reading of a recording does without: of each map the flags of both classes, and of an opening with rows
 * the accounts and the carries. */
enum { MAPS = 21, OPENINGS = 1, UNREAD = 2 * MAPS + 2 * OPENINGS };

static bool refuses(void) {
    asked++;
    if (left < 0 || left-- != 0) return false;
    if (reading) spared++;
    return true;
}

void *__wrap_malloc(size_t size) { return refuses() ? NULL : __real_malloc(size); }
void *__wrap_realloc(void *old, size_t size) { return refuses() ? NULL : __real_realloc(old, size); }

static uint8_t text[400000];
static size_t end;

/* Makes a call, and makes it again if memory was refused. */
#define CALL(call)                                                      \
    do {                                                                \
        uint32_t told = (call);                                         \
        if (told == SEZ_OUT_OF_MEMORY) {                                \
            refused++;                                                  \
            if (reading) spared--;                                      \
            told = (call);                                              \
        }                                                               \
        if (told != SEZ_DONE) {                                         \
            printf("told %u by %s\n", (unsigned)told, #call);           \
            exit(1);                                                    \
        }                                                               \
    } while (0)

static void keep(const uint8_t *bytes, size_t size) {
    memcpy(text + end, bytes, size);
    end += size;
}

static void make_map(sez_port *port) {
    static uint8_t room[SEZ_MAP_ROOM];
    sez_map_info map;
    size_t size;
    CALL(sez_map(port, room, sizeof room, &map));
    keep(room, map.size);
    uint32_t occupancies[3] = {10 * (uint32_t)(map.frame % 20), 20, SEZ_GARBLED};
    CALL(sez_report(port, map.frame, 2, occupancies, 3));
    CALL(sez_certificate(port, room, sizeof room, &size));
    keep(room, size);
}

/* The port turns, is closed, and goes on from the recording of its chapter, which is audited. */
static void turn(sez_port *port) {
    static uint8_t room[100000];
    sez_verdict_info verdict;
    sez_chapter chapter = SEZ_CLOSED_HANDLE;
    size_t size;
    CALL(sez_turn(port, &chapter));
    CALL(sez_chapter_bytes(&chapter, 3, room, sizeof room, &size));
    keep(room, size);
    CALL(sez_chapter_close(&chapter));
    CALL(sez_close(port));
    reading = true;
    long before = asked;
    CALL(sez_audit(room, size, &verdict));
    audited += asked - before;
    keep(&verdict.verdict, 1);
    CALL(sez_resume(port, room, size, 3, &verdict));
    reading = false;
}

static void run(void) {
    sez_port port = SEZ_CLOSED_HANDLE;
    end = 0;
    CALL(sez_open(&port, 16, 0, 7));
    for (uint16_t k = 0; k < 20; k++)
        CALL(sez_admit(&port, k / 3, 1024 + k, 1024, 1024, 50000 + 100 * (uint64_t)k, 1 + k % 2));
    for (int k = 0; k < 20; k++) make_map(&port);
    CALL(sez_remove(&port, 1025));
    turn(&port);
    CALL(sez_fail(&port, 1));
    CALL(sez_restore(&port));
    make_map(&port);
    turn(&port);
    CALL(sez_close(&port));
}

int main(void) {
    static uint8_t wanted[sizeof text];
    run();
    size_t size = end;
    long count = asked, spares = 2 * audited + UNREAD;
    memcpy(wanted, text, end);
    for (long k = 0; k < count; k++) {
        left = k;
        run();
        left = -1;
        if (end != size || memcmp(wanted, text, end) != 0) {
            printf("another text once allocation %ld is refused\n", k);
            return 1;
        }
    }
    printf("%ld allocations refused in turn, %ld calls told so, %ld did without, the same %zu bytes each time\n", count, refused, spared, size);
    return refused + spared == count && spared == spares ? 0 : 1;
}
