/* 64 ports on 64 threads, with no lock: each makes the maps that the first one makes. A chapter of each goes to another
 * thread, which writes it. */
#include "sezhimow.h"

#include <pthread.h>
#include <stdio.h>
#include <stdlib.h>
#include <string.h>

#define PORTS 64
#define FRAMES 200

typedef struct one {
    uint8_t maps[FRAMES * 300];
    size_t size;
    sez_chapter chapter;
    uint8_t *bytes;
    size_t byte_count;
    bool failed;
} one;

static void *make(void *argument) {
    static const uint32_t words[4] = {100, 20, SEZ_GARBLED, 7};
    one *own = (one *)argument;
    uint8_t room[SEZ_MAP_ROOM];
    sez_port port = SEZ_CLOSED_HANDLE;
    sez_map_info map;
    bool done = sez_open(&port, 16, 0, 0) == SEZ_DONE;
    for (uint16_t k = 0; k < 32; k++) done = done && sez_admit(&port, k / 4, 1024 + k, 1024, 0, 90000, 2) == SEZ_DONE;
    for (int frame = 0; frame < FRAMES && done; frame++) {
        done = sez_map(&port, room, sizeof room, &map) == SEZ_DONE;
        memcpy(own->maps + own->size, room, map.size);
        own->size += map.size;
        done = done && sez_report(&port, map.frame, 3, words, 4) == SEZ_DONE;
    }
    done = done && sez_turn(&port, &own->chapter) == SEZ_DONE;
    own->failed = !done || sez_close(&port) != SEZ_DONE;
    return NULL;
}

static void *record(void *argument) {
    one *own = (one *)argument;
    uint8_t none[1];
    bool done = sez_chapter_bytes(&own->chapter, 0, none, 0, &own->byte_count) == SEZ_NO_ROOM;
    own->bytes = (uint8_t *)malloc(own->byte_count);
    done = done && own->bytes != NULL;
    done = done && sez_chapter_bytes(&own->chapter, 0, own->bytes, own->byte_count, &own->byte_count) == SEZ_DONE;
    own->failed = own->failed || !done || sez_chapter_close(&own->chapter) != SEZ_DONE;
    return NULL;
}

static bool on_threads(one *all, void *(*what)(void *)) {
    pthread_t threads[PORTS];
    for (int k = 0; k < PORTS; k++)
        if (pthread_create(&threads[k], NULL, what, &all[k]) != 0) return false;
    for (int k = 0; k < PORTS; k++)
        if (pthread_join(threads[k], NULL) != 0) return false;
    return true;
}

int main(void) {
    one *all = (one *)calloc(PORTS, sizeof *all);
    if (all == NULL || !on_threads(all, make) || !on_threads(all, record)) return 2;
    for (int k = 0; k < PORTS; k++) {
        bool same = !all[k].failed && all[k].size == all[0].size && memcmp(all[k].maps, all[0].maps, all[0].size) == 0;
        same = same && all[k].byte_count == all[0].byte_count && memcmp(all[k].bytes, all[0].bytes, all[0].byte_count) == 0;
        if (!same) {
            printf("port %d differs\n", k);
            return 1;
        }
    }
    printf("%d ports on %d threads: the same %zu bytes of maps, and %zu of a recording\n", PORTS, PORTS, all[0].size,
           all[0].byte_count);
    for (int k = 0; k < PORTS; k++) free(all[k].bytes);
    free(all);
    return 0;
}
