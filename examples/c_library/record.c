/* Records 2,000 frames of a port in four chapters, each in a file of its own, and all in one: PREFIX.0 to PREFIX.3, and
 * PREFIX. */
#include "sezhimow.h"

#include <stdio.h>
#include <stdlib.h>
#include <string.h>

#define CHAPTERS 4
#define FRAMES 500

static void must(bool done, const char *what) {
    if (!done) {
        fprintf(stderr, "record: %s\n", what);
        exit(1);
    }
}

static void frame(sez_port *port, uint32_t seed) {
    static uint8_t room[SEZ_MAP_ROOM];
    sez_map_info map;
    must(sez_map(port, room, sizeof room, &map) == SEZ_DONE, "map");
    for (uint16_t onu = 0; onu < 8; onu++) {
        uint32_t words[2] = {(seed + onu * 37u) % 400u, seed % 7u == 0 ? SEZ_GARBLED : seed % 50u};
        must(sez_report(port, map.frame, onu, words, 2) == SEZ_DONE, "report");
    }
}

static void save(const char *name, const char *mode, const uint8_t *bytes, size_t size) {
    FILE *file = fopen(name, mode);
    must(file != NULL, "open");
    must(fwrite(bytes, 1, size, file) == size && fclose(file) == 0, "write");
}

static void save_chapter(sez_chapter *chapter, const char *prefix, int number) {
    char name[4096];
    size_t size = 0;
    uint8_t none[1];
    must(sez_chapter_bytes(chapter, 5, none, 0, &size) == SEZ_NO_ROOM, "size");
    uint8_t *bytes = (uint8_t *)malloc(size);
    must(bytes != NULL && sez_chapter_bytes(chapter, 5, bytes, size, &size) == SEZ_DONE, "bytes");
    snprintf(name, sizeof name, "%s.%d", prefix, number);
    save(name, "wb", bytes, size);
    size_t skipped = number == 0 ? 0 : SEZ_MAGIC_BYTES;
    save(prefix, number == 0 ? "wb" : "ab", bytes + skipped, size - skipped);
    free(bytes);
}

int main(int count, char **arguments) {
    sez_port port = SEZ_CLOSED_HANDLE;
    must(count == 2, "give a prefix");
    must(sez_open(&port, 16, 0, 0) == SEZ_DONE, "open");
    for (uint16_t k = 0; k < 16; k++)
        must(sez_admit(&port, k / 2, 1024 + k, 2560, 1000, 400000, 1 + k % 2) == SEZ_DONE, "admit");
    for (int number = 0; number < CHAPTERS; number++) {
        sez_chapter chapter = SEZ_CLOSED_HANDLE;
        for (uint32_t k = 0; k < FRAMES; k++) frame(&port, k * 31u + (uint32_t)number);
        must(sez_turn(&port, &chapter) == SEZ_DONE, "turn");
        save_chapter(&chapter, arguments[1], number);
        must(sez_chapter_close(&chapter) == SEZ_DONE, "close");
    }
    return sez_close(&port) == SEZ_DONE ? 0 : 1;
}
