/* Answers management lines of port 0 as `olt plan` does, over the library: admit, change, remove, report, fail, restore,
 * map and show. A refusal is printed by its code alone. It is valid in C99 and in C++. */
#include "sezhimow.h"

#include <inttypes.h>
#include <stdio.h>
#include <stdlib.h>
#include <string.h>

#define MOST_WORDS 24

static char *words[MOST_WORDS];
static size_t word_count;

static void split(char *line) {
    word_count = 0;
    char *word = strtok(line, " \n");
    while (word != NULL && word_count < MOST_WORDS) {
        words[word_count++] = word;
        word = strtok(NULL, " \n");
    }
}

static uint64_t number(size_t index) { return index < word_count ? strtoull(words[index], NULL, 10) : 0; }

static uint16_t number16(size_t index) { return (uint16_t)number(index); }

static uint8_t class_of(const char *word) {
    if (strcmp(word, "na") == 0) return SEZ_CLASS_NON_ASSURED;
    return strcmp(word, "be") == 0 ? SEZ_CLASS_BEST_EFFORT : SEZ_CLASS_NONE;
}

static uint32_t report(sez_port *port) {
    uint32_t occupancies[MOST_WORDS];
    size_t count = 0;
    for (size_t index = 4; index < word_count; index++)
        occupancies[count++] = words[index][0] == 'x' ? SEZ_GARBLED : (uint32_t)number(index);
    return sez_report(port, number(2), number16(3), occupancies, count);
}

static uint32_t take(sez_port *port) {
    const char *what = words[1];
    if (strcmp(what, "admit") == 0)
        return sez_admit(port, number16(2), number16(3), number(4), number(5), number(6), class_of(words[7]));
    if (strcmp(what, "change") == 0)
        return sez_change(port, number16(2), number(3), number(4), number(5), class_of(words[6]));
    if (strcmp(what, "remove") == 0) return sez_remove(port, number16(2));
    if (strcmp(what, "report") == 0) return report(port);
    if (strcmp(what, "fail") == 0) return sez_fail(port, (uint8_t)number(2));
    if (strcmp(what, "restore") == 0) return sez_restore(port);
    fprintf(stderr, "no such line: %s\n", what);
    exit(2);
}

static void put_map(sez_port *port) {
    static uint8_t room[SEZ_MAP_ROOM];
    sez_map_info map;
    uint32_t told = sez_map(port, room, sizeof room, &map);
    if (told != SEZ_DONE) {
        printf("err E%02" PRIu32 "\n", told);
        return;
    }
    printf("map %" PRIu64 " ", map.frame);
    for (size_t index = 0; index < map.size; index++) printf("%02x", room[index]);
    printf("\n");
}

static void put_state(sez_port *port) {
    sez_state_info state;
    if (sez_state(port, &state) != SEZ_DONE) exit(2);
    if (state.cause == 0) printf("show up");
    else printf("show down %u", (unsigned)state.cause);
    printf(" next %" PRIu64 " allocs %zu onus %zu guaranteed %" PRIu64 " capacity %" PRIu64 "\n", state.next_frame,
           state.alloc_ids, state.onus, state.guaranteed, state.capacity);
}

static void put_taken(sez_port *port) {
    uint32_t told = take(port);
    sez_state_info state;
    if (told != SEZ_DONE) {
        printf("err E%02" PRIu32 "\n", told);
        return;
    }
    if (sez_state(port, &state) != SEZ_DONE) exit(2);
    printf("ok %" PRIu64 "\n", state.taken - 1);
}

int main(void) {
    static char line[4096];
    sez_port port = SEZ_CLOSED_HANDLE;
    if (sez_open(&port, 16, 0, 0) != SEZ_DONE) return 2;
    while (fgets(line, sizeof line, stdin) != NULL) {
        split(line);
        if (word_count < 2) continue;
        if (strcmp(words[1], "map") == 0) put_map(&port);
        else if (strcmp(words[1], "show") == 0) put_state(&port);
        else put_taken(&port);
    }
    return sez_close(&port) == SEZ_DONE ? 0 : 2;
}
