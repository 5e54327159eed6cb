/* The library without its heap functions, over a fixed arena of 8 MB, as firmware has it. The three functions that the
 * library wants are here; sizes are powers of two, and freed blocks of a size are used again. A port with 256 Alloc-IDs
 * makes 20,000 maps, and turns every 1,000 events. */
#include "sezhimow.h"
#include "sezhimow_heap.h"

#include <stdio.h>
#include <string.h>

#define ARENA ((size_t)8 << 20)
#define CLASSES 24
#define LEAST 32u

/* What stands before each block: its class, and the next free block of that class. */
typedef struct head {
    size_t class_;
    struct head *next;
} head;

static union {
    uint8_t bytes[(size_t)8 << 20];
    uint64_t aligned[2];
} arena;
static size_t used = 0;
static size_t live = 0;
static head *unused[CLASSES];
static uint8_t nothing[16];

static size_t class_of(size_t size) {
    size_t class_ = 0;
    while ((LEAST << class_) < size + sizeof(head)) class_++;
    return class_;
}

static head *take(size_t class_) {
    head *found = unused[class_];
    if (found != NULL) {
        unused[class_] = found->next;
        return found;
    }
    size_t size = LEAST << class_;
    if (ARENA - used < size) return NULL;
    found = (head *)(void *)(arena.bytes + used);
    used += size;
    found->class_ = class_;
    return found;
}

sez_block rattle_alloc(size_t size, size_t align) {
    (void)align;
    sez_block block = {false, nothing};
    size_t class_ = class_of(size);
    head *found = class_ < CLASSES ? take(class_) : NULL;
    if (found != NULL) {
        live++;
        block.there = true;
        block.at = found + 1;
    }
    return block;
}

void rattle_dealloc(void *at) {
    head *own = (head *)at - 1;
    live--;
    own->next = unused[own->class_];
    unused[own->class_] = own;
}

sez_block rattle_realloc(void *at, size_t size, size_t wanted, size_t align) {
    (void)size;
    head *own = (head *)at - 1;
    sez_block block = {true, at};
    size_t room = (LEAST << own->class_) - sizeof(head);
    if (wanted <= room) return block;
    block = rattle_alloc(wanted, align);
    if (block.there) {
        memcpy(block.at, at, room);
        rattle_dealloc(at);
    }
    return block;
}

static bool turn(sez_port *port) {
    sez_chapter chapter = SEZ_CLOSED_HANDLE;
    return sez_turn(port, &chapter) == SEZ_DONE && sez_chapter_close(&chapter) == SEZ_DONE;
}

int main(void) {
    static uint8_t room[SEZ_MAP_ROOM];
    sez_port port = SEZ_CLOSED_HANDLE;
    sez_map_info map = {0, 0};
    size_t most = 0;
    if (sez_open(&port, 16, 0, 0) != SEZ_DONE) return 2;
    for (uint16_t k = 0; k < 256; k++)
        if (sez_admit(&port, k / 4, 1024 + k, 1024, 0, 90000, SEZ_CLASS_BEST_EFFORT) != SEZ_DONE) return 3;
    for (int frame = 0; frame < 20000; frame++) {
        if (frame % 1000 == 999 && !turn(&port)) return 4;
        if (sez_map(&port, room, sizeof room, &map) != SEZ_DONE) return 5;
        if (frame == 9999) most = used;
    }
    /* Without turning it runs out of memory: the call says so, and changes nothing. sez_turn needs memory too, for a copy of
     * the state, so it comes too late now. To close the port gives all of it back. */
    sez_state_info before, after;
    uint32_t told = SEZ_DONE;
    while (told == SEZ_DONE) {
        if (sez_state(&port, &before) != SEZ_DONE) return 6;
        told = sez_map(&port, room, sizeof room, &map);
    }
    if (told != SEZ_OUT_OF_MEMORY || sez_state(&port, &after) != SEZ_DONE) return 7;
    bool same = before.next_frame == after.next_frame && before.taken == after.taken && before.kept == after.kept;
    if (!same || sez_close(&port) != SEZ_DONE || live != 0) return 8;
    printf("an arena of 8 MB: 20,000 maps of 256 Alloc-IDs took %zu bytes; memory ran out after %zu events of a chapter\n", most,
           after.kept);
    return 0;
}
