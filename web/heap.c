// The heap of the module, in place of malloc, realloc and free: sizes are rounded up to one of four classes between two
// powers of two, a freed block goes to the list of its class, and the memory grows at its end. Blocks are aligned to 16.
typedef unsigned long long u64;
typedef unsigned char u8;

extern u8 __heap_base;

enum { HEAD = 16, CLASSES = 256, PAGE = 65536 };

typedef struct Block {
    u64 class;
    struct Block *next;
} Block;

static Block *lists[CLASSES];
static u64 top, end;
static u8 nothing;

// The class of a block of n bytes with its head, and the bytes of a class: (4 + quarter) * 2^(power - 2).
static u64 class_of(u64 n) {
    u64 power = 63 - __builtin_clzll((n - 1) | 32);
    u64 quarter = ((n - 1) >> (power - 2)) - 3;
    return power * 4 + quarter;
}

static u64 bytes_of(u64 class) {
    return (4 + (class & 3)) << ((class >> 2) - 2);
}

static int has_room(u64 n) {
    if (n <= end - top) {
        return 1;
    }
    u64 pages = (n - (end - top) + PAGE - 1) / PAGE;
    // Growth by a sixteenth keeps the number of calls of the host low.
    u64 more = end / PAGE / 16;
    if (__builtin_wasm_memory_grow(0, pages + more) != ~0ull) {
        end += (pages + more) * PAGE;
        return 1;
    }
    if (__builtin_wasm_memory_grow(0, pages) == ~0ull) {
        return 0;
    }
    end += pages * PAGE;
    return 1;
}

static void *take(u64 n) {
    if (n >= 1ull << 40) {
        return 0;
    }
    u64 class = class_of(n + HEAD);
    Block *block = lists[class];
    if (block) {
        lists[class] = block->next;
        return (u8 *)block + HEAD;
    }
    if (!top) {
        top = ((u64)&__heap_base + 15) / 16 * 16;
        end = __builtin_wasm_memory_size(0) * PAGE;
    }
    u64 bytes = (bytes_of(class) + 15) / 16 * 16;
    if (!has_room(bytes)) {
        return 0;
    }
    block = (Block *)top;
    top += bytes;
    block->class = class;
    return (u8 *)block + HEAD;
}

static void give(void *at) {
    Block *block = (Block *)((u8 *)at - HEAD);
    block->next = lists[block->class];
    lists[block->class] = block;
}

typedef struct {
    u64 ok;
    void *p;
} Tried;

static Tried tried(void *at) {
    return at ? (Tried){1, at} : (Tried){0, &nothing};
}

Tried rattle_alloc(u64 n, u64 align) {
    return tried(take(n ? n : align));
}

Tried rattle_realloc(void *at, u64 kept, u64 n, u64 align) {
    n = n ? n : align;
    u64 room = bytes_of(((Block *)((u8 *)at - HEAD))->class) - HEAD;
    if (n <= room) {
        return tried(at);
    }
    void *to = take(n);
    if (to) {
        __builtin_memcpy(to, at, kept < room ? kept : room);
        give(at);
    }
    return tried(to);
}

void rattle_dealloc(void *at) {
    give(at);
}

// Room for bytes that the host hands in or takes out; 0 if there is none.
__attribute__((export_name("room"))) void *room(u64 n) {
    return take(n);
}

__attribute__((export_name("give_back"))) void give_back(void *at) {
    give(at);
}
