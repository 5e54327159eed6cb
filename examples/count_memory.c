/* Preloaded into a program: counts its allocations in the file of the name in COUNT_TOLD, a number of 8 bytes. */
#include <errno.h>
#include <fcntl.h>
#include <stddef.h>
#include <stdint.h>
#include <stdlib.h>
#include <sys/mman.h>
#include <unistd.h>

extern void *__libc_malloc(size_t);
extern void *__libc_calloc(size_t, size_t);
extern void *__libc_realloc(void *, size_t);
extern void *__libc_memalign(size_t, size_t);

/* Counts in the file from the first call on: the program need not tell its end. */
static void count(void) {
    static uint64_t before = 0;
    static uint64_t *made = &before;
    if (made == &before) {
        const char *name = getenv("COUNT_TOLD");
        int file = name ? open(name, O_RDWR | O_CREAT | O_TRUNC, 0600) : -1;
        if (file >= 0 && ftruncate(file, sizeof *made) == 0) {
            void *shown = mmap(NULL, sizeof *made, PROT_READ | PROT_WRITE, MAP_SHARED, file, 0);
            if (shown != MAP_FAILED) made = shown;
        }
    }
    *made += 1;
}

void *malloc(size_t size) {
    count();
    return __libc_malloc(size);
}

void *calloc(size_t number, size_t size) {
    count();
    return __libc_calloc(number, size);
}

void *realloc(void *old, size_t size) {
    count();
    return __libc_realloc(old, size);
}

void *aligned_alloc(size_t align, size_t size) {
    count();
    return __libc_memalign(align, size);
}

int posix_memalign(void **out, size_t align, size_t size) {
    count();
    *out = __libc_memalign(align, size);
    return *out ? 0 : ENOMEM;
}
