/* Preloaded into the program: refuses the allocation of the number in REFUSE_AT, counted from 1, and no other. If it was made, the file of the name in
   REFUSE_TOLD, if there is one, is made. */
#include <errno.h>
#include <fcntl.h>
#include <stddef.h>
#include <stdlib.h>
#include <unistd.h>

extern void *__libc_malloc(size_t);
extern void *__libc_calloc(size_t, size_t);
extern void *__libc_realloc(void *, size_t);
extern void *__libc_memalign(size_t, size_t);

static void tell(void) {
    const char *name = getenv("REFUSE_TOLD");
    int file = name ? open(name, O_WRONLY | O_CREAT, 0600) : -1;
    if (file >= 0) close(file);
}

static int is_refused(void) {
    static long made = 0;
    static long refused = -1;
    if (refused < 0) {
        const char *text = getenv("REFUSE_AT");
        refused = text ? atol(text) : 0;
    }
    made += 1;
    if (made != refused) return 0;
    tell();
    errno = ENOMEM;
    return 1;
}

void *malloc(size_t size) { return is_refused() ? NULL : __libc_malloc(size); }

void *calloc(size_t count, size_t size) { return is_refused() ? NULL : __libc_calloc(count, size); }

void *realloc(void *old, size_t size) { return is_refused() ? NULL : __libc_realloc(old, size); }

void *aligned_alloc(size_t align, size_t size) { return is_refused() ? NULL : __libc_memalign(align, size); }

int posix_memalign(void **out, size_t align, size_t size) {
    if (is_refused()) return ENOMEM;
    *out = __libc_memalign(align, size);
    return *out ? 0 : ENOMEM;
}
