/* Preloaded into the program: the call of the number in FAIL_AT, counted from 1, of the kind in FAIL_KIND (read, write, sync or rename) fails with the error of a
   faulty device, and so does each later one if FAIL_EVER is set. Reads and writes count only if they are on the file of the name in FAIL_FILE, or on the
   standard streams if it is `-`. A read or write that does not fail takes at most FAIL_PIECE bytes, if that is set. If a call failed, the file of the name in
   FAIL_TOLD is made. */
#define _GNU_SOURCE
#include <dlfcn.h>
#include <errno.h>
#include <fcntl.h>
#include <pthread.h>
#include <stdio.h>
#include <stdlib.h>
#include <string.h>
#include <sys/uio.h>
#include <unistd.h>

static pthread_mutex_t lock = PTHREAD_MUTEX_INITIALIZER;

static void tell(void) {
    const char *name = getenv("FAIL_TOLD");
    int file = name ? open(name, O_WRONLY | O_CREAT, 0600) : -1;
    if (file >= 0) close(file);
}

static int is_file(int descriptor) {
    const char *name = getenv("FAIL_FILE");
    if (!name || !strcmp(name, "-")) return descriptor <= STDOUT_FILENO;
    char link[64], path[4096];
    snprintf(link, sizeof link, "/proc/self/fd/%d", descriptor);
    ssize_t size = readlink(link, path, sizeof path - 1);
    if (size < 0) return 0;
    path[size] = 0;
    return !strcmp(path, name);
}

static int fails(const char *kind) {
    static long made = 0;
    const char *wanted = getenv("FAIL_KIND"), *number = getenv("FAIL_AT");
    if (!wanted || !number || strcmp(wanted, kind)) return 0;
    pthread_mutex_lock(&lock);
    made += 1;
    int failed = made == atol(number) || (made > atol(number) && getenv("FAIL_EVER"));
    if (failed) tell();
    pthread_mutex_unlock(&lock);
    if (failed) errno = EIO;
    return failed;
}

static size_t piece(size_t size) {
    const char *text = getenv("FAIL_PIECE");
    size_t most = text ? (size_t)atol(text) : size;
    return most < size ? most : size;
}

#define REAL(name) ((__typeof__(&name))dlsym(RTLD_NEXT, #name))

ssize_t read(int descriptor, void *bytes, size_t size) {
    if (!is_file(descriptor)) return REAL(read)(descriptor, bytes, size);
    return fails("read") ? -1 : REAL(read)(descriptor, bytes, piece(size));
}

ssize_t write(int descriptor, const void *bytes, size_t size) {
    if (!is_file(descriptor)) return REAL(write)(descriptor, bytes, size);
    return fails("write") ? -1 : REAL(write)(descriptor, bytes, piece(size));
}

int fsync(int descriptor) { return is_file(descriptor) && fails("sync") ? -1 : REAL(fsync)(descriptor); }

int rename(const char *old, const char *new) { return fails("rename") ? -1 : REAL(rename)(old, new); }
