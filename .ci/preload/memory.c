/* Stands before malloc and its like, and before write: from the first write to standard output on no memory is had. */
#define _GNU_SOURCE
#include <dlfcn.h>
#include <errno.h>
#include <stdatomic.h>
#include <stdlib.h>
#include <string.h>
#include <unistd.h>

static void *(*next_malloc)(size_t);
static void *(*next_calloc)(size_t, size_t);
static void *(*next_realloc)(void *, size_t);
static int (*next_memalign)(void **, size_t, size_t);
static ssize_t (*next_write)(int, const void *, size_t);
static atomic_bool written;

__attribute__((constructor)) static void begin(void) {
    next_malloc = (void *(*)(size_t))dlsym(RTLD_NEXT, "malloc");
    next_calloc = (void *(*)(size_t, size_t))dlsym(RTLD_NEXT, "calloc");
    next_realloc = (void *(*)(void *, size_t))dlsym(RTLD_NEXT, "realloc");
    next_memalign = (int (*)(void **, size_t, size_t))dlsym(RTLD_NEXT, "posix_memalign");
    next_write = (ssize_t(*)(int, const void *, size_t))dlsym(RTLD_NEXT, "write");
    /* What the shell runs is left alone. */
    unsetenv("LD_PRELOAD");
}

/* What asks before the library has begun. */
static void *early_piece(size_t size) {
    static _Alignas(16) char early[65536];
    static size_t used;
    size_t wanted = (size + 15) & ~(size_t)15;
    if (wanted < size || wanted > sizeof early - used) return NULL;
    used += wanted;
    return early + used - wanted;
}

static int is_refused(void) {
    if (atomic_load(&written)) errno = ENOMEM;
    return atomic_load(&written);
}

void *malloc(size_t size) {
    if (is_refused()) return NULL;
    return next_malloc ? next_malloc(size) : early_piece(size);
}

void *calloc(size_t count, size_t size) {
    if (is_refused()) return NULL;
    return next_calloc ? next_calloc(count, size) : early_piece(count * size);
}

void *realloc(void *piece, size_t size) {
    if (is_refused()) return NULL;
    return next_realloc(piece, size);
}

int posix_memalign(void **piece, size_t alignment, size_t size) {
    return is_refused() ? ENOMEM : next_memalign(piece, alignment, size);
}

ssize_t write(int file, const void *bytes, size_t count) {
    if (file == STDOUT_FILENO) atomic_store(&written, 1);
    return next_write(file, bytes, count);
}
