/* Stands before read and write, and does what a slow pipe, a signal or a broken disk does. The environment says what:

   PIECE=N              each call moves at most N bytes
   READ_FAULT=N:WHAT    the N-th read moves none: WHAT names its error, EIO, EINTR or ENOSPC, or is NOTHING, an answer of 0
   WRITE_FAULT=N:WHAT   the same of the N-th write to standard output
   BEFORE_READ=N:LINE   the shell runs LINE before the N-th read

   Calls are counted from 1; a fault comes once. */
#define _GNU_SOURCE
#include <dlfcn.h>
#include <errno.h>
#include <stdatomic.h>
#include <stdlib.h>
#include <string.h>
#include <unistd.h>

/* What happens at one call. */
struct event {
    long call;
    const char *what;
};

static ssize_t (*next_read)(int, void *, size_t);
static ssize_t (*next_write)(int, const void *, size_t);
static size_t piece;
static struct event read_fault, write_fault, before_read;
static atomic_long reads, writes;

static struct event event_of(const char *name) {
    const char *said = getenv(name);
    struct event event = {0, ""};
    if (said) {
        char *colon;
        event.call = strtol(said, &colon, 10);
        event.what = *colon ? colon + 1 : colon;
    }
    return event;
}

__attribute__((constructor)) static void begin(void) {
    next_read = (ssize_t(*)(int, void *, size_t))dlsym(RTLD_NEXT, "read");
    next_write = (ssize_t(*)(int, const void *, size_t))dlsym(RTLD_NEXT, "write");
    const char *most = getenv("PIECE");
    piece = most ? strtoul(most, NULL, 10) : (size_t)-1;
    read_fault = event_of("READ_FAULT");
    write_fault = event_of("WRITE_FAULT");
    before_read = event_of("BEFORE_READ");
    /* What the shell runs is left alone. */
    unsetenv("LD_PRELOAD");
}

static ssize_t fail(const char *what) {
    if (!strcmp(what, "NOTHING")) return 0;
    errno = !strcmp(what, "EIO") ? EIO : !strcmp(what, "EINTR") ? EINTR : ENOSPC;
    return -1;
}

ssize_t read(int file, void *bytes, size_t count) {
    long call = atomic_fetch_add(&reads, 1) + 1;
    if (call == before_read.call && system(before_read.what)) _exit(99);
    if (call == read_fault.call) return fail(read_fault.what);
    return next_read(file, bytes, count < piece ? count : piece);
}

ssize_t write(int file, const void *bytes, size_t count) {
    if (file != STDOUT_FILENO) return next_write(file, bytes, count);
    if (atomic_fetch_add(&writes, 1) + 1 == write_fault.call) return fail(write_fault.what);
    return next_write(file, bytes, count < piece ? count : piece);
}
