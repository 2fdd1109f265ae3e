/* Stands before write, fsync and rename, and does what a full disk, a disk that breaks or an interruption does to a file that is
   being written. Standard output and the lines for a person are left alone. The environment says what:

   ROOM=N       a file has room for N bytes, and none for the next one
   PAUSE=N      each write to a file takes N milliseconds
   KILL=N       the N-th write to a file moves one byte, and the program is killed
   REFUSE=CALL  each call of that name fails: fsync or rename */
#define _GNU_SOURCE
#include <dlfcn.h>
#include <errno.h>
#include <signal.h>
#include <stdlib.h>
#include <string.h>
#include <unistd.h>

static ssize_t (*next_write)(int, const void *, size_t);
static int (*next_fsync)(int);
static int (*next_rename)(const char *, const char *);
static long room = -1, pause_time, kill_at, writes;
static const char *refused = "";

static long number_of(const char *name, long otherwise) {
    const char *said = getenv(name);
    return said ? atol(said) : otherwise;
}

__attribute__((constructor)) static void begin(void) {
    next_write = (ssize_t(*)(int, const void *, size_t))dlsym(RTLD_NEXT, "write");
    next_fsync = (int (*)(int))dlsym(RTLD_NEXT, "fsync");
    next_rename = (int (*)(const char *, const char *))dlsym(RTLD_NEXT, "rename");
    room = number_of("ROOM", -1);
    pause_time = number_of("PAUSE", 0);
    kill_at = number_of("KILL", 0);
    if (getenv("REFUSE")) refused = getenv("REFUSE");
}

static int fail(int error) {
    errno = error;
    return -1;
}

ssize_t write(int file, const void *bytes, size_t count) {
    if (file <= STDERR_FILENO) return next_write(file, bytes, count);
    writes++;
    if (pause_time) usleep(1000 * pause_time);
    if (writes == kill_at) {
        next_write(file, bytes, 1);
        kill(getpid(), SIGKILL);
    }
    if (room < 0) return next_write(file, bytes, count);
    if (room == 0) return fail(ENOSPC);
    ssize_t moved = next_write(file, bytes, count < (size_t)room ? count : (size_t)room);
    if (moved > 0) room -= moved;
    return moved;
}

int fsync(int file) {
    return strcmp(refused, "fsync") ? next_fsync(file) : fail(EIO);
}

int rename(const char *from, const char *to) {
    return strcmp(refused, "rename") ? next_rename(from, to) : fail(EXDEV);
}
