/* Stands before the waits that have a limit of time, and shortens the limit: a second takes a microsecond, so that an hour is
   soon over. What is waited for ends a wait as before. */
#define _GNU_SOURCE
#include <dlfcn.h>
#include <linux/futex.h>
#include <stdarg.h>
#include <sys/syscall.h>
#include <time.h>
#include <unistd.h>

static long (*next_call)(long, ...);

__attribute__((constructor)) static void begin(void) {
    next_call = (long (*)(long, ...))dlsym(RTLD_NEXT, "syscall");
}

long syscall(long number, ...) {
    long words[6];
    va_list given;
    va_start(given, number);
    for (int at = 0; at < 6; at++) words[at] = va_arg(given, long);
    va_end(given);
    struct timespec shorter, *limit = (struct timespec *)words[3];
    if (number == SYS_futex && (words[1] & FUTEX_CMD_MASK) == FUTEX_WAIT && limit) {
        shorter.tv_sec = 0;
        shorter.tv_nsec = limit->tv_sec * 1000 + limit->tv_nsec / 1000000;
        words[3] = (long)&shorter;
    }
    return next_call(number, words[0], words[1], words[2], words[3], words[4], words[5]);
}
