/* Stands before pthread_create, and refuses the threads that the environment names: REFUSED_THREAD=N the N-th that is asked for,
   from 1, and REFUSED_THREAD=N- that one and all later ones. A refusal leaves a byte in the file `refused` of the working
   directory. */
#define _GNU_SOURCE
#include <dlfcn.h>
#include <errno.h>
#include <fcntl.h>
#include <pthread.h>
#include <stdatomic.h>
#include <stdlib.h>
#include <unistd.h>

typedef int create(pthread_t *, const pthread_attr_t *, void *(*)(void *), void *);

static create *next_create;
static long first;
static int later;
static atomic_long asked;

__attribute__((constructor)) static void begin(void) {
    next_create = (create *)dlsym(RTLD_NEXT, "pthread_create");
    const char *said = getenv("REFUSED_THREAD");
    char *end = "";
    first = said ? strtol(said, &end, 10) : 0;
    later = *end == '-';
}

static void note(void) {
    int file = open("refused", O_WRONLY | O_CREAT | O_APPEND, 0600);
    if (file < 0 || write(file, "x", 1) != 1 || close(file)) _exit(99);
}

int pthread_create(pthread_t *thread, const pthread_attr_t *how, void *(*work)(void *), void *of) {
    long number = atomic_fetch_add(&asked, 1) + 1;
    if (number == first || (later && number > first)) {
        note();
        return EAGAIN;
    }
    return next_create(thread, how, work, of);
}
