/* Lets a program that is linked with the C library wait in each fsync and fdatasync until SYNC_NANOSECONDS have passed, as for a disk,
   and writes to the file SYNC_SAID how many there were, and the seconds that they took. To be loaded before the library (LD_PRELOAD). */
#define _GNU_SOURCE
#include <dlfcn.h>
#include <stdio.h>
#include <stdlib.h>
#include <sys/prctl.h>
#include <time.h>

/* The last part of a wait, in which the clock is looked at: a sleep takes some of it longer than it should. */
#define REST 200000

static long nanoseconds, count, took;

__attribute__((constructor)) static void begin(void) {
    const char *given = getenv("SYNC_NANOSECONDS");
    nanoseconds = given ? atol(given) : 0;
    /* Otherwise a sleep may take 50 microseconds more. */
    prctl(PR_SET_TIMERSLACK, 1UL, 0, 0, 0);
}

__attribute__((destructor)) static void end(void) {
    const char *said = getenv("SYNC_SAID");
    FILE *file = said ? fopen(said, "w") : NULL;
    if (!file) return;
    fprintf(file, "%ld %.6f\n", count, (double)took / 1e9);
    fclose(file);
}

static long now(void) {
    struct timespec time;
    clock_gettime(CLOCK_MONOTONIC, &time);
    return time.tv_sec * 1000000000 + time.tv_nsec;
}

static void wait_until(long end) {
    long rest = end - REST - now();
    struct timespec sleep = {rest / 1000000000, rest % 1000000000};
    if (rest > 0) nanosleep(&sleep, NULL);
    while (now() < end) {}
}

#define SYNC(name)                                                    \
    int name(int file) {                                              \
        static int (*next)(int);                                      \
        if (!next) *(void **)&next = dlsym(RTLD_NEXT, #name);         \
        long begun = now();                                           \
        int result = next(file);                                      \
        wait_until(begun + nanoseconds);                              \
        took += now() - begun;                                        \
        count += 1;                                                   \
        return result;                                                \
    }

SYNC(fsync)
SYNC(fdatasync)
