/* Refuses requests for memory of a program with AddressSanitizer, each one alone: the one with the number REFUSE_FIRST,
   from 1, and every REFUSE_STEP-th after it. At each the program is forked, and the copy goes on without that memory; it
   has to end with 0, or the program ends. The file REFUSE_SEEN says how many requests there were, how many were refused,
   and which refused one was not answered rightly, with the status of its copy. To be loaded before the program
   (LD_PRELOAD). The program has a malloc and a realloc of its own, each a jump: these are led here. */
#define _GNU_SOURCE
#include <dlfcn.h>
#include <errno.h>
#include <fcntl.h>
#include <stdint.h>
#include <stdio.h>
#include <stdlib.h>
#include <string.h>
#include <sys/mman.h>
#include <sys/wait.h>
#include <unistd.h>

enum { PAGE = 4096, JUMP = 5, NEAR = 1 << 30, SECONDS = 60 };

static struct seen { long requests, refused, wrong, status; } *seen;
static long next, step;
static void *(*own_malloc)(size_t);
static void *(*own_realloc)(void *, size_t);

static int is_refused(void) {
    if (!next || ++seen->requests != next) return 0;
    next += step;
    int status = -1;
    pid_t copy = fork();
    if (copy == 0) {
        next = 0;
        alarm(SECONDS);
        errno = ENOMEM;
        return 1;
    }
    if (copy > 0) waitpid(copy, &status, 0);
    if (status) {
        seen->wrong = seen->requests;
        seen->status = status;
        _exit(1);
    }
    seen->refused++;
    return 0;
}

static void *refusing_malloc(size_t size) { return is_refused() ? NULL : own_malloc(size); }

static void *refusing_realloc(void *old, size_t size) { return is_refused() ? NULL : own_realloc(old, size); }

static void stop(const char *why) {
    fprintf(stderr, "refuse: %s\n", why);
    _exit(3);
}

/* Leads the jump at a function's head to another function, by a jump at a place that is near enough. Answers where it led. */
static void *lead(const char *name, unsigned char *place, void *to) {
    unsigned char *head = dlsym(RTLD_DEFAULT, name);
    if (!head || *head != 0xe9) stop("the function is no jump");
    int32_t offset;
    memcpy(&offset, head + 1, sizeof offset);
    void *led = head + JUMP + offset;
    memcpy(place, "\xff\x25\0\0\0\0", 6);
    memcpy(place + 6, &to, sizeof to);
    offset = (int32_t)(place - head - JUMP);
    unsigned char *page = head - (uintptr_t)head % PAGE;
    if (mprotect(page, 2 * PAGE, PROT_READ | PROT_WRITE | PROT_EXEC)) stop("the function cannot be changed");
    memcpy(head + 1, &offset, sizeof offset);
    mprotect(page, 2 * PAGE, PROT_READ | PROT_EXEC);
    return led;
}

/* A page that can be written and run, near the program. */
static unsigned char *page_near(unsigned char *program) {
    unsigned char *page = program - (uintptr_t)program % PAGE;
    for (long away = PAGE; away < NEAR; away += PAGE) {
        for (int side = -1; side <= 1; side += 2) {
            void *found = mmap(page + side * away, PAGE, PROT_READ | PROT_WRITE | PROT_EXEC,
                               MAP_PRIVATE | MAP_ANONYMOUS | MAP_FIXED_NOREPLACE, -1, 0);
            if (found == page + side * away) return found;
            if (found != MAP_FAILED) munmap(found, PAGE);
        }
    }
    stop("there is no page near the program");
    return NULL;
}

__attribute__((constructor)) static void begin(void) {
    const char *first = getenv("REFUSE_FIRST"), *then = getenv("REFUSE_STEP"), *file = getenv("REFUSE_SEEN");
    int seen_file = file ? open(file, O_RDWR | O_CREAT | O_TRUNC, 0600) : -1;
    if (!first || !then || seen_file < 0 || ftruncate(seen_file, PAGE)) stop("it is not said which requests");
    seen = mmap(NULL, PAGE, PROT_READ | PROT_WRITE, MAP_SHARED, seen_file, 0);
    if (seen == MAP_FAILED) stop("the file cannot be mapped");
    close(seen_file);
    unsigned char *place = page_near(dlsym(RTLD_DEFAULT, "malloc"));
    own_malloc = (void *(*)(size_t))lead("malloc", place, (void *)refusing_malloc);
    own_realloc = (void *(*)(void *, size_t))lead("realloc", place + 16, (void *)refusing_realloc);
    step = atol(then);
    next = atol(first);
}
