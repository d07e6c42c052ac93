/* Lets a file come just before a program that is linked with the C library opens it, as another process may make it: when
   LATE_TO is opened first, the file LATE_FROM is renamed to it. To be loaded before the library (LD_PRELOAD). */
#define _GNU_SOURCE
#include <dlfcn.h>
#include <fcntl.h>
#include <stdarg.h>
#include <stdio.h>
#include <stdlib.h>
#include <string.h>

int open(const char *name, int flags, ...) {
    static int (*next)(const char *, int, ...);
    static int has_come;
    const char *from = getenv("LATE_FROM"), *to = getenv("LATE_TO");
    if (!next) *(void **)&next = dlsym(RTLD_NEXT, "open");
    va_list more;
    va_start(more, flags);
    mode_t mode = flags & O_CREAT ? va_arg(more, mode_t) : 0;
    va_end(more);
    if (!has_come && from && to && !strcmp(name, to)) has_come = !rename(from, to);
    return next(name, flags, mode);
}
