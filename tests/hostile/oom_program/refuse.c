/* Refuses one request for memory of a program that is linked with the C library: the one with the number REFUSE_AT, from 1.
   It makes an empty file with the name REFUSE_MARK when it does. To be loaded before the library (LD_PRELOAD). */
#include <errno.h>
#include <fcntl.h>
#include <stddef.h>
#include <stdlib.h>
#include <unistd.h>

void *__libc_malloc(size_t size);
void *__libc_realloc(void *old, size_t size);

static long left;

__attribute__((constructor)) static void begin(void) {
    const char *at = getenv("REFUSE_AT");
    left = at ? atol(at) : 0;
}

static int is_refused(void) {
    if (left <= 0 || --left > 0) return 0;
    const char *mark = getenv("REFUSE_MARK");
    int file = mark ? open(mark, O_WRONLY | O_CREAT, 0600) : -1;
    if (file >= 0) close(file);
    errno = ENOMEM;
    return 1;
}

void *malloc(size_t size) { return is_refused() ? NULL : __libc_malloc(size); }

void *realloc(void *old, size_t size) { return is_refused() ? NULL : __libc_realloc(old, size); }
