/* Kills a program that is linked with the C library before its call number KILL_AT, from 1, of those that change a file or
   wait for the disk. With KILL_TORN set, half of what the call would have written is written first; with KILL_LOSES set, the
   file of this name loses what was written to it since it was synced, as a power failure may take it. With KILL_KEEPS set
   nothing is killed: before each of these calls, and again after half of a write, the files of the folder KILL_FOLDER are copied
   to a new folder within KILL_KEEPS, so that one run gives what a kill at each call would leave. To be loaded before the library
   (LD_PRELOAD). */
#define _GNU_SOURCE
#include <dirent.h>
#include <dlfcn.h>
#include <fcntl.h>
#include <signal.h>
#include <stdarg.h>
#include <stdio.h>
#include <stdlib.h>
#include <string.h>
#include <sys/stat.h>
#include <sys/types.h>
#include <unistd.h>

static long left;

/* The file that loses what is not synced, and how much of it is. */
static const char *loses;
static off_t synced;

/* Where the files of which folder are copied to, how often they were, and whether they are being copied now. */
static const char *keeps, *folder;
static int kept, copying;

__attribute__((constructor)) static void begin(void) {
    keeps = getenv("KILL_KEEPS");
    folder = getenv("KILL_FOLDER");
    const char *at = getenv("KILL_AT");
    struct stat found;
    left = at ? atol(at) : 0;
    loses = getenv("KILL_LOSES");
    synced = loses && !stat(loses, &found) ? found.st_size : 0;
}

static void copy_file(const char *from, const char *to) {
    static char bytes[65536];
    ssize_t size = 0;
    int in = open(from, O_RDONLY), out = open(to, O_CREAT | O_WRONLY | O_TRUNC, 0600);
    while (in >= 0 && out >= 0 && (size = read(in, bytes, sizeof bytes)) > 0 && write(out, bytes, (size_t)size) == size) {}
    if (in < 0 || out < 0 || size) abort();
    close(in);
    close(out);
}

/* What a kill would leave now. */
static void keep(void) {
    char to[512], from[512], file[1024], first[1024] = "";
    struct dirent *entry;
    struct stat found;
    ino_t before = 0;
    if (!keeps || copying) return;
    copying = 1;
    snprintf(to, sizeof to, "%s/%d", keeps, kept++);
    DIR *files = opendir(folder);
    if (!files || mkdir(to, 0700)) abort();
    while ((entry = readdir(files))) {
        if (entry->d_name[0] == '.') continue;
        snprintf(from, sizeof from, "%s/%s", folder, entry->d_name);
        snprintf(file, sizeof file, "%s/%s", to, entry->d_name);
        /* A second name of a file stays one. */
        if (stat(from, &found)) abort();
        if (found.st_nlink > 1 && found.st_ino == before) {
            if (link(first, file)) abort();
            continue;
        }
        if (found.st_nlink > 1) {
            before = found.st_ino;
            memcpy(first, file, sizeof first);
        }
        copy_file(from, file);
    }
    closedir(files);
    copying = 0;
}

static int is_last(void) {
    keep();
    return left > 0 && --left == 0;
}

static void end(void) {
    struct stat found;
    if (loses && !stat(loses, &found) && found.st_size > synced) (void)!truncate(loses, synced);
    kill(getpid(), SIGKILL);
}

/* A file that was synced: whether it is the one that loses. */
static int note(int file, int result) {
    struct stat this, found;
    if (!result && loses && !fstat(file, &this) && !stat(loses, &found) && this.st_dev == found.st_dev && this.st_ino == found.st_ino) synced = this.st_size;
    return result;
}

/* Defines a call that waits for the disk. */
#define SYNC(name)                                                    \
    int name(int file) {                                              \
        static int (*next)(int);                                      \
        if (!next) *(void **)&next = dlsym(RTLD_NEXT, #name);         \
        if (is_last()) end();                                         \
        return note(file, next(file));                                \
    }

/* Defines a call with these parameters and arguments that is counted. */
#define CALL(type, name, parameters, arguments)                       \
    type name parameters {                                            \
        static type(*next) parameters;                                \
        if (!next) *(void **)&next = dlsym(RTLD_NEXT, #name);         \
        if (is_last()) end();                                         \
        return next arguments;                                        \
    }

/* The same of a call that writes `size` bytes. */
#define WRITE(name, parameters, arguments)                            \
    ssize_t name parameters {                                         \
        static ssize_t(*next) parameters;                             \
        if (!next) *(void **)&next = dlsym(RTLD_NEXT, #name);         \
        if (is_last()) {                                              \
            size /= 2;                                                \
            if (getenv("KILL_TORN")) (void)!next arguments;           \
            end();                                                    \
        }                                                             \
        if (keeps && !copying && size > 1) return name##_in_two arguments; \
        return next arguments;                                        \
    }

static ssize_t write_in_two(int file, const void *bytes, size_t size) {
    ssize_t (*next)(int, const void *, size_t) = (ssize_t (*)(int, const void *, size_t))dlsym(RTLD_NEXT, "write");
    ssize_t half = next(file, bytes, size / 2);
    if (half != (ssize_t)(size / 2)) return half;
    keep();
    ssize_t rest = next(file, (const char *)bytes + half, size - (size_t)half);
    return rest < 0 ? rest : half + rest;
}

static ssize_t pwrite_in_two(int file, const void *bytes, size_t size, off_t at) {
    ssize_t (*next)(int, const void *, size_t, off_t) = (ssize_t (*)(int, const void *, size_t, off_t))dlsym(RTLD_NEXT, "pwrite");
    ssize_t half = next(file, bytes, size / 2, at);
    if (half != (ssize_t)(size / 2)) return half;
    keep();
    ssize_t rest = next(file, (const char *)bytes + half, size - (size_t)half, at + half);
    return rest < 0 ? rest : half + rest;
}

SYNC(fsync)
SYNC(fdatasync)
CALL(int, ftruncate, (int file, off_t size), (file, size))
CALL(int, link, (const char *from, const char *to), (from, to))
CALL(int, linkat, (int at, const char *from, int in, const char *to, int flags), (at, from, in, to, flags))
CALL(int, rename, (const char *from, const char *to), (from, to))
CALL(int, unlink, (const char *name), (name))
CALL(int, unlinkat, (int at, const char *name, int flags), (at, name, flags))
WRITE(write, (int file, const void *bytes, size_t size), (file, bytes, size))
WRITE(pwrite, (int file, const void *bytes, size_t size, off_t at), (file, bytes, size, at))

/* The mode of a file that is made is the argument after the flags. */
static mode_t mode_of(int flags, va_list more) { return flags & O_CREAT ? va_arg(more, mode_t) : 0; }

int open(const char *name, int flags, ...) {
    static int (*next)(const char *, int, ...);
    if (!next) *(void **)&next = dlsym(RTLD_NEXT, "open");
    va_list more;
    va_start(more, flags);
    mode_t mode = mode_of(flags, more);
    va_end(more);
    if (flags & O_CREAT && is_last()) end();
    return next(name, flags, mode);
}
