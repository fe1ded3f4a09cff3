// A library to be loaded before a program's own (LD_PRELOAD): it counts the program's calls of one kind that touch files, and refuses the one with the number
// CALLS_AT, from 1 on; nothing is refused where that is 0 or not there. CALLS_OF is the kind: `write` (write, writev), `sync` (fsync, fdatasync), `open` (open,
// openat) or `other` (ftruncate, unlink, unlinkat). What is written to standard error is not counted, so that a fault can be told. With CALLS_AS `full` the disk is full from
// that call on: it writes half of what it should, and each one behind it answers ENOSPC; otherwise that call alone answers EIO. How many calls came so far is kept in
// the first 8 bytes of the file that CALLS_TELL names, also where the program is killed.
#define _GNU_SOURCE
#include <dlfcn.h>
#include <errno.h>
#include <fcntl.h>
#include <stdarg.h>
#include <stdatomic.h>
#include <stdlib.h>
#include <string.h>
#include <sys/mman.h>
#include <sys/uio.h>
#include <unistd.h>

static atomic_ulong own, *calls = &own;
static unsigned long at;
static int is_full;
static const char *kind = "";

__attribute__((constructor)) static void begin(void) {
    int (*next_open)(const char *, int, ...) = dlsym(RTLD_NEXT, "open");
    const char *number = getenv("CALLS_AT"), *as = getenv("CALLS_AS"), *of = getenv("CALLS_OF"), *tell = getenv("CALLS_TELL");
    if (number) at = strtoul(number, 0, 10);
    is_full = as && strcmp(as, "full") == 0;
    int file = tell ? next_open(tell, O_RDWR) : -1;
    if (file >= 0) {
        void *place = mmap(0, sizeof own, PROT_READ | PROT_WRITE, MAP_SHARED, file, 0);
        if (place != MAP_FAILED) calls = place;
        close(file);
    }
    if (of) kind = of;
}

// Which call this is: 0 for one that goes on, 1 for the one to be refused, 2 for one behind it on a full disk.
static int which(const char *what) {
    if (strcmp(kind, what) != 0) return 0;
    unsigned long number = atomic_fetch_add(calls, 1) + 1;
    return at == 0 || number < at ? 0 : number == at ? 1 : is_full ? 2 : 0;
}

static int refuses(const char *what) {
    if (!which(what)) return 0;
    errno = is_full ? ENOSPC : EIO;
    return 1;
}

ssize_t write(int file, const void *bytes, size_t size) {
    static ssize_t (*next)(int, const void *, size_t);
    if (!next) next = dlsym(RTLD_NEXT, "write");
    int call = file == STDERR_FILENO ? 0 : which("write");
    if (call == 0) return next(file, bytes, size);
    if (call == 1 && is_full && size > 1) return next(file, bytes, size / 2);
    errno = is_full ? ENOSPC : EIO;
    return -1;
}

ssize_t writev(int file, const struct iovec *parts, int count) {
    static ssize_t (*next)(int, const struct iovec *, int);
    if (!next) next = dlsym(RTLD_NEXT, "writev");
    return file != STDERR_FILENO && refuses("write") ? -1 : next(file, parts, count);
}

#define ONE(name, what) \
    int name(int file) { \
        static int (*next)(int); \
        if (!next) next = dlsym(RTLD_NEXT, #name); \
        return refuses(what) ? -1 : next(file); \
    }
ONE(fsync, "sync")
ONE(fdatasync, "sync")

static mode_t mode_of(int flags, va_list rest) {
    return flags & (O_CREAT | O_TMPFILE) ? va_arg(rest, mode_t) : 0;
}

#define OPEN(name) \
    int name(const char *path, int flags, ...) { \
        static int (*next)(const char *, int, ...); \
        if (!next) next = dlsym(RTLD_NEXT, #name); \
        va_list rest; \
        va_start(rest, flags); \
        mode_t mode = mode_of(flags, rest); \
        va_end(rest); \
        return refuses("open") ? -1 : next(path, flags, mode); \
    }
OPEN(open)
OPEN(open64)

#define OPENAT(name) \
    int name(int folder, const char *path, int flags, ...) { \
        static int (*next)(int, const char *, int, ...); \
        if (!next) next = dlsym(RTLD_NEXT, #name); \
        va_list rest; \
        va_start(rest, flags); \
        mode_t mode = mode_of(flags, rest); \
        va_end(rest); \
        return refuses("open") ? -1 : next(folder, path, flags, mode); \
    }
OPENAT(openat)
OPENAT(openat64)

int ftruncate(int file, off_t size) {
    static int (*next)(int, off_t);
    if (!next) next = dlsym(RTLD_NEXT, "ftruncate");
    return refuses("other") ? -1 : next(file, size);
}

int ftruncate64(int file, off64_t size) {
    static int (*next)(int, off64_t);
    if (!next) next = dlsym(RTLD_NEXT, "ftruncate64");
    return refuses("other") ? -1 : next(file, size);
}

int unlink(const char *path) {
    static int (*next)(const char *);
    if (!next) next = dlsym(RTLD_NEXT, "unlink");
    return refuses("other") ? -1 : next(path);
}

int unlinkat(int folder, const char *path, int flags) {
    static int (*next)(int, const char *, int);
    if (!next) next = dlsym(RTLD_NEXT, "unlinkat");
    return refuses("other") ? -1 : next(folder, path, flags);
}
