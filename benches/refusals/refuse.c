// A library to be loaded before a program's own (LD_PRELOAD): it counts the program's growths, and refuses the one with the number REFUSE_AT, as if memory
// were at its end, and each one whose number is a multiple of REFUSE_EACH. Growths are the calls of malloc, calloc, realloc, posix_memalign and aligned_alloc,
// in all threads, from 1 on; a realloc counts whatever its size. Of what is 0, or not there, nothing is refused. When the program ends, how many growths there
// were is written to the file that REFUSE_TELL names.
// Where REFUSE_IN names a program, without its folder, all this is so in that program alone, and not in one that starts it.
#define _GNU_SOURCE
#include <dlfcn.h>
#include <errno.h>
#include <fcntl.h>
#include <stdatomic.h>
#include <stdio.h>
#include <stdlib.h>
#include <string.h>
#include <sys/syscall.h>
#include <unistd.h>

static void *(*next_malloc)(size_t);
static void *(*next_calloc)(size_t, size_t);
static void *(*next_realloc)(void *, size_t);
static int (*next_posix_memalign)(void **, size_t, size_t);
static void *(*next_aligned_alloc)(size_t, size_t);
static atomic_ulong growths;
static unsigned long refused, each;

static int is_meant(void) {
    const char *name = getenv("REFUSE_IN");
    return !name || strcmp(name, program_invocation_short_name) == 0;
}

static unsigned long number(const char *name) {
    const char *text = getenv(name);
    return text && is_meant() ? strtoul(text, 0, 10) : 0;
}

// The C library's own. Looked up before any thread is there, since the loader's first growth comes before the constructor below.
static void find(void) {
    if (next_aligned_alloc) return;
    next_malloc = dlsym(RTLD_NEXT, "malloc");
    next_calloc = dlsym(RTLD_NEXT, "calloc");
    next_realloc = dlsym(RTLD_NEXT, "realloc");
    next_posix_memalign = dlsym(RTLD_NEXT, "posix_memalign");
    next_aligned_alloc = dlsym(RTLD_NEXT, "aligned_alloc");
    refused = number("REFUSE_AT");
    each = number("REFUSE_EACH");
}

// Counts a growth, and tells whether it is one to be refused.
static int refuses(void) {
    find();
    unsigned long at = atomic_fetch_add(&growths, 1) + 1;
    if (at != refused && (!each || at % each != 0)) return 0;
    errno = ENOMEM;
    return 1;
}

void *malloc(size_t size) {
    return refuses() ? 0 : next_malloc(size);
}

void *calloc(size_t count, size_t size) {
    return refuses() ? 0 : next_calloc(count, size);
}

void *realloc(void *old, size_t size) {
    return refuses() ? 0 : next_realloc(old, size);
}

int posix_memalign(void **place, size_t align, size_t size) {
    return refuses() ? ENOMEM : next_posix_memalign(place, align, size);
}

void *aligned_alloc(size_t align, size_t size) {
    return refuses() ? 0 : next_aligned_alloc(align, size);
}

__attribute__((constructor)) static void begin(void) {
    find();
}

// Writes the number, once.
__attribute__((destructor)) static void tell(void) {
    static atomic_flag told = ATOMIC_FLAG_INIT;
    const char *name = getenv("REFUSE_TELL");
    if (!name || !is_meant() || atomic_flag_test_and_set(&told)) return;
    char line[24];
    int length = snprintf(line, sizeof line, "%lu\n", (unsigned long)growths);
    int file = open(name, O_WRONLY | O_CREAT | O_TRUNC, 0666);
    if (file >= 0 && write(file, line, length) == length) close(file);
}

// A program that ends itself so runs no destructor.
void _exit(int status) {
    tell();
    syscall(SYS_exit_group, status);
    __builtin_unreachable();
}
