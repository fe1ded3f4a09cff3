/* The console, and what the C library asks of a machine that has neither files nor a clock. HEAP, in bytes, is given on the command line. */
#include <errno.h>
#include <stddef.h>
#include <stdlib.h>
#include <sys/stat.h>
#include <sys/time.h>
#include <time.h>
#include <unistd.h>

#include "console.h"
#include "guest.h"

enum { QUEUE = 256, ANSWERS = 1 << 14 };

/* Words that came: on_word puts them in, and the loop takes them out. While it is full no further word is let in, so none is lost. */
static volatile uint32_t queue[QUEUE], came, taken;

/* What was printed and not yet answered. */
static char answers[ANSWERS];
static uint32_t printed, answered;

void on_word(uint32_t word)
{
    queue[came++ % QUEUE] = word;
    if (came - taken == QUEUE)
        csr_clear(mie, WORD_BIT);
}

int put(char byte, FILE *file)
{
    (void)file;
    if (printed - answered < ANSWERS)
        answers[printed++ % ANSWERS] = byte;
    return (unsigned char)byte;
}

void put_text(const char *text)
{
    while (*text)
        put(*text++, stdout);
}

static int get(FILE *file)
{
    (void)file;
    return EOF;
}

static FILE console = FDEV_SETUP_STREAM(put, get, NULL, _FDEV_SETUP_RW);
FILE *const stdin = &console;
FILE *const stdout = &console;
FILE *const stderr = &console;

static char heap[HEAP] __attribute__((aligned(16)));
static size_t used;

void *sbrk(ptrdiff_t more)
{
    if ((ptrdiff_t)(HEAP - used) < more)
        return (void *)-1;
    used += (size_t)more;
    return heap + used - more;
}

_Noreturn void abort(void)
{
    output(FAULT);
    halt();
}

_Noreturn void _exit(int status)
{
    (void)status;
    abort();
}

/* ---- no files */

static int no_file(void)
{
    errno = ENOENT;
    return -1;
}

int open(const char *name, int how, ...)
{
    (void)name;
    (void)how;
    return no_file();
}

int close(int file)
{
    (void)file;
    return no_file();
}

ssize_t read(int file, void *bytes, size_t count)
{
    (void)file;
    (void)bytes;
    (void)count;
    return no_file();
}

ssize_t write(int file, const void *bytes, size_t count)
{
    (void)file;
    (void)bytes;
    (void)count;
    return no_file();
}

off_t lseek(int file, off_t offset, int from)
{
    (void)file;
    (void)offset;
    (void)from;
    return no_file();
}

int unlink(const char *name)
{
    (void)name;
    return no_file();
}

int stat(const char *name, struct stat *what)
{
    (void)name;
    (void)what;
    return no_file();
}

int fstat(int file, struct stat *what)
{
    (void)file;
    (void)what;
    return no_file();
}

int isatty(int file)
{
    (void)file;
    return 0;
}

/* ---- no clock: what comes by chance comes from a seed that is the same each time */

time_t time(time_t *at)
{
    if (at)
        *at = 0;
    return 0;
}

clock_t clock(void)
{
    return 0;
}

int gettimeofday(struct timeval *at, void *zone)
{
    (void)zone;
    at->tv_sec = 0;
    at->tv_usec = 0;
    return 0;
}

/* ---- words */

static uint32_t next_answer(void)
{
    uint32_t word = 0;
    for (unsigned at = 0; at < 4 && answered != printed; at++)
        word |= (uint32_t)(unsigned char)answers[answered++ % ANSWERS] << 8 * at;
    return word;
}

void guest(unsigned hart)
{
    (void)hart;
    /* The C library keeps errno in the thread's own block. */
    static char block[256] __attribute__((aligned(16)));
    __asm__ volatile("mv tp, %0" : : "r"(block));
    let_in(WORD_BIT);
    begin();
    for (;;) {
        while (taken != came) {
            uint32_t word = queue[taken % QUEUE];
            taken++;
            csr_set(mie, WORD_BIT);
            for (unsigned at = 0; at < 4; at++) {
                char byte = (char)(word >> 8 * at);
                if (byte)
                    take(byte);
            }
            output(next_answer());
        }
        idle();
    }
}
