// What passes between the processes of a pair, and nothing else: a primary and keepers that hand bytes on and know no guest, and a client, which serves the real
// ones too. Outputs are waited for by poll, on one thread each.
//   hops client REQUESTS ANSWERS FIRST COUNT WINDOW MILLIS   asks hart 0 for so many words from number FIRST on, WINDOW at most without an answer, and again where
//                                                           MILLIS milliseconds bring none; prints each word's nanoseconds up to its answer, by number
//   hops primary REQUESTS ANSWERS SIZE NEED FRAMES.. ACKS..  sends SIZE bytes to each keeper for a request, and answers it when NEED keepers have acknowledged them
//   hops keeper K FRAMES ACKS LOG SIZE synced|unsynced       adds what comes to LOG, brings LOG to disk, looks for LOG.fences, and acknowledges
// FIFOs are opened to read and to write, so that nobody waits for another end, and none ends.
#define _GNU_SOURCE
#include <fcntl.h>
#include <poll.h>
#include <signal.h>
#include <stdint.h>
#include <stdio.h>
#include <stdlib.h>
#include <string.h>
#include <time.h>
#include <unistd.h>

enum { KEEPERS = 5, PIECE = 65536 };

static void stop(const char *what) {
    perror(what);
    exit(1);
}

static int64_t now(void) {
    struct timespec time;
    clock_gettime(CLOCK_MONOTONIC, &time);
    return time.tv_sec * 1000000000LL + time.tv_nsec;
}

static int opened(const char *path) {
    int file = open(path, O_RDWR);
    if (file < 0) stop(path);
    return file;
}

static void write_all(int file, const char *bytes, size_t size) {
    while (size > 0) {
        ssize_t written = write(file, bytes, size);
        if (written <= 0) stop("write");
        bytes += written;
        size -= written;
    }
}

// The lines of one input, in pieces.
struct lines {
    int file;
    size_t filled;
    char bytes[PIECE];
};

// Reads a piece, and has each line in it taken.
static void take_lines(struct lines *in, void (*take)(char *line, void *with), void *with) {
    ssize_t count = read(in->file, in->bytes + in->filled, PIECE - 1 - in->filled);
    if (count <= 0) stop("read");
    in->filled += count;
    in->bytes[in->filled] = 0;
    char *from = in->bytes, *end;
    while ((end = strchr(from, '\n'))) {
        *end = 0;
        take(from, with);
        from = end + 1;
    }
    in->filled -= from - in->bytes;
    memmove(in->bytes, from, in->filled);
}

// ---- the client

struct client {
    int requests;
    long first, count, sent, open, missing;  // missing: the first number without an answer
    int64_t *asked, *took;
};

// A request of the service of guests/service, by its number. Where no word is open, it says before it that all answers so far were read.
static void ask(struct client *c, long number) {
    char line[96];
    int size = 0;
    uint32_t chance = (uint32_t)number * 2654435761u >> 8;
    uint32_t word = (1 + chance % 3) << 24 | (chance / 3 % 40) << 16 | (1 + chance / 120 % 7);
    if (!c->open) size = snprintf(line, sizeof line, "0 from %ld\n", number);
    size += snprintf(line + size, sizeof line - size, "0 word %08x %ld\n", word, number);
    write_all(c->requests, line, size);
}

static void take_answer(char *line, void *with) {
    struct client *c = with;
    unsigned long term, number, step;
    unsigned word;
    if (sscanf(line, "term %lu hart 0 number %lu step %lu word %x", &term, &number, &step, &word) != 4) return;
    long place = (long)number - c->first;
    if (place < 0 || place >= c->sent || c->took[place]) return;
    c->took[place] = now() - c->asked[place];
    c->open--;
    while (c->missing < c->sent && c->took[c->missing]) c->missing++;
}

static void ask_again(struct client *c) {
    char line[64];
    write_all(c->requests, line, snprintf(line, sizeof line, "0 from %ld\n", c->first + c->missing));
    for (long place = c->missing; place < c->sent; place++)
        if (!c->took[place]) ask(c, c->first + place);
}

static void client(char **words) {
    static struct lines answers;
    struct client c = {.requests = opened(words[0]), .first = atol(words[2]), .count = atol(words[3])};
    long window = atol(words[4]);
    answers.file = opened(words[1]);
    c.asked = calloc(c.count, sizeof *c.asked);
    c.took = calloc(c.count, sizeof *c.took);
    while (c.missing < c.count) {
        for (; c.sent < c.count && c.open < window; c.sent++, c.open++) {
            c.asked[c.sent] = now();
            ask(&c, c.first + c.sent);
        }
        struct pollfd in = {answers.file, POLLIN, 0};
        if (poll(&in, 1, atoi(words[5])) > 0)
            take_lines(&answers, take_answer, &c);
        else
            ask_again(&c);
    }
    for (long place = 0; place < c.count; place++) printf("%lld\n", (long long)c.took[place]);
}

// ---- the primary

struct primary {
    int answers, keepers, need, frames[KEEPERS];
    size_t size;
    char *piece;
    long asked, told, acked[KEEPERS];
};

static void take_request(char *line, void *with) {
    struct primary *p = with;
    long number;
    if (sscanf(line, "0 word %*x %ld", &number) != 1 || number != p->asked) return;
    p->asked++;
    for (int k = 0; k < p->keepers; k++) write_all(p->frames[k], p->piece, p->size);
}

static int holds(const struct primary *p, long number) {
    int holders = 0;
    for (int k = 0; k < p->keepers; k++) holders += p->acked[k] > number;
    return holders >= p->need;
}

static void take_ack(char *line, void *with) {
    struct primary *p = with;
    long pieces;
    int k;
    if (sscanf(line, "ack 1 %d %ld", &k, &pieces) != 2 || k < 0 || k >= p->keepers) return;
    p->acked[k] = pieces;
    for (; holds(p, p->told); p->told++) {
        char answer[96];
        int size = snprintf(answer, sizeof answer, "term 1 hart 0 number %ld step %ld word a0070011\n", p->told, p->told * 240);
        write_all(p->answers, answer, size);
    }
}

static void primary(int many, char **words) {
    static struct lines in[KEEPERS + 1];
    struct pollfd ends[KEEPERS + 1];
    struct primary p = {.answers = opened(words[1]), .size = atol(words[2]), .need = atoi(words[3]), .keepers = (many - 4) / 2};
    p.piece = calloc(1, p.size);
    in[0].file = opened(words[0]);
    for (int k = 0; k < p.keepers; k++) {
        p.frames[k] = opened(words[4 + k]);
        in[1 + k].file = opened(words[4 + p.keepers + k]);
    }
    for (int i = 0; i <= p.keepers; i++) ends[i] = (struct pollfd){in[i].file, POLLIN, 0};
    for (;;) {
        if (poll(ends, p.keepers + 1, -1) < 0) stop("poll");
        for (int i = 0; i <= p.keepers; i++)
            if (ends[i].revents & POLLIN) take_lines(&in[i], i ? take_ack : take_request, &p);
    }
}

// ---- a keeper

static void look_for_fence(const char *log) {
    char name[4096], bytes[4096];
    snprintf(name, sizeof name, "%s.fences", log);
    int file = open(name, O_RDONLY);
    if (file < 0) return;
    while (read(file, bytes, sizeof bytes) > 0) {}
    close(file);
}

static void keeper(char **words) {
    static char bytes[PIECE];
    int frames = opened(words[1]), acks = opened(words[2]), log = open(words[3], O_WRONLY | O_APPEND | O_CREAT, 0666);
    int synced = strcmp(words[5], "synced") == 0;
    long size = atol(words[4]), came = 0;
    if (log < 0) stop(words[3]);
    for (;;) {
        ssize_t count = read(frames, bytes, sizeof bytes);
        if (count <= 0) stop("read");
        write_all(log, bytes, count);
        if (synced && fdatasync(log) != 0) stop("fdatasync");
        look_for_fence(words[3]);
        long before = came / size;
        came += count;
        char line[128];
        if (came / size > before) write_all(acks, line, snprintf(line, sizeof line, "ack 1 %s %ld 0 00000000\n", words[0], came / size));
    }
}

int main(int argc, char **argv) {
    signal(SIGPIPE, SIG_IGN);
    if (argc == 8 && strcmp(argv[1], "client") == 0)
        client(argv + 2);
    else if (argc >= 8 && argc % 2 == 0 && argc <= 6 + 2 * KEEPERS && strcmp(argv[1], "primary") == 0)
        primary(argc - 2, argv + 2);
    else if (argc == 8 && strcmp(argv[1], "keeper") == 0)
        keeper(argv + 2);
    else
        return 2;
    return 0;
}
