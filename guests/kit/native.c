/* The main of a guest that is built natively: NAME SCRIPT runs a guest with a thread for each hart and prints `hart H out K word V` for each output. */
#include <pthread.h>
#include <sched.h>
#include <stdbool.h>
#include <stdio.h>
#include <stdlib.h>

#include "guest.h"

enum { MOST = 4096 };

struct input {
    bool timer;
    uint32_t word;
};

/* What the threads share of a hart, under one mutex. */
struct hart {
    uint32_t outputs[MOST];
    size_t output_count;
    struct input inputs[MOST];
    size_t input_count, inputs_taken;
    bool rung;
    uint32_t let_in;
};

static struct hart harts[HARTS];
static pthread_mutex_t mutex = PTHREAD_MUTEX_INITIALIZER;
static _Thread_local unsigned self;

__attribute__((weak)) void on_word(uint32_t word)
{
    (void)word;
}

__attribute__((weak)) void on_timer(void)
{
}

__attribute__((weak)) void on_bell(void)
{
}

unsigned hart_number(void)
{
    return self;
}

void output(uint32_t word)
{
    struct hart *hart = &harts[self];
    if (hart->output_count == MOST)
        exit(3);
    hart->outputs[hart->output_count++] = word;
}

void ring(unsigned hart)
{
    pthread_mutex_lock(&mutex);
    harts[hart].rung = true;
    pthread_mutex_unlock(&mutex);
}

_Noreturn void halt(void)
{
    pthread_exit(NULL);
}

void let_in(uint32_t bits)
{
    harts[self].let_in |= bits;
}

static bool take_bell(void)
{
    pthread_mutex_lock(&mutex);
    bool rung = harts[self].rung;
    harts[self].rung = false;
    pthread_mutex_unlock(&mutex);
    return rung;
}

void idle(void)
{
    struct hart *hart = &harts[self];
    if ((hart->let_in & BELL_BIT) && take_bell()) {
        on_bell();
    } else if ((hart->let_in & (WORD_BIT | TIMER_BIT)) && hart->inputs_taken < hart->input_count) {
        struct input input = hart->inputs[hart->inputs_taken++];
        if (input.timer)
            on_timer();
        else
            on_word(input.word);
    }
    sched_yield();
}

void wait_for_bell(void)
{
    while (!take_bell())
        sched_yield();
}

static void read_script(const char *name)
{
    FILE *file = fopen(name, "r");
    if (!file)
        exit(2);
    unsigned hart, word;
    unsigned long long at;
    char line[64];
    while (fgets(line, sizeof line, file)) {
        bool is_word = sscanf(line, "%u %llu word %x", &hart, &at, &word) == 3;
        if (!is_word && sscanf(line, "%u %llu timer", &hart, &at) != 2)
            exit(2);
        if (hart >= HARTS || harts[hart].input_count == MOST)
            exit(2);
        harts[hart].inputs[harts[hart].input_count++] = (struct input){!is_word, is_word ? word : 0};
    }
    fclose(file);
}

static void *start(void *number)
{
    self = (unsigned)(uintptr_t)number;
    guest(self);
    return NULL;
}

int main(int count, char **words)
{
    pthread_t threads[HARTS];
    if (count != 2)
        return 2;
    read_script(words[1]);
    for (uintptr_t hart = 0; hart < HARTS; hart++)
        if (pthread_create(&threads[hart], NULL, start, (void *)hart))
            return 3;
    for (unsigned hart = 0; hart < HARTS; hart++)
        pthread_join(threads[hart], NULL);
    for (unsigned hart = 0; hart < HARTS; hart++)
        for (size_t number = 0; number < harts[hart].output_count; number++)
            printf("hart %u out %zu word %08x\n", hart, number, harts[hart].outputs[number]);
    return 0;
}
