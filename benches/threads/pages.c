/* Harts that each add to a word of each page, again and again: with their code and their stacks they have 64 pages, as many as a guest of eight
   harts could once have. What a machine and its book take of memory is measured by it. */
#include "guest.h"

enum { SHARED = 54, WORDS = 1024 };

static volatile uint32_t words[SHARED * WORDS];

void guest(unsigned hart)
{
    uint32_t sum = 0;
    for (unsigned time = 0; time < 20; time++)
        for (unsigned page = 0; page < SHARED; page++)
            sum += amo_add(&words[page * WORDS + hart], page + time + 1);
    output(sum);
}
