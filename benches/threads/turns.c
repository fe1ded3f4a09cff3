/* Harts go in turns, by a word in RAM. */
#include "guest.h"

static volatile uint32_t turn;
static volatile uint32_t word = 1;

void guest(unsigned hart)
{
    for (unsigned round = 0; round < 100; round++) {
        while (turn != round * HARTS + hart)
            idle();
        word = word * 5 + hart;
        output(word);
        turn = turn + 1;
    }
}
