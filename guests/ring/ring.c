/* Eight harts in a ring hand on a word. Each waits for its neighbour's bell, changes the word by its own number, outputs it, and rings
   the next. */
#include "guest.h"

enum { ROUNDS = 3 };

static uint32_t word = 1;

static void hand_on(unsigned hart)
{
    word = word * 3 + hart;
    output(word);
    ring((hart + 1) % HARTS);
}

void guest(unsigned hart)
{
    for (unsigned round = 0; round < ROUNDS; round++) {
        if (hart != 0 || round != 0)
            wait_for_bell();
        hand_on(hart);
    }
    if (hart == 0)
        wait_for_bell();
}
