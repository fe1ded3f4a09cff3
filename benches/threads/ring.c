/* Eight harts hand on a word in a ring, each rung by its neighbour. */
#include "guest.h"

static volatile uint32_t word = 1;

void guest(unsigned hart)
{
    for (unsigned round = 0; round < 100; round++) {
        if (hart != 0 || round != 0)
            wait_for_bell();
        word = word * 3 + hart;
        output(word);
        ring((hart + 1) % HARTS);
    }
    if (hart == 0)
        wait_for_bell();
}
