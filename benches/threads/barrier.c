/* Harts that meet again and again: whoever comes last lets all go on. Behind each meeting they read what each of them wrote before it. */
#include "guest.h"

static volatile uint32_t came, round_of_all;
static volatile uint32_t written[HARTS];

static void meet_again(unsigned round)
{
    if (amo_add(&came, 1) == HARTS - 1) {
        came = 0;
        round_of_all = round + 1;
    }
    while (round_of_all <= round)
        idle();
}

void guest(unsigned hart)
{
    uint32_t sum = 0;
    for (unsigned round = 0; round < 200; round++) {
        written[hart] = round * HARTS + hart;
        meet_again(2 * round);
        for (unsigned other = 0; other < HARTS; other++)
            sum = sum * 31 + written[other];
        meet_again(2 * round + 1);
    }
    output(sum);
}
