/* 32 harts, each with a page of its own: it fills the page with a row of numbers, outputs their sum, and adds it to a word that all
   have. Once all have come so far, hart 0 outputs that word. */
#include "guest.h"

enum { NUMBERS = 1024 };

static uint32_t pages[HARTS][NUMBERS] __attribute__((aligned(4096)));
static volatile uint32_t total;
static volatile uint32_t arrived;

void guest(unsigned hart)
{
    uint32_t place = 300 + hart, sum = 0;
    for (unsigned at = 0; at < NUMBERS; at++)
        pages[hart][at] = next_number(&place);
    for (unsigned at = 0; at < NUMBERS; at++)
        sum += pages[hart][at];
    output(sum);
    amo_add(&total, sum);
    meet(&arrived);
    if (hart == 0)
        output(total);
}
