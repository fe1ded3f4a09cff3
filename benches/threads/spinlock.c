/* Harts that count under one lock. */
#include "guest.h"

static volatile uint32_t held;
static volatile uint32_t count, twice;

void guest(unsigned hart)
{
    (void)hart;
    for (unsigned time = 0; time < 1000; time++) {
        lock(&held);
        count = count + 1;
        twice = twice + 2;
        unlock(&held);
    }
    while (count < 1000 * HARTS)
        idle();
    output(twice);
}
