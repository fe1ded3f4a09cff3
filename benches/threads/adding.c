/* Harts that add to one word. */
#include "guest.h"

static volatile uint32_t sum;

void guest(unsigned hart)
{
    for (unsigned time = 0; time < 10000; time++)
        amo_add(&sum, hart + 1);
}
