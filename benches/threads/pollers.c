/* Seven harts look at a word until the eighth has written it, after a long count. */
#include "guest.h"

static volatile uint32_t flag;

void guest(unsigned hart)
{
    if (hart == HARTS - 1) {
        for (volatile uint32_t time = 0; time < 10000; time++)
            ;
        flag = 17;
    } else {
        while (!flag)
            idle();
        output(flag + hart);
    }
}
