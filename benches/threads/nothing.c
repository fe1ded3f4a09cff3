/* Harts that end at once: what starting and ending alone takes. */
#include "guest.h"

void guest(unsigned hart)
{
    (void)hart;
}
