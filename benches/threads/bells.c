/* Hart 0 rings each other hart, which rings back. */
#include "guest.h"

void guest(unsigned hart)
{
    for (unsigned time = 0; time < 300; time++) {
        if (hart == 0) {
            unsigned other = 1 + time % (HARTS - 1);
            ring(other);
            wait_for_bell();
            output(time * 8 + other);
        } else if (time % (HARTS - 1) == hart - 1) {
            wait_for_bell();
            ring(0);
        }
    }
}
