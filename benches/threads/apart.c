/* Harts that share the code alone: each goes over words on its own stack, again and again. */
#include "guest.h"

#ifndef PASSES
#define PASSES 400
#endif

enum { WORDS = 256 };

void guest(unsigned hart)
{
    uint32_t words[WORDS];
    uint32_t sum = hart;
    for (unsigned at = 0; at < WORDS; at++)
        words[at] = at * 2654435761u;
    for (unsigned pass = 0; pass < PASSES; pass++)
        for (unsigned at = 0; at < WORDS; at++) {
            sum = (sum << 5) + (sum >> 2) + words[at];
            words[at] ^= sum;
        }
    output(sum);
}
