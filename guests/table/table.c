/* Numbers in a table of 197 pages, over which they are spread: outputs how many there are, how many of another row are among them, and
   their sum. */
#include "guest.h"

enum { SLOTS = 197 * 1024, NUMBERS = 4000, RANGE = 5000 };

/* One more than a number, or 0. */
static uint32_t table[SLOTS];

/* Where the number stands, or the free place where it belongs. */
static uint32_t *place_of(uint32_t number)
{
    uint32_t slot = number * 2654435769u % SLOTS;
    while (table[slot] != 0 && table[slot] != number + 1)
        slot = slot + 1 < SLOTS ? slot + 1 : 0;
    return &table[slot];
}

void guest(unsigned hart)
{
    uint32_t row = 5, other_row = 6 + hart;
    uint32_t many = 0, found = 0, sum = 0;
    for (unsigned at = 0; at < NUMBERS; at++) {
        uint32_t number = next_number(&row) % RANGE;
        uint32_t *place = place_of(number);
        if (*place == 0) {
            *place = number + 1;
            many++;
            sum += number;
        }
    }
    for (unsigned at = 0; at < NUMBERS; at++)
        found += *place_of(next_number(&other_row) % RANGE) != 0;
    output(many);
    output(found);
    output(sum);
}
