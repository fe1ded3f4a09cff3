/* One hart sorts numbers, taken as signed, by merging, and outputs them in rising order. */
#include "guest.h"

enum { NUMBERS = 64 };

static int32_t numbers[NUMBERS], room[NUMBERS];

/* Merges the sorted halves of a part of the numbers. */
static void merge(int from, int middle, int to)
{
    int left = from, right = middle;
    for (int at = from; at < to; at++) {
        int is_left = left < middle && (right == to || numbers[left] <= numbers[right]);
        room[at] = is_left ? numbers[left++] : numbers[right++];
    }
    for (int at = from; at < to; at++)
        numbers[at] = room[at];
}

static void sort(int from, int to)
{
    int middle = from + (to - from) / 2;
    if (to - from < 2)
        return;
    sort(from, middle);
    sort(middle, to);
    merge(from, middle, to);
}

void guest(unsigned hart)
{
    (void)hart;
    uint32_t place = 2026;
    for (int at = 0; at < NUMBERS; at++)
        numbers[at] = (int32_t)(next_number(&place) << 8);
    sort(0, NUMBERS);
    for (int at = 0; at < NUMBERS; at++)
        output((uint32_t)numbers[at]);
}
