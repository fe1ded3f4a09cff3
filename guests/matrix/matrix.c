/* Four harts multiply two matrices: hart h computes the rows h, h + 4, .. of the product and outputs the sum of each. */
#include "guest.h"

enum { SIZE = 16 };

static int32_t left[SIZE][SIZE], right[SIZE][SIZE], product[SIZE][SIZE];
static volatile uint32_t filled;

static void fill(int32_t matrix[SIZE][SIZE], uint32_t place)
{
    for (int row = 0; row < SIZE; row++)
        for (int column = 0; column < SIZE; column++)
            matrix[row][column] = (int32_t)(next_number(&place) % 2001) - 1000;
}

/* Computes a row of the product and answers its sum. */
static int32_t multiply(int row)
{
    int32_t sum = 0;
    for (int column = 0; column < SIZE; column++) {
        int32_t entry = 0;
        for (int at = 0; at < SIZE; at++)
            entry += left[row][at] * right[at][column];
        product[row][column] = entry;
        sum += entry;
    }
    return sum;
}

void guest(unsigned hart)
{
    if (hart == 0)
        fill(left, 7);
    if (hart == 1)
        fill(right, 11);
    meet(&filled);
    for (int row = (int)hart; row < SIZE; row += HARTS)
        output((uint32_t)multiply(row));
}
