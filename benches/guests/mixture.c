/* One hart goes round by round through what C programs do: a CRC-32 by table over a page's eighth, a pass of a sort, and a loop with a
   multiplication and a division. It goes on for longer than any budget of a bench. */
#include "guest.h"

enum { BYTES = 512, NUMBERS = 64, TERMS = 100, ROUNDS = 100000 };

static uint32_t table[256];
static uint8_t bytes[BYTES];
static uint32_t numbers[NUMBERS];

static void make_table(void)
{
    for (uint32_t byte = 0; byte < 256; byte++) {
        uint32_t word = byte;
        for (int bit = 0; bit < 8; bit++)
            word = word & 1 ? 0xedb88320 ^ word >> 1 : word >> 1;
        table[byte] = word;
    }
}

static uint32_t crc(void)
{
    uint32_t word = 0xffffffff;
    for (int at = 0; at < BYTES; at++)
        word = table[(word ^ bytes[at]) & 0xff] ^ word >> 8;
    return ~word;
}

/* One pass: of two neighbours the greater one goes behind. */
static void pass(void)
{
    for (int at = 0; at + 1 < NUMBERS; at++)
        if (numbers[at] > numbers[at + 1]) {
            uint32_t greater = numbers[at];
            numbers[at] = numbers[at + 1];
            numbers[at + 1] = greater;
        }
}

static uint32_t quotients(uint32_t seed)
{
    uint32_t sum = 0;
    for (uint32_t term = 1; term <= TERMS; term++)
        sum += seed * term / (term + 7);
    return sum;
}

void guest(unsigned hart)
{
    (void)hart;
    uint32_t place = 2026, sum = 0;
    make_table();
    for (int at = 0; at < BYTES; at++)
        bytes[at] = (uint8_t)next_number(&place);
    for (int at = 0; at < NUMBERS; at++)
        numbers[at] = next_number(&place);
    for (int round = 0; round < ROUNDS; round++) {
        sum += crc();
        pass();
        sum ^= quotients(sum);
        bytes[round % BYTES] = (uint8_t)sum;
        numbers[round % NUMBERS] = sum;
    }
    output(sum);
}
