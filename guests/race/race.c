/* An account into which two harts pay without a lock: hart 0, the desk, what an input word says, and hart 1, the bank, a bonus for it. Each reads the
   balance, looks for a while whether the sum is allowed, and writes it. Where one of them reads before the other has written, a payment is lost. The desk
   puts out the balance behind each word; the word 0 ends both. */
#include "guest.h"

enum { DESK = 0, BANK = 1, BONUS = 5, QUEUE = 16, LOOKS = 20000 };

static volatile uint32_t queue[QUEUE], came, taken;
static volatile uint32_t balance, is_over;

void on_word(uint32_t word)
{
    queue[came++ % QUEUE] = word;
}

static int is_allowed(uint32_t sum)
{
    uint32_t place = sum;
    for (unsigned at = 0; at < LOOKS; at++)
        next_number(&place);
    return place != 0;
}

static void pay(uint32_t amount)
{
    uint32_t before = balance;
    if (is_allowed(before + amount))
        balance = before + amount;
}

static void bank(void)
{
    for (;;) {
        wait_for_bell();
        if (is_over)
            return;
        pay(BONUS);
        ring(DESK);
    }
}

static uint32_t next_word(void)
{
    while (taken == came)
        idle();
    return queue[taken++ % QUEUE];
}

static void desk(void)
{
    let_in(WORD_BIT);
    for (;;) {
        uint32_t amount = next_word();
        if (amount == 0)
            break;
        ring(BANK);
        pay(amount);
        wait_for_bell();
        output(balance);
    }
    is_over = 1;
    ring(BANK);
}

void guest(unsigned hart)
{
    if (hart == DESK)
        desk();
    else
        bank();
}
