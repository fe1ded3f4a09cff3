/* Four harts move money between accounts, each of which has a lock. Hart 0 looks at the whole bank now and then: the sum stays. At the
   end it outputs each account, which is what it began with and what was moved, in whatever order. */
#include "guest.h"

enum { ACCOUNTS = 12, BEGINS_WITH = 1000, MOVES = 100, LOOKS = 4 };

static struct account {
    volatile uint32_t lock;
    int32_t balance;
} accounts[ACCOUNTS];

static volatile uint32_t opened, closed;

/* Locks are taken in the order of the accounts, so that no harts wait for each other in a ring. */
static void move(unsigned from, unsigned to, int32_t amount)
{
    unsigned first = from < to ? from : to, second = from < to ? to : from;
    lock(&accounts[first].lock);
    lock(&accounts[second].lock);
    accounts[from].balance -= amount;
    accounts[to].balance += amount;
    unlock(&accounts[second].lock);
    unlock(&accounts[first].lock);
}

/* The sum of all accounts, with every lock held. */
static int32_t sum(void)
{
    int32_t total = 0;
    for (unsigned at = 0; at < ACCOUNTS; at++)
        lock(&accounts[at].lock);
    for (unsigned at = 0; at < ACCOUNTS; at++)
        total += accounts[at].balance;
    for (unsigned at = 0; at < ACCOUNTS; at++)
        unlock(&accounts[at].lock);
    return total;
}

static void work(unsigned hart)
{
    uint32_t place = 100 + hart;
    for (unsigned done = 0; done < MOVES; done++) {
        unsigned from = next_number(&place) % ACCOUNTS;
        unsigned to = (from + 1 + next_number(&place) % (ACCOUNTS - 1)) % ACCOUNTS;
        move(from, to, (int32_t)(next_number(&place) % 500));
        if (hart == 0 && done % (MOVES / LOOKS) == 0)
            output((uint32_t)sum());
    }
}

void guest(unsigned hart)
{
    if (hart == 0)
        for (unsigned at = 0; at < ACCOUNTS; at++)
            accounts[at].balance = BEGINS_WITH;
    meet(&opened);
    work(hart);
    meet(&closed);
    if (hart == 0)
        for (unsigned at = 0; at < ACCOUNTS; at++)
            output((uint32_t)accounts[at].balance);
    else
        output(MOVES);
}
