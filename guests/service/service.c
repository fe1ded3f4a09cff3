/* A service that gives away the seats of a hall. A client sends a request as an input word to hart 0, the desk, and has an answer as an
   output of it. Hart 1, the office, has the book of seats; desk and office ring each other.

   A request is OOSSCCCC: what is asked, the seat and the client, which is not 0. An answer is AASSCCCC: what came of it, the seat, and
   the client who has the seat now, or 0. At closing time, a timer's interrupt of the desk, what was asked is still answered, and then
   the number of seats that are taken is put out as CC000000 and that number. */
#include "guest.h"

enum { DESK = 0, OFFICE = 1, SEATS = 40, QUEUE = 16 };

/* What is asked: to have the seat, to give it back, or who has it. */
enum { RESERVE = 0x01, GIVE_BACK = 0x02, WHO = 0x03 };

/* What came of it. BUSY is the answer to a request that found the queue full, and LOST tells how many came too fast to be read. */
enum { DONE = 0xa0, REFUSED = 0xb0, UNKNOWN = 0xe0, BUSY = 0xe1, LOST = 0xe2, CLOSED = 0xcc };

/* Requests that wait at the desk: on_word puts them in, and the desk's loop takes them out. */
static volatile uint32_t queue[QUEUE], came, taken;
static volatile uint32_t is_closing;

/* The one request that the office works at, and its answer. */
static uint32_t request, answer, is_over;

static uint32_t book[SEATS];

static uint32_t as_answer(uint32_t code, uint32_t seat, uint32_t client)
{
    return code << 24 | seat << 16 | client;
}

void on_word(uint32_t word)
{
    if (came - taken == QUEUE)
        output(as_answer(BUSY, word >> 16 & 0xff, word & 0xffff));
    else
        queue[came++ % QUEUE] = word;
}

void on_lost(uint32_t words)
{
    output(as_answer(LOST, 0, words));
}

void on_timer(void)
{
    is_closing = 1;
}

/* Does what is asked in the book and answers what came of it. */
static uint32_t serve(uint32_t word)
{
    uint32_t asked = word >> 24, seat = word >> 16 & 0xff, client = word & 0xffff;
    if (seat >= SEATS || client == 0 || asked < RESERVE || asked > WHO)
        return as_answer(UNKNOWN, seat, client);
    int is_free = book[seat] == 0, is_own = book[seat] == client;
    if (asked == RESERVE && is_free)
        book[seat] = client;
    if (asked == GIVE_BACK && is_own)
        book[seat] = 0;
    int is_done = asked == WHO || is_own || (asked == RESERVE && is_free);
    return as_answer(is_done ? DONE : REFUSED, seat, book[seat]);
}

static uint32_t taken_seats(void)
{
    uint32_t number = 0;
    for (int seat = 0; seat < SEATS; seat++)
        number += book[seat] != 0;
    return number;
}

static void office(void)
{
    for (;;) {
        wait_for_bell();
        if (is_over)
            return;
        answer = serve(request);
        ring(DESK);
    }
}

/* Has the office answer a request. Words that come meanwhile go into the queue. */
static uint32_t ask(uint32_t word)
{
    request = word;
    ring(OFFICE);
    wait_for_bell();
    return answer;
}

static void desk(void)
{
    let_in(WORD_BIT | TIMER_BIT);
    for (;;) {
        /* Looked at first: what came before closing time is in the queue by then. */
        uint32_t is_last = is_closing;
        while (taken != came) {
            uint32_t word = queue[taken % QUEUE];
            taken++;
            output(ask(word));
        }
        if (is_last)
            break;
        idle();
    }
    is_over = 1;
    ring(OFFICE);
    output(as_answer(CLOSED, 0, taken_seats()));
}

void guest(unsigned hart)
{
    if (hart == DESK)
        desk();
    else
        office();
}
