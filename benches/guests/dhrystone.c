/* The loop of Dhrystone 2.1 (R. Weicker, 1988), without its clock and its report: records that point to each other, strings that are copied and
   compared, arrays, and calls of small procedures. It goes on for longer than any budget of a bench. */
#include "guest.h"

enum { ROUNDS = 1000000 };

typedef enum { Ident_1, Ident_2, Ident_3, Ident_4, Ident_5 } Identity;
typedef char Text[32];

typedef struct Record {
    struct Record *next;
    Identity kind, component;
    int32_t number;
    Text text;
} Record;

static Record first, second;
static Record *one, *other;
static int32_t whole, is_true;
static char char_1, char_2;
static int32_t row[50], rows[50][50];

static __attribute__((noinline)) void copy_text(char *to, const char *from)
{
    while ((*to++ = *from++))
        ;
}

static __attribute__((noinline)) int compare_texts(const char *a, const char *b)
{
    while (*a && *a == *b)
        a++, b++;
    return (unsigned char)*a - (unsigned char)*b;
}

static __attribute__((noinline)) Identity same_char(char a, char b)
{
    char local = a;
    if (local != b)
        return Ident_1;
    char_1 = local;
    return Ident_2;
}

static __attribute__((noinline)) int is_later(const char *a, const char *b)
{
    int at = 2;
    char letter = 'A';
    while (at <= 2)
        if (same_char(a[at], b[at + 1]) == Ident_1) {
            letter = 'A';
            at++;
        }
    if (letter >= 'W' && letter < 'Z')
        at = 7;
    if (letter == 'R')
        return 1;
    if (compare_texts(a, b) > 0) {
        whole = at + 7;
        return 1;
    }
    return 0;
}

static __attribute__((noinline)) int is_third(Identity identity)
{
    return identity == Ident_3;
}

static __attribute__((noinline)) void proc_6(Identity value, Identity *to)
{
    *to = is_third(value) ? value : Ident_4;
    switch (value) {
    case Ident_1: *to = Ident_1; break;
    case Ident_2: *to = whole > 100 ? Ident_1 : Ident_4; break;
    case Ident_3: *to = Ident_2; break;
    case Ident_4: break;
    case Ident_5: *to = Ident_3; break;
    }
}

static __attribute__((noinline)) void proc_7(int32_t a, int32_t b, int32_t *sum)
{
    *sum = b + (a + 2);
}

static __attribute__((noinline)) void proc_8(int32_t *line, int32_t (*table)[50], int32_t a, int32_t b)
{
    int32_t at = a + 5;
    line[at] = b;
    line[at + 1] = line[at];
    line[at + 30] = at;
    for (int32_t i = at; i <= at + 1; i++)
        table[at][i] = at;
    table[at][at - 1] += 1;
    table[at + 20][at] = line[at];
    whole = 5;
}

static __attribute__((noinline)) void proc_3(Record **to)
{
    if (one)
        *to = one->next;
    proc_7(10, whole, &one->number);
}

static __attribute__((noinline)) void proc_1(Record *record)
{
    Record *next = record->next;
    *record->next = *one;
    record->number = 5;
    next->number = record->number;
    next->next = record->next;
    proc_3(&next->next);
    if (next->kind == Ident_1) {
        next->number = 6;
        proc_6(record->component, &next->component);
        next->next = one->next;
        proc_7(next->number, 10, &next->number);
    } else {
        *record = *record->next;
    }
}

static __attribute__((noinline)) void proc_2(int32_t *number)
{
    int32_t local = *number + 10;
    for (;;)
        if (char_1 == 'A') {
            local--;
            *number = local - whole;
            return;
        }
}

static __attribute__((noinline)) void proc_4(void)
{
    is_true |= char_1 == 'A';
    char_2 = 'B';
}

static __attribute__((noinline)) void proc_5(void)
{
    char_1 = 'A';
    is_true = 0;
}

void guest(unsigned hart)
{
    int32_t a = 0, b, c = 0;
    Identity identity;
    Text text_1, text_2;
    (void)hart;
    one = &first;
    other = &second;
    first.next = &second;
    first.kind = Ident_1;
    first.component = Ident_3;
    first.number = 40;
    copy_text(first.text, "DHRYSTONE PROGRAM, SOME STRING");
    copy_text(text_1, "DHRYSTONE PROGRAM, 1'ST STRING");
    rows[8][7] = 10;
    for (int round = 0; round < ROUNDS; round++) {
        proc_5();
        proc_4();
        a = 2;
        b = 3;
        copy_text(text_2, "DHRYSTONE PROGRAM, 2'ND STRING");
        identity = Ident_2;
        is_true = !is_later(text_1, text_2);
        while (a < b) {
            c = 5 * a - b;
            proc_7(a, b, &c);
            a++;
        }
        proc_8(row, rows, a, c);
        proc_1(one);
        for (char letter = 'A'; letter <= char_2; letter++)
            if (identity == same_char(letter, 'C')) {
                proc_6(Ident_1, &identity);
                copy_text(text_2, "DHRYSTONE PROGRAM, 3'RD STRING");
                b = round;
                whole = round;
            }
        b = b * a;
        a = b / c;
        b = 7 * (b - c) - a;
        proc_2(&a);
    }
    output((uint32_t)(a + b + c + whole + row[8] + rows[8][7]));
}
