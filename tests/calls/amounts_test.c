/* The calls of signed amounts held to the plain implementation, through expander.h (lend.h). */
#include "lend.h"
#include "../plain/plain_amounts.h"

#include <inttypes.h>

#define P EXPANDER_MODULUS
#define MAX EXPANDER_AMOUNT_MAX

enum { READ_AMOUNT, WRITE_AMOUNT, CALLS };

static const struct call calls[CALLS] = {{"read_amount", BIT(0) | BIT(8)},
                                         {"write_amount", BIT(0) | BIT(19)}};

static struct expander_amount try_read(uint64_t element)
{
    struct expander_amount mine, plain;
    int same;
    describe("read_amount(%" PRIu64 ")", element);
    mine = expander_read_amount(element);
    plain = plain_read_amount(element);
    same = mine.number == plain.number && mine.amount == plain.amount;
    if (!same)
        complain("returned %" PRIu32 ", %" PRId64 "; the plain implementation %" PRIu32
                 ", %" PRId64, mine.number, mine.amount, plain.number, plain.amount);
    settle_lent(READ_AMOUNT, same, plain.number, 0, 0, 0, 0);
    return mine;
}

static struct expander_written_amount try_write(int64_t amount)
{
    struct expander_written_amount mine, plain;
    int same;
    describe("write_amount(%" PRId64 ")", amount);
    mine = expander_write_amount(amount);
    plain = plain_write_amount(amount);
    same = mine.number == plain.number && mine.element == plain.element;
    if (!same)
        complain("returned %" PRIu32 ", %" PRIu64 "; the plain implementation %" PRIu32
                 ", %" PRIu64, mine.number, mine.element, plain.number, plain.element);
    settle_lent(WRITE_AMOUNT, same, plain.number, 0, 0, 0, 0);
    return mine;
}

/* Reading a word: 8 from p on, and writing the amount read gives the element again. */
static void read_word(uint64_t element)
{
    struct expander_amount r = try_read(element);
    struct expander_written_amount back;
    EXPECT(r.number == (element >= P ? EXPANDER_NOT_ELEMENT : EXPANDER_ACCEPTED));
    if (r.number != 0) {
        EXPECT(r.amount == 0);
        return;
    }
    EXPECT(r.amount >= -MAX && r.amount <= MAX);
    EXPECT(r.amount >= 0 ? (uint64_t)r.amount == element : element + (uint64_t)-r.amount == P);
    back = try_write(r.amount);
    EXPECT(back.number == 0 && back.element == element);
}

/* Writing an amount: 19 outside the range, and reading the element written gives it again. */
static void write_word(int64_t amount)
{
    struct expander_written_amount r = try_write(amount);
    struct expander_amount back;
    EXPECT(r.number == (amount < -MAX || amount > MAX ? EXPANDER_AMOUNT_OUT_OF_RANGE
                                                      : EXPANDER_ACCEPTED));
    if (r.number != 0) {
        EXPECT(r.element == 0);
        return;
    }
    EXPECT(r.element < P);
    back = try_read(r.element);
    EXPECT(back.number == 0 && back.amount == amount);
}

/* The sum of two written amounts reads as their sum where that is in range; the difference of p
 * and a written amount as its negative. */
static void sum(int64_t a, int64_t b)
{
    uint64_t x = try_write(a).element, y = try_write(b).element;
    struct expander_amount r = try_read((x + y) % P);
    EXPECT(r.number == 0);
    EXPECT((r.amount == a + b) == (a + b >= -MAX && a + b <= MAX));
    EXPECT(try_read((P - x) % P).amount == -a);
}

/* Both sides of every boundary, of the powers of two, and of multiples of p; the types' ends. */
static void boundaries(void)
{
    const uint64_t words[] = {0, (uint64_t)MAX, P, P + (uint64_t)MAX, 2 * P, 4 * P, 7 * P, 8 * P};
    const int64_t amounts[] = {0, MAX, -MAX, (int64_t)P, -(int64_t)P, 2 * MAX, -2 * MAX};
    for (size_t k = 0; k < sizeof words / sizeof *words; k++)
        for (uint64_t off = 0; off < 9; off++)
            read_word(words[k] - 4 + off);
    for (size_t k = 0; k < sizeof amounts / sizeof *amounts; k++)
        for (int64_t off = -4; off <= 4; off++)
            write_word(amounts[k] + off);
    for (unsigned k = 0; k < 63; k++)
        for (int64_t off = -2; off <= 2; off++) {
            read_word(((uint64_t)2 << k) + (uint64_t)off);
            write_word(((int64_t)1 << k) + off);
            write_word(-((int64_t)1 << k) + off);
        }
    for (int64_t off = 0; off < 9; off++) {
        write_word(INT64_MIN + off);
        write_word(INT64_MAX - off);
    }
}

int main(void)
{
    const int64_t edges[] = {0, 1, 2, 3, MAX / 2, MAX / 2 + 1, MAX / 2 + 2, MAX - 2, MAX - 1, MAX};
    enum { EDGES = sizeof edges / sizeof *edges };
    begin(calls, CALLS);
    boundaries();
    for (int a = 0; a < EDGES; a++)
        for (int b = 0; b < EDGES; b++)
            for (int signs = 0; signs < 4; signs++)
                sum(signs & 1 ? -edges[a] : edges[a], signs & 2 ? -edges[b] : edges[b]);
    for (int round = 0; round < 20000; round++) {
        uint64_t word = random_word();
        int64_t a = (int64_t)(random_word() >> 4), b = (int64_t)(random_word() >> 4);
        read_word(word >> random_below(64));
        read_word(word % P);
        write_word((int64_t)(word >> (1 + random_below(63))));
        write_word(-(int64_t)(word >> (1 + random_below(63))));
        a = random_below(2) ? a : -a;
        b = random_below(2) ? b : -b;
        sum(a, b);
    }
    return finish();
}
