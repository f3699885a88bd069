/* The expansion for the bench held to the plain implementation, and to the library's own offline
 * and online calls, through expander.h (lend.h).
 */
#include "faults.h"
#include "lend.h"
#include "../plain/plain_direct.h"

#include <string.h>

#define P PLAIN_P

typedef struct plain_result result;
typedef struct plain_block block;

enum { NOISE_DIRECT, SCALAR_DIRECT, CALLS };
enum { LEAVES = EXPANDER_LEAVES_MAX, ROOM = EXPANDER_OUTPUTS_MAX + 64 };

#define HEAD_NUMBERS (BIT(1) | BIT(2) | BIT(9) | BIT(10) | BIT(11) | BIT(12))
static const struct call calls[CALLS] = {
    {"noise_direct", BIT(0) | HEAD_NUMBERS | BIT(4) | BIT(5) | BIT(8) | BIT(7) | BIT(13)},
    {"scalar_direct", BIT(0) | HEAD_NUMBERS | BIT(6) | BIT(7) | BIT(13)},
};

/* ---- A record and what the library's offline call makes of it ---- */

static struct held {
    int end; /* that reads it: 1 noise, 2 scalar */
    uint8_t record[EXPANDER_NOISE_RECORD_MAX + 8];
    size_t len;
    uint32_t number; /* of the offline call */
    uint64_t noise[LEAVES], elements[2 * LEAVES], delta[2];
    size_t noise_len, elements_len;
} noise_end, scalar_end, other; /* the ends of the dealing x, and a record with faults */

static void offline(struct held *h)
{
    if (h->end == 1) {
        struct expander_two_lengths r = expander_noise_offline(h->record, h->len, h->noise, LEAVES,
                                                               h->elements, 2 * LEAVES);
        h->number = r.number;
        h->noise_len = r.first_written;
        h->elements_len = r.second_written;
    } else {
        struct expander_two_lengths r = expander_scalar_offline(h->record, h->len, h->elements,
                                                                2 * LEAVES, h->delta, 2);
        h->number = r.number;
        h->elements_len = r.first_written;
    }
}

/* The online call on the offline vectors and on buffers of the same content gives the same: number,
 * lengths, and the buffers whole. A record that is refused is refused by the offline call too, with
 * the same number. */
static void beside_online(const struct held *h, size_t first, size_t count, result mine)
{
    static uint64_t out[2][2 * ROOM];
    size_t len[2];
    result same;
    if (h->number != 0) {
        EXPECT(mine.number == h->number);
        return;
    }
    for (int k = 0; k < 3 - h->end; k++) {
        len[k] = lent[1 + k].bytes / 8;
        memcpy(out[k], lent[1 + k].before, lent[1 + k].bytes);
    }
    same = h->end == 1
        ? two(expander_noise_online(h->record, h->len, h->noise, h->noise_len, h->elements,
                                    h->elements_len, first, count, out[0], len[0], out[1], len[1]))
        : one(expander_scalar_online(h->record, h->len, h->elements, h->elements_len, first, count,
                                     out[0], len[0]));
    EXPECT(mine.number == same.number && mine.first == same.first && mine.second == same.second);
    for (int k = 0; k < 3 - h->end; k++)
        EXPECT(memcmp(out[k], lent[1 + k].library, lent[1 + k].bytes) == 0);
}

/* ---- The calls, each made by both; what the library wrote goes to *_out, if not NULL ---- */

static uint32_t try_noise(const struct held *h, size_t first, size_t count, size_t u_len,
                          size_t v_len, uint64_t *u_out, uint64_t *v_out)
{
    result mine, plain;
    describe("noise_direct(record of %zu bytes, window %zu and %zu, %zu, %zu)", h->len, first,
             count, u_len, v_len);
    lend(0, h->record, h->len, 1);
    lend(1, NULL, u_len, 8);
    lend(2, NULL, v_len, 8);
    mine = two(expander_noise_direct(LIBRARY(0, uint8_t), h->len, first, count,
                                     LIBRARY(1, uint64_t), u_len, LIBRARY(2, uint64_t), v_len));
    plain = two(plain_noise_direct(PLAIN(0, uint8_t), h->len, first, count, PLAIN(1, uint64_t),
                                   u_len, PLAIN(2, uint64_t), v_len));
    settle(NOISE_DIRECT, mine, plain, 1, 2, 8 * plain.first, 8 * plain.second);
    beside_online(h, first, count, mine);
    keep(u_out, 1, 8 * plain.first);
    keep(v_out, 2, 8 * plain.second);
    return mine.number;
}

static uint32_t try_scalar(const struct held *h, size_t first, size_t count, size_t w_len,
                           uint64_t *w_out)
{
    result mine, plain;
    describe("scalar_direct(record of %zu bytes, window %zu and %zu, %zu)", h->len, first, count,
             w_len);
    lend(0, h->record, h->len, 1);
    lend(1, NULL, w_len, 8);
    mine = one(expander_scalar_direct(LIBRARY(0, uint8_t), h->len, first, count,
                                      LIBRARY(1, uint64_t), w_len));
    plain = one(plain_scalar_direct(PLAIN(0, uint8_t), h->len, first, count, PLAIN(1, uint64_t),
                                    w_len));
    settle(SCALAR_DIRECT, mine, plain, 1, 1, 8 * plain.first, 0);
    beside_online(h, first, count, mine);
    keep(w_out, 1, 8 * plain.first);
    return mine.number;
}

/* ---- One dealing ---- */

static struct dealing x;
static size_t leaves, width;
static uint64_t u_out[ROOM], v_out[2 * ROOM], w_out[2 * ROOM];

/* Deal x, and hold both records. */
static void deal(void)
{
    struct expander_two_lengths r;
    describe("deal(field %u, d %zu, g %zu, t %zu, l %zu, n %zu)", x.field, x.depth, x.branch_bits,
             x.trees, x.terms, x.outputs);
    r = expander_deal(x.field, x.depth, x.branch_bits, x.trees, x.terms, x.outputs, x.roots,
                      16 * x.trees, x.positions, x.trees, x.values, x.trees, x.delta, 16,
                      x.code_key, 16, x.label, 16, noise_end.record, sizeof noise_end.record,
                      scalar_end.record, sizeof scalar_end.record);
    EXPECT(r.number == 0);
    leaves = (size_t)1 << x.depth;
    width = EXPANDER_ELEMENT_WORDS(x.field);
    noise_end.end = 1;
    noise_end.len = r.first_written;
    scalar_end.end = 2;
    scalar_end.len = r.second_written;
    offline(&noise_end);
    offline(&scalar_end);
    EXPECT(noise_end.number == 0 && scalar_end.number == 0);
}

static block element(const uint64_t *words, size_t k)
{
    block b = {words[width * k], width == 2 ? words[2 * k + 1] : 0};
    return b;
}

static int same_block(block a, block b)
{
    return a.lo == b.lo && a.hi == b.hi;
}

/* A window at both ends, in buffers that may be longer than it needs: w = Delta u + v at each
 * index. */
static void window(size_t first, size_t count)
{
    block scalar = {scalar_end.delta[0], scalar_end.delta[1]};
    size_t u_more = random_extra(9), v_more = random_extra(9), w_more = random_extra(9);
    EXPECT(try_noise(&noise_end, first, count, count + u_more, width * count + v_more, u_out, v_out)
           == 0);
    EXPECT(try_scalar(&scalar_end, first, count, width * count + w_more, w_out) == 0);
    for (size_t k = 0; k < count; k++) {
        block product = plain_scale(x.field, scalar, u_out[k]);
        EXPECT(same_block(plain_add(x.field, product, element(v_out, k)), element(w_out, k)));
    }
}

/* Windows of every shape that has `most` outputs at most: about one and two batches of 32, and all;
 * at the front, up to the last index, and between. */
static void windows(size_t most)
{
    const size_t n = x.outputs, counts[] = {0, 1, 2, 31, 32, 33, 63, 64, 65, 96, 97, n};
    for (size_t k = 0; k < sizeof counts / sizeof *counts; k++) {
        size_t c = counts[k];
        if (c > n || c > most)
            continue;
        window(0, c);
        if (c < n) {
            window(n - c, c);
            window(random_below(n - c + 1), c);
        }
    }
    window(n - 1, 1);
    window(n, 0);
}

/* Windows at and past every bound, sums that would wrap among them; with 0 outputs too. */
static void bounds(void)
{
    size_t n = x.outputs, top = SIZE_MAX / 2 + 1, far = (size_t)1 << 4 * sizeof(size_t);
    const size_t tries[][2] = {
        {0, 0}, {n, 0}, {n + 1, 0}, {0, n + 1}, {n - 1, 2}, {n, 1}, {1, n}, {n + 1, 1},
        {SIZE_MAX, 0}, {0, SIZE_MAX}, {SIZE_MAX, 1}, {1, SIZE_MAX}, {SIZE_MAX, SIZE_MAX},
        {SIZE_MAX - n + 1, n}, {n, SIZE_MAX - n + 1}, {top, top}, {top, 0}, {0, top},
        {far, 0}, {0, far}, {far, 1}, {1, far}, {far - 1, 1},
    };
    for (size_t k = 0; k < sizeof tries / sizeof *tries; k++) {
        size_t first = tries[k][0], count = tries[k][1];
        uint32_t number = first > n || count > n - first ? 7 : 0;
        size_t room = number == 7 ? random_below(5) : count;
        EXPECT(try_noise(&noise_end, first, count, room, width * room, NULL, NULL) == number);
        EXPECT(try_scalar(&scalar_end, first, count, width * room, NULL) == number);
    }
}

/* Output buffers one short, one long, empty. */
static void rooms(void)
{
    size_t n = x.outputs, c = 1 + random_below(n < 40 ? n : 40), first = random_below(n - c + 1);
    size_t more = 1 + random_below(60), vc = width * c;
    EXPECT(try_noise(&noise_end, first, c, c - 1, vc, NULL, NULL) == 13);
    EXPECT(try_noise(&noise_end, first, c, c, vc - 1, NULL, NULL) == 13);
    EXPECT(try_noise(&noise_end, first, c, 0, vc + more, NULL, NULL) == 13);
    EXPECT(try_noise(&noise_end, first, c, c + more, 0, NULL, NULL) == 13);
    EXPECT(try_noise(&noise_end, first, c, c + more, vc, NULL, NULL) == 0);
    EXPECT(try_noise(&noise_end, first, c, c, vc + more, NULL, NULL) == 0);
    EXPECT(try_noise(&noise_end, first, 0, more, 0, NULL, NULL) == 0);
    EXPECT(try_scalar(&scalar_end, first, c, vc - 1, NULL) == 13);
    EXPECT(try_scalar(&scalar_end, first, c, 0, NULL) == 13);
    EXPECT(try_scalar(&scalar_end, first, c, vc + more, NULL) == 0);
    EXPECT(try_scalar(&scalar_end, first, 0, more, NULL) == 0);
}

/* ---- The code matrix by its definition ---- */

/* The entry in row `row` at place j. */
static uint64_t entry(const struct plain_key *code, size_t row, size_t j)
{
    block sum = {0, 0}, coefficient = {0, 0};
    for (size_t i = 0; i < x.terms; i++)
        if (plain_term(code, x.field, leaves / x.terms, row, i, &coefficient.lo) >= j)
            sum = plain_add(x.field, sum, coefficient);
    return sum.lo;
}

/* What stands at place j before accumulating. */
static block unaccumulated(const uint64_t *accumulated, size_t j)
{
    block before = {0, 0};
    if (j > 0)
        before = element(accumulated, j - 1);
    return plain_subtract(x.field, element(accumulated, j), before);
}

/* An output is the sum over all places of its row's entry × what stands there. */
static void by_definition(size_t row)
{
    block u = {0, 0}, v = {0, 0}, w = {0, 0}, u_there = {0, 0};
    struct plain_key code;
    plain_expand_key(&code, x.code_key);
    for (size_t j = 0; j < leaves; j++) {
        uint64_t here = entry(&code, row, j);
        block noise = {0, 0};
        for (size_t i = 0; i < x.trees; i++)
            if (x.positions[i] == j)
                noise.lo = x.values[i];
        u = plain_add(x.field, u, plain_scale(x.field, noise, here));
        v = plain_add(x.field, v,
                      plain_scale(x.field, unaccumulated(noise_end.elements, j), here));
        w = plain_add(x.field, w,
                      plain_scale(x.field, unaccumulated(scalar_end.elements, j), here));
    }
    EXPECT(try_noise(&noise_end, row, 1, 1, width, u_out, v_out) == 0);
    EXPECT(try_scalar(&scalar_end, row, 1, width, w_out) == 0);
    u_there.lo = u_out[0];
    EXPECT(same_block(u, u_there) && same_block(v, element(v_out, 0)));
    EXPECT(same_block(w, element(w_out, 0)));
}

static void whole_dealing(void)
{
    deal();
    windows(x.outputs);
    bounds();
    rooms();
    for (int round = 0; round < 3; round++)
        by_definition(random_below(x.outputs));
    by_definition(x.outputs - 1);
}

/* ---- Damaged records ---- */

/* A record with faults, lent to its end's call with buffers that suit the dealing. */
static uint32_t try_other(int end)
{
    size_t n = x.outputs, c = random_below((n < 3 ? n : 3) + 1), first = random_below(n - c + 1);
    other.end = end;
    offline(&other);
    return end == 1 ? try_noise(&other, first, c, c, width * c, NULL, NULL)
                    : try_scalar(&other, first, c, width * c, NULL);
}

static void damaged_records(void)
{
    for (int end = 1; end <= 2; end++) {
        const struct held *h = end == 1 ? &noise_end : &scalar_end;
        for (size_t cut = 0; cut < h->len; cut++) {
            memcpy(other.record, h->record, h->len);
            other.len = cut;
            EXPECT(try_other(end) == 10);
        }
        for (size_t more = 1; more <= 3; more++) {
            random_bytes(other.record + h->len, more);
            other.len = h->len + more;
            EXPECT(try_other(end) == 12);
        }
        other.len = h->len;
        EXPECT(try_other(3 - end) == 9);
        for (size_t at = 0; at < h->len; at++) {
            const uint8_t byte = h->record[at];
            const uint8_t values[] = {0x00, 0x01, 0x7f, 0x80, 0xff,
                                      (uint8_t)(byte ^ 1 << random_below(8)), (uint8_t)(byte + 1)};
            size_t tries = at < 41 ? sizeof values : 2, from = random_below(sizeof values);
            for (size_t k = 0; k < tries; k++) {
                other.record[at] = values[(from + k) % sizeof values];
                try_other(end);
            }
            other.record[at] = byte;
        }
    }
}

/* ---- Two faults of a record, or of a record and its call ---- */

/* What can be wrong beside the record, in the order of the tests: the window, the room of the first
 * and of the second buffer. */
enum { WINDOW, FIRST_ROOM, SECOND_ROOM, NOTHING };
static const uint32_t call_numbers[] = {7, 13, 13, 0};

/* The record with faults, or the whole one, lent to its end's call with these two faults. */
static uint32_t try_faults(const struct held *h, int a, int b)
{
    size_t n = x.outputs, first = a == WINDOW || b == WINDOW;
    size_t first_room = n - (a == FIRST_ROOM || b == FIRST_ROOM);
    size_t second_room = width * n - (a == SECOND_ROOM || b == SECOND_ROOM);
    return h->end == 1 ? try_noise(h, first, n, first_room, second_room, NULL, NULL)
                       : try_scalar(h, first, n, width * first_room, NULL);
}

/* Every two faults at one end: the one that is tested first gives the number. */
static void two_faults_of(const struct held *h)
{
    int most = h->end == 1 ? NOTHING : SECOND_ROOM;
    find_fields(&x, h->end);
    other.end = h->end;
    for (const struct field *a = fields; a < fields + field_count; a++)
        for (int way = 0; way < WAYS; way++) {
            uint32_t number = way_number(a, way);
            if (number == 0)
                continue;
            for (const struct field *b = a + 1; b < fields + field_count; b++)
                for (int last = 0; last < WAYS; last++)
                    if (way_number(b, last) != 0) {
                        other.len = put_record(other.record, h->record, a, way, b, last);
                        offline(&other);
                        EXPECT(try_faults(&other, NOTHING, NOTHING) == number);
                    }
            other.len = put_record(other.record, h->record, a, way, NULL, 0);
            offline(&other);
            for (int b = 0; b < most; b++)
                for (int c = 0; c < most; c++)
                    EXPECT(try_faults(&other, b, c) == number);
        }
    EXPECT(try_faults(h, NOTHING, NOTHING) == 0);
    for (int a = 0; a < most; a++)
        for (int b = 0; b < most; b++)
            EXPECT(try_faults(h, a, b) == call_numbers[a < b ? a : b]);
}

static void two_faults(void)
{
    for (unsigned field = 1; field <= 2; field++)
        for (size_t g = 1; g <= 3; g += 2) {
            make_dealing(&x, field, 3, g, 2, 3, 4);
            deal();
            two_faults_of(&noise_end);
            two_faults_of(&scalar_end);
        }
}

/* ---- The edges of field 2 ---- */

static void put_word(uint64_t word)
{
    for (int k = 0; k < 8; k++)
        other.record[other.len++] = (uint8_t)(word >> (8 * k));
}

/* The head of a noise record with one level, so that the siblings are the leaves, and noise at
 * every place. */
static void begin_edges(size_t places, size_t terms)
{
    uint8_t g = places == 2 ? 1 : places == 4 ? 2 : 3;
    const uint8_t head[] = {1, 2, g, g, (uint8_t)places, (uint8_t)terms, (uint8_t)(places / 2)};
    memcpy(other.record, head, sizeof head);
    random_bytes(other.record + sizeof head, 16 + 16);
    other.len = sizeof head + 16 + 16;
    other.end = 1;
}

static uint32_t try_edges(size_t places)
{
    offline(&other);
    EXPECT(other.number == 0);
    return try_noise(&other, 0, places / 2, places / 2, places / 2, u_out, v_out);
}

/* Leaf words, corrections and noise values at the edges of the reduction modulo p. */
static void edges(size_t places)
{
    static const uint64_t elements[] = {1, 7, P / 2, P - 8, P - 7, P - 2, P - 1};
    static const uint64_t words[] = {0, 1, P - 1, P, P + 1, 2 * P - 1, 2 * P, 2 * P + 1, 7 * P - 1,
                                     7 * P, 8 * P - 1, 8 * P, 8 * P + 1, UINT64_MAX};
    begin_edges(places, 1 + random_below(places));
    for (size_t tree = 0; tree < places; tree++) {
        other.record[other.len++] = 0; /* the place after the one before */
        put_word(elements[random_below(7)]);
        put_word(random_below(8) ? elements[random_below(7)] : 0);
        for (size_t sibling = 1; sibling < places; sibling++) {
            put_word(words[random_below(14)]);
            put_word(random_word());
        }
    }
    EXPECT(try_edges(places) == 0);
}

/* Leaves whose words are multiples of p, and noise and corrections of which every two places make
 * p: a row of one term at an odd place gives sums that are multiples of p, and 0 is handed out. */
static void sums_of_zero(size_t places)
{
    uint64_t value = 1 + random_word() % (P - 1), correction = 1 + random_word() % (P - 1);
    uint64_t coefficient;
    struct plain_key code;
    begin_edges(places, 1);
    plain_expand_key(&code, other.record + 7);
    for (size_t tree = 0; tree < places; tree++) {
        other.record[other.len++] = 0;
        put_word(tree % 2 == 0 ? value : P - value);
        put_word(tree % 2 == 0 ? correction : P - correction);
        for (size_t sibling = 1; sibling < places; sibling++) {
            put_word(P * random_below(9));
            put_word(random_word());
        }
    }
    EXPECT(try_edges(places) == 0);
    for (size_t k = 0; k < places / 2; k++)
        if (plain_term(&code, 2, places, k, 0, &coefficient) % 2 == 1)
            EXPECT(u_out[k] == 0 && v_out[k] == 0);
}

/* ---- */

int main(void)
{
    begin(calls, CALLS);
    two_faults();
    for (unsigned field = 1; field <= 2; field++)
        for (size_t g = 1; g <= 3; g++) {
            for (size_t depth = g; depth <= 6; depth += g)
                for (int round = 0; round < 6; round++) {
                    make_any_dealing(&x, field, depth, g);
                    whole_dealing();
                }
            for (size_t depth = g; depth <= 4; depth += g) { /* and damage to its records */
                size_t trees = 1 + random_below(2), terms = 1 + random_below(2);
                make_dealing(&x, field, depth, g, trees, terms, (size_t)1 << (depth - 1));
                deal();
                damaged_records();
            }
            for (size_t depth = 7; depth <= 10; depth++) /* several batches */
                if (may_branch(depth, g)) {
                    size_t trees = 1 + random_below(2), terms = 1 + random_below(32);
                    make_dealing(&x, field, depth, g, trees, terms,
                                 ((size_t)1 << (depth - 1)) - random_below(5));
                    whole_dealing();
                }
            make_dealing(&x, field, 12, g, 3, 32, 2048);
            deal();
            windows(33);
            make_dealing(&x, field, g == 3 ? 15 : 16, g, 1, 31, g == 3 ? 16384 : 32768);
            deal();
            window(x.outputs - 33, 33);
        }
    for (int round = 0; round < 400; round++) {
        edges((size_t)2 << round % 3);
        sums_of_zero((size_t)2 << round % 3);
    }
    return finish();
}
