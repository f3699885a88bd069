/* Document 01's seven calls, as document 02 changes them, and what a record is, held to the plain
 * implementation, through expander.h (lend.h).
 */
#include "faults.h"
#include "lend.h"

#include <stdio.h>
#include <string.h>

#define P PLAIN_P

typedef struct plain_result result;
typedef struct plain_block block;

/* ---- The calls and their numbers ---- */

enum { DEAL, DESCRIBE, NOISE_OFFLINE, SCALAR_OFFLINE, NOISE_ONLINE, SCALAR_ONLINE, NOISE_PADS,
       SCALAR_PADS, CALLS };

/* Stops the compiler where the header admits more trees than a dealing here has room for. */
typedef char a_dealing_has_its_trees[MAX_TREES >= EXPANDER_TREES_MAX ? 1 : -1];

/* The numbers that the documents let each call give. */
#define HEAD_NUMBERS (BIT(1) | BIT(2) | BIT(9) | BIT(10) | BIT(11) | BIT(12))
static const struct call calls[CALLS] = {
    {"deal", BIT(0) | BIT(1) | BIT(2) | BIT(3) | BIT(4) | BIT(5) | BIT(6) | BIT(13)},
    {"describe", BIT(0) | HEAD_NUMBERS | BIT(4) | BIT(5) | BIT(6) | BIT(8)},
    {"noise_offline", BIT(0) | HEAD_NUMBERS | BIT(4) | BIT(5) | BIT(8) | BIT(13)},
    {"scalar_offline", BIT(0) | HEAD_NUMBERS | BIT(6) | BIT(13)},
    {"noise_online",
     BIT(0) | HEAD_NUMBERS | BIT(4) | BIT(5) | BIT(8) | BIT(3) | BIT(7) | BIT(13)},
    {"scalar_online", BIT(0) | HEAD_NUMBERS | BIT(6) | BIT(3) | BIT(7) | BIT(13) | BIT(8)},
    {"noise_pads", BIT(0) | BIT(3) | BIT(7) | BIT(13) | BIT(8)},
    {"scalar_pads", BIT(0) | BIT(3) | BIT(7) | BIT(6) | BIT(13)},
};

/* ---- The calls, each made by both; what the library wrote goes to *_out, if not NULL ---- */

/* How much a dealing lends of each input, and of its two buffers. */
struct deal_lengths {
    size_t roots, positions, values, delta, code_key, label, noise, scalar;
};

static result try_deal(const struct dealing *x, const struct deal_lengths *n, uint8_t *noise_out,
                       uint8_t *scalar_out)
{
    result mine, plain;
    describe("deal(field %u, d %zu, g %zu, t %zu, l %zu, n %zu, lengths %zu %zu %zu %zu %zu %zu, "
             "%zu %zu)",
             x->field, x->depth, x->branch_bits, x->trees, x->terms, x->outputs, n->roots,
             n->positions, n->values, n->delta, n->code_key, n->label, n->noise, n->scalar);
    lend(0, x->roots, n->roots, 1);
    lend(1, x->positions, n->positions, 4);
    lend(2, x->values, n->values, 8);
    lend(3, x->delta, n->delta, 1);
    lend(4, x->code_key, n->code_key, 1);
    lend(5, x->label, n->label, 1);
    lend(6, NULL, n->noise, 1);
    lend(7, NULL, n->scalar, 1);
    mine = two(expander_deal(x->field, x->depth, x->branch_bits, x->trees, x->terms, x->outputs,
                             LIBRARY(0, uint8_t), n->roots, LIBRARY(1, uint32_t), n->positions,
                             LIBRARY(2, uint64_t), n->values, LIBRARY(3, uint8_t), n->delta,
                             LIBRARY(4, uint8_t), n->code_key, LIBRARY(5, uint8_t), n->label,
                             LIBRARY(6, uint8_t), n->noise, LIBRARY(7, uint8_t), n->scalar));
    plain = plain_deal(x->field, x->depth, x->branch_bits, x->trees, x->terms, x->outputs,
                       PLAIN(0, uint8_t), n->roots, PLAIN(1, uint32_t), n->positions,
                       PLAIN(2, uint64_t), n->values, PLAIN(3, uint8_t), n->delta,
                       PLAIN(4, uint8_t), n->code_key, PLAIN(5, uint8_t), n->label,
                       PLAIN(6, uint8_t), n->noise, PLAIN(7, uint8_t), n->scalar);
    settle(DEAL, mine, plain, 6, 2, plain.first, plain.second);
    keep(noise_out, 6, plain.first);
    keep(scalar_out, 7, plain.second);
    return mine;
}

static struct plain_described try_describe(const uint8_t *record, size_t len)
{
    struct expander_described mine;
    struct plain_described plain;
    int same;
    describe("describe(record of %zu bytes)", len);
    lend(0, record, len, 1);
    mine = expander_describe(LIBRARY(0, uint8_t), len);
    plain = plain_describe(PLAIN(0, uint8_t), len);
    same = mine.number == plain.number && mine.end == plain.end && mine.field == plain.field
        && mine.depth == plain.depth && mine.branch_bits == plain.branch_bits
        && mine.trees == plain.trees && mine.terms == plain.terms && mine.outputs == plain.outputs
        && mine.leaves == plain.leaves && mine.element_words == plain.element_words
        && memcmp(mine.label, plain.label, 16) == 0 && memcmp(mine.code_key, plain.code_key, 16) == 0;
    if (!same)
        complain("returned %u, end %u, field %u, %zu %zu %zu %zu %zu, %zu, %zu; the plain "
                 "implementation %u, end %u, field %u, %zu %zu %zu %zu %zu, %zu, %zu; label %s, code "
                 "key %s",
                 mine.number, mine.end, mine.field, mine.depth, mine.branch_bits, mine.trees,
                 mine.terms, mine.outputs, mine.leaves, mine.element_words, plain.number, plain.end,
                 plain.field, plain.depth, plain.branch_bits, plain.trees, plain.terms,
                 plain.outputs, plain.leaves, plain.element_words,
                 memcmp(mine.label, plain.label, 16) == 0 ? "equal" : "not equal",
                 memcmp(mine.code_key, plain.code_key, 16) == 0 ? "equal" : "not equal");
    settle_lent(DESCRIBE, same, plain.number, 1, 0, 0, 0);
    return plain;
}

static result try_offline(int end, const uint8_t *record, size_t len, size_t first_len,
                          size_t second_len, uint64_t *first_out, uint64_t *second_out)
{
    result mine, plain;
    int call = end == 1 ? NOISE_OFFLINE : SCALAR_OFFLINE;
    describe("%s(record of %zu bytes, %zu, %zu)", calls[call].name, len, first_len, second_len);
    lend(0, record, len, 1);
    lend(1, NULL, first_len, 8);
    lend(2, NULL, second_len, 8);
    mine = two((end == 1 ? expander_noise_offline : expander_scalar_offline)(
        LIBRARY(0, uint8_t), len, LIBRARY(1, uint64_t), first_len, LIBRARY(2, uint64_t),
        second_len));
    plain = (end == 1 ? plain_noise_offline : plain_scalar_offline)(
        PLAIN(0, uint8_t), len, PLAIN(1, uint64_t), first_len, PLAIN(2, uint64_t), second_len);
    settle(call, mine, plain, 1, 2, 8 * plain.first, 8 * plain.second);
    keep(first_out, 1, 8 * plain.first);
    keep(second_out, 2, 8 * plain.second);
    return mine;
}

static result try_noise_online(const uint8_t *record, size_t len, const uint64_t *noise,
                               size_t noise_len, const uint64_t *v, size_t v_len, size_t first,
                               size_t count, size_t u_len, size_t v_out_len, uint64_t *u_out,
                               uint64_t *v_out)
{
    result mine, plain;
    describe("noise_online(record of %zu bytes, %zu, %zu, window %zu and %zu, %zu, %zu)", len,
             noise_len, v_len, first, count, u_len, v_out_len);
    lend(0, record, len, 1);
    lend(1, noise, noise_len, 8);
    lend(2, v, v_len, 8);
    lend(3, NULL, u_len, 8);
    lend(4, NULL, v_out_len, 8);
    mine = two(expander_noise_online(LIBRARY(0, uint8_t), len, LIBRARY(1, uint64_t), noise_len,
                                     LIBRARY(2, uint64_t), v_len, first, count,
                                     LIBRARY(3, uint64_t), u_len, LIBRARY(4, uint64_t),
                                     v_out_len));
    plain = plain_noise_online(PLAIN(0, uint8_t), len, PLAIN(1, uint64_t), noise_len,
                               PLAIN(2, uint64_t), v_len, first, count, PLAIN(3, uint64_t), u_len,
                               PLAIN(4, uint64_t), v_out_len);
    settle(NOISE_ONLINE, mine, plain, 3, 2, 8 * plain.first, 8 * plain.second);
    keep(u_out, 3, 8 * plain.first);
    keep(v_out, 4, 8 * plain.second);
    return mine;
}

static result try_scalar_online(const uint8_t *record, size_t len, const uint64_t *w, size_t w_len,
                                size_t first, size_t count, size_t w_out_len, uint64_t *w_out)
{
    result mine, plain;
    describe("scalar_online(record of %zu bytes, %zu, window %zu and %zu, %zu)", len, w_len, first,
             count, w_out_len);
    lend(0, record, len, 1);
    lend(1, w, w_len, 8);
    lend(2, NULL, w_out_len, 8);
    mine = one(expander_scalar_online(LIBRARY(0, uint8_t), len, LIBRARY(1, uint64_t), w_len, first,
                                      count, LIBRARY(2, uint64_t), w_out_len));
    plain = plain_scalar_online(PLAIN(0, uint8_t), len, PLAIN(1, uint64_t), w_len, first, count,
                                PLAIN(2, uint64_t), w_out_len);
    settle(SCALAR_ONLINE, mine, plain, 2, 1, 8 * plain.first, 0);
    keep(w_out, 2, 8 * plain.first);
    return mine;
}

static uint32_t try_noise_pads(size_t first, size_t count, const uint8_t *v, size_t v_len,
                               const uint8_t *choices, size_t choices_len, size_t pads_len,
                               uint8_t *pads_out)
{
    result mine, plain;
    describe("noise_pads(window %zu and %zu, %zu, %zu, %zu)", first, count, v_len, choices_len,
             pads_len);
    lend(0, v, v_len, 1);
    lend(1, choices, choices_len, 1);
    lend(2, NULL, pads_len, 1);
    mine = alone(expander_noise_pads(first, count, LIBRARY(0, uint8_t), v_len, LIBRARY(1, uint8_t),
                                     choices_len, LIBRARY(2, uint8_t), pads_len));
    plain = alone(plain_noise_pads(first, count, PLAIN(0, uint8_t), v_len, PLAIN(1, uint8_t),
                                   choices_len, PLAIN(2, uint8_t), pads_len));
    settle(NOISE_PADS, mine, plain, 2, 1, 16 * count, 0);
    if (plain.number == 0)
        keep(pads_out, 2, 16 * count);
    return mine.number;
}

static uint32_t try_scalar_pads(size_t first, size_t count, const uint8_t *w, size_t w_len,
                                const uint8_t *delta, size_t delta_len, size_t pads_len,
                                uint8_t *pads_out)
{
    result mine, plain;
    describe("scalar_pads(window %zu and %zu, %zu, %zu, %zu)", first, count, w_len, delta_len,
             pads_len);
    lend(0, w, w_len, 1);
    lend(1, delta, delta_len, 1);
    lend(2, NULL, pads_len, 1);
    mine = alone(expander_scalar_pads(first, count, LIBRARY(0, uint8_t), w_len,
                                      LIBRARY(1, uint8_t), delta_len, LIBRARY(2, uint8_t),
                                      pads_len));
    plain = alone(plain_scalar_pads(first, count, PLAIN(0, uint8_t), w_len, PLAIN(1, uint8_t),
                                    delta_len, PLAIN(2, uint8_t), pads_len));
    settle(SCALAR_PADS, mine, plain, 2, 1, 32 * count, 0);
    if (plain.number == 0)
        keep(pads_out, 2, 32 * count);
    return mine.number;
}

/* ---- One dealing and what its ends hold ---- */

enum { MOST = EXPANDER_LEAVES_MAX, SIZES = 5 };

static struct dealing x;
static uint8_t noise_record[EXPANDER_NOISE_RECORD_MAX + 8];
static uint8_t scalar_record[EXPANDER_SCALAR_RECORD_MAX + 8];
static size_t noise_record_len, scalar_record_len;
static size_t leaves, width;
static uint64_t noise[MOST + 8], v[2 * MOST + 8], w[2 * MOST + 8], delta[2];
static uint64_t u_all[MOST / 2], v_all[MOST], w_all[MOST]; /* outputs 0 to n - 1 */

static struct deal_lengths exact_lengths(void)
{
    struct deal_lengths n = {16 * x.trees, x.trees, x.trees, 16, 16, 16, noise_record_len,
                             scalar_record_len};
    return n;
}

/* Deal x. Both records are kept. */
static result deal(void)
{
    struct deal_lengths n = {16 * x.trees, x.trees, x.trees, 16, 16, 16,
                             EXPANDER_NOISE_RECORD_MAX, EXPANDER_SCALAR_RECORD_MAX};
    result r = try_deal(&x, &n, noise_record, scalar_record);
    noise_record_len = r.first;
    scalar_record_len = r.second;
    leaves = (size_t)1 << x.depth;
    width = EXPANDER_ELEMENT_WORDS(x.field);
    return r;
}

/* Where the code key begins in the records of x, right after the numbers of its head; the label
 * follows. */
static size_t code_key_at(void)
{
    const size_t sizes[] = {x.depth, x.branch_bits, x.trees, x.terms, x.outputs};
    size_t at = 2;
    for (size_t k = 0; k < sizeof sizes / sizeof *sizes; k++)
        at += sizes[k] < 128 ? 1 : sizes[k] < 16384 ? 2 : 3;
    return at;
}

/* The record of this end of x is described as what x is, with code key and label as they stand in
 * it. */
static void described(int end)
{
    const uint8_t *record = end == 1 ? noise_record : scalar_record;
    struct plain_described d = try_describe(record, end == 1 ? noise_record_len : scalar_record_len);
    EXPECT(memcmp(d.code_key, record + code_key_at(), 16) == 0);
    EXPECT(memcmp(d.label, record + code_key_at() + 16, 16) == 0);
    EXPECT(memcmp(d.code_key, x.code_key, 16) == 0 && memcmp(d.label, x.label, 16) == 0);
    EXPECT(d.number == 0 && d.end == (unsigned)end && d.field == x.field && d.depth == x.depth);
    EXPECT(d.branch_bits == x.branch_bits && d.trees == x.trees && d.terms == x.terms);
    EXPECT(d.outputs == x.outputs && d.leaves == leaves && d.element_words == width);
}

static void offline(void)
{
    result r = try_offline(1, noise_record, noise_record_len, leaves, width * leaves, noise, v);
    EXPECT(r.number == 0 && r.first == leaves && r.second == width * leaves);
    r = try_offline(2, scalar_record, scalar_record_len, width * leaves, 2, w, delta);
    EXPECT(r.number == 0 && r.first == width * leaves && r.second == 2);
}

static uint32_t noise_window(size_t first, size_t count, size_t u_len, size_t v_len,
                             uint64_t *u_out, uint64_t *v_out)
{
    return try_noise_online(noise_record, noise_record_len, noise, leaves, v, width * leaves,
                            first, count, u_len, v_len, u_out, v_out).number;
}

static uint32_t scalar_window(size_t first, size_t count, size_t w_len, uint64_t *w_out)
{
    return try_scalar_online(scalar_record, scalar_record_len, w, width * leaves, first, count,
                             w_len, w_out).number;
}

static block element(const uint64_t *words, size_t k)
{
    block b = {words[width * k], width == 2 ? words[2 * k + 1] : 0};
    return b;
}

/* w = Delta u + v at index k of these. */
static int correlated(const uint64_t *u_at, const uint64_t *v_at, const uint64_t *w_at, size_t k)
{
    block scalar = {delta[0], delta[1]};
    block sum = plain_add(x.field, plain_scale(x.field, scalar, u_at[k]), element(v_at, k));
    block other = element(w_at, k);
    return sum.lo == other.lo && sum.hi == other.hi;
}

/* A deal with each buffer one short, one long, empty. */
static void vary_deal(void)
{
    for (int which = 0; which < 2; which++)
        for (int how = 0; how < 4; how++) {
            struct deal_lengths n = exact_lengths();
            size_t *len = which == 0 ? &n.noise : &n.scalar;
            *len = how == 0 ? *len - 1 : how == 1 ? *len + 1 : how == 2 ? 0 : *len;
            EXPECT(try_deal(&x, &n, NULL, NULL).number == (how % 2 == 0 ? 13 : 0));
        }
}

/* Each end's offline call with each buffer one short, one long, empty. */
static void vary_offline(int end, int accepted_too)
{
    const uint8_t *record = end == 1 ? noise_record : scalar_record;
    size_t len = end == 1 ? noise_record_len : scalar_record_len;
    size_t a = end == 1 ? leaves : width * leaves, b = end == 1 ? width * leaves : 2;
    EXPECT(try_offline(end, record, len, a - 1, b, NULL, NULL).number == 13);
    EXPECT(try_offline(end, record, len, a, b - 1, NULL, NULL).number == 13);
    EXPECT(try_offline(end, record, len, 0, b + 1, NULL, NULL).number == 13);
    EXPECT(try_offline(end, record, len, a + 1, 0, NULL, NULL).number == 13);
    EXPECT(try_offline(end, record, len, 0, 0, NULL, NULL).number == 13);
    if (accepted_too) {
        EXPECT(try_offline(end, record, len, a + 1, b, NULL, NULL).number == 0);
        EXPECT(try_offline(end, record, len, a, b + 1 + random_below(9), NULL, NULL).number == 0);
    }
}

/* Windows at and past every bound, sums that would wrap among them. */
static void vary_windows(void)
{
    size_t n = x.outputs, top = SIZE_MAX / 2 + 1, far = (size_t)1 << 4 * sizeof(size_t);
    const size_t windows[][2] = {
        {0, 0}, {n, 0}, {n + 1, 0}, {0, n + 1}, {n - 1, 1}, {n - 1, 2}, {n, 1}, {1, n},
        {SIZE_MAX, 0}, {0, SIZE_MAX}, {SIZE_MAX, 1}, {1, SIZE_MAX}, {SIZE_MAX, SIZE_MAX},
        {SIZE_MAX - n + 1, n}, {n, SIZE_MAX - n + 1}, {top, top}, {top, 0}, {0, top},
        {far, 0}, {0, far}, {far, 1}, {1, far}, {far - 1, 1},
    };
    for (size_t k = 0; k < sizeof windows / sizeof *windows; k++) {
        size_t first = windows[k][0], count = windows[k][1];
        uint32_t number = first > n || count > n - first ? 7 : 0;
        size_t room = number == 7 ? random_below(5) : count;
        EXPECT(noise_window(first, count, room, width * room, NULL, NULL) == number);
        EXPECT(scalar_window(first, count, width * room, NULL) == number);
    }
}

/* Vectors and output buffers one short, one long, empty. */
static void vary_lengths(void)
{
    size_t n = x.outputs, c = 1 + random_below(n < 40 ? n : 40), first = random_below(n - c + 1);
    size_t vl = width * leaves, vc = width * c;
    const size_t odd[][2] = {{leaves - 1, vl}, {leaves + 1, vl}, {0, vl}, {leaves, vl - 1},
                             {leaves, vl + 1}, {leaves, 0}, {0, 0}};
    for (size_t k = 0; k < sizeof odd / sizeof *odd; k++) {
        EXPECT(try_noise_online(noise_record, noise_record_len, noise, odd[k][0], v, odd[k][1],
                                first, random_below(2) ? c : n + 1, c, vc, NULL, NULL).number == 3);
        if (odd[k][1] != vl)
            EXPECT(try_scalar_online(scalar_record, scalar_record_len, w, odd[k][1], first,
                                     random_below(2) ? c : n + 1, vc, NULL).number == 3);
    }
    EXPECT(noise_window(first, c, c - 1, vc, NULL, NULL) == 13);
    EXPECT(noise_window(first, c, c, vc - 1, NULL, NULL) == 13);
    EXPECT(noise_window(first, c, 0, vc, NULL, NULL) == 13);
    EXPECT(noise_window(first, c, c, 0, NULL, NULL) == 13);
    EXPECT(noise_window(first, c, c + 1, vc, NULL, NULL) == 0);
    EXPECT(noise_window(first, c, c, vc + 1 + random_below(9), NULL, NULL) == 0);
    EXPECT(noise_window(first, n - first + 1, 0, 0, NULL, NULL) == 7);
    EXPECT(noise_window(first, 0, 0, 0, NULL, NULL) == 0);
    EXPECT(scalar_window(first, c, vc - 1, NULL) == 13);
    EXPECT(scalar_window(first, c, 0, NULL) == 13);
    EXPECT(scalar_window(first, c, vc + 1 + random_below(9), NULL) == 0);
    EXPECT(scalar_window(first, n - first + 1, 0, NULL) == 7);
    EXPECT(scalar_window(first, 0, 0, NULL) == 0);
}

/* Words that are not elements, at places that the window's rows use and at others. */
static void vary_words(int rounds)
{
    static unsigned char used[MOST];
    size_t strip = leaves / x.terms;
    struct plain_key code;
    plain_expand_key(&code, x.code_key);
    for (int round = 0; round < rounds; round++) {
        size_t n = x.outputs, most = n < 6 ? n : 6, c = random_below(most + 1);
        size_t first = random_below(n - c + 1), place = random_below(leaves);
        const uint64_t bad[] = {P, P + 1, (uint64_t)1 << 61, UINT64_MAX};
        const uint64_t bad_bit[] = {2, 3, (uint64_t)1 << 32, UINT64_MAX};
        uint64_t word = bad[random_below(4)], kept, coefficient;
        uint32_t number;

        memset(used, 0, leaves);
        for (size_t k = first; k < first + c; k++)
            for (size_t i = 0; i < x.terms; i++)
                used[plain_term(&code, x.field, strip, k, i, &coefficient)] = 1;
        if (c > 0 && random_below(2)) {
            size_t row = first + random_below(c), term = random_below(x.terms);
            place = plain_term(&code, x.field, strip, row, term, &coefficient);
        }
        number = used[place] ? 8 : 0;

        kept = noise[place];
        noise[place] = x.field == 1 ? bad_bit[random_below(4)] : word;
        EXPECT(noise_window(first, c, c, width * c, NULL, NULL) == number);
        if (c > 0)
            EXPECT(noise_window(first, c, c - 1, width * c, NULL, NULL) == 13);
        noise[place] = kept;

        place = width * place + random_below(width);
        number = x.field == 2 ? number : 0;
        kept = v[place];
        v[place] = word;
        EXPECT(noise_window(first, c, c, width * c, NULL, NULL) == number);
        v[place] = kept;
        kept = w[place];
        w[place] = word;
        EXPECT(scalar_window(first, c, width * c, NULL) == number);
        if (c > 0)
            EXPECT(scalar_window(first, c, width * c - 1, NULL) == 13);
        w[place] = kept;
    }
}

/* A list of windows at each end: whatever is handed out at an index is output there. */
static void lists(int calls)
{
    static uint64_t u_part[MOST / 2], v_part[MOST], w_part[MOST];
    for (int k = 0; k < calls; k++) {
        size_t n = x.outputs, most = n < 200 ? n : 200;
        size_t first = random_below(n + 1), c = random_below(most + 1);
        size_t u_len = random_below(8) ? c + random_below(3) : random_below(c + 1);
        size_t v_len = random_below(8) ? width * c + random_below(3) : random_below(width * c + 1);
        uint32_t number = first + c > n ? 7 : u_len < c || v_len < width * c ? 13 : 0;
        EXPECT(noise_window(first, c, u_len, v_len, u_part, v_part) == number);
        if (number == 0) {
            EXPECT(memcmp(u_part, u_all + first, 8 * c) == 0);
            EXPECT(memcmp(v_part, v_all + width * first, 8 * width * c) == 0);
        }
        number = first + c > n ? 7 : v_len < width * c ? 13 : 0;
        EXPECT(scalar_window(first, c, v_len, w_part) == number);
        if (number == 0)
            EXPECT(memcmp(w_part, w_all + width * first, 8 * width * c) == 0);
    }
}

static uint8_t v_bytes[16 * (MOST / 2 + 2)], w_bytes[16 * (MOST / 2 + 2)];
static uint8_t choices[MOST / 2 + 2], one_pad[16 * (MOST / 2)], both_pads[32 * (MOST / 2)];

/* The pads of a window of outputs: the noise end's is the message that the choice names. */
static void pads_agree(size_t first, size_t c)
{
    for (size_t k = 0; k < c; k++) {
        plain_store(v_bytes + 16 * k, element(v_all, first + k));
        plain_store(w_bytes + 16 * k, element(w_all, first + k));
        choices[k] = (uint8_t)u_all[first + k];
    }
    EXPECT(try_noise_pads(first, c, v_bytes, 16 * c, choices, c, 16 * c, one_pad) == 0);
    EXPECT(try_scalar_pads(first, c, w_bytes, 16 * c, x.delta, 16, 32 * c, both_pads) == 0);
    for (size_t k = 0; k < c; k++)
        EXPECT(memcmp(one_pad + 16 * k, both_pads + 32 * k + 16 * choices[k], 16) == 0);
}

/* Everything that can be asked of one accepted dealing. */
static void whole_dealing(int light)
{
    size_t n;
    EXPECT(deal().number == 0);
    n = x.outputs;
    described(1);
    described(2);
    vary_deal();
    offline();
    for (int end = 1; end <= 2; end++)
        vary_offline(end, !light);
    EXPECT(noise_window(0, n, n, width * n, u_all, v_all) == 0);
    EXPECT(scalar_window(0, n, width * n, w_all) == 0);
    for (size_t k = 0; k < n; k++)
        EXPECT(correlated(u_all, v_all, w_all, k));
    vary_windows();
    vary_lengths();
    vary_words(light ? 2 : 6);
    lists(light ? 4 : 12);
    if (x.field == 1) {
        size_t c = random_below(n + 1), first = random_below(n - c + 1);
        pads_agree(0, n);
        pads_agree(first, c);
    }
}

/* ---- Dealings with faults ---- */

/* Put one random fault into a dealing of x, of so many trees at first, with lengths n. */
static void spoil_deal(struct deal_lengths *n, size_t trees)
{
    size_t far = (size_t)1 << 4 * sizeof(size_t), i = random_below(x.trees - 1 < MAX_TREES ? x.trees : 1);
    size_t *const lengths[] = {&n->roots, &n->positions, &n->values, &n->delta, &n->code_key,
                               &n->label, &n->noise, &n->scalar};
    const size_t whole[] = {16 * trees, trees, trees, 16, 16, 16};
    size_t *len;
    switch (random_below(15)) {
    case 0:
        x.field = (uint8_t)(random_below(2) ? 0 : 3 + random_below(253));
        break;
    case 1:
        x.depth = (size_t[]){0, 17, 64, SIZE_MAX, far + x.depth, far}[random_below(6)];
        break;
    case 2:
        x.trees = (size_t[]){0, (leaves < MAX_TREES ? leaves : MAX_TREES) + 1, 65, SIZE_MAX,
                             far + x.trees, far}[random_below(6)];
        break;
    case 3:
        x.terms = (size_t[]){0, (leaves < 32 ? leaves : 32) + 1, 33, SIZE_MAX, far + x.terms, far}[
            random_below(6)];
        break;
    case 4:
        x.outputs = (size_t[]){0, leaves / 2 + 1, SIZE_MAX, far + x.outputs, far}[random_below(5)];
        break;
    case 5:
    case 6: /* an input length one short, one long, empty */
        i = random_below(6);
        *lengths[i] = (size_t[]){0, whole[i] - 1, whole[i] + 1}[random_below(3)];
        break;
    case 7:
    case 8:
        x.positions[i] = (uint32_t[]){(uint32_t)leaves, UINT32_MAX, x.positions[i ? i - 1 : 0],
                                      0, (uint32_t)leaves - 1}[random_below(5)];
        break;
    case 9:
    case 10:
        x.values[i] = (uint64_t[]){0, 2, P, P + 1, UINT64_MAX, P - 1, (uint64_t)1 << 61}[
            random_below(7)];
        break;
    case 11:
        if (random_below(2)) {
            memset(x.delta, 0, 16);
        } else {
            memset(x.delta, 0xff, 8);
            x.delta[7] = 0x1f;
            x.delta[0] = (uint8_t)(0xfe + random_below(2)); /* p - 1 or p */
        }
        if (random_below(4) == 0) {
            i = 8 + random_below(8);
            x.delta[i] = (uint8_t)(1 + random_below(255));
        }
        break;
    case 12:
        x.delta[7] = (uint8_t)(random_below(2) ? 0x1f : 0x20);
        if (random_below(2)) {
            i = 8 + random_below(8);
            x.delta[i] = (uint8_t)(1 + random_below(255));
        }
        break;
    case 13:
        len = lengths[6 + random_below(2)];
        *len = random_below(2) ? 0 : *len - (*len > 0);
        break;
    case 14:
        x.branch_bits = (size_t[]){0, 1, 2, 3, 4, SIZE_MAX, far + x.branch_bits, far}[
            random_below(8)];
        break;
    }
}

static void faulty_deals(int rounds)
{
    for (int round = 0; round < rounds; round++) {
        struct deal_lengths n;
        unsigned field = 1 + (unsigned)random_below(2);
        size_t trees, depth = 1 + random_below(8);
        make_any_dealing(&x, field, depth, some_branch_bits(depth));
        if (random_below(16) == 0) /* every leaf taken where N is at most 64 */
            make_dealing(&x, x.field, x.depth, x.branch_bits, most_trees(x.depth), x.terms,
                         x.outputs);
        leaves = (size_t)1 << x.depth;
        noise_record_len = EXPANDER_NOISE_RECORD_MAX;
        scalar_record_len = EXPANDER_SCALAR_RECORD_MAX;
        if (random_below(2))
            EXPECT(deal().number == 0);
        n = exact_lengths();
        trees = x.trees;
        for (size_t faults = 1 + random_below(3); faults > 0; faults--)
            spoil_deal(&n, trees);
        try_deal(&x, &n, NULL, NULL);
    }
}

/* ---- Two faults of a dealing ---- */

/* What can be wrong with a dealing: at least one fault for each size, input and buffer. The tests
 * come in the order of their numbers. */
enum { DEAL_FAULTS = 29 };

/* Put fault k into a dealing of x of depth 4 and three trees, with lengths n; its number. */
static uint32_t deal_fault(int k, struct deal_lengths *n)
{
    size_t *const inputs[] = {&n->roots, &n->positions, &n->values, &n->delta, &n->code_key,
                              &n->label};
    switch (k) {
    case 0:
        x.field = 3;
        return 1;
    case 1:
        x.depth = 17;
        return 2;
    case 2:
        x.trees = 17;
        return 2;
    case 3:
        x.terms = 0;
        return 2;
    case 4:
        x.outputs = 9;
        return 2;
    case 5:
        x.positions[2] = 16;
        return 4;
    case 6:
        x.positions[1] = x.positions[0];
        return 4;
    case 7:
        x.values[0] = 0;
        return 5;
    case 8:
        x.values[2] = P;
        return 5;
    case 9:
        memset(x.delta, 0, 16);
        return 6;
    case 10:
        n->noise--;
        return 13;
    case 11:
        n->scalar--;
        return 13;
    case 12:
        x.depth = 0;
        return 2;
    case 13:
    case 14:
    case 15:
        x.branch_bits = (size_t[]){0, 3, 4}[k - 13];
        return 2;
    case 16:
        x.terms = 17;
        return 2;
    default: /* an input empty, then one long */
        k -= 17;
        *inputs[k % 6] = k < 6 ? 0 : *inputs[k % 6] + 1;
        return 3;
    }
}

/* Every two faults of a dealing, in both orders: the one that is tested first gives the number. */
static void two_deal_faults(void)
{
    static struct dealing whole;
    for (unsigned field = 1; field <= 2; field++) {
        struct deal_lengths lengths;
        make_dealing(&whole, field, 4, 2, 3, 2, 8);
        x = whole;
        EXPECT(deal().number == 0);
        lengths = exact_lengths();
        for (int a = 0; a < DEAL_FAULTS; a++)
            for (int b = 0; b < DEAL_FAULTS; b++) {
                struct deal_lengths n = lengths;
                uint32_t first, second;
                x = whole;
                first = deal_fault(a, &n);
                second = a == b ? first : deal_fault(b, &n);
                EXPECT(try_deal(&x, &n, NULL, NULL).number == (first < second ? first : second));
            }
    }
}

/* ---- Sizes ---- */

/* Every size at its bounds and one past them. */
static void sizes_at_bounds(void)
{
    for (unsigned field = 1; field <= 2; field++)
        for (size_t d = 1; d <= EXPANDER_DEPTH_MAX; d++) {
            const size_t most[3] = {most_trees(d), most_terms(d), (size_t)1 << (d - 1)};
            for (size_t g = 0; g <= 5; g++) {
                make_dealing(&x, field, d, g, 1, 1, 1);
                EXPECT(deal().number == (may_branch(d, g) ? 0 : 2));
            }
            for (int which = 0; which < 3; which++)
                for (int how = 0; how < 4; how++) {
                    size_t size[3] = {1, 1, 1};
                    const size_t value[4] = {0, 1, most[which], most[which] + 1};
                    struct deal_lengths n = {0, 0, 0, 16, 16, 16, EXPANDER_NOISE_RECORD_MAX,
                                             EXPANDER_SCALAR_RECORD_MAX};
                    size[which] = value[how];
                    make_dealing(&x, field, d, some_branch_bits(d), most_trees(d), 1, 1);
                    x.trees = size[0];
                    x.terms = size[1];
                    x.outputs = size[2];
                    n.positions = n.values = x.trees;
                    n.roots = 16 * x.trees;
                    EXPECT(try_deal(&x, &n, NULL, NULL).number == (how % 3 == 0 ? 2 : 0));
                }
        }
}

/* What the header gives as the greatest sizes is admitted, and one more is refused with 2; windows of
 * the pads end where it says. */
static void limits(void)
{
    static const struct {
        size_t sizes[SIZES]; /* d, g, t, l, n */
        uint32_t number;
    } tries[] = {
        {{EXPANDER_DEPTH_MAX, 1, 1, 1, 1}, 0},
        {{EXPANDER_DEPTH_MAX + 1, 1, 1, 1, 1}, 2},
        {{EXPANDER_DEPTH_MAX - 1, EXPANDER_BRANCH_BITS_MAX, 1, 1, 1}, 0},
        {{EXPANDER_DEPTH_MAX, EXPANDER_BRANCH_BITS_MAX + 1, 1, 1, 1}, 2},
        {{EXPANDER_DEPTH_MAX, 1, EXPANDER_TREES_MAX, 1, 1}, 0},
        {{EXPANDER_DEPTH_MAX, 1, EXPANDER_TREES_MAX + 1, 1, 1}, 2},
        {{EXPANDER_DEPTH_MAX, 1, 1, EXPANDER_TERMS_MAX, 1}, 0},
        {{EXPANDER_DEPTH_MAX, 1, 1, EXPANDER_TERMS_MAX + 1, 1}, 2},
        {{EXPANDER_DEPTH_MAX, 1, 1, 1, EXPANDER_OUTPUTS_MAX}, 0},
        {{EXPANDER_DEPTH_MAX, 1, 1, 1, EXPANDER_OUTPUTS_MAX + 1}, 2},
    };
    const size_t end = EXPANDER_PAD_WINDOW_END;
    static const uint8_t zeros[32];
    int major, minor, patch;
    for (unsigned field = 1; field <= 2; field++)
        for (size_t k = 0; k < sizeof tries / sizeof *tries; k++) {
            const size_t *size = tries[k].sizes;
            make_dealing(&x, field, EXPANDER_DEPTH_MAX, 1, EXPANDER_TREES_MAX, 1, 1);
            x.depth = size[0];
            x.branch_bits = size[1];
            x.trees = size[2];
            x.terms = size[3];
            x.outputs = size[4];
            for (size_t i = 0; i < EXPANDER_TREES_MAX; i++)
                x.positions[i] = (uint32_t)i;
            EXPECT(deal().number == tries[k].number);
            if (tries[k].number == 0) {
                described(1);
                described(2);
            }
        }
    EXPECT(EXPANDER_LEAVES_MAX == 1 << EXPANDER_DEPTH_MAX);
    EXPECT(EXPANDER_OUTPUTS_MAX == EXPANDER_LEAVES_MAX / 2);
    x.delta[0] = 1;
    EXPECT(try_noise_pads(end - 1, 1, zeros, 16, zeros, 1, 16, NULL) == 0);
    EXPECT(try_noise_pads(end, 1, zeros, 16, zeros, 1, 16, NULL) == 7);
    EXPECT(try_noise_pads(end - 1, 2, zeros, 32, zeros, 2, 32, NULL) == 7);
    EXPECT(try_noise_pads(end, 0, zeros, 0, zeros, 0, 0, NULL) == 0);
    EXPECT(try_scalar_pads(end - 1, 1, zeros, 16, x.delta, 16, 32, NULL) == 0);
    EXPECT(try_scalar_pads(end, 1, zeros, 16, x.delta, 16, 32, NULL) == 7);
    EXPECT(sscanf(EXPANDER_VERSION, "%d.%d.%d", &major, &minor, &patch) == 3);
    EXPECT(EXPANDER_VERSION_NUMBER == 10000 * major + 100 * minor + patch);
    EXPECT(expander_version() == EXPANDER_VERSION_NUMBER);
    EXPECT(expander_version() == plain_version(EXPANDER_VERSION));
}

/* The lengths that the header gives for the longest records are met. */
static void longest_records(void)
{
    for (unsigned field = 1; field <= 2; field++) {
        make_dealing(&x, field, 15, 3, MAX_TREES, 32, MOST / 4);
        for (uint32_t i = 0; i < MAX_TREES; i++) /* a number of three bytes, then of two */
            x.positions[i] = 16384 + 129 * i;
        EXPECT(deal().number == 0);
        EXPECT(noise_record_len == EXPANDER_NOISE_RECORD_MAX);
        EXPECT(field == 2 || scalar_record_len == EXPANDER_SCALAR_RECORD_MAX);
        for (size_t g = 1; g <= 2; g++) {
            make_dealing(&x, field, 16, g, MAX_TREES, 32, MOST / 2);
            for (uint32_t i = 0; i < MAX_TREES; i++) /* three numbers of three bytes, then of two */
                x.positions[i] = i < 3 ? 16384 + 16385 * i : 49154 + 129 * (i - 2);
            EXPECT(deal().number == 0);
            EXPECT(noise_record_len == (g == 1 ? 17580 : 25772));
            EXPECT(field == 2 || scalar_record_len == EXPANDER_SCALAR_RECORD_MAX);
        }
    }
}

/* ---- Damaged records ---- */

/* Lend a record to the call that says what it is, and to its end's offline or online call, with
 * buffers that suit the dealing. */
static result try_record(int end, const uint8_t *record, size_t len)
{
    size_t n = x.outputs, c = random_below((n < 4 ? n : 4) + 1);
    try_describe(record, len);
    if (random_below(2))
        return end == 1
            ? try_offline(1, record, len, leaves, width * leaves, NULL, NULL)
            : try_offline(2, record, len, width * leaves, 2, NULL, NULL);
    return end == 1
        ? try_noise_online(record, len, noise, leaves, v, width * leaves, 0, c, c, width * c, NULL,
                           NULL)
        : try_scalar_online(record, len, w, width * leaves, 0, c, width * c, NULL);
}

static void damaged_records(void)
{
    static uint8_t copy[EXPANDER_NOISE_RECORD_MAX + 8];
    EXPECT(deal().number == 0);
    offline();
    for (int end = 1; end <= 2; end++) {
        const uint8_t *record = end == 1 ? noise_record : scalar_record;
        size_t len = end == 1 ? noise_record_len : scalar_record_len;
        memcpy(copy, record, len);
        for (size_t cut = 0; cut < len; cut++) {
            EXPECT(try_record(end, copy, cut).number == 10);
            EXPECT(try_describe(copy, cut).number == 10);
        }
        for (size_t more = 1; more <= 3; more++) {
            copy[len + more - 1] = (uint8_t)random_word();
            EXPECT(try_record(end, copy, len + more).number == 12);
        }
        EXPECT(try_record(3 - end, copy, len).number == 9);
        described(end);
        for (size_t k = 0; k < 32; k++) { /* each byte of code key and label for itself */
            uint8_t *byte = &copy[code_key_at() + k], was = *byte;
            struct plain_described d;
            *byte ^= (uint8_t)(1 + random_below(255));
            d = try_describe(copy, len);
            EXPECT(d.number == 0 && (k < 16 ? d.code_key : d.label)[k % 16] == *byte);
            *byte = was;
        }
        for (unsigned byte = 0; byte < 256; byte++)
            if (byte != 1 && byte != 2) {
                copy[0] = (uint8_t)byte;
                EXPECT(try_describe(copy, len).number == 9);
            }
        copy[0] = record[0];
        for (size_t at = 0; at < len; at++) {
            const uint8_t values[] = {0x00, 0x01, 0x7f, 0x80, 0xff,
                                      (uint8_t)(copy[at] ^ 1 << random_below(8)),
                                      (uint8_t)(copy[at] + 1)};
            size_t tries = at < 41 ? sizeof values : 2, from = random_below(sizeof values);
            for (size_t k = 0; k < tries; k++) {
                copy[at] = values[(from + k) % sizeof values];
                try_record(end, copy, len);
            }
            copy[at] = record[at];
        }
        for (int round = 0; round < 20; round++) { /* several bytes at once, and another length */
            size_t n = len - 2 + random_below(5);
            for (size_t k = random_below(4); k > 0; k--) {
                size_t at = random_below(len);
                copy[at] = (uint8_t)random_word();
            }
            try_record(end, copy, n);
            memcpy(copy, record, len);
        }
    }
}

/* ---- Records made field by field, some fields odd ---- */

static uint8_t raw[EXPANDER_NOISE_RECORD_MAX + 2048];
static size_t raw_len;
static int oddness; /* one field in so many is odd */

static int odd(void)
{
    return oddness > 0 && random_below((size_t)oddness) == 0;
}

static void raw_word(uint64_t word)
{
    for (int k = 0; k < 8; k++)
        raw[raw_len++] = (uint8_t)(word >> (8 * k));
}

static void raw_any(size_t bytes)
{
    random_bytes(raw + raw_len, bytes);
    raw_len += bytes;
}

/* A number below 2^21, at times longer than its shortest form, or without an end. */
static void raw_number(uint32_t value)
{
    size_t n = plain_write_number(raw + raw_len, value);
    if (odd()) {
        size_t longer = n + 1 + random_below(2);
        for (; n < longer; n++) {
            raw[raw_len + n - 1] |= 0x80;
            raw[raw_len + n] = 0;
        }
        if (random_below(4) == 0)
            raw[raw_len + n - 1] = (uint8_t)random_word();
    }
    raw_len += n;
}

/* A size that is to be 1 to most: `value`, or one at or past a bound. Returns what was written. */
static size_t raw_size(size_t value, size_t most)
{
    if (odd()) {
        const size_t others[] = {0, most, most + 1, 127, 128, 300, 16384, 32768, 32769, 65536,
                                 2097151};
        value = others[random_below(random_below(2) ? 3 : sizeof others / sizeof *others)];
    }
    raw_number((uint32_t)value);
    return value;
}

/* A word that is to be an element, at times zero, near p, or none. */
static void raw_element_word(void)
{
    const uint64_t others[] = {0, 1, P - 1, P, P + 1, (uint64_t)1 << 61, UINT64_MAX};
    raw_word(odd() ? others[random_below(7)] : random_word() % P);
}

static void raw_delta(unsigned field)
{
    if (field == 2) {
        raw_element_word();
    } else if (odd()) {
        memset(raw + raw_len, 0, 16);
        if (random_below(2))
            raw[raw_len + random_below(16)] = 1;
        raw_len += 16;
    } else {
        raw_any(16);
    }
}

static void raw_record(int end, unsigned field, size_t d, size_t g, size_t t, size_t n)
{
    size_t next = 0, all, l;
    raw_len = 0;
    raw[raw_len++] = (uint8_t)(odd() ? (unsigned)random_below(4) : (unsigned)end);
    raw[raw_len++] = (uint8_t)(odd() ? (unsigned)random_below(4) : field);
    d = raw_size(d, 16) & 31;
    g = raw_size(g, 3) & 3;
    t = raw_size(t, d <= 16 ? most_trees(d) : 64);
    l = most_terms(d <= 16 ? d : 16);
    raw_size(1 + random_below(l), l);
    raw_size(n, d >= 1 && d <= 16 ? (size_t)1 << (d - 1) : 1);
    raw_any(16 + 16);
    if (d > 16)
        d = 16;
    if (g == 0)
        g = 1;
    if (t > MAX_TREES)
        t = MAX_TREES;
    all = (size_t)1 << d;
    if (end == 1) {
        for (size_t i = 0; i < t; i++) {
            size_t left = all > next ? all - next : 0, later = t - i - 1;
            size_t place = left > later ? random_below(left - later) : 0;
            if (random_below(3) == 0)
                place = 0;
            if (odd()) {
                const size_t others[] = {left, left > 0 ? left - 1 : 0, all, 65535, 65536, 2097151};
                place = others[random_below(6)];
            }
            raw_number((uint32_t)place);
            next += place + 1;
            if (field == 2)
                raw_element_word();
            if (field == 2)
                raw_element_word();
            else
                raw_any(16);
            raw_any(16 * (d / g) * (((size_t)1 << g) - 1));
            if (d >= g && odd()) { /* a leaf's word at the edges of the reduction modulo p */
                const uint64_t others[] = {0, P - 1, P, P + 1, 2 * P - 1, 2 * P, 7 * P, 8 * P,
                                           8 * P + 1, UINT64_MAX};
                raw_len -= 16;
                raw_word(others[random_below(10)]);
                raw_len += 8;
            }
        }
    } else {
        raw_delta(field);
        raw_any(16 * t);
    }
    if (odd())
        raw_any(1 + random_below(2));
    else if (odd())
        raw_len -= 1 + random_below(raw_len < 40 ? raw_len : 40);
}

static void odd_records(int rounds)
{
    for (int round = 0; round < rounds; round++) {
        int end = 1 + (int)random_below(2);
        unsigned field = 1 + (unsigned)random_below(2);
        size_t d = random_below(8) ? 1 + random_below(5) : 6 + random_below(2);
        size_t t = random_below(6) ? 1 + random_below(3) : 1 + random_below(most_trees(d));
        size_t n;
        if (t > most_trees(d))
            t = most_trees(d);
        leaves = (size_t)1 << d;
        width = field == 1 ? 2 : 1;
        x.outputs = n = 1 + random_below(leaves / 2);
        oddness = (int[]){0, 8, 16, 16, 40, 40}[random_below(6)];
        raw_record(end, field, d, some_branch_bits(d), t, n);
        for (size_t j = 0; j < leaves; j++) {
            noise[j] = field == 1 ? random_word() & 1 : random_word() % P;
            v[j] = random_word() % P;
            w[j] = random_word() % P;
            v[leaves + j] = w[leaves + j] = random_word();
        }
        try_record(end, raw, raw_len);
    }
}

/* ---- Two faults of a record, or of a record and its call ---- */

/* What can be wrong with an online call beside its record, in the order of the tests: a vector's
 * length, the window, the room, words. */
enum { VECTOR, WINDOW, ROOM, WORDS, NOTHING };
static const uint32_t call_numbers[] = {3, 7, 13, 8, 0};

/* The record in raw, lent to its end's online call with these two faults. */
static uint32_t try_online(int end, int a, int b)
{
    static uint64_t bad[64];
    size_t n = x.outputs;
    size_t vectors = width * (a == VECTOR || b == VECTOR ? leaves + 1 : leaves);
    size_t first = a == WINDOW || b == WINDOW, room = a == ROOM || b == ROOM ? n - 1 : n;
    int words = a == WORDS || b == WORDS;
    memset(bad, 0xff, sizeof bad);
    return end == 1 ? try_noise_online(raw, raw_len, words ? bad : noise, leaves, words ? bad : v,
                                       vectors, first, n, room, width * n, NULL, NULL).number
                    : try_scalar_online(raw, raw_len, words ? bad : w, vectors, first, n,
                                        width * room, NULL).number;
}

/* The record in raw, lent to its end's offline call with one buffer too short or none. */
static uint32_t try_short(int end, int a)
{
    size_t room = width * leaves - (a == ROOM);
    return end == 1 ? try_offline(1, raw, raw_len, leaves, room, NULL, NULL).number
                    : try_offline(2, raw, raw_len, room, 2, NULL, NULL).number;
}

/* Every two faults of one end's record and calls: the one that is tested first gives the number. */
static void two_faults_of(int end)
{
    const uint8_t *record = end == 1 ? noise_record : scalar_record;
    int most = end == 2 && x.field == 1 ? WORDS : NOTHING; /* there no word is refused */
    uint32_t described_as;
    find_fields(&x, end);
    for (const struct field *a = fields; a < fields + field_count; a++)
        for (int way = 0; way < WAYS; way++) {
            uint32_t number = way_number(a, way);
            if (number == 0)
                continue;
            for (const struct field *b = a + 1; b < fields + field_count; b++)
                for (int other = 0; other < WAYS; other++)
                    if (way_number(b, other) != 0) {
                        raw_len = put_record(raw, record, a, way, b, other);
                        EXPECT(try_short(end, NOTHING) == number);
                        EXPECT(try_online(end, NOTHING, NOTHING) == number);
                        described_as = try_describe(raw, raw_len).number;
                        EXPECT(described_as == number || raw[0] == 3 - end);
                    }
            raw_len = put_record(raw, record, a, way, NULL, 0);
            EXPECT(try_short(end, ROOM) == number);
            for (int b = 0; b < most; b++)
                EXPECT(try_online(end, b, NOTHING) == number);
        }
    raw_len = put_record(raw, record, NULL, 0, NULL, 0);
    EXPECT(try_short(end, NOTHING) == 0);
    EXPECT(try_short(end, ROOM) == 13);
    EXPECT(try_online(end, NOTHING, NOTHING) == 0);
    for (int a = 0; a < most; a++)
        for (int b = 0; b < most; b++)
            EXPECT(try_online(end, a, b) == call_numbers[a < b ? a : b]);
}

static void two_record_faults(void)
{
    for (unsigned field = 1; field <= 2; field++)
        for (size_t g = 1; g <= 3; g += 2) {
            make_dealing(&x, field, 3, g, 2, 3, 4);
            EXPECT(deal().number == 0);
            offline();
            two_faults_of(1);
            two_faults_of(2);
        }
}

/* ---- Labels (document 02, 8) ---- */

/* Where the label stands in both records of x: after end, field, sizes and code key. */
static size_t label_at(void)
{
    const size_t sizes[SIZES] = {x.depth, x.branch_bits, x.trees, x.terms, x.outputs};
    size_t at = 2 + 16;
    uint8_t bytes[3];
    for (int k = 0; k < SIZES; k++)
        at += plain_write_number(bytes, (uint32_t)sizes[k]);
    return at;
}

/* A dealing with another label differs in its records' label alone, and expands to the same. */
static void label_alone(size_t depth, unsigned field)
{
    static uint8_t other_noise[EXPANDER_NOISE_RECORD_MAX];
    static uint8_t other_scalar[EXPANDER_SCALAR_RECORD_MAX];
    static uint64_t other[2 * MOST];
    struct deal_lengths n;
    size_t at, bit = random_below(128), c;
    make_any_dealing(&x, field, depth, some_branch_bits(depth));
    EXPECT(deal().number == 0);
    offline();
    c = x.outputs;
    EXPECT(noise_window(0, c, c, width * c, u_all, v_all) == 0);
    EXPECT(scalar_window(0, c, width * c, w_all) == 0);
    at = label_at();
    EXPECT(memcmp(noise_record + at, x.label, 16) == 0);
    EXPECT(memcmp(scalar_record + at, x.label, 16) == 0);

    n = exact_lengths();
    x.label[bit / 8] ^= (uint8_t)(1 << bit % 8);
    EXPECT(try_deal(&x, &n, other_noise, other_scalar).number == 0);
    EXPECT(memcmp(other_noise + at, x.label, 16) == 0);
    EXPECT(memcmp(other_scalar + at, x.label, 16) == 0);
    EXPECT(memcmp(other_noise, noise_record, at) == 0);
    EXPECT(memcmp(other_scalar, scalar_record, at) == 0);
    at += 16;
    EXPECT(memcmp(other_noise + at, noise_record + at, noise_record_len - at) == 0);
    EXPECT(memcmp(other_scalar + at, scalar_record + at, scalar_record_len - at) == 0);

    EXPECT(try_offline(1, other_noise, noise_record_len, leaves, width * leaves, NULL, other).number
           == 0);
    EXPECT(memcmp(other, v, 8 * width * leaves) == 0);
    EXPECT(try_offline(2, other_scalar, scalar_record_len, width * leaves, 2, other, NULL).number
           == 0);
    EXPECT(memcmp(other, w, 8 * width * leaves) == 0);
    EXPECT(try_noise_online(other_noise, noise_record_len, noise, leaves, v, width * leaves, 0, c,
                            c, width * c, NULL, other).number == 0);
    EXPECT(memcmp(other, v_all, 8 * width * c) == 0);
    EXPECT(try_scalar_online(other_scalar, scalar_record_len, w, width * leaves, 0, c, width * c,
                             other).number == 0);
    EXPECT(memcmp(other, w_all, 8 * width * c) == 0);
}

/* ---- Rows that read exactly l places (document 02, 7) ---- */

/* Words that are no elements everywhere but at the places of row row, or there at one alone: a row
 * reads exactly those, and its outputs depend on no others. */
static void exact_row(size_t row)
{
    static uint64_t noise_kept[MOST], v_kept[2 * MOST], w_kept[2 * MOST];
    static unsigned char used[MOST];
    const uint64_t none = UINT64_MAX;
    size_t strip = leaves / x.terms, places = 0, picked;
    uint64_t u_at, v_at[2], w_at[2], u_again, v_again[2], w_again[2], coefficient;
    struct plain_key code;
    plain_expand_key(&code, x.code_key);
    memset(used, 0, leaves);
    for (size_t i = 0; i < x.terms; i++) {
        size_t place = plain_term(&code, x.field, strip, row, i, &coefficient);
        EXPECT(place >= i * strip && place < (i + 1) * strip);
        places += !used[place];
        used[place] = 1;
    }
    EXPECT(places == x.terms);
    EXPECT(noise_window(row, 1, 1, width, &u_at, v_at) == 0);
    EXPECT(scalar_window(row, 1, width, w_at) == 0);

    memcpy(noise_kept, noise, 8 * leaves);
    memcpy(v_kept, v, 8 * width * leaves);
    memcpy(w_kept, w, 8 * width * leaves);
    for (size_t j = 0; j < leaves; j++)
        for (size_t k = 0; !used[j] && k < width; k++)
            noise[j] = v[width * j + k] = w[width * j + k] = none;
    EXPECT(noise_window(row, 1, 1, width, &u_again, v_again) == 0);
    EXPECT(scalar_window(row, 1, width, w_again) == 0);
    EXPECT(u_again == u_at && memcmp(v_again, v_at, 8 * width) == 0);
    EXPECT(memcmp(w_again, w_at, 8 * width) == 0);
    memcpy(noise, noise_kept, 8 * leaves);
    memcpy(v, v_kept, 8 * width * leaves);
    memcpy(w, w_kept, 8 * width * leaves);

    for (size_t i = 0; i < x.terms; i++) {
        picked = plain_term(&code, x.field, strip, row, i, &coefficient);
        noise[picked] = none;
        EXPECT(noise_window(row, 1, 1, width, NULL, NULL) == 8);
        noise[picked] = noise_kept[picked];
        v[width * picked] ^= none;
        w[width * picked] ^= none;
        EXPECT(noise_window(row, 1, 1, width, NULL, v_again) == (x.field == 2 ? 8 : 0));
        EXPECT(scalar_window(row, 1, width, w_again) == (x.field == 2 ? 8 : 0));
        if (x.field == 1) /* every block is an element: the outputs show that it was read */
            EXPECT(v_again[0] == (v_at[0] ^ none) && w_again[0] == (w_at[0] ^ none));
        v[width * picked] = v_kept[width * picked];
        w[width * picked] = w_kept[width * picked];
    }
}

/* Strips that leave places at the top and strips that leave none, strips of one place too. */
static void exact_rows(unsigned field)
{
    static const size_t shapes[][2] = {{1, 1}, {1, 2}, {2, 3}, {2, 4}, {3, 3}, {3, 5}, {3, 8},
                                       {4, 7}, {5, 31}, {5, 32}, {6, 31}, {6, 32}, {7, 10},
                                       {10, 1}, {10, 24}, {10, 32}, {13, 29}};
    for (size_t k = 0; k < sizeof shapes / sizeof *shapes; k++) {
        size_t d = shapes[k][0], n = (size_t)1 << (d - 1), g = some_branch_bits(d);
        make_dealing(&x, field, d, g, 1 + random_below(2), shapes[k][1], n);
        EXPECT(deal().number == 0);
        offline();
        exact_row(0);
        exact_row(n - 1);
        exact_row(random_below(n));
    }
}

/* ---- The edges of field 2 ---- */

/* a to the power e, modulo p. */
static uint64_t power(uint64_t a, uint64_t e)
{
    block r = {1, 0}, square = {a, 0};
    for (; e > 0; e >>= 1) {
        if (e & 1)
            r = plain_scale(2, r, square.lo);
        square = plain_scale(2, square, square.lo);
    }
    return r.lo;
}

/* Field 2: products at the edges of the reduction modulo p. */
static void edge_products(void)
{
    const uint64_t elements[] = {1, 2, 3, (uint64_t)1 << 60, P / 2, P - 2, P - 1};
    for (size_t a = 0; a < 7; a++)
        for (size_t b = 0; b < 7; b++) { /* Delta times a noise value */
            make_dealing(&x, 2, 1, 1, 1, 1, 1);
            for (int k = 0; k < 8; k++)
                x.delta[k] = (uint8_t)(elements[a] >> (8 * k));
            x.values[0] = elements[b];
            EXPECT(deal().number == 0);
        }
    for (size_t a = 0; a < 7; a++)
        for (size_t b = 0; b < 7; b++) { /* words that make these the products of a row's terms */
            struct plain_key code;
            uint64_t first, second, out;
            size_t i, j;
            make_dealing(&x, 2, 4, 1, 1, 2, 1);
            plain_expand_key(&code, x.code_key);
            i = plain_term(&code, 2, 8, 0, 0, &first);
            j = plain_term(&code, 2, 8, 0, 1, &second);
            EXPECT(deal().number == 0);
            memset(noise, 0, 8 * leaves);
            memset(v, 0, 8 * leaves);
            memset(w, 0, 8 * leaves);
            w[i] = noise[i] = plain_scale(2, (block){elements[a], 0}, power(first, P - 2)).lo;
            w[j] = noise[j] = plain_scale(2, (block){elements[b], 0}, power(second, P - 2)).lo;
            EXPECT(scalar_window(0, 1, 1, &out) == 0 && out == (elements[a] + elements[b]) % P);
            EXPECT(noise_window(0, 1, 1, 1, &out, NULL) == 0
                   && out == (elements[a] + elements[b]) % P);
        }
}

/* Field 2, one level, noise at both leaves: sums and leaf words at the edges of the reduction. */
static void edge_sums(void)
{
    const uint64_t elements[] = {0, 1, 7, P / 2, P - 8, P - 7, P - 2, P - 1};
    const uint64_t words[] = {0, 1, P - 1, P, P + 1, 2 * P - 1, 2 * P, 2 * P + 1, 7 * P - 1, 7 * P,
                              8 * P - 1, 8 * P, 8 * P + 1, UINT64_MAX};
    static const uint8_t head[] = {1, 2, 1, 1, 2, 2, 1};
    leaves = 2;
    width = 1;
    for (size_t a = 0; a < sizeof elements / sizeof *elements; a++)
        for (size_t b = 0; b < sizeof words / sizeof *words; b++) {
            uint64_t correction = elements[a], other = elements[random_below(8)];
            uint64_t leaf = words[b], last = words[random_below(14)];
            uint64_t value = elements[1 + random_below(7)];
            oddness = 0;
            memcpy(raw, head, sizeof head);
            raw_len = sizeof head;
            raw_any(16 + 16);
            raw_number(0); /* the tree with noise at 0 gives leaf 1 */
            raw_word(value);
            raw_word(correction);
            raw_word(last);
            raw_any(8);
            raw_number(0); /* the tree with noise at 1 gives leaf 0 */
            raw_word(P - value);
            raw_word(other);
            raw_word(leaf);
            raw_any(8);
            EXPECT(try_offline(1, raw, raw_len, 2, 2, noise, v).number == 0);
            EXPECT(noise[0] == value && noise[1] == 0);
            EXPECT(v[0] == (correction + leaf % P) % P);
            EXPECT(v[1] == (v[0] + other + last % P) % P);
            noise[0] = elements[random_below(8)];
            v[0] = elements[random_below(8)];
            v[1] = elements[random_below(8)];
            EXPECT(try_noise_online(raw, raw_len, noise, 2, v, 2, 0, 1, 1, 1, NULL, NULL).number
                   == 0);
        }
}

/* ---- Pads with faults ---- */

static void faulty_pads(int rounds)
{
    static const size_t spots[] = {0, 1, 255, 256, EXPANDER_PAD_WINDOW_END - 1,
                                   EXPANDER_PAD_WINDOW_END, EXPANDER_PAD_WINDOW_END + 1, 65536,
                                   (size_t)1 << 4 * sizeof(size_t), SIZE_MAX / 2 + 1, SIZE_MAX - 1, SIZE_MAX};
    for (int round = 0; round < rounds; round++) {
        size_t c = random_below(20), first, room, a, b, k;
        uint8_t scalar[17];
        first = random_below(EXPANDER_PAD_WINDOW_END + 1 - c);
        random_bytes(v_bytes, 16 * 20 + 16);
        random_bytes(w_bytes, 16 * 20 + 16);
        random_bytes(scalar, 17);
        for (k = 0; k <= c; k++)
            choices[k] = random_word() & 1;
        a = 16 * c;
        b = c;
        room = 1;
        for (size_t faults = random_below(4); faults > 0; faults--)
            switch (random_below(7)) {
            case 0:
                first = spots[random_below(sizeof spots / sizeof *spots)];
                break;
            case 1:
                first = EXPANDER_PAD_WINDOW_END - c + random_below(3);
                break;
            case 2: /* lengths one short, one long, empty */
                a = (size_t[]){a + 1, a - (a > 0), 0, a}[random_below(4)];
                b = (size_t[]){b + 1, b - (b > 0), 0, b}[random_below(4)];
                break;
            case 3:
                room = random_below(4);
                break;
            case 4:
                k = random_below(c + 1);
                choices[k] = (uint8_t)(2 + random_below(254));
                break;
            case 5:
                memset(scalar, 0, 16);
                if (random_below(2))
                    scalar[random_below(16)] = 1;
                break;
            case 6: /* only the last byte of Delta is not 00 */
                memset(scalar, 0, 15);
                break;
            }
        room = room == 0 ? 0 : room == 1 ? 32 * c : room == 2 ? 32 * c - (c > 0) : 32 * c + 1;
        try_scalar_pads(first, c, w_bytes, a, scalar,
                        random_below(12) ? 16 : 15 + 2 * random_below(2), room, NULL);
        room = room == 0 ? 0 : room - 16 * c;
        try_noise_pads(first, c, v_bytes, a, choices, b, room, NULL);
    }
    /* Counts whose products with 16 or 32 would wrap. */
    for (size_t k = 0; k < sizeof spots / sizeof *spots; k++)
        for (size_t shift = 1; shift < 8; shift++) {
            size_t c = (size_t)1 << (8 * sizeof(size_t) - shift);
            EXPECT(try_scalar_pads(spots[k], c, w_bytes, 0, x.delta, 16, 0, NULL) == 3);
            EXPECT(try_noise_pads(spots[k], c, v_bytes, 0, choices, 0, 0, NULL) == 3);
            EXPECT(try_scalar_pads(spots[k], c + 1, w_bytes, 16, x.delta, 16, 32, NULL) == 3);
            EXPECT(try_noise_pads(spots[k], c + 1, v_bytes, 16, choices, 1, 16, NULL) == 3);
        }
    EXPECT(try_scalar_pads(0, SIZE_MAX, w_bytes, 16, x.delta, 16, 32, NULL) == 3);
    EXPECT(try_noise_pads(0, SIZE_MAX, v_bytes, 16, choices, 1, 16, NULL) == 3);
}

/* ---- Outputs whose blocks differ by their indices (document 02, 4) ---- */

/* The block b, exclusive-or the block of an index. */
static void store_moved(uint8_t bytes[16], block b, size_t index)
{
    b.lo ^= index;
    plain_store(bytes, b);
}

/* Whether any two of c blocks, `apart` bytes from one to the next, are equal. */
static int any_equal(const uint8_t *blocks, size_t apart, size_t c)
{
    for (size_t i = 0; i < c; i++)
        for (size_t j = i + 1; j < c; j++)
            if (memcmp(blocks + apart * i, blocks + apart * j, 16) == 0)
                return 1;
    return 0;
}

/* Two outputs by calls of their own: both ends' pads are different. */
static void two_apart(size_t first, size_t second)
{
    const size_t index[2] = {first, second};
    uint8_t bytes[16], scalar[16], noise_end[32], scalar_end[64];
    block b;
    random_bytes(bytes, 16);
    random_bytes(scalar, 16);
    b = plain_load(bytes);
    for (int k = 0; k < 2; k++) {
        const uint8_t choice = random_word() & 1;
        store_moved(bytes, b, index[k]);
        EXPECT(try_noise_pads(index[k], 1, bytes, 16, &choice, 1, 16, noise_end + 16 * k) == 0);
        EXPECT(try_scalar_pads(index[k], 1, bytes, 16, scalar, 16, 32, scalar_end + 32 * k) == 0);
    }
    EXPECT(!any_equal(noise_end, 16, 2));
    EXPECT(!any_equal(scalar_end, 16, 4)); /* messages 0 and 1 of both */

    /* Equal blocks, and Delta the difference of the indices: message 0 of one, 1 of the other. */
    plain_store(bytes, b);
    memset(scalar, 0, 16);
    scalar[0] = (uint8_t)(first ^ second);
    scalar[1] = (uint8_t)((first ^ second) >> 8);
    for (int k = 0; k < 2; k++)
        EXPECT(try_scalar_pads(index[k], 1, bytes, 16, scalar, 16, 32, scalar_end + 32 * k) == 0);
    EXPECT(!any_equal(scalar_end, 16, 4));
}

/* A window of outputs of which every two differ by their indices. */
static void window_apart(size_t first, size_t c)
{
    uint8_t bytes[16], scalar[16];
    block b;
    random_bytes(bytes, 16);
    random_bytes(scalar, 16);
    b = plain_load(bytes);
    for (size_t k = 0; k < c; k++) {
        store_moved(v_bytes + 16 * k, b, first + k);
        choices[k] = random_word() & 1;
    }
    EXPECT(try_noise_pads(first, c, v_bytes, 16 * c, choices, c, 16 * c, one_pad) == 0);
    EXPECT(try_scalar_pads(first, c, v_bytes, 16 * c, scalar, 16, 32 * c, both_pads) == 0);
    EXPECT(!any_equal(one_pad, 16, c));
    EXPECT(!any_equal(both_pads, 16, 2 * c));
}

static void blocks_apart(int rounds)
{
    static const size_t pairs[][2] = {{0, 1}, {0, 128}, {255, 256}, {1, 256}, {0, 32767},
                                      {16384, 16383}, {32766, 32767}};
    for (size_t k = 0; k < sizeof pairs / sizeof *pairs; k++)
        two_apart(pairs[k][0], pairs[k][1]);
    for (int round = 0; round < rounds; round++) {
        size_t first = random_below(EXPANDER_PAD_WINDOW_END);
        size_t second = random_below(EXPANDER_PAD_WINDOW_END);
        if (first != second)
            two_apart(first, second);
    }
    window_apart(0, 64);
    window_apart(224, 64);
    window_apart(EXPANDER_PAD_WINDOW_END - 64, 64);
}

/* ---- Document 01's cases ---- */

static void cases(void)
{
    for (unsigned field = 1; field <= 2; field++) {
        result r;
        make_dealing(&x, field, 1, 1, 1, 1, 1);
        r = deal();
        EXPECT(r.number == 0 && r.first == 72 && r.second == (field == 1 ? 71 : 63));
        EXPECT(try_offline(1, noise_record, 71, 8, 8, NULL, NULL).number == 10);
        noise_record[72] = 0;
        EXPECT(try_offline(1, noise_record, 73, 8, 8, NULL, NULL).number == 12);
        noise_record[2] = 0x80; /* d as 80 00 */
        noise_record[3] = 0x00;
        EXPECT(try_offline(1, noise_record, 72, 8, 8, NULL, NULL).number == 11);

        make_dealing(&x, field, 3, 1, 3, 2, 4);
        x.positions[0] = 1;
        x.positions[1] = 4;
        x.positions[2] = 5;
        EXPECT(deal().number == 0);
        EXPECT(noise_record[39] == 1 && noise_record[39 + 65] == 2
               && noise_record[39 + 2 * 65] == 0);
        offline();
        EXPECT(noise_window(3, 1, 1, width, NULL, NULL) == 0);
        EXPECT(noise_window(3, 2, 2, 2 * width, NULL, NULL) == 7);
        EXPECT(noise_window(4, 0, 0, 0, NULL, NULL) == 0);
        EXPECT(scalar_window(3, 1, width, NULL) == 0);
        EXPECT(scalar_window(3, 2, 2 * width, NULL) == 7);
        EXPECT(scalar_window(4, 0, 0, NULL) == 0);
        x.outputs = 5;
        EXPECT(deal().number == 2);
        x.outputs = 4;
        x.positions[2] = 4;
        EXPECT(deal().number == 4);

        /* Noise at 1 and 4, accumulated. */
        make_dealing(&x, field, 3, 1, 2, 1, 4);
        x.positions[0] = 1;
        x.positions[1] = 4;
        x.values[0] = field == 1 ? 1 : 5;
        x.values[1] = field == 1 ? 1 : P - 2;
        EXPECT(deal().number == 0);
        offline();
        for (size_t j = 0; j < 8; j++)
            EXPECT(noise[j] == (j == 0 ? 0 : j < 4 ? x.values[0] : field == 1 ? 0 : 3));
    }
}

int main(void)
{
    begin(calls, CALLS);
    cases();
    limits();
    sizes_at_bounds();
    longest_records();
    faulty_deals(8000);
    faulty_pads(8000);
    blocks_apart(500);
    edge_products();
    edge_sums();
    two_deal_faults();
    two_record_faults();
    odd_records(40000);
    for (unsigned field = 1; field <= 2; field++) {
        exact_rows(field);
        for (size_t depth = 1; depth <= 9; depth++)
            label_alone(depth, field);
        for (size_t depth = 1; depth <= 4; depth++)
            for (int round = 0; round < 6; round++) {
                size_t trees = 1 + random_below(2), terms = 1 + random_below(depth == 1 ? 2 : 4);
                size_t g = some_branch_bits(depth);
                make_dealing(&x, field, depth, g, trees, terms, (size_t)1 << (depth - 1));
                damaged_records();
            }
        for (size_t g = 1; g <= 3; g++) {
            for (size_t depth = g; depth <= 10; depth += g)
                for (int round = 0; round < (depth <= 7 ? 10 : 2); round++) {
                    make_any_dealing(&x, field, depth, g);
                    whole_dealing(0);
                }
            for (size_t depth = 12; depth <= 16; depth++)
                if (may_branch(depth, g)) {
                    size_t trees = 1 + random_below(8), terms = 1 + random_below(32);
                    make_dealing(&x, field, depth, g, trees, terms,
                                 1 + random_below((size_t)1 << (depth - 1)));
                    whole_dealing(1);
                }
        }
    }
    for (size_t g = 1; g <= 3; g++) { /* the largest sizes */
        size_t depth = g == 3 ? 15 : 16;
        make_dealing(&x, g == 2 ? 2 : 1, depth, g, 64, 32, (size_t)1 << (depth - 1));
        whole_dealing(1);
    }
    return finish();
}
