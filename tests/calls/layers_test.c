/* The sum of layers held to the plain implementation, and layers added up with it, through expander.h
 * (lend.h).
 */
#include "lend.h"
#include "../plain/plain_layers.h"

#include <string.h>

#define P PLAIN_P

typedef struct plain_block block;

enum { ADD, CALLS };
enum { LEAVES = EXPANDER_LEAVES_MAX, MOST = 2 * LEAVES, LAYERS = 4 };

static const struct call calls[CALLS] = {{"add", BIT(0) | BIT(1) | BIT(3) | BIT(8)}};

/* One call by both; what the library left in `into` goes to out, if not NULL. */
static uint32_t try_add(unsigned field, const uint64_t *from, size_t from_len, const uint64_t *into,
                        size_t into_len, uint64_t *out)
{
    struct plain_result mine, plain;
    describe("add(field %u, %zu, %zu)", field, from_len, into_len);
    lend(0, from, from_len, 8);
    lend(1, into, into_len, 8);
    mine = one(expander_add((uint8_t)field, LIBRARY(0, uint64_t), from_len, LIBRARY(1, uint64_t),
                            into_len));
    plain = one(plain_add_vector((uint8_t)field, PLAIN(0, uint64_t), from_len, PLAIN(1, uint64_t),
                                 into_len));
    settle(ADD, mine, plain, 1, 1, 8 * plain.first, 0);
    EXPECT(mine.first == (mine.number == 0 ? into_len : 0));
    keep(out, 1, 8 * into_len);
    return mine.number;
}

/* ---- Words ---- */

static uint64_t a[MOST + 1], b[MOST + 1], sum[MOST], other[MOST];

/* A word to add, often at a bound: any word in field 1, one below p in field 2. */
static uint64_t some_word(unsigned field)
{
    const uint64_t ends[] = {0, 1, P - 1, P - 2, P / 2, P / 2 + 1, UINT64_MAX, P, P + 1, P << 3};
    uint64_t x = random_word();
    if (random_below(4) == 0)
        return ends[random_below(field == 1 ? sizeof ends / sizeof *ends : 6)];
    return field == 1 ? x : x % P;
}

static void some_words(unsigned field, uint64_t *to, size_t count)
{
    for (size_t k = 0; k < count; k++)
        to[k] = some_word(field);
}

/* The sum of two words, by the arithmetic of plain.h in field 2. */
static uint64_t word_sum(unsigned field, uint64_t x, uint64_t y)
{
    block one_word = {x, 0}, another = {y, 0};
    return field == 1 ? x ^ y : plain_add(2, one_word, another).lo;
}

/* Vectors of so many words: the sum at each, in either order; 0 adds nothing, and an opposite leaves 0. */
static void vectors(unsigned field, size_t count)
{
    some_words(field, a, count);
    some_words(field, b, count);
    EXPECT(try_add(field, a, count, b, count, sum) == 0);
    EXPECT(try_add(field, b, count, a, count, other) == 0);
    EXPECT(memcmp(sum, other, 8 * count) == 0);
    for (size_t k = 0; k < count; k++)
        EXPECT(sum[k] == word_sum(field, a[k], b[k]));
    memset(b, 0, 8 * count);
    EXPECT(try_add(field, b, count, a, count, sum) == 0);
    EXPECT(memcmp(sum, a, 8 * count) == 0);
    for (size_t k = 0; k < count; k++)
        other[k] = field == 1 ? a[k] : (P - a[k]) % P;
    EXPECT(try_add(field, other, count, a, count, sum) == 0);
    EXPECT(memcmp(sum, b, 8 * count) == 0);
}

/* Every two words at a bound, alone: in field 2 one of p or more on either side is refused. */
static void bounds(void)
{
    const uint64_t words[] = {0, 1, 2, P / 2, P / 2 + 1, P - 2, P - 1, P, P + 1, P + 2, 2 * P, 2 * P + 1,
                              UINT64_C(1) << 61, UINT64_C(1) << 62, UINT64_C(1) << 63, 7 * P, 8 * P,
                              UINT64_MAX - 1, UINT64_MAX};
    enum { WORDS = sizeof words / sizeof *words };
    for (unsigned field = 1; field <= 2; field++)
        for (int x = 0; x < WORDS; x++)
            for (int y = 0; y < WORDS; y++) {
                uint32_t number = field == 2 && (words[x] >= P || words[y] >= P) ? 8 : 0;
                EXPECT(try_add(field, words + x, 1, words + y, 1, sum) == number);
                EXPECT(sum[0] == (number == 0 ? word_sum(field, words[x], words[y]) : words[y]));
            }
}

/* ---- Refusals ---- */

/* Put a word that is no element of field 2 at the front (1), at the end (2) or anywhere (3). */
static void spoil(uint64_t *words, size_t count, int place)
{
    const uint64_t bad[] = {P, P + 1, P << 1, UINT64_C(1) << 63, UINT64_MAX};
    uint64_t word = bad[random_below(5)];
    if (place > 0 && count > 0)
        words[place == 1 ? 0 : place == 2 ? count - 1 : random_below(count)] = word;
}

/* Every set of faults: of the field, of the lengths, of a word of each side. */
static void refusals(size_t count)
{
    const unsigned fields[] = {1, 2, 0, 3, 0x81, 0xff};
    const size_t lens[] = {count, count + 1, count > 0 ? count - 1 : 1, 0};
    for (int set = 0; set < 6 * 4 * 4 * 4; set++) {
        unsigned field = fields[set % 6];
        size_t from_len = lens[set / 6 % 4];
        int from_place = set / 24 % 4, into_place = set / 96, wrong;
        some_words(2, a, from_len);
        some_words(2, b, count);
        spoil(a, from_len, from_place);
        spoil(b, count, into_place);
        wrong = (from_place > 0 && from_len > 0) || (into_place > 0 && count > 0);
        EXPECT(try_add(field, a, from_len, b, count, sum)
               == (field != 1 && field != 2 ? 1u : from_len != count ? 3u : field == 2 && wrong ? 8u : 0u));
    }
}

/* Fields and lengths at random, and at most a few words that are no elements. */
static void anything(void)
{
    unsigned field = random_below(8) == 0 ? (unsigned)random_below(256) : 1 + (unsigned)random_below(2);
    size_t count = random_below(random_below(8) == 0 ? 3000 : 70), from_len = count;
    if (random_below(8) == 0)
        from_len = random_below(3000);
    some_words(field, a, from_len);
    some_words(field, b, count);
    for (size_t changes = random_below(4); field == 2 && changes > 1; changes--) {
        uint64_t *side = random_below(2) ? a : b;
        spoil(side, side == a ? from_len : count, 3);
    }
    try_add(field, a, from_len, b, count, NULL);
}

/* ---- Layers ---- */

/* A layer: its dealing, both records, and what its ends make of them by the library's calls. */
static struct layer {
    struct dealing x;
    uint8_t noise_record[EXPANDER_NOISE_RECORD_MAX], scalar_record[EXPANDER_SCALAR_RECORD_MAX];
    size_t noise_record_len, scalar_record_len;
    uint64_t noise[LEAVES], v[MOST], w[MOST], delta[2];
} layers[LAYERS];
static uint64_t noise[LEAVES], v[MOST], w[MOST]; /* the sums */
static size_t leaves, width;

static void deal(struct layer *l)
{
    const struct dealing *x = &l->x;
    struct expander_two_lengths r;
    describe("deal(field %u, d %zu, g %zu, t %zu, l %zu, n %zu)", x->field, x->depth, x->branch_bits,
             x->trees, x->terms, x->outputs);
    r = expander_deal(x->field, x->depth, x->branch_bits, x->trees, x->terms, x->outputs, x->roots,
                      16 * x->trees, x->positions, x->trees, x->values, x->trees, x->delta, 16,
                      x->code_key, 16, x->label, 16, l->noise_record, sizeof l->noise_record,
                      l->scalar_record, sizeof l->scalar_record);
    EXPECT(r.number == 0);
    l->noise_record_len = r.first_written;
    l->scalar_record_len = r.second_written;
    EXPECT(expander_noise_offline(l->noise_record, l->noise_record_len, l->noise, LEAVES, l->v, MOST).number
           == 0);
    EXPECT(expander_scalar_offline(l->scalar_record, l->scalar_record_len, l->w, MOST, l->delta, 2).number
           == 0);
}

/* Layers like the first: field, d, l, n, code key and Delta are its own; g, t and the rest are drawn. */
static void deal_layers(unsigned field, size_t depth, size_t trees, int count)
{
    const struct dealing *first = &layers[0].x;
    leaves = (size_t)1 << depth;
    width = EXPANDER_ELEMENT_WORDS(field);
    make_any_dealing(&layers[0].x, field, depth, some_branch_bits(depth));
    for (int k = 0; k < count; k++) {
        struct dealing *x = &layers[k].x;
        size_t branch_bits = some_branch_bits(depth);
        make_dealing(x, field, depth, branch_bits, 1 + random_below(trees), first->terms, first->outputs);
        memcpy(x->code_key, first->code_key, 16);
        memcpy(x->delta, first->delta, 16);
        deal(&layers[k]);
    }
}

enum vector { NOISE, V, W };

static uint64_t *words_of(struct layer *l, enum vector which)
{
    return which == NOISE ? l->noise : which == V ? l->v : l->w;
}

/* The sum of one of the layers' vectors, in any order and any bracketing. */
static void add_up(enum vector which, int count, uint64_t *to)
{
    static uint64_t parts[LAYERS][MOST];
    size_t len = which == NOISE ? leaves : width * leaves;
    for (int k = 0; k < count; k++)
        memcpy(parts[k], words_of(&layers[k], which), 8 * len);
    for (int left = count; left > 1; left--) { /* one of the parts goes into another; the last takes its place */
        size_t from = random_below((size_t)left), into = random_below((size_t)left - 1);
        into += into >= from;
        EXPECT(try_add(layers[0].x.field, parts[from], len, parts[into], len, parts[into]) == 0);
        memcpy(parts[from], parts[left - 1], 8 * len);
    }
    memcpy(to, parts[0], 8 * len);
}

static block element(const uint64_t *words, size_t k)
{
    block e = {words[width * k], width == 2 ? words[2 * k + 1] : 0};
    return e;
}

static int same_block(block x, block y)
{
    return x.lo == y.lo && x.hi == y.hi;
}

/* The accumulated sum of the layers' noise, by its definition: places of several layers may coincide. */
static void noise_by_definition(int count)
{
    unsigned field = layers[0].x.field;
    memset(other, 0, 8 * leaves);
    for (int k = 0; k < count; k++)
        for (size_t i = 0; i < layers[k].x.trees; i++) {
            uint64_t *place = &other[layers[k].x.positions[i]];
            *place = word_sum(field, *place, layers[k].x.values[i]);
        }
    plain_accumulate_noise(field, other, leaves);
    EXPECT(memcmp(other, noise, 8 * leaves) == 0);
}

/* A window of both ends' sums, each with the record of any layer: w = Delta u + v at each index, and u, v
 * and w are the sums of the layers' own. The number of indices at which w = Delta u + v. */
static size_t window(int count, size_t first, size_t c)
{
    static uint64_t u_out[LAYERS + 1][LEAVES / 2], v_out[LAYERS + 1][LEAVES], w_out[LAYERS + 1][LEAVES];
    unsigned field = layers[0].x.field;
    block delta = {layers[0].delta[0], layers[0].delta[1]};
    size_t held = 0;
    for (int k = 0; k <= count; k++) { /* the layers, and then their sum */
        struct layer *l = &layers[k < count ? (size_t)k : random_below((size_t)count)];
        struct layer *scalar = k < count ? l : &layers[random_below((size_t)count)];
        EXPECT(expander_noise_online(l->noise_record, l->noise_record_len, k < count ? l->noise : noise,
                                     leaves, k < count ? l->v : v, width * leaves, first, c, u_out[k],
                                     LEAVES / 2, v_out[k], LEAVES).number == 0);
        EXPECT(expander_scalar_online(scalar->scalar_record, scalar->scalar_record_len,
                                      k < count ? l->w : w, width * leaves, first, c, w_out[k], LEAVES).number
               == 0);
    }
    for (size_t k = 0; k < c; k++) {
        block product = plain_scale(field, delta, u_out[count][k]);
        block u = {0, 0}, v_there = {0, 0}, w_there = {0, 0};
        if (same_block(plain_add(field, product, element(v_out[count], k)), element(w_out[count], k)))
            held++;
        for (int i = 0; i < count; i++) {
            block u_of = {u_out[i][k], 0};
            u = plain_add(field, u, u_of);
            v_there = plain_add(field, v_there, element(v_out[i], k));
            w_there = plain_add(field, w_there, element(w_out[i], k));
        }
        EXPECT(u.lo == u_out[count][k] && same_block(v_there, element(v_out[count], k))
               && same_block(w_there, element(w_out[count], k)));
    }
    return held;
}

/* So many layers of this depth, of at most so many trees: added up, and windows of the sums. */
static void layered(unsigned field, size_t depth, size_t trees, int count)
{
    size_t n, most;
    deal_layers(field, depth, trees, count);
    n = layers[0].x.outputs;
    most = n < 512 ? n : 512;
    add_up(NOISE, count, noise);
    add_up(V, count, v);
    add_up(W, count, w);
    noise_by_definition(count);
    describe("%d layers of field %u, d %zu, n %zu", count, field, depth, n);
    EXPECT(window(count, n - most, most) == most);
    for (int round = 0; round < 3; round++) {
        size_t c = random_below(most + 1), first = random_below(n - c + 1);
        EXPECT(window(count, first, c) == c);
    }
}

/* What layers must have in common. A dealing that is two layers of field 1 leaves nothing but zeros; a
 * layer with another Delta ends the correlation wherever that layer's u is not 0. */
static void not_layers(unsigned field)
{
    size_t n, zeros = 0;
    deal_layers(field, 8, 20, 2);
    layers[1] = layers[0];
    add_up(NOISE, 2, noise);
    add_up(V, 2, v);
    add_up(W, 2, w);
    for (size_t k = 0; k < width * leaves; k++)
        zeros += v[k] == 0 && w[k] == 0 && noise[k / width] == 0;
    EXPECT((zeros == width * leaves) == (field == 1));
    deal_layers(field, 8, 20, 2);
    n = layers[0].x.outputs;
    layers[1].x.delta[0] ^= 2;
    deal(&layers[1]);
    add_up(NOISE, 2, noise);
    add_up(V, 2, v);
    add_up(W, 2, w);
    describe("a layer of field %u with another Delta", field);
    for (size_t first = 0; first < n; first++) {
        uint64_t u_of_it, element_of_it[2];
        struct layer *l = &layers[1];
        EXPECT(expander_noise_online(l->noise_record, l->noise_record_len, l->noise, leaves, l->v,
                                     width * leaves, first, 1, &u_of_it, 1, element_of_it, 2).number == 0);
        EXPECT(window(2, first, 1) == (u_of_it == 0));
    }
}

int main(void)
{
    const size_t counts[] = {0, 1, 2, 3, 4, 5, 7, 8, 9, 63, 64, 65, 127, 1000, 4095, LEAVES - 1, MOST - 1, MOST};
    begin(calls, CALLS);
    bounds();
    for (unsigned field = 1; field <= 2; field++)
        for (size_t k = 0; k < sizeof counts / sizeof *counts; k++)
            vectors(field, counts[k]);
    for (size_t count = 0; count < 6; count++)
        refusals(count);
    refusals(301);
    for (int round = 0; round < 4000; round++)
        anything();
    for (unsigned field = 1; field <= 2; field++) {
        for (int count = 1; count <= LAYERS; count++)
            for (size_t depth = 1; depth <= 10; depth++)
                for (int round = 0; round < 3; round++)
                    layered(field, depth, most_trees(depth) < 12 ? most_trees(depth) : 12, count);
        layered(field, 10, MAX_TREES, LAYERS);
        layered(field, EXPANDER_DEPTH_MAX, 2, LAYERS);
        not_layers(field);
    }
    return finish();
}
