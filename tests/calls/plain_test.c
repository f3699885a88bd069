/* The plain implementation held to FIPS 197, to document 01's cases, to the pads and trees of
 * document 02, requests 4 and 10, and, on random dealings, to the documents' definitions (request 7's
 * rows among them) written out place by place.
 */
#include "dealing.h"
#include "../plain/plain.h"

#include <stdio.h>
#include <stdlib.h>
#include <string.h>

typedef struct plain_block block;

static unsigned long checks;

#define CHECK(fact) check((fact), #fact, __LINE__)

static void check(int holds, const char *fact, int line)
{
    checks++;
    if (!holds) {
        fprintf(stderr, "plain_test.c:%d: not so: %s\n", line, fact);
        exit(1);
    }
}

/* ---- FIPS 197, byte by byte ---- */

static uint8_t xtime(uint8_t a)
{
    return (uint8_t)(a & 0x80 ? a << 1 ^ 0x1b : a << 1);
}

static uint8_t multiply(uint8_t a, uint8_t b)
{
    uint8_t r = 0;
    for (int k = 7; k >= 0; k--)
        r = (uint8_t)(xtime(r) ^ (b >> k & 1 ? a : 0));
    return r;
}

/* Equations 5.1 to 5.2: the inverse by search, the affine step by turning the byte. */
static uint8_t sub_byte(uint8_t a)
{
    unsigned b = 0, turned;
    while (a != 0 && multiply(a, (uint8_t)b) != 1)
        b++;
    turned = b << 8 | b;
    return (uint8_t)(b ^ turned >> 4 ^ turned >> 5 ^ turned >> 6 ^ turned >> 7 ^ 0x63);
}

static uint8_t s_box[256];

/* Cipher() and KeyExpansion(); byte r of column c of the state is in[r + 4 c]. */
static void encrypt_bytes(const uint8_t key[16], const uint8_t in[16], uint8_t out[16])
{
    uint8_t w[176], s[16], t[16], rcon = 1;
    memcpy(w, key, 16);
    for (int i = 16; i < 176; i += 4) {
        uint8_t temp[4] = {w[i - 4], w[i - 3], w[i - 2], w[i - 1]};
        if (i % 16 == 0) {
            uint8_t first = temp[0];
            temp[0] = s_box[temp[1]] ^ rcon;
            temp[1] = s_box[temp[2]];
            temp[2] = s_box[temp[3]];
            temp[3] = s_box[first];
            rcon = xtime(rcon);
        }
        for (int k = 0; k < 4; k++)
            w[i + k] = w[i - 16 + k] ^ temp[k];
    }
    for (int k = 0; k < 16; k++)
        s[k] = in[k] ^ w[k];
    for (int round = 1; round <= 10; round++) {
        for (int c = 0; c < 4; c++) /* SubBytes and ShiftRows */
            for (int r = 0; r < 4; r++)
                t[r + 4 * c] = s_box[s[r + 4 * ((c + r) % 4)]];
        for (int c = 0; c < 4; c++) /* MixColumns, but for the last round */
            for (int r = 0; r < 4; r++)
                s[r + 4 * c] = round == 10 ? t[r + 4 * c]
                    : (uint8_t)(multiply(2, t[r + 4 * c]) ^ multiply(3, t[(r + 1) % 4 + 4 * c])
                                ^ t[(r + 2) % 4 + 4 * c] ^ t[(r + 3) % 4 + 4 * c]);
        for (int k = 0; k < 16; k++)
            s[k] ^= w[16 * round + k];
    }
    memcpy(out, s, 16);
}

static int encrypts(const uint8_t key[16], const uint8_t in[16], const uint8_t out[16])
{
    struct plain_key round_keys;
    uint8_t bytes[16];
    plain_expand_key(&round_keys, key);
    plain_store(bytes, plain_encrypt(&round_keys, plain_load(in)));
    return memcmp(bytes, out, 16) == 0;
}

static void test_cipher(void)
{
    static const uint8_t c1_key[16] = {0, 1, 2, 3, 4, 5, 6, 7, 8, 9, 10, 11, 12, 13, 14, 15};
    static const uint8_t c1_in[16] = {0x00, 0x11, 0x22, 0x33, 0x44, 0x55, 0x66, 0x77,
                                      0x88, 0x99, 0xaa, 0xbb, 0xcc, 0xdd, 0xee, 0xff};
    static const uint8_t c1_out[16] = {0x69, 0xc4, 0xe0, 0xd8, 0x6a, 0x7b, 0x04, 0x30,
                                       0xd8, 0xcd, 0xb7, 0x80, 0x70, 0xb4, 0xc5, 0x5a};
    static const uint8_t b_key[16] = {0x2b, 0x7e, 0x15, 0x16, 0x28, 0xae, 0xd2, 0xa6,
                                      0xab, 0xf7, 0x15, 0x88, 0x09, 0xcf, 0x4f, 0x3c};
    static const uint8_t b_in[16] = {0x32, 0x43, 0xf6, 0xa8, 0x88, 0x5a, 0x30, 0x8d,
                                     0x31, 0x31, 0x98, 0xa2, 0xe0, 0x37, 0x07, 0x34};
    static const uint8_t b_out[16] = {0x39, 0x25, 0x84, 0x1d, 0x02, 0xdc, 0x09, 0xfb,
                                      0xdc, 0x11, 0x85, 0x97, 0x19, 0x6a, 0x0b, 0x32};
    struct plain_key round_keys;
    uint8_t key[16], in[16], out[16];

    for (unsigned x = 0; x < 256; x++) {
        s_box[x] = sub_byte((uint8_t)x);
        CHECK(plain_sbox((uint8_t)x) == s_box[x]);
    }
    CHECK(plain_sbox(0x00) == 0x63);
    CHECK(plain_sbox(0x53) == 0xed);
    CHECK(encrypts(c1_key, c1_in, c1_out));
    CHECK(encrypts(b_key, b_in, b_out));
    plain_expand_key(&round_keys, b_key);
    CHECK(round_keys.column[4] == 0x17fefaa0);  /* w4 is a0fafe17 */
    CHECK(round_keys.column[43] == 0xa60c63b6); /* w43 is b6630ca6 */
    for (int k = 0; k < 20000; k++) {
        random_bytes(key, 16);
        random_bytes(in, 16);
        encrypt_bytes(key, in, out);
        CHECK(encrypts(key, in, out));
    }
}

/* ---- Cases ---- */

static int writes_number(uint32_t x, size_t n, uint8_t a, uint8_t b, uint8_t c)
{
    uint8_t bytes[3] = {0, 0, 0};
    return plain_write_number(bytes, x) == n && bytes[0] == a && bytes[1] == b && bytes[2] == c;
}

/* Bytes of the longest records. */
enum { NOISE_MAX = 37034, SCALAR_MAX = 1081 };

static struct plain_result deal(const struct dealing *x, uint8_t *noise, uint8_t *scalar)
{
    return plain_deal(x->field, x->depth, x->branch_bits, x->trees, x->terms, x->outputs, x->roots,
                      16 * x->trees, x->positions, x->trees, x->values, x->trees, x->delta, 16,
                      x->code_key, 16, x->label, 16, noise, NOISE_MAX, scalar, SCALAR_MAX);
}

static int is(struct plain_result r, uint32_t number, size_t first, size_t second)
{
    return r.number == number && r.first == first && r.second == second;
}

static block element(uint64_t x)
{
    block b = {x, 0};
    return b;
}

/* The record is one of this end and field, with d, g, t, l, n being 3, 1, 3, 2, 4, so that its code
 * key begins at 7 and its label at 23; cut or longer it is refused, and so is one of no end. */
static int describes(const uint8_t *record, size_t len, unsigned end, unsigned field)
{
    static const uint8_t no_end[] = {0, 1, 1};
    static const uint8_t zeros[16];
    struct plain_described d = plain_describe(record, len), cut = plain_describe(record, len - 1);
    return d.number == 0 && d.end == end && d.field == field && d.depth == 3 && d.branch_bits == 1
        && d.trees == 3 && d.terms == 2 && d.outputs == 4 && d.leaves == 8
        && d.element_words == (field == 1 ? 2 : 1)
        && memcmp(d.code_key, record + 7, 16) == 0 && memcmp(d.label, record + 23, 16) == 0
        && plain_describe(record, 0).number == 10 && cut.number == 10 && cut.leaves == 0
        && memcmp(cut.label, zeros, 16) == 0 && memcmp(cut.code_key, zeros, 16) == 0
        && plain_describe(record, len + 1).number == 12
        && plain_describe(no_end, sizeof no_end).number == 9;
}

static void test_cases(void)
{
    static uint8_t noise[NOISE_MAX], scalar[SCALAR_MAX];
    static struct dealing x;
    static const struct {
        size_t first, count;
        uint32_t number;
    } windows[] = {{3, 1, 0}, {3, 2, 7}, {4, 0, 0}, {5, 0, 7}, {SIZE_MAX, 1, 7}};
    uint64_t words[8], v[16], u_out[4], v_out[8];
    const uint64_t p = PLAIN_P;
    struct plain_result r;

    CHECK(writes_number(127, 1, 0x7f, 0, 0));
    CHECK(writes_number(128, 2, 0x80, 0x01, 0));
    CHECK(writes_number(300, 2, 0xac, 0x02, 0));
    CHECK(writes_number(16384, 3, 0x80, 0x80, 0x01));

    CHECK(plain_scale(2, element((uint64_t)1 << 60), 2).lo == 1);
    CHECK(plain_scale(2, element(p - 1), p - 1).lo == 1);
    CHECK(plain_reduce(UINT64_MAX) == 7);
    CHECK(plain_reduce(p) == 0);
    CHECK(plain_subtract(2, element(7), plain_scale(2, element(3), 5)).lo == p - 8);

    memset(words, 0, sizeof words);
    words[1] = words[4] = 1;
    plain_accumulate_noise(1, words, 8);
    CHECK(memcmp(words, ((uint64_t[]){0, 1, 1, 1, 0, 0, 0, 0}), sizeof words) == 0);
    memset(words, 0, sizeof words);
    words[1] = 5;
    words[4] = p - 2;
    plain_accumulate_noise(2, words, 8);
    CHECK(memcmp(words, ((uint64_t[]){0, 5, 5, 5, 3, 3, 3, 3}), sizeof words) == 0);

    for (unsigned field = 1; field <= 2; field++) {
        make_dealing(&x, field, 1, 1, 1, 1, 1);
        CHECK(is(deal(&x, noise, scalar), 0, 72, field == 1 ? 71 : 63));
        CHECK(is(plain_noise_offline(noise, 72, words, 8, v, 16), 0, 2, field == 1 ? 4 : 2));
        CHECK(is(plain_noise_offline(noise, 71, words, 8, v, 16), 10, 0, 0));
        noise[72] = 0;
        CHECK(is(plain_noise_offline(noise, 73, words, 8, v, 16), 12, 0, 0));
        noise[2] = 0x80; /* d as 80 00 */
        noise[3] = 0x00;
        CHECK(is(plain_noise_offline(noise, 72, words, 8, v, 16), 11, 0, 0));

        make_dealing(&x, field, 3, 1, 3, 2, 4);
        x.positions[0] = 1;
        x.positions[1] = 4;
        x.positions[2] = 5;
        r = deal(&x, noise, scalar);
        CHECK(r.number == 0);
        CHECK(describes(noise, r.first, 1, field) && describes(scalar, r.second, 2, field));
        /* A tree takes 16 bytes of value and correction and three siblings after its position. */
        CHECK(noise[39] == 1 && noise[39 + 65] == 2 && noise[39 + 2 * 65] == 0);
        CHECK(plain_noise_offline(noise, r.first, words, 8, v, 16).number == 0);
        for (size_t k = 0; k < sizeof windows / sizeof *windows; k++)
            CHECK(plain_noise_online(noise, r.first, words, 8, v, field == 1 ? 16 : 8,
                                     windows[k].first, windows[k].count, u_out, 4, v_out, 8)
                      .number == windows[k].number);
        x.outputs = 5;
        CHECK(is(deal(&x, noise, scalar), 2, 0, 0));
        x.outputs = 4;
        x.terms = 8; /* N */
        CHECK(deal(&x, noise, scalar).number == 0);
        x.terms = 9;
        CHECK(is(deal(&x, noise, scalar), 2, 0, 0));
        x.terms = 2;
        x.positions[2] = 4;
        CHECK(is(deal(&x, noise, scalar), 4, 0, 0));
    }
}

/* Branch bits of each depth in a dealing and in a record: 2 unless they are 1, 2 or 3 and divide the
 * depth. In a record they are a number like the others, and the depth is tested before it. */
static void test_branch_bits(void)
{
    static uint8_t noise[NOISE_MAX], scalar[SCALAR_MAX], record[NOISE_MAX + 2];
    static uint64_t words[65536], v[131072];
    static struct dealing x;
    for (size_t d = 1; d <= 16; d++)
        for (size_t g = 0; g <= 5; g++) {
            int admitted = g >= 1 && g <= 3 && d / g * g == d;
            uint32_t number = admitted ? 0 : 2;
            make_dealing(&x, 1 + (unsigned)random_below(2), d, g, 1, 1, 1);
            CHECK(deal(&x, noise, scalar).number == number);
            x.branch_bits = 1;
            CHECK(deal(&x, noise, scalar).number == 0);
            noise[3] = scalar[3] = (uint8_t)g;
            CHECK(plain_noise_offline(noise, 4, words, 65536, v, 131072).number
                  == (admitted ? 10u : 2u));
            CHECK(plain_scalar_offline(scalar, 4, v, 131072, words, 2).number
                  == (admitted ? 10u : 2u));
            memcpy(record, noise, 3);
            record[3] = 0x80 | (uint8_t)g; /* too long by a byte, then without an end */
            record[4] = 0x00;
            CHECK(plain_noise_offline(record, 5, words, 65536, v, 131072).number == 11);
            record[4] = record[5] = 0x80;
            CHECK(plain_noise_offline(record, 6, words, 65536, v, 131072).number == 11);
            record[2] = 17;
            CHECK(plain_noise_offline(record, 6, words, 65536, v, 131072).number == 2);
        }
    make_dealing(&x, 1, 4, 2, 1, 1, 1);
    x.branch_bits = SIZE_MAX;
    CHECK(deal(&x, noise, scalar).number == 2);
    x.branch_bits = ((size_t)1 << 4 * sizeof(size_t)) + 2;
    CHECK(deal(&x, noise, scalar).number == 2);
}

/* The example of docs/RECORD-FORMAT.md with four children a node: correction and siblings, worked out
 * by a program of their own. */
static void test_known_record(void)
{
    static const uint8_t known[7 * 16] = {
        0xde, 0xcc, 0x1d, 0x52, 0xe5, 0xad, 0x6e, 0x06,
        0xd2, 0xec, 0xcc, 0xbd, 0xa0, 0x6a, 0xd7, 0x77,
        0x25, 0x9c, 0x49, 0x4a, 0xb9, 0xa3, 0x4b, 0x13,
        0x08, 0x6f, 0x6c, 0x43, 0x73, 0x5a, 0x2a, 0x59,
        0x26, 0x56, 0xc4, 0xf7, 0x34, 0x3b, 0x39, 0x3d,
        0x90, 0x84, 0xb7, 0x45, 0xaf, 0x64, 0xd4, 0x11,
        0x38, 0xfa, 0x1f, 0x1d, 0x00, 0x47, 0xcd, 0x7b,
        0xa0, 0x53, 0x81, 0xd7, 0x5f, 0xbb, 0x93, 0x41,
        0x28, 0x97, 0x37, 0xd8, 0x28, 0x82, 0x69, 0xb5,
        0xe3, 0x58, 0xe1, 0xcf, 0x5e, 0xd8, 0x26, 0x11,
        0xa1, 0xec, 0x73, 0x2b, 0xb1, 0x6c, 0x2e, 0x3a,
        0x52, 0xac, 0x6c, 0x7a, 0x4f, 0x9b, 0x15, 0xba,
        0x26, 0x91, 0x34, 0x8b, 0x99, 0xee, 0x4d, 0x1c,
        0x2e, 0xc9, 0x58, 0xc6, 0x5a, 0x91, 0xbb, 0x52};
    static const uint8_t head[] = {1, 1, 4, 2, 1, 2, 8};
    static uint8_t noise[NOISE_MAX], scalar[SCALAR_MAX];
    static struct dealing x;
    make_dealing(&x, 1, 4, 2, 1, 2, 8);
    x.positions[0] = 11;
    for (uint8_t k = 0; k < 16; k++) {
        x.roots[k] = 0x10 + k;
        x.delta[k] = 0xa0 + k;
        x.code_key[k] = k;
        x.label[k] = 0x40 + k;
    }
    CHECK(is(deal(&x, noise, scalar), 0, 152, 71));
    CHECK(memcmp(noise, head, 7) == 0 && memcmp(noise + 7, x.code_key, 16) == 0);
    CHECK(memcmp(noise + 23, x.label, 16) == 0 && noise[39] == 11);
    CHECK(memcmp(noise + 40, known, sizeof known) == 0);
}

/* ---- Definitions ---- */

/* A node's child under a key of sixteen bytes c: E(c.., node) exclusive-or node. */
static void descend(uint8_t node[16], size_t c)
{
    uint8_t key[16], next[16];
    memset(key, (int)c, 16);
    encrypt_bytes(key, node, next);
    for (int b = 0; b < 16; b++)
        node[b] ^= next[b];
}

/* The node of a tree that a path of so many bits leads to, g bits at a time, highest first. */
static block node_at(const struct dealing *x, size_t tree, size_t path, size_t bits)
{
    uint8_t node[16];
    memcpy(node, x->roots + 16 * tree, 16);
    while (bits > 0) {
        bits -= x->branch_bits;
        descend(node, (path >> bits) % ((size_t)1 << x->branch_bits));
    }
    return plain_load(node);
}

/* Document 01's leaf j: by the bits of j, highest of the d first, 0 left. */
static block leaf_by_bits(const struct dealing *x, size_t tree, size_t j)
{
    uint8_t node[16];
    memcpy(node, x->roots + 16 * tree, 16);
    for (size_t k = x->depth; k-- > 0;)
        descend(node, j >> k & 1 ? 0x01 : 0x00);
    return plain_load(node);
}

static int same(block a, block b)
{
    return a.lo == b.lo && a.hi == b.hi;
}

/* The siblings that a noise record has for each tree: at each level from the top the other children
 * of the path's node, in rising order. */
static void test_siblings(const struct dealing *x, const uint8_t *record, size_t len)
{
    const size_t sizes[] = {x->depth, x->branch_bits, x->trees, x->terms, x->outputs};
    size_t at = 2 + 16 + 16, g = x->branch_bits, children = (size_t)1 << g;
    uint8_t bytes[3];
    for (size_t k = 0; k < sizeof sizes / sizeof *sizes; k++)
        at += plain_write_number(bytes, (uint32_t)sizes[k]);
    for (size_t i = 0; i < x->trees; i++) {
        uint32_t s = x->positions[i];
        at += plain_write_number(bytes, i == 0 ? s : s - x->positions[i - 1] - 1);
        at += 16; /* in both fields: the correction, or value and correction */
        for (size_t bits = g; bits <= x->depth; bits += g) {
            size_t path = s >> (x->depth - bits), parent = path / children;
            for (size_t c = 0; c < children; c++)
                if (c != path % children) {
                    CHECK(same(plain_load(record + at),
                               node_at(x, i, parent * children + c, bits)));
                    if (g == 1) /* the bit before the last flipped, as document 01 has it */
                        CHECK((parent * children + c) == (path ^ 1));
                    at += 16;
                }
        }
    }
    CHECK(at == len);
}

/* The element of leaf j. */
static block leaf(const struct dealing *x, size_t tree, size_t j)
{
    block node = node_at(x, tree, j, x->depth);
    if (x->branch_bits == 1)
        CHECK(same(node, leaf_by_bits(x, tree, j)));
    if (x->field == 2)
        return element(node.lo % PLAIN_P);
    return node;
}

static block element_at(unsigned field, const uint64_t *words, size_t j)
{
    block two = {words[2 * j], words[2 * j + 1]};
    return field == 1 ? two : element(words[j]);
}

/* Two steps: a is the block encrypted, and the pad E(FF.., a exclusive-or the index) combined with
 * a. The index is a number of 16 bytes, least byte first. */
static block pad(uint64_t index, block b)
{
    uint8_t key[16], in[16], a[16], out[16];
    memset(key, 0xff, 16);
    plain_store(in, b);
    encrypt_bytes(key, in, a);
    for (int k = 0; k < 16; k++)
        in[k] = (uint8_t)(a[k] ^ (k < 8 ? index >> (8 * k) & 0xff : 0));
    encrypt_bytes(key, in, out);
    for (int k = 0; k < 16; k++)
        out[k] ^= a[k];
    return plain_load(out);
}

/* Both calls' pads of one block at one index, Delta being d, are those of the rule. */
static void test_pad(size_t index, block b, block d)
{
    const uint8_t choice = index & 1;
    uint8_t bytes[16], delta[16], one[16], both[32];
    plain_store(bytes, b);
    plain_store(delta, d);
    CHECK(plain_noise_pads(index, 1, bytes, 16, &choice, 1, one, 16) == 0);
    CHECK(plain_scalar_pads(index, 1, bytes, 16, delta, 16, both, 32) == 0);
    CHECK(same(plain_load(one), pad(index, b)));
    CHECK(same(plain_load(both), pad(index, b)));
    CHECK(same(plain_load(both + 16), pad(index, plain_add(1, b, d))));
}

static void test_pads(void)
{
    /* Pads of the block 00 01 .. 0f, worked out with OpenSSL's AES-128. */
    static const struct {
        size_t index;
        uint8_t pad[16];
    } known[] = {{0, {0x0f, 0xcc, 0x00, 0x0f, 0xe4, 0xd8, 0xcb, 0xa7,
                      0xde, 0x7c, 0x32, 0xd9, 0x41, 0xdf, 0xf0, 0x90}},
                 {1, {0x68, 0x16, 0x3d, 0x50, 0x18, 0x75, 0xa4, 0x31,
                      0x36, 0xe6, 0x70, 0xcb, 0x99, 0x19, 0x79, 0xd5}},
                 {32767, {0x0e, 0xaa, 0x68, 0xe0, 0xe1, 0x2c, 0x37, 0xb0,
                          0x6f, 0xb4, 0x15, 0x2a, 0x9a, 0xba, 0x96, 0x88}}};
    uint8_t block_bytes[16], bytes[32], choices[2] = {0, 1}, one[32];

    for (uint8_t k = 0; k < 16; k++)
        block_bytes[k] = k;
    for (size_t k = 0; k < sizeof known / sizeof *known; k++) {
        CHECK(plain_noise_pads(known[k].index, 1, block_bytes, 16, choices, 1, one, 16) == 0);
        CHECK(memcmp(one, known[k].pad, 16) == 0);
        test_pad(known[k].index, plain_load(block_bytes), element(1));
    }
    for (int round = 0; round < 2000; round++) {
        size_t first = random_below(32767), other = random_below(32768);
        block b, d;
        random_bytes(bytes, 32);
        b = plain_load(bytes);
        d = plain_load(bytes + 16);
        test_pad(first, b, d);

        /* The block at another index that had this pad by the rule before has it no more. */
        if (other != first) {
            block moved = {b.lo ^ first ^ other, b.hi};
            test_pad(other, moved, d);
            CHECK(!same(pad(first, b), pad(other, moved)));
        }

        /* In a window an index counts from 0, not from the window's start. */
        CHECK(plain_noise_pads(first, 2, bytes, 32, choices, 2, one, 32) == 0);
        CHECK(same(plain_load(one), pad(first, b)));
        CHECK(same(plain_load(one + 16), pad(first + 1, d)));
    }
}

static void test_definitions(unsigned field, size_t depth, size_t branch_bits)
{
    enum { N = 256 };
    static struct dealing x;
    static uint8_t noise_record[NOISE_MAX], scalar_record[SCALAR_MAX];
    static uint64_t mu[N], noise[N], v[2 * N], w[2 * N], delta[2], u_out[N], v_out[2 * N],
        w_out[2 * N];
    static block v0[N], w0[N];
    static uint8_t v_bytes[16 * N], w_bytes[16 * N], choices[N], one[16 * N], both[32 * N];
    size_t leaves = (size_t)1 << depth, width = field == 1 ? 2 : 1, n, strip;
    struct plain_key code;
    struct plain_result r;
    block scalar, sum_v = {0, 0}, sum_w = {0, 0};
    uint64_t sum_mu = 0;

    make_any_dealing(&x, field, depth, branch_bits);
    n = x.outputs;
    strip = leaves / x.terms;
    plain_expand_key(&code, x.code_key);
    scalar = plain_load(x.delta);
    r = deal(&x, noise_record, scalar_record);
    CHECK(r.number == 0);
    test_siblings(&x, noise_record, r.first);
    CHECK(is(plain_noise_offline(noise_record, r.first, noise, N, v, 2 * N), 0, leaves,
             width * leaves));
    CHECK(is(plain_scalar_offline(scalar_record, r.second, w, 2 * N, delta, 2), 0, width * leaves,
             2));
    CHECK(delta[0] == scalar.lo && delta[1] == scalar.hi);
    CHECK(is(plain_noise_online(noise_record, r.first, noise, leaves, v, width * leaves, 0, n,
                                u_out, N, v_out, 2 * N), 0, n, width * n));
    CHECK(is(plain_scalar_online(scalar_record, r.second, w, width * leaves, 0, n, w_out, 2 * N),
             0, width * n, 0));

    /* mu, v0 and w0, and what the offline calls say of their accumulation. */
    memset(mu, 0, sizeof mu);
    for (size_t j = 0; j < leaves; j++) {
        v0[j] = w0[j] = element(0);
        for (size_t i = 0; i < x.trees; i++) {
            block at = leaf(&x, i, j);
            w0[j] = plain_add(field, w0[j], at);
            if (j == x.positions[i]) {
                mu[j] = x.values[i];
                at = plain_subtract(field, at, plain_scale(field, scalar, x.values[i]));
            }
            v0[j] = plain_add(field, v0[j], at);
        }
        sum_mu = field == 1 ? sum_mu ^ mu[j] : (sum_mu + mu[j]) % PLAIN_P;
        sum_v = plain_add(field, sum_v, v0[j]);
        sum_w = plain_add(field, sum_w, w0[j]);
        CHECK(noise[j] == sum_mu);
        CHECK(same(element_at(field, v, j), sum_v));
        CHECK(same(element_at(field, w, j), sum_w));
    }

    /* u, v and w as the code matrix times mu, v0 and w0, and the correlation. */
    for (size_t k = 0; k < n; k++) {
        block u = {0, 0}, sum = {0, 0}, sum2 = {0, 0};
        uint64_t coefficient[32];
        size_t place[32];
        for (uint64_t i = 0; i < x.terms; i++) {
            uint8_t in[16], out[16];
            uint64_t same_coefficient;
            plain_store(in, (block){k, i});
            encrypt_bytes(x.code_key, in, out);
            place[i] = i * strip + plain_load(out).lo % strip;
            coefficient[i] = field == 1 ? 1 : plain_load(out).hi % PLAIN_P;
            CHECK(plain_term(&code, field, strip, k, i, &same_coefficient) == place[i]);
            CHECK(same_coefficient == coefficient[i]);
            /* In strip i, below the places left at the top, so no place comes twice. */
            CHECK(place[i] / strip == i && place[i] < x.terms * strip && place[i] < leaves);
        }
        for (size_t j = 0; j < leaves; j++) {
            uint64_t entry = 0;
            for (uint64_t i = 0; i < x.terms; i++)
                if (place[i] >= j)
                    entry = field == 1 ? entry ^ 1 : (entry + coefficient[i]) % PLAIN_P;
            u = plain_add(field, u, plain_scale(field, element(mu[j]), entry));
            sum = plain_add(field, sum, plain_scale(field, v0[j], entry));
            sum2 = plain_add(field, sum2, plain_scale(field, w0[j], entry));
        }
        CHECK(u_out[k] == u.lo);
        CHECK(same(element_at(field, v_out, k), sum));
        CHECK(same(element_at(field, w_out, k), sum2));
        CHECK(same(sum2, plain_add(field, plain_scale(field, scalar, u.lo), sum)));
    }

    if (field == 2)
        return;
    for (size_t k = 0; k < n; k++) {
        plain_store(v_bytes + 16 * k, element_at(1, v_out, k));
        plain_store(w_bytes + 16 * k, element_at(1, w_out, k));
        choices[k] = (uint8_t)u_out[k];
    }
    CHECK(plain_noise_pads(0, n, v_bytes, 16 * n, choices, n, one, 16 * n) == 0);
    CHECK(plain_scalar_pads(0, n, w_bytes, 16 * n, x.delta, 16, both, 32 * n) == 0);
    for (size_t k = 0; k < n; k++) {
        block at = element_at(1, w_out, k);
        CHECK(same(plain_load(both + 32 * k), pad(k, at)));
        CHECK(same(plain_load(both + 32 * k + 16), pad(k, plain_add(1, at, scalar))));
        CHECK(memcmp(one + 16 * k, both + 32 * k + 16 * choices[k], 16) == 0);
    }
}

int main(void)
{
    unsigned long cipher, cases, pads;
    test_cipher();
    cipher = checks;
    test_cases();
    test_branch_bits();
    test_known_record();
    cases = checks;
    test_pads();
    pads = checks;
    for (int round = 0; round < 6; round++)
        for (size_t depth = 1; depth <= 6; depth++)
            for (size_t g = 1; g <= 3; g++)
                for (unsigned field = 1; field <= 2 && may_branch(depth, g); field++)
                    test_definitions(field, depth, g);
    printf("plain implementation: %lu facts of the cipher, %lu of cases, %lu of pads, "
           "%lu of dealings hold\n",
           cipher, cases - cipher, pads - cases, checks - pads);
    return 0;
}
