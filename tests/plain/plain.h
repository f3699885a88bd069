/* A plain second implementation of document 01 with document 02's requests 4 (pads), 7 (rows),
 * 8 (labels) and 10 (flatter trees), to hold the library to. Written from those documents and
 * FIPS 197 alone. Parameters lie as in expander.h.
 */
#ifndef PLAIN_H
#define PLAIN_H

#include <stddef.h>
#include <stdint.h>

#define PLAIN_P ((((uint64_t)1) << 61) - 1)
#define PLAIN_TREES 64

/* A sum of at most 32 products of words below p; where C has no type of 128 bits, a number below
 * 2^62 that is equal to it modulo p. */
#ifdef __SIZEOF_INT128__
__extension__ typedef unsigned __int128 plain_wide;
#else
typedef uint64_t plain_wide;
#endif

static inline plain_wide plain_add_product(plain_wide sum, uint64_t a, uint64_t b)
{
#ifdef __SIZEOF_INT128__
    return sum + (plain_wide)a * b;
#else
    uint64_t half = 0xFFFFFFFF, low = (a & half) * (b & half);
    uint64_t middle = (a >> 32) * (b & half) + (low >> 32);
    uint64_t other = (a & half) * (b >> 32) + (middle & half);
    uint64_t high = (a >> 32) * (b >> 32) + (middle >> 32) + (other >> 32);
    low = (other << 32) | (low & half);
    sum += (low & PLAIN_P) + ((high << 3) | (low >> 61));
    return (sum & PLAIN_P) + (sum >> 61);
#endif
}

/* A number, and what was written to the first and the second output buffer. */
struct plain_result {
    uint32_t number;
    size_t first, second;
};

/* The version: 10000 major + 100 minor + patch of the text that the header has. */
uint32_t plain_version(const char *text);

/* Sixteen bytes as two words, each least byte first; in field 2 an element has hi = 0. */
struct plain_block {
    uint64_t lo, hi;
};

/* What the head of an accepted record says; else a number and zeros. */
struct plain_described {
    uint32_t number;
    unsigned end, field;
    size_t depth, branch_bits, trees, terms, outputs, leaves, element_words;
    uint8_t label[16], code_key[16];
};

/* A tree's levels take g bits of a path each, the highest first. */
struct plain_shape {
    unsigned depth, branch_bits;
};

/* A tree of a noise record; its siblings are 16 bytes each, as they stand there. */
struct plain_tree {
    uint32_t position;
    uint64_t value;
    struct plain_block correction;
    const uint8_t *siblings;
};

/* A record as it was read. */
struct plain_record {
    unsigned field, trees, terms, outputs;
    struct plain_shape shape;
    const uint8_t *code_key, *label;
    struct plain_tree tree[PLAIN_TREES]; /* noise record */
    struct plain_block delta;            /* scalar record */
    const uint8_t *roots;                /* scalar record: t blocks */
};

/* AES-128 round keys: eleven times four columns, the least byte of each in row 0. */
struct plain_key {
    uint32_t column[44];
};

/* The cipher, the number code and the fields' arithmetic, for the tests' own use. */
uint8_t plain_sbox(uint8_t x);
struct plain_block plain_load(const uint8_t bytes[16]);
void plain_store(uint8_t bytes[16], struct plain_block b);
void plain_expand_key(struct plain_key *key, const uint8_t bytes[16]);
struct plain_block plain_encrypt(const struct plain_key *key, struct plain_block b);
size_t plain_write_number(uint8_t bytes[3], uint32_t x);
uint64_t plain_reduce(uint64_t x);
struct plain_block plain_add(unsigned field, struct plain_block a, struct plain_block b);
struct plain_block plain_subtract(unsigned field, struct plain_block a, struct plain_block b);
struct plain_block plain_scale(unsigned field, struct plain_block a, uint64_t u);
void plain_accumulate_noise(unsigned field, uint64_t *noise, size_t n);

/* x modulo p, for x below 2^127. */
uint64_t plain_reduce_wide(plain_wide x);

/* The words that an element takes, and the element of a leaf's block. */
unsigned plain_width(unsigned field);
struct plain_block plain_leaf_element(unsigned field, struct plain_block leaf);

/* Child c of a node. */
struct plain_block plain_child(unsigned c, struct plain_block s);

/* Read a record of an end: the number, and, where that is 0, what it holds. */
uint32_t plain_read_noise_record(const uint8_t *source, size_t source_len, struct plain_record *r);
uint32_t plain_read_scalar_record(const uint8_t *source, size_t source_len, struct plain_record *r);

/* Whether first + count, as a whole number, is above end. */
int plain_window_past(size_t first, size_t count, size_t end);

/* The place and the coefficient of term i of row x; strip is N / l rounded down. */
size_t plain_term(const struct plain_key *code, unsigned field, size_t strip, uint64_t x, uint64_t i,
                  uint64_t *coefficient);

/* Document 01's seven calls, and what a record of either end is. */
struct plain_described plain_describe(const uint8_t *source, size_t source_len);
struct plain_result plain_deal(
    uint8_t field, size_t depth, size_t branch_bits, size_t trees, size_t terms, size_t outputs,
    const uint8_t *roots, size_t roots_len, const uint32_t *positions, size_t positions_len,
    const uint64_t *values, size_t values_len, const uint8_t *delta, size_t delta_len,
    const uint8_t *code_key, size_t code_key_len, const uint8_t *label, size_t label_len,
    uint8_t *noise_record, size_t noise_record_len, uint8_t *scalar_record,
    size_t scalar_record_len);
struct plain_result plain_noise_offline(
    const uint8_t *source, size_t source_len, uint64_t *noise, size_t noise_len,
    uint64_t *v, size_t v_len);
struct plain_result plain_scalar_offline(
    const uint8_t *source, size_t source_len, uint64_t *w, size_t w_len,
    uint64_t *delta, size_t delta_len);
struct plain_result plain_noise_online(
    const uint8_t *source, size_t source_len, const uint64_t *noise, size_t noise_len,
    const uint64_t *v, size_t v_len, size_t first, size_t count,
    uint64_t *u_out, size_t u_out_len, uint64_t *v_out, size_t v_out_len);
struct plain_result plain_scalar_online(
    const uint8_t *source, size_t source_len, const uint64_t *w, size_t w_len,
    size_t first, size_t count, uint64_t *w_out, size_t w_out_len);
uint32_t plain_noise_pads(
    size_t first, size_t count, const uint8_t *v, size_t v_len,
    const uint8_t *choices, size_t choices_len, uint8_t *pads, size_t pads_len);
uint32_t plain_scalar_pads(
    size_t first, size_t count, const uint8_t *w, size_t w_len,
    const uint8_t *delta, size_t delta_len, uint8_t *pads, size_t pads_len);

#endif
