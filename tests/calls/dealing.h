/* Random numbers from a fixed seed, and random dealings made of them. An expression or a list of
 * arguments draws at most once, or in an order that C fixes, so that every compiler draws the same.
 */
#ifndef DEALING_H
#define DEALING_H

#include <stddef.h>
#include <stdint.h>

#define MAX_TREES 64

/* What a dealing takes; each array has room for one too many. */
struct dealing {
    uint8_t field;
    size_t depth, branch_bits, trees, terms, outputs;
    uint8_t roots[16 * (MAX_TREES + 1)];
    uint32_t positions[MAX_TREES + 1];
    uint64_t values[MAX_TREES + 1];
    uint8_t delta[17];
    uint8_t code_key[17];
    uint8_t label[17];
};

uint64_t random_word(void);
size_t random_below(size_t bound);
void random_bytes(void *to, size_t bytes);

/* 0 one time in two, else below bound. */
size_t random_extra(size_t bound);

/* Whether trees of this depth may branch by so many bits. */
int may_branch(size_t depth, size_t branch_bits);

/* The largest t and the largest l for depth d. */
size_t most_trees(size_t depth);
size_t most_terms(size_t depth);

/* An admitted dealing of this field and these sizes, which are in their ranges. */
void make_dealing(struct dealing *x, unsigned field, size_t depth, size_t branch_bits,
                  size_t trees, size_t terms, size_t outputs);

/* An admitted dealing with the other sizes drawn at random, often at a bound. */
void make_any_dealing(struct dealing *x, unsigned field, size_t depth, size_t branch_bits);

/* Branch bits that trees of this depth may have, drawn at random. */
size_t some_branch_bits(size_t depth);

#endif
