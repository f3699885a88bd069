/* Random numbers from a fixed seed, and random dealings made of them (dealing.h). */
#include "dealing.h"

#include <string.h>

static const uint64_t modulus = (((uint64_t)1) << 61) - 1;
static uint64_t state = 1;

/* SplitMix64. */
uint64_t random_word(void)
{
    uint64_t z = state += UINT64_C(0x9e3779b97f4a7c15);
    z = (z ^ z >> 30) * UINT64_C(0xbf58476d1ce4e5b9);
    z = (z ^ z >> 27) * UINT64_C(0x94d049bb133111eb);
    return z ^ z >> 31;
}

size_t random_below(size_t bound)
{
    return (size_t)(random_word() % bound);
}

size_t random_extra(size_t bound)
{
    return random_below(2) ? random_below(bound) : 0;
}

void random_bytes(void *to, size_t bytes)
{
    unsigned char *at = to;
    for (; bytes >= 8; bytes -= 8, at += 8) {
        uint64_t x = random_word();
        memcpy(at, &x, 8);
    }
    for (; bytes > 0; bytes--)
        *at++ = (unsigned char)random_word();
}

int may_branch(size_t depth, size_t branch_bits)
{
    return branch_bits >= 1 && branch_bits <= 3 && depth % branch_bits == 0;
}

size_t some_branch_bits(size_t depth)
{
    size_t g = 1 + random_below(3);
    return may_branch(depth, g) ? g : 1;
}

size_t most_trees(size_t depth)
{
    return depth < 6 ? (size_t)1 << depth : MAX_TREES;
}

size_t most_terms(size_t depth)
{
    return depth < 5 ? (size_t)1 << depth : 32;
}

void make_dealing(struct dealing *x, unsigned field, size_t depth, size_t branch_bits,
                  size_t trees, size_t terms, size_t outputs)
{
    size_t leaves = (size_t)1 << depth, taken = 0;
    x->field = (uint8_t)field;
    x->depth = depth;
    x->branch_bits = branch_bits;
    x->trees = trees;
    x->terms = terms;
    x->outputs = outputs;
    random_bytes(x->roots, sizeof x->roots);
    /* Each leaf is taken with the chance that gives every set of t positions alike; for a large
     * N, t positions are drawn and sorted in instead. */
    if (leaves <= 4096) {
        for (size_t j = 0; j < leaves && taken < trees; j++)
            if (random_below(leaves - j) < trees - taken)
                x->positions[taken++] = (uint32_t)j;
    } else {
        while (taken < trees) {
            uint32_t s = (uint32_t)random_below(leaves);
            size_t at = 0;
            while (at < taken && x->positions[at] < s)
                at++;
            if (at < taken && x->positions[at] == s)
                continue;
            memmove(x->positions + at + 1, x->positions + at, (taken - at) * sizeof s);
            x->positions[at] = s;
            taken++;
        }
    }
    x->positions[trees] = (uint32_t)leaves - 1;
    for (size_t i = 0; i <= trees; i++)
        x->values[i] = field == 1 ? 1 : random_below(4) == 0 ? modulus - 1 - random_below(2)
                                      : 1 + random_word() % (modulus - 1);
    random_bytes(x->delta, 16);
    if (field == 2) {
        x->delta[7] &= 0x0f;
        memset(x->delta + 8, 0, 8);
    }
    x->delta[0] |= 1;
    random_bytes(x->code_key, 16);
    random_bytes(x->label, 16);
    x->delta[16] = x->code_key[16] = x->label[16] = 0;
}

/* 1 to most: a bound one time in four each, else anything. */
static size_t some_size(size_t most)
{
    switch (random_below(4)) {
    case 0:
        return 1;
    case 1:
        return most;
    default:
        return 1 + random_below(most);
    }
}

void make_any_dealing(struct dealing *x, unsigned field, size_t depth, size_t branch_bits)
{
    size_t trees = some_size(most_trees(depth)), terms = some_size(most_terms(depth));
    make_dealing(x, field, depth, branch_bits, trees, terms,
                 some_size((size_t)1 << (depth - 1)));
}
