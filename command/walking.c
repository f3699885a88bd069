/* Walks down the trees of two records, and the arithmetic of elements. NOT PROVED. */
#include "walking.h"

#include <string.h>

/* ---- field 2 ---- */

uint64_t prime_of(uint64_t word)
{
    word = (word & EXPANDER_MODULUS) + (word >> 61);
    return word >= EXPANDER_MODULUS ? word - EXPANDER_MODULUS : word;
}

uint64_t prime_sum(uint64_t a, uint64_t b)
{
    return prime_of(a + b);
}

/* By halves: not every machine has a type for the product of 122 bits. */
uint64_t prime_product(uint64_t a, uint64_t b)
{
    uint64_t half = 0xFFFFFFFF, low = (a & half) * (b & half);
    uint64_t middle = (a >> 32) * (b & half) + (low >> 32), other = (a & half) * (b >> 32) + (middle & half);
    uint64_t high = (a >> 32) * (b >> 32) + (middle >> 32) + (other >> 32);
    low = (other << 32) | (low & half);
    return prime_sum(low & EXPANDER_MODULUS, (high << 3) | (low >> 61));
}

static uint64_t prime_difference(uint64_t a, uint64_t b)
{
    return prime_sum(a, EXPANDER_MODULUS - b);
}

/* 1 / a, and 0 for 0: a^(p - 2). */
uint64_t prime_inverse(uint64_t a)
{
    uint64_t result = 1;
    for (uint64_t power = EXPANDER_MODULUS - 2; power > 0; power >>= 1, a = prime_product(a, a))
        if (power & 1)
            result = prime_product(result, a);
    return result;
}

/* ---- nodes, by the expander itself ---- */

/* The children of a node, as the leaves of a tree of one level in field 1. */
void make_children(const uint8_t node[BLOCK], size_t branch_bits, uint8_t children[BRANCHES_MAX][BLOCK])
{
    uint8_t record[HEAD_MIN + 2 * BLOCK] = {EXPANDER_SCALAR_END, EXPANDER_BINARY, 0, 0, 1, 1, 1};
    uint64_t leaves[2 * BRANCHES_MAX], delta[2];
    size_t count = (size_t)1 << branch_bits;
    record[2] = record[3] = (uint8_t)branch_bits;
    record[HEAD_MIN] = 1; /* Delta is not zero */
    memcpy(record + HEAD_MIN + BLOCK, node, BLOCK);
    memset(leaves, 0, sizeof leaves);
    expander_scalar_offline(record, sizeof record, leaves, 2 * count, delta, 2);
    for (size_t k = 2 * count - 1; k >= 2; k--) /* accumulated: place k is the sum up to k */
        leaves[k] ^= leaves[k - 2];
    memcpy(children, leaves, BLOCK * count);
    companion_wipe(record, sizeof record);
    companion_wipe(leaves, sizeof leaves);
}

struct shape shape_of(const struct layout *layout)
{
    struct shape shape = {layout->depth, layout->branch_bits, layout->levels, layout->branches, layout->siblings};
    return shape;
}

/* Where child c stands among the siblings of a level whose path takes digit. */
static size_t slot_of(size_t child, size_t digit)
{
    return child - (child > digit);
}

/* Goes on from a node at a level. At each level the digit with which most siblings agree is taken, the hint's among equals;
 * others of the equals are tried too, and the walk that agrees most is kept. Where none agrees, and where it is to be followed, the
 * hint's is taken. */
static void go_down(const struct shape *shape, const uint8_t *siblings, size_t hint, int follow, size_t level,
                    const uint8_t node[BLOCK], const struct walk *so_far, struct walk *best)
{
    uint8_t children[BRANCHES_MAX][BLOCK];
    size_t shift, own, most = 0, count[BRANCHES_MAX] = {0}, first = level * (shape->branches - 1);
    struct walk here;
    if (level == shape->levels) {
        int tied = best->place != SIZE_MAX && so_far->agree <= best->agree && (so_far->agree == best->agree || best->tied);
        uint8_t maybe[SIBLINGS_MAX];
        for (size_t at = 0; at < SIBLINGS_MAX; at++)
            maybe[at] = so_far->agree < best->agree ? best->maybe[at] : so_far->agrees[at] | (tied ? best->maybe[at] : 0);
        if (best->place == SIZE_MAX || so_far->agree > best->agree
            || (so_far->agree == best->agree && so_far->place == hint)) {
            *best = *so_far;
            memcpy(best->leaf, node, BLOCK);
        }
        memcpy(best->maybe, maybe, sizeof maybe);
        best->tied = tied;
        return;
    }
    shift = shape->depth - shape->branch_bits * (level + 1);
    own = (hint >> shift) & (shape->branches - 1);
    make_children(node, shape->branch_bits, children);
    for (size_t digit = 0; digit < shape->branches; digit++) {
        for (size_t c = 0; c < shape->branches; c++)
            count[digit] += c != digit && memcmp(children[c], siblings + BLOCK * (first + slot_of(c, digit)), BLOCK) == 0;
        most = count[digit] > most ? count[digit] : most;
    }
    for (size_t turn = 0; turn < shape->branches; turn++) {
        size_t digit = turn == 0 ? own : turn <= own ? turn - 1 : turn; /* the hint's first */
        if (follow ? turn > 0 : count[digit] < most || (most == 0 && turn > 0))
            continue;
        here = *so_far;
        here.place |= digit << shift;
        here.agree += count[digit];
        here.deepest = count[digit] > 0 ? (int)level : here.deepest;
        for (size_t c = 0; c < shape->branches; c++)
            if (c != digit) {
                size_t at = first + slot_of(c, digit);
                memcpy(here.due[at], children[c], BLOCK);
                here.agrees[at] = memcmp(children[c], siblings + BLOCK * at, BLOCK) == 0;
            }
        go_down(shape, siblings, hint, follow, level + 1, children[digit], &here, best);
    }
    companion_wipe(children, sizeof children);
    companion_wipe(&here, sizeof here);
}

void walk_tree(const struct shape *shape, const uint8_t root[BLOCK], const uint8_t *siblings, size_t hint, int follow,
                      struct walk *walk)
{
    struct walk start;
    memset(&start, 0, sizeof start);
    start.deepest = -1;
    memset(walk, 0, sizeof *walk);
    walk->place = SIZE_MAX;
    go_down(shape, siblings, hint & (((size_t)1 << shape->depth) - 1), follow, 0, root, &start, walk);
}

/* ---- elements ---- */

struct element read_element(const uint8_t *bytes, uint8_t field)
{
    struct element element = {{word_at(bytes), field == EXPANDER_BINARY ? word_at(bytes + 8) : 0}};
    return element;
}

/* A leaf's block as an element. */
struct element leaf_element(const uint8_t *block, uint8_t field)
{
    struct element element = read_element(block, field);
    if (field == EXPANDER_PRIME)
        element.word[0] = prime_of(element.word[0]);
    return element;
}

struct element minus(struct element a, struct element b, uint8_t field)
{
    if (field == EXPANDER_PRIME) {
        a.word[0] = prime_difference(prime_of(a.word[0]), prime_of(b.word[0]));
    } else {
        a.word[0] ^= b.word[0];
        a.word[1] ^= b.word[1];
    }
    return a;
}

struct element times(struct element a, uint64_t by, uint8_t field)
{
    if (field == EXPANDER_PRIME)
        a.word[0] = prime_product(prime_of(a.word[0]), prime_of(by));
    return a;
}

int same(struct element a, struct element b)
{
    return a.word[0] == b.word[0] && a.word[1] == b.word[1];
}

/* Where the bytes of a part differ from what is due; its length is 0 if nowhere. count is how many do. */
struct span differing(const uint8_t *bytes, const void *due, size_t len, size_t base, size_t *count)
{
    struct span span = {0, 0};
    size_t last = 0, found = 0;
    for (size_t k = 0; k < len; k++)
        if (bytes[k] != ((const uint8_t *)due)[k]) {
            span.first = found++ == 0 ? base + k : span.first;
            last = base + k;
        }
    span.len = found > 0 ? last + 1 - span.first : 0;
    *count = found;
    return span;
}

