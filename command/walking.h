/* Walks down the trees of two records, as the dealer did, and the arithmetic of elements. NOT PROVED. */
#ifndef WALKING_H
#define WALKING_H

#include "command.h"

enum { BLOCK = 16, HEAD_MIN = 39, NUMBER_MAX = 3 };

/* A node's children, and a tree's siblings: each level has one less than a node has children. Of the g that are admitted the largest has
 * the most siblings, since their number never falls from one g to the next, up to d. */
enum {
    BRANCHES_MAX = 1 << EXPANDER_BRANCH_BITS_MAX,
    SIBLINGS_MAX = EXPANDER_DEPTH_MAX / EXPANDER_BRANCH_BITS_MAX * (BRANCHES_MAX - 1)
};
LIMIT(a_tree_has_a_level, EXPANDER_BRANCH_BITS_MAX >= 1 && EXPANDER_BRANCH_BITS_MAX <= EXPANDER_DEPTH_MAX);
LIMIT(depth_and_branch_bits_take_a_byte_each, EXPANDER_DEPTH_MAX < 128);
LIMIT(a_position_takes_three_bytes, EXPANDER_LEAVES_MAX <= 1 << (7 * NUMBER_MAX) && EXPANDER_LEAVES_MAX >> EXPANDER_DEPTH_MAX == 1);
LIMIT(the_longest_noise_record_fits, EXPANDER_NOISE_RECORD_MAX >= HEAD_MIN + EXPANDER_TREES_MAX * (2 + BLOCK + BLOCK * SIBLINGS_MAX));
LIMIT(the_longest_scalar_record_fits, EXPANDER_SCALAR_RECORD_MAX >= HEAD_MIN + BLOCK + BLOCK * EXPANDER_TREES_MAX);

struct shape {
    size_t depth, branch_bits, levels, branches, siblings;
};
struct shape shape_of(const struct layout *layout);

/* The children of a node. */
void make_children(const uint8_t node[BLOCK], size_t branch_bits, uint8_t children[BRANCHES_MAX][BLOCK]);

/* What a root says of a tree: the path taken, which siblings agree, what each was to be, and the last node. */
struct walk {
    size_t place, agree;
    int deepest; /* the deepest level at which a sibling agrees, or -1 */
    int tied;    /* other paths agree as much: they part at the deepest level */
    uint8_t agrees[SIBLINGS_MAX], maybe[SIBLINGS_MAX]; /* maybe: with this path, or with one that is tied with it */
    uint8_t due[SIBLINGS_MAX][BLOCK], leaf[BLOCK];
};

/* Walks from a root along the siblings that agree; where none does, and everywhere with follow, along the place hint. */
void walk_tree(const struct shape *shape, const uint8_t root[BLOCK], const uint8_t *siblings, size_t hint, int follow,
               struct walk *walk);

/* An element, or a value or Delta, as two words; in field 2 the second is 0. */
struct element {
    uint64_t word[2];
};

struct element read_element(const uint8_t *bytes, uint8_t field);
/* A leaf's block as an element. */
struct element leaf_element(const uint8_t *block, uint8_t field);
struct element minus(struct element a, struct element b, uint8_t field);
struct element times(struct element a, uint64_t by, uint8_t field);
int same(struct element a, struct element b);

uint64_t prime_inverse(uint64_t a);
/* Where the bytes of a part differ from what is due; its length is 0 if nowhere. count is how many do. */
struct span differing(const uint8_t *bytes, const void *due, size_t len, size_t base, size_t *count);

#endif
