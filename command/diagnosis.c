/* From which parts of two records a difference follows. NOT PROVED.
 *
 * Whoever holds both records can walk each tree down from its root, as the dealer did: at each level the children of the path's
 * node but one are to be the noise record's siblings, and the last node, less Delta times the noise value, its correction. A
 * sibling that agrees with its root (128 bits) confirms the root, and the path above it. So
 *   a sibling that disagrees in a confirmed tree is wrong itself;
 *   siblings that agree along another path than the position's say that the position is wrong, and what it was;
 *   a correction that disagrees is wrong itself if two other trees call for the Delta that there is; in field 2 the noise value may be
 *   instead; Delta is wrong if three trees call for one other; else any of these may be, since parts may be altered alike;
 *   a tree in which nothing agrees has a wrong root if some root that differs in one byte makes all of it agree; else its root
 *   or all of the tree is wrong, and nobody can tell which;
 *   the same holds of a tree that agrees with two roots in part, or with another root than its own, but where trees and roots agree one to
 *   one and the places rise: then the roots stand in another order, which changes nothing;
 *   where no tree agrees the records were not dealt together, or too much of them is altered.
 * Of two parts that may be wrong, one that needs few bytes changed is taken where the other needs many: what is altered in a
 * few bytes would call for a random value of the other part. */
#include "command.h"
#include "walking.h"

#include <stdlib.h>
#include <string.h>

enum { FEW = 3, MANY = 6 };

/* ---- findings ---- */

void add_finding(struct diagnosis *diagnosis, struct finding finding)
{
    if (diagnosis->count == diagnosis->room) {
        size_t room = 2 * diagnosis->room + 16;
        struct finding *more = realloc(diagnosis->finding, room * sizeof *more);
        if (more == NULL) {
            diagnosis->no_memory = 1;
            return;
        }
        diagnosis->finding = more;
        diagnosis->room = room;
    }
    diagnosis->finding[diagnosis->count++] = finding;
    if (finding.group >= diagnosis->groups)
        diagnosis->groups = finding.group + 1;
}

void end_diagnosis(struct diagnosis *diagnosis)
{
    free(diagnosis->finding);
    memset(diagnosis, 0, sizeof *diagnosis);
}

static struct finding found(size_t group, enum part part, enum file file, size_t tree, struct span bytes, struct span altered)
{
    struct finding finding = {group, part, file, tree, 0, 0, bytes, altered};
    return finding;
}

/* ---- trees ---- */

/* A tree beside its root. fits: the correction is what leaf, noise value and Delta call for. */
struct judged {
    struct walk walk;
    size_t root; /* its root's number, or that of another root that it follows from */
    int known, fits, mended;
    int moved;   /* it follows from a root, and is not where it belongs */
    struct span mend; /* the byte of the root that mends all */
    struct element leaf, correction, wanted_delta;
};

struct pair {
    const uint8_t *noise, *scalar;
    const struct layout *n, *s;
    struct shape shape;
    struct element delta;
    struct judged tree[EXPANDER_TREES_MAX];
};

static const uint8_t *root_of(const struct pair *pair, size_t root)
{
    return pair->scalar + pair->s->roots + BLOCK * root;
}

/* Walks a tree from a root, and holds the correction to the last node: along the position first, which a correction that fits confirms. */
static void judge_from(const struct pair *pair, size_t k, const uint8_t *root, struct judged *judged)
{
    const struct tree_layout *tree = &pair->n->tree[k];
    uint8_t field = pair->n->field;
    struct element product;
    judged->correction = read_element(pair->noise + tree->correction.first, field);
    judged->fits = 0;
    for (int follow = 1; follow >= 0 && !judged->fits; follow--) {
        walk_tree(&pair->shape, root, pair->noise + tree->siblings, tree->place, follow, &judged->walk);
        judged->leaf = leaf_element(judged->walk.leaf, field);
        product = minus(judged->leaf, judged->correction, field); /* Delta times the value */
        judged->fits = same(product, times(pair->delta, tree->noise, field));
    }
    judged->wanted_delta = times(product, field == EXPANDER_PRIME ? prime_inverse(prime_of(tree->noise)) : 1, field);
    judged->known = judged->walk.agree > 0 || judged->fits;
}

/* Tries every root that differs in one byte. */
static void mend_root(const struct pair *pair, size_t k, struct judged *judged)
{
    uint8_t root[BLOCK], children[BRANCHES_MAX][BLOCK];
    const uint8_t *siblings = pair->noise + pair->n->tree[k].siblings;
    struct judged tried;
    size_t shape_siblings = pair->shape.branches - 1;
    memcpy(root, root_of(pair, k), BLOCK);
    for (size_t at = 0; at < BLOCK && !judged->mended; at++) {
        uint8_t was = root[at];
        for (unsigned change = 1; change < 256 && !judged->mended; change++) {
            int hit = 0;
            root[at] = (uint8_t)(was ^ change);
            make_children(root, pair->shape.branch_bits, children);
            for (size_t c = 0; c < pair->shape.branches; c++)
                for (size_t slot = c > 0 ? c - 1 : 0; slot <= c && slot < shape_siblings; slot++)
                    hit |= memcmp(children[c], siblings + BLOCK * slot, BLOCK) == 0;
            if (!hit)
                continue;
            judge_from(pair, k, root, &tried);
            if (tried.walk.agree > 0) {
                *judged = tried;
                judged->root = k;
                judged->mended = 1;
                judged->mend.first = pair->s->roots + BLOCK * k + at;
                judged->mend.len = 1;
            }
        }
        root[at] = was;
    }
    companion_wipe(root, sizeof root);
    companion_wipe(children, sizeof children);
    companion_wipe(&tried, sizeof tried);
}

/* Holds a tree to its root and, where not all of it agrees with that, to the others. One that agrees with two in part is as good as
 * moved: roots or siblings were copied. */
static void judge(struct pair *pair, size_t k)
{
    struct judged *judged = &pair->tree[k], other;
    memset(judged, 0, sizeof *judged);
    memset(&other, 0, sizeof other);
    judge_from(pair, k, root_of(pair, k), judged);
    judged->root = k;
    for (size_t j = 0; j < pair->n->trees && judged->walk.agree < pair->shape.siblings && !judged->moved; j++) {
        if (j == k)
            continue;
        judge_from(pair, k, root_of(pair, j), &other);
        if (other.walk.agree > 0 && judged->known) {
            judged->moved = 1;
            judged->known = 0;
        } else if (other.walk.agree > 0) {
            other.root = j;
            *judged = other;
        }
    }
    if (!judged->known && !judged->moved)
        mend_root(pair, k, judged);
    companion_wipe(&other, sizeof other);
}

/* Siblings that disagree: told where the node above is confirmed, by a sibling at its level or below or by the correction. */
static void find_siblings(const struct pair *pair, size_t k, struct diagnosis *to)
{
    const struct tree_layout *tree = &pair->n->tree[k];
    const struct judged *judged = &pair->tree[k];
    size_t many, each = pair->shape.branches - 1;
    struct span rest = {0, 0}, none = {0, 0};
    for (size_t at = 0; at < pair->shape.siblings; at++) {
        size_t level = at / each, slot = at % each, first = tree->siblings + BLOCK * at;
        size_t digit = (judged->walk.place >> (pair->shape.depth - pair->shape.branch_bits * (level + 1))) & each;
        struct finding finding;
        if (judged->walk.agrees[at] || (judged->walk.maybe[at] && !judged->fits))
            continue;
        if (!judged->fits && (int)level > judged->walk.deepest) {
            rest.first = rest.len == 0 ? first : rest.first;
            rest.len = first + BLOCK - rest.first;
            continue;
        }
        finding = found(to->groups, SIBLING, NOISE_FILE, k, (struct span){first, BLOCK},
                        differing(pair->noise + first, judged->walk.due[at], BLOCK, first, &many));
        finding.level = level;
        finding.child = slot + (slot >= digit);
        if (judged->walk.tied && !judged->fits && (int)level == judged->walk.deepest) { /* wrong in any case; which child is not known */
            finding.child = ANY_CHILD;
            finding.altered = none;
        }
        add_finding(to, finding);
    }
    if (rest.len > 0) { /* below what is confirmed: the siblings, or the way to them, and the correction with them */
        size_t group = to->groups;
        add_finding(to, found(group, WHOLE_TREE, NOISE_FILE, k,
                              (struct span){tree->correction.first, rest.first + rest.len - tree->correction.first}, none));
        add_finding(to, found(group, POSITION, NOISE_FILE, k, tree->position, none));
    }
}

/* Whether the last node of a tree, so what its correction is to be, is beyond doubt. */
static int leaf_known(const struct pair *pair, const struct judged *judged)
{
    return judged->fits || (judged->walk.deepest == (int)pair->shape.levels - 1 && !judged->walk.tied);
}

/* Trees that stand where they do not belong are taken out of what is known: of each either its root is wrong or all of it. */
static void find_moved(struct pair *pair, struct diagnosis *to)
{
    size_t last = SIZE_MAX, follow[EXPANDER_TREES_MAX] = {0};
    int other = 0, rising = 1;
    for (size_t k = 0; k < pair->n->trees; k++) {
        const struct judged *judged = &pair->tree[k];
        if (!judged->known)
            continue;
        other |= judged->root != k;
        rising &= follow[judged->root]++ == 0 && (judged->root == k || leaf_known(pair, judged));
        if (!leaf_known(pair, judged))
            continue;
        rising &= last == SIZE_MAX || judged->walk.place > pair->tree[last].walk.place;
        last = k;
    }
    to->moved = other && rising;
    last = SIZE_MAX;
    for (size_t k = 0; k < pair->n->trees; k++) {
        struct judged *judged = &pair->tree[k];
        judged->moved |= !rising && judged->known && judged->root != k;
        if (judged->moved || !judged->known || !leaf_known(pair, judged))
            continue;
        if (last != SIZE_MAX && judged->walk.place <= pair->tree[last].walk.place)
            judged->moved = pair->tree[last].moved = 1;
        last = k;
    }
    for (size_t k = 0; k < pair->n->trees; k++)
        pair->tree[k].known &= !pair->tree[k].moved;
}

/* Positions are written as differences: the one that is wrong is that whose difference is. */
static void find_positions(const struct pair *pair, struct diagnosis *to)
{
    size_t before = SIZE_MAX, claimed = SIZE_MAX, len; /* the position before, as it was and as it is written */
    size_t doubtful = 0;                               /* how many trees just before have positions that nothing confirms */
    for (size_t k = 0; k < pair->n->trees; k++) {
        const struct tree_layout *tree = &pair->n->tree[k];
        const struct judged *judged = &pair->tree[k];
        size_t place = judged->known && leaf_known(pair, judged) ? judged->walk.place : tree->place + (before - claimed);
        size_t due = place - before - 1, written = tree->written;
        uint8_t bytes[NUMBER_MAX] = {0};
        len = due < 128 ? 1 : due < 16384 ? 2 : NUMBER_MAX;
        /* One that is due in another length, before siblings that agree where they are, is displaced and not altered. */
        if (due != written && judged->known && (doubtful > 0 || len == tree->position.len)) {
            struct span altered = {0, 0};
            size_t many;
            for (size_t b = 0; b < len; b++)
                bytes[b] = (uint8_t)((due >> (7 * b) & 127) | (b + 1 < len ? 128u : 0u));
            if (doubtful == 0)
                altered = differing(pair->noise + tree->position.first, bytes, len, tree->position.first, &many);
            for (size_t j = k - doubtful, group = to->groups; j <= k; j++)
                add_finding(to, found(group, POSITION, NOISE_FILE, j, pair->n->tree[j].position, altered));
        }
        doubtful = judged->known && leaf_known(pair, judged) ? 0 : doubtful + 1;
        before = place;
        claimed = tree->place;
    }
}

/* Which Delta the trees call for whose last node is known. */
struct calls {
    size_t fitting, off, alike; /* for the scalar record's, for another, and how many of these for one and the same */
    struct element other;       /* that one */
};

static struct calls count_calls(const struct pair *pair)
{
    struct calls calls = {0, 0, 0, {{0, 0}}};
    for (size_t k = 0; k < pair->n->trees; k++) {
        const struct judged *judged = &pair->tree[k];
        size_t with = 0;
        if (!judged->known || !leaf_known(pair, judged))
            continue;
        calls.fitting += judged->fits != 0;
        calls.off += judged->fits == 0;
        for (size_t j = 0; j < pair->n->trees && !judged->fits; j++)
            with += pair->tree[j].known && leaf_known(pair, &pair->tree[j]) && !pair->tree[j].fits
                    && same(pair->tree[j].wanted_delta, judged->wanted_delta);
        if (with > calls.alike) {
            calls.alike = with;
            calls.other = judged->wanted_delta;
        }
    }
    return calls;
}

/* The correction and the noise value of a tree, and Delta where it may be wrong too; right is the Delta to hold them to. In field 2 one
 * that fits after a change of few bytes is named alone, where each other one needs many. */
static void find_correction(const struct pair *pair, size_t k, struct element right, int maybe_delta, struct diagnosis *to)
{
    const struct tree_layout *tree = &pair->n->tree[k];
    const struct judged *judged = &pair->tree[k];
    uint8_t field = pair->n->field;
    size_t width = field == EXPANDER_BINARY ? 16 : 8, many[3] = {width, width, width}, group = to->groups;
    struct span part[3] = {tree->correction, tree->value, {pair->s->delta, width}}, altered[3] = {{0, 0}, {0, 0}, {0, 0}};
    static const enum part parts[3] = {CORRECTION, VALUE, DELTA};
    struct element due = minus(judged->leaf, times(right, tree->noise, field), field); /* what each would be if the others are right */
    struct element product = minus(judged->leaf, judged->correction, field);
    uint64_t value = field == EXPANDER_PRIME ? prime_product(product.word[0], prime_inverse(prime_of(right.word[0]))) : 0;
    int there[3] = {1, value != 0, maybe_delta}, alone = -1;
    altered[0] = differing(pair->noise + part[0].first, &due, width, part[0].first, &many[0]);
    if (there[1])
        altered[1] = differing(pair->noise + part[1].first, &value, 8, part[1].first, &many[1]);
    if (there[2])
        altered[2] = differing(pair->scalar + part[2].first, &judged->wanted_delta, width, part[2].first, &many[2]);
    for (int one = 0; one < 2 && field == EXPANDER_PRIME; one++)
        if (many[one] <= FEW && many[(one + 1) % 3] >= MANY && many[(one + 2) % 3] >= MANY)
            alone = one;
    for (int one = 0; one < 3; one++)
        if (there[one] && (alone < 0 || alone == one))
            add_finding(to, found(group, parts[one], one == 2 ? SCALAR_FILE : NOISE_FILE, one == 2 ? 0 : k, part[one], altered[one]));
}

/* Corrections, noise values, Delta: one equation ties those of a tree, so one of them is wrong where it does not hold. Unless three parts
 * or more were altered alike, Delta is right if two trees call for it, and wrong if three call for one other; where both is so, or
 * neither, it may be wrong with any tree that is off, and if it is, a single tree that fits is off itself. */
static void find_corrections(const struct pair *pair, struct diagnosis *to)
{
    struct calls calls = count_calls(pair);
    struct span delta = {pair->s->delta, pair->n->field == EXPANDER_BINARY ? 16 : 8}, none = {0, 0};
    int right = calls.fitting >= 2 && calls.alike < 3, wrong = calls.fitting < 2 && calls.alike >= 3;
    size_t many;
    if (calls.off == 0)
        return;
    if (wrong)
        add_finding(to, found(to->groups, DELTA, SCALAR_FILE, 0, delta,
                              differing(pair->scalar + delta.first, &calls.other, delta.len, delta.first, &many)));
    for (size_t k = 0; k < pair->n->trees; k++) {
        const struct judged *judged = &pair->tree[k];
        size_t before = to->count;
        if (!judged->known || !leaf_known(pair, judged) || (wrong ? same(judged->wanted_delta, calls.other) : judged->fits))
            continue;
        find_correction(pair, k, wrong ? calls.other : pair->delta, !right && !wrong, to);
        for (size_t j = 0; j < pair->n->trees && !right && !wrong && calls.fitting == 1 && to->count > before + 1; j++)
            if (pair->tree[j].known && leaf_known(pair, &pair->tree[j]) && pair->tree[j].fits)
                add_finding(to, found(to->groups - 1, CORRECTION, NOISE_FILE, j, pair->n->tree[j].correction, none));
    }
}

static void find_roots(const struct pair *pair, struct diagnosis *to)
{
    size_t known = 0, group = 0;
    struct span none = {0, 0};
    for (size_t k = 0; k < pair->n->trees; k++)
        known += pair->tree[k].known || pair->tree[k].mended || pair->tree[k].moved;
    to->together = known > 0;
    if (known == 0 && pair->n->trees > 1) {
        to->apart = 1;
        return;
    }
    to->maybe_apart = known == 0;
    for (size_t k = 0; k < pair->n->trees; k++) {
        const struct tree_layout *tree = &pair->n->tree[k];
        struct span root = {pair->s->roots + BLOCK * k, BLOCK};
        struct span whole = {tree->position.first, tree->siblings + BLOCK * pair->shape.siblings - tree->position.first};
        /* Trees of a run are alternatives: a position of another length moves all that follows it. */
        if (k == 0 || pair->tree[k - 1].known || pair->tree[k - 1].mended)
            group = to->groups;
        if (pair->tree[k].mended)
            add_finding(to, found(to->groups, ROOT, SCALAR_FILE, k, root, pair->tree[k].mend));
        else if (!pair->tree[k].known) {
            add_finding(to, found(group, ROOT, SCALAR_FILE, k, root, none));
            add_finding(to, found(group, WHOLE_TREE, NOISE_FILE, k, whole, none));
        }
    }
}

void diagnose(const uint8_t *noise, const struct layout *noise_layout, const uint8_t *scalar,
              const struct layout *scalar_layout, struct diagnosis *diagnosis)
{
    struct pair *pair = calloc(1, sizeof *pair);
    memset(diagnosis, 0, sizeof *diagnosis);
    if (pair == NULL) {
        diagnosis->no_memory = 1;
        diagnosis->together = -1;
        return;
    }
    pair->noise = noise;
    pair->scalar = scalar;
    pair->n = noise_layout;
    pair->s = scalar_layout;
    pair->shape = shape_of(noise_layout);
    pair->delta = read_element(scalar + scalar_layout->delta, scalar_layout->field);
    for (size_t k = 0; k < noise_layout->trees; k++)
        judge(pair, k);
    find_moved(pair, diagnosis);
    find_roots(pair, diagnosis);
    for (size_t k = 0; k < noise_layout->trees; k++) {
        pair->tree[k].known |= pair->tree[k].mended;
        if (pair->tree[k].known)
            find_siblings(pair, k, diagnosis);
    }
    find_positions(pair, diagnosis);
    find_corrections(pair, diagnosis);
    diagnosis->dealt = diagnosis->count == 0 && !diagnosis->apart && !diagnosis->no_memory;
    companion_wipe(pair, sizeof *pair);
    free(pair);
}

int prefix_agrees(const uint8_t *noise, size_t noise_len, const struct layout *noise_layout, const uint8_t *scalar,
                  size_t scalar_len, const struct layout *scalar_layout)
{
    struct shape shape = shape_of(noise_layout);
    size_t agreeing = 0;
    int well = 1;
    for (size_t k = 0; well && k < noise_layout->trees && k <= noise_layout->trees_read; k++) {
        const struct tree_layout *tree = &noise_layout->tree[k];
        uint8_t siblings[BLOCK * SIBLINGS_MAX] = {0};
        size_t root = scalar_layout->roots + BLOCK * k, there = 0, part; /* whole siblings, and the bytes of one that is not */
        struct walk walk;
        if (scalar_layout->roots == 0 || root + BLOCK > scalar_len)
            break; /* cut before this root */
        if (tree->siblings > 0 && tree->siblings < noise_len)
            there = (noise_len - tree->siblings) / BLOCK;
        there = there < shape.siblings ? there : shape.siblings;
        part = there < shape.siblings && tree->siblings > 0 && tree->siblings < noise_len ? (noise_len - tree->siblings) % BLOCK : 0;
        if (there == 0 && part == 0)
            break;
        memcpy(siblings, noise + tree->siblings, BLOCK * there);
        walk_tree(&shape, scalar + root, siblings, tree->place, 0, &walk);
        well = walk.agree >= there && walk.place == tree->place
               && (part == 0 || memcmp(walk.due[there], noise + tree->siblings + BLOCK * there, part) == 0);
        agreeing += walk.agree;
        companion_wipe(siblings, sizeof siblings);
        companion_wipe(&walk, sizeof walk);
    }
    return well && agreeing > 0;
}

void add_findings(struct diagnosis *to, const struct diagnosis *more)
{
    size_t first = to->groups;
    for (size_t k = 0; k < more->count; k++) {
        struct finding finding = more->finding[k];
        finding.group += first;
        add_finding(to, finding);
    }
    to->no_memory |= more->no_memory;
}
