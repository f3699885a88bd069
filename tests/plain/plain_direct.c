/* A plain second implementation of document 02, request 11 (plain_direct.h). */
#include "plain_direct.h"

#include "plain.h"

#define P PLAIN_P

typedef plain_wide wide;
typedef struct plain_block block;

/* ---- What stands at a place before accumulating, each leaf walked alone ---- */

static uint32_t digit(uint32_t j, struct plain_shape tree)
{
    return j >> tree.depth & ((1u << tree.branch_bits) - 1);
}

/* Leaf j of the tree below s. Above its depth j's bits do not count. */
static block walk(block s, uint32_t j, struct plain_shape tree)
{
    while (tree.depth > 0) {
        tree.depth -= tree.branch_bits;
        s = plain_child(digit(j, tree), s);
    }
    return s;
}

/* Leaf j of a punctured tree, j not its position: from the sibling in the first digit in which the
 * two differ. */
static block walk_punctured(const struct plain_tree *t, uint32_t j, struct plain_shape tree)
{
    const uint8_t *siblings = t->siblings;
    uint32_t mine, other;
    for (;;) {
        tree.depth -= tree.branch_bits;
        mine = digit(j, tree);
        other = digit(t->position, tree);
        if (mine != other)
            return walk(plain_load(siblings + 16 * (mine < other ? mine : mine - 1)), j, tree);
        siblings += 16 * ((1u << tree.branch_bits) - 1);
    }
}

/* v0 at j, and the noise there. */
static block noise_end_at(const struct plain_record *r, uint32_t j, uint64_t *noise)
{
    block sum = {0, 0};
    *noise = 0;
    for (unsigned i = 0; i < r->trees; i++) {
        const struct plain_tree *t = &r->tree[i];
        block element = t->correction;
        if (t->position == j)
            *noise = t->value;
        else
            element = plain_leaf_element(r->field, walk_punctured(t, j, r->shape));
        sum = plain_add(r->field, sum, element);
    }
    return sum;
}

/* w0 at j. */
static block scalar_end_at(const struct plain_record *r, uint32_t j)
{
    block sum = {0, 0};
    for (unsigned i = 0; i < r->trees; i++) {
        block leaf = walk(plain_load(r->roots + 16 * i), j, r->shape);
        sum = plain_add(r->field, sum, plain_leaf_element(r->field, leaf));
    }
    return sum;
}

/* ---- A batch of rows, from the highest place down ---- */

enum { BATCH = 32 };

/* A row's entry at the place come to, its highest term below that, and its sums so far. */
struct row {
    uint64_t x, entry, coefficient;
    uint32_t term; /* 0 where no term is left */
    size_t place;
    uint64_t binary_u;
    block binary;
    wide prime_u, prime;
};

/* What a batch's rows are worked out from; u_out is NULL at the scalar end. */
struct window {
    const struct plain_record *record;
    struct plain_key code;
    size_t leaves, strip;
    uint64_t *u_out, *element_out;
};

/* The term before the one come to: its place is lower. */
static void next_term(const struct window *w, struct row *row)
{
    if (row->term == 0) {
        row->place = w->leaves;
        return;
    }
    row->term--;
    row->place = plain_term(&w->code, w->record->field, w->strip, row->x, row->term,
                            &row->coefficient);
}

/* Take the rows' entries to place j: the sums over the terms whose place is j or more. Whether any
 * is not zero. */
static int entries_at(const struct window *w, struct row *rows, size_t count, size_t j)
{
    uint64_t any = 0;
    for (size_t k = 0; k < count; k++) {
        struct row *row = &rows[k];
        if (row->place == j) {
            row->entry = w->record->field == 1 ? row->entry ^ row->coefficient
                                               : plain_reduce(row->entry + row->coefficient);
            next_term(w, row);
        }
        any |= row->entry;
    }
    return any != 0;
}

/* Add a × b, both below p, to a sum that stays below 2^127. */
static void add_product(wide *sum, uint64_t a, uint64_t b)
{
    *sum = plain_add_product(*sum, a, b);
#ifdef __SIZEOF_INT128__
    if (*sum >> 126 != 0)
        *sum = (*sum & P) + (*sum >> 61);
#endif
}

/* Add each row's entry × what stands at the place. */
static void add_place(unsigned field, struct row *rows, size_t count, uint64_t noise, block element)
{
    for (size_t k = 0; field == 1 && k < count; k++) {
        uint64_t taken = 0 - rows[k].entry;
        rows[k].binary_u ^= noise & taken;
        rows[k].binary.lo ^= element.lo & taken;
        rows[k].binary.hi ^= element.hi & taken;
    }
    for (size_t k = 0; field == 2 && k < count; k++) {
        if (noise != 0)
            add_product(&rows[k].prime_u, rows[k].entry, noise);
        add_product(&rows[k].prime, rows[k].entry, element.lo);
    }
}

/* The outputs of `count` rows, at most BATCH, from row `first` on, to the places from `at` on. */
static void batch(const struct window *w, size_t first, size_t count, size_t at)
{
    static const struct row nothing;
    const struct plain_record *r = w->record;
    struct row rows[BATCH];
    for (size_t k = 0; k < count; k++) {
        rows[k] = nothing;
        rows[k].x = first + k;
        rows[k].term = r->terms;
        next_term(w, &rows[k]);
    }
    for (size_t j = w->leaves; j-- > 0;) {
        uint64_t noise = 0;
        block element;
        if (!entries_at(w, rows, count, j))
            continue;
        element = w->u_out != NULL ? noise_end_at(r, (uint32_t)j, &noise)
                                   : scalar_end_at(r, (uint32_t)j);
        add_place(r->field, rows, count, noise, element);
    }
    for (size_t k = 0; k < count; k++) {
        const struct row *row = &rows[k];
        if (w->u_out != NULL)
            w->u_out[at + k] = r->field == 1 ? row->binary_u : plain_reduce_wide(row->prime_u);
        if (r->field == 1) {
            w->element_out[2 * (at + k)] = row->binary.lo;
            w->element_out[2 * (at + k) + 1] = row->binary.hi;
        } else {
            w->element_out[at + k] = plain_reduce_wide(row->prime);
        }
    }
}

static void expand(const struct plain_record *r, size_t first, size_t count, uint64_t *u_out,
                   uint64_t *element_out)
{
    struct window w;
    w.record = r;
    w.leaves = (size_t)1 << r->shape.depth;
    w.strip = w.leaves / r->terms;
    w.u_out = u_out;
    w.element_out = element_out;
    plain_expand_key(&w.code, r->code_key);
    for (size_t at = 0; at < count; at += BATCH)
        batch(&w, first + at, count - at < BATCH ? count - at : BATCH, at);
}

/* ---- The calls ---- */

struct expander_two_lengths plain_noise_direct(
    const uint8_t *source, size_t source_len, size_t first, size_t count,
    uint64_t *u_out, size_t u_out_len, uint64_t *v_out, size_t v_out_len)
{
    struct expander_two_lengths answer = {0, 0, 0};
    struct plain_record r;
    answer.number = plain_read_noise_record(source, source_len, &r);
    if (answer.number != 0)
        return answer;
    if (plain_window_past(first, count, r.outputs))
        answer.number = 7;
    else if (u_out_len < count || v_out_len < plain_width(r.field) * count)
        answer.number = 13;
    if (answer.number != 0)
        return answer;
    expand(&r, first, count, u_out, v_out);
    answer.first_written = count;
    answer.second_written = plain_width(r.field) * count;
    return answer;
}

struct expander_one_length plain_scalar_direct(
    const uint8_t *source, size_t source_len, size_t first, size_t count,
    uint64_t *w_out, size_t w_out_len)
{
    struct expander_one_length answer = {0, 0};
    struct plain_record r;
    answer.number = plain_read_scalar_record(source, source_len, &r);
    if (answer.number != 0)
        return answer;
    if (plain_window_past(first, count, r.outputs))
        answer.number = 7;
    else if (w_out_len < plain_width(r.field) * count)
        answer.number = 13;
    if (answer.number != 0)
        return answer;
    expand(&r, first, count, NULL, w_out);
    answer.written = plain_width(r.field) * count;
    return answer;
}
