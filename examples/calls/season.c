/* A season at the noise end: a stock that passes from one dealing to the next while tasks still
 * hold shares of it.
 */
#include "expander.h"

#include <stdio.h>

enum { DEPTH = 10, N = 1 << DEPTH, BRANCH_BITS = 1, TREES = 4, TERMS = 8, TASKS = 2 };

/* One dealing's part at the noise end. */
struct dealt {
    struct expander_label label;
    size_t outputs, record_len;
    uint8_t record[EXPANDER_NOISE_RECORD_MAX];
    uint64_t noise[N], v[2 * N];
};

static struct dealt spring = {{{1}}, 512, 0, {0}, {0}, {0}};
static struct dealt autumn = {{{2}}, 400, 0, {0}, {0}, {0}}; /* a label above spring's */

/* Deal, and expand the noise record; the scalar record goes to the other end. */
static int deal(struct dealt *d)
{
    static uint8_t scalar_record[EXPANDER_SCALAR_RECORD_MAX];
    /* In use, all of these are drawn at random, but not the label. */
    const uint8_t roots[16 * TREES] = {3, 1, 4, 1, 5, 9, 2, d->label.bytes[0]};
    const uint32_t positions[TREES] = {17, 170, 400, 999};
    const uint64_t values[TREES] = {1, 1, 1, 1};
    const uint8_t scalar[16] = {2, 7, 1, 8}, code_key[16] = {1, 6, 1, 8};
    struct expander_two_lengths lengths = expander_deal(
        EXPANDER_BINARY, DEPTH, BRANCH_BITS, TREES, TERMS, d->outputs, roots, sizeof roots,
        positions, TREES, values, TREES, scalar, sizeof scalar, code_key, sizeof code_key,
        d->label.bytes, sizeof d->label.bytes, d->record, sizeof d->record,
        scalar_record, sizeof scalar_record);
    d->record_len = lengths.first_written;
    if (lengths.number != EXPANDER_ACCEPTED)
        return 0;
    lengths = expander_noise_offline(d->record, d->record_len, d->noise, N, d->v, 2 * N);
    return lengths.number == EXPANDER_ACCEPTED;
}

/* A task draws outputs of a dealing and expands them. */
static int use(struct expander_stock *stock, const struct dealt *d, size_t task, size_t count)
{
    static uint64_t u_out[N], v_out[2 * N];
    struct expander_drawn drawn = expander_draw(*stock, d->label, task, count);
    if (drawn.number != EXPANDER_ACCEPTED)
        return 0;
    *stock = drawn.stock;
    printf(" %d: %d from %d;", (int)task, (int)drawn.count, (int)drawn.first);
    return expander_noise_online(d->record, d->record_len, d->noise, N, d->v, 2 * N, drawn.first,
                                 drawn.count, u_out, N, v_out, 2 * N).number == EXPANDER_ACCEPTED;
}

int main(void)
{
    static const uint32_t shares[TASKS] = {300, 200};
    struct expander_opened_stock opened, passed;
    struct expander_stock stock;
    if (!deal(&spring) || !deal(&autumn))
        return 1;

    opened = expander_open_stock(spring.label, spring.outputs, shares, TASKS);
    if (opened.number != EXPANDER_ACCEPTED)
        return 1;
    stock = opened.stock;
    printf("spring");
    if (!use(&stock, &spring, 0, 120) || !use(&stock, &spring, 1, 50))
        return 1;

    /* Left are 180 and 150 outputs, which autumn's 400 hold. */
    passed = expander_pass_stock(stock, autumn.label, autumn.outputs);
    if (passed.number != EXPANDER_ACCEPTED)
        return 1;
    stock = passed.stock;
    printf(" autumn");
    if (!use(&stock, &autumn, 1, 150) || !use(&stock, &autumn, 0, 100))
        return 1;

    /* Spring's outputs are no longer drawn. */
    if (expander_draw(stock, spring.label, 0, 1).number != EXPANDER_LABEL_NOT_IN_USE)
        return 1;
    printf(" spring is out of use\n");
    return 0;
}
