/* A plain second implementation of document 02, requests 2, 5 and 14 (plain_stock.h). */
#include "plain_stock.h"

#include <string.h>

enum { CALLERS_MOST = 8, OUTPUTS_MOST = 32768 };

static int is_caller(const struct expander_stock *stock, size_t caller)
{
    return caller < CALLERS_MOST && caller < stock->callers;
}

uint32_t plain_left(const struct expander_stock *stock, size_t caller)
{
    if (!is_caller(stock, caller) || stock->next[caller] >= stock->end[caller])
        return 0;
    return stock->end[caller] - stock->next[caller];
}

/* Give the callers consecutive blocks of these lengths, from index 0. */
static void lay_blocks(struct expander_stock *stock, const uint32_t *shares, size_t callers)
{
    uint32_t at = 0;
    memset(stock->next, 0, sizeof stock->next);
    memset(stock->end, 0, sizeof stock->end);
    for (size_t k = 0; k < callers; k++) {
        stock->next[k] = at;
        at += shares[k];
        stock->end[k] = at;
    }
}

static uint64_t sum(const uint32_t *shares, size_t callers)
{
    uint64_t all = 0;
    for (size_t k = 0; k < callers; k++)
        all += shares[k];
    return all;
}

struct expander_opened_stock plain_open_stock(
    struct expander_label label, size_t outputs, const uint32_t *shares, size_t shares_len)
{
    struct expander_opened_stock r;
    memset(&r, 0, sizeof r);
    if (shares_len == 0 || shares_len > CALLERS_MOST || outputs == 0 || outputs > OUTPUTS_MOST) {
        r.number = 2;
        return r;
    }
    if (sum(shares, shares_len) > outputs) {
        r.number = 16;
        return r;
    }
    r.stock.callers = (uint32_t)shares_len;
    r.stock.label = label;
    lay_blocks(&r.stock, shares, shares_len);
    return r;
}

struct expander_drawn plain_draw(
    struct expander_stock stock, struct expander_label label, size_t caller, size_t count)
{
    struct expander_drawn r;
    memset(&r, 0, sizeof r);
    r.stock = stock;
    if (memcmp(label.bytes, stock.label.bytes, 16) != 0) {
        r.number = 21;
    } else if (!is_caller(&stock, caller)) {
        r.number = 14;
    } else if (plain_left(&stock, caller) < count) {
        r.number = 15;
    } else {
        r.first = stock.next[caller];
        r.count = count;
        r.stock.next[caller] += (uint32_t)count;
    }
    return r;
}

/* The draw on a copy. */
struct expander_previewed plain_preview(
    struct expander_stock stock, struct expander_label label, size_t caller, size_t count)
{
    struct expander_drawn drawn = plain_draw(stock, label, caller, count);
    struct expander_previewed r;
    memset(&r, 0, sizeof r);
    r.number = drawn.number;
    r.first = drawn.first;
    r.count = drawn.count;
    r.after = drawn.stock;
    return r;
}

/* Read as numbers least byte first, label a is above label b. */
static int above(const struct expander_label *a, const struct expander_label *b)
{
    for (int k = 15; k >= 0; k--)
        if (a->bytes[k] != b->bytes[k])
            return a->bytes[k] > b->bytes[k];
    return 0;
}

struct expander_opened_stock plain_pass_stock(
    struct expander_stock stock, struct expander_label label, size_t outputs)
{
    struct expander_opened_stock r;
    size_t callers = stock.callers < CALLERS_MOST ? stock.callers : CALLERS_MOST;
    uint32_t left[CALLERS_MOST];
    for (size_t k = 0; k < callers; k++)
        left[k] = plain_left(&stock, k);
    memset(&r, 0, sizeof r);
    r.stock = stock;
    if (outputs == 0 || outputs > OUTPUTS_MOST) {
        r.number = 2;
    } else if (!above(&label, &stock.label)) {
        r.number = 20;
    } else if (sum(left, callers) > outputs) {
        r.number = 16;
    } else {
        r.stock.label = label;
        lay_blocks(&r.stock, left, callers);
    }
    return r;
}
