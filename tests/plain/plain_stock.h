/* A plain second implementation of document 02, requests 2, 5 and 14, to hold the library to.
 * Written from that document alone. Parameters lie as in expander.h, and the results are of its
 * types.
 */
#ifndef PLAIN_STOCK_H
#define PLAIN_STOCK_H

#include "expander.h"

/* What a caller has not drawn yet; 0 if there is no such caller. */
uint32_t plain_left(const struct expander_stock *stock, size_t caller);

struct expander_opened_stock plain_open_stock(
    struct expander_label label, size_t outputs, const uint32_t *shares, size_t shares_len);
struct expander_drawn plain_draw(
    struct expander_stock stock, struct expander_label label, size_t caller, size_t count);
struct expander_previewed plain_preview(
    struct expander_stock stock, struct expander_label label, size_t caller, size_t count);
struct expander_opened_stock plain_pass_stock(
    struct expander_stock stock, struct expander_label label, size_t outputs);

#endif
