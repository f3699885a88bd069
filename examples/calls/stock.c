/* A stock of one dealing's outputs, shared by three tasks. */
#include "expander.h"

#include <stdio.h>

int main(void)
{
    static const uint32_t shares[3] = {300, 200, 12}; /* of n = 512 outputs */
    static const struct expander_label label = {{7}}; /* the dealing's */
    struct expander_opened_stock opened = expander_open_stock(label, 512, shares, 3);
    struct expander_stock stock = opened.stock;
    struct expander_previewed previewed;
    struct expander_drawn drawn;
    if (opened.number != EXPANDER_ACCEPTED)
        return 1;

    /* Task 1 draws 40 outputs. The window goes to the online and pad calls; the stock is kept. */
    drawn = expander_draw(stock, label, 1, 40);
    if (drawn.number != EXPANDER_ACCEPTED)
        return 1;
    stock = drawn.stock;
    printf("task 1: %d from %d", (int)drawn.count, (int)drawn.first);

    /* Task 2 asks for more than it has: nothing changes. */
    drawn = expander_draw(stock, label, 2, 13);
    if (drawn.number != EXPANDER_SHARE_SPENT)
        return 1;
    stock = drawn.stock;

    /* Task 1 goes on where it stopped; a look before the draw shows the same window. */
    previewed = expander_preview(stock, label, 1, 40);
    drawn = expander_draw(stock, label, 1, 40);
    if (drawn.number != EXPANDER_ACCEPTED || previewed.first != drawn.first)
        return 1;
    printf(", then %d from %d\n", (int)drawn.count, (int)drawn.first);
    return 0;
}
