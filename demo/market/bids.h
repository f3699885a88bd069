/* A house's bids: at each price level the quantity that it would buy and the quantity that it would
 * sell there.
 */
#ifndef MARKET_BIDS_H
#define MARKET_BIDS_H

enum { LEVELS = 8, QUANTITY_BITS = 8, QUANTITY_MAX = 255 };
enum side { BUY, SELL, SIDES };

/* Index 0 is price level 1. */
struct bids {
    unsigned quantity[SIDES][LEVELS];
};

/* Reads a bid file: eight lines `level buy sell`, levels 1 to 8 in order, quantities 0 to 255,
 * never more bought and never less sold than at the level before. Empty lines and lines that begin
 * with # are passed over. Stops at anything else, and names the line. */
void read_bids(const char *path, struct bids *bids);

#endif
