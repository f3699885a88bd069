/* The circuit that clears the market: it adds up both houses' curves and gives the lowest price
 * level at which supply meets demand, and the quantity traded there.
 */
#ifndef MARKET_CLEARING_H
#define MARKET_CLEARING_H

#include "bids.h"
#include "common.h"

/* The circuit's three parts, in the order of its gates. Each is a task of the evaluator, and draws
 * the triples for its ANDs as a caller of its own. A fourth caller draws those that are opened to
 * see whether the houses' records were dealt together. */
enum task { SUMS, COMPARISON, CHOICE, TASKS, CHECK = TASKS, CALLERS };
extern const char *const caller_names[CALLERS];
LIMIT(a_stock_has_these_callers, CALLERS <= EXPANDER_CALLERS_MAX);

enum {
    TOTAL_BITS = QUANTITY_BITS + 1, /* both houses' quantities together */
    CHECKED = 40,                   /* triples: others pass with chance 2^-40 */
    /* Of 0 for no level and 1 to LEVELS: the length of LEVELS in binary. 4,096 wires hold no 256. */
    LEVEL_BITS = (LEVELS > 0) + (LEVELS > 1) + (LEVELS > 3) + (LEVELS > 7) + (LEVELS > 15) +
                 (LEVELS > 31) + (LEVELS > 63) + (LEVELS > 127),
    HOUSE_INPUTS = SIDES * LEVELS * QUANTITY_BITS,
    CLEARING_OUTPUTS = LEVEL_BITS + TOTAL_BITS
};

/* What an auction finds: a price level, 0 if supply meets demand at none, and the quantity. */
struct clearing {
    unsigned level, quantity;
};

/* Builds the circuit, and says how many ANDs each task has in it. */
void build_clearing(struct companion_circuit *circuit, unsigned ands[TASKS]);

/* A house's bids as its input bits, and what the circuit's output bits say. */
void write_bids(const struct bids *bids, uint8_t inputs[HOUSE_INPUTS]);
struct clearing read_clearing(const uint8_t output[CLEARING_OUTPUTS]);

#endif
