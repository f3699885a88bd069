#include "clearing.h"

const char *const caller_names[CALLERS] = {"sums", "comparison", "choice", "check"};

/* A quantity of a house, and a sum of both houses', lowest bit first. */
struct quantity {
    companion_wire bit[QUANTITY_BITS];
};
struct total {
    companion_wire bit[TOTAL_BITS];
};

/* Marks the lowest level at which supply meets demand: it does there, and at no level below. */
static void mark_lowest(struct companion_circuit *circuit, const companion_wire meets[LEVELS],
                        companion_wire lowest[LEVELS])
{
    companion_wire none_below = companion_not(circuit, meets[0]);
    lowest[0] = meets[0];
    for (unsigned level = 1; level < LEVELS; level++) {
        lowest[level] = companion_and(circuit, meets[level], none_below);
        none_below = companion_xor(circuit, none_below, lowest[level]);
    }
}

/* The number of the marked level. At most one level is marked, so exclusive or gathers its bits. */
static void output_level(struct companion_circuit *circuit, const companion_wire lowest[LEVELS])
{
    companion_wire number[LEVEL_BITS];
    for (unsigned bit = 0; bit < LEVEL_BITS; bit++) {
        unsigned level = (1u << bit) - 1; /* the lowest whose number has the bit */
        number[bit] = lowest[level];
        for (level++; level < LEVELS; level++)
            if ((level + 1) >> bit & 1)
                number[bit] = companion_xor(circuit, number[bit], lowest[level]);
    }
    companion_output(circuit, COMPANION_BOTH, number, LEVEL_BITS);
}

/* Demand at the marked level, which is what is traded there: supply is no less. */
static void output_quantity(struct companion_circuit *circuit, const companion_wire lowest[LEVELS],
                            const struct total demand[LEVELS])
{
    struct total traded;
    for (unsigned bit = 0; bit < TOTAL_BITS; bit++) {
        traded.bit[bit] = companion_and(circuit, lowest[0], demand[0].bit[bit]);
        for (unsigned level = 1; level < LEVELS; level++)
            traded.bit[bit] =
                companion_xor(circuit, traded.bit[bit],
                              companion_and(circuit, lowest[level], demand[level].bit[bit]));
    }
    companion_output(circuit, COMPANION_BOTH, traded.bit, TOTAL_BITS);
}

static unsigned count_ands(const struct companion_circuit *circuit)
{
    unsigned ands = 0;
    for (size_t k = 0; k < circuit->gates; k++)
        ands += circuit->gate[k].kind == EXPANDER_GATE_AND;
    return ands;
}

/* Ripple forms: a triple is dearer here than a round. These are the gates, in this order, of
 * crates/market/specs/Circuit.antt, which are proved to find the price; tests/market/run compares. */
void build_clearing(struct companion_circuit *circuit, unsigned ands[TASKS])
{
    struct quantity given[HOUSES][SIDES][LEVELS];
    struct total total[SIDES][LEVELS];
    companion_wire meets[LEVELS], lowest[LEVELS];
    for (unsigned house = 0; house < HOUSES; house++)
        for (unsigned side = 0; side < SIDES; side++)
            for (unsigned level = 0; level < LEVELS; level++)
                companion_input(circuit, (uint8_t)(COMPANION_ROLE_1 + house),
                                given[house][side][level].bit, QUANTITY_BITS);

    for (unsigned level = 0; level < LEVELS; level++)
        for (unsigned side = 0; side < SIDES; side++)
            companion_sum(circuit, COMPANION_RIPPLE, given[0][side][level].bit,
                          given[1][side][level].bit, QUANTITY_BITS, total[side][level].bit);
    ands[SUMS] = count_ands(circuit);

    for (unsigned level = 0; level < LEVELS; level++)
        meets[level] = companion_not(
            circuit, companion_less(circuit, COMPANION_RIPPLE, total[SELL][level].bit,
                                    total[BUY][level].bit, TOTAL_BITS));
    ands[COMPARISON] = count_ands(circuit) - ands[SUMS];

    mark_lowest(circuit, meets, lowest);
    output_level(circuit, lowest);
    output_quantity(circuit, lowest, total[BUY]);
    ands[CHOICE] = count_ands(circuit) - ands[SUMS] - ands[COMPARISON];
}

void write_bids(const struct bids *bids, uint8_t inputs[HOUSE_INPUTS])
{
    for (unsigned side = 0; side < SIDES; side++)
        for (unsigned level = 0; level < LEVELS; level++, inputs += QUANTITY_BITS)
            companion_to_bits(bids->quantity[side][level], inputs, QUANTITY_BITS);
}

struct clearing read_clearing(const uint8_t output[CLEARING_OUTPUTS])
{
    struct clearing found;
    found.level = (unsigned)companion_from_bits(output, LEVEL_BITS);
    found.quantity = (unsigned)companion_from_bits(output + LEVEL_BITS, TOTAL_BITS);
    return found;
}
