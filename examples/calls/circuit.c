/* Two ends find whether a bid reaches an ask, and neither sees the other's number. */
#include "expander.h"

#include <stdio.h>

enum { INPUTS = 4, ANDS = 2, ENDS = 2 };

/* Wires 0 and 1 are the bid's bits, lowest first, 2 and 3 the ask's. Gates are wires from 4 on. */
static const uint8_t circuit[] = {
    INPUTS, 8, 1,
    EXPANDER_GATE_NOT, 0,     /*  4 */
    EXPANDER_GATE_AND, 2, 4,  /*  5: the ask is above in the low bits */
    EXPANDER_GATE_NOT, 1,     /*  6 */
    EXPANDER_GATE_XOR, 3, 5,  /*  7 */
    EXPANDER_GATE_XOR, 6, 5,  /*  8 */
    EXPANDER_GATE_AND, 7, 8,  /*  9 */
    EXPANDER_GATE_XOR, 9, 5,  /* 10: the ask is above */
    EXPANDER_GATE_NOT, 10,    /* 11: it is not */
    11,                       /* the output */
};

/* In use, expander_triples gives these from two dealings with the roles exchanged. */
static const uint8_t triples[ENDS][3 * ANDS] = {{1, 0, 1, 0, 1, 1}, {0, 1, 0, 1, 1, 1}};

/* What an end keeps through its run. */
struct end {
    uint8_t shares[INPUTS], output[1];
    struct expander_stepped last; /* zero at first: a fresh state */
};

/* One step of an end, with the bits that the other end sent. */
static int step(struct end *end, int which, uint8_t far_first, uint8_t far_second)
{
    end->last = expander_circuit_step(
        (uint8_t)(which == 0 ? EXPANDER_ROLE_NOISE : EXPANDER_ROLE_SCALAR), circuit, sizeof circuit,
        end->shares, INPUTS, triples[which], 3 * ANDS, end->output, 1, far_first, far_second,
        end->last.state);
    return end->last.number == EXPANDER_ACCEPTED;
}

int main(void)
{
    static struct end ends[ENDS];
    const unsigned bid = 2, ask = 1;
    /* Each end keeps a share of its bits and sends the other one; in use the masks are random. */
    static const uint8_t masks[INPUTS] = {1, 0, 0, 1};
    for (int k = 0; k < INPUTS; k++) {
        uint8_t bit = (k < 2 ? bid >> k : ask >> (k - 2)) & 1;
        ends[0].shares[k] = k < 2 ? bit ^ masks[k] : masks[k];
        ends[1].shares[k] = k < 2 ? masks[k] : bit ^ masks[k];
    }
    do {
        uint8_t sent[ENDS][2] = {{ends[0].last.first_bit, ends[0].last.second_bit},
                                 {ends[1].last.first_bit, ends[1].last.second_bit}};
        if (!step(&ends[0], 0, sent[1][0], sent[1][1])
            || !step(&ends[1], 1, sent[0][0], sent[0][1]))
            return 1;
    } while (ends[0].last.state.phase != EXPANDER_RUN_FINISHED);

    /* The ends send each other their shares of the output. */
    printf("a bid of %u %s an ask of %u\n", bid,
           ends[0].output[0] ^ ends[1].output[0] ? "reaches" : "is below", ask);
    return (ends[0].output[0] ^ ends[1].output[0]) != (bid >= ask);
}
