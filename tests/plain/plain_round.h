/* A plain second implementation of circuits in rounds, and of what a circuit is, to hold the library
 * to. Written from expander.h and the design of rounds alone, on the plain implementation of circuits.
 * Parameters lie as in expander.h, and results are of its types.
 */
#ifndef PLAIN_ROUND_H
#define PLAIN_ROUND_H

#include "expander.h"

struct expander_rounded plain_circuit_round(
    uint8_t role, const uint8_t *circuit, size_t circuit_len, const uint8_t *shares,
    size_t shares_len, const uint8_t *triples, size_t triples_len, uint8_t *output,
    size_t output_len, const uint8_t *far_bits, size_t far_bits_len, uint8_t *bits_out,
    size_t bits_out_len, struct expander_round_state state);

struct expander_described_circuit plain_describe_circuit(const uint8_t *circuit, size_t circuit_len);

#endif
