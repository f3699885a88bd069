/* A plain second implementation of document 02, request 9, to hold the library to. Written from
 * that document alone. Parameters lie as in expander.h, and the result is of its type.
 */
#ifndef PLAIN_CIRCUIT_H
#define PLAIN_CIRCUIT_H

#include "expander.h"

/* A gate; a NOT has wire a alone. */
struct plain_gate {
    uint32_t kind, a, b;
};

struct plain_circuit {
    uint32_t inputs, gates, outputs;
    struct plain_gate gate[4096];
    uint32_t output[4096];
};

/* Read a circuit; the number is 0, or that of the first test that fails. */
uint32_t plain_read_circuit(struct plain_circuit *c, const uint8_t *bytes, size_t len);

/* The value of a circuit on bits, gate by gate. */
void plain_circuit_value(const struct plain_circuit *c, const uint8_t *inputs, uint8_t *outputs);

/* How many of its gates are ANDs. */
uint32_t plain_ands(const struct plain_circuit *c);

/* Whether one of the bytes is no bit. */
int plain_any_above_1(const uint8_t *bits, size_t count);

/* The share of an AND from its wires' shares, its triple and the far bits. */
uint8_t plain_and_share(uint8_t role, uint8_t a, uint8_t b, const uint8_t triple[3],
                        uint8_t far_first, uint8_t far_second);

struct expander_stepped plain_circuit_step(
    uint8_t role, const uint8_t *circuit, size_t circuit_len, const uint8_t *shares,
    size_t shares_len, const uint8_t *triples, size_t triples_len, uint8_t *output,
    size_t output_len, uint8_t far_first, uint8_t far_second, struct expander_run state);

#endif
