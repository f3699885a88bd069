/* Circuits for the tests: made at random, written as bytes, and damaged; and both ends' triples to run
 * them on.
 */
#ifndef CIRCUITS_H
#define CIRCUITS_H

#include "pairing.h"
#include "../plain/plain_circuit.h"

enum { WIRES = EXPANDER_WIRES_MAX, OUTPUTS = EXPANDER_CIRCUIT_OUTPUTS_MAX };
enum { XOR = EXPANDER_GATE_XOR, AND = EXPANDER_GATE_AND, NOT = EXPANDER_GATE_NOT };

/* The circuit as it was made, and its bytes; where each number begins, for faults. */
extern struct made {
    struct plain_circuit c;
    uint32_t ands;
    uint8_t bytes[3 * (3 + 4 * WIRES) + 8];
    size_t len, numbers, begins[3 + 4 * WIRES];
} made;

/* Write the bytes of made.c. */
void write_circuit(void);

/* Make a circuit of these sizes; of a hundred gates so many are ANDs. */
void make_circuit(uint32_t inputs, uint32_t gates, uint32_t outputs, size_t percent);

/* A wire below `bound`: the first, the last, a late one, or any. */
uint32_t some_wire(uint32_t bound);

void random_bits(uint8_t *bits, size_t count);

/* Both ends' triples of two dealings with the roles exchanged. End 0 is the first's noise end. */
extern uint8_t triples[2][3 * PAIRING_MOST];
void make_triples(void);

/* ---- Faults in the circuit ---- */

/* The circuit as it is lent, with the faults. */
extern uint8_t raw[sizeof made.bytes + 16];
extern size_t raw_len;

/* A number in another form: longer than its shortest, without an end, or as another number, which is
 * not admitted there. */
enum form { AS_IT_IS, LONGER, ENDLESS, OTHER };

/* Write the circuit to raw with faults at numbers i and j of it, which may be the same. */
void write_raw(size_t i, enum form form, size_t j, enum form other);

/* The number that a form gives. */
uint32_t number_of(enum form form);

/* Lend raw to a call, with as many shares as the circuit was made with, and give the number. */
typedef uint32_t raw_call(void);

/* The circuit cut short, with bytes after it, and with two faults in it, in both orders: at each
 * number and another one or, if so wanted, every other one. */
void damaged_circuits(raw_call *try_raw, int every);

/* Sizes at their bounds: inputs, gates and outputs, on both sides. */
void sizes_at_bounds(raw_call *try_raw);

#endif
