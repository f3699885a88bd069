/* A plain second implementation of circuits in rounds (plain_round.h). */
#include "plain_round.h"

#include "plain_circuit.h"

#include <string.h>

enum { XOR = 1, AND = 2, NOT = 3 };

/* A wire's byte. From KNOWN on its share is the byte modulo 2. */
enum { NOT_KNOWN = 0, WAITS = 1, KNOWN = 2 };

static int is_known(uint8_t byte)
{
    return byte >= KNOWN;
}

static uint8_t known(int share)
{
    return (uint8_t)(KNOWN + share);
}

/* Whether the wires that a gate reads are known. */
static int is_ready(const struct plain_gate *gate, const uint8_t *wires)
{
    return is_known(wires[gate->a]) && (gate->kind == NOT || is_known(wires[gate->b]));
}

/* ---- A round ---- */

/* How many gates have the byte of one that waits, of whatever kind. */
static size_t waiting(const struct plain_circuit *c, const uint8_t *wires)
{
    size_t count = 0;
    for (uint32_t g = 0; g < c->gates; g++)
        count += wires[c->inputs + g] == WAITS;
    return count;
}

/* Take every wire as far as it comes, in order. */
static void pass_wires(const struct plain_circuit *c, uint8_t role, const uint8_t *shares,
                       const uint8_t *triple, const uint8_t *far, uint8_t *wires)
{
    for (uint32_t k = 0; k < c->inputs; k++)
        if (!is_known(wires[k]))
            wires[k] = known(shares[k]);
    for (uint32_t g = 0; g < c->gates; g++) {
        const struct plain_gate *gate = &c->gate[g];
        uint8_t *wire = &wires[c->inputs + g], a = wires[gate->a] % 2, b = wires[gate->b] % 2;
        int waits = *wire == WAITS;
        if (is_known(*wire))
            ;
        else if (gate->kind == AND && waits)
            *wire = known(plain_and_share(role, a, b, triple, far[0], far[1]));
        else if (!is_ready(gate, wires))
            *wire = NOT_KNOWN;
        else if (gate->kind == AND)
            *wire = WAITS;
        else
            *wire = known(gate->kind == XOR ? a ^ b : a ^ (role == 1));
        far += waits ? 2 : 0;
        triple += gate->kind == AND ? 3 : 0;
    }
}

/* Write the bits of the ANDs that were opened; how many bytes. */
static size_t give_bits(const struct plain_circuit *c, const uint8_t *triple, const uint8_t *wires,
                        uint8_t *bits)
{
    size_t count = 0;
    for (uint32_t g = 0; g < c->gates; g++) {
        const struct plain_gate *gate = &c->gate[g];
        if (gate->kind != AND)
            continue;
        if (wires[c->inputs + g] == WAITS) {
            bits[count++] = wires[gate->a] % 2 ^ triple[0];
            bits[count++] = wires[gate->b] % 2 ^ triple[1];
        }
        triple += 3;
    }
    return count;
}

struct expander_rounded plain_circuit_round(
    uint8_t role, const uint8_t *circuit, size_t circuit_len, const uint8_t *shares,
    size_t shares_len, const uint8_t *triples, size_t triples_len, uint8_t *output,
    size_t output_len, const uint8_t *far_bits, size_t far_bits_len, uint8_t *bits_out,
    size_t bits_out_len, struct expander_round_state state)
{
    static struct plain_circuit c;
    struct expander_rounded r;
    const uint8_t *wires = r.state.wires;
    size_t ands;
    memset(&r, 0, sizeof r);
    r.state = state;

    r.number = plain_read_circuit(&c, circuit, circuit_len);
    if (r.number != 0)
        return r;
    ands = plain_ands(&c);
    if (shares_len != c.inputs || triples_len % 3 != 0 || far_bits_len != 2 * waiting(&c, wires))
        r.number = 3;
    else if (output_len < c.outputs || bits_out_len < 2 * ands)
        r.number = 13;
    else if (plain_any_above_1(shares, shares_len) || plain_any_above_1(triples, triples_len)
             || plain_any_above_1(far_bits, far_bits_len))
        r.number = 8;
    else if (triples_len / 3 < ands)
        r.number = 18;
    else if (role != 1 && role != 2)
        r.number = 9;
    if (r.number != 0)
        return r;

    pass_wires(&c, role, shares, triples, far_bits, r.state.wires);
    r.bits_written = give_bits(&c, triples, wires, bits_out);
    if (r.bits_written > 0)
        return r;
    for (uint32_t k = 0; k < c.outputs; k++)
        output[k] = wires[c.output[k]] % 2;
    r.written = c.outputs;
    return r;
}

/* ---- What a circuit is ---- */

/* The greatest level of any wire. */
static size_t depth(const struct plain_circuit *c)
{
    size_t level[4096] = {0}, greatest = 0;
    for (uint32_t g = 0; g < c->gates; g++) {
        const struct plain_gate *gate = &c->gate[g];
        size_t a = level[gate->a], b = gate->kind == NOT ? 0 : level[gate->b];
        size_t own = (a > b ? a : b) + (gate->kind == AND);
        level[c->inputs + g] = own;
        greatest = own > greatest ? own : greatest;
    }
    return greatest;
}

struct expander_described_circuit plain_describe_circuit(const uint8_t *circuit, size_t circuit_len)
{
    static struct plain_circuit c;
    struct expander_described_circuit d = {0, 0, 0, 0, 0, 0};
    d.number = plain_read_circuit(&c, circuit, circuit_len);
    if (d.number != 0)
        return d;
    d.inputs = c.inputs;
    d.gates = c.gates;
    d.outputs = c.outputs;
    d.ands = plain_ands(&c);
    d.rounds = depth(&c) + 1;
    return d;
}
