/* A plain second implementation of document 02, request 9 (plain_circuit.h). */
#include "plain_circuit.h"

#include <string.h>

enum { WIRES_MOST = 4096, OUTPUTS_MOST = 4096 };
enum { XOR = 1, AND = 2, NOT = 3 };
enum { FRESH = 0, WAITS = 1, FINISHED = 2 };

/* ---- Reading ---- */

/* What is left to read, and the number of the first test that failed. */
struct reader {
    const uint8_t *at, *end;
    uint32_t number;
};

/* The next number, to be least to most; 0 once a test has failed. */
static uint32_t read_number(struct reader *r, uint32_t least, uint32_t most)
{
    uint32_t value = 0;
    for (int k = 0; k < 3 && r->number == 0; k++) {
        uint8_t byte;
        if (r->at == r->end) {
            r->number = 10;
            break;
        }
        byte = *r->at++;
        value |= (uint32_t)(byte & 0x7f) << (7 * k);
        if (byte & 0x80)
            continue;
        if (k > 0 && byte == 0)
            r->number = 11;
        else if (value < least || value > most)
            r->number = 17;
        return r->number == 0 ? value : 0;
    }
    if (r->number == 0) /* the third byte's top bit is set */
        r->number = 11;
    return 0;
}

uint32_t plain_read_circuit(struct plain_circuit *c, const uint8_t *bytes, size_t len)
{
    struct reader r = {bytes, bytes + len, 0};
    c->inputs = read_number(&r, 1, WIRES_MOST);
    c->gates = read_number(&r, 0, WIRES_MOST - c->inputs);
    c->outputs = read_number(&r, 1, OUTPUTS_MOST);
    for (uint32_t g = 0; g < c->gates && r.number == 0; g++) {
        struct plain_gate *gate = &c->gate[g];
        gate->kind = read_number(&r, XOR, NOT);
        gate->a = read_number(&r, 0, c->inputs + g - 1);
        gate->b = gate->kind == NOT ? 0 : read_number(&r, 0, c->inputs + g - 1);
    }
    for (uint32_t k = 0; k < c->outputs && r.number == 0; k++)
        c->output[k] = read_number(&r, 0, c->inputs + c->gates - 1);
    if (r.number == 0 && r.at != r.end)
        r.number = 12;
    return r.number;
}

/* ---- The value ---- */

void plain_circuit_value(const struct plain_circuit *c, const uint8_t *inputs, uint8_t *outputs)
{
    uint8_t wire[WIRES_MOST];
    memcpy(wire, inputs, c->inputs);
    for (uint32_t g = 0; g < c->gates; g++) {
        const struct plain_gate *gate = &c->gate[g];
        uint8_t a = wire[gate->a], b = wire[gate->b];
        wire[c->inputs + g] = gate->kind == XOR ? a ^ b : gate->kind == AND ? a & b : 1 - a;
    }
    for (uint32_t k = 0; k < c->outputs; k++)
        outputs[k] = wire[c->output[k]];
}

/* ---- A step ---- */

static uint32_t ands_before(const struct plain_circuit *c, uint32_t gate)
{
    uint32_t ands = 0;
    for (uint32_t g = 0; g < gate; g++)
        ands += c->gate[g].kind == AND;
    return ands;
}

uint32_t plain_ands(const struct plain_circuit *c)
{
    return ands_before(c, c->gates);
}

int plain_any_above_1(const uint8_t *bits, size_t count)
{
    for (size_t k = 0; k < count; k++)
        if (bits[k] > 1)
            return 1;
    return 0;
}

/* The triple of the AND at a gate. */
static const uint8_t *triple_of(const struct plain_circuit *c, uint32_t gate,
                                const uint8_t *triples)
{
    return triples + 3 * ands_before(c, gate);
}

uint8_t plain_and_share(uint8_t role, uint8_t a, uint8_t b, const uint8_t triple[3],
                        uint8_t far_first, uint8_t far_second)
{
    uint8_t d = a ^ triple[0] ^ far_first, e = b ^ triple[1] ^ far_second;
    uint8_t share = triple[2] ^ (d & triple[1]) ^ (e & triple[0]);
    return role == 1 ? share ^ (d & e) : share;
}

/* A finished run's step: the outputs, from its wires. */
static void give_outputs(struct expander_stepped *r, const struct plain_circuit *c, uint8_t *output)
{
    for (uint32_t k = 0; k < c->outputs; k++)
        output[k] = r->state.wires[c->output[k]];
    r->written = c->outputs;
}

struct expander_stepped plain_circuit_step(
    uint8_t role, const uint8_t *circuit, size_t circuit_len, const uint8_t *shares,
    size_t shares_len, const uint8_t *triples, size_t triples_len, uint8_t *output,
    size_t output_len, uint8_t far_first, uint8_t far_second, struct expander_run state)
{
    static struct plain_circuit c;
    struct expander_stepped r;
    uint8_t *wires = r.state.wires;
    const struct plain_gate *gate;
    uint32_t g = 0;
    memset(&r, 0, sizeof r);
    r.state = state;

    r.number = plain_read_circuit(&c, circuit, circuit_len);
    if (r.number != 0)
        return r;
    if (shares_len != c.inputs || triples_len % 3 != 0)
        r.number = 3;
    else if (output_len < c.outputs)
        r.number = 13;
    else if (plain_any_above_1(shares, shares_len) || plain_any_above_1(triples, triples_len)
             || (state.phase == WAITS && (far_first > 1 || far_second > 1)))
        r.number = 8;
    else if (triples_len / 3 < plain_ands(&c))
        r.number = 18;
    else if (state.phase > FINISHED
             || (state.phase == WAITS && (state.gate >= c.gates || c.gate[state.gate].kind != AND)))
        r.number = 17;
    else if (role != 1 && role != 2)
        r.number = 9;
    if (r.number != 0)
        return r;

    if (state.phase == FINISHED) {
        give_outputs(&r, &c, output);
        return r;
    }
    if (state.phase == FRESH) {
        memset(wires, 0, WIRES_MOST);
        memcpy(wires, shares, shares_len);
    } else {
        g = state.gate;
        gate = &c.gate[g];
        wires[c.inputs + g] = plain_and_share(role, wires[gate->a], wires[gate->b],
                                              triple_of(&c, g, triples), far_first, far_second);
        g++;
    }
    for (; g < c.gates && c.gate[g].kind != AND; g++) {
        gate = &c.gate[g];
        wires[c.inputs + g] = gate->kind == XOR ? wires[gate->a] ^ wires[gate->b]
                                                : wires[gate->a] ^ (role == 1);
    }
    r.state.gate = g;
    if (g == c.gates) {
        r.state.phase = FINISHED;
        give_outputs(&r, &c, output);
    } else {
        r.state.phase = WAITS;
        r.first_bit = wires[c.gate[g].a] ^ triple_of(&c, g, triples)[0];
        r.second_bit = wires[c.gate[g].b] ^ triple_of(&c, g, triples)[1];
    }
    return r;
}
