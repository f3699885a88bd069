/* Circuits for the tests (circuits.h). */
#include "circuits.h"

#include "lend.h"

#include <string.h>

/* ---- Circuits ---- */

struct made made;

static void put(uint32_t number)
{
    made.begins[made.numbers++] = made.len;
    made.len += plain_write_number(made.bytes + made.len, number);
}

void write_circuit(void)
{
    const struct plain_circuit *c = &made.c;
    made.len = made.numbers = made.ands = 0;
    put(c->inputs);
    put(c->gates);
    put(c->outputs);
    for (uint32_t g = 0; g < c->gates; g++) {
        put(c->gate[g].kind);
        put(c->gate[g].a);
        if (c->gate[g].kind != NOT)
            put(c->gate[g].b);
        made.ands += c->gate[g].kind == AND;
    }
    for (uint32_t k = 0; k < c->outputs; k++)
        put(c->output[k]);
}

uint32_t some_wire(uint32_t bound)
{
    switch (random_below(6)) {
    case 0:
        return 0;
    case 1:
        return bound - 1;
    case 2:
    case 3:
        return bound - 1 - (uint32_t)random_below(bound < 8 ? bound : 8);
    default:
        return (uint32_t)random_below(bound);
    }
}

void make_circuit(uint32_t inputs, uint32_t gates, uint32_t outputs, size_t percent)
{
    static struct plain_circuit back;
    struct plain_circuit *c = &made.c;
    c->inputs = inputs;
    c->gates = gates;
    c->outputs = outputs;
    for (uint32_t g = 0; g < gates; g++) {
        struct plain_gate *gate = &c->gate[g];
        gate->kind = random_below(100) < percent ? AND : random_below(3) ? XOR : NOT;
        gate->a = some_wire(inputs + g);
        gate->b = gate->kind == NOT ? 0 : some_wire(inputs + g);
    }
    for (uint32_t k = 0; k < outputs; k++)
        c->output[k] = some_wire(inputs + gates);
    write_circuit();
    EXPECT(plain_read_circuit(&back, made.bytes, made.len) == 0);
    EXPECT(back.inputs == inputs && back.gates == gates && back.outputs == outputs
           && memcmp(back.gate, c->gate, gates * sizeof *c->gate) == 0
           && memcmp(back.output, c->output, outputs * sizeof *c->output) == 0);
}

void random_bits(uint8_t *bits, size_t count)
{
    for (size_t k = 0; k < count; k++)
        bits[k] = random_word() & 1;
}

/* ---- Triples ---- */

uint8_t triples[2][3 * PAIRING_MOST];

void make_triples(void)
{
    static struct pairing pairings[2];
    for (int k = 0; k < 2; k++)
        make_pairing(&pairings[k], PAIRING_MOST);
    for (int end = 0; end < 2; end++) {
        const struct pairing *noise = &pairings[end], *scalar = &pairings[1 - end];
        struct expander_one_length r = expander_triples(
            noise->choices, PAIRING_MOST, noise->noise_pads, 16 * PAIRING_MOST,
            scalar->scalar_pads, 32 * PAIRING_MOST, triples[end], sizeof triples[end]);
        EXPECT(r.number == 0 && r.written == sizeof triples[end]);
    }
}

/* ---- Faults in the circuit ---- */

uint8_t raw[sizeof made.bytes + 16];
size_t raw_len;

/* Number k of the circuit in a form. */
static void put_raw(size_t k, enum form form, uint32_t other)
{
    size_t from = made.begins[k];
    size_t to = k + 1 < made.numbers ? made.begins[k + 1] : made.len;
    size_t n = to - from;
    memcpy(raw + raw_len, made.bytes + from, n);
    if (form == OTHER)
        n = plain_write_number(raw + raw_len, other);
    if (form == LONGER) { /* no number of a circuit takes three bytes */
        raw[raw_len + n - 1] |= 0x80;
        raw[raw_len + n++] = 0;
    }
    if (form == ENDLESS) {
        for (; n < 3; n++)
            raw[raw_len + n] = 0;
        raw[raw_len] |= 0x80;
        raw[raw_len + 1] |= 0x80;
        raw[raw_len + 2] |= 0x80;
    }
    raw_len += n;
}

/* A number at k that is not admitted there: one past its range, at either end, or far past it. */
static uint32_t not_admitted(size_t k)
{
    const struct plain_circuit *c = &made.c;
    size_t at = 3;
    uint32_t far = 2097151;
    if (k == 0)
        return (uint32_t[]){0, 4097, far}[random_below(3)];
    if (k == 1)
        return (uint32_t[]){4097 - c->inputs, 4096, far}[c->inputs == 1 ? 0 : random_below(3)];
    if (k == 2)
        return (uint32_t[]){0, 4097, far}[random_below(3)];
    for (uint32_t g = 0; g < c->gates; g++) {
        size_t wires = c->gate[g].kind == NOT ? 1 : 2;
        if (k == at)
            return (uint32_t[]){0, 4, far}[random_below(3)];
        if (k <= at + wires)
            return (uint32_t[]){c->inputs + g, c->inputs + g + 1, far}[random_below(3)];
        at += 1 + wires;
    }
    return (uint32_t[]){c->inputs + c->gates, c->inputs + c->gates + 1, far}[random_below(3)];
}

void write_raw(size_t i, enum form form, size_t j, enum form other)
{
    raw_len = 0;
    for (size_t k = 0; k < made.numbers; k++) {
        enum form at = k == i ? form : k == j ? other : AS_IT_IS;
        put_raw(k, at, at == OTHER ? not_admitted(k) : 0);
    }
}

uint32_t number_of(enum form form)
{
    return form == AS_IT_IS ? 0 : form == OTHER ? 17 : 11;
}

void damaged_circuits(raw_call *try_raw, int every)
{
    memcpy(raw, made.bytes, made.len);
    for (raw_len = 0; raw_len < made.len; raw_len++)
        EXPECT(try_raw() == 10);
    for (size_t more = 1; more <= 3; more++) {
        raw[made.len + more - 1] = (uint8_t)random_word();
        raw_len = made.len + more;
        EXPECT(try_raw() == 12);
    }
    for (size_t i = 0; i < made.numbers; i++)
        for (enum form form = LONGER; form <= OTHER; form++) {
            write_raw(i, form, i, AS_IT_IS);
            EXPECT(try_raw() == number_of(form));
            raw[raw_len++] = 0; /* and bytes after it */
            EXPECT(try_raw() == number_of(form));
            for (enum form other = LONGER; other <= OTHER; other++)
                for (size_t n = 0; n < (every ? made.numbers : 1); n++) {
                    size_t j = every ? n : random_below(made.numbers);
                    if (j == i)
                        continue;
                    write_raw(i, form, j, other);
                    EXPECT(try_raw() == number_of(i < j ? form : other));
                }
            write_raw(i, form, i, AS_IT_IS); /* cut before the fault, inside it, after it */
            raw_len = made.begins[i] + random_below(raw_len - made.begins[i] + 1);
            try_raw();
            raw_len = made.begins[i];
            EXPECT(try_raw() == 10);
        }
    for (int round = 0; round < 60; round++) { /* any bytes changed */
        memcpy(raw, made.bytes, made.len);
        raw_len = made.len - random_extra(2);
        raw_len += random_extra(2);
        for (size_t k = 1 + random_below(3); k > 0; k--) {
            size_t at = random_below(made.len);
            raw[at] = (uint8_t)(random_below(2) ? random_below(8) : random_word());
        }
        try_raw();
    }
}

void sizes_at_bounds(raw_call *try_raw)
{
    const struct {
        uint32_t inputs, gates, outputs, number;
    } tries[] = {{4096, 0, 1, 0}, {4096, 1, 1, 17}, {4097, 0, 1, 17}, {0, 0, 1, 17}, {0, 5, 1, 17},
                 {1, 4095, 1, 0}, {1, 4096, 1, 17}, {2000, 2096, 1, 0}, {2000, 2097, 1, 17},
                 {1, 0, 0, 17}, {1, 0, 4096, 0}, {1, 0, 4097, 17}, {128, 16384, 1, 17},
                 {16384, 0, 1, 17}, {3, 2097151, 1, 17}, {2097151, 2097151, 1, 17},
                 {1, 1, 16384, 17}};
    for (size_t k = 0; k < sizeof tries / sizeof *tries; k++) {
        uint32_t gates = tries[k].gates <= WIRES ? tries[k].gates : 0;
        struct plain_circuit *c = &made.c;
        c->inputs = tries[k].inputs;
        c->gates = gates;
        c->outputs = tries[k].outputs <= OUTPUTS ? tries[k].outputs : 0;
        for (uint32_t g = 0; g < gates; g++)
            c->gate[g] = (struct plain_gate){NOT, 0, 0};
        memset(c->output, 0, sizeof c->output);
        write_circuit();
        raw_len = 0;
        put_raw(0, AS_IT_IS, 0);
        put_raw(1, OTHER, tries[k].gates);
        put_raw(2, OTHER, tries[k].outputs);
        for (size_t j = 3; j < made.numbers; j++)
            put_raw(j, AS_IT_IS, 0);
        if (c->inputs > WIRES)
            c->inputs = WIRES;
        EXPECT(try_raw() == tries[k].number);
    }
}
