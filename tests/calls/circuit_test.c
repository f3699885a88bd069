/* The call of circuits held to the plain implementation, through expander.h (lend.h). */
#include "circuits.h"
#include "lend.h"

#include <string.h>

enum { FRESH = EXPANDER_RUN_FRESH, WAITS = EXPANDER_RUN_WAITS, FINISHED = EXPANDER_RUN_FINISHED };
enum { CIRCUIT_STEP, CALLS };

static const struct call calls[CALLS] = {
    {"circuit_step", BIT(0) | BIT(10) | BIT(11) | BIT(17) | BIT(12) | BIT(3) | BIT(13) | BIT(8)
                         | BIT(18) | BIT(9)},
};

typedef struct expander_run run;
typedef struct expander_stepped stepped;

static const run fresh;

static int same_run(const run *a, const run *b)
{
    return a->phase == b->phase && a->gate == b->gate && memcmp(a->wires, b->wires, WIRES) == 0;
}

/* ---- The call, made by both ---- */

/* All that a step is lent but its output buffer. */
struct asked {
    uint8_t role, far_first, far_second;
    const uint8_t *circuit, *shares, *triples;
    size_t circuit_len, shares_len, triples_len;
};

/* One step with so much room; what the library wrote goes to out, if not NULL. */
static stepped try_step(const struct asked *a, size_t room, const run *state, uint8_t *out)
{
    static stepped mine, plain;
    int same;
    describe("circuit_step(role %u, circuit of %zu bytes, %zu, %zu, %zu, bits %u %u, phase %u, "
             "gate %u)", a->role, a->circuit_len, a->shares_len, a->triples_len, room, a->far_first,
             a->far_second, state->phase, state->gate);
    lend(0, a->circuit, a->circuit_len, 1);
    lend(1, a->shares, a->shares_len, 1);
    lend(2, a->triples, a->triples_len, 1);
    lend(3, NULL, room, 1);
    mine = expander_circuit_step(a->role, LIBRARY(0, uint8_t), a->circuit_len, LIBRARY(1, uint8_t),
                                 a->shares_len, LIBRARY(2, uint8_t), a->triples_len,
                                 LIBRARY(3, uint8_t), room, a->far_first, a->far_second, *state);
    plain = plain_circuit_step(a->role, PLAIN(0, uint8_t), a->circuit_len, PLAIN(1, uint8_t),
                               a->shares_len, PLAIN(2, uint8_t), a->triples_len, PLAIN(3, uint8_t),
                               room, a->far_first, a->far_second, *state);
    same = mine.number == plain.number && mine.written == plain.written
        && mine.first_bit == plain.first_bit && mine.second_bit == plain.second_bit;
    if (!same)
        complain("returned %u, %zu, bits %u %u; the plain implementation %u, %zu, bits %u %u",
                 mine.number, mine.written, mine.first_bit, mine.second_bit, plain.number,
                 plain.written, plain.first_bit, plain.second_bit);
    else if (!same_run(&mine.state, &plain.state)) {
        complain("number %u: state in phase %u at gate %u; the plain implementation's in phase %u "
                 "at gate %u, or with other wires", mine.number, mine.state.phase, mine.state.gate,
                 plain.state.phase, plain.state.gate);
        same = 0;
    }
    settle_lent(CIRCUIT_STEP, same, plain.number, 3, 1, plain.written, 0);
    keep(out, 3, plain.written);
    EXPECT(mine.number == 0
           || (mine.written == 0 && mine.first_bit == 0 && mine.second_bit == 0
               && same_run(&mine.state, state)));
    return mine;
}

/* ---- Runs by both ends ---- */

/* A refused step in the middle of a run, on the run's own state: it changes nothing. */
static void refused_step(const struct asked *a, const run *state)
{
    struct asked odd = *a;
    size_t room = made.c.outputs;
    uint32_t number = 0;
    switch (random_below(6)) {
    case 0:
        odd.role = (uint8_t)(random_below(2) ? 0 : 3 + random_below(253));
        number = 9;
        break;
    case 1:
        odd.circuit_len--;
        number = 10;
        break;
    case 2:
        odd.shares_len--;
        number = 3;
        break;
    case 3:
        room--;
        number = 13;
        break;
    case 4:
        if (state->phase != WAITS)
            return;
        odd.far_second = 2;
        number = 8;
        break;
    case 5:
        if (made.ands == 0)
            return;
        odd.triples_len = 3 * (size_t)made.ands - 3;
        number = 18;
        break;
    }
    EXPECT(try_step(&odd, room, state, NULL).number == number);
}

/* Run the circuit at both ends on random inputs, with refused steps among the others if wanted. */
static void run_both(int refused)
{
    static uint8_t shares[2][WIRES], inputs[WIRES], value[OUTPUTS], outputs[2][OUTPUTS],
        again[OUTPUTS];
    static run states[2];
    static stepped now[2], last;
    struct asked a[2];
    size_t first = random_below(PAIRING_MOST - made.ands + 1), n = made.c.outputs, spare;
    for (int end = 0; end < 2; end++) {
        random_bits(shares[end], made.c.inputs);
        states[end] = fresh;
        spare = PAIRING_MOST - first - made.ands; /* lengths may differ at the ends */
        spare = random_below(spare < 5 ? spare + 1 : 5);
        a[end] = (struct asked){(uint8_t)(end + 1), 0, 0, made.bytes, shares[end],
                                triples[end] + 3 * first, made.len, made.c.inputs,
                                3 * (made.ands + spare)};
        a[end].far_first = (uint8_t)random_word();
        a[end].far_second = (uint8_t)random_word();
    }
    for (size_t k = 0; k < made.c.inputs; k++)
        inputs[k] = shares[0][k] ^ shares[1][k];
    plain_circuit_value(&made.c, inputs, value);
    for (uint32_t step = 0; step <= made.ands; step++) {
        for (int end = 0; end < 2; end++) {
            if (refused && random_below(3) == 0)
                refused_step(&a[end], &states[end]);
            now[end] = try_step(&a[end], n + random_extra(9), &states[end], outputs[end]);
            EXPECT(now[end].number == 0);
            EXPECT(step == 0 || now[end].state.gate > states[end].gate);
            EXPECT(now[end].state.phase == (step < made.ands ? WAITS : FINISHED));
            EXPECT(now[end].written == (step < made.ands ? 0 : n));
            EXPECT(now[end].first_bit <= 1 && now[end].second_bit <= 1);
            states[end] = now[end].state;
        }
        for (int end = 0; end < 2; end++) {
            a[end].far_first = now[1 - end].first_bit;
            a[end].far_second = now[1 - end].second_bit;
        }
    }
    for (size_t k = 0; k < n; k++)
        EXPECT(outputs[0][k] <= 1 && outputs[1][k] <= 1
               && (outputs[0][k] ^ outputs[1][k]) == value[k]);
    for (int end = 0; end < 2; end++) { /* a finished run gives its outputs again */
        a[end].far_first = (uint8_t)random_word();
        a[end].far_second = (uint8_t)random_word();
        last = try_step(&a[end], n, &states[end], again);
        EXPECT(last.number == 0 && last.written == n && same_run(&last.state, &states[end]));
        EXPECT(memcmp(again, outputs[end], n) == 0);
    }
}

static void runs(void)
{
    const struct {
        uint32_t inputs, gates, outputs;
        size_t percent;
    } edges[] = {{1, 0, 1, 0}, {1, 1, 1, 100}, {1, 1, 1, 0}, {2, 1, 3, 100}, {4096, 0, 4096, 0},
                 {4095, 1, 4096, 100}, {1, 4095, 4096, 2}, {1, 4095, 1, 0}, {128, 128, 128, 30},
                 {96, 4000, 64, 8}};
    for (size_t k = 0; k < sizeof edges / sizeof *edges; k++) {
        make_circuit(edges[k].inputs, edges[k].gates, edges[k].outputs, edges[k].percent);
        run_both(1);
    }
    for (int round = 0; round < 400; round++) {
        uint32_t inputs = 1 + (uint32_t)random_below(random_below(4) ? 6 : 40);
        uint32_t gates = (uint32_t)random_below(random_below(4) ? 12 : 60);
        uint32_t count = 1 + (uint32_t)random_below(9);
        make_circuit(inputs, gates, count, (size_t[]){0, 20, 50, 100}[random_below(4)]);
        run_both(1);
    }
    make_circuit(1, 4095, 5, 25);
    run_both(0);
}

/* Each kind of gate on every share and far bit and triple. */
static void every_bit(void)
{
    for (int set = 0; set < 1 << 10; set++) {
        uint8_t shares[2] = {set & 1, set >> 1 & 1}, out[1];
        uint8_t triple[3] = {set >> 2 & 1, set >> 3 & 1, set >> 4 & 1};
        uint8_t d, e;
        struct asked a = {(uint8_t)(1 + (set >> 5 & 1)), set >> 6 & 1, set >> 7 & 1, made.bytes,
                          shares, triple, 0, 2, 3};
        stepped r;
        made.c.inputs = 2;
        made.c.gates = 1;
        made.c.outputs = 1;
        made.c.output[0] = 2;
        made.c.gate[0].kind = AND;
        made.c.gate[0].a = set >> 8 & 1;
        made.c.gate[0].b = set >> 9 & 1;
        write_circuit();
        a.circuit_len = made.len;
        r = try_step(&a, 1, &fresh, NULL);
        EXPECT(r.first_bit == (shares[made.c.gate[0].a] ^ triple[0]));
        EXPECT(r.second_bit == (shares[made.c.gate[0].b] ^ triple[1]));
        d = r.first_bit ^ a.far_first;
        e = r.second_bit ^ a.far_second;
        r = try_step(&a, 1, &r.state, out);
        EXPECT(out[0] == (triple[2] ^ (d & triple[1]) ^ (e & triple[0])
                          ^ (a.role == 1 ? d & e : 0)));
    }
}

/* ---- Faults in the circuit ---- */

static uint8_t bits[WIRES + 3 * WIRES], finished_bits[OUTPUTS];

/* Lend a circuit on a fresh state, with as many shares as it was made with. */
static uint32_t try_raw(void)
{
    const struct asked a = {(uint8_t)(1 + random_below(2)), 0, 1, raw, bits, bits + WIRES, raw_len,
                            made.c.inputs, 3 * (size_t)made.ands};
    return try_step(&a, made.c.outputs, &fresh, finished_bits).number;
}

/* ---- Faults beside the circuit ---- */

/* A state in a phase from 0 to 2 that is admitted, or one that gives 17: phase 1 at no AND of the
 * circuit, or a phase above 2. */
static run some_state(int which, uint32_t an_and, uint32_t no_and)
{
    run s = fresh;
    random_bits(s.wires, made.c.inputs + made.c.gates);
    s.phase = (uint32_t[]){FRESH, WAITS, FINISHED, WAITS, WAITS, WAITS, 3, UINT32_MAX}[which];
    s.gate = (uint32_t[]){0, an_and, made.c.gates, no_and, made.c.gates, UINT32_MAX, an_and,
                          an_and}[which];
    return s;
}

/* Every set of faults in a step of a small circuit: exclusive or, AND, NOT, AND, with three inputs
 * and two outputs. The number is that of the first test that fails. */
static void refusals(void)
{
    enum { INPUTS = 3, TRIPLES = 2 };
    uint8_t shares[INPUTS + 1], triple_bits[3 * TRIPLES + 4];
    made.c.inputs = INPUTS;
    made.c.gates = 4;
    made.c.outputs = 2;
    made.c.gate[0] = (struct plain_gate){XOR, 0, 1};
    made.c.gate[1] = (struct plain_gate){AND, 2, 3};
    made.c.gate[2] = (struct plain_gate){NOT, 4, 0};
    made.c.gate[3] = (struct plain_gate){AND, 5, 1};
    made.c.output[0] = 6;
    made.c.output[1] = 4;
    write_circuit();
    for (int set = 0; set < 8 * 4 * 3 * 5 * 3 * 3 * 3 * 3; set++) {
        int which = set % 8, rest = set / 8;
        uint32_t two = 2 * (uint32_t)random_below(2); /* ANDs are gates 1 and 3 */
        run state = some_state(which, 1 + two, two);
        uint8_t role = (uint8_t[]){1, 2, 0, 3}[rest % 4];
        size_t shares_len = (size_t[]){INPUTS, INPUTS + 1, INPUTS - 1}[rest / 4 % 3];
        size_t triples_len = (size_t[]){6, 9, 3, 7, 5}[rest / 12 % 5];
        size_t room = (size_t[]){2, 1, 0}[rest / 60 % 3];
        int bad_share = rest / 180 % 3, bad_triple = rest / 540 % 3, bad_far = rest / 1620 % 3;
        uint8_t far_first = bad_far == 1 ? 2 : random_word() & 1;
        uint8_t far_second = bad_far == 2 ? 0xff : random_word() & 1;
        struct asked a = {role, far_first, far_second, made.bytes, shares, triple_bits, made.len,
                          shares_len, triples_len};
        uint32_t number;
        random_bits(shares, sizeof shares);
        random_bits(triple_bits, sizeof triple_bits);
        if (bad_share)
            shares[bad_share == 1 ? 0 : shares_len - 1] = bad_share == 1 ? 2 : 0x80;
        if (bad_triple)
            triple_bits[bad_triple == 1 ? 0 : triples_len - 1] = bad_triple == 1 ? 2 : 0xff;
        number = shares_len != INPUTS || triples_len % 3 != 0 ? 3
               : room < 2 ? 13
               : bad_share || bad_triple || (bad_far && state.phase == WAITS) ? 8
               : triples_len < 6 ? 18
               : which > 2 ? 17
               : role < 1 || role > 2 ? 9 : 0;
        EXPECT(try_step(&a, room, &state, NULL).number == number);
        if (set % 7 == 0) { /* a fault in the circuit comes before all of these */
            a.circuit_len--;
            EXPECT(try_step(&a, room, &state, NULL).number == 10);
            a.circuit_len += 2;
            EXPECT(try_step(&a, room, &state, NULL).number == 12);
        }
    }
    /* State and role come last, in this order; far bits are tested in phase 1, at an AND or not. */
    random_bits(shares, sizeof shares);
    random_bits(triple_bits, sizeof triple_bits);
    for (int k = 0; k < 6; k++) {
        static const struct {
            uint8_t role, far;
            uint32_t phase, gate;
            size_t shares_len;
            uint32_t number;
        } tries[6] = {{0, 0, FRESH, 0, INPUTS + 1, 3}, {1, 2, WAITS, 0, INPUTS, 8},
                      {1, 0, WAITS, 0, INPUTS, 17},    {1, 2, 3, 1, INPUTS, 17},
                      {0, 0, 3, 1, INPUTS, 17},        {0, 2, FRESH, 0, INPUTS, 9}};
        struct asked a = {tries[k].role, tries[k].far, 0, made.bytes, shares, triple_bits, made.len,
                          tries[k].shares_len, 3 * TRIPLES};
        run state = fresh;
        state.phase = tries[k].phase;
        state.gate = tries[k].gate;
        EXPECT(try_step(&a, 2, &state, NULL).number == tries[k].number);
    }
}

/* A step on any state: any bytes in the wires, any gate, a phase from 0 to 4. */
static void any_state(void)
{
    static run state;
    struct asked a = {(uint8_t)(1 + random_below(2)), 0, 0, made.bytes, bits, bits + WIRES, made.len,
                      made.c.inputs, 3 * (size_t)made.ands};
    a.far_first = random_word() & 1;
    a.far_second = random_word() & 1;
    random_bits(bits, a.shares_len);
    random_bits(bits + WIRES, a.triples_len);
    random_bytes(&state, sizeof state);
    state.phase = (uint32_t)random_below(random_below(8) ? 3 : 5);
    if (random_below(8))
        state.gate = random_below(2) ? (uint32_t)random_below(made.c.gates + 1)
                                     : some_wire(made.c.gates + 1);
    try_step(&a, made.c.outputs, &state, NULL);
}

static void any_states(void)
{
    for (int round = 0; round < 1000; round++) {
        uint32_t inputs = 1 + (uint32_t)random_below(8), gates = (uint32_t)random_below(30);
        uint32_t count = 1 + (uint32_t)random_below(9);
        make_circuit(inputs, gates, count, (size_t[]){20, 50, 100}[random_below(3)]);
        for (int k = 0; k < 8; k++)
            any_state();
    }
    make_circuit(1, 4095, 4096, 100); /* the most ANDs that a circuit can have */
    for (int k = 0; k < 400; k++)
        any_state();
}

int main(void)
{
    begin(calls, CALLS);
    make_triples();
    every_bit();
    runs();
    random_bits(bits, sizeof bits);
    for (int round = 0; round < 40; round++) {
        uint32_t inputs = 1 + (uint32_t)random_below(round < 30 ? 5 : 300);
        uint32_t gates = (uint32_t)random_below(9);
        make_circuit(inputs, gates, 1 + (uint32_t)random_below(4), 40);
        damaged_circuits(try_raw, 0);
    }
    sizes_at_bounds(try_raw);
    refusals();
    any_states();
    return finish();
}
