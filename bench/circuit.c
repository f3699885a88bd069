/* One end's runs of circuits of 4,000 ANDs, in steps and in rounds, by the library and by the plain
 * implementation in turn, and in rounds and in steps by the library: times, their ratios, and the
 * deepest stack. Ends with status 1 if a round does not stay below its limit.
 */
#define _GNU_SOURCE
#include "dealing.h"
#include "expander.h"
#include "pairs.h"
#include "plain.h"
#include "plain_circuit.h"
#include "plain_round.h"
#include "stack.h"

#include <stdio.h>
#include <string.h>

enum { ANDS = 4000, INPUTS = EXPANDER_WIRES_MAX - ANDS, OUTPUTS = 64 };
enum { LAYERS = 40, LAYER = ANDS / LAYERS, ROUND_STACK_LIMIT = 24 * 1024 };

static uint8_t circuit[3 * (3 + 3 * ANDS + OUTPUTS)];
static size_t circuit_len;
static uint8_t shares[INPUTS], triples[3 * ANDS], far_bits[2][ANDS + 1], outputs[2][OUTPUTS];
static size_t rounds_made;

static void fail(const char *what, size_t number)
{
    fprintf(stderr, "bench: %s (%zu)\n", what, number);
    exit(1);
}

static void put(size_t number)
{
    circuit_len += plain_write_number(circuit + circuit_len, (uint32_t)number);
}

/* Which wires an AND has: any before it, two of the layer before, or the AND before and any. */
enum shape { ANY, IN_LAYERS, IN_A_CHAIN };

static void put_wires(enum shape shape, size_t gate)
{
    size_t before = INPUTS + gate, layer = gate / LAYER;
    size_t from = INPUTS + LAYER * (layer - 1), count = LAYER;
    if (shape == IN_A_CHAIN && gate > 0) {
        put(before - 1);
        put(random_below(before));
        return;
    }
    if (shape != IN_LAYERS || layer == 0) {
        from = 0;
        count = shape == ANY ? before : INPUTS;
    }
    put(from + random_below(count));
    put(from + random_below(count));
}

static void make_circuit(enum shape shape)
{
    circuit_len = 0;
    put(INPUTS);
    put(ANDS);
    put(OUTPUTS);
    for (size_t g = 0; g < ANDS; g++) {
        put(EXPANDER_GATE_AND);
        put_wires(shape, g);
    }
    for (size_t k = 0; k < OUTPUTS; k++)
        put(INPUTS + ANDS - 1 - k);
}

static void random_bits(uint8_t *bits, size_t count)
{
    for (size_t k = 0; k < count; k++)
        bits[k] = random_word() & 1;
}

/* A whole run in steps by the library (0) or the plain implementation (1). The far bits are any: what
 * they are does not change the work. */
static void run_steps(int who)
{
    static struct expander_stepped r;
    memset(&r, 0, sizeof r);
    for (size_t step = 0; step <= ANDS; step++) {
        r = (who == 0 ? expander_circuit_step : plain_circuit_step)(
            EXPANDER_ROLE_NOISE, circuit, circuit_len, shares, sizeof shares, triples,
            sizeof triples, outputs[who], OUTPUTS, far_bits[0][step], far_bits[1][step], r.state);
        if (r.number != EXPANDER_ACCEPTED)
            fail("a step was refused", r.number);
    }
    if (r.state.phase != EXPANDER_RUN_FINISHED)
        fail("the run in steps is not finished", r.state.phase);
}

/* A whole run in rounds, likewise. */
static void run_rounds(int who)
{
    static struct expander_rounded r;
    static uint8_t bits[2 * ANDS];
    memset(&r, 0, sizeof r);
    rounds_made = 0;
    do {
        r = (who == 0 ? expander_circuit_round : plain_circuit_round)(
            EXPANDER_ROLE_NOISE, circuit, circuit_len, shares, sizeof shares, triples,
            sizeof triples, outputs[who], OUTPUTS, far_bits[0], r.bits_written, bits, sizeof bits,
            r.state);
        if (r.number != EXPANDER_ACCEPTED)
            fail("a round was refused", r.number);
        rounds_made++;
    } while (r.bits_written > 0);
}

/* Both by the library: rounds (0) and steps (1). */
static void run_either(int who)
{
    if (who == 0)
        run_rounds(0);
    else
        run_steps(0);
}

static struct pairs run_both(void (*run)(int who))
{
    struct pairs r = run_pairs(run);
    if (memcmp(outputs[0], outputs[1], OUTPUTS) != 0)
        fail("the outputs differ", 0);
    return r;
}

static void time_rounds(enum shape shape, const char *name, size_t rounds, const char *limit)
{
    struct pairs r;
    make_circuit(shape);
    if (expander_describe_circuit(circuit, circuit_len).rounds != rounds)
        fail("the circuit is said to have other rounds", rounds);
    r = run_both(run_rounds);
    if (rounds_made != rounds)
        fail("the run has other rounds", rounds_made);
    printf("circuit of %d ANDs %s, %zu rounds at one end: library %.2f ms, plain %.2f ms, ratio %.2f "
           "(at most 1; %d of %d pairs)\n",
           ANDS, name, rounds, r.library, r.plain, r.ratio, r.taken, r.all);
    r = run_pairs(run_either);
    printf("    beside steps, both by the library: rounds %.2f ms, steps %.2f ms, ratio %.4f%s\n",
           r.library, r.plain, r.ratio, limit);
}

int main(void)
{
    struct pairs r;
    size_t empty, step, round;
    random_bits(shares, sizeof shares);
    random_bits(triples, sizeof triples);
    random_bits(far_bits[0], sizeof far_bits);
    make_circuit(ANY);
    r = run_both(run_steps);
    printf("circuit of %d ANDs, a run at one end: library %.1f ms, plain %.1f ms, ratio %.2f "
           "(medians of processor time, %d of %d pairs)\n",
           ANDS, r.library, r.plain, r.ratio, r.taken, r.all);
    time_rounds(IN_LAYERS, "in 40 layers", LAYERS + 1, " (at most 0.05)");
    time_rounds(IN_A_CHAIN, "in a chain", ANDS + 1, "");
    empty = stack_touched(NULL, 0);
    step = stack_touched(run_steps, 0) - empty;
    round = stack_touched(run_rounds, 0) - empty;
    printf("deepest stack, states by value and the loop around the call included: a step, library %zu "
           "bytes, plain %zu bytes; a round, library %zu bytes (below %d), plain %zu bytes\n",
           step, stack_touched(run_steps, 1) - empty, round, ROUND_STACK_LIMIT,
           stack_touched(run_rounds, 1) - empty);
    if (round >= ROUND_STACK_LIMIT)
        fail("the stack of a round is not below its limit", round);
    return 0;
}
