/* The deepest stack of each call that is not timed, by the library and by the plain implementation.
 * Ends with status 1 if a call does not stay below its limit. */
#include "dealing.h"
#include "expander.h"
#include "plain.h"
#include "plain_amounts.h"
#include "plain_layers.h"
#include "plain_messages.h"
#include "plain_round.h"
#include "plain_stock.h"
#include "plain_triples.h"
#include "stack.h"

#include <stdio.h>
#include <stdlib.h>

enum { COUNT = EXPANDER_BATCH_MAX, CALLERS = EXPANDER_CALLERS_MAX };
LIMIT(a_dealing_has_its_trees, MAX_TREES >= EXPANDER_TREES_MAX && PLAIN_TREES >= EXPANDER_TREES_MAX);
LIMIT(a_number_takes_three_bytes, EXPANDER_WIRES_MAX < 1 << 21);

/* A noise record and vectors of the largest sizes, batches whose bits are all 0, and a stock of two labels. */
static uint8_t record[EXPANDER_NOISE_RECORD_MAX], other_record[EXPANDER_SCALAR_RECORD_MAX];
static size_t record_len;
static uint64_t vectors[2][2 * EXPANDER_LEAVES_MAX];
static uint8_t bits[2][COUNT], blocks[2][32 * COUNT], out[32 * COUNT];
static const uint32_t shares[CALLERS] = {1, 2, 3, 4, 5, 6, 7, 8};
static const struct expander_label first_label = {{1}}, second_label = {{2}};
static struct expander_stock stock;

/* A circuit of the most wires: one input, and ANDs each after the one before. */
static uint8_t circuit[3 * 3 * EXPANDER_WIRES_MAX];
static size_t circuit_len;

static void accepted(uint32_t number)
{
    if (number != 0) {
        fprintf(stderr, "stacks: a call was refused with %u\n", number);
        exit(1);
    }
}

static void put(size_t number)
{
    circuit_len += plain_write_number(circuit + circuit_len, (uint32_t)number);
}

static void make_circuit(void)
{
    put(1);
    put(EXPANDER_WIRES_MAX - 1);
    put(1);
    for (size_t g = 0; g < EXPANDER_WIRES_MAX - 1; g++) {
        put(EXPANDER_GATE_AND);
        put(g);
        put(g);
    }
    put(EXPANDER_WIRES_MAX - 1);
}

static void make(void)
{
    static struct dealing x;
    struct plain_result r;
    make_dealing(&x, EXPANDER_PRIME, EXPANDER_DEPTH_MAX, 1, EXPANDER_TREES_MAX, EXPANDER_TERMS_MAX,
                 EXPANDER_OUTPUTS_MAX);
    r = plain_deal(x.field, x.depth, x.branch_bits, x.trees, x.terms, x.outputs, x.roots,
                   16 * x.trees, x.positions, x.trees, x.values, x.trees, x.delta, 16, x.code_key,
                   16, x.label, 16, record, sizeof record, other_record, sizeof other_record);
    accepted(r.number);
    record_len = r.first;
    make_circuit();
    stock = plain_open_stock(first_label, EXPANDER_OUTPUTS_MAX, shares, CALLERS).stock;
}

#define DESCRIBE(prefix) prefix##_describe(record, record_len).number
#define ADD(prefix) \
    ADD_##prefix(EXPANDER_PRIME, vectors[0], 2 * EXPANDER_LEAVES_MAX, vectors[1], \
                 2 * EXPANDER_LEAVES_MAX).number
#define ADD_expander expander_add
#define ADD_plain plain_add_vector
#define CORRECTION_BITS(prefix) \
    prefix##_correction_bits(COUNT, bits[0], COUNT, bits[1], COUNT, out, COUNT).number
#define MASK_MESSAGES(prefix) \
    prefix##_mask_messages(COUNT, bits[0], COUNT, blocks[0], 32 * COUNT, blocks[1], 32 * COUNT, \
                           out, 32 * COUNT).number
#define UNMASK_MESSAGES(prefix) \
    prefix##_unmask_messages(COUNT, bits[0], COUNT, blocks[0], 16 * COUNT, blocks[1], 32 * COUNT, \
                             out, 16 * COUNT).number
#define TRIPLES(prefix) \
    prefix##_triples(bits[0], COUNT, blocks[0], 16 * COUNT, blocks[1], 32 * COUNT, out, \
                     3 * COUNT).number
#define OPEN_STOCK(prefix) \
    prefix##_open_stock(first_label, EXPANDER_OUTPUTS_MAX, shares, CALLERS).number
#define DRAW(prefix) prefix##_draw(stock, first_label, CALLERS - 1, 1).number
#define PREVIEW(prefix) prefix##_preview(stock, first_label, CALLERS - 1, 1).number
#define PASS_STOCK(prefix) \
    prefix##_pass_stock(stock, second_label, EXPANDER_OUTPUTS_MAX).number
#define READ_AMOUNT(prefix) prefix##_read_amount(EXPANDER_MODULUS - 1).number
#define DESCRIBE_CIRCUIT(prefix) prefix##_describe_circuit(circuit, circuit_len).number
#define WRITE_AMOUNT(prefix) prefix##_write_amount(-EXPANDER_AMOUNT_MAX).number
#define VERSION(of) (of##_version(VERSION_##of) != EXPANDER_VERSION_NUMBER)
#define VERSION_expander
#define VERSION_plain EXPANDER_VERSION

#define CALL(name, CALL_OF) \
    static void name(int who) \
    { \
        accepted(who == 0 ? CALL_OF(expander) : CALL_OF(plain)); \
    }

CALL(describe, DESCRIBE)
CALL(add, ADD)
CALL(correction_bits, CORRECTION_BITS)
CALL(mask_messages, MASK_MESSAGES)
CALL(unmask_messages, UNMASK_MESSAGES)
CALL(triples, TRIPLES)
CALL(open_stock, OPEN_STOCK)
CALL(draw, DRAW)
CALL(preview, PREVIEW)
CALL(pass_stock, PASS_STOCK)
CALL(read_amount, READ_AMOUNT)
CALL(write_amount, WRITE_AMOUNT)
CALL(describe_circuit, DESCRIBE_CIRCUIT)
CALL(version, VERSION)

static const struct job {
    const char *name;
    void (*call)(int who);
    size_t limit; /* 0 for none */
} jobs[] = {{"describe", describe, 0},
            {"add", add, 0},
            {"correction_bits", correction_bits, 0},
            {"mask_messages", mask_messages, 0},
            {"unmask_messages", unmask_messages, 0},
            {"triples", triples, 0},
            {"open_stock", open_stock, 0},
            {"draw", draw, 0},
            {"preview", preview, 0},
            {"pass_stock", pass_stock, 0},
            {"read_amount", read_amount, 0},
            {"write_amount", write_amount, 0},
            {"describe_circuit", describe_circuit, 32 * 1024},
            {"version", version, 0}};

int main(void)
{
    size_t empty = stack_touched(NULL, 0);
    int above = 0;
    make();
    printf("%-16s %8s %8s   deepest stack, bytes, of the other calls\n", "call", "library", "plain");
    for (size_t k = 0; k < sizeof jobs / sizeof *jobs; k++) {
        size_t library = stack_touched(jobs[k].call, 0) - empty;
        printf("%-16s %8zu %8zu", jobs[k].name, library, stack_touched(jobs[k].call, 1) - empty);
        if (jobs[k].limit > 0)
            printf("   below %zu", jobs[k].limit);
        putchar('\n');
        above |= jobs[k].limit > 0 && library >= jobs[k].limit;
    }
    if (above)
        fprintf(stderr, "stacks: the stack of a call is not below its limit\n");
    return above;
}
