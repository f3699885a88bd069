/* Prints the test vectors of docs/CONSTRUCTION.md, computed by the library's calls. What a call does
 * not return is had from calls that do: a tree's leaves are the differences of the accumulated w of
 * a dealing with one tree, and a row's places and coefficients are the outputs of vectors that are
 * zero but at one place.
 */
#include "expander.h"

#include <stdio.h>
#include <stdlib.h>
#include <string.h>

enum { DEPTH = 4, BRANCH_BITS = 2, N = 1 << DEPTH, TREES = 2, TERMS = 3, OUTPUTS = 4 };

static const uint32_t positions[TREES] = {3, 13};
static uint8_t roots[16 * TREES], code_key[16], label[16], delta[2][16];
static const uint64_t values[2][TREES] = {{1, 1}, {5, EXPANDER_MODULUS - 2}};
static uint8_t noise_record[EXPANDER_NOISE_RECORD_MAX], scalar_record[EXPANDER_SCALAR_RECORD_MAX];
static size_t noise_len, scalar_len;

static void accepted(uint32_t number)
{
    if (number != EXPANDER_ACCEPTED) {
        fprintf(stderr, "vectors: a call was refused with %u\n", number);
        exit(1);
    }
}

static void rising(uint8_t *to, size_t count, uint8_t first)
{
    for (size_t k = 0; k < count; k++)
        to[k] = (uint8_t)(first + k);
}

static void deal(unsigned field, size_t depth, size_t branch_bits, size_t trees, size_t terms,
                 size_t outputs)
{
    struct expander_two_lengths r = expander_deal(
        (uint8_t)field, depth, branch_bits, trees, terms, outputs, roots, 16 * trees, positions,
        trees, values[field - 1], trees, delta[field - 1], 16, code_key, 16, label, 16,
        noise_record, sizeof noise_record, scalar_record, sizeof scalar_record);
    accepted(r.number);
    noise_len = r.first_written;
    scalar_len = r.second_written;
}

/* ---- Printing ---- */

static void hex(const uint8_t *bytes, size_t count)
{
    for (size_t k = 0; k < count; k++)
        printf("%s%02X", k > 0 ? " " : "", bytes[k]);
}

/* Words as bytes, each least byte first. */
static void hex_words(const uint64_t *words, size_t count)
{
    for (size_t k = 0; k < count; k++) {
        uint8_t bytes[8];
        for (int b = 0; b < 8; b++)
            bytes[b] = (uint8_t)(words[k] >> 8 * b);
        printf("%s", k > 0 ? " " : "");
        hex(bytes, 8);
    }
}

static void elements(const char *name, const uint64_t *words, size_t count, size_t width)
{
    for (size_t j = 0; j < count; j++) {
        printf("    %s %2zu  ", name, j);
        hex_words(words + width * j, width);
        putchar('\n');
    }
}

static size_t at; /* the place in the record that is printed */

static void line(const uint8_t *record, size_t count, const char *name)
{
    printf("    %4zu  ", at);
    hex(record + at, count);
    if (name[0] != '\0')
        printf("%*s  %s", (int)(3 * (16 - count)), "", name);
    putchar('\n');
    at += count;
}

static void head(const uint8_t *record)
{
    at = 0;
    line(record, 1, "end");
    line(record, 1, "field");
    line(record, 5, "d, g, t, ℓ, n");
    line(record, 16, "code key");
    line(record, 16, "label");
}

/* ---- Trees ---- */

/* The leaves of root 0, words of W each: what accumulating added at each place. */
static void leaves(unsigned field, size_t depth, size_t branch_bits, uint64_t *words)
{
    size_t width = field == EXPANDER_BINARY ? 2 : 1, count = ((size_t)1 << depth) * width;
    uint64_t delta_out[2];
    deal(field, depth, branch_bits, 1, 1, 1);
    accepted(expander_scalar_offline(scalar_record, scalar_len, words, count, delta_out, 2).number);
    for (size_t k = count; k-- > width;)
        words[k] = field == EXPANDER_BINARY ? words[k] ^ words[k - width]
                   : words[k] >= words[k - 1] ? words[k] - words[k - 1]
                                              : words[k] + EXPANDER_MODULUS - words[k - 1];
}

static void print_trees(void)
{
    static uint64_t words[2 * N];
    printf("### Trees\n\nThe eight children of root 0, that is the block 10 11 .. 1F:\n\n");
    leaves(EXPANDER_BINARY, 3, 3, words);
    elements("child", words, 8, 2);
    printf("\nThe leaves of root 0 with d = 4 and g = 2, as blocks, the elements of field 1:\n\n");
    leaves(EXPANDER_BINARY, DEPTH, BRANCH_BITS, words);
    elements("leaf", words, N, 2);
    printf("\nThe same leaves as elements of field 2:\n\n");
    leaves(EXPANDER_PRIME, DEPTH, BRANCH_BITS, words);
    elements("leaf", words, N, 1);
    printf("\nLeaf 3 has digits 0 and 3, leaf 13 has digits 3 and 1.\n");
}

/* ---- A dealing ---- */

static void print_noise_record(unsigned field)
{
    size_t per_level = ((size_t)1 << BRANCH_BITS) - 1, levels = DEPTH / BRANCH_BITS;
    printf("\nNoise record, %zu bytes:\n\n", noise_len);
    head(noise_record);
    for (size_t i = 0; i < TREES; i++) {
        char name[80];
        sprintf(name, "tree %zu: position %u%s", i, (unsigned)positions[i],
                i == 0 ? "" : ", as its difference from the one before, less 1");
        line(noise_record, 1, name);
        if (field == EXPANDER_PRIME)
            line(noise_record, 8, i == 0 ? "noise value 5" : "noise value p − 2");
        line(noise_record, field == EXPANDER_BINARY ? 16 : 8, "correction");
        for (size_t level = 0; level < levels; level++)
            for (size_t k = 0; k < per_level; k++) {
                size_t digit = positions[i] >> (DEPTH - BRANCH_BITS * (level + 1))
                               & (((size_t)1 << BRANCH_BITS) - 1);
                sprintf(name, "level %zu, child %zu", level, k < digit ? k : k + 1);
                line(noise_record, 16, name);
            }
    }
}

static void print_scalar_record(unsigned field)
{
    printf("\nScalar record, %zu bytes:\n\n", scalar_len);
    head(scalar_record);
    line(scalar_record, field == EXPANDER_BINARY ? 16 : 8, "Δ");
    for (size_t i = 0; i < TREES; i++)
        line(scalar_record, 16, i == 0 ? "root 0" : "root 1");
}

/* Each row's places, and in field 2 its coefficients, lowest place first: place i is term i's. */
static void print_rows(unsigned field, size_t width)
{
    printf("\nRows; place i and coefficient i are term i's:\n\n");
    for (size_t x = 0; x < OUTPUTS; x++) {
        uint64_t coefficients[TERMS];
        size_t met = 0;
        printf("    row %zu  places", x);
        for (size_t place = 0; place < N; place++) {
            uint64_t w[2 * N] = {0}, w_out[2];
            w[width * place] = 1;
            accepted(expander_scalar_online(scalar_record, scalar_len, w, width * N, x, 1, w_out,
                                            width).number);
            if (w_out[0] == 0)
                continue;
            if (met == TERMS) {
                fprintf(stderr, "vectors: row %zu has more places than terms\n", x);
                exit(1);
            }
            coefficients[met++] = w_out[0];
            printf(" %zu", place);
        }
        putchar('\n');
        for (size_t i = 0; field == EXPANDER_PRIME && i < met; i++) {
            printf("           coefficient %zu  ", i);
            hex_words(coefficients + i, 1);
            putchar('\n');
        }
    }
}

static void print_pads(const uint64_t *u, const uint64_t *v, const uint64_t *w)
{
    uint8_t noise_pads[16 * OUTPUTS], scalar_pads[32 * OUTPUTS], choices[OUTPUTS];
    uint8_t v_bytes[16 * OUTPUTS], w_bytes[16 * OUTPUTS];
    for (size_t k = 0; k < OUTPUTS; k++)
        choices[k] = (uint8_t)u[k];
    for (size_t k = 0; k < 16 * OUTPUTS; k++) {
        v_bytes[k] = (uint8_t)(v[k / 8] >> 8 * (k % 8));
        w_bytes[k] = (uint8_t)(w[k / 8] >> 8 * (k % 8));
    }
    accepted(expander_noise_pads(0, OUTPUTS, v_bytes, sizeof v_bytes, choices, OUTPUTS, noise_pads,
                                 sizeof noise_pads));
    accepted(expander_scalar_pads(0, OUTPUTS, w_bytes, sizeof w_bytes, delta[0], 16, scalar_pads,
                                  sizeof scalar_pads));
    printf("\nPads of those outputs:\n\n");
    for (size_t k = 0; k < OUTPUTS; k++) {
        printf("    index %zu  noise end: pad of v      ", k);
        hex(noise_pads + 16 * k, 16);
        printf("\n             scalar end: message 0   ");
        hex(scalar_pads + 32 * k, 16);
        printf("\n             scalar end: message 1   ");
        hex(scalar_pads + 32 * k + 16, 16);
        putchar('\n');
    }
}

static void print_dealing(unsigned field)
{
    size_t width = field == EXPANDER_BINARY ? 2 : 1;
    uint64_t noise[N], v[2 * N], w[2 * N], delta_out[2];
    uint64_t u_out[OUTPUTS], v_out[2 * OUTPUTS], w_out[2 * OUTPUTS];
    deal(field, DEPTH, BRANCH_BITS, TREES, TERMS, OUTPUTS);
    printf("\n### Field %u\n", field);
    print_noise_record(field);
    print_scalar_record(field);
    accepted(expander_noise_offline(noise_record, noise_len, noise, N, v, width * N).number);
    accepted(expander_scalar_offline(scalar_record, scalar_len, w, width * N, delta_out,
                                     2).number);
    printf("\nThe noise end's accumulated μ, and its accumulated v0:\n\n");
    elements("μ", noise, N, 1);
    elements("v", v, N, width);
    printf("\nThe scalar end's accumulated w0, and Δ as two words:\n\n");
    elements("w", w, N, width);
    printf("    Δ     ");
    hex_words(delta_out, 2);
    putchar('\n');
    print_rows(field, width);
    accepted(expander_noise_online(noise_record, noise_len, noise, N, v, width * N, 0, OUTPUTS,
                                   u_out, OUTPUTS, v_out, width * OUTPUTS).number);
    accepted(expander_scalar_online(scalar_record, scalar_len, w, width * N, 0, OUTPUTS, w_out,
                                    width * OUTPUTS).number);
    printf("\nOutputs:\n\n");
    elements("u", u_out, OUTPUTS, 1);
    elements("v", v_out, OUTPUTS, width);
    elements("w", w_out, OUTPUTS, width);
    if (field == EXPANDER_BINARY)
        print_pads(u_out, v_out, w_out);
}

/* ---- A circuit in rounds ---- */

enum { INPUTS = 3, GATES = 5, RESULTS = 2, ANDS = 3, ENDS = 2 };

static const uint8_t circuit[] = {
    INPUTS, GATES, RESULTS,
    EXPANDER_GATE_AND, 0, 1, /* 3 */
    EXPANDER_GATE_NOT, 3,    /* 4 */
    EXPANDER_GATE_AND, 4, 2, /* 5 */
    EXPANDER_GATE_XOR, 0, 2, /* 6 */
    EXPANDER_GATE_AND, 6, 1, /* 7 */
    5, 7,                    /* the outputs */
};
static const uint8_t shares[ENDS][INPUTS] = {{1, 0, 1}, {0, 1, 1}};
static const uint8_t triples[ENDS][3 * ANDS] = {{1, 0, 1, 0, 1, 1, 1, 1, 0},
                                                {0, 1, 0, 1, 1, 1, 1, 0, 0}};

static void bits_line(const char *before, const uint8_t *bits, size_t count)
{
    printf("%s", before);
    for (size_t k = 0; k < count; k++)
        printf(" %u", bits[k]);
}

/* A round of both ends, on the bits that the other's round before wrote; how many each writes. */
static size_t print_round(size_t round, struct expander_rounded last[ENDS],
                          uint8_t bits[ENDS][2 * ANDS], uint8_t results[ENDS][RESULTS])
{
    uint8_t far_bits[ENDS][2 * ANDS];
    for (int end = 0; end < ENDS; end++)
        memcpy(far_bits[end], bits[1 - end], sizeof far_bits[end]);
    for (int end = 0; end < ENDS; end++) {
        last[end] = expander_circuit_round(
            (uint8_t)(end + 1), circuit, sizeof circuit, shares[end], INPUTS, triples[end],
            3 * ANDS, results[end], RESULTS, far_bits[end], last[end].bits_written, bits[end],
            2 * ANDS, last[end].state);
        accepted(last[end].number);
        printf("    round %zu  role %d", round, end + 1);
        bits_line("  state", last[end].state.wires, INPUTS + GATES);
        if (last[end].bits_written > 0)
            bits_line("  sends", bits[end], last[end].bits_written);
        else
            bits_line("  outputs", results[end], RESULTS);
        putchar('\n');
    }
    return last[0].bits_written;
}

static void print_rounds(void)
{
    static struct expander_rounded last[ENDS]; /* zero at first: fresh states, no bits */
    uint8_t bits[ENDS][2 * ANDS] = {{0}}, results[ENDS][RESULTS];
    struct expander_described_circuit d = expander_describe_circuit(circuit, sizeof circuit);
    accepted(d.number);
    printf("\n### A circuit in rounds\n\n    circuit  ");
    hex(circuit, sizeof circuit);
    printf("\n    inputs %zu, gates %zu, outputs %zu, ANDs %zu, rounds %zu\n", d.inputs, d.gates,
           d.outputs, d.ands, d.rounds);
    for (int end = 0; end < ENDS; end++) {
        printf("    role %d", end + 1);
        bits_line("  shares", shares[end], INPUTS);
        bits_line("  triples", triples[end], 3 * ANDS);
        putchar('\n');
    }
    putchar('\n');
    for (size_t round = 0; print_round(round, last, bits, results) > 0; round++)
        ;
    printf("\nWires 3, 5 and 7 are the ANDs, of levels 1, 2 and 1. So the first round opens wires 3 and "
           "7, with triples 0 and 2, and the second wire 5, with triple 1.\n");
}

int main(void)
{
    rising(code_key, 16, 0x00);
    rising(roots, sizeof roots, 0x10);
    rising(delta[0], 16, 0xa0);
    rising(label, 16, 0xf0);
    delta[1][0] = 3;
    print_trees();
    print_dealing(EXPANDER_BINARY);
    print_dealing(EXPANDER_PRIME);
    print_rounds();
    return 0;
}
