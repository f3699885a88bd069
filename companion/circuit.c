#include "inner.h"

#include <string.h>

LIMIT(a_wire_and_a_width_fit_their_types, EXPANDER_WIRES_MAX <= 65535 && EXPANDER_CIRCUIT_OUTPUTS_MAX <= 65535);
LIMIT(a_wire_takes_two_bytes, EXPANDER_WIRES_MAX <= 1 << 14); /* COMPANION_CIRCUIT_MAX: five bytes a gate, two an output */

static void fault(struct companion_circuit *c, uint32_t number)
{
    c->fault = c->fault == 0 ? number : c->fault;
}

void companion_input(struct companion_circuit *c, uint8_t role, companion_wire *word, size_t width)
{
    if (width == 0 || (role != COMPANION_ROLE_1 && role != COMPANION_ROLE_2 && role != COMPANION_SHARED))
        fault(c, COMPANION_BAD_WORD);
    if (c->gates > 0 || width > EXPANDER_WIRES_MAX - c->inputs)
        fault(c, c->gates > 0 ? COMPANION_LATE_INPUT : COMPANION_WIRES);
    memset(word, 0, width * sizeof *word);
    if (c->fault != 0)
        return;
    for (size_t k = 0; k < width; k++)
        word[k] = (companion_wire)c->inputs++;
    c->input_role[c->input_words] = role;
    c->input_width[c->input_words++] = (uint16_t)width;
}

void companion_output(struct companion_circuit *c, uint8_t role, const companion_wire *word, size_t width)
{
    if (width == 0 || role < COMPANION_ROLE_1 || role > COMPANION_SHARED)
        fault(c, COMPANION_BAD_WORD);
    if (width > EXPANDER_CIRCUIT_OUTPUTS_MAX - c->outputs)
        fault(c, COMPANION_OUTPUTS);
    for (size_t k = 0; c->fault == 0 && k < width; k++)
        if (word[k] >= c->inputs + c->gates)
            fault(c, COMPANION_BAD_WIRE);
    if (c->fault != 0)
        return;
    memcpy(c->output + c->outputs, word, width * sizeof *word);
    c->output_role[c->output_words] = role;
    c->output_width[c->output_words++] = (uint16_t)width;
    c->outputs += width;
}

static companion_wire gate(struct companion_circuit *c, uint8_t kind, companion_wire left, companion_wire right)
{
    size_t wire = c->inputs + c->gates;
    if (left >= wire || right >= wire)
        fault(c, COMPANION_BAD_WIRE);
    if (wire >= EXPANDER_WIRES_MAX)
        fault(c, COMPANION_WIRES);
    if (c->fault != 0)
        return 0;
    c->gate[c->gates].kind = kind;
    c->gate[c->gates].left = left;
    c->gate[c->gates++].right = right;
    return (companion_wire)wire;
}

/* The constants are made of input 0 where they are first wanted; so neither of them is wire 0. */
companion_wire companion_bit(struct companion_circuit *c, unsigned bit)
{
    if (c->zero == 0)
        c->zero = gate(c, EXPANDER_GATE_XOR, 0, 0);
    if (bit != 0 && c->one == 0)
        c->one = gate(c, EXPANDER_GATE_NOT, c->zero, c->zero);
    return bit != 0 ? c->one : c->zero;
}

/* Whether a wire is the constant. */
static int is(const struct companion_circuit *c, companion_wire wire, unsigned bit)
{
    return wire != 0 && wire == (bit != 0 ? c->one : c->zero);
}

companion_wire companion_not(struct companion_circuit *c, companion_wire of)
{
    return is(c, of, 0) || is(c, of, 1) ? companion_bit(c, is(c, of, 0) ? 1 : 0) : gate(c, EXPANDER_GATE_NOT, of, of);
}

companion_wire companion_xor(struct companion_circuit *c, companion_wire left, companion_wire right)
{
    if (is(c, left, 0) || is(c, right, 0))
        return is(c, left, 0) ? right : left;
    if (is(c, left, 1) || is(c, right, 1))
        return companion_not(c, is(c, left, 1) ? right : left);
    return gate(c, EXPANDER_GATE_XOR, left, right);
}

companion_wire companion_and(struct companion_circuit *c, companion_wire left, companion_wire right)
{
    if (is(c, left, 0) || is(c, right, 1))
        return left;
    return is(c, left, 1) || is(c, right, 0) ? right : gate(c, EXPANDER_GATE_AND, left, right);
}

/* Whether words of this width, at least 1, can be built with. */
static int fits(struct companion_circuit *c, size_t width)
{
    if (width == 0 || width > EXPANDER_WIRES_MAX)
        fault(c, COMPANION_BAD_WORD);
    return c->fault == 0;
}

void companion_constant(struct companion_circuit *c, uint64_t value, companion_wire *word, size_t width)
{
    for (size_t k = 0; k < width; k++)
        word[k] = companion_bit(c, k < 64 && (value >> k & 1) != 0);
}

/* One bit with what is below it: it carries (g) or passes a carry on (p). The parts of a sum of two words at first. */
static void parts(struct companion_circuit *c, const companion_wire *a, const companion_wire *b, size_t width,
                  companion_wire *g, companion_wire *p)
{
    for (size_t k = 0; k < width; k++) {
        g[k] = companion_and(c, a[k], b[k]);
        p[k] = companion_xor(c, a[k], b[k]);
    }
}

/* Two neighbours as one: the upper carries, or it passes on what the lower carries. */
static companion_wire carried(struct companion_circuit *c, companion_wire g, companion_wire p, companion_wire below)
{
    return companion_xor(c, g, companion_and(c, p, below));
}

/* The carries out of every bit, one after the other: c where a and b differ, a where they are equal. Ends compare circuits byte by byte:
 * no two gates are made as arguments of one call, whose order C leaves open. */
static void ripple(struct companion_circuit *c, const companion_wire *a, const companion_wire *b, size_t width, companion_wire *g)
{
    g[0] = companion_and(c, a[0], b[0]);
    for (size_t k = 1; k < width; k++) {
        companion_wire right = companion_xor(c, b[k], g[k - 1]), left = companion_xor(c, a[k], g[k - 1]);
        g[k] = companion_xor(c, g[k - 1], companion_and(c, left, right));
    }
}

/* The carries out of every bit by doubling (Sklansky): the upper half of each block takes what the whole lower half carries. */
static void flat(struct companion_circuit *c, const companion_wire *a, const companion_wire *b, size_t width, companion_wire *g)
{
    companion_wire p[EXPANDER_WIRES_MAX];
    parts(c, a, b, width, g, p);
    for (size_t half = 1; half < width; half *= 2)
        for (size_t k = half; k < width; k++)
            if (k & half) {
                size_t below = k / half * half - 1;
                g[k] = carried(c, g[k], p[k], g[below]);
                p[k] = k < 2 * half ? p[k] : companion_and(c, p[k], p[below]); /* nothing is below the first block */
            }
}

void companion_sum(struct companion_circuit *c, int form, const companion_wire *a, const companion_wire *b, size_t width,
                   companion_wire *sum)
{
    companion_wire carry[EXPANDER_WIRES_MAX];
    memset(sum, 0, (width + 1) * sizeof *sum);
    if (!fits(c, width))
        return;
    (form == COMPANION_RIPPLE ? ripple : flat)(c, a, b, width, carry);
    sum[0] = companion_xor(c, a[0], b[0]);
    for (size_t k = 1; k < width; k++)
        sum[k] = companion_xor(c, companion_xor(c, a[k], b[k]), carry[k - 1]);
    sum[width] = carry[width - 1];
}

static void invert(struct companion_circuit *c, const companion_wire *a, size_t width, companion_wire *inverted)
{
    for (size_t k = 0; k < width; k++)
        inverted[k] = companion_not(c, a[k]);
}

/* a - b is NOT (NOT a + b), and that sum carries where a is below b. */
void companion_difference(struct companion_circuit *c, int form, const companion_wire *a, const companion_wire *b,
                          size_t width, companion_wire *difference)
{
    companion_wire not_a[EXPANDER_WIRES_MAX] = {0};
    invert(c, a, fits(c, width) ? width : 0, not_a);
    companion_sum(c, form, not_a, b, width, difference); /* after a fault all is 0, and stays so */
    invert(c, difference, width, difference);
}

companion_wire companion_less(struct companion_circuit *c, int form, const companion_wire *a, const companion_wire *b,
                              size_t width)
{
    companion_wire not_a[EXPANDER_WIRES_MAX], g[EXPANDER_WIRES_MAX], p[EXPANDER_WIRES_MAX];
    if (!fits(c, width))
        return 0;
    invert(c, a, width, not_a);
    if (form == COMPANION_RIPPLE) {
        ripple(c, not_a, b, width, g);
        return g[width - 1];
    }
    parts(c, not_a, b, width, g, p);
    for (; width > 1; width = (width + 1) / 2)
        for (size_t k = 0; k < width; k += 2) {
            g[k / 2] = k + 1 < width ? carried(c, g[k + 1], p[k + 1], g[k]) : g[k];
            p[k / 2] = k + 1 < width && k > 0 ? companion_and(c, p[k + 1], p[k]) : p[k];
        }
    return g[0];
}

companion_wire companion_equal(struct companion_circuit *c, const companion_wire *a, const companion_wire *b, size_t width)
{
    companion_wire same[EXPANDER_WIRES_MAX];
    if (!fits(c, width))
        return 0;
    for (size_t k = 0; k < width; k++)
        same[k] = companion_not(c, companion_xor(c, a[k], b[k]));
    for (; width > 1; width = (width + 1) / 2)
        for (size_t k = 0; k < width; k += 2)
            same[k / 2] = k + 1 < width ? companion_and(c, same[k], same[k + 1]) : same[k];
    return same[0];
}

void companion_select(struct companion_circuit *c, companion_wire bit, const companion_wire *then,
                      const companion_wire *otherwise, size_t width, companion_wire *result)
{
    for (size_t k = 0; k < width; k++)
        result[k] = then[k] == otherwise[k] ? then[k] : carried(c, otherwise[k], bit, companion_xor(c, then[k], otherwise[k]));
}

/* Each word goes with its number's bits behind it; where these are constants they cost nothing. */
void companion_least(struct companion_circuit *c, int form, const companion_wire *words, size_t n, size_t width,
                     companion_wire *least, companion_wire *number)
{
    companion_wire kept[2 * EXPANDER_WIRES_MAX];
    size_t bits = 0, all;
    while (bits < 13 && (size_t)1 << bits < n)
        bits++;
    all = width + bits;
    memset(least, 0, width * sizeof *least);
    memset(number, 0, bits * sizeof *number);
    if (!fits(c, width) || !fits(c, n) || !fits(c, (n * all + 1) / 2))
        return;
    for (size_t k = 0; k < n; k++) {
        memcpy(kept + k * all, words + k * width, width * sizeof *kept);
        companion_constant(c, k, kept + k * all + width, bits);
    }
    for (; n > 1; n = (n + 1) / 2)
        for (size_t k = 0; k < n; k += 2) {
            companion_wire *left = kept + k * all, *right = k + 1 < n ? left + all : left;
            companion_wire less = k + 1 < n ? companion_less(c, form, right, left, width) : 0;
            companion_select(c, less, right, left, all, kept + k / 2 * all);
        }
    memcpy(least, kept, width * sizeof *kept);
    memcpy(number, kept + width, bits * sizeof *kept);
}

/* A number as in the records: seven bits a byte, lowest first, the top bit on all but the last. What is past len is counted and left out;
 * returns where the next number goes. */
static size_t put(uint8_t *bytes, size_t len, size_t at, size_t number)
{
    do {
        if (at < len)
            bytes[at] = (uint8_t)(number > 127 ? number | 128 : number);
        at++;
    } while ((number >>= 7) > 0);
    return at;
}

struct companion_status companion_write(const struct companion_circuit *c, uint8_t *bytes, size_t len, size_t *written)
{
    size_t at = put(bytes, len, put(bytes, len, put(bytes, len, 0, c->inputs), c->gates), c->outputs);
    for (size_t k = 0; k < c->gates; k++) {
        at = put(bytes, len, put(bytes, len, at, c->gate[k].kind), c->gate[k].left);
        at = c->gate[k].kind == EXPANDER_GATE_NOT ? at : put(bytes, len, at, c->gate[k].right);
    }
    for (size_t k = 0; k < c->outputs; k++)
        at = put(bytes, len, at, c->output[k]);
    *written = c->fault == 0 && at <= len ? at : 0;
    return companion_failed(c->fault != 0 ? c->fault : at > len ? COMPANION_NO_ROOM : COMPANION_DONE);
}

struct companion_status companion_count(const struct companion_circuit *c, struct expander_described_circuit *counts)
{
    uint8_t bytes[COMPANION_CIRCUIT_MAX];
    size_t len;
    struct companion_status status = companion_write(c, bytes, sizeof bytes, &len);
    memset(counts, 0, sizeof *counts);
    if (status.number == 0)
        *counts = expander_describe_circuit(bytes, len);
    NEXT(status, companion_refused("expander_describe_circuit", counts->number));
    return status;
}

struct companion_status companion_evaluate(const struct companion_circuit *c, const uint8_t *inputs, uint8_t *outputs)
{
    uint8_t wires[EXPANDER_WIRES_MAX];
    uint32_t number = c->fault;
    for (size_t k = 0; k < c->inputs; k++) {
        wires[k] = inputs[k];
        number = number == 0 && inputs[k] > 1 ? COMPANION_NOT_BITS : number;
    }
    for (size_t k = 0; k < c->gates; k++) {
        uint8_t kind = c->gate[k].kind, left = wires[c->gate[k].left], right = wires[c->gate[k].right];
        wires[c->inputs + k] = kind == EXPANDER_GATE_XOR ? left ^ right : kind == EXPANDER_GATE_AND ? left & right : left ^ 1;
    }
    for (size_t k = 0; k < c->outputs && number == 0; k++)
        outputs[k] = wires[c->output[k]];
    companion_wipe(wires, sizeof wires);
    return companion_failed(number);
}

void companion_to_bits(uint64_t number, uint8_t *bits, size_t width)
{
    for (size_t k = 0; k < width; k++)
        bits[k] = (uint8_t)(k < 64 ? number >> k & 1 : 0);
}

uint64_t companion_from_bits(const uint8_t *bits, size_t width)
{
    uint64_t number = 0;
    for (size_t k = 0; k < width && k < 64; k++)
        number |= (uint64_t)bits[k] << k;
    return number;
}
