#include "inner.h"

#include <stdio.h>
#include <string.h>

/* A text may number more wires than a circuit has, since EQW makes none. */
enum { NUMBERED_MAX = EXPANDER_WIRES_MAX + EXPANDER_CIRCUIT_OUTPUTS_MAX, LIST_MAX = 3 * EXPANDER_WIRES_MAX, UNMADE = 0xffff };
enum { NUMBER_MAX = 999999999 };
LIMIT(unmade_is_no_wire, NUMBERED_MAX <= UNMADE);
LIMIT(a_gate_has_room, NUMBERED_MAX <= 1000000); /* COMPANION_BRISTOL_MAX: 32 characters a gate, 11 beside its three numbers */

/* Where the reading is, its first fault, the circuit's wire for each number of the text, and a gate's numbers. */
struct reading {
    const char *at, *end;
    size_t line, wires;
    uint32_t fault;
    struct companion_circuit *circuit;
    companion_wire made[NUMBERED_MAX], list[LIST_MAX];
};

static void fail(struct reading *r, uint32_t fault)
{
    r->fault = r->fault == 0 ? fault : r->fault;
}

/* Passes over blanks; whether the line ends there. */
static int blank(struct reading *r)
{
    while (r->at < r->end && (*r->at == ' ' || *r->at == '\t' || *r->at == '\r'))
        r->at++;
    return r->at == r->end || *r->at == '\n';
}

/* To the next line that is not empty. */
static void next_line(struct reading *r)
{
    while (r->fault == 0 && blank(r) && r->at < r->end) {
        r->at++;
        r->line++;
    }
}

static void end_line(struct reading *r)
{
    if (!blank(r))
        fail(r, COMPANION_TEXT_AFTER);
    next_line(r);
}

static uint32_t take_number(struct reading *r)
{
    uint32_t number = 0;
    const char *start = blank(r) ? r->end : r->at;
    while (r->fault == 0 && r->at < r->end && *r->at >= '0' && *r->at <= '9' && number <= NUMBER_MAX / 10)
        number = 10 * number + (uint32_t)(*r->at++ - '0');
    if (r->at <= start || (r->at < r->end && (*r->at == '\0' || strchr(" \t\r\n", *r->at) == NULL)))
        fail(r, COMPANION_TEXT_NUMBER);
    return r->fault == 0 ? number : 0;
}

/* A line of values: how many, and the width of each. Returns the sum of widths. */
static size_t take_values(struct reading *r, uint16_t *widths, size_t *count, uint32_t limit)
{
    size_t sum = 0;
    *count = take_number(r);
    if (*count == 0 || *count > r->wires)
        fail(r, COMPANION_TEXT_VALUES);
    for (size_t k = 0; k < *count && r->fault == 0; k++) {
        size_t width = take_number(r);
        if (width == 0 || width > r->wires - sum)
            fail(r, COMPANION_TEXT_VALUES);
        sum += width;
        if (sum > EXPANDER_WIRES_MAX)
            fail(r, limit);
        widths[r->fault == 0 ? k : 0] = (uint16_t)width;
    }
    end_line(r);
    return sum;
}

/* The circuit's wire of a number that is read. */
static companion_wire wire_of(struct reading *r, uint32_t number)
{
    if (number >= r->wires)
        fail(r, COMPANION_TEXT_WIRE);
    else if (r->made[number] == UNMADE)
        fail(r, COMPANION_TEXT_EARLY);
    return r->fault == 0 ? r->made[number] : 0;
}

static companion_wire make(struct companion_circuit *c, const char *name, companion_wire a, companion_wire b)
{
    switch (name[0] == 'E' ? name[2] : name[0]) {
    case 'X': return companion_xor(c, a, b);
    case 'A': case 'M': return companion_and(c, a, b);
    case 'I': return companion_not(c, a);
    case 'W': return a;
    default: return companion_bit(c, a);
    }
}

/* A gate: how many wires it reads and makes, their numbers, its name. EQ reads a bit in place of a wire. */
static void take_gate(struct reading *r)
{
    static const char *const names[] = {"MAND", "INV", "EQ", "EQW", "XOR", "AND"};
    uint32_t in = take_number(r), out = take_number(r), number;
    size_t name = 0, len = 0;
    int constant;
    if (in > LIST_MAX || out > LIST_MAX - in)
        fail(r, COMPANION_WIRES);
    for (uint32_t k = 0; r->fault == 0 && k < in + out; k++)
        r->list[k] = (number = take_number(r)) < UNMADE ? (companion_wire)number : UNMADE;
    for (blank(r); r->at + len < r->end && r->at[len] >= 'A' && r->at[len] <= 'Z';)
        len++;
    while (name < 6 && (strlen(names[name]) != len || memcmp(names[name], r->at, len) != 0))
        name++;
    constant = name == 2;
    if (name == 6)
        fail(r, COMPANION_TEXT_GATE);
    else if (name == 0 ? out == 0 || in != 2 * out : out != 1 || in != (name < 4 ? 1u : 2u))
        fail(r, COMPANION_TEXT_COUNTS);
    else if (constant && r->list[0] > 1)
        fail(r, COMPANION_TEXT_NUMBER);
    for (uint32_t k = 0; r->fault == 0 && k < in && !constant; k++)
        r->list[k] = wire_of(r, r->list[k]);
    for (uint32_t k = 0; r->fault == 0 && k < out; k++) {
        companion_wire to = r->list[in + k];
        if (to >= r->wires || r->made[to] != UNMADE)
            fail(r, to >= r->wires ? COMPANION_TEXT_WIRE : COMPANION_TEXT_TWICE);
        else
            r->made[to] = make(r->circuit, names[name], r->list[k], r->list[in - out + k]);
        fail(r, r->circuit->fault);
    }
    r->at += r->fault == 0 ? len : 0;
    end_line(r);
}

static void read_text(struct reading *r, struct companion_circuit *c)
{
    uint32_t gates;
    size_t outputs;
    next_line(r);
    gates = take_number(r);
    r->wires = take_number(r);
    if (r->wires > NUMBERED_MAX)
        fail(r, COMPANION_WIRES);
    end_line(r);
    c->inputs = take_values(r, c->input_width, &c->input_words, COMPANION_WIRES);
    outputs = take_values(r, c->output_width, &c->output_words, COMPANION_OUTPUTS);
    for (size_t k = 0; r->fault == 0 && k < c->inputs; k++)
        r->made[k] = (companion_wire)k;
    for (uint32_t k = 0; r->fault == 0 && k < gates; k++) {
        if (r->at == r->end)
            fail(r, COMPANION_TEXT_ENDS);
        else
            take_gate(r);
    }
    if (r->at < r->end)
        fail(r, COMPANION_TEXT_AFTER);
    for (size_t k = 0; r->fault == 0 && k < outputs; k++) {
        c->output[c->outputs++] = r->made[r->wires - outputs + k];
        if (r->made[r->wires - outputs + k] == UNMADE)
            fail(r, COMPANION_TEXT_UNMADE);
    }
}

struct companion_status companion_read_bristol(const char *text, size_t text_len, struct companion_circuit *c)
{
    struct reading reading = {text, text + text_len, 1, 0, 0, c, {0}, {0}};
    struct companion_status status;
    if (text_len >= 3 && memcmp(text, "\xEF\xBB\xBF", 3) == 0)
        reading.at += 3; /* a byte-order mark */
    memset(c, 0, sizeof *c);
    memset(reading.made, 0xff, sizeof reading.made);
    read_text(&reading, c);
    status = companion_failed(reading.fault);
    if (status.number != 0) {
        memset(c, 0, sizeof *c);
        status.line = reading.line;
        return status;
    }
    memset(c->input_role, COMPANION_ROLE_2, c->input_words);
    memset(c->output_role, COMPANION_BOTH, c->output_words);
    c->input_role[0] = COMPANION_ROLE_1;
    return status;
}

/* A text that is being written; what is past its room is counted and left out. */
struct writing {
    char *text;
    size_t len, done;
};

static void put(struct writing *w, const char *format, size_t a, size_t b, size_t c)
{
    size_t room = w->done < w->len ? w->len - w->done : 0;
    int count = snprintf(room > 0 ? w->text + w->done : NULL, room, format, a, b, c);
    w->done += count < 0 ? w->len : (size_t)count;
}

static void put_values(struct writing *w, const uint16_t *widths, size_t count)
{
    put(w, "%zu", count, 0, 0);
    for (size_t k = 0; k < count; k++)
        put(w, " %zu", widths[k], 0, 0);
    put(w, "\n", 0, 0, 0);
}

struct companion_status companion_write_bristol(const struct companion_circuit *c, char *text, size_t text_len, size_t *written)
{
    struct writing w = {text, text_len, 0};
    size_t wires = c->inputs + c->gates, copies = c->outputs > c->gates ? c->outputs : 0;
    for (size_t k = 0; k < c->outputs; k++)
        if (c->output[k] != wires - c->outputs + k)
            copies = c->outputs;
    put(&w, "%zu %zu\n", c->gates + copies, wires + copies, 0);
    put_values(&w, c->input_width, c->input_words);
    put_values(&w, c->output_width, c->output_words);
    put(&w, "\n", 0, 0, 0);
    for (size_t k = 0; k < c->gates; k++) {
        if (c->gate[k].kind == EXPANDER_GATE_NOT)
            put(&w, "1 1 %zu %zu INV\n", c->gate[k].left, c->inputs + k, 0);
        else
            put(&w, c->gate[k].kind == EXPANDER_GATE_AND ? "2 1 %zu %zu %zu AND\n" : "2 1 %zu %zu %zu XOR\n", c->gate[k].left,
                c->gate[k].right, c->inputs + k);
    }
    for (size_t k = 0; k < copies; k++)
        put(&w, "1 1 %zu %zu EQW\n", c->output[k], wires + k, 0);
    *written = c->fault == 0 && w.done < text_len ? w.done : 0;
    return companion_failed(c->fault != 0 ? c->fault : *written == 0 ? COMPANION_NO_ROOM : COMPANION_DONE);
}
