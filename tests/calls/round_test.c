/* The calls of circuits in rounds held to the plain implementation, and rounds to steps, through
 * expander.h (lend.h). */
#include "circuits.h"
#include "lend.h"
#include "../plain/plain_round.h"

#include <string.h>

enum { CIRCUIT_ROUND, DESCRIBE_CIRCUIT, CALLS };

#define READING (BIT(0) | BIT(10) | BIT(11) | BIT(17) | BIT(12))
static const struct call calls[CALLS] = {
    {"circuit_round", READING | BIT(3) | BIT(13) | BIT(8) | BIT(18) | BIT(9)},
    {"describe_circuit", READING},
};

/* A wire's byte; from KNOWN on its share is known. */
enum { NOT_KNOWN = 0, WAITS = 1, KNOWN = 2 };

typedef struct expander_round_state state;
typedef struct expander_rounded rounded;

static const state fresh;
static const uint8_t zeros[3 * WIRES];

static int same_state(const state *a, const state *b)
{
    return memcmp(a->wires, b->wires, WIRES) == 0;
}

/* ---- The calls, made by both ---- */

/* All that a round is lent but its output buffers, and how long these are. */
struct asked {
    uint8_t role;
    const uint8_t *circuit, *shares, *triples, *far_bits;
    size_t circuit_len, shares_len, triples_len, far_bits_len, room, bits_room;
};

/* What holds of an accepted round on any state: no known wire changes, every waiting AND is known,
 * what became known is 2 or 3, those that wait are the ANDs whose bits were written, there are no bits
 * exactly if all wires are known, and then there are the outputs. */
static void accepted_round(const struct asked *a, const state *before, const rounded *r,
                           const uint8_t *out, const uint8_t *bits)
{
    static struct plain_circuit c;
    size_t known = 0, opened = 0, wires;
    int kept = 1, answered = 1, made_known = 1, waits = 1, is_bits = 1;
    EXPECT(plain_read_circuit(&c, a->circuit, a->circuit_len) == 0);
    wires = c.inputs + c.gates;
    for (size_t k = 0; k < WIRES; k++) {
        uint8_t from = before->wires[k], to = r->state.wires[k];
        int is_and = k >= c.inputs && k < wires && c.gate[k - c.inputs].kind == AND;
        kept &= (k < wires && from < KNOWN) || to == from;
        if (k >= wires)
            continue;
        answered &= !(is_and && from == WAITS) || to >= KNOWN;
        made_known &= from >= KNOWN || to <= KNOWN + 1;
        waits &= to != WAITS || is_and;
        known += to >= KNOWN;
        opened += to == WAITS;
    }
    for (size_t k = 0; k < r->bits_written; k++)
        is_bits &= bits[k] <= 1;
    for (size_t k = 0; k < r->written; k++)
        is_bits &= out[k] <= 1 && out[k] == r->state.wires[c.output[k]] % 2;
    EXPECT(kept && answered && made_known && waits && is_bits);
    EXPECT(r->bits_written == 2 * opened && (opened == 0) == (known == wires));
    EXPECT(r->written == (r->bits_written == 0 ? c.outputs : 0));
}

/* One round; what the library wrote goes to out and bits, if not NULL. */
static rounded try_round(const struct asked *a, const state *before, uint8_t *out, uint8_t *bits)
{
    static rounded mine, plain;
    int same;
    describe("circuit_round(role %u, circuit of %zu bytes, %zu, %zu, %zu, far bits %zu, %zu)",
             a->role, a->circuit_len, a->shares_len, a->triples_len, a->room, a->far_bits_len,
             a->bits_room);
    lend(0, a->circuit, a->circuit_len, 1);
    lend(1, a->shares, a->shares_len, 1);
    lend(2, a->triples, a->triples_len, 1);
    lend(3, a->far_bits, a->far_bits_len, 1);
    lend(4, NULL, a->room, 1);
    lend(5, NULL, a->bits_room, 1);
    mine = expander_circuit_round(
        a->role, LIBRARY(0, uint8_t), a->circuit_len, LIBRARY(1, uint8_t), a->shares_len,
        LIBRARY(2, uint8_t), a->triples_len, LIBRARY(4, uint8_t), a->room, LIBRARY(3, uint8_t),
        a->far_bits_len, LIBRARY(5, uint8_t), a->bits_room, *before);
    plain = plain_circuit_round(
        a->role, PLAIN(0, uint8_t), a->circuit_len, PLAIN(1, uint8_t), a->shares_len,
        PLAIN(2, uint8_t), a->triples_len, PLAIN(4, uint8_t), a->room, PLAIN(3, uint8_t),
        a->far_bits_len, PLAIN(5, uint8_t), a->bits_room, *before);
    same = mine.number == plain.number && mine.written == plain.written
        && mine.bits_written == plain.bits_written;
    if (!same)
        complain("returned %u, %zu, %zu; the plain implementation %u, %zu, %zu", mine.number,
                 mine.written, mine.bits_written, plain.number, plain.written, plain.bits_written);
    else if (!same_state(&mine.state, &plain.state)) {
        size_t k = 0;
        while (mine.state.wires[k] == plain.state.wires[k])
            k++;
        complain("number %u: byte %zu of the state is %u, the plain implementation has %u",
                 mine.number, k, mine.state.wires[k], plain.state.wires[k]);
        same = 0;
    }
    settle_lent(CIRCUIT_ROUND, same, plain.number, 4, 2, plain.written, plain.bits_written);
    if (!same)
        return plain;
    if (mine.number == 0)
        accepted_round(a, before, &mine, LIBRARY(4, uint8_t), LIBRARY(5, uint8_t));
    else
        EXPECT(mine.written == 0 && mine.bits_written == 0 && same_state(&mine.state, before));
    keep(out, 4, plain.written);
    keep(bits, 5, plain.bits_written);
    return mine;
}

static struct expander_described_circuit try_describe(const uint8_t *circuit, size_t len)
{
    struct expander_described_circuit mine, plain;
    int same;
    describe("describe_circuit(circuit of %zu bytes)", len);
    lend(0, circuit, len, 1);
    mine = expander_describe_circuit(LIBRARY(0, uint8_t), len);
    plain = plain_describe_circuit(PLAIN(0, uint8_t), len);
    same = mine.number == plain.number && mine.inputs == plain.inputs && mine.gates == plain.gates
        && mine.outputs == plain.outputs && mine.ands == plain.ands && mine.rounds == plain.rounds;
    if (!same)
        complain("returned %u, %zu %zu %zu, %zu, %zu; the plain implementation %u, %zu %zu %zu, %zu, "
                 "%zu", mine.number, mine.inputs, mine.gates, mine.outputs, mine.ands, mine.rounds,
                 plain.number, plain.inputs, plain.gates, plain.outputs, plain.ands, plain.rounds);
    settle_lent(DESCRIBE_CIRCUIT, same, plain.number, 1, 0, 0, 0);
    EXPECT(mine.number == 0 || (mine.inputs == 0 && mine.gates == 0 && mine.outputs == 0
                                && mine.ands == 0 && mine.rounds == 0));
    return mine;
}

/* ---- Levels ---- */

/* Each wire's level in the circuit made, the greatest, and how many ANDs are of each. */
static size_t level[WIRES], depth, ands_of[WIRES + 2];

static void find_levels(void)
{
    const struct plain_circuit *c = &made.c;
    struct expander_described_circuit d = try_describe(made.bytes, made.len);
    memset(level, 0, sizeof level);
    memset(ands_of, 0, sizeof ands_of);
    depth = 0;
    for (uint32_t g = 0; g < c->gates; g++) {
        size_t *own = &level[c->inputs + g];
        *own = level[c->gate[g].a];
        if (c->gate[g].kind != NOT && level[c->gate[g].b] > *own)
            *own = level[c->gate[g].b];
        if (c->gate[g].kind == AND)
            ands_of[++*own]++;
        if (*own > depth)
            depth = *own;
    }
    EXPECT(d.number == 0 && d.inputs == c->inputs && d.gates == c->gates && d.outputs == c->outputs);
    EXPECT(d.ands == made.ands && d.rounds == depth + 1);
}

static int is_and(size_t wire)
{
    return wire >= made.c.inputs && made.c.gate[wire - made.c.inputs].kind == AND;
}

/* Whether after accepted round k of a run a wire is known exactly if its level is at most k, and waits
 * exactly if it is an AND of level k + 1. */
static int as_levels_say(const state *s, size_t k)
{
    for (size_t w = 0; w < made.c.inputs + made.c.gates; w++)
        if ((s->wires[w] >= KNOWN) != (level[w] <= k)
            || (s->wires[w] == WAITS) != (is_and(w) && level[w] == k + 1))
            return 0;
    return 1;
}

/* ---- Runs by both ends ---- */

/* What the circuit made is lent, on an end's shares and triples, with no far bits yet. */
static struct asked ask(uint8_t role, const uint8_t *shares, const uint8_t *its_triples)
{
    struct asked a = {role, made.bytes, shares, its_triples, zeros, made.len, made.c.inputs,
                      3 * (size_t)made.ands, 0, made.c.outputs, 2 * (size_t)made.ands};
    return a;
}

/* A refused round in the middle of a run, on the run's own state: it changes nothing. */
static void refused_round(const struct asked *a, const state *now)
{
    static uint8_t far_bits[2 * WIRES];
    struct asked odd = *a;
    uint32_t number = 0;
    switch (random_below(8)) {
    case 0:
        odd.role = (uint8_t)(random_below(2) ? 0 : 3 + random_below(253));
        number = 9;
        break;
    case 1:
        odd.circuit_len--;
        number = 10;
        break;
    case 2:
        odd.shares_len--;
        number = 3;
        break;
    case 3:
        odd.room = made.c.outputs - 1;
        number = 13;
        break;
    case 4:
        if (a->far_bits_len == 0)
            return;
        memcpy(far_bits, a->far_bits, a->far_bits_len);
        far_bits[random_below(a->far_bits_len)] = (uint8_t)(2 + random_below(254));
        odd.far_bits = far_bits;
        number = 8;
        break;
    case 5:
        if (made.ands == 0)
            return;
        odd.triples_len = 3 * (size_t)made.ands - 3;
        number = 18;
        break;
    case 6:
        odd.far_bits = zeros;
        odd.far_bits_len = a->far_bits_len == 0 || random_below(2) ? a->far_bits_len + 2
                                                                  : a->far_bits_len - 2;
        number = 3;
        break;
    case 7:
        if (made.ands == 0)
            return;
        odd.bits_room = 2 * (size_t)made.ands - 1;
        number = 13;
        break;
    }
    EXPECT(try_round(&odd, now, NULL, NULL).number == number);
}

/* Run the circuit at both ends on random inputs, with refused rounds among the others if wanted. A
 * third run, on bytes that are all 0, tells the bits of each round beforehand. */
static void run_both(int refused)
{
    static uint8_t shares[2][WIRES], inputs[WIRES], value[OUTPUTS], outputs[2][OUTPUTS],
        again[OUTPUTS], bits[2][2 * WIRES], far_bits[2][2 * WIRES];
    static state states[2], zero_state;
    static rounded now[2], zero;
    struct asked a[2], of_zeros;
    size_t first = random_below(PAIRING_MOST - made.ands + 1), n = made.c.outputs, spare;
    size_t sent[2] = {0, 0}, received[2] = {0, 0};
    find_levels();
    of_zeros = ask(1, zeros, zeros);
    zero_state = fresh;
    for (int end = 0; end < 2; end++) {
        random_bits(shares[end], made.c.inputs);
        states[end] = fresh;
        spare = PAIRING_MOST - first - made.ands; /* lengths may differ at the ends */
        spare = random_below(spare < 5 ? spare + 1 : 5);
        a[end] = ask((uint8_t)(end + 1), shares[end], triples[end] + 3 * first);
        a[end].triples_len += 3 * spare;
        a[end].far_bits = far_bits[end];
    }
    for (size_t k = 0; k < made.c.inputs; k++)
        inputs[k] = shares[0][k] ^ shares[1][k];
    plain_circuit_value(&made.c, inputs, value);
    for (size_t round = 0; round <= depth; round++) {
        zero = try_round(&of_zeros, &zero_state, NULL, NULL);
        zero_state = zero.state;
        of_zeros.far_bits_len = zero.bits_written;
        for (int end = 0; end < 2; end++) {
            if (refused && random_below(3) == 0)
                refused_round(&a[end], &states[end]);
            a[end].room = n + random_extra(9);
            a[end].bits_room = 2 * (size_t)made.ands + random_extra(9);
            now[end] = try_round(&a[end], &states[end], outputs[end], bits[end]);
            received[end] += a[end].far_bits_len;
            sent[end] += now[end].bits_written;
            EXPECT(now[end].number == 0 && as_levels_say(&now[end].state, round));
            EXPECT(now[end].bits_written == 2 * ands_of[round + 1]);
            EXPECT(now[end].bits_written == zero.bits_written);
            EXPECT(now[end].written == (round < depth ? 0 : n));
            states[end] = now[end].state;
        }
        for (int end = 0; end < 2; end++) {
            a[end].far_bits_len = now[1 - end].bits_written;
            memcpy(far_bits[end], bits[1 - end], now[1 - end].bits_written);
        }
    }
    for (size_t k = 0; k < n; k++)
        EXPECT((outputs[0][k] ^ outputs[1][k]) == value[k]);
    for (int end = 0; end < 2; end++) { /* a finished run gives its outputs again */
        EXPECT(sent[end] == received[end] && sent[end] == 2 * (size_t)made.ands);
        if (refused)
            refused_round(&a[end], &states[end]);
        now[end] = try_round(&a[end], &states[end], again, NULL);
        EXPECT(now[end].number == 0 && now[end].written == n && now[end].bits_written == 0);
        EXPECT(same_state(&now[end].state, &states[end]));
        EXPECT(memcmp(again, outputs[end], n) == 0);
    }
}

/* ---- Rounds and steps ---- */

/* What one end sent for each AND, and what it has at the end of a run. */
struct run {
    uint8_t sent[WIRES][2], output[OUTPUTS], share[WIRES];
};

/* A run in steps, in which AND j gets the far bits far[j]. */
static void run_steps(const struct asked *a, uint8_t (*far)[2], struct run *r)
{
    static struct expander_stepped now;
    memset(&now, 0, sizeof now);
    for (uint32_t step = 0; step <= made.ands; step++) {
        const uint8_t *bits = far[step == 0 ? 0 : step - 1];
        now = expander_circuit_step(a->role, a->circuit, a->circuit_len, a->shares, a->shares_len,
                                    a->triples, a->triples_len, r->output, a->room, bits[0], bits[1],
                                    now.state);
        EXPECT(now.number == 0 && now.written == (step < made.ands ? 0 : made.c.outputs));
        r->sent[step][0] = now.first_bit;
        r->sent[step][1] = now.second_bit;
    }
    memcpy(r->share, now.state.wires, WIRES);
}

/* A run in rounds, in which AND j gets the far bits far[j]: round k takes those of the ANDs of level k
 * in the order of the gates. Each AND is opened once. */
static void run_rounds(const struct asked *asked, uint8_t (*far)[2], struct run *r)
{
    static uint8_t bits[2 * WIRES], far_bits[2 * WIRES], opened[WIRES];
    static rounded now;
    struct asked a = *asked;
    memset(&now, 0, sizeof now);
    memset(opened, 0, sizeof opened);
    a.far_bits = far_bits;
    for (size_t round = 0; round <= depth; round++) {
        size_t j = 0, at = 0;
        a.far_bits_len = 0;
        for (size_t w = made.c.inputs; w < made.c.inputs + made.c.gates; w++) {
            if (is_and(w) && level[w] == round) {
                far_bits[a.far_bits_len++] = far[j][0];
                far_bits[a.far_bits_len++] = far[j][1];
            }
            j += (size_t)is_and(w);
        }
        now = try_round(&a, &now.state, r->output, bits);
        EXPECT(now.number == 0 && now.written == (round < depth ? 0 : made.c.outputs));
        j = 0;
        for (size_t w = made.c.inputs; w < made.c.inputs + made.c.gates; w++) {
            if (is_and(w) && level[w] == round + 1) {
                memcpy(r->sent[j], bits + at, 2);
                opened[j]++;
                at += 2;
            }
            j += (size_t)is_and(w);
        }
        EXPECT(at == now.bits_written);
    }
    for (size_t j = 0; j < made.ands; j++)
        EXPECT(opened[j] == 1);
    memcpy(r->share, now.state.wires, WIRES);
}

/* One end's run of the circuit on any triples and any far bits, honest or not, in steps and in rounds:
 * the bits sent for each AND, the outputs and all shares are equal. Where far bits agree for the ANDs
 * before one alone, so do the bits sent up to that one. */
static void same_as_steps(void)
{
    static uint8_t shares[WIRES], any_triples[3 * WIRES], far[WIRES][2];
    static struct run steps, rounds;
    struct asked a;
    size_t from;
    int same = 1;
    find_levels();
    random_bits(shares, made.c.inputs);
    random_bits(any_triples, 3 * (size_t)made.ands);
    random_bits(far[0], 2 * (size_t)made.ands);
    a = ask((uint8_t)(1 + random_below(2)), shares, any_triples);
    run_steps(&a, far, &steps);
    run_rounds(&a, far, &rounds);
    for (size_t w = 0; w < made.c.inputs + made.c.gates; w++)
        same &= rounds.share[w] == KNOWN + steps.share[w];
    EXPECT(same);
    EXPECT(memcmp(rounds.output, steps.output, made.c.outputs) == 0);
    EXPECT(memcmp(rounds.sent, steps.sent, 2 * (size_t)made.ands) == 0);
    if (made.ands == 0)
        return;
    from = random_below(made.ands);
    random_bits(far[from], 2 * (made.ands - from));
    far[from][random_below(2)] ^= 1;
    run_rounds(&a, far, &rounds);
    EXPECT(memcmp(rounds.sent, steps.sent, 2 * (from + 1)) == 0);
}

/* ---- Circuits to run ---- */

static void runs(void)
{
    const struct {
        uint32_t inputs, gates, outputs;
        size_t percent;
    } edges[] = {{1, 0, 1, 0}, {1, 1, 1, 100}, {1, 1, 1, 0}, {2, 1, 3, 100}, {4096, 0, 4096, 0},
                 {4095, 1, 4096, 100}, {1, 4095, 4096, 2}, {1, 4095, 1, 0}, {128, 128, 128, 30},
                 {96, 4000, 64, 8}, {2000, 2096, 10, 100}, {1, 4095, 5, 25}};
    for (size_t k = 0; k < sizeof edges / sizeof *edges; k++) {
        make_circuit(edges[k].inputs, edges[k].gates, edges[k].outputs, edges[k].percent);
        run_both(1);
        same_as_steps();
    }
    for (int round = 0; round < 600; round++) {
        uint32_t inputs = 1 + (uint32_t)random_below(random_below(4) ? 6 : 40);
        uint32_t gates = (uint32_t)random_below(random_below(4) ? 12 : 60);
        uint32_t count = 1 + (uint32_t)random_below(9);
        make_circuit(inputs, gates, count, (size_t[]){0, 20, 50, 100}[random_below(4)]);
        run_both(1);
        same_as_steps();
    }
}

/* The most ANDs that a circuit can have: all ready at once, or each after the one before. */
static void most_ands(void)
{
    for (int chain = 0; chain < 2; chain++) {
        make_circuit(1, WIRES - 1, 3, 100);
        for (uint32_t g = 0; g < made.c.gates; g++)
            made.c.gate[g].a = made.c.gate[g].b = chain ? g : 0;
        write_circuit();
        same_as_steps();
        EXPECT(depth == (chain ? WIRES - 1 : 1));
        if (!chain)
            run_both(1);
    }
}

/* Every circuit of one or two inputs and up to three gates, all wires its outputs. */
static void every_small(uint32_t gate)
{
    struct plain_circuit *c = &made.c;
    uint32_t before = c->inputs + gate;
    c->gates = gate;
    c->outputs = before;
    for (uint32_t k = 0; k < before; k++)
        c->output[k] = k;
    write_circuit();
    run_both(0);
    same_as_steps();
    if (gate == 3)
        return;
    for (uint32_t kind = XOR; kind <= NOT; kind++)
        for (uint32_t a = 0; a < before; a++)
            for (uint32_t b = 0; b < (kind == NOT ? 1 : before); b++) {
                c->inputs = before - gate;
                c->gate[gate] = (struct plain_gate){kind, a, b};
                every_small(gate + 1);
            }
}

/* Each kind of gate on every share, far bit and triple. */
static void every_bit(void)
{
    for (int set = 0; set < 1 << 10; set++) {
        uint8_t shares[2] = {set & 1, set >> 1 & 1}, far_bits[2] = {set >> 6 & 1, set >> 7 & 1};
        uint8_t triple[3] = {set >> 2 & 1, set >> 3 & 1, set >> 4 & 1}, bits[2], out[3], d, e;
        uint8_t role = (uint8_t)(1 + (set >> 5 & 1));
        uint32_t first = set >> 8 & 1, second = set >> 9 & 1;
        struct asked a;
        rounded r;
        made.c.inputs = 2;
        made.c.gates = made.c.outputs = 3;
        made.c.gate[0] = (struct plain_gate){AND, first, second};
        made.c.gate[1] = (struct plain_gate){XOR, first, 2};
        made.c.gate[2] = (struct plain_gate){NOT, 2, 0};
        for (uint32_t k = 0; k < 3; k++)
            made.c.output[k] = 2 + k;
        write_circuit();
        a = ask(role, shares, triple);
        r = try_round(&a, &fresh, NULL, bits);
        EXPECT(r.number == 0 && r.bits_written == 2 && r.state.wires[2] == WAITS);
        EXPECT(bits[0] == (shares[first] ^ triple[0]) && bits[1] == (shares[second] ^ triple[1]));
        a.far_bits = far_bits;
        a.far_bits_len = 2;
        r = try_round(&a, &r.state, out, NULL);
        d = bits[0] ^ far_bits[0];
        e = bits[1] ^ far_bits[1];
        EXPECT(out[0] == (triple[2] ^ (d & triple[1]) ^ (e & triple[0]) ^ (role == 1 ? d & e : 0)));
        EXPECT(out[1] == (out[0] ^ shares[first]) && out[2] == (out[0] ^ (role == 1)));
        EXPECT(r.state.wires[2] == KNOWN + out[0]);
    }
}

/* ---- Faults in the circuit ---- */

static uint8_t some_bits[WIRES + 3 * WIRES];

static int of_reading(uint32_t number)
{
    return number == 10 || number == 11 || number == 17 || number == 12;
}

/* A fresh round on the damaged circuit, and what it is said to be: the reading's number in both. */
static uint32_t try_raw(void)
{
    struct asked a = ask((uint8_t)(1 + random_below(2)), some_bits, some_bits + WIRES);
    uint32_t number, said;
    a.circuit = raw;
    a.circuit_len = raw_len;
    number = try_round(&a, &fresh, NULL, NULL).number;
    said = try_describe(raw, raw_len).number;
    EXPECT(said == (of_reading(number) ? number : 0));
    return number;
}

static void damaged(void)
{
    random_bits(some_bits, sizeof some_bits);
    for (int round = 0; round < 30; round++) {
        uint32_t inputs = 1 + (uint32_t)random_below(round < 20 ? 5 : 300);
        uint32_t gates = (uint32_t)random_below(9);
        make_circuit(inputs, gates, 1 + (uint32_t)random_below(4), 40);
        damaged_circuits(try_raw, round < 6);
    }
    sizes_at_bounds(try_raw);
}

/* ---- Faults beside the circuit ---- */

/* What can be wrong with a round of the small circuit; 0 is what is right. */
enum fault {
    ROLE, CIRCUIT, SHARES_LEN, TRIPLES_LEN, FAR_LEN, ROOM, BITS_ROOM, SHARE, TRIPLE, FAR_BIT, FAULTS
};
static const int ways[FAULTS] = {5, 6, 4, 8, 6, 4, 5, 3, 3, 3};

/* Exclusive or, AND, NOT, AND, AND, with three inputs and two outputs. The second AND follows the
 * first, the third is ready at once. */
enum { SMALL_INPUTS = 3, SMALL_GATES = 5, SMALL_OUTPUTS = 2, SMALL_ANDS = 3 };

static void make_small(void)
{
    made.c.inputs = SMALL_INPUTS;
    made.c.gates = SMALL_GATES;
    made.c.outputs = SMALL_OUTPUTS;
    made.c.gate[0] = (struct plain_gate){XOR, 0, 1};
    made.c.gate[1] = (struct plain_gate){AND, 2, 3};
    made.c.gate[2] = (struct plain_gate){NOT, 4, 0};
    made.c.gate[3] = (struct plain_gate){AND, 5, 1};
    made.c.gate[4] = (struct plain_gate){AND, 0, 1};
    made.c.output[0] = 6;
    made.c.output[1] = 4;
    write_circuit();
}

/* States of the small circuit: fresh, after each round, finished, and those that no round left; how
 * many gates wait, and how many ANDs a round on it opens. */
static const struct small_state {
    uint8_t wires[SMALL_INPUTS + SMALL_GATES];
    size_t waiting, opens;
} small_states[] = {
    {{0, 0, 0, 0, 0, 0, 0, 0}, 0, 2}, {{2, 3, 2, 3, 1, 0, 0, 1}, 2, 1},
    {{3, 3, 2, 2, 3, 2, 1, 3}, 1, 0}, {{3, 2, 3, 3, 2, 2, 3, 2}, 0, 0},
    {{1, 1, 1, 1, 1, 1, 1, 1}, 5, 0}, {{9, 0, 1, 255, 0, 1, 0, 7}, 1, 1},
    {{0, 200, 4, 1, 77, 0, 1, 0}, 2, 1},
};
enum { SMALL_STATES = sizeof small_states / sizeof *small_states };

/* The circuit as it is, cut, with a byte after it, with a number not in its shortest form or without
 * an end, or with one that is not admitted: the number that it gives. */
static uint32_t lend_circuit(struct asked *a, int way)
{
    static const uint32_t numbers[] = {0, 10, 12, 11, 11, 17};
    size_t at = random_below(made.numbers);
    enum form form = way == 3 ? LONGER : way == 4 ? ENDLESS : way == 5 ? OTHER : AS_IT_IS;
    write_raw(at, form, at, form);
    if (way == 1)
        raw_len = random_below(raw_len);
    if (way == 2)
        raw[raw_len++] = (uint8_t)random_word();
    a->circuit = raw;
    a->circuit_len = raw_len;
    return numbers[way];
}

/* A round with these faults: the number is that of the first test that fails. */
static void try_faults(const struct small_state *small, const int way[FAULTS])
{
    static uint8_t shares[SMALL_INPUTS + 1], three[3 * SMALL_ANDS + 3], far_bits[2 * SMALL_GATES + 2];
    static state before;
    size_t waits = 2 * small->waiting;
    struct asked a = {(uint8_t[]){1, 2, 0, 3, 255}[way[ROLE]], NULL, shares, three, far_bits, 0,
                      (size_t[]){3, 4, 2, 0}[way[SHARES_LEN]],
                      (size_t[]){9, 12, 6, 0, 10, 8, 7, 1}[way[TRIPLES_LEN]],
                      (size_t[]){waits, waits + 1, waits > 0 ? waits - 1 : 1, waits + 2,
                                 waits > 0 ? waits - 2 : 2, 0}[way[FAR_LEN]],
                      (size_t[]){2, 3, 1, 0}[way[ROOM]],
                      (size_t[]){6, 7, 5, 2 * small->opens, 0}[way[BITS_ROOM]]};
    uint32_t number = lend_circuit(&a, way[CIRCUIT]);
    random_bits(shares, sizeof shares);
    random_bits(three, sizeof three);
    random_bits(far_bits, sizeof far_bits);
    if (way[SHARE] != 0 && a.shares_len > 0)
        shares[way[SHARE] == 1 ? 0 : a.shares_len - 1] = way[SHARE] == 1 ? 2 : 0x80;
    if (way[TRIPLE] != 0 && a.triples_len > 0)
        three[way[TRIPLE] == 1 ? 0 : a.triples_len - 1] = way[TRIPLE] == 1 ? 2 : 0xff;
    if (way[FAR_BIT] != 0 && a.far_bits_len > 0)
        far_bits[way[FAR_BIT] == 1 ? 0 : a.far_bits_len - 1] = way[FAR_BIT] == 1 ? 2 : 0x81;
    random_bytes(before.wires, WIRES);
    memcpy(before.wires, small->wires, sizeof small->wires);
    if (number == 0)
        number = a.shares_len != SMALL_INPUTS || a.triples_len % 3 != 0 || a.far_bits_len != waits ? 3
               : a.room < SMALL_OUTPUTS || a.bits_room < 2 * SMALL_ANDS ? 13
               : way[SHARE] || (way[TRIPLE] && a.triples_len > 0)
                       || (way[FAR_BIT] && a.far_bits_len > 0) ? 8
               : a.triples_len < 3 * SMALL_ANDS ? 18
               : a.role < 1 || a.role > 2 ? 9 : 0;
    EXPECT(try_round(&a, &before, NULL, NULL).number == number);
}

/* Every two faults, on every one of those states, and sets of more. */
static void refusals(void)
{
    make_small();
    for (int s = 0; s < SMALL_STATES; s++)
        for (int one = 0; one < FAULTS; one++)
            for (int other = one + 1; other < FAULTS; other++)
                for (int k = 0; k < ways[one] * ways[other]; k++) {
                    int way[FAULTS] = {0};
                    way[one] = k % ways[one];
                    way[other] = k / ways[one];
                    try_faults(&small_states[s], way);
                }
    for (int round = 0; round < 20000; round++) {
        int way[FAULTS] = {0};
        const struct small_state *small = &small_states[random_below(SMALL_STATES)];
        size_t share = 1 + random_below(6);
        for (int k = 0; k < FAULTS; k++)
            if (random_below(share + 1) == 0)
                way[k] = (int)random_below((size_t)ways[k]);
        try_faults(small, way);
    }
}

/* ---- States that no round left ---- */

/* Some worked out by hand, of a circuit of two ANDs with an exclusive or and a NOT between them: far
 * bits of gates that are no ANDs are passed over, and the share of a wire that is not known is its
 * byte modulo 2. */
static void odd_states(void)
{
    static const struct {
        uint8_t before[5], far_bits[6];
        size_t far_len;
        uint8_t after[5];
        size_t bits;
    } odd[] = {
        {{2, 200, 1, 1, 1}, {0, 0, 0, 0, 1, 0}, 6, {2, 200, 2, 2, 3}, 0},
        {{2, 0, 1, 0, 1}, {1, 0, 0, 0}, 4, {2, 1, 0, 2, 3}, 2},
        {{1, 77, 255, 9, 0}, {0}, 0, {2, 77, 255, 9, 1}, 2},
    };
    static const uint8_t share[1] = {0}, two_triples[6] = {0, 0, 0, 0, 1, 0};
    static state now;
    struct asked a;
    made.c.inputs = made.c.outputs = 1;
    made.c.gates = 4;
    made.c.gate[0] = (struct plain_gate){AND, 0, 0};
    made.c.gate[1] = (struct plain_gate){XOR, 1, 0};
    made.c.gate[2] = (struct plain_gate){NOT, 0, 0};
    made.c.gate[3] = (struct plain_gate){AND, 1, 0};
    made.c.output[0] = 4;
    write_circuit();
    a = ask(EXPANDER_ROLE_SCALAR, share, two_triples);
    for (size_t k = 0; k < sizeof odd / sizeof *odd; k++) {
        rounded r;
        memcpy(now.wires, odd[k].before, sizeof odd[k].before);
        a.far_bits = odd[k].far_bits;
        a.far_bits_len = odd[k].far_len;
        r = try_round(&a, &now, NULL, NULL);
        EXPECT(r.number == 0 && r.bits_written == odd[k].bits);
        EXPECT(memcmp(r.state.wires, odd[k].after, sizeof odd[k].after) == 0);
    }
}

/* Rounds from any state, each on the state that the one before left: any bytes in the wires, few of
 * them known or most, on any far bits. */
static void any_state(void)
{
    static uint8_t far_bits[2 * WIRES];
    static state now;
    struct asked a = ask((uint8_t)(1 + random_below(2)), some_bits, some_bits + WIRES);
    size_t kind = random_below(4);
    random_bits(some_bits, a.shares_len);
    random_bits(some_bits + WIRES, a.triples_len);
    random_bytes(now.wires, WIRES);
    for (size_t w = 0; w < WIRES; w++) {
        uint8_t *wire = &now.wires[w];
        if (kind == 1)
            *wire %= 4;
        else if (kind == 2 || (kind == 3 && *wire < 40))
            *wire %= 2;
    }
    a.far_bits = far_bits;
    for (int round = 0; round < 3; round++) {
        a.far_bits_len = 0;
        for (size_t w = made.c.inputs; w < made.c.inputs + made.c.gates; w++)
            a.far_bits_len += now.wires[w] == WAITS ? 2 : 0;
        random_bits(far_bits, a.far_bits_len);
        now = try_round(&a, &now, NULL, NULL).state;
    }
}

static void any_states(void)
{
    for (int round = 0; round < 1200; round++) {
        uint32_t inputs = 1 + (uint32_t)random_below(8), gates = (uint32_t)random_below(30);
        uint32_t count = 1 + (uint32_t)random_below(9);
        make_circuit(inputs, gates, count, (size_t[]){20, 50, 100}[random_below(3)]);
        for (int k = 0; k < 6; k++)
            any_state();
    }
    make_circuit(1, 4095, 4096, 100);
    for (int k = 0; k < 60; k++)
        any_state();
}

int main(void)
{
    begin(calls, CALLS);
    make_triples();
    every_bit();
    for (made.c.inputs = 1; made.c.inputs <= 2; made.c.inputs++) {
        uint32_t inputs = made.c.inputs;
        every_small(0);
        made.c.inputs = inputs;
    }
    runs();
    most_ands();
    damaged();
    refusals();
    odd_states();
    any_states();
    return finish();
}
