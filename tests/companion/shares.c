/* Shares that are kept and given. */
#include "sections.h"

/* A chain of random circuits, whose shared inputs are parts of what earlier ones kept; made ahead, so that both ends run the same. */
enum { CHAIN_MAX = 5, CHAIN_BITS = 64 };
static struct {
    size_t steps, parts[CHAIN_MAX], kept_bits[CHAIN_MAX];
    struct { size_t from, first, count; } part[CHAIN_MAX][CHAIN_BITS];
    struct companion_circuit circuit[CHAIN_MAX];
    uint8_t own[CHAIN_MAX][2][CHAIN_BITS], due[CHAIN_MAX][CHAIN_BITS], kept_due[CHAIN_MAX][CHAIN_BITS];
    uint8_t outputs[2][CHAIN_MAX][CHAIN_BITS];
    struct companion_shares kept[2][CHAIN_MAX];
} chain;

/* Gathers parts of what was kept before step for as many bits as are due, and their plain bits. */
static void plan_parts(size_t step, size_t due, uint8_t *bits)
{
    chain.parts[step] = 0;
    while (due > 0) {
        size_t from = draw(step), first, count;
        if (chain.kept_bits[from] == 0)
            continue;
        first = draw(chain.kept_bits[from]);
        count = 1 + draw(chain.kept_bits[from] - first < due ? chain.kept_bits[from] - first : due);
        chain.part[step][chain.parts[step]].from = from;
        chain.part[step][chain.parts[step]].first = first;
        chain.part[step][chain.parts[step]++].count = count;
        memcpy(bits, chain.kept_due[from] + first, count);
        bits += count;
        due -= count;
    }
}

static void plan_step(size_t step)
{
    struct companion_circuit *c = &chain.circuit[step];
    uint8_t inputs[CHAIN_BITS], shared[CHAIN_BITS];
    size_t due = 0, wire = 0, own[2] = {0, 0}, given = 0;
    random_circuit(c, 1 + draw(60));
    for (size_t word = 0; word < c->input_words; word++)
        if (step > 0 && draw(2) == 0) {
            c->input_role[word] = COMPANION_SHARED;
            due += c->input_width[word];
        }
    for (size_t word = 0; word < c->output_words; word++)
        if (draw(2) == 0 || (step == 0 && word == 0))
            c->output_role[word] = COMPANION_SHARED;
    plan_parts(step, due, shared);
    for (size_t word = 0; word < c->input_words; word++)
        for (size_t k = 0; k < c->input_width[word]; k++, wire++) {
            uint8_t role = c->input_role[word];
            inputs[wire] = role == COMPANION_SHARED ? shared[given++] : (uint8_t)draw(2);
            if (role != COMPANION_SHARED)
                chain.own[step][role - 1][own[role - 1]++] = inputs[wire];
        }
    EXPECT(0, companion_evaluate(c, inputs, chain.due[step]));
    chain.kept_bits[step] = wire = 0;
    for (size_t word = 0; word < c->output_words; wire += c->output_width[word++])
        if (c->output_role[word] == COMPANION_SHARED) {
            memcpy(chain.kept_due[step] + chain.kept_bits[step], chain.due[step] + wire, c->output_width[word]);
            chain.kept_bits[step] += c->output_width[word];
        }
}

static int keeps_or_takes(const struct companion_circuit *c)
{
    return memchr(c->input_role, COMPANION_SHARED, c->input_words) != NULL
           || memchr(c->output_role, COMPANION_SHARED, c->output_words) != NULL;
}

static void run_chain(struct side *side)
{
    size_t which = side == &sides[1], first = 0;
    side->status = open_side(side);
    if (side->status.number == 0)
        side->status = companion_compare_pair(&side->link, &side->pair);
    for (size_t step = 0; step < chain.steps && side->status.number == 0; step++) {
        const struct companion_circuit *c = &chain.circuit[step];
        struct companion_triples triples = {0, NULL, 0};
        struct companion_shares given = {0, NULL, 0};
        struct expander_described_circuit counts;
        EXPECT(0, companion_count(c, &counts));
        for (size_t k = 0; k < chain.parts[step]; k++)
            EXPECT(0, companion_add_shares(&chain.kept[which][chain.part[step][k].from], chain.part[step][k].first,
                                           chain.part[step][k].count, &given));
        EXPECT(0, companion_add_triples(&side->pair, first, counts.ands, &triples));
        first += counts.ands;
        side->status = keeps_or_takes(c) ? companion_run_shared(&side->link, side->pair.role, c, chain.own[step][which], &given, &triples,
                                                                chain.outputs[which][step], &chain.kept[which][step])
                       : companion_run(&side->link, side->pair.role, c, chain.own[step][which], &triples, chain.outputs[which][step], NULL);
        CHECK(triples.bytes == NULL, "triples are spent");
        companion_free_shares(&given);
    }
    companion_close_pair(&side->pair);
}

static void chain_is(void)
{
    for (size_t step = 0; step < chain.steps; step++) {
        const struct companion_circuit *c = &chain.circuit[step];
        const struct companion_shares *a = &chain.kept[0][step], *b = &chain.kept[1][step];
        size_t bit = 0;
        CHECK(a->count == chain.kept_bits[step] && b->count == a->count && a->origin == b->origin, "kept: %zu and %zu", a->count, b->count);
        for (size_t k = 0; k < a->count; k++)
            CHECK(a->bits[k] <= 1 && b->bits[k] <= 1 && (a->bits[k] ^ b->bits[k]) == chain.kept_due[step][k], "kept bit %zu", k);
        for (size_t word = 0; word < c->output_words; word++)
            for (size_t k = 0; k < c->output_width[word]; k++, bit++)
                for (int side = 0; side < 2; side++)
                    CHECK(chain.outputs[side][step][bit] == (c->output_role[word] >> side & 1 ? chain.due[step][bit] : 0), "bit %zu", bit);
    }
}

static void free_chain(void)
{
    for (size_t step = 0; step < CHAIN_MAX; step++)
        for (int side = 0; side < 2; side++)
            companion_free_shares(&chain.kept[side][step]);
}

const uint8_t own_words[2][8] = {{1, 0, 1, 1, 0, 1, 0, 0}, {0, 1, 1, 0, 1, 0, 0, 1}};
struct companion_circuit sharing, adding, opening;
static struct companion_circuit turning; /* each bit, without an AND, with its neighbour */
struct companion_shares state[2];
static struct companion_shares others[2], results[2];
uint8_t shown[2][16];
void build_shared_circuits(void)
{
    struct companion_circuit *const all[] = {&sharing, &adding, &opening, &turning};
    for (int k = 0; k < 4; k++) {
        struct companion_circuit *c = all[k];
        companion_wire a[8], b[8], sum[9], turned[16];
        memset(c, 0, sizeof *c);
        companion_input(c, k == 0 ? COMPANION_ROLE_1 : COMPANION_SHARED, a, 8);
        companion_input(c, k == 0 ? COMPANION_ROLE_2 : COMPANION_SHARED, b, 8);
        if (k == 0) {
            companion_output(c, COMPANION_SHARED, a, 8);
            companion_output(c, COMPANION_SHARED, b, 8);
        } else if (k == 3) {
            for (companion_wire wire = 0; wire < 16; wire++)
                turned[wire] = companion_not(c, companion_xor(c, wire, (companion_wire)((wire + 1) % 16)));
            companion_output(c, COMPANION_SHARED, turned, 16);
        } else {
            companion_sum(c, COMPANION_FLAT, a, b, 8, sum);
            companion_output(c, k == 1 ? COMPANION_SHARED : COMPANION_BOTH, sum, 8);
            if (k == 1)
                companion_output(c, COMPANION_SHARED, a, 8);
        }
    }
}

void stands_for(const char *where, const struct companion_shares *both, uint64_t number, size_t bits)
{
    if (both[0].count != bits || both[1].count != bits || both[0].origin != both[1].origin)
        complain(where, "%zu and %zu shares, or two origins", both[0].count, both[1].count);
    for (size_t k = 0; k < bits; k++)
        if (both[0].bits[k] > 1 || both[1].bits[k] > 1 || (both[0].bits[k] ^ both[1].bits[k]) != (number >> k & 1))
            complain(where, "bit %zu of what is kept", k);
    count_checks(1);
}

void free_both(struct companion_shares *both)
{
    companion_free_shares(&both[0]);
    companion_free_shares(&both[1]);
}

static struct companion_status run_on(struct side *side, const struct companion_circuit *c, const uint8_t *own, size_t first,
                                      const struct companion_shares *given, uint8_t *outputs, struct companion_shares *kept)
{
    struct companion_triples triples = {0, NULL, 0};
    struct expander_described_circuit counts;
    struct companion_status status = companion_count(c, &counts);
    if (status.number == 0)
        status = companion_add_triples(&side->pair, first, counts.ands, &triples);
    return status.number != 0 ? status : companion_run_shared(&side->link, side->pair.role, c, own, given, &triples, outputs, kept);
}

enum { FAULTS_OF_SHARES = 12 };
static size_t sent_before;
static void share_with_fault(struct side *side)
{
    size_t which = side == &sides[1], fault = which ? (size_t)(uintptr_t)side->with : FAULTS_OF_SHARES;
    struct companion_circuit c = adding;
    struct companion_triples triples = {0, NULL, 0};
    struct companion_shares given = {0, NULL, 0}, before;
    const uint8_t *inputs = NULL;
    side->status = open_side(side);
    if (side->status.number == 0)
        side->status = companion_compare_pair(&side->link, &side->pair);
    EXPECT(0, side->status);
    EXPECT(0, run_on(side, &sharing, own_words[which], 0, NULL, NULL, &state[which]));
    EXPECT(0, run_on(side, &sharing, own_words[which], 0, NULL, NULL, &others[which]));
    CHECK(state[which].count == 16 && state[which].origin != others[which].origin, "two runs have one origin");
    EXPECT(0, companion_add_shares(&others[which], 0, 5, &results[which])); /* what a refused run leaves as it was */
    EXPECT(0, companion_add_shares(&state[which], fault == 4 ? 1 : fault == 8 ? 8 : 0,
                                   fault == 8 ? 8 : fault == 1 || fault == 4 ? 15 : 16, &given));
    if (fault == 2 || fault == 4)
        EXPECT(0, companion_add_shares(&state[which], 0, 1, &given));
    if (fault == 3) {
        companion_free_shares(&given);
        EXPECT(0, companion_add_shares(&others[which], 0, 16, &given));
    }
    if (fault == 6)
        given.bits[7] = 2;
    if (fault == 8) {
        c.input_role[0] = COMPANION_ROLE_2;
        inputs = own_words[1];
    }
    if (fault == 9)
        c.output_role[0] = COMPANION_BOTH;
    if (fault == 10)
        c.input_role[0] = COMPANION_BOTH;
    before = results[which];
    EXPECT(0, companion_add_triples(&side->pair, 0, 100, &triples));
    if (which)
        sent_before = side->socket.sent;
    memset(shown[which], 7, sizeof shown[which]);
    if (fault == 7)
        side->status = companion_run(&side->link, side->pair.role, &c, NULL, &triples, shown[which], NULL);
    else if (fault == 11) /* its outputs stay shared, and this call keeps nothing */
        side->status = companion_run(&side->link, side->pair.role, &sharing, own_words[which], &triples, shown[which], NULL);
    else
        side->status = companion_run_shared(&side->link, side->pair.role, &c, inputs, fault == 0 ? NULL : &given, &triples, shown[which],
                                            fault == 5 ? NULL : &results[which]);
    CHECK(triples.bytes == NULL, "triples are spent");
    if (side->status.number != 0)
        CHECK(memcmp(&before, &results[which], sizeof before) == 0 && shown[which][0] == 7 && shown[which][8] == 7,
              "a refused run gave something");
    companion_free_shares(&given);
    companion_free_shares(&others[which]);
    companion_close_pair(&side->pair);
}

static void refuse_shares(void)
{
    static const struct { uint32_t number; int told; const char *words; } dues[FAULTS_OF_SHARES] = {
        {COMPANION_SHARES_COUNT, 1, "16 are needed, 0 are there"}, {COMPANION_SHARES_COUNT, 1, "16 are needed, 15 are there"},
        {COMPANION_SHARES_COUNT, 1, "16 are needed, 17 are there"}, {COMPANION_OTHER_ORIGIN, 0, "come from another run"},
        {COMPANION_OTHER_ORIGIN, 0, "another part"}, {COMPANION_NOT_KEPT, 1, "kept is NULL"}, {COMPANION_NOT_BITS, 1, "no bit"},
        {COMPANION_SHARES_COUNT, 1, "16 are needed, 0 are there"}, {COMPANION_OTHER_SHARES, 0, "other roles"},
        {COMPANION_OTHER_SHARES, 0, "other roles"}, {COMPANION_BAD_WORD, 1, "its role is not admitted"},
        {COMPANION_NOT_KEPT, 1, "outputs that stay shared"}};
    struct companion_shares shares = {0, NULL, 0};
    for (size_t fault = 0; fault <= FAULTS_OF_SHARES; fault++) { /* in the last turn nothing is wrong */
        sides[0].run = sides[1].run = share_with_fault;
        sides[1].with = (void *)(uintptr_t)fault;
        deal_sides(&larger, fault, sides);
        run_both(sides);
        if (fault == FAULTS_OF_SHARES) {
            EXPECT(0, sides[0].status);
            EXPECT(0, sides[1].status);
            STANDS_FOR(state, FIRST_STATE, 16);
            STANDS_FOR(results, NEXT_STATE, 16);
            CHECK(shown[0][0] == 0 && shown[1][15] == 0, "what is kept is shown");
        } else {
            EXPECT(dues[fault].number, sides[1].status);
            SAYS(sides[1].status, dues[fault].words);
            if (dues[fault].told) {
                EXPECT_FAR(dues[fault].number, sides[0].status);
                CHECK(sides[1].socket.sent == sent_before + 4, "fault %zu: %zu bytes were sent", fault, sides[1].socket.sent - sent_before);
            } else {
                EXPECT(dues[fault].number, sides[0].status);
            }
        }
        free_both(state);
        free_both(results);
    }
    EXPECT(COMPANION_SHARES_COUNT, companion_add_shares(&state[0], 0, 1, &shares));
    EXPECT(COMPANION_SHARES_COUNT, companion_add_shares(&state[0], 1, SIZE_MAX, &shares));
    EXPECT(COMPANION_SHARES_COUNT, companion_add_shares(&state[0], SIZE_MAX, 0, &shares));
    CHECK(shares.count == 0 && shares.bits == NULL, "nothing was added");
    EXPECT(0, companion_add_shares(&state[0], 0, 0, &shares));
    companion_free_shares(&shares);
}

/* Of shared words nothing is sent but their origin; and what each end keeps of a bit is as often 1 as 0, whatever the bit is. */
static size_t kept_ones[2];
static void share_and_keep(struct side *side)
{
    size_t which = side == &sides[1], sent;
    struct companion_shares saved;
    uint8_t bits[16];
    EXPECT(0, open_side(side));
    EXPECT(0, companion_compare_pair(&side->link, &side->pair));
    EXPECT(0, run_on(side, &sharing, own_words[which], 0, NULL, NULL, &state[which]));
    for (size_t k = 0; k < 16; k++)
        kept_ones[which] += state[which].bits[k];
    sent = side->socket.sent;
    saved = state[which]; /* as a program that keeps it in a file has it */
    saved.bits = memcpy(bits, saved.bits, saved.count);
    EXPECT(0, run_on(side, &turning, NULL, 0, which ? &saved : &state[which], NULL, &results[which]));
    CHECK(side->socket.sent - sent == (4 + 40) + (4 + 8) + 4 + (4 + 16), "%zu bytes were sent", side->socket.sent - sent);
    EXPECT(0, run_on(side, &adding, NULL, 0, &state[which], NULL, &state[which])); /* what is kept takes the place of what was given */
    EXPECT(0, run_on(side, &adding, NULL, 100, &state[which], NULL, &state[which]));
    side->status = run_on(side, &opening, NULL, 200, &state[which], shown[which], NULL);
    companion_close_pair(&side->pair);
}

static void keep_shares(void)
{
    enum { TURNS = 60 };
    for (size_t turn = 0; turn < TURNS; turn++) {
        uint64_t turned = FIRST_STATE ^ (FIRST_STATE >> 1 | (FIRST_STATE & 1) << 15) ^ 0xffff;
        sides[0].run = sides[1].run = share_and_keep;
        deal_sides(&larger, turn, sides);
        run_both(sides);
        EXPECT(0, sides[0].status);
        EXPECT(0, sides[1].status);
        STANDS_FOR(results, turned, 16);
        STANDS_FOR(state, THIRD_STATE, 16);
        CHECK(companion_from_bits(shown[0], 8) == THIRD_SUM && companion_from_bits(shown[1], 8) == THIRD_SUM, "the sum opened");
        free_both(state);
        free_both(results);
    }
    for (int side = 0; side < 2; side++)
        CHECK(kept_ones[side] > TURNS * 8 - 100 && kept_ones[side] < TURNS * 8 + 100, "%zu of %d kept bits are 1", kept_ones[side],
              TURNS * 16);
}

/* The last exchange parts the ends: one has kept, the other has not. The next run finds that at both; then both go back and run again. */
enum { BEGIN, PART, GO_ON, GO_BACK };
static int turn_of_ends;
static void part_and_go_back(struct side *side)
{
    size_t which = side == &sides[1];
    if (turn_of_ends == BEGIN) {
        EXPECT(0, open_side(side));
        EXPECT(0, companion_compare_pair(&side->link, &side->pair));
    }
    if (turn_of_ends == PART && side->with != NULL)
        flip_link(side);
    side->status = turn_of_ends == BEGIN ? run_on(side, &sharing, own_words[which], 0, NULL, NULL, &state[which])
                   : run_on(side, &adding, NULL, 100 * (size_t)turn_of_ends,
                            turn_of_ends == GO_ON && results[which].count > 0 ? &results[which] : &state[which], NULL, &results[which]);
}

static void part_ends(void)
{
    struct expander_described_circuit counts;
    EXPECT(0, companion_count(&adding, &counts));
    for (int altered_by = 0; altered_by < 2; altered_by++) {
        sides[0].run = sides[1].run = part_and_go_back;
        sides[altered_by].with = &flipped;
        sides[1 - altered_by].with = NULL;
        flipped.place = (4 + 40) + (4 + 8) + 2 * counts.ands + 4 * (counts.rounds - 1) + 4 + 4 + 3; /* in the sums, which are last */
        flipped.bit = 1;
        deal_sides(&larger, 1, sides);
        for (turn_of_ends = BEGIN; turn_of_ends <= GO_BACK; turn_of_ends++) {
            run_both(sides);
            for (int side = 0; side < 2; side++)
                EXPECT(turn_of_ends == GO_ON ? COMPANION_OTHER_ORIGIN : turn_of_ends == PART && side != altered_by ? COMPANION_ALTERED : 0,
                       sides[side].status);
            STANDS_FOR(state, FIRST_STATE, 16);
            if (turn_of_ends == PART)
                CHECK(results[altered_by].count == 16 && results[1 - altered_by].count == 0, "which end has the result");
        }
        STANDS_FOR(results, NEXT_STATE, 16);
        free_both(state);
        free_both(results);
        companion_close_pair(&sides[0].pair);
        companion_close_pair(&sides[1].pair);
    }
}

void test_shares(size_t count)
{
    size_t kept = 0, given = 0;
    for (size_t k = 0; k < count; k++) {
        chain.steps = 1 + draw(CHAIN_MAX);
        for (size_t step = 0; step < chain.steps; step++) {
            plan_step(step);
            kept += chain.kept_bits[step];
            given += chain.parts[step];
        }
        sides[0].run = sides[1].run = run_chain;
        deal_sides(&larger, k, sides);
        run_both(sides);
        EXPECT(0, sides[0].status);
        EXPECT(0, sides[1].status);
        chain_is();
        free_chain();
    }
    build_shared_circuits();
    refuse_shares();
    keep_shares();
    part_ends();
    printf("shares: %zu chains of random circuits as the plain evaluation has them, %zu bits kept, %zu parts of them given; %d ways to be"
           " refused\n", count, kept, given, FAULTS_OF_SHARES);
}
