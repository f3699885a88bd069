#include "inner.h"

#include <string.h>

/* What goes into a run and comes out: the caller's, and the rounds made. */
struct ports {
    const uint8_t *own;
    const struct companion_shares *given;
    uint8_t *outputs;
    struct companion_shares *kept;
    size_t rounds;
};

/* All that a run holds, in one piece of memory. */
struct run {
    const struct companion_link *link;
    const struct companion_circuit *circuit;
    const struct companion_shares *given;
    size_t role, len, shared; /* shared: how many inputs are given as shares */
    uint64_t sent, received; /* sums of what was moved */
    uint8_t bytes[COMPANION_CIRCUIT_MAX], shares[EXPANDER_WIRES_MAX], output[EXPANDER_CIRCUIT_OUTPUTS_MAX];
    uint8_t bits[2 * EXPANDER_WIRES_MAX], far[2 * EXPANDER_WIRES_MAX];
    uint8_t giver[EXPANDER_WIRES_MAX], getter[EXPANDER_CIRCUIT_OUTPUTS_MAX]; /* roles of inputs and outputs, bit by bit */
    struct expander_rounded last;
};

/* Exchanges, and adds what was moved to the sums. */
static struct companion_status exchange(struct run *run, const void *own, size_t own_len, void *far, size_t far_len)
{
    struct companion_status status = companion_exchange(run->link, own, own_len, far, far_len);
    run->sent = companion_sum_of(run->sent, own, own_len);
    if (status.number == COMPANION_DONE)
        run->received = companion_sum_of(run->received, far, far_len);
    return status;
}

/* What both ends compare: circuit, who gives and gets how many bits, windows of the triples. */
static struct companion_status compare(struct run *run, uint64_t windows)
{
    const struct companion_circuit *c = run->circuit;
    uint64_t own[5] = {COMPANION_TAG_RUN, run->role, companion_sum_of(0, run->bytes, run->len), 0, windows}, far[5];
    struct companion_status status;
    own[3] = companion_sum_of(own[3], c->input_width, c->input_words * sizeof *c->input_width);
    own[3] = companion_sum_of(own[3], c->input_role, c->input_words);
    own[3] = companion_sum_of(own[3], c->output_width, c->output_words * sizeof *c->output_width);
    own[3] = companion_sum_of(own[3], c->output_role, c->output_words);
    status = exchange(run, own, sizeof own, far, sizeof far);
    NEXT(status, companion_failed(far[0] != own[0] || far[1] + own[1] != COMPANION_BOTH ? COMPANION_OUT_OF_STEP
                                  : far[2] != own[2] ? COMPANION_OTHER_CIRCUIT : far[3] != own[3] ? COMPANION_OTHER_SHARES
                                  : far[4] != own[4] ? COMPANION_OTHER_WINDOWS : COMPANION_DONE));
    return status;
}

/* How many bits of some words are shared. */
static size_t shared_bits(const uint16_t *width, const uint8_t *role, size_t words)
{
    size_t count = 0;
    for (size_t word = 0; word < words; word++)
        count += role[word] == COMPANION_SHARED ? width[word] : 0;
    return count;
}

/* The role of each bit of some words. */
static void spread(const uint16_t *width, const uint8_t *role, size_t words, uint8_t *roles)
{
    for (size_t word = 0; word < words; roles += width[word++])
        memset(roles, role[word], width[word]);
}

struct companion_status companion_test_run(uint8_t role, const struct companion_circuit *c, const uint8_t *own,
                                           const struct companion_shares *given, const struct companion_shares *kept)
{
    uint32_t number = COMPANION_DONE;
    size_t shared = shared_bits(c->input_width, c->input_role, c->input_words), there = given != NULL ? given->count : 0;
    if (role != COMPANION_ROLE_1 && role != COMPANION_ROLE_2)
        return companion_refused("expander_circuit_round", EXPANDER_WRONG_END);
    for (size_t word = 0; word < c->input_words; word++) {
        if (c->input_role[word] != COMPANION_SHARED && c->input_role[word] != COMPANION_ROLE_1 && c->input_role[word] != COMPANION_ROLE_2)
            number = COMPANION_BAD_WORD;
        else if (c->input_role[word] == role && own == NULL)
            return companion_failed(COMPANION_NO_INPUTS);
        for (size_t k = 0; c->input_role[word] == role && k < c->input_width[word]; k++)
            if (*own++ > 1)
                number = COMPANION_NOT_BITS;
    }
    if (number == COMPANION_DONE && shared != there)
        return companion_with_counts(companion_failed(COMPANION_SHARES_COUNT), COMPANION_SHARES_COUNT, shared, there);
    for (size_t k = 0; k < there; k++)
        if (given->bits[k] > 1)
            number = COMPANION_NOT_BITS;
    if (number == COMPANION_DONE && kept == NULL && shared_bits(c->output_width, c->output_role, c->output_words) > 0)
        number = COMPANION_NOT_KEPT;
    return companion_failed(number);
}

/* The role of each bit, and room for what is kept. */
static struct companion_status prepare(struct run *run, struct companion_shares *fresh)
{
    const struct companion_circuit *c = run->circuit;
    spread(c->input_width, c->input_role, c->input_words, run->giver);
    spread(c->output_width, c->output_role, c->output_words, run->getter);
    run->shared = shared_bits(c->input_width, c->input_role, c->input_words);
    fresh->count = shared_bits(c->output_width, c->output_role, c->output_words);
    return fresh->count == 0 ? companion_done() : companion_given(fresh->bits = companion_take(fresh->count));
}

/* Of each of its own bits an end keeps the masked one and sends the mask; neither alone says anything of the bit. Of shares that it is
 * given nothing is sent but where they come from. */
static struct companion_status share(struct run *run, const uint8_t *own)
{
    size_t inputs = run->circuit->inputs, sent = 0, due, origin = run->shared > 0 ? sizeof run->given->origin : 0;
    struct companion_status status = companion_random(run->bits, inputs);
    for (size_t k = 0, at = 0; k < inputs; k++)
        if (run->giver[k] == run->role)
            run->shares[k] = *own++ ^ (run->bits[sent++] &= 1);
        else if (run->giver[k] == COMPANION_SHARED)
            run->shares[k] = run->given->bits[at++];
    due = inputs - run->shared - sent;
    if (origin > 0)
        memcpy(run->bits + sent, &run->given->origin, origin);
    NEXT(status, exchange(run, run->bits, sent + origin, run->far, due + origin));
    for (size_t k = 0, at = 0; k < inputs; k++)
        if (run->giver[k] == COMPANION_BOTH - run->role)
            run->shares[k] = run->far[at++];
    if (origin > 0)
        NEXT(status, companion_failed(memcmp(run->far + due, &run->given->origin, origin) != 0 ? COMPANION_OTHER_ORIGIN : COMPANION_DONE));
    return status;
}

static struct companion_status go(struct run *run, const struct companion_triples *triples, size_t *rounds)
{
    struct companion_status status;
    const uint8_t *bytes = triples->bytes != NULL ? triples->bytes : run->bytes; /* some pointer, where there are none */
    size_t due = 0;
    do {
        run->last = expander_circuit_round((uint8_t)run->role, run->bytes, run->len, run->shares, run->circuit->inputs,
                                           bytes, 3 * triples->count, run->output, sizeof run->output, run->far, due,
                                           run->bits, sizeof run->bits, run->last.state);
        status = companion_refused("expander_circuit_round", run->last.number);
        *rounds += status.number == 0;
        due = run->last.bits_written;
        if (due > 0)
            NEXT(status, exchange(run, run->bits, due, run->far, due));
    } while (status.number == 0 && due > 0);
    return status;
}

/* Each end sends its shares of the outputs that the other one is to have, and combines what it receives. What is kept stays as it is. */
static struct companion_status open_outputs(struct run *run)
{
    size_t count = run->circuit->outputs, sent = 0, due = 0;
    struct companion_status status;
    for (size_t k = 0; k < count; k++) {
        if (run->getter[k] & (COMPANION_BOTH - run->role))
            run->bits[sent++] = run->output[k];
        due += (run->getter[k] & run->role) != 0;
    }
    status = exchange(run, run->bits, sent, run->far, due);
    for (size_t k = 0; k < due; k++)
        if (run->far[k] > 1)
            NEXT(status, companion_failed(COMPANION_NOT_BITS));
    for (size_t k = 0, at = 0; k < count && status.number == 0; k++)
        run->output[k] ^= run->getter[k] & run->role ? run->far[at++] : run->getter[k] == COMPANION_SHARED ? 0 : run->output[k];
    return status;
}

/* What each end sent is what the other received; else something was altered on the way. Both ends find that out. */
static struct companion_status compare_sums(struct run *run)
{
    uint64_t own[2] = {run->sent, run->received}, far[2];
    struct companion_status status = companion_exchange(run->link, own, sizeof own, far, sizeof far);
    NEXT(status, companion_failed(own[0] != far[1] || own[1] != far[0] ? COMPANION_ALTERED : COMPANION_DONE));
    return status;
}

/* Gives what was opened to this end and, apart, what both keep. Both ends have the same sums now: they say where the shares come from. */
static void give(const struct run *run, uint8_t *outputs, struct companion_shares *kept)
{
    int first = run->role == COMPANION_ROLE_1;
    uint64_t moved[2] = {first ? run->sent : run->received, first ? run->received : run->sent};
    for (size_t k = 0, at = 0; k < run->circuit->outputs; k++) {
        int shared = run->getter[k] == COMPANION_SHARED;
        if (shared)
            kept->bits[at++] = run->output[k];
        if (outputs != NULL)
            outputs[k] = shared ? 0 : run->output[k];
    }
    kept->origin = companion_sum_of(COMPANION_SUM, moved, sizeof moved);
}

static struct companion_status run_by(const struct companion_link *link, uint8_t role, const struct companion_circuit *circuit,
                                      struct companion_triples *triples, struct ports *ports)
{
    struct companion_status status = companion_failed(COMPANION_NO_MEMORY);
    struct expander_described_circuit counts;
    struct companion_shares fresh = {0, NULL, 0};
    struct run *run = companion_take(sizeof *run);
    if (run != NULL) {
        run->link = link;
        run->circuit = circuit;
        run->given = ports->given;
        run->role = role;
        run->sent = run->received = COMPANION_SUM;
        status = companion_count(circuit, &counts);
        NEXT(status, companion_with_counts(
            companion_refused("expander_circuit_round", triples->count < counts.ands ? EXPANDER_TOO_FEW_TRIPLES : 0),
            EXPANDER_TOO_FEW_TRIPLES, counts.ands, triples->count));
        NEXT(status, companion_write(circuit, run->bytes, sizeof run->bytes, &run->len));
        NEXT(status, companion_test_run(role, circuit, ports->own, ports->given, ports->kept)); /* before anything is sent */
        NEXT(status, prepare(run, &fresh));
        NEXT(status, compare(run, triples->windows));
        NEXT(status, share(run, ports->own));
        NEXT(status, go(run, triples, &ports->rounds));
        NEXT(status, open_outputs(run));
    }
    companion_tell(link, status);
    NEXT(status, compare_sums(run));
    if (status.number == COMPANION_DONE)
        give(run, ports->outputs, &fresh);
    if (status.number == COMPANION_DONE && ports->kept != NULL) {
        companion_free_shares(ports->kept); /* these may be the given ones */
        *ports->kept = fresh;
    } else {
        companion_free_shares(&fresh);
    }
    companion_give_back(run, sizeof *run);
    companion_free_triples(triples);
    return status;
}

struct companion_status companion_run(const struct companion_link *link, uint8_t role, const struct companion_circuit *circuit,
                                      const uint8_t *own, struct companion_triples *triples, uint8_t *outputs, size_t *rounds)
{
    struct ports ports = {own, NULL, outputs, NULL, 0};
    struct companion_status status = run_by(link, role, circuit, triples, &ports);
    if (rounds != NULL)
        *rounds = ports.rounds;
    return status;
}

struct companion_status companion_run_shared(const struct companion_link *link, uint8_t role, const struct companion_circuit *circuit,
                                             const uint8_t *own, const struct companion_shares *given,
                                             struct companion_triples *triples, uint8_t *outputs, struct companion_shares *kept)
{
    struct ports ports = {own, given, outputs, kept, 0};
    return run_by(link, role, circuit, triples, &ports);
}
