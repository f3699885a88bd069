/* The calls by the library and by the plain implementation in turn: times, their ratio, and the
 * deepest stack.
 *   bench [short]                          the tables; short: at d = 12 alone
 *   bench count CALL WHO FIELD G OUTPUTS   one small call by WHO (library or plain), made by
 *                                          counted_call for a program that counts instructions;
 *                                          prints its cipher calls
 */
#define _GNU_SOURCE
#include "dealing.h"
#include "expander.h"
#include "pairs.h"
#include "plain.h"
#include "stack.h"

#include <stdio.h>
#include <string.h>

enum { MOST_LEAVES = EXPANDER_LEAVES_MAX, MOST_OUTPUTS = EXPANDER_OUTPUTS_MAX };
LIMIT(a_dealing_has_its_trees, MAX_TREES >= EXPANDER_TREES_MAX && PLAIN_TREES >= EXPANDER_TREES_MAX);

/* ---- The calls, on memory of the library's (0) and of the plain implementation's (1) ---- */

static struct dealing x;
static size_t leaves, width, noise_record_len, scalar_record_len;
static size_t count; /* of a window that begins at index 0 */
static struct memory {
    uint8_t noise_record[EXPANDER_NOISE_RECORD_MAX], scalar_record[EXPANDER_SCALAR_RECORD_MAX];
    uint64_t noise[MOST_LEAVES], v[2 * MOST_LEAVES], w[2 * MOST_LEAVES], delta[2];
    uint64_t u_out[MOST_OUTPUTS], v_out[2 * MOST_OUTPUTS], w_out[2 * MOST_OUTPUTS];
    uint8_t v_bytes[16 * MOST_OUTPUTS], w_bytes[16 * MOST_OUTPUTS], choices[MOST_OUTPUTS];
    uint8_t noise_pads[16 * MOST_OUTPUTS], scalar_pads[32 * MOST_OUTPUTS];
} memory[2];

static void accepted(uint32_t number)
{
    if (number != 0) {
        fprintf(stderr, "bench: a call was refused with %u\n", number);
        exit(1);
    }
}

#define DEAL(prefix, m) \
    prefix##_deal(x.field, x.depth, x.branch_bits, x.trees, x.terms, x.outputs, x.roots, \
                  16 * x.trees, x.positions, x.trees, x.values, x.trees, x.delta, 16, x.code_key, \
                  16, x.label, 16, (m)->noise_record, sizeof(m)->noise_record, \
                  (m)->scalar_record, sizeof(m)->scalar_record).number
#define NOISE_OFFLINE(prefix, m) \
    prefix##_noise_offline((m)->noise_record, noise_record_len, (m)->noise, leaves, (m)->v, \
                           width * leaves).number
#define SCALAR_OFFLINE(prefix, m) \
    prefix##_scalar_offline((m)->scalar_record, scalar_record_len, (m)->w, width * leaves, \
                            (m)->delta, 2).number
#define NOISE_ONLINE(prefix, m) \
    prefix##_noise_online((m)->noise_record, noise_record_len, (m)->noise, leaves, (m)->v, \
                          width * leaves, 0, count, (m)->u_out, count, (m)->v_out, \
                          width * count).number
#define SCALAR_ONLINE(prefix, m) \
    prefix##_scalar_online((m)->scalar_record, scalar_record_len, (m)->w, width * leaves, 0, \
                           count, (m)->w_out, width * count).number
#define NOISE_PADS(prefix, m) \
    prefix##_noise_pads(0, count, (m)->v_bytes, 16 * count, (m)->choices, count, \
                        (m)->noise_pads, 16 * count)
#define SCALAR_PADS(prefix, m) \
    prefix##_scalar_pads(0, count, (m)->w_bytes, 16 * count, x.delta, 16, (m)->scalar_pads, \
                         32 * count)

#define CALL(name, CALL_OF) \
    static void name(int who) \
    { \
        accepted(who == 0 ? CALL_OF(expander, &memory[0]) : CALL_OF(plain, &memory[1])); \
    }

CALL(deal, DEAL)
CALL(noise_offline, NOISE_OFFLINE)
CALL(scalar_offline, SCALAR_OFFLINE)
CALL(noise_online, NOISE_ONLINE)
CALL(scalar_online, SCALAR_ONLINE)
CALL(noise_pads, NOISE_PADS)
CALL(scalar_pads, SCALAR_PADS)

/* ---- Their cipher calls, key expansions apart ---- */

/* Every node but the root. */
static size_t nodes(void)
{
    size_t all = 0;
    for (size_t level = leaves; level > 1; level >>= x.branch_bits)
        all += level;
    return all;
}

/* The children at every level of the path to a leaf. */
static size_t on_path(void)
{
    return (x.depth / x.branch_bits) << x.branch_bits;
}

static size_t deal_calls(void)
{
    return x.trees * on_path();
}

static size_t noise_offline_calls(void)
{
    return x.trees * (nodes() - on_path()); /* path and siblings are not worked out */
}

static size_t scalar_offline_calls(void)
{
    return x.trees * nodes();
}

static size_t online_calls(void)
{
    return x.terms * count;
}

static size_t noise_pads_calls(void)
{
    return 2 * count;
}

static size_t scalar_pads_calls(void)
{
    return 4 * count;
}

static const struct job {
    const char *name;
    void (*call)(int who);
    size_t (*cipher_calls)(void);
} jobs[] = {{"deal", deal, deal_calls},
            {"noise_offline", noise_offline, noise_offline_calls},
            {"scalar_offline", scalar_offline, scalar_offline_calls},
            {"noise_online", noise_online, online_calls},
            {"scalar_online", scalar_online, online_calls},
            {"noise_pads", noise_pads, noise_pads_calls},
            {"scalar_pads", scalar_pads, scalar_pads_calls}};

enum { JOBS = sizeof jobs / sizeof *jobs, OFFLINE_JOBS = 3, ONLINE_JOBS = 5 };

/* ---- What the calls are made on ---- */

/* Deal with the largest l. */
static void make(unsigned field, size_t depth, size_t branch_bits, size_t trees, size_t outputs)
{
    struct plain_result lengths;
    memset(memory, 0, sizeof memory);
    leaves = (size_t)1 << depth;
    width = EXPANDER_ELEMENT_WORDS(field);
    make_dealing(&x, field, depth, branch_bits, trees, EXPANDER_TERMS_MAX, outputs);
    for (int who = 0; who < 2; who++) {
        struct memory *m = &memory[who];
        lengths = plain_deal(x.field, x.depth, x.branch_bits, x.trees, x.terms, x.outputs, x.roots,
                             16 * x.trees, x.positions, x.trees, x.values, x.trees, x.delta, 16,
                             x.code_key, 16, x.label, 16, m->noise_record,
                             sizeof m->noise_record, m->scalar_record, sizeof m->scalar_record);
        accepted(lengths.number);
    }
    noise_record_len = lengths.first;
    scalar_record_len = lengths.second;
    count = outputs;
}

/* Lay the outputs out as the pad calls take them. */
static void pad_inputs(void)
{
    for (int who = 0; who < 2; who++)
        for (size_t k = 0; k < x.outputs; k++) {
            struct memory *m = &memory[who];
            struct plain_block v = {m->v_out[2 * k], m->v_out[2 * k + 1]};
            struct plain_block w = {m->w_out[2 * k], m->w_out[2 * k + 1]};
            plain_store(m->v_bytes + 16 * k, v);
            plain_store(m->w_bytes + 16 * k, w);
            m->choices[k] = (uint8_t)m->u_out[k];
        }
}

static void same_results(void)
{
    if (memcmp(&memory[0], &memory[1], sizeof memory[0]) != 0) {
        fprintf(stderr, "bench: the results differ\n");
        exit(1);
    }
}

/* ---- The tables ---- */

static void heading(void)
{
    printf("%-15s %5s %2s %2s %7s %9s %11s %11s %6s %6s %8s %8s %8s\n", "call", "field", "d", "g",
           "outputs", "cipher", "library ms", "plain ms", "ratio", "pairs", "ns a", "library",
           "plain");
    printf("%-15s %5s %2s %2s %7s %9s %11s %11s %6s %6s %8s %8s %8s\n", "", "", "", "", "", "calls",
           "", "", "", "taken", "cipher", "stack", "stack");
}

static void bench(const struct job *job)
{
    size_t empty = stack_touched(NULL, 0), calls = job->cipher_calls();
    struct pairs r = run_pairs(job->call);
    printf("%-15s %5u %2zu %2zu %7zu %9zu %11.4f %11.4f %6.2f %3d/%-2d %8.1f %8zu %8zu\n",
           job->name, x.field, x.depth, x.branch_bits, count, calls, r.library, r.plain, r.ratio,
           r.taken, r.all, 1e6 * r.library / (double)calls, stack_touched(job->call, 0) - empty,
           stack_touched(job->call, 1) - empty);
    fflush(stdout);
}

/* A job on windows of 1, 16, 256 and n outputs. */
static void bench_windows(const struct job *job)
{
    static const size_t windows[] = {1, 16, 256};
    for (size_t k = 0; k < sizeof windows / sizeof *windows; k++) {
        count = windows[k];
        bench(job);
    }
    count = x.outputs;
    bench(job);
}

/* At d = 12 alone, or at every shape. */
static void tables(int every)
{
    static const size_t shapes[][2] = {{12, 1}, {12, 2}, {12, 3}, {15, 3}, {16, 2}, {16, 1}};
    enum { SHAPES = sizeof shapes / sizeof *shapes };
    printf("t = %d, l = %d, n = N / 2; medians of processor time over those pairs of runs whose "
           "plain run is within 6 %% of its best\n", EXPANDER_TREES_MAX, EXPANDER_TERMS_MAX);
    heading();
    for (unsigned field = 1; field <= 2; field++)
        for (int s = 0; s < (every ? SHAPES : 3); s++) {
            make(field, shapes[s][0], shapes[s][1], EXPANDER_TREES_MAX,
                 (size_t)1 << (shapes[s][0] - 1));
            for (int k = 0; k < OFFLINE_JOBS; k++)
                bench(&jobs[k]);
            for (int k = OFFLINE_JOBS; k < ONLINE_JOBS; k++)
                if (shapes[s][0] == 12 || shapes[s][1] == 1)
                    bench_windows(&jobs[k]);
            same_results();
        }
    make(EXPANDER_BINARY, EXPANDER_DEPTH_MAX, 1, EXPANDER_TREES_MAX, MOST_OUTPUTS);
    for (int k = OFFLINE_JOBS - 2; k < ONLINE_JOBS; k++)
        for (int who = 0; who < 2; who++)
            jobs[k].call(who);
    pad_inputs();
    for (int k = ONLINE_JOBS; k < JOBS; k++) /* pads are of field 1 */
        bench_windows(&jobs[k]);
    same_results();
}

/* ---- One call, for a program that counts instructions ---- */

/* Make the call, and return its cipher calls; not inlined, so that it can be named from outside. */
static __attribute__((noinline)) size_t counted_call(const struct job *job, int who)
{
    job->call(who);
    return job->cipher_calls();
}

static int count_call(const char *name, const char *who, unsigned field, size_t branch_bits,
                      size_t outputs)
{
    const struct job *job = jobs, *before = jobs;
    while (job < jobs + JOBS && strcmp(job->name, name) != 0)
        job++;
    if (job == jobs + JOBS || field < 1 || field > 2 || !may_branch(12, branch_bits)
        || outputs < 1 || outputs > 512)
        return 2;
    make(field, 12, branch_bits, 4, 512);
    for (; before < job; before++) /* what the call takes, by the plain implementation */
        before->call(1);
    memory[0] = memory[1];
    pad_inputs();
    count = outputs;
    printf("%zu\n", counted_call(job, strcmp(who, "plain") == 0));
    return 0;
}

int main(int argc, char **argv)
{
    if (argc == 7 && strcmp(argv[1], "count") == 0)
        return count_call(argv[2], argv[3], (unsigned)strtoul(argv[4], NULL, 10),
                          (size_t)strtoul(argv[5], NULL, 10), (size_t)strtoul(argv[6], NULL, 10));
    if (argc > 2 || (argc == 2 && strcmp(argv[1], "short") != 0))
        return 2;
    tables(argc == 1);
    return 0;
}
