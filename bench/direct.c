/* The expansion for the bench by the library and by the plain implementation in turn, both of which
 * walk each leaf once for 32 rows: times of a window of 32 outputs, their ratio, and the deepest
 * stack; and the library's time for 32 outputs beside its time for 1.
 */
#define _GNU_SOURCE
#include "dealing.h"
#include "expander.h"
#include "pairs.h"
#include "plain.h"
#include "plain_direct.h"
#include "stack.h"

#include <stdio.h>
#include <string.h>

enum { DEPTH = 12, TREES = 16, TERMS = 32, OUTPUTS = 1 << (DEPTH - 1), BATCH = 32 };

static struct dealing x;
static size_t width, noise_record_len, scalar_record_len;
static uint8_t noise_record[EXPANDER_NOISE_RECORD_MAX], scalar_record[EXPANDER_SCALAR_RECORD_MAX];
static uint64_t u_out[2][BATCH], v_out[2][2 * BATCH], w_out[2][2 * BATCH];

static void accepted(uint32_t number)
{
    if (number != 0) {
        fprintf(stderr, "direct: a call was refused with %u\n", number);
        exit(1);
    }
}

static void noise_direct(int who, size_t count)
{
    accepted((who == 0 ? expander_noise_direct : plain_noise_direct)(
        noise_record, noise_record_len, 0, count, u_out[who], BATCH, v_out[who], 2 * BATCH).number);
}

static void scalar_direct(int who, size_t count)
{
    accepted((who == 0 ? expander_scalar_direct : plain_scalar_direct)(
        scalar_record, scalar_record_len, 0, count, w_out[who], 2 * BATCH).number);
}

/* By the library (0) or the plain implementation (1). */
static void noise_batch(int who)
{
    noise_direct(who, BATCH);
}

static void scalar_batch(int who)
{
    scalar_direct(who, BATCH);
}

/* By the library: 32 outputs (0) or 1 (1). */
static void noise_many(int one)
{
    noise_direct(0, one ? 1 : BATCH);
}

static void scalar_many(int one)
{
    scalar_direct(0, one ? 1 : BATCH);
}

static void make(unsigned field, size_t branch_bits)
{
    struct plain_result lengths;
    width = EXPANDER_ELEMENT_WORDS(field);
    make_dealing(&x, field, DEPTH, branch_bits, TREES, TERMS, OUTPUTS);
    lengths = plain_deal(x.field, x.depth, x.branch_bits, x.trees, x.terms, x.outputs, x.roots,
                         16 * x.trees, x.positions, x.trees, x.values, x.trees, x.delta, 16,
                         x.code_key, 16, x.label, 16, noise_record, sizeof noise_record,
                         scalar_record, sizeof scalar_record);
    accepted(lengths.number);
    noise_record_len = lengths.first;
    scalar_record_len = lengths.second;
}

static void bench(const char *name, void (*batch)(int), void (*many)(int))
{
    size_t empty = stack_touched(NULL, 0);
    struct pairs r = run_pairs(batch), more = run_pairs(many);
    printf("%-15s %5u %2zu %11.3f %11.3f %6.2f %3d/%-2d %11.3f %8.2f %3d/%-2d %8zu %8zu\n", name,
           x.field, x.branch_bits, r.library, r.plain, r.ratio, r.taken, r.all, more.plain,
           more.ratio, more.taken, more.all, stack_touched(batch, 0) - empty,
           stack_touched(batch, 1) - empty);
    fflush(stdout);
}

int main(void)
{
    printf("the expansion for the bench, d = %d, t = %d, l = %d: a window of %d outputs, and of 1 "
           "by the library\n", DEPTH, TREES, TERMS, BATCH);
    printf("%-15s %5s %2s %11s %11s %6s %6s %11s %8s %6s %8s %8s\n", "call", "field", "g",
           "library ms", "plain ms", "ratio", "pairs", "1 output ms", "32 to 1", "pairs", "library",
           "plain");
    printf("%-15s %5s %2s %11s %11s %6s %6s %11s %8s %6s %8s %8s\n", "", "", "", "", "", "",
           "taken", "", "outputs", "taken", "stack", "stack");
    for (unsigned field = 1; field <= 2; field++)
        for (size_t g = 1; g <= 3; g++) {
            make(field, g);
            bench("noise_direct", noise_batch, noise_many);
            bench("scalar_direct", scalar_batch, scalar_many);
            noise_batch(0);
            scalar_batch(0);
            if (memcmp(u_out[0], u_out[1], sizeof u_out[0]) != 0
                || memcmp(v_out[0], v_out[1], 8 * width * BATCH) != 0
                || memcmp(w_out[0], w_out[1], 8 * width * BATCH) != 0) {
                fprintf(stderr, "direct: the results differ\n");
                return 1;
            }
        }
    return 0;
}
