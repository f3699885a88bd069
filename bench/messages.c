/* The three message calls at the largest batch, by the library beside the plain implementation, which
 * masks byte by byte, and beside plain C that masks by blocks: times and their ratios.
 *   messages                  the table
 *   messages count CALL WHO   one call by WHO (library, plain or blocks), made by counted_call for a
 *                             program that counts instructions
 */
#define _GNU_SOURCE
#include "dealing.h"
#include "expander.h"
#include "pairs.h"
#include "plain_messages.h"

#include <stdio.h>
#include <string.h>

enum { COUNT = EXPANDER_BATCH_MAX };
enum { LIBRARY, PLAIN, BLOCKS, WAYS };

/* ---- Plain C by blocks: a block is masked as two words, and no bit ends the test of the bits ---- */

static struct expander_one_length answer(uint32_t number, size_t written)
{
    struct expander_one_length r = {number, written};
    return r;
}

static int any_above_1(const uint8_t *bits, size_t count)
{
    uint8_t all = 0;
    for (size_t k = 0; k < count; k++)
        all = (uint8_t)(all | bits[k]);
    return all > 1;
}

static void mask(uint8_t *out, const uint8_t *block, const uint8_t *pad)
{
    uint64_t a[2], b[2];
    memcpy(a, block, sizeof a);
    memcpy(b, pad, sizeof b);
    a[0] ^= b[0];
    a[1] ^= b[1];
    memcpy(out, a, sizeof a);
}

static struct expander_one_length blocks_correction_bits(
    size_t count, const uint8_t *choices, size_t choices_len, const uint8_t *wanted,
    size_t wanted_len, uint8_t *bits_out, size_t bits_out_len)
{
    if (count > COUNT || choices_len != count || wanted_len != count)
        return answer(EXPANDER_BAD_LENGTH, 0);
    if (any_above_1(choices, count) || any_above_1(wanted, count))
        return answer(EXPANDER_NOT_ELEMENT, 0);
    if (bits_out_len < count)
        return answer(EXPANDER_BUFFER_SHORT, 0);
    for (size_t k = 0; k < count; k++)
        bits_out[k] = choices[k] ^ wanted[k];
    return answer(EXPANDER_ACCEPTED, count);
}

static struct expander_one_length blocks_mask_messages(
    size_t count, const uint8_t *bits, size_t bits_len, const uint8_t *pads, size_t pads_len,
    const uint8_t *messages, size_t messages_len, uint8_t *answers_out, size_t answers_out_len)
{
    if (count > COUNT || bits_len != count || pads_len != 32 * count || messages_len != 32 * count)
        return answer(EXPANDER_BAD_LENGTH, 0);
    if (any_above_1(bits, count))
        return answer(EXPANDER_NOT_ELEMENT, 0);
    if (answers_out_len < 32 * count)
        return answer(EXPANDER_BUFFER_SHORT, 0);
    for (size_t k = 0; k < count; k++) {
        size_t first = 32 * k, bit = bits[k];
        mask(answers_out + first, messages + first, pads + first + 16 * bit);
        mask(answers_out + first + 16, messages + first + 16, pads + first + 16 * (1 - bit));
    }
    return answer(EXPANDER_ACCEPTED, 32 * count);
}

static struct expander_one_length blocks_unmask_messages(
    size_t count, const uint8_t *wanted, size_t wanted_len, const uint8_t *pads, size_t pads_len,
    const uint8_t *answers, size_t answers_len, uint8_t *messages_out, size_t messages_out_len)
{
    if (count > COUNT || wanted_len != count || pads_len != 16 * count
        || answers_len != 32 * count)
        return answer(EXPANDER_BAD_LENGTH, 0);
    if (any_above_1(wanted, count))
        return answer(EXPANDER_NOT_ELEMENT, 0);
    if (messages_out_len < 16 * count)
        return answer(EXPANDER_BUFFER_SHORT, 0);
    for (size_t k = 0; k < count; k++)
        mask(messages_out + 16 * k, answers + 32 * k + 16 * (size_t)wanted[k], pads + 16 * k);
    return answer(EXPANDER_ACCEPTED, 16 * count);
}

/* ---- The calls, on random bits and blocks; each way writes to memory of its own ---- */

static uint8_t choices[COUNT], wanted[COUNT];
static uint8_t noise_pads[16 * COUNT], scalar_pads[32 * COUNT], messages[32 * COUNT];
static uint8_t bits[WAYS][COUNT], answers[WAYS][32 * COUNT], opened[WAYS][16 * COUNT];

static void accepted(struct expander_one_length r)
{
    if (r.number != EXPANDER_ACCEPTED) {
        fprintf(stderr, "messages: a call was refused with %u\n", r.number);
        exit(1);
    }
}

static void correction_bits(int way)
{
    accepted((way == LIBRARY ? expander_correction_bits
              : way == PLAIN ? plain_correction_bits : blocks_correction_bits)(
        COUNT, choices, COUNT, wanted, COUNT, bits[way], COUNT));
}

static void mask_messages(int way)
{
    accepted((way == LIBRARY ? expander_mask_messages
              : way == PLAIN ? plain_mask_messages : blocks_mask_messages)(
        COUNT, bits[PLAIN], COUNT, scalar_pads, sizeof scalar_pads, messages, sizeof messages,
        answers[way], sizeof answers[way]));
}

static void unmask_messages(int way)
{
    accepted((way == LIBRARY ? expander_unmask_messages
              : way == PLAIN ? plain_unmask_messages : blocks_unmask_messages)(
        COUNT, wanted, COUNT, noise_pads, sizeof noise_pads, answers[PLAIN], sizeof answers[PLAIN],
        opened[way], sizeof opened[way]));
}

static const struct job {
    const char *name;
    void (*call)(int way);
} jobs[] = {{"correction_bits", correction_bits},
            {"mask_messages", mask_messages},
            {"unmask_messages", unmask_messages}};

enum { JOBS = sizeof jobs / sizeof *jobs };

static void random_bits(uint8_t *to, size_t count)
{
    for (size_t k = 0; k < count; k++)
        to[k] = random_word() & 1;
}

/* Every way by every job, each on what the one before wrote; all ways write the same. */
static void make(void)
{
    random_bits(choices, sizeof choices);
    random_bits(wanted, sizeof wanted);
    random_bytes(noise_pads, sizeof noise_pads);
    random_bytes(scalar_pads, sizeof scalar_pads);
    random_bytes(messages, sizeof messages);
    for (size_t k = 0; k < JOBS; k++)
        for (int way = WAYS - 1; way >= 0; way--)
            jobs[k].call(way);
    for (int way = 0; way < WAYS; way++)
        if (memcmp(bits[way], bits[PLAIN], sizeof bits[way]) != 0
            || memcmp(answers[way], answers[PLAIN], sizeof answers[way]) != 0
            || memcmp(opened[way], opened[PLAIN], sizeof opened[way]) != 0) {
            fprintf(stderr, "messages: the results differ\n");
            exit(1);
        }
}

/* ---- The table ---- */

static const struct job *timed;

static void beside_plain(int who)
{
    timed->call(who == 0 ? LIBRARY : PLAIN);
}

static void beside_blocks(int who)
{
    timed->call(who == 0 ? LIBRARY : BLOCKS);
}

static void table(void)
{
    printf("%-15s %7s %10s %10s %6s %6s %10s %6s %6s\n", "call", "outputs", "library us", "plain us",
           "ratio", "pairs", "blocks us", "ratio", "pairs");
    for (size_t k = 0; k < JOBS; k++) {
        struct pairs plain, blocks;
        timed = &jobs[k];
        plain = run_pairs(beside_plain);
        blocks = run_pairs(beside_blocks);
        printf("%-15s %7d %10.3f %10.3f %6.2f %3d/%-2d %10.3f %6.2f %3d/%-2d\n", timed->name, COUNT,
               1e3 * blocks.library, 1e3 * plain.plain, plain.ratio, plain.taken, plain.all,
               1e3 * blocks.plain, blocks.ratio, blocks.taken, blocks.all);
        fflush(stdout);
    }
}

/* Not inlined, so that it can be named from outside. */
static __attribute__((noinline)) void counted_call(const struct job *job, int way)
{
    job->call(way);
}

int main(int argc, char **argv)
{
    static const char *const ways[WAYS] = {"library", "plain", "blocks"};
    make();
    if (argc == 1) {
        table();
        return 0;
    }
    if (argc == 4 && strcmp(argv[1], "count") == 0)
        for (size_t k = 0; k < JOBS; k++)
            for (int way = 0; way < WAYS; way++)
                if (strcmp(argv[2], jobs[k].name) == 0 && strcmp(argv[3], ways[way]) == 0) {
                    counted_call(&jobs[k], way);
                    return 0;
                }
    return 2;
}
