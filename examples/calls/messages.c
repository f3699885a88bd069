/* Three messages of the scalar end's choosing, carried over the pads of one dealing. */
#include "expander.h"

#include <stdio.h>
#include <string.h>

enum { DEPTH = 10, N = 1 << DEPTH, BRANCH_BITS = 2, TREES = 4, TERMS = 8, OUTPUTS = N / 2 };
enum { FIRST = 100, COUNT = 3 }; /* at most EXPANDER_BATCH_MAX */

static uint8_t noise_record[EXPANDER_NOISE_RECORD_MAX];
static uint8_t scalar_record[EXPANDER_SCALAR_RECORD_MAX];
static uint64_t noise[N], v[2 * N]; /* the noise end's vectors */
static uint64_t w[2 * N], delta[2]; /* the scalar end's vector and Delta */

/* The noise end's choices and pads at the indices FIRST to FIRST + COUNT - 1. The words of v are lent
 * to the pad call as the bytes that they are in memory. */
static int noise_end(size_t len, uint8_t *choices, uint8_t *pads)
{
    uint64_t u_out[COUNT], v_out[2 * COUNT];
    if (expander_noise_offline(noise_record, len, noise, N, v, 2 * N).number != EXPANDER_ACCEPTED
        || expander_noise_online(noise_record, len, noise, N, v, 2 * N, FIRST, COUNT, u_out, COUNT,
                                 v_out, 2 * COUNT).number != EXPANDER_ACCEPTED)
        return 0;
    for (int k = 0; k < COUNT; k++)
        choices[k] = (uint8_t)u_out[k];
    return expander_noise_pads(FIRST, COUNT, (const uint8_t *)v_out, sizeof v_out, choices, COUNT,
                               pads, 16 * COUNT) == EXPANDER_ACCEPTED;
}

/* The scalar end's pads at the same indices. */
static int scalar_end(size_t len, uint8_t *pads)
{
    uint64_t w_out[2 * COUNT];
    if (expander_scalar_offline(scalar_record, len, w, 2 * N, delta, 2).number != EXPANDER_ACCEPTED
        || expander_scalar_online(scalar_record, len, w, 2 * N, FIRST, COUNT, w_out,
                                  2 * COUNT).number != EXPANDER_ACCEPTED)
        return 0;
    return expander_scalar_pads(FIRST, COUNT, (const uint8_t *)w_out, sizeof w_out,
                                (const uint8_t *)delta, sizeof delta, pads, 32 * COUNT)
        == EXPANDER_ACCEPTED;
}

int main(void)
{
    /* In use, all of these are drawn at random. */
    static const uint8_t roots[16 * TREES] = {3, 1, 4, 1, 5, 9, 2, 6};
    static const uint32_t positions[TREES] = {17, 170, 400, 999};
    static const uint64_t values[TREES] = {1, 1, 1, 1};
    static const uint8_t scalar[16] = {2, 7, 1, 8}, code_key[16] = {1, 6, 1, 8};
    /* The label is chosen, another for each dealing. */
    static const uint8_t label[16] = {1};

    static const char *const texts[COUNT][2] = {{"hold", "offer"}, {"buy", "sell"}, {"no", "yes"}};
    static const uint8_t wanted[COUNT] = {1, 0, 1}; /* known to the noise end alone */
    uint8_t choices[COUNT], noise_pads[16 * COUNT], scalar_pads[32 * COUNT];
    uint8_t messages[32 * COUNT], bits[COUNT], answers[32 * COUNT], opened[16 * COUNT];
    struct expander_two_lengths records;

    records = expander_deal(EXPANDER_BINARY, DEPTH, BRANCH_BITS, TREES, TERMS, OUTPUTS,
                            roots, sizeof roots, positions, TREES, values, TREES,
                            scalar, sizeof scalar, code_key, sizeof code_key,
                            label, sizeof label, noise_record, sizeof noise_record,
                            scalar_record, sizeof scalar_record);
    if (records.number != EXPANDER_ACCEPTED
        || !noise_end(records.first_written, choices, noise_pads)
        || !scalar_end(records.second_written, scalar_pads))
        return 1;

    /* The noise end sends bits. */
    if (expander_correction_bits(COUNT, choices, COUNT, wanted, COUNT, bits, sizeof bits).number
        != EXPANDER_ACCEPTED)
        return 1;

    /* The scalar end sends answers: 16 bytes of message 0, then 16 of message 1, masked. */
    memset(messages, 0, sizeof messages);
    for (int k = 0; k < 2 * COUNT; k++)
        memcpy(messages + 16 * k, texts[k / 2][k % 2], strlen(texts[k / 2][k % 2]));
    if (expander_mask_messages(COUNT, bits, sizeof bits, scalar_pads, sizeof scalar_pads, messages,
                               sizeof messages, answers, sizeof answers).number
        != EXPANDER_ACCEPTED)
        return 1;

    /* The noise end opens the messages that it wanted, and no others. */
    if (expander_unmask_messages(COUNT, wanted, COUNT, noise_pads, sizeof noise_pads, answers,
                                 sizeof answers, opened, sizeof opened).number
        != EXPANDER_ACCEPTED)
        return 1;
    for (int k = 0; k < COUNT; k++)
        if (memcmp(opened + 16 * k, messages + 32 * k + 16 * wanted[k], 16) != 0)
            return 1;
    printf("opened: %.16s, %.16s, %.16s\n", (char *)opened, (char *)opened + 16,
           (char *)opened + 32);
    return 0;
}
