/* One dealing in field 1, both ends, and the correlation at one output. */
#include "expander.h"

#include <stdio.h>

enum { DEPTH = 10, N = 1 << DEPTH, BRANCH_BITS = 2 /* four children a node */ };
enum { TREES = 4, TERMS = 8, OUTPUTS = N / 2, INDEX = 124 };
enum { W = EXPANDER_ELEMENT_WORDS(EXPANDER_BINARY) };

static uint8_t noise_record[EXPANDER_NOISE_RECORD_MAX];
static uint8_t scalar_record[EXPANDER_SCALAR_RECORD_MAX];
static uint64_t noise[N], v[W * N]; /* the noise end's vectors */
static uint64_t w[W * N], delta[2]; /* the scalar end's vector and Delta */

int main(void)
{
    /* In use, all of these are drawn at random. */
    static const uint8_t roots[16 * TREES] = {3, 1, 4, 1, 5, 9, 2, 6};
    static const uint32_t positions[TREES] = {17, 170, 400, 999};
    static const uint64_t values[TREES] = {1, 1, 1, 1};
    static const uint8_t scalar[16] = {2, 7, 1, 8}, code_key[16] = {1, 6, 1, 8};
    /* The label is chosen, another for each dealing. */
    static const uint8_t label[16] = {1};
    struct expander_two_lengths records, lengths;
    struct expander_one_length length;
    struct expander_described record;
    uint64_t u_at, v_at[W], w_at[W];

    records = expander_deal(EXPANDER_BINARY, DEPTH, BRANCH_BITS, TREES, TERMS, OUTPUTS,
                            roots, sizeof roots, positions, TREES, values, TREES,
                            scalar, sizeof scalar, code_key, sizeof code_key,
                            label, sizeof label, noise_record, sizeof noise_record,
                            scalar_record, sizeof scalar_record);
    if (records.number != EXPANDER_ACCEPTED)
        return 1;

    /* The noise end: records.first_written bytes of noise_record are all it needs. They say what
     * they are, and how long its vectors are. */
    record = expander_describe(noise_record, records.first_written);
    if (record.number != EXPANDER_ACCEPTED || record.end != EXPANDER_NOISE_END
        || record.leaves != N || record.element_words != W || INDEX >= record.outputs)
        return 1;
    lengths = expander_noise_offline(noise_record, records.first_written, noise, N, v, W * N);
    if (lengths.number != EXPANDER_ACCEPTED)
        return 1;
    lengths = expander_noise_online(noise_record, records.first_written, noise, N, v, W * N,
                                    INDEX, 1, &u_at, 1, v_at, W);
    if (lengths.number != EXPANDER_ACCEPTED)
        return 1;

    /* The scalar end: records.second_written bytes of scalar_record are all it needs. */
    lengths = expander_scalar_offline(scalar_record, records.second_written, w, W * N, delta, 2);
    if (lengths.number != EXPANDER_ACCEPTED)
        return 1;
    length = expander_scalar_online(scalar_record, records.second_written, w, W * N, INDEX, 1,
                                    w_at, W);
    if (length.number != EXPANDER_ACCEPTED)
        return 1;

    /* w = Delta * u + v, where + is exclusive or and u is 0 or 1. */
    for (int k = 0; k < W; k++)
        if (w_at[k] != (v_at[k] ^ (u_at == 1 ? delta[k] : 0)))
            return 1;
    printf("output %d: u = %d, w = Delta * u + v\n", INDEX, (int)u_at);
    return 0;
}
