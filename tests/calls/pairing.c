/* A pairing, by the library's calls (pairing.h). */
#include "pairing.h"

#include "lend.h"

enum { LEAVES = 2 * PAIRING_MOST };

static uint8_t noise_record[EXPANDER_NOISE_RECORD_MAX], scalar_record[EXPANDER_SCALAR_RECORD_MAX];
static uint64_t noise[LEAVES], v[2 * LEAVES], w[2 * LEAVES];
static uint64_t u_out[PAIRING_MOST], v_out[2 * PAIRING_MOST], w_out[2 * PAIRING_MOST];
static uint8_t v_bytes[16 * PAIRING_MOST], w_bytes[16 * PAIRING_MOST], delta_bytes[16];

/* Elements of two words as bytes, each word least byte first. */
static void to_bytes(uint8_t *bytes, const uint64_t *words, size_t elements)
{
    for (size_t k = 0; k < elements; k++) {
        struct plain_block b = {words[2 * k], words[2 * k + 1]};
        plain_store(bytes + 16 * k, b);
    }
}

void make_pairing(struct pairing *p, size_t outputs)
{
    static struct dealing x;
    struct expander_two_lengths records;
    uint64_t delta[2];
    size_t depth = 1, leaves, branch_bits, trees, c;
    while (((size_t)1 << depth) / 2 < outputs)
        depth++;
    leaves = (size_t)1 << depth;
    describe("pairing of %zu outputs", outputs);
    branch_bits = some_branch_bits(depth);
    trees = 1 + random_below(leaves < 8 ? leaves : 8);
    make_dealing(&x, 1, depth, branch_bits, trees,
                 1 + random_below(leaves < 12 ? leaves : 12), outputs);
    records = expander_deal(x.field, x.depth, x.branch_bits, x.trees, x.terms, x.outputs, x.roots,
                            16 * x.trees, x.positions, x.trees, x.values, x.trees, x.delta, 16,
                            x.code_key, 16, x.label, 16, noise_record, sizeof noise_record,
                            scalar_record, sizeof scalar_record);
    EXPECT(records.number == 0);
    EXPECT(expander_noise_offline(noise_record, records.first_written, noise, LEAVES, v,
                                  2 * LEAVES).number == 0);
    EXPECT(expander_scalar_offline(scalar_record, records.second_written, w, 2 * LEAVES, delta,
                                   2).number == 0);
    to_bytes(delta_bytes, delta, 1);
    p->outputs = outputs;
    for (size_t first = 0; first < outputs; first += c) {
        c = 1 + random_below(outputs - first < 700 ? outputs - first : 700);
        EXPECT(expander_noise_online(noise_record, records.first_written, noise, leaves, v,
                                     2 * leaves, first, c, u_out, PAIRING_MOST, v_out,
                                     2 * PAIRING_MOST).number == 0);
        EXPECT(expander_scalar_online(scalar_record, records.second_written, w, 2 * leaves, first,
                                      c, w_out, 2 * PAIRING_MOST).number == 0);
        for (size_t k = 0; k < c; k++)
            p->choices[first + k] = (uint8_t)u_out[k];
        to_bytes(v_bytes, v_out, c);
        to_bytes(w_bytes, w_out, c);
        EXPECT(expander_noise_pads(first, c, v_bytes, 16 * c, p->choices + first, c,
                                   p->noise_pads + 16 * first, 16 * c) == 0);
        EXPECT(expander_scalar_pads(first, c, w_bytes, 16 * c, delta_bytes, 16,
                                    p->scalar_pads + 32 * first, 32 * c) == 0);
    }
}
