/* The calls of chosen messages held to the plain implementation, through expander.h (lend.h). */
#include "lend.h"
#include "pairing.h"
#include "../plain/plain_messages.h"

#include <string.h>

enum { BATCH = EXPANDER_BATCH_MAX, MOST = BATCH + 8, INPUTS = 3 };
enum { CORRECTION_BITS, MASK_MESSAGES, UNMASK_MESSAGES, CALLS };

static const struct call calls[CALLS] = {
    {"correction_bits", BIT(0) | BIT(3) | BIT(8) | BIT(13)},
    {"mask_messages", BIT(0) | BIT(3) | BIT(8) | BIT(13)},
    {"unmask_messages", BIT(0) | BIT(3) | BIT(8) | BIT(13)},
};

/* What each call takes and writes, in bytes an output; bits stand in the inputs of 1. */
static const struct shape {
    int inputs;
    size_t in[INPUTS], out;
} shapes[CALLS] = {{2, {1, 1, 0}, 1}, {3, {1, 32, 32}, 32}, {3, {1, 16, 32}, 16}};

/* One call by both, on so many bytes of each input and of the output; what the library wrote goes
 * to out, if not NULL. */
static uint32_t try_call(int call, size_t count, const uint8_t *const in[INPUTS],
                         const size_t len[INPUTS], size_t room, uint8_t *out)
{
    struct plain_result mine = {0, 0, 0}, plain = {0, 0, 0};
    int inputs = shapes[call].inputs;
    describe("%s(%zu, %zu, %zu, %zu, %zu)", calls[call].name, count, len[0], len[1],
             inputs == 3 ? len[2] : 0, room);
    for (int k = 0; k < inputs; k++)
        lend(k, in[k], len[k], 1);
    lend(inputs, NULL, room, 1);
    switch (call) {
    case CORRECTION_BITS:
        mine = one(expander_correction_bits(count, LIBRARY(0, uint8_t), len[0],
                                            LIBRARY(1, uint8_t), len[1], LIBRARY(2, uint8_t),
                                            room));
        plain = one(plain_correction_bits(count, PLAIN(0, uint8_t), len[0], PLAIN(1, uint8_t),
                                          len[1], PLAIN(2, uint8_t), room));
        break;
    case MASK_MESSAGES:
        mine = one(expander_mask_messages(count, LIBRARY(0, uint8_t), len[0], LIBRARY(1, uint8_t),
                                          len[1], LIBRARY(2, uint8_t), len[2], LIBRARY(3, uint8_t),
                                          room));
        plain = one(plain_mask_messages(count, PLAIN(0, uint8_t), len[0], PLAIN(1, uint8_t),
                                        len[1], PLAIN(2, uint8_t), len[2], PLAIN(3, uint8_t),
                                        room));
        break;
    case UNMASK_MESSAGES:
        mine = one(expander_unmask_messages(count, LIBRARY(0, uint8_t), len[0],
                                            LIBRARY(1, uint8_t), len[1], LIBRARY(2, uint8_t),
                                            len[2], LIBRARY(3, uint8_t), room));
        plain = one(plain_unmask_messages(count, PLAIN(0, uint8_t), len[0], PLAIN(1, uint8_t),
                                          len[1], PLAIN(2, uint8_t), len[2], PLAIN(3, uint8_t),
                                          room));
        break;
    }
    settle(call, mine, plain, inputs, 1, plain.first, 0);
    keep(out, inputs, plain.first);
    return mine.number;
}

/* ---- Transfers ---- */

static struct pairing pairing;
static unsigned long met[2][2]; /* outputs transferred, by choice and wanted bit */

/* What each end holds for a batch. */
static uint8_t choices[MOST], wanted[MOST], noise_pads[16 * MOST];
static uint8_t scalar_pads[32 * MOST], messages[32 * MOST];
/* What is sent, and what is opened. */
static uint8_t bits[MOST], answers[32 * MOST], opened[16 * MOST];

/* One call on exactly the lengths of a batch. */
static uint32_t whole(int call, size_t c, const uint8_t *a, const uint8_t *b, const uint8_t *d,
                      uint8_t *out)
{
    const struct shape *s = &shapes[call];
    const uint8_t *const in[INPUTS] = {a, b, d};
    const size_t len[INPUTS] = {s->in[0] * c, s->in[1] * c, s->in[2] * c};
    return try_call(call, c, in, len, s->out * c + random_extra(40), out);
}

/* Take outputs from the pairing, a window or any c of them, and move chosen messages. */
static void transfer(size_t c, int window, int want)
{
    size_t first = random_below(pairing.outputs - c + 1);
    random_bytes(messages, 32 * c);
    for (size_t k = 0; k < c; k++) {
        size_t x = window ? first + k : random_below(pairing.outputs);
        choices[k] = pairing.choices[x];
        memcpy(noise_pads + 16 * k, pairing.noise_pads + 16 * x, 16);
        memcpy(scalar_pads + 32 * k, pairing.scalar_pads + 32 * x, 32);
        wanted[k] = (uint8_t[]){0, 1, choices[k], 1 - choices[k], random_word() & 1}[want];
        met[choices[k]][wanted[k]]++;
    }
    EXPECT(whole(CORRECTION_BITS, c, choices, wanted, NULL, bits) == 0);
    EXPECT(whole(MASK_MESSAGES, c, bits, scalar_pads, messages, answers) == 0);
    EXPECT(whole(UNMASK_MESSAGES, c, wanted, noise_pads, answers, opened) == 0);
    for (size_t k = 0; k < c; k++)
        EXPECT(memcmp(opened + 16 * k, messages + 32 * k + 16 * wanted[k], 16) == 0);
}

static void transfers(void)
{
    const size_t outputs[] = {1, 2, 64, 1000, 4096};
    for (int k = 0; k < 5; k++) {
        make_pairing(&pairing, outputs[k]);
        for (int want = 0; want < 5; want++)
            for (int window = 0; window < 2; window++) {
                transfer(0, window, want);
                transfer(1, window, want);
                transfer(pairing.outputs, window, want);
                transfer(random_below(pairing.outputs + 1), window, want);
            }
    }
    for (int k = 0; k < 4; k++)
        EXPECT(met[k / 2][k % 2] > 0);
}

/* ---- Refusals ---- */

static uint8_t input[INPUTS][32 * MOST];

static void fill_inputs(int call, size_t c)
{
    for (int k = 0; k < shapes[call].inputs; k++) {
        random_bytes(input[k], shapes[call].in[k] * c + 1);
        if (shapes[call].in[k] == 1)
            for (size_t j = 0; j <= c; j++)
                input[k][j] &= 1;
    }
}

/* A batch of c with these faults, one for each input's length, each input's bits and the output;
 * the number is that of the first test that fails. */
static void faulty(int call, size_t c, const int length[INPUTS], const int bit[INPUTS], int room)
{
    const struct shape *s = &shapes[call];
    const uint8_t *const in[INPUTS] = {input[0], input[1], input[2]};
    size_t len[INPUTS] = {0, 0, 0}, out = s->out * c;
    int bad_length = c > BATCH, bad_bit = 0, spoiled[INPUTS] = {0, 0, 0};
    size_t at[INPUTS] = {0, 0, 0};
    for (int k = 0; k < s->inputs; k++) {
        size_t exact = s->in[k] * c;
        len[k] = (size_t[]){exact, exact + 1, exact > 0 ? exact - 1 : 0, 0}[length[k]];
        bad_length |= len[k] != exact;
        if (bit[k] > 0 && s->in[k] == 1 && c > 0) {
            at[k] = bit[k] == 1 ? 0 : bit[k] == 2 ? c - 1 : random_below(c);
            spoiled[k] = 1 + input[k][at[k]];
            input[k][at[k]] = (uint8_t[]){2, 3, 0x80, 0xff}[random_below(4)];
            bad_bit = 1;
        }
    }
    room = room == 2 && out == 0 ? 0 : room;
    out = (size_t[]){out, out + 1, out - 1, 0}[room];
    EXPECT(try_call(call, c, in, len, out, NULL)
           == (bad_length ? 3u : bad_bit ? 8u : out < s->out * c ? 13u : 0u));
    for (int k = 0; k < s->inputs; k++)
        if (spoiled[k])
            input[k][at[k]] = (uint8_t)(spoiled[k] - 1);
}

/* Every set of faults in small batches, and any in batches about the largest. */
static void refusals(int call)
{
    const size_t small[] = {0, 1, 2, 7}, large[] = {BATCH - 1, BATCH, BATCH + 1, BATCH + 2};
    int third = shapes[call].inputs == 3 ? 4 : 1, second_bit = call == CORRECTION_BITS ? 4 : 1;
    for (int k = 0; k < 4; k++) {
        fill_inputs(call, small[k]);
        for (int set = 0; set < 4 * 4 * third * 4 * second_bit * 4; set++) {
            int rest = set / 16, length[INPUTS] = {set % 4, set / 4 % 4, 0}, bit[INPUTS] = {0};
            length[2] = rest % third;
            rest /= third;
            bit[0] = rest % 4;
            rest /= 4;
            bit[1] = rest % second_bit;
            faulty(call, small[k], length, bit, rest / second_bit);
        }
        fill_inputs(call, large[k]);
        for (int round = 0; round < 60; round++) {
            int length[INPUTS], bit[INPUTS], some = 2 + 3 * (round % 2);
            for (int j = 0; j < INPUTS; j++) {
                length[j] = random_below((size_t)some) ? 0 : (int)random_below(4);
                bit[j] = random_below((size_t)some) ? 0 : (int)random_below(4);
            }
            faulty(call, large[k], length, bit,
                   random_below((size_t)some) ? 0 : (int)random_below(4));
        }
    }
}

/* Counts that agree with the lengths only where a product or a narrow number wraps. */
static void wide_counts(int call)
{
    const struct shape *s = &shapes[call];
    const uint8_t *const in[INPUTS] = {input[0], input[1], input[2]};
    fill_inputs(call, 8);
    for (int shift = 8; shift < 8 * (int)sizeof(size_t); shift++)
        for (size_t c = 0; c < 3; c++) {
            const size_t len[INPUTS] = {s->in[0] * c, s->in[1] * c, s->in[2] * c};
            EXPECT(try_call(call, ((size_t)1 << shift) + c, in, len, s->out * c, NULL) == 3);
            EXPECT(try_call(call, SIZE_MAX - c, in, len, s->out * c, NULL) == 3);
        }
}

int main(void)
{
    begin(calls, CALLS);
    transfers();
    for (int call = 0; call < CALLS; call++) {
        refusals(call);
        wide_counts(call);
    }
    return finish();
}
