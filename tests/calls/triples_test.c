/* The call of AND triples held to the plain implementation, through expander.h (lend.h). */
#include "lend.h"
#include "pairing.h"
#include "../plain/plain_triples.h"

#include <string.h>

enum { MOST = PAIRING_MOST, TRIPLES = 0, CALLS };

static const struct call calls[CALLS] = {{"triples", BIT(0) | BIT(3) | BIT(8) | BIT(13)}};

/* One call by both; what the library wrote goes to out, if not NULL. */
static uint32_t try_triples(const uint8_t *choices, size_t c, const uint8_t *pads, size_t pads_len,
                            const uint8_t *messages, size_t messages_len, size_t room,
                            uint8_t *out)
{
    struct plain_result mine, plain;
    describe("triples(%zu, %zu, %zu, %zu)", c, pads_len, messages_len, room);
    lend(0, choices, c, 1);
    lend(1, pads, pads_len, 1);
    lend(2, messages, messages_len, 1);
    lend(3, NULL, room, 1);
    mine = one(expander_triples(LIBRARY(0, uint8_t), c, LIBRARY(1, uint8_t), pads_len,
                                LIBRARY(2, uint8_t), messages_len, LIBRARY(3, uint8_t), room));
    plain = one(plain_triples(PLAIN(0, uint8_t), c, PLAIN(1, uint8_t), pads_len,
                              PLAIN(2, uint8_t), messages_len, PLAIN(3, uint8_t), room));
    settle(TRIPLES, mine, plain, 3, 1, plain.first, 0);
    keep(out, 3, plain.first);
    return mine.number;
}

/* ---- Two dealings with the roles exchanged ---- */

static struct pairing pairings[2]; /* end 0 is the noise end of 0, end 1 that of 1 */
static unsigned long met[2][2][2][2]; /* outputs, by both ends' first and second bits */

/* Both ends' triples, combined: of c outputs from these indices of each dealing on. */
static void combine(size_t c, const size_t first[2])
{
    static uint8_t triples[2][3 * MOST];
    for (int end = 0; end < 2; end++) {
        const struct pairing *noise = &pairings[end], *scalar = &pairings[1 - end];
        EXPECT(try_triples(noise->choices + first[end], c, noise->noise_pads + 16 * first[end],
                           16 * c, scalar->scalar_pads + 32 * first[1 - end], 32 * c,
                           3 * c + random_extra(9), triples[end]) == 0);
    }
    for (size_t k = 0; k < c; k++) {
        const uint8_t *one_end = triples[0] + 3 * k, *other = triples[1] + 3 * k;
        for (int bit = 0; bit < 3; bit++)
            EXPECT(one_end[bit] <= 1 && other[bit] <= 1);
        EXPECT((one_end[2] ^ other[2]) == ((one_end[0] ^ other[0]) & (one_end[1] ^ other[1])));
        met[one_end[0]][other[0]][one_end[1]][other[1]]++;
    }
}

static void dealings(void)
{
    const size_t outputs[] = {1, 3, 200, 4096};
    for (int k = 0; k < 4; k++) {
        size_t n = outputs[k], same[2] = {0, 0};
        make_pairing(&pairings[0], n);
        make_pairing(&pairings[1], n);
        combine(n, same);
        for (int round = 0; round < 6; round++) { /* equal indices, then any */
            size_t c = random_below(n + 1);
            same[0] = same[1] = random_below(n - c + 1);
            combine(c, same);
            same[1] = random_below(n - c + 1);
            combine(c, same);
        }
    }
    for (int k = 0; k < 16; k++)
        EXPECT(met[k / 8][k / 4 % 2][k / 2 % 2][k % 2] > 0);
}

/* Every choice and every lowest bit, all other bits of the pads at random. */
static void every_bit(void)
{
    uint8_t choice, pad[16], both[32], out[3];
    for (int round = 0; round < 50; round++)
        for (int set = 0; set < 16; set++) {
            random_bytes(pad, 16);
            random_bytes(both, 32);
            choice = set & 1;
            pad[0] = (uint8_t)((pad[0] & 0xfe) | (set >> 1 & 1));
            both[0] = (uint8_t)((both[0] & 0xfe) | (set >> 2 & 1));
            both[16] = (uint8_t)((both[16] & 0xfe) | (set >> 3 & 1));
            EXPECT(try_triples(&choice, 1, pad, 16, both, 32, 3, out) == 0);
            EXPECT(out[0] == choice && out[1] == ((set >> 2 & 1) ^ (set >> 3 & 1)));
        }
}

/* There is no largest count. */
static void many_outputs(void)
{
    enum { MANY = 32768 };
    static uint8_t choices[MANY], pads[16 * MANY], messages[32 * MANY];
    random_bytes(pads, sizeof pads);
    random_bytes(messages, sizeof messages);
    for (size_t k = 0; k < MANY; k++)
        choices[k] = random_word() & 1;
    for (size_t c = MANY; c > MOST; c = c / 2 + 1)
        EXPECT(try_triples(choices, c, pads, 16 * c, messages, 32 * c, 3 * c, NULL) == 0);
}

/* ---- Refusals ---- */

/* Every set of faults in c outputs: of each input length, of a choice, and of the room. */
static void refusals(size_t c)
{
    static uint8_t choices[MOST + 1], pads[16 * MOST + 32], messages[32 * MOST + 32];
    const size_t pads_lens[] = {16 * c, 16 * c + 1, c > 0 ? 16 * c - 1 : 16, 0, 16 * c + 16};
    const size_t messages_lens[] = {32 * c, 32 * c + 1, c > 0 ? 32 * c - 1 : 32, 0, 16 * c};
    const size_t rooms[] = {3 * c, 3 * c + 1, c > 0 ? 3 * c - 1 : 0, 0};
    for (int set = 0; set < 5 * 5 * 4 * 4; set++) {
        size_t pads_len = pads_lens[set % 5], messages_len = messages_lens[set / 5 % 5];
        size_t room = rooms[set / 25 % 4];
        int fault = set / 100, bad_choice = fault > 0 && c > 0;
        uint32_t number;
        random_bytes(pads, pads_len);
        random_bytes(messages, messages_len);
        for (size_t k = 0; k < c; k++)
            choices[k] = random_word() & 1;
        if (bad_choice)
            choices[fault == 1 ? 0 : fault == 2 ? c - 1 : random_below(c)]
                = (uint8_t[]){2, 3, 0x80, 0xff}[random_below(4)];
        number = pads_len != 16 * c || messages_len != 32 * c ? 3
               : room < 3 * c ? 13 : bad_choice ? 8 : 0;
        EXPECT(try_triples(choices, c, pads, pads_len, messages, messages_len, room, NULL)
               == number);
    }
}

int main(void)
{
    begin(calls, CALLS);
    dealings();
    every_bit();
    many_outputs();
    for (size_t c = 0; c < 6; c++)
        refusals(c);
    refusals(300);
    return finish();
}
