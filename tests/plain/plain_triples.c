/* A plain second implementation of document 02, request 6 (plain_triples.h). */
#include "plain_triples.h"

static struct expander_one_length answer(uint32_t number, size_t written)
{
    struct expander_one_length r = {number, written};
    return r;
}

/* The lowest bit of a pad's first byte. */
static uint8_t lowest_bit(const uint8_t *pad)
{
    return pad[0] % 2;
}

struct expander_one_length plain_triples(
    const uint8_t *choices, size_t choices_len, const uint8_t *pads, size_t pads_len,
    const uint8_t *messages, size_t messages_len, uint8_t *triples_out, size_t triples_out_len)
{
    size_t c = choices_len;
    if (pads_len != 16 * c || messages_len != 32 * c)
        return answer(3, 0);
    if (triples_out_len < 3 * c)
        return answer(13, 0);
    for (size_t k = 0; k < c; k++)
        if (choices[k] > 1)
            return answer(8, 0);
    for (size_t k = 0; k < c; k++) {
        uint8_t a = choices[k], h = lowest_bit(pads + 16 * k);
        uint8_t r = lowest_bit(messages + 32 * k), q = lowest_bit(messages + 32 * k + 16);
        triples_out[3 * k] = a;
        triples_out[3 * k + 1] = r ^ q;
        triples_out[3 * k + 2] = (a & (r ^ q)) ^ h ^ r;
    }
    return answer(0, 3 * c);
}
