/* A plain second implementation of the sum of layers (plain_layers.h). */
#include "plain_layers.h"

static const uint64_t p = (UINT64_C(1) << 61) - 1;

static struct expander_one_length answer(uint32_t number, size_t written)
{
    struct expander_one_length r = {number, written};
    return r;
}

struct expander_one_length plain_add_vector(
    uint8_t field, const uint64_t *from, size_t from_len, uint64_t *into, size_t into_len)
{
    if (field != 1 && field != 2)
        return answer(1, 0);
    if (from_len != into_len)
        return answer(3, 0);
    if (field == 1) {
        for (size_t k = 0; k < into_len; k++)
            into[k] ^= from[k];
        return answer(0, into_len);
    }
    for (size_t k = 0; k < into_len; k++)
        if (from[k] >= p || into[k] >= p)
            return answer(8, 0);
    for (size_t k = 0; k < into_len; k++) {
        uint64_t sum = from[k] + into[k]; /* below 2^62 */
        into[k] = sum < p ? sum : sum - p;
    }
    return answer(0, into_len);
}
