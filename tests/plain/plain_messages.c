/* A plain second implementation of document 02, request 1 (plain_messages.h). */
#include "plain_messages.h"

enum { BATCH_MOST = 4096 };

static struct expander_one_length answer(uint32_t number, size_t written)
{
    struct expander_one_length r = {number, written};
    return r;
}

static int any_above_1(const uint8_t *bits, size_t count)
{
    for (size_t k = 0; k < count; k++)
        if (bits[k] > 1)
            return 1;
    return 0;
}

/* A block masked by a pad, or unmasked again. */
static void mask(uint8_t out[16], const uint8_t block[16], const uint8_t pad[16])
{
    for (int k = 0; k < 16; k++)
        out[k] = block[k] ^ pad[k];
}

struct expander_one_length plain_correction_bits(
    size_t count, const uint8_t *choices, size_t choices_len, const uint8_t *wanted,
    size_t wanted_len, uint8_t *bits_out, size_t bits_out_len)
{
    if (count > BATCH_MOST || choices_len != count || wanted_len != count)
        return answer(3, 0);
    if (any_above_1(choices, count) || any_above_1(wanted, count))
        return answer(8, 0);
    if (bits_out_len < count)
        return answer(13, 0);
    for (size_t k = 0; k < count; k++)
        bits_out[k] = choices[k] ^ wanted[k];
    return answer(0, count);
}

struct expander_one_length plain_mask_messages(
    size_t count, const uint8_t *bits, size_t bits_len, const uint8_t *pads, size_t pads_len,
    const uint8_t *messages, size_t messages_len, uint8_t *answers_out, size_t answers_out_len)
{
    if (count > BATCH_MOST || bits_len != count || pads_len != 32 * count
        || messages_len != 32 * count)
        return answer(3, 0);
    if (any_above_1(bits, count))
        return answer(8, 0);
    if (answers_out_len < 32 * count)
        return answer(13, 0);
    for (size_t k = 0; k < count; k++) {
        const uint8_t *named = pads + 32 * k + 16 * bits[k];
        const uint8_t *other = pads + 32 * k + 16 * (1 - bits[k]);
        mask(answers_out + 32 * k, messages + 32 * k, named);
        mask(answers_out + 32 * k + 16, messages + 32 * k + 16, other);
    }
    return answer(0, 32 * count);
}

struct expander_one_length plain_unmask_messages(
    size_t count, const uint8_t *wanted, size_t wanted_len, const uint8_t *pads, size_t pads_len,
    const uint8_t *answers, size_t answers_len, uint8_t *messages_out, size_t messages_out_len)
{
    if (count > BATCH_MOST || wanted_len != count || pads_len != 16 * count
        || answers_len != 32 * count)
        return answer(3, 0);
    if (any_above_1(wanted, count))
        return answer(8, 0);
    if (messages_out_len < 16 * count)
        return answer(13, 0);
    for (size_t k = 0; k < count; k++)
        mask(messages_out + 16 * k, answers + 32 * k + 16 * wanted[k], pads + 16 * k);
    return answer(0, 16 * count);
}
