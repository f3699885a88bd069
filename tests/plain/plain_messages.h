/* A plain second implementation of document 02, request 1, to hold the library to. Written from
 * that document alone. Parameters lie as in expander.h, and the results are of its types.
 */
#ifndef PLAIN_MESSAGES_H
#define PLAIN_MESSAGES_H

#include "expander.h"

struct expander_one_length plain_correction_bits(
    size_t count, const uint8_t *choices, size_t choices_len, const uint8_t *wanted,
    size_t wanted_len, uint8_t *bits_out, size_t bits_out_len);
struct expander_one_length plain_mask_messages(
    size_t count, const uint8_t *bits, size_t bits_len, const uint8_t *pads, size_t pads_len,
    const uint8_t *messages, size_t messages_len, uint8_t *answers_out, size_t answers_out_len);
struct expander_one_length plain_unmask_messages(
    size_t count, const uint8_t *wanted, size_t wanted_len, const uint8_t *pads, size_t pads_len,
    const uint8_t *answers, size_t answers_len, uint8_t *messages_out, size_t messages_out_len);

#endif
