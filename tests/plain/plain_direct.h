/* A plain second implementation of document 02, request 11, to hold the library to. Written from
 * the documents alone. Parameters lie as in expander.h, and the results are of its types.
 */
#ifndef PLAIN_DIRECT_H
#define PLAIN_DIRECT_H

#include "expander.h"

struct expander_two_lengths plain_noise_direct(
    const uint8_t *source, size_t source_len, size_t first, size_t count,
    uint64_t *u_out, size_t u_out_len, uint64_t *v_out, size_t v_out_len);
struct expander_one_length plain_scalar_direct(
    const uint8_t *source, size_t source_len, size_t first, size_t count,
    uint64_t *w_out, size_t w_out_len);

#endif
