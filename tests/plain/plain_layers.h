/* A plain second implementation of the sum of layers, to hold the library to. Written from expander.h
 * alone. Parameters lie as there, and the result is of its type.
 */
#ifndef PLAIN_LAYERS_H
#define PLAIN_LAYERS_H

#include "expander.h"

/* expander_add; plain.h has another plain_add, of two elements. */
struct expander_one_length plain_add_vector(
    uint8_t field, const uint64_t *from, size_t from_len, uint64_t *into, size_t into_len);

#endif
