/* A plain second implementation of document 02, request 6, to hold the library to. Written from
 * that document alone. Parameters lie as in expander.h, and the result is of its type.
 */
#ifndef PLAIN_TRIPLES_H
#define PLAIN_TRIPLES_H

#include "expander.h"

struct expander_one_length plain_triples(
    const uint8_t *choices, size_t choices_len, const uint8_t *pads, size_t pads_len,
    const uint8_t *messages, size_t messages_len, uint8_t *triples_out, size_t triples_out_len);

#endif
