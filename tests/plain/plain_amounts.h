/* A plain second implementation of document 02, request 13, to hold the library to. Written from
 * that document alone. The results are of expander.h's types.
 */
#ifndef PLAIN_AMOUNTS_H
#define PLAIN_AMOUNTS_H

#include "expander.h"

struct expander_amount plain_read_amount(uint64_t element);
struct expander_written_amount plain_write_amount(int64_t amount);

#endif
