/* Records with faults: a record's fields in the order in which they are read, the ways in which
 * each can be wrong, and the numbers that these give.
 */
#ifndef FAULTS_H
#define FAULTS_H

#include "dealing.h"

/* What a field is; AFTER is what follows the record. */
enum part { END, FIELD, SIZE, POSITION, VALUE, CORRECTION, DELTA, ANY, AFTER };

/* The fields of the record found last. */
extern struct field {
    enum part part;
    size_t from, bytes;
} fields[32];
extern size_t field_count;

/* Find the fields of this end's record of x, whose numbers all have one byte. */
void find_fields(const struct dealing *x, int end);

/* The ways in which a field can be wrong. In the first the record ends inside the field. */
enum { WAYS = 6 };

/* The number for field f wrong in this way; 0 where there is no such way. */
uint32_t way_number(const struct field *f, int way);

/* Write a record with field a wrong in one way and field b, a later one, in another; either may be
 * NULL. Returns its length, which is at most five bytes more than the record's. */
size_t put_record(uint8_t *to, const uint8_t *record, const struct field *a, int way_a,
                  const struct field *b, int way_b);

#endif
