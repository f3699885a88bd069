/* Records with faults (faults.h). */
#include "faults.h"

#include "../plain/plain.h"

#include <string.h>

static const uint32_t wrong_ways[][WAYS] = {
    [END] = {10, 9, 9},
    [FIELD] = {10, 1, 1},
    [SIZE] = {10, 2, 2, 11, 11, 10},
    [POSITION] = {10, 4, 0, 11, 11, 10},
    [VALUE] = {10, 5, 5},
    [CORRECTION] = {10, 0, 8},
    [DELTA] = {10, 6, 6},
    [ANY] = {10},
    [AFTER] = {0, 12},
};

struct field fields[32];
size_t field_count;
static int binary; /* whether the record found last is of field 1 */

static void next_field(enum part part, size_t bytes)
{
    struct field *f = &fields[field_count];
    f->part = part;
    f->from = field_count == 0 ? 0 : f[-1].from + f[-1].bytes;
    f->bytes = bytes;
    field_count++;
}

void find_fields(const struct dealing *x, int end)
{
    enum { SIZES = 5 };
    size_t element = x->field == 1 ? 16 : 8;
    field_count = 0;
    binary = x->field == 1;
    next_field(END, 1);
    next_field(FIELD, 1);
    for (int k = 0; k < SIZES; k++)
        next_field(SIZE, 1);
    next_field(ANY, 16); /* code key */
    next_field(ANY, 16); /* label */
    if (end == 2) {
        next_field(DELTA, element);
        next_field(ANY, 16 * x->trees);
    }
    for (size_t i = 0; end == 1 && i < x->trees; i++) {
        next_field(POSITION, 1);
        if (!binary)
            next_field(VALUE, 8);
        next_field(CORRECTION, element);
        next_field(ANY, 16 * (x->depth / x->branch_bits) * (((size_t)1 << x->branch_bits) - 1));
    }
    next_field(AFTER, 0);
}

/* In field 1 every block is an element. */
uint32_t way_number(const struct field *f, int way)
{
    int blocks = binary && (f->part == CORRECTION || f->part == DELTA);
    return blocks && way == 2 ? 0 : wrong_ways[f->part][way];
}

/* Write field f of a record, wrong in this way, from *len on; whether the record goes on. */
static int put_wrong(uint8_t *to, size_t *len, const uint8_t *record, const struct field *f,
                     int way)
{
    if (way == 0) {
        memcpy(to + *len, record + f->from, f->bytes - 1);
        *len += f->bytes - 1;
        return 0;
    }
    switch (f->part) {
    case END: /* the other end's, none */
        to[(*len)++] = way == 1 ? (uint8_t)(3 - record[0]) : 0;
        break;
    case FIELD:
        to[(*len)++] = way == 1 ? 0 : 3;
        break;
    case SIZE:
    case POSITION: /* too large, zero; with a byte 00 too many, without an end, cut inside */
        if (way == 1)
            *len += plain_write_number(to + *len, 2097151);
        else
            to[(*len)++] = way == 2 ? 0 : record[f->from] | 0x80;
        if (way == 3)
            to[(*len)++] = 0x00;
        for (int k = 0; way == 4 && k < 2; k++)
            to[(*len)++] = 0x80;
        return way != 5;
    case AFTER:
        to[(*len)++] = 0;
        break;
    default: /* zero, p */
        memset(to + *len, 0, f->bytes);
        for (size_t k = 0; way == 2 && k < 8; k++)
            to[*len + k] = (uint8_t)(PLAIN_P >> (8 * k));
        *len += f->bytes;
    }
    return 1;
}

size_t put_record(uint8_t *to, const uint8_t *record, const struct field *a, int way_a,
                  const struct field *b, int way_b)
{
    size_t len = 0;
    for (const struct field *f = fields; f < fields + field_count; f++) {
        if (f == a || f == b) {
            if (!put_wrong(to, &len, record, f, f == a ? way_a : way_b))
                break;
        } else {
            memcpy(to + len, record + f->from, f->bytes);
            len += f->bytes;
        }
    }
    return len;
}
