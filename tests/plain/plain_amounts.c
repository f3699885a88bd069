/* A plain second implementation of document 02, request 13 (plain_amounts.h). */
#include "plain_amounts.h"

static const int64_t p = INT64_C(2305843009213693951);    /* 2^61 - 1 */
static const int64_t most = INT64_C(1152921504606846975); /* 2^60 - 1 */

struct expander_amount plain_read_amount(uint64_t element)
{
    struct expander_amount r = {0, 0};
    if (element >= (uint64_t)p)
        r.number = 8;
    else if (element <= (uint64_t)most)
        r.amount = (int64_t)element;
    else
        r.amount = (int64_t)element - p;
    return r;
}

struct expander_written_amount plain_write_amount(int64_t amount)
{
    struct expander_written_amount r = {0, 0};
    if (amount < -most || amount > most)
        r.number = 19;
    else if (amount >= 0)
        r.element = (uint64_t)amount;
    else
        r.element = (uint64_t)(amount + p);
    return r;
}
