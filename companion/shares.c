#include "inner.h"

#include <string.h>

struct companion_status companion_add_shares(const struct companion_shares *from, size_t first, size_t count,
                                             struct companion_shares *shares)
{
    struct companion_shares all = *shares;
    uint64_t place[3] = {from->origin, first, count};
    struct companion_status status;
    if (first > from->count || count > from->count - first)
        return companion_with_counts(companion_failed(COMPANION_SHARES_COUNT), COMPANION_SHARES_COUNT,
                                     count > SIZE_MAX - first ? SIZE_MAX : first + count, from->count);
    all.count += count;
    all.origin = companion_sum_of(all.origin, place, sizeof place);
    status = companion_given(all.bits = companion_take(all.count));
    if (status.number != 0)
        return status;
    if (shares->count > 0)
        memcpy(all.bits, shares->bits, shares->count);
    if (count > 0)
        memcpy(all.bits + shares->count, from->bits + first, count);
    companion_free_shares(shares); /* after it was read: it may be from itself */
    *shares = all;
    return status;
}

void companion_free_shares(struct companion_shares *shares)
{
    companion_give_back(shares->bits, shares->count);
    memset(shares, 0, sizeof *shares);
}
