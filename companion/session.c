#include "inner.h"

#include <string.h>

static struct companion_stock *stock_of(struct companion_session *session)
{
    return session->stock != NULL ? session->stock : &session->memory;
}

struct companion_status companion_join(const struct companion_link *link, const struct companion_records *records,
                                       struct companion_stock *stock, size_t caller, struct companion_session *session)
{
    struct companion_pair *pair = &session->pair;
    struct companion_status status;
    uint32_t all;
    size_t first;
    memset(session, 0, sizeof *session);
    session->link = link;
    session->stock = stock;
    session->caller = caller;
    status = companion_open_pair_layers(records->noise, records->noise_layers, records->scalar, records->scalar_layers, records->threads,
                                        pair);
    all = (uint32_t)pair->outputs;
    if (stock == NULL)
        NEXT(status, companion_create_stock(NULL, pair->label, pair->outputs, &all, 1, &session->memory));
    companion_tell(link, status); /* the far end waits for this one's heads */
    NEXT(status, companion_compare_pair(link, pair));
    NEXT(status, companion_draw(stock_of(session), link, pair->label, caller, COMPANION_CHECKED, &first));
    NEXT(status, companion_check(link, pair, first, COMPANION_CHECKED));
    if (status.number != COMPANION_DONE)
        companion_leave(session);
    return status;
}

void companion_leave(struct companion_session *session)
{
    companion_close_pair(&session->pair);
    companion_close_stock(&session->memory);
    memset(session, 0, sizeof *session);
}

struct companion_status companion_compute(struct companion_session *session, const struct companion_circuit *circuit,
                                          const uint8_t *own, const struct companion_shares *given, uint8_t *outputs,
                                          struct companion_shares *kept)
{
    struct companion_pair *pair = &session->pair;
    struct companion_triples triples = {0, NULL, 0};
    struct expander_described_circuit counts;
    size_t first;
    struct companion_status status = companion_count(circuit, &counts);
    if (session->link == NULL) /* it was left, or never joined */
        return companion_failed(COMPANION_NOT_COMPARED);
    NEXT(status, companion_test_run(pair->role, circuit, own, given, kept));
    companion_tell(session->link, status); /* the far end waits to draw */
    NEXT(status, companion_draw(stock_of(session), session->link, pair->label, session->caller, counts.ands, &first));
    if (status.number != COMPANION_DONE)
        return status;
    status = companion_tell(session->link, companion_add_triples(pair, first, counts.ands, &triples)); /* it waits to run */
    NEXT(status, companion_run_shared(session->link, pair->role, circuit, own, given, &triples, outputs, kept));
    companion_free_triples(&triples);
    return status;
}

struct companion_status companion_once(const struct companion_link *link, const struct companion_records *records,
                                       struct companion_stock *stock, size_t caller, const struct companion_circuit *circuit,
                                       const uint8_t *own, uint8_t *outputs)
{
    struct companion_session session;
    struct companion_status status = companion_join(link, records, stock, caller, &session);
    NEXT(status, companion_compute(&session, circuit, own, NULL, outputs, NULL));
    companion_leave(&session);
    return status;
}
