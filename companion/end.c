#include "inner.h"

#include <string.h>

static size_t vector_words(const struct companion_end *end)
{
    return end->head.leaves * end->head.element_words;
}

void companion_close(struct companion_end *end)
{
    companion_give_back(end->elements, end->held);
    companion_wipe(end, sizeof *end);
}

/* Words stand in memory least byte first, so the pad calls are lent them as they are. */
static struct companion_status fill_window(const struct companion_end *end, size_t first, struct companion_window *window)
{
    size_t count = window->count, words = count * end->head.element_words;
    struct companion_status status;
    if (end->noise != NULL) {
        status = companion_refused("expander_noise_online", expander_noise_online(
            end->record, end->record_len, end->noise, end->head.leaves, end->elements, vector_words(end), first, count,
            window->u, count, window->elements, words).number);
        for (size_t k = 0; window->pads != NULL && k < count; k++)
            window->choices[k] = (uint8_t)window->u[k];
        if (window->pads != NULL)
            NEXT(status, companion_refused("expander_noise_pads", expander_noise_pads(
                first, count, (const uint8_t *)window->elements, 16 * count, window->choices, count, window->pads,
                16 * count)));
    } else {
        status = companion_refused("expander_scalar_online", expander_scalar_online(
            end->record, end->record_len, end->elements, vector_words(end), first, count, window->elements, words).number);
        if (window->pads != NULL)
            NEXT(status, companion_refused("expander_scalar_pads", expander_scalar_pads(
                first, count, (const uint8_t *)window->elements, 16 * count, (const uint8_t *)end->delta, 16, window->pads,
                32 * count)));
    }
    return status;
}

struct companion_status companion_expand(const struct companion_end *end, size_t first, size_t count,
                                         struct companion_window *window)
{
    struct companion_status status;
    int noise = end->noise != NULL, binary = end->head.field == EXPANDER_BINARY;
    size_t words = count * end->head.element_words, pad = !binary ? 0 : noise ? 16 : 32;
    memset(window, 0, sizeof *window);
    if (first > end->head.outputs || count > end->head.outputs - first) /* before room is sought for it */
        return companion_refused(noise ? "expander_noise_online" : "expander_scalar_online", EXPANDER_WINDOW_PAST_END);
    window->count = count;
    window->held = 8 * (words + count) + (pad + 1) * count;
    status = companion_given(window->elements = companion_take(window->held));
    if (status.number == 0) {
        window->u = noise ? window->elements + words : NULL;
        window->pads = binary ? (uint8_t *)(window->elements + words + count) : NULL;
        window->choices = binary && noise ? window->pads + pad * count : NULL;
        status = fill_window(end, first, window);
    }
    if (status.number != 0)
        companion_free_window(window);
    return status;
}

void companion_free_window(struct companion_window *window)
{
    companion_give_back(window->elements, window->held);
    memset(window, 0, sizeof *window);
}

void companion_close_pair(struct companion_pair *pair)
{
    companion_close(&pair->noise);
    companion_close(&pair->scalar);
    memset(pair, 0, sizeof *pair);
}

/* Whether an output of the window was given before. */
static int used(const struct companion_pair *pair, size_t first, size_t count)
{
    int before = 0;
    for (size_t k = first; k < first + count; k++)
        before |= pair->used[k / 8] >> k % 8 & 1;
    return before;
}

struct companion_status companion_add_triples(struct companion_pair *pair, size_t first, size_t count,
                                              struct companion_triples *triples)
{
    struct companion_window noise = {0, 0, NULL, NULL, NULL, NULL}, scalar = noise;
    struct companion_triples all = *triples;
    uint64_t place[2] = {first, count};
    struct companion_status status = companion_failed(pair->compared ? COMPANION_DONE : COMPANION_NOT_COMPARED);
    NEXT(status, companion_expand(&pair->noise, first, count, &noise));
    NEXT(status, companion_expand(&pair->scalar, first, count, &scalar));
    NEXT(status, companion_failed(used(pair, first, count) ? COMPANION_USED : COMPANION_DONE)); /* the window is within n here */
    if (status.number == 0) {
        all.count += count;
        all.windows = companion_sum_of(companion_sum_of(all.windows, pair->label.bytes, 16), place, sizeof place);
        status = companion_given(all.bytes = companion_take(3 * all.count));
    }
    NEXT(status, companion_refused("expander_triples", expander_triples(
        noise.choices, count, noise.pads, 16 * count, scalar.pads, 32 * count, all.bytes + 3 * triples->count,
        3 * count).number));
    if (status.number == 0) {
        if (triples->count > 0)
            memcpy(all.bytes, triples->bytes, 3 * triples->count);
        companion_free_triples(triples);
        *triples = all;
        for (size_t k = first; k < first + count; k++)
            pair->used[k / 8] |= (uint8_t)(1 << k % 8);
    } else if (all.bytes != triples->bytes) {
        companion_free_triples(&all);
    }
    companion_free_window(&noise);
    companion_free_window(&scalar);
    return status;
}

void companion_free_triples(struct companion_triples *triples)
{
    companion_give_back(triples->bytes, 3 * triples->count);
    memset(triples, 0, sizeof *triples);
}
