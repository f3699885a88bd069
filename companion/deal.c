#include "inner.h"

#include <errno.h>
#include <stdlib.h>
#include <string.h>
#include <sys/random.h>

void companion_wipe(void *memory, size_t len)
{
    void *(*volatile set)(void *, int, size_t) = memset; /* volatile: the compiler cannot know what is called, and drop it */
    set(memory, 0, len);
}

void *companion_take(size_t len)
{
    return calloc(len > 0 ? len : 1, 1);
}

void companion_give_back(void *memory, size_t len)
{
    if (memory != NULL)
        companion_wipe(memory, len);
    free(memory);
}

struct companion_status companion_random(void *bytes, size_t len)
{
    for (size_t done = 0; done < len;) {
        ssize_t got = getrandom((uint8_t *)bytes + done, len - done, 0);
        if (got > 0)
            done += (size_t)got;
        else if (got == 0 || errno != EINTR)
            return companion_failed_at(COMPANION_NO_RANDOM, "getrandom", got < 0 ? errno : 0);
    }
    return companion_done();
}

/* What a dealing draws. */
struct drawn {
    uint8_t roots[16 * EXPANDER_TREES_MAX], code_key[16];
    uint32_t positions[EXPANDER_TREES_MAX];
    uint64_t values[EXPANDER_TREES_MAX], delta[2];
};

/* Uniform from 1 to p - 1: 61 bits, drawn again where they are 0 or p. */
static struct companion_status draw_value(uint64_t *value)
{
    struct companion_status status;
    do {
        status = companion_random(value, sizeof *value);
        *value &= EXPANDER_MODULUS;
    } while (status.number == 0 && (*value == 0 || *value == EXPANDER_MODULUS));
    return status;
}

/* A further place among count rising ones, uniform among those that are not there: N is a power of two, and a place that
 * is there is drawn again. */
static struct companion_status draw_position(uint32_t leaves, uint32_t *positions, size_t count)
{
    struct companion_status status;
    uint32_t place = 0;
    size_t at;
    do {
        status = companion_random(&place, sizeof place);
        place &= leaves - 1;
        for (at = 0; at < count && positions[at] < place;)
            at++;
    } while (status.number == 0 && at < count && positions[at] == place);
    memmove(positions + at + 1, positions + at, (count - at) * sizeof *positions);
    positions[at] = place;
    companion_wipe(&place, sizeof place);
    return status;
}

/* What every layer has of its own. */
static struct companion_status draw_layer(const struct companion_sizes *sizes, struct drawn *drawn)
{
    struct companion_status status = companion_random(drawn->roots, sizeof drawn->roots);
    for (size_t k = 0; k < sizes->trees; k++) {
        drawn->values[k] = 1;
        NEXT(status, draw_position((uint32_t)1 << sizes->depth, drawn->positions, k));
        if (sizes->field == EXPANDER_PRIME)
            NEXT(status, draw_value(&drawn->values[k]));
    }
    return status;
}

/* What all layers of one source share. */
static struct companion_status draw_shared(const struct companion_sizes *sizes, struct drawn *drawn)
{
    struct companion_status status = companion_random(drawn->code_key, sizeof drawn->code_key);
    if (sizes->field == EXPANDER_PRIME)
        NEXT(status, draw_value(&drawn->delta[0]));
    while (status.number == 0 && drawn->delta[0] == 0 && drawn->delta[1] == 0)
        status = companion_random(drawn->delta, sizeof drawn->delta);
    return status;
}

struct expander_label companion_label(uint64_t number)
{
    struct expander_label label = {{0}};
    memcpy(label.bytes, &number, sizeof number);
    return label;
}

/* The next label, where there is one: it wraps after the highest. */
static int next_label(struct expander_label *label)
{
    size_t k = 0;
    while (k < sizeof label->bytes && ++label->bytes[k] == 0)
        k++;
    return k < sizeof label->bytes;
}

struct companion_status companion_deal_layers(const struct companion_sizes *sizes, struct expander_label label, size_t layers,
                                              struct companion_dealt *dealt)
{
    struct drawn drawn;
    struct companion_status status = companion_failed(layers < 1 || layers > COMPANION_LAYERS_MAX ? COMPANION_BAD_LAYERS : COMPANION_DONE);
    struct expander_two_lengths made;
    /* Nothing is drawn where there is no room for it, and the expander refuses the sizes. */
    int room = sizes->depth <= EXPANDER_DEPTH_MAX && sizes->trees <= EXPANDER_TREES_MAX && sizes->trees <= (size_t)1 << sizes->depth;
    size_t trees = room ? sizes->trees : 0;
    memset(&drawn, 0, sizeof drawn);
    if (status.number == 0)
        memset(dealt, 0, layers * sizeof *dealt);
    if (trees > 0)
        NEXT(status, draw_shared(sizes, &drawn));
    for (size_t k = 0; status.number == 0 && k < layers; k++) {
        struct expander_label before = label;
        if (k > 0 && !next_label(&label))
            status = companion_in_layer(k + 1, companion_with_labels(companion_failed(COMPANION_LAYER_LABEL), COMPANION_LAYER_LABEL,
                                                                     label.bytes, before.bytes));
        if (trees > 0)
            NEXT(status, draw_layer(sizes, &drawn));
        if (status.number != 0)
            break;
        made = expander_deal(sizes->field, sizes->depth, sizes->branch_bits, sizes->trees, sizes->terms, sizes->outputs,
                             drawn.roots, 16 * trees, drawn.positions, trees, drawn.values, trees,
                             (const uint8_t *)drawn.delta, 16, drawn.code_key, 16, label.bytes, 16, dealt[k].noise,
                             sizeof dealt[k].noise, dealt[k].scalar, sizeof dealt[k].scalar);
        status = companion_refused("expander_deal", made.number);
        dealt[k].noise_len = made.first_written;
        dealt[k].scalar_len = made.second_written;
    }
    if (status.number != 0 && layers <= COMPANION_LAYERS_MAX)
        companion_wipe(dealt, layers * sizeof *dealt);
    companion_wipe(&drawn, sizeof drawn);
    return status;
}

struct companion_status companion_deal(const struct companion_sizes *sizes, struct expander_label label,
                                       struct companion_dealt *dealt)
{
    return companion_deal_layers(sizes, label, 1, dealt);
}
