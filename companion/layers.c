#define _POSIX_C_SOURCE 200809L
#include "inner.h"

#include <pthread.h>
#include <signal.h>
#include <string.h>

/* A source of outputs at this end: the records of its layers, what they say, and the end that is opened. */
struct source {
    const struct companion_record *records;
    size_t layers;
    struct companion_end *end;
    struct expander_described heads[COMPANION_LAYERS_MAX];
};

/* What the threads of a call share. Layers are taken in order, and each is added to its end's vectors; lock guards all that is written. */
struct work {
    struct source sources[2];
    size_t count, taken; /* sources, and layers that a thread has taken */
    struct companion_status status; /* of the layer that failed first */
    pthread_mutex_t lock;
};

/* A thread, with the further vector into which it expands: elements, noise, and the two words of Delta. */
struct worker {
    struct work *work;
    uint64_t *vector;
    size_t held;
    pthread_t thread;
};

int companion_label_order(const uint8_t *a, const uint8_t *b)
{
    for (size_t k = 16; k-- > 0;)
        if (a[k] != b[k])
            return a[k] < b[k] ? -1 : 1;
    return 0;
}

static size_t words_of(const struct expander_described *head)
{
    return head->leaves * head->element_words;
}

static size_t noise_of(const struct expander_described *head)
{
    return head->end == EXPANDER_NOISE_END ? head->leaves : 0;
}

/* Delta of a scalar record that was described: it stands before the roots, which are last. */
static const uint8_t *delta_of(const struct companion_record *record, const struct expander_described *head)
{
    return record->bytes + record->len - 16 * head->trees - 8 * head->element_words;
}

/* What a layer must have as the first one has it, and has not. */
static uint32_t other_parts(const struct expander_described *a, const struct expander_described *b)
{
    return (a->end != b->end ? COMPANION_PART_END : 0) | (a->field != b->field ? COMPANION_PART_FIELD : 0)
           | (a->depth != b->depth ? COMPANION_PART_DEPTH : 0) | (a->terms != b->terms ? COMPANION_PART_TERMS : 0)
           | (a->outputs != b->outputs ? COMPANION_PART_OUTPUTS : 0)
           | (memcmp(a->code_key, b->code_key, sizeof a->code_key) != 0 ? COMPANION_PART_CODE_KEY : 0);
}

/* Describes a layer and tests that it fits those before it. */
static struct companion_status test_layer(struct source *source, size_t k)
{
    struct expander_described *head = &source->heads[k], *first = source->heads, *before = k > 0 ? head - 1 : head;
    struct companion_status status;
    *head = expander_describe(source->records[k].bytes, source->records[k].len);
    status = companion_refused("expander_describe", head->number);
    if (k > 0 && other_parts(head, first) != 0) {
        NEXT(status, companion_failed(COMPANION_OTHER_LAYER));
        status.parts = status.number == COMPANION_OTHER_LAYER ? other_parts(head, first) : 0;
    }
    if (k > 0 && companion_label_order(head->label, before->label) <= 0)
        NEXT(status, companion_with_labels(companion_failed(COMPANION_LAYER_LABEL), COMPANION_LAYER_LABEL, head->label, before->label));
    if (status.number == 0 && head->end == EXPANDER_SCALAR_END
        && memcmp(delta_of(&source->records[k], head), delta_of(source->records, first), 8 * head->element_words) != 0)
        status = companion_failed(COMPANION_OTHER_DELTA);
    return status;
}

/* A source of layers is refused before anything is expanded, with the layer; of one record there is no layer to name. */
static struct companion_status test_source(struct source *source)
{
    struct companion_status status =
        companion_failed(source->layers < 1 || source->layers > COMPANION_LAYERS_MAX ? COMPANION_BAD_LAYERS : COMPANION_DONE);
    for (size_t k = 0; status.number == 0 && k < source->layers; k++)
        status = companion_in_layer(source->layers > 1 ? k + 1 : 0, test_layer(source, k));
    return status;
}

/* Finds room for an end, with all heads but the last, which is the end's own as the last record is. */
static struct companion_status make_room(struct source *source)
{
    struct companion_end *end = source->end;
    size_t last = source->layers - 1, words = words_of(&source->heads[last]), noise = noise_of(&source->heads[last]);
    uint8_t *heads;
    end->head = source->heads[last];
    end->record_len = source->records[last].len;
    end->held = 8 * (words + noise) + last * sizeof *source->heads + end->record_len; /* vectors first, since words are aligned */
    if ((end->elements = companion_take(end->held)) == NULL)
        return companion_failed(COMPANION_NO_MEMORY);
    heads = (uint8_t *)(end->elements + words + noise);
    end->noise = noise > 0 ? end->elements + words : NULL;
    end->record = heads + last * sizeof *source->heads;
    memcpy(heads, source->heads, last * sizeof *source->heads);
    memcpy(end->record, source->records[last].bytes, end->record_len);
    return companion_done();
}

size_t companion_layers(const struct companion_end *end)
{
    size_t heads = end->held - 8 * (words_of(&end->head) + noise_of(&end->head)) - end->record_len;
    return end->elements == NULL ? 0 : 1 + heads / sizeof end->head;
}

struct expander_described companion_layer(const struct companion_end *end, size_t layer)
{
    struct expander_described head;
    size_t layers = companion_layers(end);
    memset(&head, 0, sizeof head);
    if (layer == layers)
        head = end->head;
    else if (layer > 0 && layer < layers)
        memcpy(&head, (const uint8_t *)(end->elements + words_of(&end->head) + noise_of(&end->head)) + (layer - 1) * sizeof head,
               sizeof head);
    return head;
}

/* Expands a record of a source into vectors of its lengths. */
static struct companion_status expand(const struct companion_record *record, const struct expander_described *head, uint64_t *elements,
                                      uint64_t *noise, uint64_t *delta)
{
    if (head->end == EXPANDER_NOISE_END)
        return companion_refused("expander_noise_offline", expander_noise_offline(
            record->bytes, record->len, noise, head->leaves, elements, words_of(head)).number);
    return companion_refused("expander_scalar_offline", expander_scalar_offline(
        record->bytes, record->len, elements, words_of(head), delta, 2).number);
}

/* A dealing without further layers is expanded in its place; a layer is expanded in the thread's vector, and added. */
static void do_layer(struct worker *worker, const struct source *source, size_t k)
{
    const struct expander_described *head = &source->heads[k];
    struct companion_end *end = source->end;
    size_t words = words_of(head), leaves = noise_of(head);
    uint64_t *elements = worker->vector, *noise = elements + words, *delta = noise + leaves;
    struct companion_status status;
    if (source->layers == 1)
        status = expand(source->records, head, end->elements, end->noise, end->delta);
    else
        status = expand(&source->records[k], head, elements, noise, delta);
    pthread_mutex_lock(&worker->work->lock);
    if (source->layers > 1) {
        NEXT(status, companion_refused("expander_add", expander_add(head->field, elements, words, end->elements, words).number));
        if (leaves > 0)
            NEXT(status, companion_refused("expander_add", expander_add(head->field, noise, leaves, end->noise, leaves).number));
        else
            memcpy(end->delta, delta, sizeof end->delta);
    }
    NEXT(worker->work->status, companion_in_layer(source->layers > 1 ? k + 1 : 0, status));
    pthread_mutex_unlock(&worker->work->lock);
}

/* What every thread does: it takes the next layer until none is left, or one failed. */
static void *do_layers(void *context)
{
    struct worker *worker = context;
    struct work *work = worker->work;
    for (;;) {
        const struct source *source = work->sources;
        size_t k;
        pthread_mutex_lock(&work->lock);
        k = work->status.number == 0 ? work->taken++ : SIZE_MAX;
        pthread_mutex_unlock(&work->lock);
        if (work->count > 1 && k != SIZE_MAX && k >= source->layers)
            k -= source++->layers;
        if (k >= source->layers)
            return NULL;
        do_layer(worker, source, k);
    }
}

/* Starts a thread that is sent no signals: those of the program are for its own threads. */
static int start(struct worker *worker)
{
    enum { STACK = 1 << 18 };
    pthread_attr_t attributes;
    sigset_t all, before;
    int failed = pthread_attr_init(&attributes);
    if (failed == 0) {
        sigfillset(&all);
        failed = pthread_attr_setstacksize(&attributes, STACK);
        if (failed == 0 && (failed = pthread_sigmask(SIG_SETMASK, &all, &before)) == 0) {
            failed = pthread_create(&worker->thread, &attributes, do_layers, worker);
            pthread_sigmask(SIG_SETMASK, &before, NULL);
        }
        pthread_attr_destroy(&attributes);
    }
    return failed == 0;
}

/* Expands all layers on so many threads, of which the caller's is one. Where a further one has no vector, or does not start, those that
 * are there do the work. */
static struct companion_status expand_all(struct work *work, size_t threads)
{
    struct worker workers[2 * COMPANION_LAYERS_MAX];
    size_t started = 1, layers = 0, held = 0;
    for (size_t k = 0; k < work->count; k++) {
        const struct source *source = &work->sources[k];
        size_t need = source->layers > 1 ? 8 * (words_of(source->heads) + noise_of(source->heads) + 2) : 0;
        layers += source->layers;
        held = need > held ? need : held;
    }
    memset(workers, 0, sizeof workers);
    for (size_t k = 0; k < layers && (k == 0 || k < threads); k++) {
        workers[k].work = work;
        workers[k].held = held;
        workers[k].vector = companion_take(held);
        if (k == 0)
            work->status = companion_given(workers[k].vector);
        if (workers[k].vector == NULL)
            break;
        if (k > 0 && !start(&workers[k])) {
            companion_give_back(workers[k].vector, held);
            break;
        }
        started = k + 1;
    }
    if (workers[0].vector != NULL)
        do_layers(&workers[0]);
    for (size_t k = 0; k < started; k++) {
        if (k > 0)
            pthread_join(workers[k].thread, NULL);
        companion_give_back(workers[k].vector, held);
    }
    return work->status;
}

static void begin(struct work *work, const struct companion_record *records, size_t layers, struct companion_end *end)
{
    struct source *source = &work->sources[work->count++];
    source->records = records;
    source->layers = layers;
    source->end = end;
}

/* Tests are made before; here there is only room to be found. */
static struct companion_status open_all(struct work *work, size_t threads)
{
    struct companion_status status = companion_done();
    for (size_t k = 0; k < work->count; k++)
        NEXT(status, make_room(&work->sources[k]));
    if (status.number == 0 && pthread_mutex_init(&work->lock, NULL) != 0)
        status = companion_failed(COMPANION_NO_MEMORY);
    if (status.number == 0) {
        status = expand_all(work, threads);
        pthread_mutex_destroy(&work->lock);
    }
    return status;
}

struct companion_status companion_open_layers(const struct companion_record *records, size_t layers, size_t threads,
                                              struct companion_end *end)
{
    struct work work;
    struct companion_status status;
    memset(&work, 0, sizeof work);
    memset(end, 0, sizeof *end);
    begin(&work, records, layers, end);
    status = test_source(&work.sources[0]);
    NEXT(status, open_all(&work, threads));
    if (status.number != 0)
        companion_close(end);
    return status;
}

/* No label is in both sources of a pair. */
static struct companion_status test_labels(const struct source *noise, const struct source *scalar)
{
    for (size_t k = 0; k < noise->layers; k++)
        for (size_t j = 0; j < scalar->layers; j++)
            if (memcmp(noise->heads[k].label, scalar->heads[j].label, 16) == 0)
                return companion_with_labels(companion_failed(COMPANION_SAME_LABEL), COMPANION_SAME_LABEL, noise->heads[k].label,
                                             scalar->heads[j].label);
    return companion_done();
}

struct companion_status companion_open_pair_layers(const struct companion_record *noise, size_t noise_layers,
                                                   const struct companion_record *scalar, size_t scalar_layers, size_t threads,
                                                   struct companion_pair *pair)
{
    struct work work;
    const struct expander_described *n = &work.sources[0].heads[0], *s = &work.sources[1].heads[0];
    struct companion_status status;
    int order;
    memset(&work, 0, sizeof work);
    memset(pair, 0, sizeof *pair);
    begin(&work, noise, noise_layers, &pair->noise);
    begin(&work, scalar, scalar_layers, &pair->scalar);
    status = test_source(&work.sources[0]);
    NEXT(status, test_source(&work.sources[1]));
    if (n->end != EXPANDER_NOISE_END || s->end != EXPANDER_SCALAR_END || n->field + s->field != 2 * EXPANDER_BINARY)
        NEXT(status, companion_failed(COMPANION_WRONG_RECORD));
    NEXT(status, test_labels(&work.sources[0], &work.sources[1]));
    NEXT(status, open_all(&work, threads));
    if (status.number == 0) {
        n = &pair->noise.head, s = &pair->scalar.head; /* the last layers', with the highest labels */
        order = companion_label_order(n->label, s->label);
        pair->role = order < 0 ? EXPANDER_ROLE_NOISE : EXPANDER_ROLE_SCALAR;
        pair->outputs = n->outputs < s->outputs ? n->outputs : s->outputs;
        memcpy(pair->label.bytes, (order < 0) == (noise_layers + scalar_layers == 2) ? n->label : s->label, sizeof pair->label.bytes);
    } else {
        companion_close_pair(pair);
    }
    return status;
}

struct companion_status companion_open(const uint8_t *record, size_t record_len, struct companion_end *end)
{
    struct companion_record only = {record, record_len};
    return companion_open_layers(&only, 1, 1, end);
}

struct companion_status companion_open_pair(const uint8_t *noise, size_t noise_len, const uint8_t *scalar, size_t scalar_len,
                                            struct companion_pair *pair)
{
    struct companion_record n = {noise, noise_len}, s = {scalar, scalar_len};
    return companion_open_pair_layers(&n, 1, &s, 1, 1, pair);
}
