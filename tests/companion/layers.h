/* What the tests of the companion's layers share. */
#ifndef LAYERS_H
#define LAYERS_H

#include "test.h"

#include <pthread.h>

#define SECTIONS(X) X(dealing, 40) X(sums, 150) X(threads, 0) X(refusals, 0) X(joint, 20) X(stocks, 0) X(faults, 3)
SECTIONS(DECLARE_SECTION)

/* Expects these words and no others as the text of a status. */
#define SAYS_JUST(status, words) CHECK(strcmp(said(status), words) == 0, "'%s' is not '%s'", said(status), words)

/* ---- layers_calls.c: the calls, wrapped ---- */

/* While something is watched, calls are counted, over all threads, and the one that comes as number `at` fails. */
extern size_t calls, live, offline; /* live: what is allocated and not freed */
extern const char *failed_call;
extern int no_thread;  /* no thread starts */
extern size_t abroad;  /* layers that another thread than the caller's expands */
extern size_t meeting; /* the first two layers wait for each other */

/* Watches from here on; the call that comes as number `place` fails. */
void watch(size_t place);

/* Watches no longer. Returns how many calls there were. */
size_t unwatch(void);

/* The calls themselves, which neither fail nor count. */
void *__real_calloc(size_t count, size_t size);
void __real_free(void *memory);
int __real_pthread_create(pthread_t *thread, const pthread_attr_t *how, void *(*run)(void *), void *with);

/* ---- layers_sources.c ---- */

/* Both ends' records of one source. */
struct dealt {
    size_t layers;
    struct companion_dealt made[COMPANION_LAYERS_MAX];
    struct companion_record noise[COMPANION_LAYERS_MAX], scalar[COMPANION_LAYERS_MAX];
};
void take_records(struct dealt *dealt, size_t layers);
void deal(const struct companion_sizes *sizes, uint64_t label, size_t layers, struct dealt *dealt);

/* Deals one layer with the raw call, in which all can be chosen. */
struct raw {
    struct companion_sizes sizes;
    uint8_t delta, code_key, label;
};
void deal_raw(const struct raw *raw, struct companion_dealt *dealt);

int is_zero(const void *memory, size_t len);

/* The end is the sum of its layers, each opened alone, and its head and record are the last one's. */
void is_sum(const struct companion_end *end, const struct companion_record *records, size_t layers);

/* w = Delta u + v at every output, and in field 1 a choice names its pad. */
void correlates(const struct companion_end *noise, const struct companion_end *scalar);

#endif
