/* What the companion's files share; not installed. */
#ifndef COMPANION_INNER_H
#define COMPANION_INNER_H

#include "expander_companion.h"

/* Stops the compiler where a limit of expander.h, or what follows from it, no longer fits what is built on it here. */
#define LIMIT(name, holds) typedef char name[(holds) ? 1 : -1]

/* A limit of expander.h as it stands in a text. */
#define SAY_AS_IT_IS(number) #number
#define SAY(limit) SAY_AS_IT_IS(limit)

#pragma GCC visibility push(hidden) /* these are not for users of the shared object */

/* A status; of a call of the expander (0: it accepted); of a test here (0: it is met); of memory that was asked for; of nothing amiss. */
struct companion_status companion_failed_at(uint32_t number, const char *call, int system);
/* The status with both labels, or with what is needed and what is there, where its number is this one. */
struct companion_status companion_with_labels(struct companion_status status, uint32_t number, const uint8_t *label, const uint8_t *other);
struct companion_status companion_with_counts(struct companion_status status, uint32_t number, size_t needed, size_t there);
/* The status with the layer that was refused, where it is of a failure; 0 names none. */
struct companion_status companion_in_layer(size_t layer, struct companion_status status);
#define companion_refused(call, number) companion_failed_at(number, call, 0)
#define companion_failed(number) companion_failed_at(number, "", 0)
#define companion_given(memory) companion_failed((memory) != NULL ? COMPANION_DONE : COMPANION_NO_MEMORY)
#define companion_done() companion_failed_at(COMPANION_DONE, "", 0)

#define NEXT(status, call) COMPANION_NEXT(status, call)

/* Memory of len bytes, all 0 and never none; and back, wiped. */
void *companion_take(size_t len);
void companion_give_back(void *memory, size_t len);

/* The numbers that there are. */
enum { COMPANION_LAST_NUMBER = COMPANION_NOT_KEPT };

/* What a call's first message begins with, so that ends at different calls notice it. The head of the last of k layers, k above 1, begins
 * with COMPANION_TAG_LAYERS + k. */
enum { COMPANION_TAG_HEAD = 2001, COMPANION_TAG_CHECK, COMPANION_TAG_DRAW, COMPANION_TAG_RUN, COMPANION_TAG_LAYERS = 2100 };

/* Labels compare as numbers, least byte first: below 0, 0, or above 0. */
int companion_label_order(const uint8_t *a, const uint8_t *b);

/* Random bytes from the system. */
struct companion_status companion_random(void *bytes, size_t len);

/* Sends own and receives as much as is due from the far end. A message begins with four bytes: 0, or the number with which
 * its end refuses, and then nothing follows. */
struct companion_status companion_exchange(const struct companion_link *link, const void *own, size_t own_len, void *far,
                                           size_t far_len);

/* Sends the number with which this end refuses, if it does, in place of the message that the far end waits for. Where the link
 * failed there is nobody to tell; where the far end refused it knows; in a child the link is the parent's. Returns the status. */
struct companion_status companion_tell(const struct companion_link *link, struct companion_status status);

/* A last exchange of the numbers alone, made by both ends unless one knows already that it is in vain. */
struct companion_status companion_settle(const struct companion_link *link, struct companion_status status);

/* What is wrong at this end alone with what a run is to be lent. */
struct companion_status companion_test_run(uint8_t role, const struct companion_circuit *circuit, const uint8_t *own,
                                           const struct companion_shares *given, const struct companion_shares *kept);

/* A running sum of 64 bits (FNV-1a): it finds mistakes, not lies. It begins as any number; the rule's own is COMPANION_SUM. */
#define COMPANION_SUM 0xcbf29ce484222325u
uint64_t companion_sum_of(uint64_t sum, const void *bytes, size_t len);
#pragma GCC visibility pop

#endif
