/* What the test programs of the calls share: facts that are counted, memory lent between guards,
 * and the table of the numbers that each call gave.
 *
 * Each call is made twice, by the library and by the plain implementation, on memory of the same
 * content. What they return must agree, and so must every byte of every lent buffer and of the
 * guards around it; what a call does not write must be as it was. Some buffers begin or end at a
 * page that cannot be touched, so that a read outside them is noticed too.
 */
#ifndef LEND_H
#define LEND_H

#include "dealing.h"
#include "expander.h"
#include "../plain/plain.h"

/* A call of the library, and the numbers that the documents let it give, a bit each. */
struct call {
    const char *name;
    uint32_t allowed;
};

#define BIT(n) (UINT32_C(1) << (n))

/* Make the memory to lend, for a program that makes these calls. */
void begin(const struct call *list, int count);

/* Print the table of numbers met, the count of facts and the next random word, which shows whether two
 * compilers drew the same cases; the program's exit status. */
int finish(void);

/* ---- Facts ---- */

/* Say which call is being made. */
void describe(const char *format, ...);

/* Count a disagreement, and print it with the call being made. */
void complain(const char *format, ...);

/* Count a fact that is to hold of the library's results. */
#define EXPECT(fact) expect((fact), #fact, __FILE__, __LINE__)
void expect(int holds, const char *fact, const char *file, int line);

/* ---- Lent memory ---- */

enum { SLOTS = 8 };

/* A buffer of the current call: the same bytes for the library, for the plain implementation, and
 * as they were before the call. */
extern struct lent {
    unsigned char *room[3];
    unsigned char *library, *plain, *before;
    size_t bytes, guard_low, guard_high;
} lent[SLOTS];

#define LIBRARY(slot, type) ((type *)(void *)lent[slot].library)
#define PLAIN(slot, type) ((type *)(void *)lent[slot].plain)

/* Lend count things of `size` bytes: with this content, or with random bytes if it is NULL. */
void lend(int slot, const void *content, size_t count, size_t size);

/* Keep what the library left at the front of a buffer, if out is not NULL. */
void keep(void *out, int slot, size_t bytes);

/* ---- After a call ---- */

/* Compare what a call left, and count it. `same` says that what it returned agrees, and number is
 * the plain implementation's. Input buffers stand before the `outputs` (0, 1 or 2) output buffers,
 * to which an accepted call writes `first` and `second` bytes. */
void settle_lent(int call, int same, uint32_t number, int inputs, int outputs, size_t first,
                 size_t second);

/* Compare and count what a call left that returns a number and lengths. */
void settle(int call, struct plain_result mine, struct plain_result plain, int inputs, int outputs,
            size_t first, size_t second);

/* What a call returns, in the plain implementation's form. */
struct plain_result two(struct expander_two_lengths r);
struct plain_result one(struct expander_one_length r);
struct plain_result alone(uint32_t number);

#endif
