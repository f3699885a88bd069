/* What the sections of the companion's tests share. Those of its layers are another program, with layers.h. */
#ifndef SECTIONS_H
#define SECTIONS_H

#include "test.h"

#include <sys/types.h>

#define SECTIONS(X) \
    X(dealing, 300) X(heads, 0) X(pairing, 1000) X(circuits, 0) X(bristol, 300) X(runs, 150) X(altered, 0) X(refusals, 30) X(limits, 0) \
    X(windows, 100) X(stock, 0) X(holding, 0) X(faults, 0) X(silence, 0) X(crashes, 1000) X(races, 1000) X(texts, 0) X(shares, 100) \
    X(sessions, 30)
SECTIONS(DECLARE_SECTION)

enum { LAST_NUMBER = COMPANION_NOT_KEPT };

/* ---- wrapped.c: the system's calls ---- */

/* How this thread's calls go: all well; the one that comes as number `at` fails; each moves one byte; each is interrupted
 * half of the times; the process kills itself before, or after, the one that comes as number `at`. */
enum mode { WELL, FAILS, SHORT, INTERRUPTED, DIES_BEFORE, DIES_AFTER };
extern __thread enum mode mode;
extern __thread size_t at, calls;
extern __thread int zeros; /* so many draws give zeros */
extern __thread const char *failed_call; /* the one that was made to fail */

/* Memory that the companion frees. */
void *take(size_t count, size_t size);

/* The calls themselves, which neither fail nor count. */
void *__real_calloc(size_t count, size_t size);
void __real_free(void *memory);
int __real_open(const char *name, int flags, ...);
int __real_close(int fd);
ssize_t __real_read(int fd, void *bytes, size_t len);
ssize_t __real_write(int fd, const void *bytes, size_t len);

/* ---- sides.c: two ends in two threads ---- */

struct side {
    struct companion_link link;
    struct companion_socket socket;
    struct companion_pair pair;
    uint8_t noise[EXPANDER_NOISE_RECORD_MAX], scalar[EXPANDER_SCALAR_RECORD_MAX];
    size_t noise_len, scalar_len;
    void *with; /* what a test gives its end */
    struct companion_status status;
    enum mode mode; /* of its thread */
    size_t at, calls;
    const char *failed_call;
    void (*run)(struct side *side);
};
extern struct side sides[2];
void connect_sides(struct side both[2]);

/* Runs the first side in a thread of its own and the second here. */
void run_both(struct side both[2]);

/* Two dealings with the roles exchanged, labels 2 k + 1 and 2 k + 2; the first side is the first one's noise end. */
extern const struct companion_sizes larger;
void deal_sides(const struct companion_sizes *sizes, uint64_t k, struct side both[2]);
struct companion_status open_side(struct side *side);

/* Deals with the raw call: what is drawn differs from dealing to dealing, but for the code key and the label. */
void deal_raw(const struct companion_sizes *sizes, uint8_t label, struct companion_dealt *dealt);

/* What each end brings to a joint run of a circuit, and has of it. */
struct joint {
    uint8_t role; /* to be told to the run, if not 0 */
    struct companion_circuit circuit;
    uint8_t own[4096], outputs[4096];
    size_t own_count, rounds, first, count;
    int without_inputs; /* NULL is passed */
};
extern struct joint joints[2];
void run_jointly(struct side *side);

/* What an end sends before a run: heads and its number, a window, two triples, its number. A message begins with four bytes. */
enum { SENT_BEFORE = 4 + 192 + 4 + 4 + 16 + 4 + 3 * 2 + 4 };

/* Gives each end its inputs of a run of this circuit, and says what comes out. */
void prepare(const struct companion_circuit *circuit, uint8_t *due);
void outputs_are(const uint8_t *due);

/* ---- circuits.c ---- */

void random_bits(uint8_t *bits, size_t count);

/* A random circuit, with some of every gate and words of random widths. */
void random_circuit(struct companion_circuit *circuit, size_t gates);

/* ---- links.c ---- */

/* A link that flips a bit of one byte of what is sent, counted from the beginning of the run. */
extern struct flipped {
    size_t place, sent;
    int bit;
} flipped;
void flip_link(struct side *side);

/* A link that ends after so many bytes, or fails, or moves too much. */
extern struct limited {
    struct companion_socket *socket;
    size_t left;
    int how; /* 0 closed, 1 fails, 2 moves more than it was asked */
} limits;
void limit_link(struct side *side);

/* ---- stocks.c ---- */

/* A folder for a stock, and the stock's file. */
extern char folder[64], path[100];
void fresh_folder(void);
void remove_folder(void);

/* Flips a bit of the byte at this place of the file, and cuts the file to this length unless it is negative. */
void change_byte(size_t place, long len);

extern const uint32_t stock_shares[3];

/* ---- shares.c ---- */

/* A state of two words that both hold, and what is done with it: 45 of the first end and 150 of the second become shares; (a, b) becomes
 * (a + b, a); a + b is opened. */
enum { FIRST_STATE = 150 * 256 + 45, NEXT_STATE = 45 * 256 + 195, THIRD_STATE = 195 * 256 + 240, THIRD_SUM = (195 + 240) % 256 };
extern const uint8_t own_words[2][8];
extern struct companion_circuit sharing, adding, opening;
extern struct companion_shares state[2];
extern uint8_t shown[2][16];
void build_shared_circuits(void);

/* Both ends' shares stand for this number. */
#define STANDS_FOR(shares, number, bits) stands_for(HERE, shares, number, bits)
void stands_for(const char *where, const struct companion_shares *both, uint64_t number, size_t bits);
void free_both(struct companion_shares *both);

#endif
