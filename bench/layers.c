/* Layers: the sum of two vectors by the library and by the plain implementation in turn; and four layers of one source, opened by the
 * companion on one thread and on two in turn.
 *
 *   layers
 *
 * Threads are timed by the wall, so other load shows. Beside each row stands what the machine gave the offline calls alone on two
 * threads, without the companion, in the same turns: on two idle cores that is near 0.50.
 */
#define _GNU_SOURCE
#include "expander_companion.h"
#include "pairs.h"
#include "plain_layers.h"

#include <pthread.h>
#include <stdio.h>
#include <stdlib.h>
#include <string.h>

/* ---- Adding ---- */

enum { MOST_WORDS = 2 * EXPANDER_LEAVES_MAX };
static uint64_t from[MOST_WORDS], into[2][MOST_WORDS];
static size_t words;
static uint8_t field;

static void add(int who)
{
    uint32_t number = who == 0 ? expander_add(field, from, words, into[0], words).number
                               : plain_add_vector(field, from, words, into[1], words).number;
    if (number != 0)
        exit(1);
}

static void time_adding(void)
{
    printf("adding a vector, at most 1.05 of plain C\n");
    printf("call field  words      us  plain   ratio  pairs  at most 1.05\n");
    for (field = 1; field <= 2; field++)
        for (unsigned depth = 12; depth <= 16; depth += 4) {
            struct pairs r;
            words = (size_t)EXPANDER_ELEMENT_WORDS(field) << depth;
            for (size_t k = 0; k < words; k++)
                from[k] = into[0][k] = into[1][k] = (k * UINT64_C(0x9E3779B97F4A7C15)) >> (field == EXPANDER_PRIME ? 4 : 0);
            r = run_pairs(add);
            printf("add %6u %6zu %7.2f %6.2f %7.3f  %2d/%2d  %s\n", field, words, 1000 * r.library, 1000 * r.plain, r.ratio, r.taken, r.all,
                   r.ratio <= 1.05 ? "yes" : "NO");
            if (memcmp(into[0], into[1], words * sizeof *from) != 0) /* both made as many sums */
                exit(1);
        }
}

/* ---- Threads ---- */

enum { LAYERS = 4, TURNS = 15 };
static struct companion_dealt dealt[LAYERS];
static struct companion_record record[LAYERS];
static struct expander_described head;

static double wall(void)
{
    struct timespec t;
    clock_gettime(CLOCK_MONOTONIC, &t);
    return (double)t.tv_sec * 1e3 + (double)t.tv_nsec / 1e6;
}

/* Milliseconds of the companion's opening on so many threads, by the wall; processor time of all threads is added up. */
static double open_on(size_t threads, double *processor)
{
    struct companion_end end;
    double start = wall(), from_here = now();
    if (companion_open_layers(record, LAYERS, threads, &end).number != 0)
        exit(1);
    *processor += now() - from_here;
    start = wall() - start;
    companion_close(&end);
    return start;
}

/* Expands a number of layers one after the other, from the first or from the third on, into memory of its own. */
struct part {
    size_t first, count;
};
static void *expand_part(void *context)
{
    const struct part *part = context;
    size_t len = head.leaves * head.element_words;
    uint64_t *vector = malloc((len + head.leaves + 2) * sizeof *vector);
    for (size_t k = part->first; k < part->first + part->count; k++) {
        const struct companion_record *r = &record[k];
        uint32_t number = vector == NULL ? 1
                          : head.end == EXPANDER_NOISE_END
                              ? expander_noise_offline(r->bytes, r->len, vector + len, head.leaves, vector, len).number
                              : expander_scalar_offline(r->bytes, r->len, vector, len, vector + len, 2).number;
        if (number != 0)
            exit(1);
    }
    free(vector);
    return NULL;
}

/* Milliseconds of the offline calls alone. */
static double expand_on(size_t threads)
{
    struct part all = {0, LAYERS}, halves[2] = {{0, LAYERS / 2}, {LAYERS / 2, LAYERS / 2}};
    pthread_t thread;
    double start = wall();
    if (threads == 1) {
        expand_part(&all);
    } else {
        if (pthread_create(&thread, NULL, expand_part, &halves[1]) != 0)
            exit(1);
        expand_part(&halves[0]);
        pthread_join(thread, NULL);
    }
    return wall() - start;
}

/* Medians over those turns whose run on one thread is within 6 % of the best. */
struct turns {
    double one, two, ratio;
    int taken;
};
static struct turns median_of(const double one[TURNS], const double two[TURNS])
{
    double a[TURNS], b[TURNS], ratio[TURNS], best;
    struct turns r = {0, 0, 0, 0};
    (void)within(one, TURNS, &best);
    for (int k = 0; k < TURNS; k++)
        if (one[k] <= 1.06 * best) {
            a[r.taken] = one[k];
            b[r.taken] = two[k];
            ratio[r.taken++] = two[k] / one[k];
        }
    r.one = median(a, r.taken);
    r.two = median(b, r.taken);
    r.ratio = median(ratio, r.taken);
    return r;
}

static void time_threads(uint8_t in_field, uint8_t end)
{
    static const char *const names[] = {"", "noise end", "scalar end"};
    struct companion_sizes sizes = {in_field, 12, 2, 64, 32, 2048};
    double one[TURNS], two[TURNS], calls_one[TURNS], calls_two[TURNS], processor[2] = {0, 0};
    struct turns opened, calls;
    if (companion_deal_layers(&sizes, companion_label(1), LAYERS, dealt).number != 0)
        exit(1);
    for (size_t k = 0; k < LAYERS; k++) {
        record[k].bytes = end == EXPANDER_NOISE_END ? dealt[k].noise : dealt[k].scalar;
        record[k].len = end == EXPANDER_NOISE_END ? dealt[k].noise_len : dealt[k].scalar_len;
    }
    head = expander_describe(record[0].bytes, record[0].len);
    for (int k = 0; k < TURNS; k++) {
        one[k] = open_on(1, &processor[0]);
        two[k] = open_on(2, &processor[1]);
        calls_one[k] = expand_on(1);
        calls_two[k] = expand_on(2);
    }
    opened = median_of(one, two);
    calls = median_of(calls_one, calls_two);
    printf("%s, field %u: one thread %.1f ms, two %.1f ms, ratio %.3f (%d/%d); processor time %.3f; the calls alone %.3f;"
           " at most 0.55: %s\n",
           names[end], in_field, opened.one, opened.two, opened.ratio, opened.taken, TURNS, processor[1] / processor[0], calls.ratio,
           opened.ratio <= 0.55 ? "yes" : calls.ratio > 0.52 ? "not told, the cores were not idle" : "NO");
}

int main(void)
{
    time_adding();
    printf("four layers on threads, d = 12, g = 2, t = 64, by the wall, at most 0.55 on two idle cores\n");
    for (uint8_t in_field = 1; in_field <= 2; in_field++)
        for (uint8_t end = EXPANDER_NOISE_END; end <= EXPANDER_SCALAR_END; end++)
            time_threads(in_field, end);
    return 0;
}
