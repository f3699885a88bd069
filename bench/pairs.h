/* Times of the library (0) and of the plain implementation (1) in turn, each run of the one beside a
 * run of the other.
 */
#ifndef PAIRS_H
#define PAIRS_H

#include <stdlib.h>
#include <time.h>

/* Medians over those pairs whose plain run is within 6 % of the best plain run. */
struct pairs {
    double library, plain; /* milliseconds of processor time for one call */
    double ratio;          /* of the library's time to the plain implementation's */
    int taken, all;        /* pairs taken, of all */
};

static double now(void)
{
    struct timespec t;
    clock_gettime(CLOCK_PROCESS_CPUTIME_ID, &t);
    return (double)t.tv_sec * 1e3 + (double)t.tv_nsec / 1e6;
}

/* Milliseconds for one call, over `calls` of them. */
static double one_run(void (*call)(int who), int who, int calls)
{
    double from = now();
    for (int k = 0; k < calls; k++)
        call(who);
    return (now() - from) / calls;
}

static int rising(const void *a, const void *b)
{
    double d = *(const double *)a - *(const double *)b;
    return (d > 0) - (d < 0);
}

static double median(double *values, int n)
{
    qsort(values, (size_t)n, sizeof *values, rising);
    return n % 2 ? values[n / 2] : (values[n / 2 - 1] + values[n / 2]) / 2;
}

/* How many of n plain runs are within 6 % of the best. */
static int within(const double *plain, int n, double *best)
{
    int taken = 0;
    *best = plain[0];
    for (int k = 1; k < n; k++)
        *best = plain[k] < *best ? plain[k] : *best;
    for (int k = 0; k < n; k++)
        taken += plain[k] <= 1.06 * *best;
    return taken;
}

/* Runs of at least 4 ms; for at least 0.6 s and until five pairs can be taken, within bounds. */
static struct pairs run_pairs(void (*call)(int who))
{
    enum { LEAST = 5, MOST = 41 };
    double library[MOST], plain[MOST], ratio[MOST], best, spent = 0;
    double once = one_run(call, 0, 1) + one_run(call, 1, 1);
    int calls = once < 8 ? (int)(8 / once) + 1 : 1;
    struct pairs r = {0, 0, 0, 0, 0};
    do {
        library[r.all] = one_run(call, 0, calls);
        plain[r.all] = one_run(call, 1, calls);
        spent += calls * (library[r.all] + plain[r.all]);
        r.all++;
    } while (r.all < MOST && spent < 8e3
             && (spent < 600 || within(plain, r.all, &best) < LEAST));
    (void)within(plain, r.all, &best);
    for (int k = 0; k < r.all; k++)
        if (plain[k] <= 1.06 * best) {
            library[r.taken] = library[k];
            plain[r.taken] = plain[k];
            ratio[r.taken] = library[k] / plain[k];
            r.taken++;
        }
    r.library = median(library, r.taken);
    r.plain = median(plain, r.taken);
    r.ratio = median(ratio, r.taken);
    return r;
}

#endif
