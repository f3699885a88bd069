/* What a house says of an auction, as the one line that it prints. */
#ifndef MARKET_REPORT_H
#define MARKET_REPORT_H

#include "clearing.h"

#include <stdio.h>

/* The phases whose time is told. OFFLINE is on one thread, ON_TWO the same on two. TRIPLES goes from
 * the draws to triples. CIRCUIT has the sharing of inputs and the opening of outputs in it, so it has
 * the waiting for the other house. */
enum phase { OFFLINE, ON_TWO, TRIPLES, CIRCUIT, PHASES };

struct report {
    struct clearing found;
    unsigned drawn[CALLERS], left[CALLERS]; /* triples, by caller of the stock */
    unsigned rounds, sent, received;        /* of the circuit; bytes to and from the other house */
    double ms[PHASES];
};

void print_report(const struct report *report);

/* Reads a printed line back; returns whether it is a report. */
int parse_report(const char *line, struct report *report);

#endif
