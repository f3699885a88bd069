#include "report.h"

void print_report(const struct report *r)
{
    printf("level %u quantity %u drawn %u %u %u %u left %u %u %u %u rounds %u sent %u received %u"
           " ms %.3f %.3f %.3f %.3f\n",
           r->found.level, r->found.quantity, r->drawn[SUMS], r->drawn[COMPARISON],
           r->drawn[CHOICE], r->drawn[CHECK], r->left[SUMS], r->left[COMPARISON], r->left[CHOICE],
           r->left[CHECK], r->rounds, r->sent, r->received, r->ms[OFFLINE], r->ms[ON_TWO],
           r->ms[TRIPLES], r->ms[CIRCUIT]);
    fflush(stdout);
}

int parse_report(const char *line, struct report *r)
{
    return sscanf(line,
                  "level %u quantity %u drawn %u %u %u %u left %u %u %u %u rounds %u sent %u"
                  " received %u ms %lf %lf %lf %lf",
                  &r->found.level, &r->found.quantity, &r->drawn[SUMS], &r->drawn[COMPARISON],
                  &r->drawn[CHOICE], &r->drawn[CHECK], &r->left[SUMS], &r->left[COMPARISON],
                  &r->left[CHOICE], &r->left[CHECK], &r->rounds, &r->sent, &r->received,
                  &r->ms[OFFLINE], &r->ms[ON_TWO], &r->ms[TRIPLES], &r->ms[CIRCUIT]) == 17;
}
