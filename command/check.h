/* What the files of `expander check` share. NOT PROVED. */
#ifndef CHECK_H
#define CHECK_H

#include "command.h"

struct result {
    size_t tried, hold, first; /* first: the first that does not */
    int done;
};

struct check {
    const char *path[2];
    struct bytes file[2];
    struct layout layout[2], anew; /* anew: of the noise record, by where its trees stand */
    uint32_t number[2]; /* as expander_describe gives it */
    const char *instead[2]; /* what a file is that is no record, or NULL */
    int differs[HEAD_PARTS], heads_differ;
    struct result places, outputs, bench;
    int as_online; /* the expansion for the bench gives what the online calls give */
    struct diagnosis diagnosis;
    const char *verdict, *remark;
    int status, diagnosed, quiet;
    double begun, said;
};

/* ---- heads.c: what follows from the heads, and from where a record is refused ---- */

void compare_heads(struct check *check);
/* Heads differ, or a head is refused: tries each file with the other one's head. */
void diagnose_heads(struct check *check);
/* Heads differ in nothing on which trees depend: the same, by the trees as they are. */
void diagnose_alike(struct check *check);
/* A record is refused though heads agree: the same look at trees and roots, as far as both can be laid out. */
void diagnose_refused(struct check *check);
/* A record that ends early, where all that there is of both agrees. Returns 1 if it is so. */
int diagnose_cut(struct check *check);

/* ---- displaced.c: where trees and roots stand ---- */

/* Bytes that are too many or missing in a file, by the other one, which must read by itself. Returns 1 if there are; they are then all
 * that the diagnosis has. */
int find_displaced(struct check *check);
/* Positions that are read in other lengths than they were written in, and what is wrong besides; heads are equal. Returns 1 if there are,
 * and all trees are found where such positions have them. */
int find_positions_anew(struct check *check);

/* ---- telling.c: what is printed ---- */

void print_text(const struct check *check);
void print_json(const struct check *check);

#endif
