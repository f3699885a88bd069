/* What the files of the command `expander` share. NOT PROVED: plain C99 over expander.h and the companion. */
#ifndef COMMAND_H
#define COMMAND_H

#include "expander_companion.h"

#include <stdio.h>

/* Stops the compiler where a limit of expander.h, or what follows from it, no longer fits what is built on it here. */
#define LIMIT(name, holds) typedef char name[(holds) ? 1 : -1]

/* A limit of expander.h as it stands in a text. */
#define SAY_AS_IT_IS(number) #number
#define SAY(limit) SAY_AS_IT_IS(limit)

/* Exit statuses. */
enum { WELL = 0, DIFFER = 1, UNUSABLE = 2 };

/* ---- common.c: sentences, options, files, JSON ---- */

/* Prints a sentence to standard error, behind the name of the subcommand; returns UNUSABLE. */
void name_subcommand(const char *name);
int complain(const char *format, ...) __attribute__((format(printf, 1, 2)));
/* The last complaint as a member of a JSON object, "error"; and with the "status" that ends it. */
void print_json_complaint(void);
void print_json_error(void);

/* An option: a flag, or one with a value. */
struct option {
    const char *name;   /* with its two dashes */
    int *flag;          /* set to 1, or NULL */
    const char **value; /* set to what follows, or NULL */
};

/* Takes options and operands apart; operands are moved to the front of argv. Returns how many they are, or -1 after a
 * complaint. */
int take_options(int argc, char **argv, const struct option *options, size_t count);

/* A decimal number of at least least and at most most; complains and returns 0 if text is none. */
int read_number(const char *text, const char *what, uint64_t least, uint64_t most, uint64_t *number);

/* A file's bytes. Closing wipes and frees them. */
struct bytes {
    uint8_t *at;
    size_t len;
};

/* Reads a file, or standard input where path is "-", of at most `most` bytes. Returns 0 after a complaint. */
int read_file(const char *path, size_t most, struct bytes *file);
/* Whether at most one of these is "-": complains and returns 0 if not, since standard input can be read once. */
int one_standard_input(char **paths, int count);
void drop_bytes(struct bytes *file);

/* A file that is being made: readable by its owner alone, and not there under its name before it is whole. */
struct new_file {
    const char *path;
    char *temporary; /* its name until then, or NULL where it has none */
    int fd, kept;
};

/* Begin, fill and keep it; each returns 0 after a complaint. A path that exists is refused, at the start and at the end.
 * Dropping removes what was begun, and what was kept too if undo is 1. */
int begin_file(struct new_file *file, const char *path);
int fill_file(struct new_file *file, const void *bytes, size_t len);
int keep_file(struct new_file *file);
void drop_file(struct new_file *file, int undo);

/* Writes all of it to a new file, or to standard output where path is NULL or "-". Returns 0 after a complaint. */
int give(const char *path, const void *bytes, size_t len);

/* Complains and returns UNUSABLE where what was printed could not be written; else the status. */
int end_output(int status);

/* A text in JSON; what is not UTF-8 in it is U+FFFD. */
void print_json_text(const char *text);
/* A file's name as a member of an object, without the comma; beside one that is not UTF-8 stands its bytes' hexadecimal, NAME_bytes. */
void print_json_path(const char *name, const char *path);
void print_hex(const uint8_t *bytes, size_t len);
/* A label in hexadecimal, and behind it the number that gives it, if one does. */
void print_label(const uint8_t label[16]);
/* Whether a label is a number's (companion_label). */
int label_number(const uint8_t label[16], uint64_t *number);
/* A name without control characters. */
void print_name(FILE *to, const char *name);

/* ---- layout.c: where the parts of a record stand ---- */

enum part {
    END_BYTE, FIELD_BYTE, DEPTH, BRANCH_BITS, TREES, TERMS, OUTPUTS, CODE_KEY, LABEL, /* the head, in order */
    POSITION, VALUE, CORRECTION, SIBLING, DELTA, ROOT, SURPLUS, WHOLE_TREE, FILE_END, INSERTED, DROPPED,
    HEAD_PARTS = POSITION
};

struct span {
    size_t first, len;
};

struct tree_layout {
    struct span position, value, correction;
    size_t siblings;         /* the first byte */
    uint32_t written, place; /* the position as it is written, and itself */
    uint64_t noise;          /* its value */
};

struct layout {
    uint32_t number;           /* as expander_describe gives it */
    enum part part;            /* where it was found */
    size_t in_tree, level, child; /* of a tree's part */
    size_t begins, at;         /* the part's first byte, and the byte at which it was found */
    int whole;                 /* all parts have their places, though one may not be admitted */
    uint8_t end, field;
    size_t depth, branch_bits, trees, terms, outputs;
    struct span head[HEAD_PARTS];
    size_t head_len, levels, branches, siblings; /* branches: children of a node; siblings: of a tree */
    size_t trees_read;
    struct tree_layout tree[EXPANDER_TREES_MAX];
    size_t delta, roots, ends;
};

/* Lays a record out as far as it can be read. */
void lay_out(const uint8_t *record, size_t len, struct layout *layout);
/* How many bytes a record of an end with this head has, from least to most; returns 0 if the head was not read. The second prints it,
 * with how many there are and whose head says so. */
int due_length(const struct layout *layout, uint8_t end, size_t *least, size_t *most);
int print_due_length(const struct layout *layout, uint8_t end, size_t len, const char *whose);
/* What a file is that is no record, in words, or NULL: empty, a text, a record written in digits. */
const char *what_instead(const uint8_t *bytes, size_t len);
uint64_t word_at(const uint8_t *bytes);
const char *part_name(enum part part);
/* Whether there is one of each tree. */
int part_of_tree(enum part part);
/* A part in words: "sibling of tree 3 at level 2, child 1". */
void part_words(enum part part, size_t tree, size_t level, size_t child, char *text, size_t text_len);

/* ---- diagnosis.c: from which parts a difference follows ---- */

enum file { NOISE_FILE, SCALAR_FILE };

/* A part that is wrong. Findings of one group are alternatives: one of them is, or more. altered is where the part's bytes
 * are not what all else calls for; its length is 0 where that is not known. A sibling's child is ANY_CHILD where it is not. Of bytes that
 * are too many, or missing, level says how many, and bytes where: one of these, or before one of them. */
enum { ANY_CHILD = 1 << EXPANDER_BRANCH_BITS_MAX };
struct finding {
    size_t group;
    enum part part;
    enum file file;
    size_t tree, level, child;
    struct span bytes, altered;
};

struct diagnosis {
    int together;     /* 1: some tree follows from its root; 0: none does; -1: it was not looked at */
    int apart;        /* 1: of two trees or more none follows from its root: not dealt together, or too much is altered */
    int maybe_apart;  /* 1: perhaps not dealt together */
    int dealt;        /* 1: the noise record is what a dealing with these roots and this Delta makes */
    int moved;        /* 1: roots stand in another order than trees, which changes no output */
    int no_memory;
    size_t groups, count, room;
    struct finding *finding;
};

/* Compares the trees with the roots. Both layouts are whole, and have the same field, d, g and t. */
void diagnose(const uint8_t *noise, const struct layout *noise_layout, const uint8_t *scalar,
              const struct layout *scalar_layout, struct diagnosis *diagnosis);
/* Whether what there is of two records, one of which ends early, agrees: some sibling with its root, and none disagrees. */
int prefix_agrees(const uint8_t *noise, size_t noise_len, const struct layout *noise_layout, const uint8_t *scalar,
                  size_t scalar_len, const struct layout *scalar_layout);
void add_finding(struct diagnosis *diagnosis, struct finding finding);
/* Adds what another diagnosis found, in groups of their own. */
void add_findings(struct diagnosis *to, const struct diagnosis *more);
void end_diagnosis(struct diagnosis *diagnosis);

/* Arithmetic of field 2. */
uint64_t prime_of(uint64_t word);
uint64_t prime_sum(uint64_t a, uint64_t b);
uint64_t prime_product(uint64_t a, uint64_t b);

/* ---- layers.c: records of several layers ---- */

/* The most bytes that are read of a record's file. */
enum { RECORD_FILE_MAX = 1 << 20 };

/* Writes both records of every layer to new files, all or none: FILE, or of several FILE.1 and so on, from ten on FILE.01. Returns 0 after
 * a complaint. */
int write_layers(const struct companion_dealt *dealt, size_t layers, const char *noise, const char *scalar);

/* Opens an end from the files of its layers; complains, with the file, where one cannot be read or is refused. */
enum opened { OPENED, NOT_FIT, NOT_READ };
enum opened open_layers(char **paths, size_t layers, size_t threads, struct companion_end *end);

/* Checks layers pair by pair, the noise records first, and then whether they fit each other; returns the exit status. */
int check_layers(char **paths, size_t layers, int bench, int json, int quiet);

/* ---- the subcommands; each returns the exit status ---- */

int run_deal(int argc, char **argv);
int run_describe(int argc, char **argv);
int run_check(int argc, char **argv);
int run_expand(int argc, char **argv);
int run_circuit(int argc, char **argv);

#endif
