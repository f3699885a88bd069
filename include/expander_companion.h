/* Companion of the correlation expander: what a program writes around the calls of expander.h.
 * Dealing at random, also in layers, ends and pairs of ends, whether records were dealt together, a
 * stock on disk, circuits, also in Bristol Fashion, and joint runs over a link of the caller's, whose
 * results are opened or stay shared; the usual sequence of these in one call (companion_once). For
 * Linux on a machine that holds words least byte first, with POSIX threads (-pthread).
 *
 * NOT PROVED. The calls of expander.h are proved; this is plain C99 above them, tested and no more.
 *
 * Rules for every call
 *   Status    A call that can fail returns a status. Its number is 0 if all is done, one of
 *             expander.h (1 to 21) if a call of the expander refused, and from 100 on one of those
 *             below. companion_text says it in a sentence.
 *   Failed    What the call was to open, fill or make is closed: all 0, and nothing to free. Lent
 *             buffers may hold part of a result, which is not to be used. Where a call's comment has
 *             no row of this name, there is no more to say.
 *   Memory    What is allocated is wiped and freed when it is closed, and on every path of a call
 *             that fails. Closing what is all 0, or closed, does nothing. Structs are the caller's;
 *             their members are to be read and not written, but where that is said. Pointers are not
 *             NULL, but where that is said.
 *   State     There is none but the caller's structs: no call exits, prints or keeps anything. Calls
 *             on different structs may run at the same time.
 *   Stack     A call takes at most 96 KiB. What crosses to the expander by value, and what its calls
 *             leave on the stack, is not wiped.
 *   Threads   Only the calls that are told how many start any: as many as that less one, for the caller's
 *             does its part, and no more than there are layers. Each has 256 KiB of stack and gets no
 *             signals; all have ended when the call returns. Where one does not start, or has no memory,
 *             the others do its work, the caller's alone if it must.
 *   Links     Both ends make the same calls in the same order. Each sends first and then receives, so
 *             a link is to hold 8,192 bytes of one end before the other reads. Every call that is lent
 *             a link may also return COMPANION_CLOSED, COMPANION_NOT_MOVED and COMPANION_FAR.
 *   Refusals  An end that refuses in such a call sends its number, as long as the other is to receive in
 *             that call, and the other returns COMPANION_FAR with the number in far. After a call
 *             failed close the link: it may hold what the far end has sent. Only where draws at both
 *             ends return 15 does it go on.
 *   Forks     What is open belongs to the process that opened it. A daemon forks first and then opens
 *             its stock. Where it was open before, the child is refused (COMPANION_FORKED, and nothing
 *             is sent), closes its copy, and opens the stock once the parent has closed it; the parent
 *             goes on.
 *
 * Safe use
 *   All that expander.h says under this name holds here too. Further:
 *   Honest    Both ends are taken to keep to the steps. What is compared finds mistakes and accidents,
 *             not lies: what an end, or who stands between both, alters within what is admitted, sums
 *             too, goes unnoticed. Who is at a link's other end, and who reads it, is for the caller to
 *             settle.
 *   Layers    A Delta serves one dealing, with one exception: the layers of one source, which one dealer
 *             dealt together, and of which each end holds all. Roots and labels serve once there too.
 *   Sizes     None is recommended. In field 1 whoever knows the code key finds two outputs whose u
 *             lean to being equal: by 2^-26 (n = 32,768) to 2^-55 (n = 64, N = 2^10) at t = 64 and
 *             l = 32, the largest, and by 2^-17 to 2^-23 at l = 16, n = 1,024, N = 2^12. Smaller t
 *             and l are worse by far. docs/SIZES.md says what known attacks cost.
 */
#ifndef EXPANDER_COMPANION_H
#define EXPANDER_COMPANION_H

#include "expander.h"

#ifdef __cplusplus
extern "C" {
#endif

/* The companion's own version, beside the expander's: as a text, and as a number that rises, 10000 major
 * + 100 minor + patch. companion_version gives the number of the companion that is linked or loaded.
 *
 * Within a major version no struct, parameter, number or name changes and no call goes; a call sends what
 * it sent, so both ends may have different versions of it; and a stock's file stays readable. A minor
 * version adds calls and numbers, a patch adds nothing. Sentences may change in any version. The shared
 * object's name has the major version, and it needs an expander of major version 2, 2.2.0 or later. */
#define COMPANION_VERSION "1.1.0"
#define COMPANION_VERSION_NUMBER 10100

/* Numbers of the companion's own. */
#define COMPANION_DONE 0u
#define COMPANION_NO_MEMORY 100u     /* the system gives no memory */
#define COMPANION_NO_RANDOM 101u     /* getrandom fails */
#define COMPANION_CLOSED 102u        /* send or receive moved nothing: the far end is closed */
#define COMPANION_NOT_MOVED 103u     /* send or receive failed, or its time was over */
#define COMPANION_OUT_OF_STEP 104u   /* the far end makes another call, or asks for something else */
#define COMPANION_OTHER_DEALING 105u /* heads of the ends' records differ, or both are of one end */
#define COMPANION_NOT_PAIRED 106u    /* a sacrificed triple does not hold */
#define COMPANION_NOT_COMPARED 107u  /* the pair's heads were not compared yet */
#define COMPANION_WRONG_RECORD 108u  /* not a noise record and a scalar record of field 1 */
#define COMPANION_SAME_LABEL 109u    /* both records of a pair have one label */
#define COMPANION_OTHER_CIRCUIT 110u /* the far end runs another circuit */
#define COMPANION_OTHER_SHARES 111u  /* the far end has other words of inputs or outputs, or roles */
#define COMPANION_OTHER_WINDOWS 112u /* the far end's triples are of other windows */
#define COMPANION_NOT_BITS 113u      /* an input, or a byte of the far end, is above 1 */
#define COMPANION_FILE 114u          /* the system refuses to find, open, lock, read, write, sync, rename */
#define COMPANION_FILE_THERE 115u    /* a stock is to be created where a file is */
#define COMPANION_FILE_DAMAGED 116u  /* no stock's file, or not whole */
#define COMPANION_FILE_IN_USE 117u   /* the stock is open elsewhere */
#define COMPANION_WIRES 118u         /* more than EXPANDER_WIRES_MAX (4096) wires */
#define COMPANION_OUTPUTS 119u       /* more than EXPANDER_CIRCUIT_OUTPUTS_MAX (4096) outputs */
#define COMPANION_BAD_WIRE 120u      /* a wire that is not made yet */
#define COMPANION_BAD_WORD 121u      /* a width of 0 or too large, or a role that is not admitted */
#define COMPANION_LATE_INPUT 122u    /* an input after a gate */
#define COMPANION_NO_ROOM 123u       /* the lent buffer is too short */
/* Of a Bristol text. */
#define COMPANION_TEXT_NUMBER 124u   /* no number where one is due */
#define COMPANION_TEXT_VALUES 125u   /* no values, a width of 0, or more bits than wires */
#define COMPANION_TEXT_GATE 126u     /* no name of a gate */
#define COMPANION_TEXT_COUNTS 127u   /* numbers of wires that do not fit the gate's name */
#define COMPANION_TEXT_WIRE 128u     /* a wire's number is not below the number of wires */
#define COMPANION_TEXT_EARLY 129u    /* a gate reads a wire that nothing before it makes */
#define COMPANION_TEXT_TWICE 130u    /* a gate makes a wire that is made already */
#define COMPANION_TEXT_ENDS 131u     /* it ends before its last gate */
#define COMPANION_TEXT_AFTER 132u    /* something follows where the line, or the text, is to end */
#define COMPANION_TEXT_UNMADE 133u   /* no gate makes an output wire */
/* Of all calls again. */
#define COMPANION_FAR 134u           /* the far end refused: its number is in far */
#define COMPANION_ALTERED 135u       /* in a run, what one end sent is not what the other received */
#define COMPANION_USED 136u          /* the window, or a part of it, was opened or made triples before */
#define COMPANION_NO_INPUTS 137u     /* own is NULL, and inputs of this end are due */
#define COMPANION_FORKED 138u        /* the stock was opened in another process */
#define COMPANION_FILE_CHANGED 139u  /* the stock's file is not what was written last */
#define COMPANION_FILE_LINKED 140u   /* the stock's file has a second name, a hard link */
/* Of layers, with the layer; from 1.1.0 on. */
#define COMPANION_BAD_LAYERS 141u    /* the number of layers is not 1 to COMPANION_LAYERS_MAX (16) */
#define COMPANION_OTHER_LAYER 142u   /* end, field, d, l, n or code key is not the first layer's */
#define COMPANION_LAYER_LABEL 143u   /* the label is not above that of the layer before */
#define COMPANION_OTHER_DELTA 144u   /* the scalar record's Delta is not the first layer's */
/* Of shares. */
#define COMPANION_SHARES_COUNT 145u  /* another number of shares than the circuit takes, or the part has */
#define COMPANION_OTHER_ORIGIN 146u  /* the far end's shares come from another run, or are another part */
#define COMPANION_NOT_KEPT 147u      /* kept is NULL, and outputs stay shared */

/* Who gives an input (one of the two), and to whom an output is opened. Role 1 is the noise end of a
 * pair's first dealing, as in expander.h. What is shared both ends hold together: an input as shares of
 * an earlier run, an output that is opened to nobody and kept as shares. */
#define COMPANION_ROLE_1 1
#define COMPANION_ROLE_2 2
#define COMPANION_BOTH 3
#define COMPANION_SHARED 4

/* Triples that a session opens when it begins, so that records which were not dealt together pass with
 * chance 2^-40. */
#define COMPANION_CHECKED 40

/* Forms of sums and comparisons: ripple has the fewest ANDs, and as many rounds as bits; flat, by
 * prefixes, has about log2 of that many rounds, and more ANDs. */
#define COMPANION_RIPPLE 0
#define COMPANION_FLAT 1

/* Bytes that are enough for any circuit, and characters for any Bristol text that is written. */
#define COMPANION_CIRCUIT_MAX (9 + 5 * EXPANDER_WIRES_MAX + 2 * EXPANDER_CIRCUIT_OUTPUTS_MAX)
#define COMPANION_BRISTOL_MAX (64 + 32 * EXPANDER_WIRES_MAX + 32 * EXPANDER_CIRCUIT_OUTPUTS_MAX)

/* The most layers of a source. */
#define COMPANION_LAYERS_MAX 16

/* A number; the call of the expander or of the system that refused, or ""; the line of a Bristol
 * text, or of several layers the one that was refused, from 1 on, or 0; what errno was, or 0. What
 * follows is 0 but with the numbers named. */
struct companion_status {
    uint32_t number;
    const char *call;
    size_t line;
    int system;
    uint32_t far;                       /* COMPANION_FAR: the far end's number */
    uint32_t parts;                     /* 105, 142: COMPANION_PART_.. that differ */
    size_t needed, there;               /* 18: triples; 145: shares; 15: indices asked for, and left;
                                           105, of other layers: how many here, and there */
    struct expander_label label, other; /* 20, 21: the caller's, the one in use; 105, 109: here, there;
                                           143: the layer's, and that of the layer before */
};

/* The next step of a sequence, unless one before it failed. */
#define COMPANION_NEXT(status, call) \
    ((status).number == COMPANION_DONE ? (void)((status) = (call)) : (void)0)

/* Parts of a record's head. */
#define COMPANION_PART_END 1u
#define COMPANION_PART_FIELD 2u
#define COMPANION_PART_DEPTH 4u
#define COMPANION_PART_BRANCH_BITS 8u
#define COMPANION_PART_TREES 16u
#define COMPANION_PART_TERMS 32u
#define COMPANION_PART_OUTPUTS 64u
#define COMPANION_PART_CODE_KEY 128u
#define COMPANION_PART_LABEL 256u
#define COMPANION_PART_LAYERS 512u /* how many there are */

/* The field, and d, g, t, l and n of expander.h. */
struct companion_sizes {
    uint8_t field;
    size_t depth, branch_bits, trees, terms, outputs;
};

/* Both records of a dealing. Its owner wipes it: companion_wipe(&dealt, sizeof dealt). */
struct companion_dealt {
    size_t noise_len, scalar_len;
    uint8_t noise[EXPANDER_NOISE_RECORD_MAX], scalar[EXPANDER_SCALAR_RECORD_MAX];
};

/* A record that is lent: of exactly len bytes. */
struct companion_record {
    const uint8_t *bytes;
    size_t len;
};

/* One end of a dealing: what its record says, a copy of the record, and what offline makes of it. Of
 * layers, head and record are the last one's, whose label is the highest, and the vectors are the
 * layers' sums; every call takes such an end, or a pair of them, as it takes one of a single dealing. */
struct companion_end {
    struct expander_described head;
    size_t record_len, held;
    uint8_t *record;
    uint64_t *noise;    /* accumulated noise, N words, at the noise end; else NULL */
    uint64_t *elements; /* accumulated v, at the noise end, or w; W N words */
    uint64_t delta[2];  /* at the scalar end; else 0 */
};

/* A window's outputs. */
struct companion_window {
    size_t count, held;
    uint64_t *u;        /* at the noise end, a word an output; else NULL */
    uint64_t *elements; /* v, at the noise end, or w; W words an output */
    uint8_t *choices;   /* at the noise end in field 1, u as a byte an output; else NULL */
    uint8_t *pads;      /* in field 1, 16 bytes an output at the noise end, 32 at the other; else NULL */
};

/* An end's part in two dealings of field 1 with the roles exchanged. The dealing with the lower label
 * is the first, and its noise end has role 1. Both dealings go by one window, and by one stock, whose
 * label is the first one's and whose n is the smaller of both. Where a dealing has layers, its label
 * for this order is its highest, and the stock's label is the highest of all; so no layer's label can
 * come again in a passage (companion_pass_pair). A pair remembers which outputs were
 * opened or made triples, and refuses them a second time (COMPANION_USED). Once it is closed that is
 * forgotten: across openings a stock keeps it. */
struct companion_pair {
    struct companion_end noise, scalar;
    struct expander_label label; /* the first dealing's; of layers the highest of all */
    size_t outputs;              /* the smaller n */
    uint8_t role;                /* 1 or 2 */
    uint8_t compared;            /* 1 once companion_compare_pair is done */
    uint8_t used[EXPANDER_OUTPUTS_MAX / 8]; /* a bit an output, lowest first */
};

/* AND triples of windows of a pair, three bytes each, for one run; all 0 at first. windows is a sum of
 * labels, first indices and counts, which a run compares. */
struct companion_triples {
    size_t count;
    uint8_t *bytes;
    uint64_t windows;
};

/* Bits that both ends hold together and neither knows; all 0 at first. Each end has a share of each, a
 * byte 0 or 1, and the exclusive or of both ends' shares is the bit. origin is a sum of the runs and parts
 * that they come from, the same at both ends, which a run compares. They belong to no pair: what one
 * season kept serves the next. A copy of the three members that the caller holds, as from a file, may be
 * given to a run too; companion_free_shares is for those alone that the companion made. */
struct companion_shares {
    size_t count;
    uint8_t *bits;
    uint64_t origin;
};

/* How an end reaches the other: two functions of the caller's, as write and read. Each moves 1 to len
 * bytes and returns how many; 0 if the far end is closed; and below 0, with errno if it has one, where
 * it fails or where the time is over that the caller gives it. Where it moves fewer than len it is
 * called again for the rest. The context is the caller's, and is passed to both. */
struct companion_link {
    ptrdiff_t (*send)(void *context, const uint8_t *bytes, size_t len);
    ptrdiff_t (*receive)(void *context, uint8_t *bytes, size_t len);
    void *context;
};

/* A context for companion_socket_send and companion_socket_receive: an open socket or pipe, how long
 * to wait for a move (-1: without end), the bytes moved so far, and when all is to be over, as
 * companion_limit sets it (0: never). Its owner may write all of it. */
struct companion_socket {
    int fd, milliseconds;
    size_t sent, received;
    int64_t until;
};

/* A stock that is kept in a file or, where name is NULL, in memory alone. */
struct companion_stock {
    struct expander_stock stock;
    char *name;             /* the file's, in its folder */
    int folder, lock, file; /* descriptors: the folder, the lock file, and the file as written last */
    uint64_t device, inode; /* which file that is */
    int64_t process;        /* which opened it */
};

/* An end's records of a pair, which are lent: noise records of one dealing and scalar records of the
 * other, one each, or of layers one a layer; and how many threads open them, at most (0 is 1). */
struct companion_records {
    const struct companion_record *noise, *scalar;
    size_t noise_layers, scalar_layers, threads;
};

/* A session of an end: its open pair, compared and checked; the link; and what its triples are drawn
 * from, the caller's stock or, where that is NULL, one in memory alone. */
struct companion_session {
    const struct companion_link *link;
    struct companion_pair pair;
    struct companion_stock *stock, memory;
    size_t caller;
};

/* A wire of a circuit: inputs first, then gates. A word is wires, lowest bit first. */
typedef uint16_t companion_wire;

/* A circuit that is being built, all 0 at first; 57 KB. After the first fault nothing more is made:
 * fault holds its number, wires that are returned are 0, and calls that take the circuit fail with it.
 * Roles may be written once all is made. */
struct companion_circuit {
    uint32_t fault;
    size_t inputs, gates, outputs, input_words, output_words;
    companion_wire zero, one; /* the constants, once made */
    struct {
        uint8_t kind; /* as in expander.h; a NOT has the same wire twice */
        companion_wire left, right;
    } gate[EXPANDER_WIRES_MAX];
    companion_wire output[EXPANDER_CIRCUIT_OUTPUTS_MAX];
    uint16_t input_width[EXPANDER_WIRES_MAX], output_width[EXPANDER_CIRCUIT_OUTPUTS_MAX];
    uint8_t input_role[EXPANDER_WIRES_MAX], output_role[EXPANDER_CIRCUIT_OUTPUTS_MAX];
};

/** Say in a sentence what a status means, naming the call and what was tested.
 *
 *  In:       status
 *  Out:      text: a C string, cut off where it is longer; text_len is at least 1, and 300 are always
 *                  enough
 */
void companion_text(struct companion_status status, char *text, size_t text_len);

/** Say what a call of expander.h tests for a number, or what a number of the companion's own means.
 *
 *  Returns:  a text that stays; "no such call", "no such number"
 *  In:       call:   the call's name, "expander_deal", or "" for what a number says in most calls; for 0
 *                    and from 100 on it does not count
 *            number: 0 to 21, or 100 to 147
 */
const char *companion_meaning(const char *call, uint32_t number);

/** The version of the companion that is linked or loaded: COMPANION_VERSION_NUMBER of its header. */
uint32_t companion_version(void);

/** Write zeros that the compiler does not leave out. */
void companion_wipe(void *memory, size_t len);

/** Deal. All is drawn by getrandom: roots and code key; positions as a uniform choice of t of the N
 *  places; values 1 in field 1, uniform from 1 to p - 1 in field 2; Delta uniform and not zero.
 *
 *  Returns:  0; 1 (field), 2 (a size); COMPANION_NO_RANDOM
 *  In:       sizes
 *            label: the caller's, another for each dealing, and higher from season to season
 *  Out:      dealt: both records, each for its end alone
 */
struct companion_status companion_deal(
    const struct companion_sizes *sizes, struct expander_label label, struct companion_dealt *dealt);

/** Deal the layers of one source: as many dealings under one Delta and one code key, each with roots,
 *  positions and values of its own, whose correlations add. All noise records are for the one end and
 *  all scalar records for the other. In field 1 places of different layers that are equal cancel, so
 *  there are up to layers times t places of noise.
 *
 *  Returns:  0; as companion_deal; COMPANION_BAD_LAYERS; COMPANION_LAYER_LABEL (there are not so many
 *            labels from this one on)
 *  In:       sizes
 *            label:  the first layer's; each further one has the next label
 *            layers: 1 to COMPANION_LAYERS_MAX
 *  Out:      dealt:  as many, in the layers' order
 *  Failed:   all of dealt is 0; where the number of layers is not admitted it is as it was.
 */
struct companion_status companion_deal_layers(
    const struct companion_sizes *sizes, struct expander_label label, size_t layers,
    struct companion_dealt *dealt);

/** The label that stands for a number. */
struct expander_label companion_label(uint64_t number);

/** Open a record of either end: describe it, find room, expand it offline.
 *
 *  Returns:  0; the number of expander_describe; COMPANION_NO_MEMORY
 *  In:       record: of exactly record_len bytes; it is copied
 *  Out:      end:    closed by companion_close
 */
struct companion_status companion_open(
    const uint8_t *record, size_t record_len, struct companion_end *end);
void companion_close(struct companion_end *end);

/** Open an end from the records of all layers of its source, and add them up. All tests are made before
 *  anything is expanded. What is closed is the whole of it: no layer stays open alone.
 *
 *  Returns:  0; COMPANION_BAD_LAYERS; COMPANION_NO_MEMORY; with the layer in line, where there are
 *            several: the number of expander_describe; COMPANION_OTHER_LAYER (with the parts),
 *            COMPANION_LAYER_LABEL, and at the scalar end COMPANION_OTHER_DELTA. The noise end cannot see
 *            Delta: that its layers have one is found by companion_check.
 *  In:       records: one a layer, of one end, with labels that rise; copied as far as they are kept
 *            layers:  1 to COMPANION_LAYERS_MAX
 *            threads: how many work at once, at most; 0 is 1. Each takes memory for a vector of its own.
 *  Out:      end:     closed by companion_close
 */
struct companion_status companion_open_layers(
    const struct companion_record *records, size_t layers, size_t threads,
    struct companion_end *end);

/** How many layers an end has, 0 if it is closed; and what the record of one said, 1 to that many, or
 *  all 0 where there is none. */
size_t companion_layers(const struct companion_end *end);
struct expander_described companion_layer(const struct companion_end *end, size_t layer);

/** Give the outputs first to first + count - 1 of an end, and in field 1 choices and pads.
 *
 *  Returns:  0; 7 (first + count is above n); COMPANION_NO_MEMORY
 *  In:       end, first, count
 *  Out:      window: closed by companion_free_window
 */
struct companion_status companion_expand(
    const struct companion_end *end, size_t first, size_t count, struct companion_window *window);
void companion_free_window(struct companion_window *window);

/** Open both records of an end whose roles are exchanged in two dealings of field 1.
 *
 *  Returns:  0; as companion_open; COMPANION_WRONG_RECORD, COMPANION_SAME_LABEL
 *  In:       noise:  the noise record of one dealing, of exactly noise_len bytes
 *            scalar: the scalar record of the other, of exactly scalar_len bytes
 *  Out:      pair:   closed by companion_close_pair
 */
struct companion_status companion_open_pair(
    const uint8_t *noise, size_t noise_len, const uint8_t *scalar, size_t scalar_len,
    struct companion_pair *pair);
void companion_close_pair(struct companion_pair *pair);

/** Open both ends of a pair from the records of all layers of each, on threads that take layers of
 *  both. Tests are made before anything is expanded.
 *
 *  Returns:  0; as companion_open_layers, noise first; COMPANION_WRONG_RECORD; COMPANION_SAME_LABEL (a
 *            label is in both)
 *  In:       noise:  the noise records of one source's layers; noise_layers of them
 *            scalar: the scalar records of the other's; scalar_layers of them
 *            threads: as companion_open_layers
 *  Out:      pair:   closed by companion_close_pair
 */
struct companion_status companion_open_pair_layers(
    const struct companion_record *noise, size_t noise_layers,
    const struct companion_record *scalar, size_t scalar_layers, size_t threads,
    struct companion_pair *pair);

/** Add the triples of a window of a pair to those that are there. The pair gives them once, whether a
 *  run spends them or they are closed.
 *
 *  Returns:  0; COMPANION_NOT_COMPARED; 7 (first + count is above a dealing's n); COMPANION_USED;
 *            COMPANION_NO_MEMORY
 *  In:       first, count: the window in both dealings, the same at both ends
 *  Out:      pair:    remembers the window
 *            triples: all 0 at first; spent by companion_run, or closed by companion_free_triples
 *  Failed:   pair and triples are as they were.
 */
struct companion_status companion_add_triples(
    struct companion_pair *pair, size_t first, size_t count, struct companion_triples *triples);
void companion_free_triples(struct companion_triples *triples);

/** The two functions of a link over a socket or pipe, whose context is a struct companion_socket. A
 *  write to a closed socket raises no signal; one to a closed pipe raises SIGPIPE, if the program has
 *  not turned that off. Where the time is over errno is ETIMEDOUT. */
ptrdiff_t companion_socket_send(void *socket, const uint8_t *bytes, size_t len);
ptrdiff_t companion_socket_receive(void *socket, uint8_t *bytes, size_t len);

/** Set a limit on all moves of a socket together, from now on: before a run, on the whole of it, beside
 *  the limit on each move. A far end that moves a byte now and then does not outlast it. Functions of the
 *  caller's own keep such a limit themselves.
 *
 *  In:       milliseconds: 0 or more; -1: without end
 *  Out:      socket:       its until
 */
void companion_limit(struct companion_socket *socket, int milliseconds);

/** Send, or receive, all of len bytes.
 *
 *  Returns:  0; COMPANION_CLOSED, COMPANION_NOT_MOVED
 */
struct companion_status companion_send(
    const struct companion_link *link, const void *bytes, size_t len);
struct companion_status companion_receive(
    const struct companion_link *link, void *bytes, size_t len);

/** Same dealing: exchange the heads of records (field, sizes, code key, label), which both ends know,
 *  and compare them: of one dealing with an end here and an end there, or of both dealings of a pair,
 *  of which no triples are made before. Of layers, how many there are and the head of each. Records with
 *  equal heads need not have been dealt together: that is companion_check's.
 *
 *  Returns:  0; COMPANION_OTHER_DEALING (the status has the parts that differ, both labels, and the
 *            layer, the last one first, or how many each end has), COMPANION_OUT_OF_STEP
 *  In:       link
 *            end, or pair, whose member compared says afterwards whether it is done
 */
struct companion_status companion_compare(
    const struct companion_link *link, const struct companion_end *end);
struct companion_status companion_compare_pair(
    const struct companion_link *link, struct companion_pair *pair);

/** Dealt together: open the triples of a window, which then serve nothing else, and test whether they
 *  hold.
 *
 *  Found out: records that fit at no output, as those of two dealings under one head, pass with chance
 *  2^-count. Records that fit at a share s of the outputs, as one that was altered in part, pass with
 *  chance ((1 + s) / 2)^count. Both take pads' bits as random.
 *  Not found out: an end that lies in this call; what does not fit at outputs outside the window.
 *  Both ends know u and the triples of the window afterwards.
 *
 *  Returns:  0; COMPANION_NOT_PAIRED; COMPANION_OUT_OF_STEP (the far end checks another window);
 *            COMPANION_NOT_BITS; as companion_add_triples
 *  In:       link, first, count
 *  Out:      pair: remembers the window, also where the check fails after its triples were made
 */
struct companion_status companion_check(
    const struct companion_link *link, struct companion_pair *pair, size_t first, size_t count);

/** Create a stock and its file, or open the stock of a file.
 *
 *  A draw or a passage is saved (written, synced, renamed, the folder synced) before its window is
 *  given, so the file is never older than what was handed out. PATH.new is the next file until it is
 *  whole. PATH.lock and the file itself are locked while the stock is open; PATH.lock stays, and where it
 *  is removed the file's own lock keeps others out. A crash costs the draw that was being saved: its
 *  indices may be spent and used by nobody.
 *  The file    is the one that was opened, in the folder where it was then, whatever chdir does.
 *              Symbolic links are followed once, when it is opened. Before it is written again it is
 *              compared with what was written last: where another file stands there, or none, or it says
 *              something else, or has a second name, nothing is drawn.
 *  Fork        A child is refused; a daemon forks first and then opens its stock (Forks, above).
 *  NOT PREVENTED: a copy of the file, or one that is restored from a backup while the stock is closed,
 *  hands indices out again.
 *
 *  Returns:  0; COMPANION_NO_MEMORY; COMPANION_FILE, COMPANION_FILE_IN_USE
 *            create: 2, 16 (as expander_open_stock); COMPANION_FILE_THERE (a link too)
 *            open:   21 (the file's stock has another label), 14 (it has no callers);
 *                    COMPANION_FILE_DAMAGED, COMPANION_FILE_LINKED
 *  In:       path:   the file's; where it is NULL, create keeps the stock in memory alone
 *            label:  of the dealing, or of a pair its label; of layers the highest
 *            outputs, shares: as expander_open_stock has them
 *  Out:      stock:  closed by companion_close_stock
 */
struct companion_status companion_create_stock(
    const char *path, struct expander_label label, size_t outputs, const uint32_t *shares,
    size_t shares_len, struct companion_stock *stock);
struct companion_status companion_open_stock(
    const char *path, struct expander_label label, struct companion_stock *stock);
void companion_close_stock(struct companion_stock *stock);

/** Draw a caller's next count indices. With a link the far end draws too: both say where they stand,
 *  and the one that is behind, after a crash, first spends what the other has spent; once it is saved,
 *  both say so.
 *
 *  Returns:  0; 21, 14, 15 (as expander_draw); COMPANION_FORKED; COMPANION_FILE, COMPANION_FILE_CHANGED,
 *            COMPANION_FILE_LINKED; with a link COMPANION_OUT_OF_STEP (the far end draws for another
 *            caller, or another count), COMPANION_OTHER_DEALING
 *  In:       link:  or NULL
 *            label, caller, count: as expander_draw has them
 *  Out:      stock: after the draw, as its file
 *            first: the window's first index
 *  Failed:   the stock is as it was; but where the folder's sync failed, or with a link what came after
 *            saving (COMPANION_FAR, CLOSED, NOT_MOVED), the indices may be spent.
 */
struct companion_status companion_draw(
    struct companion_stock *stock, const struct companion_link *link, struct expander_label label,
    size_t caller, size_t count, size_t *first);

/** Pass what is left of a stock to a fresh dealing, or pair, of a higher label. Nothing is sent.
 *
 *  Both ends are to stand alike before, since what each has left divides the fresh indices among the
 *  callers: after a crash, a draw of 0 for each caller with a link brings the one that is behind there.
 *  After a crash in a passage, or between both ends' passages, a stock has the one label or the other:
 *  open it with the fresh label and, where that returns 21, with the one before, and then pass it.
 *
 *  Returns:  0; 2, 20, 16 (as expander_pass_stock); COMPANION_FORKED; COMPANION_FILE,
 *            COMPANION_FILE_CHANGED, COMPANION_FILE_LINKED
 *  In:       label, outputs: of the fresh dealing, or pair
 *  Out:      stock: after the passage, as its file
 *  Failed:   the stock is as it was; but where the folder's sync failed it has passed.
 */
struct companion_status companion_pass(
    struct companion_stock *stock, struct expander_label label, size_t outputs);

/** The same, to a fresh end or pair that is open: to its label (of layers the highest) and its n, where
 *  its lowest label is above the one in use. With companion_pass alone a passage would admit a layer's
 *  label again.
 *
 *  Returns:  as companion_pass; 20 also where the lowest label of all layers is not above the one in use
 *  In:       fresh
 *  Out:      stock: as above
 *  Failed:   as above.
 */
struct companion_status companion_pass_end(
    struct companion_stock *stock, const struct companion_end *fresh);
struct companion_status companion_pass_pair(
    struct companion_stock *stock, const struct companion_pair *fresh);

/** Add a word of inputs, before any gate, or a word of outputs.
 *
 *  Faults:   COMPANION_BAD_WORD; COMPANION_LATE_INPUT, COMPANION_WIRES (input); COMPANION_OUTPUTS,
 *            COMPANION_BAD_WIRE (output)
 *  In:       role:  who gives it, 1 or 2; to whom it is opened, 1, 2 or COMPANION_BOTH; COMPANION_SHARED:
 *                   given, or kept, as shares
 *            width: at least 1
 *  Out:      word:  of an input, its wires
 */
void companion_input(
    struct companion_circuit *circuit, uint8_t role, companion_wire *word, size_t width);
void companion_output(
    struct companion_circuit *circuit, uint8_t role, const companion_wire *word, size_t width);

/** Add a gate, or, once there is an input, give the wire of a constant. Where a constant settles a
 *  gate none is made. An exclusive or, a NOT and a constant cost nothing to run, an AND a triple.
 *
 *  Returns:  the wire
 *  Faults:   COMPANION_WIRES, COMPANION_BAD_WIRE
 */
companion_wire companion_xor(
    struct companion_circuit *circuit, companion_wire left, companion_wire right);
companion_wire companion_and(
    struct companion_circuit *circuit, companion_wire left, companion_wire right);
companion_wire companion_not(struct companion_circuit *circuit, companion_wire of);
companion_wire companion_bit(struct companion_circuit *circuit, unsigned bit);

/** Add what computes on words of width bits, 1 to EXPANDER_WIRES_MAX.
 *
 *  ANDs and rounds of a word of w bits alone, the rounds without the last, which opens none:
 *    sum, difference  ripple w and w; flat about w log2 w and 1 + log2 w
 *    less             ripple w and w; flat at most 3 w and 1 + log2 w
 *    equal            w - 1 and log2 w
 *    select           w and 1
 *
 *  Returns:  of less and equal, the wire that is 1 where a is below b, or equal to it; words are read
 *            as numbers from 0 on
 *  Faults:   COMPANION_BAD_WORD, COMPANION_WIRES, COMPANION_BAD_WIRE
 *  In:       form:       COMPANION_RIPPLE or COMPANION_FLAT
 *            value:      of a constant; its bits from 64 on are 0
 *            bit, then, otherwise: of select
 *  Out:      word:       the constant, width wires
 *            sum:        width + 1 wires, the last the carry
 *            difference: width + 1 wires, the last 1 where a is below b
 *            result:     then where bit is 1, otherwise where it is 0; it may be either of the two
 *  Overlap:  sum and difference overlap neither a nor b.
 */
void companion_constant(
    struct companion_circuit *circuit, uint64_t value, companion_wire *word, size_t width);
void companion_sum(
    struct companion_circuit *circuit, int form, const companion_wire *a, const companion_wire *b,
    size_t width, companion_wire *sum);
void companion_difference(
    struct companion_circuit *circuit, int form, const companion_wire *a, const companion_wire *b,
    size_t width, companion_wire *difference);
companion_wire companion_less(
    struct companion_circuit *circuit, int form, const companion_wire *a, const companion_wire *b,
    size_t width);
companion_wire companion_equal(
    struct companion_circuit *circuit, const companion_wire *a, const companion_wire *b,
    size_t width);
void companion_select(
    struct companion_circuit *circuit, companion_wire bit, const companion_wire *then,
    const companion_wire *otherwise, size_t width, companion_wire *result);

/** Add what gives the least of n words and its number. Words are compared in pairs, and then the
 *  lesser ones.
 *
 *  Faults:   COMPANION_BAD_WORD (also where n (width + bits of number) is above 8,192),
 *            COMPANION_WIRES, COMPANION_BAD_WIRE
 *  In:       words:  n words of width bits, one after the other
 *  Out:      least:  width wires
 *            number: its number from 0, the lowest of equals, in as many wires as n - 1 has bits
 *  Overlap:  least and number overlap neither each other nor words.
 */
void companion_least(
    struct companion_circuit *circuit, int form, const companion_wire *words, size_t n,
    size_t width, companion_wire *least, companion_wire *number);

/** Write a circuit's bytes, as expander_circuit_round takes them.
 *
 *  Returns:  0; the fault; COMPANION_NO_ROOM
 *  Out:      bytes:   COMPANION_CIRCUIT_MAX are always enough
 *            written: how many
 */
struct companion_status companion_write(
    const struct companion_circuit *circuit, uint8_t *bytes, size_t len, size_t *written);

/** Count a circuit's inputs, gates, outputs, ANDs and rounds, by expander_describe_circuit.
 *
 *  Returns:  0; the fault; 17 (no inputs, or no outputs)
 */
struct companion_status companion_count(
    const struct companion_circuit *circuit, struct expander_described_circuit *counts);

/** Evaluate a circuit plainly.
 *
 *  Returns:  0; the fault; COMPANION_NOT_BITS
 *  In:       inputs:  a byte 0 or 1 for each input
 *  Out:      outputs: a byte 0 or 1 for each output
 */
struct companion_status companion_evaluate(
    const struct companion_circuit *circuit, const uint8_t *inputs, uint8_t *outputs);

/** Write a number as width bits, lowest first, one byte each, those from 64 on 0; and read back the
 *  number of up to 64 bits. */
void companion_to_bits(uint64_t number, uint8_t *bits, size_t width);
uint64_t companion_from_bits(const uint8_t *bits, size_t width);

/** Read a circuit in Bristol Fashion: XOR, AND, INV, EQ, EQW, MAND; gates in order, wire numbers in
 *  any; a byte-order mark is passed over. The first input value is role 1's and all others role 2's; outputs are opened to both.
 *
 *  Returns:  0; with the line COMPANION_TEXT_.., COMPANION_WIRES, COMPANION_OUTPUTS
 *  In:       text: of text_len characters
 *  Out:      circuit
 */
struct companion_status companion_read_bristol(
    const char *text, size_t text_len, struct companion_circuit *circuit);

/** Write a circuit in Bristol Fashion. Where its outputs are not the last wires EQW makes them so.
 *
 *  Returns:  0; the fault; COMPANION_NO_ROOM
 *  Out:      text:    a C string; COMPANION_BRISTOL_MAX characters are always enough
 *            written: its length
 */
struct companion_status companion_write_bristol(
    const struct companion_circuit *circuit, char *text, size_t len, size_t *written);

/** Run a circuit jointly. Both ends compare circuit, words of inputs and outputs with their roles, and
 *  windows of the triples; share their inputs under random masks; run in rounds; send their shares of the
 *  outputs; and last compare sums of all that was sent and received (FNV-1a, 64 bits) before either gives
 *  outputs. The sums find what was altered on the way by accident; whoever alters on purpose alters them
 *  too.
 *
 *  The last exchange can fail: of its two messages one may arrive and the other not, or altered. Then one
 *  end has the result and status 0, and the other a status and no result; the end that has it cannot know.
 *  Where both are to act on the result, or neither, they settle that above this call. The run is made
 *  again with fresh triples and the same inputs, and gives the same.
 *
 *  Returns:  0; the fault; 17 (no inputs or outputs), 18 (fewer triples than ANDs)
 *            COMPANION_OUT_OF_STEP, COMPANION_OTHER_CIRCUIT, COMPANION_OTHER_SHARES,
 *            COMPANION_OTHER_WINDOWS: the far end differs
 *            COMPANION_ALTERED: a sum is not the far end's
 *            COMPANION_NOT_BITS: an input, or the far end's share of an output; 8: another byte of the
 *            far end's
 *            COMPANION_NO_INPUTS: own is NULL, and the circuit has inputs of this end
 *            COMPANION_SHARES_COUNT, COMPANION_NOT_KEPT: the circuit has inputs, or outputs, that are shared,
 *            which are for companion_run_shared
 *            COMPANION_BAD_WORD: the role of an input is not admitted; 9: this end's role is not 1 or 2
 *            COMPANION_NO_RANDOM, COMPANION_NO_MEMORY
 *            What is wrong at this end alone, its role and inputs too, is found before anything but the
 *            number is sent.
 *  In:       role:    the pair's
 *            own:     this end's input bits in the circuit's order, a byte 0 or 1 each; NULL if none
 *  Out:      triples: spent: wiped and freed, also where the run fails; their windows serve no other
 *                     run, nor this one made again
 *            outputs: a byte for each output of the circuit, 0 where it is not opened to this end; may be
 *                     NULL from 1.1.0 on
 *            rounds:  how many were made; may be NULL
 *  Failed:   outputs are as they were.
 */
struct companion_status companion_run(
    const struct companion_link *link, uint8_t role, const struct companion_circuit *circuit,
    const uint8_t *own, struct companion_triples *triples, uint8_t *outputs, size_t *rounds);

/** Run a circuit jointly whose inputs may be shares, and whose outputs may stay shares, so that a state
 *  that both ends hold goes through any number of circuits (examples/aes.c). It is companion_run, with its
 *  numbers, for words that are COMPANION_SHARED too. A circuit without gates shares inputs, or opens what
 *  was kept.
 *
 *  Claimed   Of a shared word nothing is opened, neither of what is given nor of what is kept: of shares
 *            only their origin is sent. What the ANDs of a run send is masked by triples, as ever, and sums
 *            of all that was sent and received are compared before anything is given.
 *  Not       An end that alters its shares alters the bits that they stand for, and nobody finds it.
 *  Twice     Shares may go into any number of circuits, and into a run that is made again. A triple may not:
 *            each run takes fresh ones.
 *  Last      The last exchange can fail, as in companion_run. Then one end has kept and the other has not;
 *            the next run finds it (COMPANION_OTHER_ORIGIN). Both go back to what was given, and run again
 *            with fresh triples. So hold what was given until the next run is done. Where kept is given
 *            itself there is no way back for the end that has kept.
 *  Wiping    Shares are wiped when they are freed, or replaced. Both ends' shares of a state tell the state.
 *
 *  Returns:  as companion_run, but for shared words:
 *            COMPANION_SHARES_COUNT: not as many are given as the circuit's shared inputs have bits (the
 *            status has both); COMPANION_NOT_KEPT: kept is NULL, and the circuit has shared outputs
 *            COMPANION_OTHER_ORIGIN: the far end gives shares of another run, or another part
 *            COMPANION_NOT_BITS: a share that is given is above 1
 *  In:       given:   shares for the circuit's shared inputs, in its order; NULL if none
 *            the others as in companion_run
 *  Out:      triples: spent, also where the run fails
 *            outputs: as in companion_run, and 0 where an output stays shared; may be NULL
 *            kept:    shares of the circuit's shared outputs, in its order; what it held before is wiped
 *                     and freed. It may be given itself; NULL if none are kept
 *  Failed:   outputs, kept and what was given are as they were.
 */
struct companion_status companion_run_shared(
    const struct companion_link *link, uint8_t role, const struct companion_circuit *circuit,
    const uint8_t *own, const struct companion_shares *given, struct companion_triples *triples,
    uint8_t *outputs, struct companion_shares *kept);

/** Add a part of some shares to those that are there, so that a circuit takes parts of several runs'. Both
 *  ends make the same calls. Nothing is sent.
 *
 *  Returns:  0; COMPANION_SHARES_COUNT (there are fewer than first + count); COMPANION_NO_MEMORY
 *  In:       from:   it stays as it is; it may be shares itself
 *            first, count: the part
 *  Out:      shares: all 0 at first; closed by companion_free_shares, which wipes them
 *  Failed:   shares are as they were.
 */
struct companion_status companion_add_shares(
    const struct companion_shares *from, size_t first, size_t count, struct companion_shares *shares);
void companion_free_shares(struct companion_shares *shares);

/** One call for the usual sequence: open the records, compare, check, draw, run, close. It is
 *  companion_join, companion_compute without shares, and companion_leave.
 *
 *  Returns:  as these
 *  In:       link, records, stock, caller: as companion_join
 *            circuit, own: as companion_run
 *  Out:      stock:   what was checked and what was run is drawn from it, also where a later step fails
 *            outputs: as companion_run
 *  Failed:   outputs are as they were.
 */
struct companion_status companion_once(
    const struct companion_link *link, const struct companion_records *records,
    struct companion_stock *stock, size_t caller, const struct companion_circuit *circuit,
    const uint8_t *own, uint8_t *outputs);

/** Begin a session for any number of circuits: open the records (companion_open_pair_layers), compare them
 *  with the far end's (companion_compare_pair), draw COMPANION_CHECKED outputs (companion_draw, with the
 *  link) and open their triples (companion_check). An end whose records or stock are refused tells the
 *  other.
 *
 *  Returns:  0; as these; COMPANION_NO_MEMORY
 *  In:       link:    lent until the session is left
 *            records: lent for this call alone
 *            stock:   open, under the pair's label, and lent until the session is left. NULL: the session
 *                     counts from output 0 on in memory, which is forgotten when it is left. Then the
 *                     records serve this session and nothing else, before or after
 *            caller:  of the stock; 0 where it is NULL
 *  Out:      session: left by companion_leave; its pair.role is this end's
 */
struct companion_status companion_join(
    const struct companion_link *link, const struct companion_records *records,
    struct companion_stock *stock, size_t caller, struct companion_session *session);
void companion_leave(struct companion_session *session);

/** Run a circuit in a session: draw a triple for each AND (companion_draw, with the link), and run it
 *  (companion_run_shared, under the pair's role). What is wrong at this end alone is found, and told to the
 *  far end, before anything is drawn.
 *
 *  Returns:  0; as these; COMPANION_NOT_COMPARED (the session was left, or never begun)
 *  In:       circuit, own: as companion_run
 *            given:   shares for shared inputs; NULL if none
 *  Out:      session: its triples are spent, also where the run fails
 *            outputs: as companion_run; may be NULL
 *            kept:    shares of shared outputs; it may be given itself; NULL if none are kept
 *  Failed:   outputs, kept and what was given are as they were. The session is to be left and the link to be
 *            closed; but where both ends' draws return 15 it goes on, with a smaller circuit.
 */
struct companion_status companion_compute(
    struct companion_session *session, const struct companion_circuit *circuit, const uint8_t *own,
    const struct companion_shares *given, uint8_t *outputs, struct companion_shares *kept);

#ifdef __cplusplus
}
#endif

#endif
