/* Correlation expander: dealing, the noise end and the scalar end, a slow expansion that verifies a
 * unit on a bench, pads, signed amounts, messages of the caller's choosing, AND triples, a stock of
 * outputs for several callers, circuits. The archive is for x86-64 Linux; dist/expander.c, a second
 * back end from the same proved text, is for any machine that holds words least byte first, also one
 * whose size_t has 32 bits.
 *
 * A dealing makes two key records. The noise end expands its record to u and v, the scalar end
 * expands its own to w, and w = Delta * u + v at every index below n. In field 1 the pad calls turn
 * v and u, or w and Delta, into oblivious transfer: at each index the scalar end holds two messages
 * and the noise end the one that u names. Three more calls carry messages of the scalar end's
 * choosing over such pads: the noise end sends correction bits, the scalar end answers with both
 * messages masked, and the noise end opens the one that it wants. Two dealings with the roles
 * exchanged give AND triples: bits of which each end holds a share, to be combined by exclusive or.
 * With them both ends run a circuit on bits that neither of them knows, in steps, one AND each, or
 * in rounds, each of all ANDs that are ready. A stock divides a dealing's outputs among callers, so
 * that no index is used twice; what is left of it can pass to another dealing.
 *
 * In use, with each number looked at (examples/calls/expansion.c of the source is a whole program)
 *   dealt = expander_deal(EXPANDER_BINARY, d, g, t, l, n, roots, 16 * t, positions, t, values, t,
 *       scalar, 16, code_key, 16, label, 16, nr, sizeof nr, sr, sizeof sr);
 *   head = expander_describe(nr, dealt.first_written);          the noise end, which has nr alone
 *   N = head.leaves, W = head.element_words;
 *   expander_noise_offline(nr, dealt.first_written, noise, N, v, W * N);                     once
 *   expander_noise_online(nr, dealt.first_written, noise, N, v, W * N, first, count,
 *       u_out, count, v_out, W * count);                                      as often as wanted
 *   expander_scalar_offline(sr, dealt.second_written, w, W * N, delta, 2);    the scalar end, sr
 *   expander_scalar_online(sr, dealt.second_written, w, W * N, first, count, w_out, W * count);
 *   Now w_out is Delta times u_out plus v_out at each index of the window.
 *
 * Sizes
 *   d  depth of a tree, 1 to 16; N, the number of its leaves, is 2^d
 *   g  branch bits, 1, 2 or 3: a node has 2^g children, so a tree has d / g levels; d is a multiple
 *      of g
 *   t  trees, each with one noise place, 1 to the smaller of 64 and N
 *   l  terms in a row of the code, 1 to the smaller of 32 and N; a row reads exactly l places, one
 *      in each of l strips of N / l (rounded down)
 *   n  outputs, 1 to N / 2
 *
 * Fields
 *   1, binary  Noise is 0 or 1. An element is a block of 16 bytes, as two words, least byte first;
 *              addition is exclusive or.
 *   2, prime   Noise and elements are words below p = 2^61 - 1; arithmetic is modulo p.
 *   W stands below for the words that an element takes: 2 in field 1, 1 in field 2. Every block is
 *   an element in field 1; in field 2 a word of p or more is none.
 *
 * Rules for every call
 *   Comments      Returns lists the call's tests in their order, each with its number and that
 *                 number's name without EXPANDER_; In and Out list the parameters.
 *   Lent memory   A buffer is a pointer and its length, counted in what the pointer points to; the
 *                 length of buffer is buffer_len. A pointer is never NULL, even if its length is 0,
 *                 and has its type's alignment. An output buffer (Out) must not overlap anything
 *                 else lent to the same call; input buffers (In) may overlap one another. Nobody
 *                 writes lent memory, or reads an output buffer, until the call returns.
 *   Windows       first and count name the indices first to first + count - 1. They may have any
 *                 value: sums and products of what the caller passes do not wrap. With a count of
 *                 0, of a batch too, the same tests are made, and nothing is written.
 *   Accepted      The number is 0. Each output buffer holds the result from its start, and the
 *                 lengths returned say how much of it; what lies past that is untouched.
 *   Refused       The number is that of the first test that failed. All else that is returned is 0,
 *                 but a stock or state that was passed is returned as it was, and all memory is as
 *                 it was before the call.
 *   In both cases every input buffer is as it was before the call. No call allocates, or keeps
 *   anything between calls, so calls on different output buffers may run at the same time.
 *
 * From words to bytes
 *   The pad calls take v, w and Delta as bytes, each word least byte first. Memory holds words that
 *   way, so the words of the online and offline calls can be lent as they are: v_out as
 *   (const uint8_t *)v_out, with 16 count as its length. The choice at an index is u there as a
 *   byte: choices[k] = (uint8_t)u_out[k], which is 0 or 1 in field 1.
 *
 * Numbers in records and circuits
 *   A number is cut into groups of seven bits, a byte each, the lowest first; the top bit is set on
 *   every byte but the last. It has the shortest form, and at most three bytes: 5 is 05, 127 is 7F,
 *   128 is 80 01, 300 is AC 02, 16384 is 80 80 01 (hexadecimal).
 *
 * Reading a record
 *   A record is read from front to back, each field first whole and then tested:
 *    10 RECORD_ENDS: it ends before a field or inside it, code key, label, siblings and roots too;
 *       an empty one gives this
 *     9 WRONG_END: the end byte is not this end's, 1 noise or 2 scalar; to expander_describe,
 *       which takes either, that it is neither
 *     1 BAD_FIELD: the field byte is not 1 or 2
 *    11 BAD_NUMBER: d, g, t, l or n (each 11 and then 2, before the next) is not in its shortest
 *       form, or its third byte has the top bit set
 *     2 BAD_SIZE: d, g, t, l or n is outside its range, or d is no multiple of g
 *   then in a noise record, for each tree:
 *    11 BAD_NUMBER: the position's number is not in its shortest form, or its third byte has the
 *       top bit set
 *     4 BAD_POSITION: the position is N or more
 *     5 BAD_NOISE: the noise value is 0, or p or more (field 2; field 1 has none)
 *     8 NOT_ELEMENT: the correction is p or more (field 2)
 *   and in a scalar record:
 *     6 BAD_DELTA: Delta is zero, or is p or more (field 2)
 *   and at the end:
 *    12 BYTES_AFTER: bytes follow the record
 *   docs/RECORD-FORMAT.md has the fields one by one.
 *
 * Reading a circuit
 *   A circuit is numbers, coded as above: how many inputs, gates and outputs; of each gate its kind
 *   (1 exclusive or, 2 AND, 3 NOT) and its two wires, of a NOT its one; the output wires. Wires
 *   count from 0, inputs first, then gates in order; a gate's wires come before it. The AND of two
 *   inputs is 02 01 01, 02 00 01, 02. It is read from front to back, each number first whole and
 *   then tested:
 *    10 RECORD_ENDS: it ends before a number or inside it
 *    11 BAD_NUMBER: the number is not in its shortest form, or its third byte has the top bit set
 *    17 BAD_CIRCUIT: the number of inputs is 0 or above 4096; inputs and gates together are above
 *       4096; the number of outputs is 0 or above 4096; a kind is not 1, 2 or 3; a gate's wire is
 *       not before the gate; an output wire is none of the wires
 *   and at the end:
 *    12 BYTES_AFTER: bytes follow the circuit
 *   Every call that is lent a circuit reads the whole of it. So a step costs the circuit's length,
 *   however near the next AND is, and so does a round.
 *
 * Safe use
 *   Facts about what the calls take and leave. None of them says that a use is secure.
 *   Secret     roots, positions, values and delta. The noise record holds positions, values and
 *              siblings, and is for the noise end alone; the scalar record holds Delta and the
 *              roots, and is for the scalar end alone: whoever has both has u, v and w. What an end
 *              makes of its record is its own secret too: vectors, outputs, pads, shares, triples
 *              and states. Field, sizes, code key and label stand in both records.
 *   Random     No call draws anything: roots, positions, values, delta and code_key are as random as
 *              the caller draws them. No call sends anything, or knows who sent it: what was altered
 *              on the way and still reads well is accepted.
 *   Not twice  A root: the leaf that one noise record leaves out follows from another noise record
 *              of that root with another position, and with the correction it gives Delta times the
 *              noise value.
 *              Delta in two pairings: who learns it in one has it in the other. The two dealings of
 *              AND triples have a Delta each. One exception: the layers of one source, dealt together
 *              by one dealer, of which each end holds all. Their roots and labels are used once, as
 *              those of any dealing; a layer that is added twice cancels in field 1.
 *              A pad: the exclusive or of two messages masked by one pad is that of the messages.
 *              An index of a dealing: it stands for one output, one choice, one pad and one triple.
 *              A stock hands each index out once, if every call gets the stock that the call before
 *              returned and no two dealings have the same label. A stock of layers has the highest of
 *              their labels, and passes to layers whose lowest is above it.
 *              A triple: the bits sent for two ANDs under one triple give the exclusive or of the
 *              shares of both ANDs' wires. It serves one AND of one run, and not that run made
 *              again: on other far bits, what is sent for a later AND can differ by a bit of the
 *              triple, and so give it away.
 *   Time       The cipher looks bytes up in tables, so how long a call takes, and what it leaves in
 *              caches, depends on keys and data.
 *   Sizes      None is recommended; the limits say what the calls admit. In field 1 whoever knows
 *              the code key finds two outputs whose u are equal a little more often than not: with
 *              one key the excess was 2^-26 (n = 32768) to 2^-55 (n = 64, d = 10) at t = 64 and
 *              l = 32, the largest. Smaller t and l are worse by far; over layers excesses multiply.
 *              docs/SIZES.md says what known attacks cost and what the papers say.
 *   Wiping     Nothing is wiped: no call clears a buffer, or the stack that it used.
 */
#ifndef EXPANDER_H
#define EXPANDER_H

#include <stddef.h>
#include <stdint.h>

#ifdef __cplusplus
extern "C" {
#endif

/* The version of this header and of the library that goes with it: as a text, and as a number that
 * rises, 10000 major + 100 minor + patch.
 *
 * Structs cross by value, so their members are part of the binary interface, as the parameters are.
 * Within a major version no struct, parameter, number or name changes (of a parameter its place and
 * type count, and not what this header calls it), no call goes, and a call answers and writes what
 * it did; records and circuits stay readable. A minor version adds calls,
 * with structs and names of their own; a patch adds nothing. So what was built with this header
 * links with any library of its major version that is not older. Across major versions build again:
 * a struct may have grown, and the linker of an archive does not notice. The shared object's name has
 * the major version, libexpander.so.2, and expander_version gives the number of the library that is
 * linked or loaded (from 2.1.0 on). CHANGELOG.md says what each version changed. */
#define EXPANDER_VERSION "2.2.0"
#define EXPANDER_VERSION_NUMBER 20200

/* Fields. */
#define EXPANDER_BINARY 1
#define EXPANDER_PRIME 2

/* Ends, as records name them. */
#define EXPANDER_NOISE_END 1
#define EXPANDER_SCALAR_END 2

/* The modulus p of field 2, 2^61 - 1. */
#define EXPANDER_MODULUS 0x1FFFFFFFFFFFFFFFul

/* The largest signed amount, 2^60 - 1; the smallest is its negative. */
#define EXPANDER_AMOUNT_MAX 0x0FFFFFFFFFFFFFFFl

/* Numbers that the calls return. */
#define EXPANDER_ACCEPTED 0u         /* the result is written */
#define EXPANDER_BAD_FIELD 1u        /* field byte not 1 or 2 */
#define EXPANDER_BAD_SIZE 2u         /* d, g, t, l, n or the number of callers not admitted */
#define EXPANDER_BAD_LENGTH 3u       /* input buffer not of the length called for; batch too large */
#define EXPANDER_BAD_POSITION 4u     /* position not rising, or N or more */
#define EXPANDER_BAD_NOISE 5u        /* noise value not admitted */
#define EXPANDER_BAD_DELTA 6u        /* Delta zero, or not as its field wants it */
#define EXPANDER_WINDOW_PAST_END 7u  /* first + count too large */
#define EXPANDER_NOT_ELEMENT 8u      /* word that must be an element is none; bit byte above 1 */
#define EXPANDER_WRONG_END 9u        /* end byte not this end's, or no end's; role not 1 or 2 */
#define EXPANDER_RECORD_ENDS 10u     /* record or circuit ends inside a field */
#define EXPANDER_BAD_NUMBER 11u      /* number read not in its shortest form, or too long */
#define EXPANDER_BYTES_AFTER 12u     /* bytes after the record or circuit */
#define EXPANDER_BUFFER_SHORT 13u    /* output buffer too short */
#define EXPANDER_NO_CALLER 14u       /* no such caller */
#define EXPANDER_SHARE_SPENT 15u     /* the caller's remaining share is under count */
#define EXPANDER_SHARES_ABOVE 16u    /* shares, or what is left of them, sum above n */
#define EXPANDER_BAD_CIRCUIT 17u     /* size, kind or wire not admitted; phase above 2, 1 at no AND */
#define EXPANDER_TOO_FEW_TRIPLES 18u /* fewer triples than AND gates */
#define EXPANDER_AMOUNT_OUT_OF_RANGE 19u /* amount below -(2^60 - 1) or above 2^60 - 1 */
#define EXPANDER_LABEL_NOT_ABOVE 20u /* label not above the one in use */
#define EXPANDER_LABEL_NOT_IN_USE 21u /* label not the one in use */

/* The greatest sizes. With a smaller d the greatest t and l are N, where that is below these, and
 * the greatest n is N / 2. */
#define EXPANDER_DEPTH_MAX 16        /* d */
#define EXPANDER_BRANCH_BITS_MAX 3   /* g */
#define EXPANDER_TREES_MAX 64        /* t */
#define EXPANDER_TERMS_MAX 32        /* l */
#define EXPANDER_LEAVES_MAX 65536    /* N */
#define EXPANDER_OUTPUTS_MAX 32768   /* n; of a stock too */

/* W, the words that an element of a field takes. */
#define EXPANDER_ELEMENT_WORDS(field) ((field) == EXPANDER_BINARY ? 2 : 1)

/* Bytes of the longest records: the noise record at d = 15, g = 3, the scalar record at d = 15 and
 * d = 16. */
#define EXPANDER_NOISE_RECORD_MAX 37034
#define EXPANDER_SCALAR_RECORD_MAX 1081

/* Where a window of the pad calls ends at the latest: first + count. */
#define EXPANDER_PAD_WINDOW_END 32768

/* The most outputs in a batch of chosen messages. */
#define EXPANDER_BATCH_MAX 4096

/* The most callers of a stock. */
#define EXPANDER_CALLERS_MAX 8

/* The most wires of a circuit, inputs and gates together, and the most outputs. */
#define EXPANDER_WIRES_MAX 4096
#define EXPANDER_CIRCUIT_OUTPUTS_MAX 4096

/* Kinds of gates. */
#define EXPANDER_GATE_XOR 1
#define EXPANDER_GATE_AND 2
#define EXPANDER_GATE_NOT 3

/* Roles in a run. Both ends call one of the triples' two dealings the first: its noise end takes
 * role 1 and its scalar end role 2, so one end takes each. */
#define EXPANDER_ROLE_NOISE 1
#define EXPANDER_ROLE_SCALAR 2

/* Phases of a run. */
#define EXPANDER_RUN_FRESH 0u    /* no step is made yet */
#define EXPANDER_RUN_WAITS 1u    /* it waits for the far bits of an AND */
#define EXPANDER_RUN_FINISHED 2u /* the outputs are written */

/* A number, and what was written to the first and to the second output buffer. */
struct expander_two_lengths {
    uint32_t number;
    size_t first_written;
    size_t second_written;
};

/* A number, and what was written to the one output buffer. */
struct expander_one_length {
    uint32_t number;
    size_t written;
};

/* A number, and what the head of a record says; leaves is N, element_words is W. */
struct expander_described {
    uint32_t number;
    uint8_t end;
    uint8_t field;
    size_t depth;
    size_t branch_bits;
    size_t trees;
    size_t terms;
    size_t outputs;
    size_t leaves;
    size_t element_words;
    uint8_t label[16];
    uint8_t code_key[16];
};

/* A number, and the signed amount that an element stands for. */
struct expander_amount {
    uint32_t number;
    int64_t amount;
};

/* A number, and the element that stands for a signed amount. */
struct expander_written_amount {
    uint32_t number;
    uint64_t element;
};

/* A dealing's label, which its owners choose; both records hold it. Labels compare as numbers of 16
 * bytes, least byte first, and rise from dealing to dealing. */
struct expander_label {
    uint8_t bytes[16];
};

/* Outputs of the dealing with this label, held for callers: caller k has yet to draw the indices
 * next[k] to end[k] - 1. Entries past the callers are 0. Its owner passes it to each call as the
 * call before returned it: an older copy hands indices out again. Contents that no call returned
 * are taken as they are: there is no caller from 8 on, and nothing is left where next[k] is end[k]
 * or more.
 *
 * Two dealings  The two dealings of AND triples share one stock. Its label is that of the one that
 *               both ends call the first, its n the smaller of both; a window that is drawn from it
 *               goes to both dealings at both ends. Neither dealing has another stock, nor another
 *               partner. It passes on to the first of two fresh dealings in the same way.
 * Restart       A stock has no pointers and no padding, so its 84 bytes can be kept in a file. The
 *               stock that a draw returned is on disk (a new file, synced, renamed over the old one,
 *               and the folder synced) before the window is used. After a crash the run goes on from
 *               the file; what was drawn and not used is lost. An end that is behind the other draws
 *               until it has caught up. The companion's stock does all of this (not proved). */
struct expander_stock {
    uint32_t callers;
    struct expander_label label;
    uint32_t next[EXPANDER_CALLERS_MAX];
    uint32_t end[EXPANDER_CALLERS_MAX];
};

/* A number, and the stock that was opened or passed on. */
struct expander_opened_stock {
    uint32_t number;
    struct expander_stock stock;
};

/* A number, the window that was drawn, and the stock after the draw. */
struct expander_drawn {
    uint32_t number;
    size_t first;
    size_t count;
    struct expander_stock stock;
};

/* A number, the window that a draw would return, and the stock after that draw. */
struct expander_previewed {
    uint32_t number;
    size_t first;
    size_t count;
    struct expander_stock after;
};

/* One end's run of a circuit: its phase, the gate that it has come to, and its shares of the inputs
 * and of the gates passed. Contents that no step returned are refused only where the phase is above
 * 2, or where phase 1 waits at no AND; else they are taken as they are, and in phase 0 gate and
 * wires are not looked at. */
struct expander_run {
    uint32_t phase;
    uint32_t gate;
    uint8_t wires[EXPANDER_WIRES_MAX];
};

/* A number, what was written to the output buffer, the two bits to send, and the run after the
 * step. */
struct expander_stepped {
    uint32_t number;
    size_t written;
    uint8_t first_bit;
    uint8_t second_bit;
    struct expander_run state;
};

/* One end's run of a circuit in rounds, a byte a wire: 0 while the wire's share is not known, 1 for an
 * AND that is opened and waits for the far bits, 2 + share once the share is known. No contents are
 * refused: a byte from 2 on is a known share, and a share is read off as its byte modulo 2. */
struct expander_round_state {
    uint8_t wires[EXPANDER_WIRES_MAX];
};

/* A number, what was written to the output buffer and to the buffer of bits to send, and the run
 * after the round. */
struct expander_rounded {
    uint32_t number;
    size_t written;
    size_t bits_written;
    struct expander_round_state state;
};

/* A number, and what a circuit holds; ands are the gates of kind AND, rounds the rounds of a run. */
struct expander_described_circuit {
    uint32_t number;
    size_t inputs;
    size_t gates;
    size_t outputs;
    size_t ands;
    size_t rounds;
};

/** Make a noise record and a scalar record of one dealing.
 *
 *  The caller draws roots, positions, values, delta and code_key at random, chooses a label that no
 *  other dealing has, and sends each end its record alone.
 *
 *  Returns:  a number, and the bytes written to noise_record and to scalar_record.
 *             0 ACCEPTED
 *             1 BAD_FIELD: field is not 1 or 2
 *             2 BAD_SIZE: depth, branch_bits, trees, terms or outputs (in this order) is outside
 *               its range, or depth is no multiple of branch_bits
 *             3 BAD_LENGTH: roots, positions, values, delta, code_key or label does not have its
 *               exact length
 *             4 BAD_POSITION: a position is not above the one before, or is N or more (all
 *               positions are tested before any value)
 *             5 BAD_NOISE: a value is not 1 (field 1), or is 0, or p or more (field 2)
 *             6 BAD_DELTA: delta is zero; in field 2 also: its first eight bytes give p or more, or
 *               one of its last eight is not 00
 *            13 BUFFER_SHORT: noise_record or scalar_record is too short for its record
 *  In:       field:         1 binary, 2 prime
 *            depth:         d
 *            branch_bits:   g
 *            trees:         t
 *            terms:         l
 *            outputs:       n
 *            roots:         t roots of 16 bytes; roots_len = 16 t
 *            positions:     t noise places, strictly rising, below N; positions_len = t
 *            values:        the noise at those places, each 1 in field 1, 1 to p - 1 in field 2;
 *                           values_len = t
 *            delta:         the scalar Delta, not zero: a block in field 1; in field 2 a word below
 *                           p, least byte first, then eight bytes 00; delta_len = 16
 *            code_key:      the key of the code that both ends use; code_key_len = 16
 *            label:         the dealing's label, any; label_len = 16
 *  Out:      noise_record:  the noise record; EXPANDER_NOISE_RECORD_MAX bytes are always enough
 *            scalar_record: the scalar record; EXPANDER_SCALAR_RECORD_MAX bytes are always enough
 */
struct expander_two_lengths expander_deal(
    uint8_t field, size_t depth, size_t branch_bits, size_t trees, size_t terms, size_t outputs,
    const uint8_t *roots, size_t roots_len,
    const uint32_t *positions, size_t positions_len,
    const uint64_t *values, size_t values_len,
    const uint8_t *delta, size_t delta_len,
    const uint8_t *code_key, size_t code_key_len,
    const uint8_t *label, size_t label_len,
    uint8_t *noise_record, size_t noise_record_len,
    uint8_t *scalar_record, size_t scalar_record_len);

/** Say what a record is: its end, field and sizes, with them how long the vectors and outputs of its
 *  end are, and its label and code key. Two records count as of one dealing if all that is said of
 *  them but the end is equal; that they were dealt together does not follow.
 *
 *  Returns:  a number, and the head: end (EXPANDER_NOISE_END or EXPANDER_SCALAR_END), field, depth,
 *            branch_bits, trees, terms, outputs, from these leaves (N) and element_words (W), and
 *            label and code_key, 16 bytes each as the record has them.
 *             0 ACCEPTED: expander_noise_offline or expander_scalar_offline, by the end, accepts this
 *               record in buffers of leaves and element_words * leaves, or element_words *
 *               leaves and 2
 *            Reading source, a record, as above: 10 RECORD_ENDS, 9 WRONG_END, 1 BAD_FIELD,
 *            11 BAD_NUMBER, 2 BAD_SIZE, 4 BAD_POSITION, 5 BAD_NOISE, 8 NOT_ELEMENT, 6 BAD_DELTA,
 *            12 BYTES_AFTER
 *  In:       source: a record of either end, of exactly source_len bytes
 */
struct expander_described expander_describe(const uint8_t *source, size_t source_len);

/** Expand a noise record to the noise end's accumulated vectors.
 *
 *  Returns:  a number, and the words written to noise (N) and to v (W N).
 *             0 ACCEPTED
 *            Reading source, a noise record, as above: 10 RECORD_ENDS, 9 WRONG_END, 1 BAD_FIELD,
 *            11 BAD_NUMBER, 2 BAD_SIZE, 4 BAD_POSITION, 5 BAD_NOISE, 8 NOT_ELEMENT, 12 BYTES_AFTER
 *            13 BUFFER_SHORT: noise_len is below N, or v_len below W N
 *  In:       source: a noise record, of exactly source_len bytes
 *  Out:      noise:  the accumulated noise, N words
 *            v:      the accumulated v0, N elements of W words
 */
struct expander_two_lengths expander_noise_offline(
    const uint8_t *source, size_t source_len,
    uint64_t *noise, size_t noise_len,
    uint64_t *v, size_t v_len);

/** Expand a scalar record to the scalar end's accumulated vector and Delta.
 *
 *  Returns:  a number, and the words written to w (W N) and to delta (2).
 *             0 ACCEPTED
 *            Reading source, a scalar record, as above: 10 RECORD_ENDS, 9 WRONG_END, 1 BAD_FIELD,
 *            11 BAD_NUMBER, 2 BAD_SIZE, 6 BAD_DELTA, 12 BYTES_AFTER
 *            13 BUFFER_SHORT: w_len is below W N, or delta_len below 2
 *  In:       source: a scalar record, of exactly source_len bytes
 *  Out:      w:      the accumulated w0, N elements of W words
 *            delta:  Delta, two words; in field 2 the second is 0
 */
struct expander_two_lengths expander_scalar_offline(
    const uint8_t *source, size_t source_len,
    uint64_t *w, size_t w_len,
    uint64_t *delta, size_t delta_len);

/** Add one accumulated vector to another, word for word: by exclusive or in field 1, modulo p in
 *  field 2. The layers of one source are added up with it: at the noise end all noise vectors and all
 *  v, at the scalar end all w, in any order. Delta is not added: every layer has the same.
 *
 *  Returns:  a number, and the words written to into (into_len).
 *             0 ACCEPTED
 *             1 BAD_FIELD: field is not 1 or 2
 *             3 BAD_LENGTH: from_len is not into_len
 *             8 NOT_ELEMENT: a word of from or of into is p or more (field 2)
 *  In:       field: 1 binary, 2 prime
 *            from:  the words to add, any in field 1, below p in field 2
 *  Out:      into:  the words to which they are added, as from, and on return the sums; it is read
 *                   too, and must not overlap from; into_len = from_len
 */
struct expander_one_length expander_add(
    uint8_t field, const uint64_t *from, size_t from_len, uint64_t *into, size_t into_len);

/** Give the noise end's outputs u and v in a window.
 *
 *  Returns:  a number, and the words written to u_out (count) and to v_out (W count).
 *             0 ACCEPTED
 *            Reading source, a noise record, as above: 10 RECORD_ENDS, 9 WRONG_END, 1 BAD_FIELD,
 *            11 BAD_NUMBER, 2 BAD_SIZE, 4 BAD_POSITION, 5 BAD_NOISE, 8 NOT_ELEMENT, 12 BYTES_AFTER
 *             3 BAD_LENGTH: noise or v does not have its exact length
 *             7 WINDOW_PAST_END: first + count is above n
 *            13 BUFFER_SHORT: u_out_len is below count, or v_out_len below W count
 *             8 NOT_ELEMENT: a word of noise or v at a place that the window's rows use is above 1
 *               (field 1, noise only) or p or more (field 2)
 *  In:       source: the noise record, of exactly source_len bytes
 *            noise:  the accumulated noise as expander_noise_offline wrote it; noise_len = N
 *            v:      the accumulated v0 as expander_noise_offline wrote it; v_len = W N
 *            first, count: the window
 *  Out:      u_out:  u at each index of the window, count words
 *            v_out:  v at each index of the window, count elements of W words
 */
struct expander_two_lengths expander_noise_online(
    const uint8_t *source, size_t source_len,
    const uint64_t *noise, size_t noise_len,
    const uint64_t *v, size_t v_len,
    size_t first, size_t count,
    uint64_t *u_out, size_t u_out_len,
    uint64_t *v_out, size_t v_out_len);

/** Give the scalar end's outputs w in a window.
 *
 *  Returns:  a number, and the words written to w_out (W count).
 *             0 ACCEPTED
 *            Reading source, a scalar record, as above: 10 RECORD_ENDS, 9 WRONG_END, 1 BAD_FIELD,
 *            11 BAD_NUMBER, 2 BAD_SIZE, 6 BAD_DELTA, 12 BYTES_AFTER
 *             3 BAD_LENGTH: w does not have its exact length
 *             7 WINDOW_PAST_END: first + count is above n
 *            13 BUFFER_SHORT: w_out_len is below W count
 *             8 NOT_ELEMENT: a word of w at a place that the window's rows use is p or more (field
 *               2)
 *  In:       source: the scalar record, of exactly source_len bytes
 *            w:      the accumulated w0 as expander_scalar_offline wrote it; w_len = W N
 *            first, count: the window
 *  Out:      w_out:  w at each index of the window, count elements of W words
 */
struct expander_one_length expander_scalar_online(
    const uint8_t *source, size_t source_len,
    const uint64_t *w, size_t w_len,
    size_t first, size_t count,
    uint64_t *w_out, size_t w_out_len);

/** Give the noise end's outputs u and v in a window from its record alone, to verify a unit on a
 *  bench: those that expander_noise_online gives on the vectors that expander_noise_offline writes.
 *  No vector is kept: each leaf is walked alone, once for 32 outputs or fewer, so it is slow.
 *
 *  Returns:  a number, and the words written to u_out (count) and to v_out (W count).
 *             0 ACCEPTED
 *            Reading source, a noise record, as above: 10 RECORD_ENDS, 9 WRONG_END, 1 BAD_FIELD,
 *            11 BAD_NUMBER, 2 BAD_SIZE, 4 BAD_POSITION, 5 BAD_NOISE, 8 NOT_ELEMENT, 12 BYTES_AFTER
 *             7 WINDOW_PAST_END: first + count is above n
 *            13 BUFFER_SHORT: u_out_len is below count, or v_out_len below W count
 *  In:       source: the noise record, of exactly source_len bytes
 *            first, count: the window
 *  Out:      u_out:  u at each index of the window, count words
 *            v_out:  v at each index of the window, count elements of W words
 */
struct expander_two_lengths expander_noise_direct(
    const uint8_t *source, size_t source_len,
    size_t first, size_t count,
    uint64_t *u_out, size_t u_out_len,
    uint64_t *v_out, size_t v_out_len);

/** Give the scalar end's outputs w in a window from its record alone, as slowly: those that
 *  expander_scalar_online gives on the vector that expander_scalar_offline writes.
 *
 *  Returns:  a number, and the words written to w_out (W count).
 *             0 ACCEPTED
 *            Reading source, a scalar record, as above: 10 RECORD_ENDS, 9 WRONG_END, 1 BAD_FIELD,
 *            11 BAD_NUMBER, 2 BAD_SIZE, 6 BAD_DELTA, 12 BYTES_AFTER
 *             7 WINDOW_PAST_END: first + count is above n
 *            13 BUFFER_SHORT: w_out_len is below W count
 *  In:       source: the scalar record, of exactly source_len bytes
 *            first, count: the window
 *  Out:      w_out:  w at each index of the window, count elements of W words
 */
struct expander_one_length expander_scalar_direct(
    const uint8_t *source, size_t source_len,
    size_t first, size_t count,
    uint64_t *w_out, size_t w_out_len);

/** Give the noise end's pads in a window: of each index the pad of v. Where v and the choice are v
 *  and u of one dealing's index, that is the scalar end's message that the choice names. Field 1
 *  only; no record is read.
 *
 *  Returns:  a number alone; an accepted call has written 16 count bytes to pads.
 *             0 ACCEPTED
 *             3 BAD_LENGTH: v or choices does not have its exact length
 *             7 WINDOW_PAST_END: first + count is above EXPANDER_PAD_WINDOW_END
 *            13 BUFFER_SHORT: pads_len is below 16 count
 *             8 NOT_ELEMENT: a choice is above 1
 *  In:       first, count: the window
 *            v:       v at each index of the window, as bytes; v_len = 16 count
 *            choices: u at each index of the window, as one byte 0 or 1; choices_len = count
 *  Out:      pads:    the pad of v, 16 bytes an index
 */
uint32_t expander_noise_pads(
    size_t first, size_t count,
    const uint8_t *v, size_t v_len,
    const uint8_t *choices, size_t choices_len,
    uint8_t *pads, size_t pads_len);

/** Give the scalar end's pads in a window: of each index both messages. Field 1 only; no record is
 *  read.
 *
 *  Returns:  a number alone; an accepted call has written 32 count bytes to pads.
 *             0 ACCEPTED
 *             3 BAD_LENGTH: w or delta does not have its exact length
 *             7 WINDOW_PAST_END: first + count is above EXPANDER_PAD_WINDOW_END
 *             6 BAD_DELTA: delta is zero
 *            13 BUFFER_SHORT: pads_len is below 32 count
 *  In:       first, count: the window
 *            w:     w at each index of the window, as bytes; w_len = 16 count
 *            delta: Delta, as bytes; delta_len = 16
 *  Out:      pads:  32 bytes an index: message 0, then message 1
 */
uint32_t expander_scalar_pads(
    size_t first, size_t count,
    const uint8_t *w, size_t w_len,
    const uint8_t *delta, size_t delta_len,
    uint8_t *pads, size_t pads_len);

/** Give the noise end's correction bits for a batch of outputs: of each, its choice exclusive-or
 *  the wanted bit. They are sent to the scalar end. A batch is the same indices of one dealing, in
 *  the same order, in this call and the next two.
 *
 *  Returns:  a number, and the bytes written to bits_out (count).
 *             0 ACCEPTED
 *             3 BAD_LENGTH: count is above EXPANDER_BATCH_MAX, or choices or wanted does not have
 *               its exact length
 *             8 NOT_ELEMENT: a choice or a wanted bit is above 1
 *            13 BUFFER_SHORT: bits_out_len is below count
 *  In:       count:    the batch's number of outputs, at most EXPANDER_BATCH_MAX
 *            choices:  u at each output, as one byte 0 or 1; choices_len = count
 *            wanted:   the number of the message wanted at each output, one byte 0 or 1;
 *                      wanted_len = count
 *  Out:      bits_out: the correction bit of each output, one byte 0 or 1
 */
struct expander_one_length expander_correction_bits(
    size_t count,
    const uint8_t *choices, size_t choices_len,
    const uint8_t *wanted, size_t wanted_len,
    uint8_t *bits_out, size_t bits_out_len);

/** Mask the scalar end's messages for a batch of outputs: message 0 by the pad that the correction
 *  bit names, message 1 by the other. The answers are sent to the noise end.
 *
 *  Returns:  a number, and the bytes written to answers_out (32 count).
 *             0 ACCEPTED
 *             3 BAD_LENGTH: count is above EXPANDER_BATCH_MAX, or bits, pads or messages does not
 *               have its exact length
 *             8 NOT_ELEMENT: a correction bit is above 1
 *            13 BUFFER_SHORT: answers_out_len is below 32 count
 *  In:       count:       the batch's number of outputs, at most EXPANDER_BATCH_MAX
 *            bits:        the correction bits as expander_correction_bits wrote them;
 *                         bits_len = count
 *            pads:        the pads of those outputs as expander_scalar_pads wrote them, 32 bytes an
 *                         output; pads_len = 32 count
 *            messages:    32 bytes an output: message 0, then message 1; messages_len = 32 count
 *  Out:      answers_out: 32 bytes an output: message 0 masked, then message 1 masked
 */
struct expander_one_length expander_mask_messages(
    size_t count,
    const uint8_t *bits, size_t bits_len,
    const uint8_t *pads, size_t pads_len,
    const uint8_t *messages, size_t messages_len,
    uint8_t *answers_out, size_t answers_out_len);

/** Open at the noise end, of each output of a batch, the message that it wants.
 *
 *  Returns:  a number, and the bytes written to messages_out (16 count).
 *             0 ACCEPTED
 *             3 BAD_LENGTH: count is above EXPANDER_BATCH_MAX, or wanted, pads or answers does not
 *               have its exact length
 *             8 NOT_ELEMENT: a wanted bit is above 1
 *            13 BUFFER_SHORT: messages_out_len is below 16 count
 *  In:       count:        the batch's number of outputs, at most EXPANDER_BATCH_MAX
 *            wanted:       the wanted bits that expander_correction_bits was lent;
 *                          wanted_len = count
 *            pads:         the pads of those outputs as expander_noise_pads wrote them, 16 bytes an
 *                          output; pads_len = 16 count
 *            answers:      the answers as expander_mask_messages wrote them; answers_len = 32 count
 *  Out:      messages_out: 16 bytes an output: the message wanted
 */
struct expander_one_length expander_unmask_messages(
    size_t count,
    const uint8_t *wanted, size_t wanted_len,
    const uint8_t *pads, size_t pads_len,
    const uint8_t *answers, size_t answers_len,
    uint8_t *messages_out, size_t messages_out_len);

/** Give one end's AND triples from two dealings with the roles exchanged: it is the first one's
 *  noise end and the second one's scalar end. The other end calls likewise, with the dealings
 *  exchanged and the same indices, and then, at each output, both ends' third bits combined are the
 *  AND of both first bits combined and both second bits combined.
 *
 *  With a the choice and h the pad's bit in the first dealing, and r and q the bits of both pads
 *  in the second, the triple is a, r ^ q, (a & (r ^ q)) ^ h ^ r. A pad's bit is the
 *  lowest one of its first byte.
 *
 *  Returns:  a number, and the bytes written to triples_out (3 c, where c is choices_len).
 *             0 ACCEPTED
 *             3 BAD_LENGTH: pads_len is not 16 c, or pad_pairs_len is not 32 c
 *            13 BUFFER_SHORT: triples_out_len is below 3 c
 *             8 NOT_ELEMENT: a choice is above 1
 *  In:       choices:     u at each output of the first dealing, as one byte 0 or 1; any number of
 *                         them, 0 too
 *            pads:        the pads of those outputs as expander_noise_pads wrote them, 16 bytes an
 *                         output; pads_len = 16 c
 *            pad_pairs:   the pads of as many outputs of the second dealing as expander_scalar_pads
 *                         wrote them, 32 bytes an output; pad_pairs_len = 32 c
 *  Out:      triples_out: three bytes an output, each 0 or 1
 */
struct expander_one_length expander_triples(
    const uint8_t *choices, size_t choices_len,
    const uint8_t *pads, size_t pads_len,
    const uint8_t *pad_pairs, size_t pad_pairs_len,
    uint8_t *triples_out, size_t triples_out_len);

/** Run one end's shares of a circuit up to the next AND, or to the end. What a wire carries is the
 *  exclusive or of both ends' shares of it.
 *
 *  While the state returned is in phase 1, the two bits returned are sent to the other end, and the
 *  next step takes that state and the two bits that the other end's step returned. In phase 2 the
 *  output holds this end's shares of the outputs. Every step of a run gets the same role, circuit,
 *  shares and triples; a further step on a finished run writes the outputs again. A circuit with A
 *  ANDs takes A + 1 steps.
 *
 *  Returns:  a number, the bytes written to output (of a finished run, the number of outputs; else
 *            0), the two bits to send (of a finished run, 0), and the state after the step.
 *             0 ACCEPTED
 *            Reading circuit, as above: 10 RECORD_ENDS, 11 BAD_NUMBER, 17 BAD_CIRCUIT,
 *            12 BYTES_AFTER
 *             3 BAD_LENGTH: shares_len is not the number of inputs, or triples_len is no multiple
 *               of 3
 *            13 BUFFER_SHORT: output_len is below the number of outputs
 *             8 NOT_ELEMENT: a share or a triple's bit is above 1, in unused triples too; or, in
 *               phase 1, a far bit is
 *            18 TOO_FEW_TRIPLES: there are fewer triples than ANDs
 *            17 BAD_CIRCUIT: state.phase is above 2, or is 1 where state.gate is no AND of the
 *               circuit
 *             9 WRONG_END: role is not 1 or 2
 *  In:       role:       EXPANDER_ROLE_NOISE or EXPANDER_ROLE_SCALAR, one at each end
 *            circuit:    the circuit, of exactly circuit_len bytes, the same at both ends
 *            shares:     this end's share of each input, one byte 0 or 1; shares_len is the number
 *                        of inputs
 *            triples:    this end's triples as expander_triples wrote them, of the same outputs at
 *                        both ends; AND j, counted from 0, uses triple j; triples_len is 3 times
 *                        their number, at least 3 A
 *            far_first:  the first bit of the other end's step; read and tested in phase 1 alone
 *            far_second: the second bit, likewise
 *            state:      the state as the accepted step before returned it, at first all 0
 *  Out:      output:     of a finished run, this end's share of each output, one byte 0 or 1
 */
struct expander_stepped expander_circuit_step(
    uint8_t role,
    const uint8_t *circuit, size_t circuit_len,
    const uint8_t *shares, size_t shares_len,
    const uint8_t *triples, size_t triples_len,
    uint8_t *output, size_t output_len,
    uint8_t far_first, uint8_t far_second,
    struct expander_run state);

/** Run one end's shares of a circuit as far as they are known, and open every AND whose wires are:
 *  a round. It is a run of its own kind, made by both ends alike: where one makes steps and the
 *  other rounds, each can wait for the other for ever.
 *
 *  A round takes the wires in order. A known wire stays. Else an input takes its share; an AND that
 *  waits takes its far bits and is known; an exclusive or or NOT is known if its wires are, and is 0
 *  if not; any other AND is opened, and waits, if its wires are known, and is 0 if not. Then for each
 *  AND that was opened, in the order of the gates, two bits are written to bits_out: the share of its
 *  first wire exclusive-or the first bit of its triple, and so of the second. Whenever an AND is
 *  opened, it uses the triple of its number, as in steps.
 *
 *  While bits are written they are sent to the other end, and the next round takes the state returned
 *  and the bits that the other end's round wrote, which are as many. Once none are written the run is
 *  finished, every wire is known, and the output holds this end's shares of the outputs; a further
 *  round, with no far bits, writes them again. Every round of a run gets the same role, circuit,
 *  shares and triples. Its triples serve no other run, and not this one made again (Safe use, above).
 *
 *  expander_describe_circuit says how many rounds a run takes; messages each way are one fewer. A
 *  round writes as many bits whatever shares, triples and far bits are, so a run on bytes that are
 *  all 0 tells in advance how many. Where each AND needs the one before, as in a sum or comparison
 *  that ripples from bit to bit, a run takes as many rounds as steps; built as a tree, few.
 *
 *  Returns:  a number, the bytes written to output (of a finished run, the number of outputs; else
 *            0), the bytes written to bits_out (two for each AND opened; of a finished run, 0, and
 *            else above 0), and the state after the round.
 *             0 ACCEPTED
 *            Reading circuit, as above: 10 RECORD_ENDS, 11 BAD_NUMBER, 17 BAD_CIRCUIT,
 *            12 BYTES_AFTER
 *             3 BAD_LENGTH: shares_len is not the number of inputs, triples_len is no multiple of
 *               3, or far_bits_len is not two for each gate whose byte in the state is 1
 *            13 BUFFER_SHORT: output_len is below the number of outputs, or bits_out_len below two
 *               for each AND of the circuit, however many are opened
 *             8 NOT_ELEMENT: a share, a triple's bit (in unused triples too) or a far bit is above
 *               1
 *            18 TOO_FEW_TRIPLES: there are fewer triples than ANDs
 *             9 WRONG_END: role is not 1 or 2
 *  In:       role, circuit, shares, triples: as those of expander_circuit_step
 *            far_bits: the bits that the other end's round before wrote, one byte 0 or 1 each, two for
 *                      each gate whose byte is 1, in the order of the gates (of these an AND takes its
 *                      two; any other gate, which no round leaves so, passes over them); far_bits_len
 *                      is 0 for a fresh run and for a finished one
 *            state:    the state as the accepted round before returned it, at first all 0; bytes past
 *                      the circuit's wires stay
 *  Out:      output:   of a finished run, this end's share of each output, one byte 0 or 1
 *            bits_out: else, the bits to send, one byte 0 or 1 each; twice EXPANDER_WIRES_MAX bytes
 *                      are always enough
 */
struct expander_rounded expander_circuit_round(
    uint8_t role,
    const uint8_t *circuit, size_t circuit_len,
    const uint8_t *shares, size_t shares_len,
    const uint8_t *triples, size_t triples_len,
    uint8_t *output, size_t output_len,
    const uint8_t *far_bits, size_t far_bits_len,
    uint8_t *bits_out, size_t bits_out_len,
    struct expander_round_state state);

/** Say what a circuit is, so that a run's triples, messages and buffers are known before it starts:
 *  its sizes, its ANDs, and the rounds that a run of it takes.
 *
 *  The level of an input is 0; of an exclusive or, the greater of its wires' levels; of a NOT, its
 *  wire's; of an AND, one more than the greater of its wires'. A run takes one round more than the
 *  greatest level of any wire, also of one that no output needs; without ANDs, one round.
 *
 *  Returns:  a number, inputs, gates, outputs, ands (a run takes that many triples, and one step
 *            more; bits_out of a round takes twice as many bytes) and rounds.
 *             0 ACCEPTED
 *            Reading circuit, as above: 10 RECORD_ENDS, 11 BAD_NUMBER, 17 BAD_CIRCUIT,
 *            12 BYTES_AFTER
 *  In:       circuit: a circuit, of exactly circuit_len bytes
 */
struct expander_described_circuit expander_describe_circuit(const uint8_t *circuit, size_t circuit_len);

/** Open a stock: give each caller a share of a dealing's outputs, as consecutive blocks of indices
 *  from 0 in caller order.
 *
 *  Returns:  a number, and the stock.
 *             0 ACCEPTED
 *             2 BAD_SIZE: shares_len is 0 or above 8, or outputs is outside 1 to 32768
 *            16 SHARES_ABOVE: the shares sum to more than outputs
 *  In:       label:   the dealing's label, any; 0 too
 *            outputs: n of the dealing, 1 to EXPANDER_OUTPUTS_MAX
 *            shares:  how many outputs each caller is to have, 0 too; shares_len is the number of
 *                     callers, 1 to EXPANDER_CALLERS_MAX
 */
struct expander_opened_stock expander_open_stock(
    struct expander_label label, size_t outputs,
    const uint32_t *shares, size_t shares_len);

/** Draw a caller's next count indices: a window for the online and pad calls of both ends.
 *
 *  Returns:  a number, the window, and the stock after the draw.
 *             0 ACCEPTED
 *            21 LABEL_NOT_IN_USE: label is not the stock's
 *            14 NO_CALLER: caller is not below the stock's number of callers, or is 8 or more
 *            15 SHARE_SPENT: the caller's remaining share is under count
 *  In:       stock:  the stock as the call before returned it
 *            label:  the label of the dealing that the caller draws from
 *            caller: the caller, counted from 0
 *            count:  how many indices; a draw of 0 changes nothing, and its first is the caller's
 *                    next index
 */
struct expander_drawn expander_draw(
    struct expander_stock stock, struct expander_label label, size_t caller, size_t count);

/** Show what a draw would return, without making it: all as expander_draw on a copy of the stock.
 *  The stock to pass to the next call is still the one that was passed to this.
 *
 *  Returns:  a number, the window, and the stock after that draw.
 *            As expander_draw: 0 ACCEPTED, 21 LABEL_NOT_IN_USE, 14 NO_CALLER, 15 SHARE_SPENT
 *  In:       stock, label, caller, count: as in expander_draw
 */
struct expander_previewed expander_preview(
    struct expander_stock stock, struct expander_label label, size_t caller, size_t count);

/** Pass a stock to another dealing: each caller keeps what it has not drawn, as consecutive blocks
 *  of the fresh dealing's indices from 0 in caller order. Labels rise, so that no pair of label and
 *  index is drawn twice.
 *
 *  Returns:  a number, and the stock of the fresh dealing.
 *             0 ACCEPTED
 *             2 BAD_SIZE: outputs is outside 1 to 32768
 *            20 LABEL_NOT_ABOVE: label is not above the stock's
 *            16 SHARES_ABOVE: what the callers have not drawn sums to more than outputs
 *  In:       stock:   the stock as the call before returned it; that of a refused opening passes on
 *                     without callers
 *            label:   the fresh dealing's label, above the stock's
 *            outputs: n of the fresh dealing, 1 to EXPANDER_OUTPUTS_MAX
 */
struct expander_opened_stock expander_pass_stock(
    struct expander_stock stock, struct expander_label label, size_t outputs);

/** Read an element of field 2 as a signed amount: up to 2^60 - 1 as itself, above that as
 *  element - p. The sum modulo p of two elements stands for the sum of their amounts, while that is
 *  in range.
 *
 *  Returns:  a number, and the amount, -(2^60 - 1) to 2^60 - 1.
 *             0 ACCEPTED
 *             8 NOT_ELEMENT: element is p or more
 *  In:       element: an element of field 2, 0 to p - 1
 */
struct expander_amount expander_read_amount(uint64_t element);

/** Write a signed amount as an element of field 2: from 0 on as itself, below 0 as amount + p.
 *  Reading that element gives the amount again.
 *
 *  Returns:  a number, and the element, 0 to p - 1.
 *             0 ACCEPTED
 *            19 AMOUNT_OUT_OF_RANGE: amount is below -(2^60 - 1) or above 2^60 - 1
 *  In:       amount: a signed amount, -EXPANDER_AMOUNT_MAX to EXPANDER_AMOUNT_MAX
 */
struct expander_written_amount expander_write_amount(int64_t amount);

/** Give the version of the library, so that who loads it can compare it with the header.
 *
 *  Returns:  EXPANDER_VERSION_NUMBER of the header that goes with the library
 */
uint32_t expander_version(void);

#ifdef __cplusplus
}
#endif

#endif
