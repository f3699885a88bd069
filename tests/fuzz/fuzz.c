/* A target for clang's libFuzzer: its bytes choose a call and what is lent to it. Each call is made
 * twice, by the library and by the plain implementation, on memory of the same content; what they
 * return must agree, and so must every byte of every buffer. A buffer begins or ends at a page that
 * cannot be touched, so that a read or write outside it stops the program; on its other side lie
 * bytes that must stay as they were. After a refusal all memory must be as it was, and after an
 * accepted call all that lies past the result.
 *
 * The library has no coverage counters; those of the plain implementation guide the choice.
 */
#define _GNU_SOURCE
#include "expander.h"
#include "plain.h"
#include "plain_amounts.h"
#include "plain_circuit.h"
#include "plain_direct.h"
#include "plain_layers.h"
#include "plain_messages.h"
#include "plain_round.h"
#include "plain_stock.h"
#include "plain_triples.h"

#include <stdio.h>
#include <stdlib.h>
#include <string.h>
#include <sys/mman.h>

/* ---- What libFuzzer gives; past its end come zeros, which choose what is admitted ---- */

static const uint8_t *input;
static size_t input_left;

static uint8_t byte(void)
{
    if (input_left == 0)
        return 0;
    input_left--;
    return *input++;
}

static uint64_t word(void)
{
    uint64_t x = 0;
    for (int k = 0; k < 8; k++)
        x |= (uint64_t)byte() << 8 * k;
    return x;
}

/* Below bound, which is at most 65536. */
static size_t below(size_t bound)
{
    size_t low = byte();
    return bound <= 256 ? low % bound : (low | (size_t)byte() << 8) % bound;
}

static void bytes(uint8_t *to, size_t count)
{
    for (size_t k = 0; k < count; k++)
        to[k] = byte();
}

/* Bytes spun from one word of the input. */
static void spun(void *to, size_t count)
{
    uint8_t *at = to;
    uint64_t x = word();
    for (size_t k = 0; k < count; k++) {
        x = x * UINT64_C(6364136223846793005) + UINT64_C(1442695040888963407);
        at[k] = (uint8_t)(x >> 56);
    }
}

/* A size that is as it should be, or close by, or anything. */
static size_t size(size_t right)
{
    switch (byte() % 16) {
    case 1:
        return right + 1;
    case 2:
        return right - 1;
    case 3:
        return byte();
    case 4:
        return below(65536);
    case 5:
        return (size_t)word();
    case 6:
        return SIZE_MAX - byte();
    default:
        return right;
    }
}

/* The length of a buffer that should have this one: at times another. */
static size_t length(size_t right)
{
    switch (byte() % 16) {
    case 1:
        return right + 1;
    case 2:
        return right > 0 ? right - 1 : 0;
    case 3:
        return byte();
    case 4:
        return right / 2;
    default:
        return right;
    }
}

/* The length of an output buffer that needs this one: often more, at times less. */
static size_t room(size_t needed)
{
    switch (byte() % 8) {
    case 1:
        return needed + 1;
    case 2:
        return needed + byte() % 32;
    case 3:
        return needed > 0 ? needed - 1 : 0;
    default:
        return needed;
    }
}

/* A word of field 2, often at a bound. */
static uint64_t element(void)
{
    switch (byte() % 8) {
    case 1:
        return EXPANDER_MODULUS - 1;
    case 2:
        return EXPANDER_MODULUS;
    case 3:
        return word();
    case 4:
        return 0;
    case 5:
        return EXPANDER_MODULUS + byte();
    default:
        return 1 + word() % (EXPANDER_MODULUS - 1);
    }
}

/* ---- Lent memory ---- */

enum { SLOTS = 8, SLACK = 64, PAGE = 4096, ROOM = 1 << 18 };

static struct lent {
    uint8_t *room[3];
    uint8_t *library, *plain, *before;
    size_t bytes, low, high; /* and the bytes below and above that are watched */
} lent[SLOTS];
static const char *call; /* the call being made */

#define LIBRARY(slot, type) ((type *)(void *)lent[slot].library)
#define PLAIN(slot, type) ((type *)(void *)lent[slot].plain)

static void wrong(const char *what, int slot)
{
    fprintf(stderr, "expander_%s: %s", call, what);
    if (slot >= 0)
        fprintf(stderr, " (buffer %d, of %zu bytes)", slot, lent[slot].bytes);
    fputc('\n', stderr);
    abort();
}

static void make_rooms(void)
{
    for (int k = 0; k < SLOTS; k++)
        for (int copy = 0; copy < 3; copy++) {
            uint8_t *pages = mmap(NULL, ROOM + 2 * PAGE, PROT_NONE, MAP_PRIVATE | MAP_ANONYMOUS, -1,
                                  0);
            if (pages == MAP_FAILED || mprotect(pages + PAGE, ROOM, PROT_READ | PROT_WRITE) != 0) {
                perror("memory to lend");
                exit(2);
            }
            lent[k].room[copy] = pages + PAGE;
        }
}

/* Lend count things of `size` bytes: with this content, or for an output buffer, where it is NULL,
 * with bytes that depend on their place. */
static void lend(int slot, const void *content, size_t count, size_t size)
{
    struct lent *l = &lent[slot];
    size_t at, all;
    l->bytes = count * size;
    if (l->bytes > ROOM - SLACK)
        wrong("a buffer is too long to lend", slot);
    if (byte() % 4 == 1) { /* from the first byte that can be touched */
        at = l->low = 0;
        l->high = SLACK;
    } else { /* up to the last one */
        at = ROOM - l->bytes;
        l->low = SLACK;
        l->high = 0;
    }
    l->library = l->room[0] + at;
    l->plain = l->room[1] + at;
    l->before = l->room[2] + at;
    all = l->low + l->bytes + l->high;
    for (size_t k = 0; k < all; k++)
        (l->before - l->low)[k] = (uint8_t)(0xa5 + 31 * k + k / 256);
    if (content != NULL)
        memcpy(l->before, content, l->bytes);
    memcpy(l->library - l->low, l->before - l->low, all);
    memcpy(l->plain - l->low, l->before - l->low, all);
}

/* A buffer after a call that was to write so many bytes to it. */
static void check(int slot, size_t written)
{
    const struct lent *l = &lent[slot];
    if (memcmp(l->library - l->low, l->plain - l->low, l->low + l->bytes + l->high) != 0)
        wrong("memory differs from what the plain implementation left", slot);
    if (written > l->bytes)
        wrong("more is said to be written than the buffer has", slot);
    if (memcmp(l->library - l->low, l->before - l->low, l->low) != 0
        || memcmp(l->library + written, l->before + written, l->bytes + l->high - written) != 0)
        wrong("memory past the result is not as it was", slot);
}

/* All buffers after a call: inputs first, then outputs, to which so many bytes were written. */
static void settle(int same, uint32_t number, int inputs, int outputs, size_t first, size_t second)
{
    if (!same)
        wrong("what is returned differs from the plain implementation's", -1);
    for (int k = 0; k < inputs; k++)
        check(k, 0);
    if (outputs >= 1)
        check(inputs, number == 0 ? first : 0);
    if (outputs == 2)
        check(inputs + 1, number == 0 ? second : 0);
}

static int same_two(struct expander_two_lengths a, struct plain_result b)
{
    return a.number == b.number && a.first_written == b.first && a.second_written == b.second;
}

static int same_one(struct expander_one_length a, struct plain_result b)
{
    return a.number == b.number && a.written == b.first && b.second == 0;
}

static int same_length(struct expander_one_length a, struct expander_one_length b)
{
    return a.number == b.number && a.written == b.written;
}

/* ---- Dealings and records ---- */

/* The largest dealing that is made here. A tree has at most so many siblings, since their number never falls from one g to the next, up
 * to d. A record has room for a few bytes that are put behind it. */
enum {
    TREES = EXPANDER_TREES_MAX, DEPTH = 10, LEAVES = 1 << DEPTH,
    SIBLINGS = DEPTH / EXPANDER_BRANCH_BITS_MAX * ((1 << EXPANDER_BRANCH_BITS_MAX) - 1),
    HEAD = 41, NUMBER = 3, ADDED = 8,
    RECORD = HEAD + TREES * (NUMBER + 16 + 16 * SIBLINGS) + ADDED
};

/* Stops the compiler where a limit of expander.h no longer fits what is built on it here. */
#define LIMIT(name, holds) typedef char name[(holds) ? 1 : -1]
LIMIT(a_dealing_is_admitted, DEPTH <= EXPANDER_DEPTH_MAX && EXPANDER_BRANCH_BITS_MAX <= 6);
LIMIT(the_plain_implementation_takes_it, PLAIN_TREES >= TREES);
LIMIT(a_record_can_be_lent, RECORD <= ROOM - SLACK);
LIMIT(a_batch_can_be_lent, 32 * (EXPANDER_BATCH_MAX + 2) <= ROOM - SLACK);

static struct dealing {
    uint8_t field;
    size_t depth, branch_bits, trees, terms, outputs;
    uint8_t roots[16 * (TREES + 2)], delta[18], code_key[18], label[18];
    uint32_t positions[TREES + 2];
    uint64_t values[TREES + 2];
    size_t roots_len, positions_len, values_len, delta_len, code_key_len, label_len;
} x;

/* The dealing's call, on what is lent as its inputs and with room for its records. */
#define DEAL(call, roots, positions, values, delta, key, label, noise, noise_len, scalar, \
             scalar_len) \
    call(x.field, x.depth, x.branch_bits, x.trees, x.terms, x.outputs, roots, x.roots_len, \
         positions, x.positions_len, values, x.values_len, delta, x.delta_len, key, \
         x.code_key_len, label, x.label_len, noise, noise_len, scalar, scalar_len)
#define DEAL_LENT(call, slot, noise_len, scalar_len) \
    DEAL(call, slot(0, uint8_t), slot(1, uint32_t), slot(2, uint64_t), slot(3, uint8_t), \
         slot(4, uint8_t), slot(5, uint8_t), slot(6, uint8_t), noise_len, slot(7, uint8_t), \
         scalar_len)

/* An admitted dealing of up to 64 leaves, and one in so many of up to LEAVES. */
static uint8_t larger = 16;

static void make_dealing(void)
{
    size_t most, leaves, at = 0;
    memset(&x, 0, sizeof x);
    x.field = (uint8_t)(1 + byte() % 2);
    x.branch_bits = 1 + below(EXPANDER_BRANCH_BITS_MAX);
    most = byte() % larger == 1 ? DEPTH / x.branch_bits : 6 / x.branch_bits;
    x.depth = x.branch_bits * (1 + below(most));
    leaves = (size_t)1 << x.depth;
    x.trees = 1 + below(leaves < TREES ? leaves : byte() % 8 == 1 ? TREES : 6);
    x.terms = 1 + below(leaves < EXPANDER_TERMS_MAX ? leaves : EXPANDER_TERMS_MAX);
    x.outputs = 1 + below(leaves / 2);
    spun(x.roots, sizeof x.roots);
    for (size_t k = 0; k < x.trees; k++) {
        at += below(1 + (leaves - at - (x.trees - k)) / 4);
        x.positions[k] = (uint32_t)at++;
        x.values[k] = x.field == 1 ? 1 : 1 + word() % (EXPANDER_MODULUS - 1);
    }
    spun(x.delta, 16);
    x.delta[0] |= 1;
    if (x.field == 2) {
        x.delta[7] &= 0x0f;
        memset(x.delta + 8, 0, 8);
    }
    spun(x.code_key, sizeof x.code_key);
    spun(x.label, sizeof x.label);
    x.roots_len = 16 * x.trees;
    x.positions_len = x.values_len = x.trees;
    x.delta_len = x.code_key_len = x.label_len = 16;
}

/* Change one thing of a dealing. */
static void spoil_dealing(void)
{
    size_t at = below(TREES);
    switch (byte() % 16) {
    case 0:
        x.field = byte();
        break;
    case 1:
        x.depth = size(x.depth);
        break;
    case 2:
        x.branch_bits = size(x.branch_bits);
        break;
    case 3:
        x.trees = size(x.trees);
        break;
    case 4:
        x.terms = size(x.terms);
        break;
    case 5:
        x.outputs = size(x.outputs);
        break;
    case 6:
        x.roots_len = below(sizeof x.roots + 1);
        break;
    case 7:
        x.positions_len = below(TREES + 3);
        break;
    case 8:
        x.values_len = below(TREES + 3);
        break;
    case 9:
        x.delta_len = below(sizeof x.delta + 1);
        break;
    case 10:
        x.code_key_len = below(sizeof x.code_key + 1);
        break;
    case 11:
        x.label_len = below(sizeof x.label + 1);
        break;
    case 12:
        x.positions[at] = byte() % 2 ? (uint32_t)word() : (uint32_t)below(EXPANDER_LEAVES_MAX);
        break;
    case 13:
        x.values[at] = element();
        break;
    case 14:
        bytes(x.delta, 16);
        break;
    default: /* Delta zero, or at the modulus */
        memset(x.delta, 0, 16);
        if (byte() % 2) {
            memset(x.delta, 0xff, 7);
            x.delta[7] = 0x1f;
        }
    }
}

static uint8_t record[2][RECORD];
static size_t record_len[2];

/* Both records of an admitted dealing. */
static void make_records(void)
{
    struct plain_result r;
    make_dealing();
    r = DEAL(plain_deal, x.roots, x.positions, x.values, x.delta, x.code_key, x.label, record[0],
             RECORD, record[1], RECORD);
    if (r.number != 0)
        wrong("the plain implementation refuses an admitted dealing", -1);
    record_len[0] = r.first;
    record_len[1] = r.second;
}

/* The record of an end (0 noise, 1 scalar), now and then damaged, or bytes of the input alone.
 * Returns which one. */
static int make_source(int end)
{
    uint8_t way = byte();
    make_records();
    if (way % 16 == 1) {
        record_len[end] = input_left < RECORD ? input_left : RECORD;
        bytes(record[end], record_len[end]);
        return end;
    }
    if (way % 16 == 2)
        end = 1 - end;
    for (int changes = way % 16 >= 10 ? way % 16 - 9 : 0; changes > 0; changes--) {
        uint8_t kind = byte() % 8;
        size_t at = below(kind < 3 && record_len[end] > 48 ? 48 : record_len[end] + 1);
        if (kind == 7)
            record_len[end] = at;
        else if (kind == 6)
            record[end][record_len[end]++] = byte();
        else if (at < record_len[end])
            record[end][at] = kind % 2 ? byte() : (uint8_t)(record[end][at] ^ 1 << byte() % 8);
    }
    return end;
}

static void deal(void)
{
    size_t noise_len, scalar_len;
    struct plain_result r;
    make_records();
    noise_len = room(record_len[0]);
    scalar_len = room(record_len[1]);
    for (int changes = byte() % 4; changes > 0; changes--)
        spoil_dealing();
    lend(0, x.roots, x.roots_len, 1);
    lend(1, x.positions, x.positions_len, 4);
    lend(2, x.values, x.values_len, 8);
    lend(3, x.delta, x.delta_len, 1);
    lend(4, x.code_key, x.code_key_len, 1);
    lend(5, x.label, x.label_len, 1);
    lend(6, NULL, noise_len, 1);
    lend(7, NULL, scalar_len, 1);
    r = DEAL_LENT(plain_deal, PLAIN, noise_len, scalar_len);
    settle(same_two(DEAL_LENT(expander_deal, LIBRARY, noise_len, scalar_len), r), r.number, 6, 2,
           r.first, r.second);
}

/* ---- A record's sizes ---- */

/* The number at a place of an accepted record; the place moves past it. */
static size_t number_at(const uint8_t *source, size_t *place)
{
    size_t number = 0;
    for (int shift = 0;; shift += 7) {
        number |= (size_t)(source[*place] & 0x7f) << shift;
        if (source[(*place)++] < 0x80)
            return number;
    }
}

/* What is to be said of a record: its end's number, where a refusal for want of room stands for an
 * accepted record, and the numbers of an accepted one's head. */
static struct expander_described described(const uint8_t *source, size_t len)
{
    struct expander_described r;
    uint64_t none[1];
    size_t place = 2;
    memset(&r, 0, sizeof r);
    r.number = len == 0 ? EXPANDER_RECORD_ENDS
               : source[0] == 1 ? plain_noise_offline(source, len, none, 0, none, 0).number
               : source[0] == 2 ? plain_scalar_offline(source, len, none, 0, none, 0).number
                                : EXPANDER_WRONG_END;
    if (r.number != EXPANDER_BUFFER_SHORT)
        return r;
    r.number = EXPANDER_ACCEPTED;
    r.end = source[0];
    r.field = source[1];
    r.depth = number_at(source, &place);
    r.branch_bits = number_at(source, &place);
    r.trees = number_at(source, &place);
    r.terms = number_at(source, &place);
    r.outputs = number_at(source, &place);
    r.leaves = (size_t)1 << r.depth;
    r.element_words = r.field == EXPANDER_BINARY ? 2 : 1;
    memcpy(r.code_key, source + place, 16);
    memcpy(r.label, source + place + 16, 16);
    return r;
}

static void describe(void)
{
    int end = make_source(byte() % 2);
    struct expander_described a, b;
    lend(0, record[end], record_len[end], 1);
    a = described(PLAIN(0, uint8_t), record_len[end]);
    b = expander_describe(LIBRARY(0, uint8_t), record_len[end]);
    settle(a.number == b.number && a.end == b.end && a.field == b.field && a.depth == b.depth
               && a.branch_bits == b.branch_bits && a.trees == b.trees && a.terms == b.terms
               && a.outputs == b.outputs && a.leaves == b.leaves
               && a.element_words == b.element_words && memcmp(a.label, b.label, 16) == 0
               && memcmp(a.code_key, b.code_key, 16) == 0,
           a.number, 1, 0, 0, 0);
}

/* ---- Offline and online ---- */

static size_t leaves(void)
{
    return (size_t)1 << x.depth;
}

static size_t width(void)
{
    return x.field == 1 ? 2 : 1;
}

static void noise_offline(void)
{
    int end = make_source(0);
    size_t noise_len = room(leaves()), v_len = room(width() * leaves());
    struct plain_result r;
    lend(0, record[end], record_len[end], 1);
    lend(1, NULL, noise_len, 8);
    lend(2, NULL, v_len, 8);
    r = plain_noise_offline(PLAIN(0, uint8_t), record_len[end], PLAIN(1, uint64_t), noise_len,
                            PLAIN(2, uint64_t), v_len);
    settle(same_two(expander_noise_offline(LIBRARY(0, uint8_t), record_len[end],
                                           LIBRARY(1, uint64_t), noise_len, LIBRARY(2, uint64_t),
                                           v_len), r),
           r.number, 1, 2, 8 * r.first, 8 * r.second);
}

static void scalar_offline(void)
{
    int end = make_source(1);
    size_t w_len = room(width() * leaves()), delta_len = room(2);
    struct plain_result r;
    lend(0, record[end], record_len[end], 1);
    lend(1, NULL, w_len, 8);
    lend(2, NULL, delta_len, 8);
    r = plain_scalar_offline(PLAIN(0, uint8_t), record_len[end], PLAIN(1, uint64_t), w_len,
                             PLAIN(2, uint64_t), delta_len);
    settle(same_two(expander_scalar_offline(LIBRARY(0, uint8_t), record_len[end],
                                            LIBRARY(1, uint64_t), w_len, LIBRARY(2, uint64_t),
                                            delta_len), r),
           r.number, 1, 2, 8 * r.first, 8 * r.second);
}

static uint64_t noise[LEAVES + 256], vector[2 * LEAVES + 256];

/* Vectors to lend to the online calls: elements but for a few words at most. */
static void make_vectors(void)
{
    size_t all = sizeof vector / sizeof *vector;
    spun(noise, sizeof noise);
    spun(vector, sizeof vector);
    for (size_t k = 0; k < sizeof noise / sizeof *noise; k++)
        noise[k] = x.field == 1 ? noise[k] & 1 : noise[k] % EXPANDER_MODULUS;
    for (size_t k = 0; x.field == 2 && k < all; k++)
        vector[k] %= EXPANDER_MODULUS;
    for (int changes = byte() % 4; changes > 0; changes--) {
        size_t at = below(leaves());
        if (byte() % 2)
            noise[at] = element();
        else
            vector[at * width()] = element();
    }
}

static void noise_online(void)
{
    int end = make_source(0);
    size_t noise_len = length(leaves()), v_len = length(width() * leaves());
    size_t count = below(x.outputs + 1), first = size(below(x.outputs - count + 1));
    size_t u_out_len, v_out_len;
    struct plain_result r;
    make_vectors();
    lend(0, record[end], record_len[end], 1);
    lend(1, noise, noise_len, 8);
    lend(2, vector, v_len, 8);
    u_out_len = room(count);
    v_out_len = room(width() * count);
    count = size(count);
    lend(3, NULL, u_out_len, 8);
    lend(4, NULL, v_out_len, 8);
    r = plain_noise_online(PLAIN(0, uint8_t), record_len[end], PLAIN(1, uint64_t), noise_len,
                           PLAIN(2, uint64_t), v_len, first, count, PLAIN(3, uint64_t), u_out_len,
                           PLAIN(4, uint64_t), v_out_len);
    settle(same_two(expander_noise_online(LIBRARY(0, uint8_t), record_len[end],
                                          LIBRARY(1, uint64_t), noise_len, LIBRARY(2, uint64_t),
                                          v_len, first, count, LIBRARY(3, uint64_t), u_out_len,
                                          LIBRARY(4, uint64_t), v_out_len), r),
           r.number, 3, 2, 8 * r.first, 8 * r.second);
}

static void scalar_online(void)
{
    int end = make_source(1);
    size_t w_len = length(width() * leaves());
    size_t count = below(x.outputs + 1), first = size(below(x.outputs - count + 1));
    size_t w_out_len;
    struct plain_result r;
    make_vectors();
    lend(0, record[end], record_len[end], 1);
    lend(1, vector, w_len, 8);
    w_out_len = room(width() * count);
    count = size(count);
    lend(2, NULL, w_out_len, 8);
    r = plain_scalar_online(PLAIN(0, uint8_t), record_len[end], PLAIN(1, uint64_t), w_len, first,
                            count, PLAIN(2, uint64_t), w_out_len);
    settle(same_one(expander_scalar_online(LIBRARY(0, uint8_t), record_len[end],
                                           LIBRARY(1, uint64_t), w_len, first, count,
                                           LIBRARY(2, uint64_t), w_out_len), r),
           r.number, 2, 1, 8 * r.first, 0);
}

/* ---- Layers ---- */

/* Two vectors of elements but for a few words at most. */
static void add(void)
{
    uint8_t field = (uint8_t)(1 + byte() % 2);
    size_t into_len = byte() % 8 == 1 ? below(LEAVES + 1) : byte(), from_len = length(into_len);
    struct expander_one_length r;
    spun(noise, sizeof noise);
    spun(vector, sizeof vector);
    for (size_t k = 0; field == 2 && k < sizeof noise / sizeof *noise; k++) {
        noise[k] %= EXPANDER_MODULUS;
        vector[k] %= EXPANDER_MODULUS;
    }
    for (int changes = byte() % 4; changes > 0; changes--) {
        uint64_t *changed = byte() % 2 ? noise : vector;
        size_t at = below(into_len + 1);
        changed[at] = element();
    }
    if (byte() % 16 == 1)
        field = byte();
    lend(0, noise, from_len, 8);
    lend(1, vector, into_len, 8);
    r = plain_add_vector(field, PLAIN(0, uint64_t), from_len, PLAIN(1, uint64_t), into_len);
    settle(same_length(expander_add(field, LIBRARY(0, uint64_t), from_len, LIBRARY(1, uint64_t),
                                    into_len), r),
           r.number, 1, 1, 8 * r.written, 0);
}

/* ---- The expansion for the bench ---- */

/* A record, as make_source makes it, every other one with outputs for several batches of 32. */
static int make_large_source(int end)
{
    larger = 2;
    end = make_source(end);
    larger = 16;
    return end;
}

/* Whether a record has, by damage to its head, so many leaves that the call would take seconds. */
static int too_many_leaves(int end)
{
    return plain_describe(record[end], record_len[end]).leaves > LEAVES;
}

/* A window of x, of a few batches at most. */
static size_t make_window(size_t *first)
{
    size_t most = x.outputs < 70 ? x.outputs : 70, count = below(most + 1);
    *first = size(below(x.outputs - count + 1));
    return count;
}

static void noise_direct(void)
{
    int end = make_large_source(0);
    size_t first, count = make_window(&first), u_out_len = room(count);
    size_t v_out_len = room(width() * count);
    struct expander_two_lengths a, b;
    if (too_many_leaves(end))
        return;
    count = size(count);
    lend(0, record[end], record_len[end], 1);
    lend(1, NULL, u_out_len, 8);
    lend(2, NULL, v_out_len, 8);
    a = plain_noise_direct(PLAIN(0, uint8_t), record_len[end], first, count, PLAIN(1, uint64_t),
                           u_out_len, PLAIN(2, uint64_t), v_out_len);
    b = expander_noise_direct(LIBRARY(0, uint8_t), record_len[end], first, count,
                              LIBRARY(1, uint64_t), u_out_len, LIBRARY(2, uint64_t), v_out_len);
    settle(a.number == b.number && a.first_written == b.first_written
               && a.second_written == b.second_written,
           a.number, 1, 2, 8 * a.first_written, 8 * a.second_written);
}

static void scalar_direct(void)
{
    int end = make_large_source(1);
    size_t first, count = make_window(&first), w_out_len = room(width() * count);
    struct expander_one_length r;
    if (too_many_leaves(end))
        return;
    count = size(count);
    lend(0, record[end], record_len[end], 1);
    lend(1, NULL, w_out_len, 8);
    r = plain_scalar_direct(PLAIN(0, uint8_t), record_len[end], first, count, PLAIN(1, uint64_t),
                            w_out_len);
    settle(same_length(expander_scalar_direct(LIBRARY(0, uint8_t), record_len[end], first, count,
                                              LIBRARY(1, uint64_t), w_out_len), r),
           r.number, 1, 1, 8 * r.written, 0);
}

/* ---- Pads, chosen messages, triples ---- */

enum { BATCH = EXPANDER_BATCH_MAX + 2 };

static uint8_t bits[2][BATCH], blocks[2][32 * BATCH];

/* A count of outputs; now and then at the largest batch. */
static size_t make_count(void)
{
    uint8_t kind = byte();
    return kind == 1 ? EXPANDER_BATCH_MAX - 1 + below(3) : kind % 64;
}

/* Bits for so many outputs, one byte each, but for a few at most; and bytes for their pads. */
static void make_batch(size_t count)
{
    size_t all = count < 256 ? 256 : count + 1; /* a length may be any byte */
    for (int k = 0; k < 2; k++) {
        spun(bits[k], all);
        spun(blocks[k], 32 * (count + 1) < all ? all : 32 * (count + 1));
        for (size_t i = 0; i < all; i++)
            bits[k][i] &= 1;
    }
    for (int changes = byte() % 4; changes > 0; changes--) {
        size_t at = below(count + 1);
        int which = byte() % 2;
        bits[which][at] = byte();
    }
}

static void noise_pads(void)
{
    size_t count = byte() % 64, first = size(below(EXPANDER_PAD_WINDOW_END)), v_len, choices_len, pads_len;
    uint32_t r;
    make_batch(count);
    v_len = length(16 * count);
    choices_len = length(count);
    pads_len = room(16 * count);
    count = size(count);
    lend(0, blocks[0], v_len, 1);
    lend(1, bits[0], choices_len, 1);
    lend(2, NULL, pads_len, 1);
    r = plain_noise_pads(first, count, PLAIN(0, uint8_t), v_len, PLAIN(1, uint8_t), choices_len,
                         PLAIN(2, uint8_t), pads_len);
    settle(expander_noise_pads(first, count, LIBRARY(0, uint8_t), v_len, LIBRARY(1, uint8_t),
                               choices_len, LIBRARY(2, uint8_t), pads_len) == r,
           r, 2, 1, 16 * count, 0);
}

static void scalar_pads(void)
{
    size_t count = byte() % 64, first = size(below(EXPANDER_PAD_WINDOW_END)), w_len, delta_len, pads_len;
    uint32_t r;
    uint8_t delta[32];
    make_batch(count);
    spun(delta, sizeof delta);
    delta[0] |= 1;
    if (byte() % 8 == 1)
        memset(delta, 0, 16);
    w_len = length(16 * count);
    delta_len = length(16) % 33;
    pads_len = room(32 * count);
    count = size(count);
    lend(0, blocks[0], w_len, 1);
    lend(1, delta, delta_len, 1);
    lend(2, NULL, pads_len, 1);
    r = plain_scalar_pads(first, count, PLAIN(0, uint8_t), w_len, PLAIN(1, uint8_t), delta_len,
                          PLAIN(2, uint8_t), pads_len);
    settle(expander_scalar_pads(first, count, LIBRARY(0, uint8_t), w_len, LIBRARY(1, uint8_t),
                                delta_len, LIBRARY(2, uint8_t), pads_len) == r,
           r, 2, 1, 32 * count, 0);
}

static void correction_bits(void)
{
    size_t count = make_count(), choices_len, wanted_len, out_len;
    struct expander_one_length r;
    make_batch(count);
    choices_len = length(count);
    wanted_len = length(count);
    out_len = room(count);
    count = size(count);
    lend(0, bits[0], choices_len, 1);
    lend(1, bits[1], wanted_len, 1);
    lend(2, NULL, out_len, 1);
    r = plain_correction_bits(count, PLAIN(0, uint8_t), choices_len, PLAIN(1, uint8_t), wanted_len,
                              PLAIN(2, uint8_t), out_len);
    settle(same_length(expander_correction_bits(count, LIBRARY(0, uint8_t), choices_len,
                                                LIBRARY(1, uint8_t), wanted_len,
                                                LIBRARY(2, uint8_t), out_len), r),
           r.number, 2, 1, r.written, 0);
}

static void mask_messages(void)
{
    size_t count = make_count(), bits_len, pads_len, messages_len, out_len;
    struct expander_one_length r;
    make_batch(count);
    bits_len = length(count);
    pads_len = length(32 * count);
    messages_len = length(32 * count);
    out_len = room(32 * count);
    count = size(count);
    lend(0, bits[0], bits_len, 1);
    lend(1, blocks[0], pads_len, 1);
    lend(2, blocks[1], messages_len, 1);
    lend(3, NULL, out_len, 1);
    r = plain_mask_messages(count, PLAIN(0, uint8_t), bits_len, PLAIN(1, uint8_t), pads_len,
                            PLAIN(2, uint8_t), messages_len, PLAIN(3, uint8_t), out_len);
    settle(same_length(expander_mask_messages(count, LIBRARY(0, uint8_t), bits_len,
                                              LIBRARY(1, uint8_t), pads_len, LIBRARY(2, uint8_t),
                                              messages_len, LIBRARY(3, uint8_t), out_len), r),
           r.number, 3, 1, r.written, 0);
}

static void unmask_messages(void)
{
    size_t count = make_count(), wanted_len, pads_len, answers_len, out_len;
    struct expander_one_length r;
    make_batch(count);
    wanted_len = length(count);
    pads_len = length(16 * count);
    answers_len = length(32 * count);
    out_len = room(16 * count);
    count = size(count);
    lend(0, bits[0], wanted_len, 1);
    lend(1, blocks[0], pads_len, 1);
    lend(2, blocks[1], answers_len, 1);
    lend(3, NULL, out_len, 1);
    r = plain_unmask_messages(count, PLAIN(0, uint8_t), wanted_len, PLAIN(1, uint8_t), pads_len,
                              PLAIN(2, uint8_t), answers_len, PLAIN(3, uint8_t), out_len);
    settle(same_length(expander_unmask_messages(count, LIBRARY(0, uint8_t), wanted_len,
                                                LIBRARY(1, uint8_t), pads_len, LIBRARY(2, uint8_t),
                                                answers_len, LIBRARY(3, uint8_t), out_len), r),
           r.number, 3, 1, r.written, 0);
}

static void triples(void)
{
    size_t count = make_count(), pads_len, messages_len, out_len;
    struct expander_one_length r;
    make_batch(count);
    pads_len = length(16 * count);
    messages_len = length(32 * count);
    out_len = room(3 * count);
    lend(0, bits[0], count, 1);
    lend(1, blocks[0], pads_len, 1);
    lend(2, blocks[1], messages_len, 1);
    lend(3, NULL, out_len, 1);
    r = plain_triples(PLAIN(0, uint8_t), count, PLAIN(1, uint8_t), pads_len, PLAIN(2, uint8_t),
                      messages_len, PLAIN(3, uint8_t), out_len);
    settle(same_length(expander_triples(LIBRARY(0, uint8_t), count, LIBRARY(1, uint8_t), pads_len,
                                        LIBRARY(2, uint8_t), messages_len, LIBRARY(3, uint8_t),
                                        out_len), r),
           r.number, 3, 1, r.written, 0);
}

/* ---- Stocks ---- */

static int same_stock(struct expander_stock a, struct expander_stock b)
{
    return a.callers == b.callers && memcmp(a.label.bytes, b.label.bytes, 16) == 0
           && memcmp(a.next, b.next, sizeof a.next) == 0 && memcmp(a.end, b.end, sizeof a.end) == 0;
}

static struct expander_label make_label(struct expander_label in_use)
{
    size_t at;
    switch (byte() % 8) {
    case 1:
        bytes(in_use.bytes, 16);
        break;
    case 2:
        at = byte() % 16;
        in_use.bytes[at] ^= byte();
        break;
    }
    return in_use;
}

/* An opening, and calls on the stock that each left; at times on a stock that no call left. */
static void stock(void)
{
    struct expander_label label = {{0}};
    struct expander_stock s;
    struct expander_opened_stock opened, other;
    uint32_t shares[EXPANDER_CALLERS_MAX + 4];
    size_t outputs = 1 + below(EXPANDER_OUTPUTS_MAX), callers = 1 + below(EXPANDER_CALLERS_MAX), steps = byte() % 16;
    call = "open_stock";
    label = make_label(label);
    for (size_t k = 0; k < sizeof shares / sizeof *shares; k++) {
        uint8_t kind = byte();
        shares[k] = kind == 1 ? (uint32_t)word() : kind % 4 == 0 ? 0 : (uint32_t)below(8192);
    }
    outputs = size(outputs);
    callers = length(callers) % (sizeof shares / sizeof *shares + 1);
    lend(0, shares, callers, 4);
    opened = plain_open_stock(label, outputs, PLAIN(0, uint32_t), callers);
    other = expander_open_stock(label, outputs, LIBRARY(0, uint32_t), callers);
    settle(opened.number == other.number && same_stock(opened.stock, other.stock), opened.number, 1,
           0, 0, 0);
    s = opened.stock;
    for (; steps > 0; steps--) {
        uint8_t kind = byte();
        size_t caller = byte() % EXPANDER_CALLERS_MAX, count = below(1024);
        label = s.label;
        if (kind % 4 == 3)
            label.bytes[0]++;
        label = make_label(label);
        if (kind >= 240) {
            s.callers = byte() % (EXPANDER_CALLERS_MAX + 4);
            s.next[caller] = (uint32_t)word();
            s.end[caller] = byte() % 2 ? s.next[caller] + byte() : (uint32_t)word();
        }
        caller = size(caller);
        count = size(count);
        if (kind % 4 == 3) {
            struct expander_opened_stock a = plain_pass_stock(s, label, outputs),
                                         b = expander_pass_stock(s, label, outputs);
            call = "pass_stock";
            settle(a.number == b.number && same_stock(a.stock, b.stock), a.number, 0, 0, 0, 0);
            s = a.stock;
        } else if (kind % 4 == 1) {
            struct expander_previewed a = plain_preview(s, label, caller, count),
                                      b = expander_preview(s, label, caller, count);
            call = "preview";
            settle(a.number == b.number && a.first == b.first && a.count == b.count
                       && same_stock(a.after, b.after),
                   a.number, 0, 0, 0, 0);
        } else {
            struct expander_drawn a = plain_draw(s, label, caller, count),
                                  b = expander_draw(s, label, caller, count);
            call = "draw";
            settle(a.number == b.number && a.first == b.first && a.count == b.count
                       && same_stock(a.stock, b.stock),
                   a.number, 0, 0, 0, 0);
            s = a.stock;
        }
    }
}

/* ---- Amounts ---- */

static void amounts(void)
{
    uint64_t e = element();
    int64_t amount = (int64_t)word();
    struct expander_amount read = plain_read_amount(e), read_other = expander_read_amount(e);
    struct expander_written_amount written, written_other;
    switch (byte() % 4) {
    case 1:
        amount = EXPANDER_AMOUNT_MAX + byte() % 3;
        break;
    case 2:
        amount = -EXPANDER_AMOUNT_MAX - byte() % 3;
        break;
    case 3:
        amount %= EXPANDER_AMOUNT_MAX;
    }
    written = plain_write_amount(amount);
    written_other = expander_write_amount(amount);
    call = "read_amount";
    settle(read.number == read_other.number && read.amount == read_other.amount, 0, 0, 0, 0, 0);
    call = "write_amount";
    settle(written.number == written_other.number && written.element == written_other.element, 0, 0,
           0, 0, 0);
}

/* ---- Circuits ---- */

static uint8_t circuit[4096];
static size_t circuit_len;
LIMIT(a_circuit_is_admitted, EXPANDER_WIRES_MAX >= 64 + 48 && EXPANDER_CIRCUIT_OUTPUTS_MAX >= 32);

static void put(size_t number)
{
    circuit_len += plain_write_number(circuit + circuit_len, (uint32_t)number);
}

/* What a step and a round are lent: a circuit with so many inputs, gates, outputs and ANDs, and an
 * end's role, shares and triples; now and then damaged. */
static size_t inputs, gates, outputs, ands;
static uint8_t role, shares[128], some_triples[3 * 64];

static void bits_of(uint8_t *to, size_t count)
{
    spun(to, count);
    for (size_t k = 0; k < count; k++)
        to[k] &= 1;
}

static void spoil_circuit(void)
{
    size_t at;
    switch (byte() % 8) {
    case 0:
        role = byte();
        break;
    case 1:
        at = below(inputs);
        shares[at] = byte();
        break;
    case 2:
        at = below(3 * ands + 1);
        some_triples[at] = byte();
        break;
    case 3:
        circuit_len = below(circuit_len + 1);
        break;
    case 4:
        circuit[circuit_len++] = byte();
        break;
    default:
        at = below(circuit_len + 1);
        circuit[at] = byte();
    }
}

static void make_circuit(void)
{
    uint8_t kind;
    inputs = 1 + byte() % 64;
    gates = byte() % 48;
    outputs = 1 + byte() % 32;
    ands = 0;
    role = (uint8_t)(1 + byte() % 2);
    circuit_len = 0;
    put(inputs);
    put(gates);
    put(outputs);
    for (size_t k = 0; k < gates; k++) {
        kind = (uint8_t)(1 + byte() % 3);
        put(kind);
        put(below(inputs + k));
        if (kind != EXPANDER_GATE_NOT)
            put(below(inputs + k));
        ands += kind == EXPANDER_GATE_AND;
    }
    for (size_t k = 0; k < outputs; k++)
        put(below(inputs + gates));
    bits_of(shares, sizeof shares);
    bits_of(some_triples, sizeof some_triples);
    kind = byte();
    for (int changes = kind % 8 >= 6 ? 1 + kind % 2 : 0; changes > 0; changes--)
        spoil_circuit();
}

static void circuit_step(void)
{
    static struct expander_stepped a, b;
    size_t shares_len, triples_len, output_len;
    uint8_t steps = (uint8_t)(1 + byte() % 64);
    make_circuit();
    shares_len = length(inputs) % sizeof shares;
    triples_len = length(3 * ands) % sizeof some_triples;
    output_len = room(outputs);
    memset(&a, 0, sizeof a);
    for (; steps > 0; steps--) {
        uint8_t far = byte();
        uint8_t far_first = far & 1, far_second = far >> 1 & 1;
        if (far >= 250) {
            far_first = byte();
            a.state.phase = byte() % 4;
            a.state.gate = (uint32_t)size(below(gates + 1));
            spun(a.state.wires, inputs + gates);
        }
        lend(0, circuit, circuit_len, 1);
        lend(1, shares, shares_len, 1);
        lend(2, some_triples, triples_len, 1);
        lend(3, NULL, output_len, 1);
        b = expander_circuit_step(role, LIBRARY(0, uint8_t), circuit_len, LIBRARY(1, uint8_t),
                                  shares_len, LIBRARY(2, uint8_t), triples_len, LIBRARY(3, uint8_t),
                                  output_len, far_first, far_second, a.state);
        a = plain_circuit_step(role, PLAIN(0, uint8_t), circuit_len, PLAIN(1, uint8_t), shares_len,
                               PLAIN(2, uint8_t), triples_len, PLAIN(3, uint8_t), output_len,
                               far_first, far_second, a.state);
        settle(a.number == b.number && a.written == b.written && a.first_bit == b.first_bit
                   && a.second_bit == b.second_bit && a.state.phase == b.state.phase
                   && a.state.gate == b.state.gate
                   && memcmp(a.state.wires, b.state.wires, sizeof a.state.wires) == 0,
               a.number, 3, 1, a.written, 0);
        if (a.number != 0 || a.state.phase == EXPANDER_RUN_FINISHED)
            steps = steps < 2 ? steps : 2;
    }
}

static void circuit_round(void)
{
    static struct expander_rounded a, b;
    static uint8_t far_bits[256];
    size_t shares_len, triples_len, far_len, output_len, bits_len;
    uint8_t rounds = (uint8_t)(1 + byte() % 64);
    make_circuit();
    shares_len = length(inputs) % sizeof shares;
    triples_len = length(3 * ands) % sizeof some_triples;
    output_len = room(outputs);
    bits_len = room(2 * ands);
    memset(&a, 0, sizeof a);
    for (; rounds > 0; rounds--) {
        uint8_t way = byte();
        if (way >= 240) { /* a state that no round left, of any bytes or of small ones */
            spun(a.state.wires, inputs + gates);
            for (size_t k = 0; way >= 248 && k < inputs + gates; k++)
                a.state.wires[k] &= 3;
        }
        far_len = 0;
        for (size_t k = inputs; k < inputs + gates; k++)
            far_len += a.state.wires[k] == 1 ? 2 : 0;
        bits_of(far_bits, sizeof far_bits);
        if (way % 16 == 13 && far_len > 0)
            far_bits[below(far_len)] = byte();
        if (way % 16 == 14)
            far_len = length(far_len);
        lend(0, circuit, circuit_len, 1);
        lend(1, shares, shares_len, 1);
        lend(2, some_triples, triples_len, 1);
        lend(3, far_bits, far_len, 1);
        lend(4, NULL, output_len, 1);
        lend(5, NULL, bits_len, 1);
        b = expander_circuit_round(role, LIBRARY(0, uint8_t), circuit_len, LIBRARY(1, uint8_t),
                                   shares_len, LIBRARY(2, uint8_t), triples_len, LIBRARY(4, uint8_t),
                                   output_len, LIBRARY(3, uint8_t), far_len, LIBRARY(5, uint8_t),
                                   bits_len, a.state);
        a = plain_circuit_round(role, PLAIN(0, uint8_t), circuit_len, PLAIN(1, uint8_t), shares_len,
                                PLAIN(2, uint8_t), triples_len, PLAIN(4, uint8_t), output_len,
                                PLAIN(3, uint8_t), far_len, PLAIN(5, uint8_t), bits_len, a.state);
        settle(a.number == b.number && a.written == b.written && a.bits_written == b.bits_written
                   && memcmp(a.state.wires, b.state.wires, sizeof a.state.wires) == 0,
               a.number, 4, 2, a.written, a.bits_written);
        if (a.number != 0 || a.bits_written == 0)
            rounds = rounds < 2 ? rounds : 2;
    }
}

static void describe_circuit(void)
{
    struct expander_described_circuit a, b;
    make_circuit();
    lend(0, circuit, circuit_len, 1);
    a = plain_describe_circuit(PLAIN(0, uint8_t), circuit_len);
    b = expander_describe_circuit(LIBRARY(0, uint8_t), circuit_len);
    settle(a.number == b.number && a.inputs == b.inputs && a.gates == b.gates
               && a.outputs == b.outputs && a.ands == b.ands && a.rounds == b.rounds,
           a.number, 1, 0, 0, 0);
}

/* ---- The version ---- */

static void version(void)
{
    settle(expander_version() == plain_version(EXPANDER_VERSION), 0, 0, 0, 0, 0);
}

/* ---- */

static const struct job {
    const char *name;
    void (*run)(void);
} jobs[] = {{"deal", deal},
            {"describe", describe},
            {"noise_offline", noise_offline},
            {"scalar_offline", scalar_offline},
            {"add", add},
            {"noise_online", noise_online},
            {"scalar_online", scalar_online},
            {"noise_direct", noise_direct},
            {"scalar_direct", scalar_direct},
            {"noise_pads", noise_pads},
            {"scalar_pads", scalar_pads},
            {"correction_bits", correction_bits},
            {"mask_messages", mask_messages},
            {"unmask_messages", unmask_messages},
            {"triples", triples},
            {"open_stock", stock},
            {"read_amount", amounts},
            {"circuit_step", circuit_step},
            {"circuit_round", circuit_round},
            {"describe_circuit", describe_circuit},
            {"version", version}};

int LLVMFuzzerTestOneInput(const uint8_t *data, size_t data_len);

int LLVMFuzzerTestOneInput(const uint8_t *data, size_t data_len)
{
    const struct job *job;
    if (lent[0].room[0] == NULL)
        make_rooms();
    input = data;
    input_left = data_len;
    job = &jobs[byte() % (sizeof jobs / sizeof *jobs)];
    call = job->name;
    job->run();
    return 0;
}
