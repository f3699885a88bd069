/* What the test programs of the calls share (lend.h). */
#define _GNU_SOURCE
#include "lend.h"

#include <inttypes.h>
#include <stdarg.h>
#include <stdio.h>
#include <stdlib.h>
#include <string.h>
#include <sys/mman.h>

typedef struct plain_result result;

enum { CALLS = 16, NUMBERS = 32 };

static const struct call *calls;
static int call_count;
static unsigned long agreed[CALLS][NUMBERS];
static unsigned long facts; /* further facts that held of the library's results */
static unsigned long wrong;

/* ---- Facts ---- */

static char context[400]; /* the call being made */

void describe(const char *format, ...)
{
    va_list list;
    va_start(list, format);
    vsnprintf(context, sizeof context, format, list);
    va_end(list);
}

void complain(const char *format, ...)
{
    va_list list;
    if (++wrong > 20)
        return;
    fprintf(stderr, "%s: ", context);
    va_start(list, format);
    vfprintf(stderr, format, list);
    va_end(list);
    fputc('\n', stderr);
}

void expect(int holds, const char *fact, const char *file, int line)
{
    if (holds)
        facts++;
    else
        complain("not so (%s:%d): %s", file, line, fact);
}

/* ---- Lent memory ---- */

enum { GUARD = 64, PAGE = 4096, ROOM = (1 << 20) + (1 << 16) };

struct lent lent[SLOTS];

static void make_rooms(void)
{
    for (int k = 0; k < SLOTS; k++)
        for (int copy = 0; copy < 3; copy++) {
            unsigned char *pages = mmap(NULL, ROOM + 2 * PAGE, PROT_NONE,
                                        MAP_PRIVATE | MAP_ANONYMOUS, -1, 0);
            if (pages == MAP_FAILED || mprotect(pages + PAGE, ROOM, PROT_READ | PROT_WRITE) != 0) {
                perror("memory to lend");
                exit(2);
            }
            lent[k].room[copy] = pages + PAGE;
        }
}

void lend(int slot, const void *content, size_t count, size_t size)
{
    struct lent *l = &lent[slot];
    size_t at;
    l->bytes = count * size;
    if (l->bytes > ROOM - 32 * GUARD) {
        fprintf(stderr, "buffer of %zu bytes\n", l->bytes);
        exit(2);
    }
    l->guard_low = l->guard_high = GUARD;
    switch (random_below(3)) {
    case 0: /* from the first byte that can be touched */
        at = l->guard_low = 0;
        break;
    case 1: /* up to the last one */
        at = ROOM - l->bytes;
        l->guard_high = 0;
        break;
    default:
        at = GUARD + size * random_below(16);
    }
    l->library = l->room[0] + at;
    l->plain = l->room[1] + at;
    l->before = l->room[2] + at;
    random_bytes(l->before - l->guard_low, l->guard_low);
    random_bytes(l->before + l->bytes, l->guard_high);
    if (content == NULL)
        random_bytes(l->before, l->bytes);
    else
        memcpy(l->before, content, l->bytes);
    at = l->guard_low + l->bytes + l->guard_high;
    memcpy(l->library - l->guard_low, l->before - l->guard_low, at);
    memcpy(l->plain - l->guard_low, l->before - l->guard_low, at);
}

void keep(void *out, int slot, size_t bytes)
{
    if (out != NULL)
        memcpy(out, lent[slot].library, bytes);
}

/* Both copies of the buffer agree whole, guards included, and past the bytes written, as before. */
static int held(int slot, size_t written)
{
    const struct lent *l = &lent[slot];
    size_t all = l->guard_low + l->bytes + l->guard_high;
    for (size_t k = 0; k < all; k += k + PAGE < all ? PAGE : all - k) {
        size_t n = all - k < PAGE ? all - k : PAGE;
        const unsigned char *mine = l->library - l->guard_low + k;
        const unsigned char *other = l->plain - l->guard_low + k;
        if (memcmp(mine, other, n) == 0)
            continue;
        for (n = 0; mine[n] == other[n]; n++)
            ;
        complain("buffer %d of %zu bytes: byte %ld is %02x, the plain implementation has %02x",
                 slot, l->bytes, (long)(k + n) - (long)l->guard_low, mine[n], other[n]);
        return 0;
    }
    if (written > l->bytes
        || memcmp(l->plain - l->guard_low, l->before - l->guard_low, l->guard_low) != 0
        || memcmp(l->plain + written, l->before + written, l->bytes + l->guard_high - written)) {
        complain("buffer %d: the plain implementation wrote past its %zu bytes", slot, written);
        return 0;
    }
    return 1;
}

/* ---- After a call ---- */

void settle_lent(int call, int same, uint32_t number, int inputs, int outputs, size_t first,
                 size_t second)
{
    for (int k = 0; k < inputs; k++)
        same &= held(k, 0);
    if (outputs >= 1)
        same &= held(inputs, number == 0 ? first : 0);
    if (outputs == 2)
        same &= held(inputs + 1, number == 0 ? second : 0);
    if (number >= NUMBERS || !(calls[call].allowed & BIT(number))) {
        complain("number %u is not this call's", number);
        same = 0;
    }
    if (same)
        agreed[call][number]++;
}

void settle(int call, result mine, result plain, int inputs, int outputs, size_t first,
            size_t second)
{
    int same = 1;
    if (mine.number != plain.number || mine.first != plain.first || mine.second != plain.second) {
        complain("returned %u, %zu, %zu; the plain implementation %u, %zu, %zu", mine.number,
                 mine.first, mine.second, plain.number, plain.first, plain.second);
        same = 0;
    }
    if (plain.number != 0 && (plain.first != 0 || plain.second != 0)) {
        complain("the plain implementation refused with lengths");
        same = 0;
    }
    settle_lent(call, same, plain.number, inputs, outputs, first, second);
}

result two(struct expander_two_lengths r)
{
    result same = {r.number, r.first_written, r.second_written};
    return same;
}

result one(struct expander_one_length r)
{
    result same = {r.number, r.written, 0};
    return same;
}

result alone(uint32_t number)
{
    result same = {number, 0, 0};
    return same;
}

/* ---- The table ---- */

void begin(const struct call *list, int count)
{
    if (count > CALLS) {
        fprintf(stderr, "%d calls\n", count);
        exit(2);
    }
    calls = list;
    call_count = count;
    make_rooms();
}

/* A column for each number that one of the calls may give. */
static void table(void)
{
    uint32_t columns = 0;
    for (int call = 0; call < call_count; call++)
        columns |= calls[call].allowed;
    printf("%-17s", "number");
    for (int n = 0; n < NUMBERS; n++)
        if (columns & BIT(n))
            printf("%7d", n);
    putchar('\n');
    for (int call = 0; call < call_count; call++) {
        printf("%-17s", calls[call].name);
        for (int n = 0; n < NUMBERS; n++) {
            if (calls[call].allowed & BIT(n))
                printf("%7lu", agreed[call][n]);
            else if (columns & BIT(n))
                printf("%7s", "-");
            if ((calls[call].allowed & BIT(n)) && agreed[call][n] == 0) {
                describe("%s", calls[call].name);
                complain("number %d was not met", n);
            }
        }
        putchar('\n');
    }
}

int finish(void)
{
    unsigned long all = 0;
    table();
    for (int call = 0; call < call_count; call++)
        for (int n = 0; n < NUMBERS; n++)
            all += agreed[call][n];
    if (wrong > 0) {
        printf("%lu disagreements\n", wrong);
        return 1;
    }
    printf("%lu calls agree with the plain implementation; %lu further facts hold; the cases end at "
           "%016" PRIx64 "\n", all, facts, random_word());
    return 0;
}
