/* The calls of the stock held to the plain implementation, through expander.h (lend.h). */
#include "lend.h"
#include "../plain/plain_stock.h"

#include <string.h>

enum { CALLERS = EXPANDER_CALLERS_MAX, OUTPUTS = EXPANDER_OUTPUTS_MAX };
enum { OPEN_STOCK, DRAW, PREVIEW, PASS_STOCK, CALLS };

static const struct call calls[CALLS] = {
    {"open_stock", BIT(0) | BIT(2) | BIT(16)},
    {"draw", BIT(0) | BIT(21) | BIT(14) | BIT(15)},
    {"preview", BIT(0) | BIT(21) | BIT(14) | BIT(15)},
    {"pass_stock", BIT(0) | BIT(2) | BIT(20) | BIT(16)},
};

typedef struct expander_stock stock;
typedef struct expander_label label;

static int same_label(const label *a, const label *b)
{
    return memcmp(a->bytes, b->bytes, 16) == 0;
}

/* a is above b, by their words. */
static int label_above(const label *a, const label *b)
{
    struct plain_block x = plain_load(a->bytes), y = plain_load(b->bytes);
    return x.hi > y.hi || (x.hi == y.hi && x.lo > y.lo);
}

static int same_stock(const stock *a, const stock *b)
{
    return a->callers == b->callers && memcmp(a->next, b->next, sizeof a->next) == 0
        && memcmp(a->end, b->end, sizeof a->end) == 0 && same_label(&a->label, &b->label);
}

/* Compare the number and the stock that both returned. */
static int same_result(uint32_t mine, uint32_t plain, const stock *my_stock,
                       const stock *plain_stock)
{
    if (mine != plain)
        complain("returned %u, the plain implementation %u", mine, plain);
    else if (!same_stock(my_stock, plain_stock))
        complain("number %u: the stock is another than the plain implementation's", mine);
    else
        return 1;
    return 0;
}

/* ---- The calls, each made by both ---- */

static struct expander_opened_stock try_open(label l, size_t outputs, const uint32_t *shares,
                                             size_t len)
{
    struct expander_opened_stock mine, plain;
    describe("open_stock(%zu, %zu shares)", outputs, len);
    lend(0, shares, len, 4);
    mine = expander_open_stock(l, outputs, LIBRARY(0, uint32_t), len);
    plain = plain_open_stock(l, outputs, PLAIN(0, uint32_t), len);
    settle_lent(OPEN_STOCK, same_result(mine.number, plain.number, &mine.stock, &plain.stock),
                plain.number, 1, 0, 0, 0);
    return mine;
}

/* Compare a reply and the stock of a draw, or of a preview. */
static void settle_draw(int call, struct expander_drawn mine, struct expander_drawn plain,
                        const stock *from)
{
    int same = same_result(mine.number, plain.number, &mine.stock, &plain.stock);
    if (mine.first != plain.first || mine.count != plain.count) {
        complain("window %zu and %zu; the plain implementation %zu and %zu", mine.first,
                 mine.count, plain.first, plain.count);
        same = 0;
    }
    settle_lent(call, same, plain.number, 0, 0, 0, 0);
    EXPECT(mine.number == 0 || (mine.first == 0 && mine.count == 0
                                && same_stock(&mine.stock, from)));
}

static struct expander_drawn try_draw(stock from, label l, size_t caller, size_t count)
{
    struct expander_drawn mine;
    describe("draw(stock of %u, caller %zu, %zu)", from.callers, caller, count);
    mine = expander_draw(from, l, caller, count);
    settle_draw(DRAW, mine, plain_draw(from, l, caller, count), &from);
    return mine;
}

/* A preview, in the form of the draw that it shows. */
static struct expander_drawn as_drawn(struct expander_previewed r)
{
    struct expander_drawn same = {r.number, r.first, r.count, r.after};
    return same;
}

static struct expander_drawn try_preview(stock from, label l, size_t caller, size_t count)
{
    struct expander_drawn mine;
    stock kept = from;
    describe("preview(stock of %u, caller %zu, %zu)", from.callers, caller, count);
    mine = as_drawn(expander_preview(from, l, caller, count));
    EXPECT(same_stock(&from, &kept));
    settle_draw(PREVIEW, mine, as_drawn(plain_preview(from, l, caller, count)), &from);
    return mine;
}

static struct expander_opened_stock try_pass(stock from, label l, size_t outputs)
{
    struct expander_opened_stock mine, plain;
    describe("pass_stock(stock of %u, %zu)", from.callers, outputs);
    mine = expander_pass_stock(from, l, outputs);
    plain = plain_pass_stock(from, l, outputs);
    settle_lent(PASS_STOCK, same_result(mine.number, plain.number, &mine.stock, &plain.stock),
                plain.number, 0, 0, 0, 0);
    EXPECT(mine.number == 0 || same_stock(&mine.stock, &from));
    return mine;
}

/* ---- What is asked, most often admitted ---- */

static const size_t far = (size_t)1 << 4 * sizeof(size_t);

static label any_label(void)
{
    label l;
    size_t at;
    random_bytes(l.bytes, 16);
    switch (random_below(6)) {
    case 0:
        memset(l.bytes, 0, 16);
        break;
    case 1:
        memset(l.bytes, 0xff, 16);
        break;
    case 2: /* few bytes that are not 00 */
        memset(l.bytes, 0, 16);
        at = random_below(16);
        l.bytes[at] = (uint8_t)random_word();
        break;
    }
    return l;
}

/* This label with one byte one higher or lower, the first or the last as often as any. */
static label near_label(label l)
{
    size_t any = random_below(16), at = (size_t[]){0, 15, any}[random_below(3)];
    l.bytes[at] = (uint8_t)(l.bytes[at] + (random_below(3) ? 1 : 255));
    return l;
}

/* A label to draw with where this one is in use. */
static label some_label(label in_use)
{
    return random_below(8) ? in_use : random_below(4) ? near_label(in_use) : any_label();
}

/* A label to pass to: above by one, or in its last byte, or two bytes that pull apart. */
static label next_label(label in_use)
{
    label l = in_use;
    size_t at = 0;
    switch (random_below(8)) {
    case 0:
        return random_below(2) ? any_label() : in_use;
    case 1:
        return near_label(in_use);
    case 2: /* the first byte lower and a later one higher, or the other way round */
        at = 1 + random_below(15);
        l.bytes[0] = (uint8_t)(l.bytes[0] + (random_below(2) ? 1 : 255));
        l.bytes[at] = (uint8_t)(l.bytes[at] + (random_below(2) ? 1 : 255));
        return l;
    default:
        while (at < 15 && l.bytes[at] == 0xff)
            l.bytes[at++] = 0;
        l.bytes[at]++;
        return l;
    }
}

static size_t some_caller(size_t callers)
{
    const size_t others[] = {callers, callers + 1, CALLERS, far, far + 1, SIZE_MAX};
    return callers == 0 || random_below(10) == 0 ? others[random_below(6)] : random_below(callers);
}

/* A count, most often within what is left. */
static size_t some_count(size_t left)
{
    const size_t others[] = {0, left, left + 1, far, far + left, SIZE_MAX, SIZE_MAX - left + 1};
    return random_below(3) == 0 ? others[random_below(7)] : random_below(left / 3 + 2);
}

/* n of a dealing to pass to, where so much is left. */
static size_t some_outputs(size_t left)
{
    const size_t others[] = {0, 1, OUTPUTS, OUTPUTS + 1, left, left + 1, left - (left > 0), far,
                             far + left, SIZE_MAX};
    return random_below(3) ? left + random_below(OUTPUTS + 1 - (left < OUTPUTS ? left : OUTPUTS))
                           : others[random_below(10)];
}

/* Shares at random that sum to `sum`; the last takes what is left. */
static void make_shares(uint32_t *shares, size_t callers, size_t sum)
{
    for (size_t k = 0; k + 1 < callers; k++) {
        shares[k] = random_below(4) ? (uint32_t)random_below(sum / (callers - k) + 1) : 0;
        sum -= shares[k];
    }
    if (callers > 0)
        shares[callers - 1] = (uint32_t)sum;
}

/* ---- Openings ---- */

/* Every number of callers with n at its bounds, sums of shares at n and past it; the number is that
 * of the first test that fails. */
static void openings(void)
{
    const size_t sizes[] = {0, 1, 2, 3, 100, OUTPUTS - 1, OUTPUTS, OUTPUTS + 1, 65536, far,
                            far + 100, SIZE_MAX};
    const label zero = {{0}};
    uint32_t shares[CALLERS + 4];
    for (size_t callers = 0; callers <= CALLERS + 3; callers++)
        for (size_t k = 0; k < sizeof sizes / sizeof *sizes; k++)
            for (size_t above = 0; above < 4; above++) {
                size_t n = sizes[k];
                label l = any_label();
                uint32_t number = callers == 0 || callers > CALLERS || n == 0 || n > OUTPUTS ? 2
                                : above > 1 ? 16 : 0;
                struct expander_opened_stock r;
                make_shares(shares, callers, (n > OUTPUTS ? 100 : n) + above - (above + n > 0));
                r = try_open(l, n, shares, callers);
                EXPECT(r.number == number);
                EXPECT(r.stock.callers == (number == 0 ? callers : 0));
                EXPECT(same_label(&r.stock.label, number == 0 ? &l : &zero));
                if (number != 0) { /* it can be passed on, and stays without callers */
                    struct expander_opened_stock passed = try_pass(r.stock, l, OUTPUTS);
                    EXPECT(passed.number == (same_label(&l, &zero) ? 20u : 0u));
                    EXPECT(passed.stock.callers == 0);
                    EXPECT(try_draw(passed.stock, passed.stock.label, 0, 0).number == 14);
                }
            }
}

/* Sums of shares that a word of 32 bits does not hold. */
static void wide_shares(void)
{
    const uint32_t words[] = {0, 1, 32768, (uint32_t)1 << 31, UINT32_MAX - 1, UINT32_MAX};
    uint32_t shares[CALLERS];
    for (size_t round = 0; round < 4000; round++) {
        size_t callers = 1 + random_below(CALLERS);
        uint64_t sum = 0;
        for (size_t k = 0; k < callers; k++) {
            shares[k] = words[random_below(6)];
            sum += shares[k];
        }
        EXPECT(try_open(any_label(), OUTPUTS, shares, callers).number
               == (sum > OUTPUTS ? 16u : 0u));
    }
    for (size_t k = 0; k < CALLERS; k++)
        shares[k] = (uint32_t)1 << 29; /* their sum is 2^32 */
    EXPECT(try_open(any_label(), OUTPUTS, shares, CALLERS).number == 16);
    shares[0]++;
    EXPECT(try_open(any_label(), OUTPUTS, shares, CALLERS).number == 16);
}

/* ---- Lists of draws, previews and passages ---- */

enum { LIST = 60 };

/* A call of a list; a passage's n stands as count. */
struct asked {
    int call;
    label label;
    size_t caller, count;
};

/* Make a call; a passage's reply is its number alone. */
static struct expander_drawn make(stock from, const struct asked *a)
{
    struct expander_drawn r = {0, 0, 0, from};
    struct expander_opened_stock passed;
    switch (a->call) {
    case DRAW:
        return try_draw(from, a->label, a->caller, a->count);
    case PREVIEW:
        return try_preview(from, a->label, a->caller, a->count);
    default:
        passed = try_pass(from, a->label, a->count);
        r.number = passed.number;
        r.stock = passed.stock;
        return r;
    }
}

static int same_reply(const struct expander_drawn *a, const struct expander_drawn *b)
{
    return a->number == b->number && a->first == b->first && a->count == b->count;
}

static struct asked list[LIST];
static struct expander_drawn replies[LIST], again[LIST];
static unsigned char struck[LIST];

/* Make the calls of the list that are not struck out, one after the other, each on the stock that
 * the one before left; previews leave none. Returns the last stock, and the replies in again. */
static stock run_list(stock from)
{
    for (int k = 0; k < LIST; k++)
        if (!struck[k]) {
            again[k] = make(from, &list[k]);
            if (list[k].call != PREVIEW)
                from = again[k].stock;
        }
    return from;
}

/* What one list handed out: under the label in use, and to each caller since the opening. */
static struct account {
    label label;
    size_t outputs, callers;
    size_t begins[CALLERS], held_then[CALLERS], since[CALLERS]; /* under the label in use */
    size_t shares[CALLERS], drawn[CALLERS];                     /* since the opening */
    unsigned char taken[OUTPUTS];
} account;

/* A label comes into use: blocks of what each caller has not drawn, from 0 in caller order. */
static void use_label(label l, size_t outputs)
{
    size_t at = 0;
    account.label = l;
    account.outputs = outputs;
    memset(account.taken, 0, sizeof account.taken);
    for (size_t k = 0; k < account.callers; k++) {
        account.begins[k] = at;
        account.held_then[k] = account.shares[k] - account.drawn[k];
        account.since[k] = 0;
        at += account.held_then[k];
    }
}

static size_t not_drawn(void)
{
    size_t all = 0;
    for (size_t k = 0; k < account.callers; k++)
        all += account.shares[k] - account.drawn[k];
    return all;
}

/* A draw: accepted, it is the caller's next indices of its block, so that no index is handed out
 * twice under one label. */
static void book_draw(const struct asked *a, const struct expander_drawn *r)
{
    size_t caller = a->caller;
    if (!same_label(&a->label, &account.label)) {
        EXPECT(r->number == 21);
    } else if (caller >= account.callers) {
        EXPECT(r->number == 14);
    } else if (r->number == 0) {
        EXPECT(r->count == a->count
               && r->first == account.begins[caller] + account.since[caller]);
        account.since[caller] += r->count;
        account.drawn[caller] += r->count;
        EXPECT(account.drawn[caller] <= account.shares[caller]);
        EXPECT(r->first + r->count <= account.outputs);
        for (size_t j = r->first; j < r->first + r->count && j < OUTPUTS; j++) {
            EXPECT(!account.taken[j]);
            account.taken[j] = 1;
        }
    } else {
        EXPECT(r->number == 15);
        EXPECT(a->count > account.shares[caller] - account.drawn[caller]);
    }
}

/* A passage: labels rise, so that the label in use was never in use before. */
static void book_passage(const struct asked *a, const struct expander_drawn *r)
{
    uint32_t number = a->count == 0 || a->count > OUTPUTS ? 2
                    : !label_above(&a->label, &account.label) ? 20
                    : not_drawn() > a->count ? 16 : 0;
    EXPECT(r->number == number);
    if (r->number == 0)
        use_label(a->label, a->count);
}

/* What is handed out and what is held: under the label in use they make up what was held when it
 * came into use, and for each caller, since the opening, its share. */
static void balance(const stock *at)
{
    size_t then = 0, handed = 0, held = 0;
    EXPECT(same_label(&at->label, &account.label));
    for (size_t k = 0; k < account.callers; k++) {
        size_t left = at->end[k] - at->next[k];
        EXPECT(account.drawn[k] + left == account.shares[k]);
        then += account.held_then[k];
        handed += account.since[k];
        held += left;
    }
    EXPECT(handed + held == then);
}

/* A call of any kind on this stock. */
static struct asked some_call(const stock *at)
{
    struct asked a;
    size_t kind = random_below(12);
    a.caller = some_caller(account.callers);
    if (kind == 0) {
        a.call = PASS_STOCK;
        a.label = next_label(at->label);
        a.count = some_outputs(not_drawn());
    } else {
        a.call = kind < 4 ? PREVIEW : DRAW;
        a.label = some_label(at->label);
        a.count = some_count(plain_left(at, a.caller));
    }
    return a;
}

static unsigned long alike; /* lists whose passages stayed accepted with callers struck out */

/* Struck out: the other callers' calls, and refused passages. Where the accepted passages are
 * accepted still, this caller's numbers are as they were, and before the first of them so is the
 * rest of its replies. */
static void one_caller(stock opened, size_t caller)
{
    int passages = 1, before = 1;
    for (int k = 0; k < LIST; k++)
        struck[k] = list[k].call == PASS_STOCK ? replies[k].number != 0
                                               : list[k].caller != caller;
    run_list(opened);
    for (int k = 0; k < LIST; k++)
        if (!struck[k] && list[k].call == PASS_STOCK)
            passages &= again[k].number == 0;
    if (!passages)
        return;
    alike++;
    for (int k = 0; k < LIST; k++)
        if (!struck[k]) {
            EXPECT(again[k].number == replies[k].number);
            before &= list[k].call != PASS_STOCK;
            if (before)
                EXPECT(same_reply(&again[k], &replies[k]));
        }
}

/* Struck out: previews, or all that was refused. The other replies and the last stock are as they
 * were. */
static void without(stock opened, stock last, int refused)
{
    stock other;
    for (int k = 0; k < LIST; k++)
        struck[k] = refused ? replies[k].number != 0 : list[k].call == PREVIEW;
    other = run_list(opened);
    EXPECT(same_stock(&other, &last));
    for (int k = 0; k < LIST; k++)
        if (!struck[k])
            EXPECT(same_reply(&again[k], &replies[k]));
}

/* One list after an opening with these shares. */
static void one_list(size_t outputs, const uint32_t *shares, size_t callers)
{
    label l = any_label();
    struct expander_opened_stock opened = try_open(l, outputs, shares, callers);
    stock at = opened.stock;
    EXPECT(opened.number == 0);
    memset(&account, 0, sizeof account);
    account.callers = callers;
    for (size_t k = 0; k < callers; k++)
        account.shares[k] = shares[k];
    use_label(l, outputs);
    for (int k = 0; k < LIST; k++) {
        const struct asked a = list[k] = some_call(&at);
        replies[k] = make(at, &a);
        if (a.call == PREVIEW) {
            struct expander_drawn made = try_draw(at, a.label, a.caller, a.count); /* not kept */
            EXPECT(same_reply(&replies[k], &made) && same_stock(&replies[k].stock, &made.stock));
            continue;
        }
        at = replies[k].stock;
        if (a.call == DRAW)
            book_draw(&a, &replies[k]);
        else
            book_passage(&a, &replies[k]);
        balance(&at);
    }
    without(opened.stock, at, 0);
    without(opened.stock, at, 1);
    for (size_t caller = 0; caller < callers; caller++)
        one_caller(opened.stock, caller);
}

static void lists(int rounds)
{
    const size_t most[] = {1, 2, 10, 500, OUTPUTS};
    uint32_t shares[CALLERS];
    for (int round = 0; round < rounds; round++) {
        size_t callers = 1 + random_below(CALLERS);
        size_t n = 1 + random_below(most[round % 100 == 0 ? 4 : random_below(4)]);
        make_shares(shares, callers, random_below(2) ? n : random_below(n + 1));
        one_list(n, shares, callers);
    }
    make_shares(shares, CALLERS, OUTPUTS);
    one_list(OUTPUTS, shares, CALLERS);
    EXPECT(alike > (unsigned long)rounds);
}

/* ---- Labels and refusals, one by one ---- */

/* Labels that differ in one byte alone, or in two that pull apart. */
static void labels(void)
{
    const uint32_t shares[2] = {10, 20};
    for (size_t i = 0; i < 16; i++)
        for (size_t j = 0; j < 16; j++) {
            label low = any_label(), high;
            stock at;
            if (low.bytes[i] == 0xff)
                low.bytes[i]--;
            if (j < i && low.bytes[j] == 0)
                low.bytes[j]++;
            high = low;
            high.bytes[i]++;
            if (j < i)
                high.bytes[j]--;
            at = try_open(low, 100, shares, 2).stock;
            EXPECT(try_draw(at, low, 1, 3).number == 0);
            EXPECT(try_draw(at, high, 1, 3).number == 21);
            EXPECT(try_preview(at, high, 1, 3).number == 21);
            EXPECT(try_pass(at, low, 100).number == 20);
            EXPECT(try_pass(at, high, 100).number == 0);
            at = try_pass(at, high, 100).stock;
            EXPECT(try_pass(at, low, 100).number == 20);
            EXPECT(try_draw(at, low, 1, 3).number == 21);
            EXPECT(try_draw(at, high, 1, 3).number == 0);
        }
}

/* Every set of faults in a draw, a preview and a passage. */
static void refusals(void)
{
    const uint32_t shares[3] = {10, 0, 30};
    for (int set = 0; set < 6 * 6 * 6; set++) {
        label l = any_label(), other = near_label(l);
        stock at = try_open(l, 50, shares, 3).stock;
        size_t caller = (size_t[]){0, 2, 3, CALLERS, far, SIZE_MAX}[set % 6];
        size_t left = caller == 0 ? 10 : 30;
        size_t count = (size_t[]){0, left, left + 1, far, far + left, SIZE_MAX}[set / 6 % 6];
        int in_use = set / 36 % 2;
        uint32_t number = !in_use ? 21 : caller > 2 ? 14 : count > left ? 15 : 0;
        size_t n = (size_t[]){0, 39, 40, OUTPUTS, OUTPUTS + 1, far + 40}[set % 6];
        EXPECT(try_draw(at, in_use ? l : other, caller, count).number == number);
        EXPECT(try_preview(at, in_use ? l : other, caller, count).number == number);
        if (set / 6 % 3 == 0)
            other = l;
        number = n == 0 || n > OUTPUTS ? 2 : !label_above(&other, &l) ? 20 : n < 40 ? 16 : 0;
        EXPECT(try_pass(at, other, n).number == number);
    }
}

/* ---- Stocks that no call left ---- */

static stock any_stock(void)
{
    const uint32_t counts[] = {0, 1, 7, 8, 9, 16, 255, 256, UINT32_MAX};
    int small = random_below(2) == 0; /* little is left, so that it can be passed on */
    stock s;
    random_bytes(&s, sizeof s);
    s.callers = random_below(3) ? 1 + (uint32_t)random_below(CALLERS) : counts[random_below(9)];
    s.label = any_label();
    for (int k = 0; k < CALLERS; k++)
        switch (random_below(small ? 3 : 6)) {
        case 0:
            s.end[k] = s.next[k];
            break;
        case 1:
            s.end[k] = s.next[k] + (uint32_t)random_below(5) - 2; /* also past 2^32 */
            if (small && s.end[k] > s.next[k] + (uint64_t)2)
                s.end[k] = s.next[k];
            break;
        case 2:
            s.end[k] = small ? s.next[k] / 2 : UINT32_MAX;
            break;
        case 3:
            s.next[k] = 0;
            break;
        }
    return s;
}

static void any_stocks(int rounds)
{
    for (int round = 0; round < rounds; round++) {
        stock s = any_stock();
        size_t callers = s.callers < CALLERS ? s.callers : CALLERS, caller = some_caller(callers);
        size_t left = plain_left(&s, caller), all = 0;
        label l = some_label(s.label);
        struct expander_drawn r = try_draw(s, l, caller, some_count(left));
        EXPECT(r.number != 0 || r.count <= left);
        l = some_label(s.label);
        try_preview(s, l, caller, some_count(left));
        if (caller < CALLERS) /* between what is left and the numbers that wrap */
            try_draw(s, s.label, caller, (size_t)(uint32_t)(s.end[caller] - s.next[caller]));
        for (size_t k = 0; k < callers; k++)
            all += plain_left(&s, k);
        l = next_label(s.label);
        try_pass(s, l, some_outputs(all < OUTPUTS ? all : OUTPUTS));
    }
}

/* Passages where a word of 32 bits does not hold the sum of what is left. */
static void wide_stocks(int rounds)
{
    const uint32_t words[] = {0, 1, 100, (uint32_t)1 << 31, UINT32_MAX - 1, UINT32_MAX};
    for (int round = 0; round < rounds; round++) {
        label low = any_label(), high = any_label();
        stock s = {1 + (uint32_t)random_below(CALLERS), low, {0}, {0}};
        uint64_t sum = 0;
        for (size_t k = 0; k < s.callers; k++) {
            uint32_t left = words[random_below(6)];
            s.next[k] = (uint32_t)(random_word() % ((uint64_t)(UINT32_MAX - left) + 1));
            s.end[k] = s.next[k] + left;
            sum += left;
        }
        EXPECT(try_pass(s, high, OUTPUTS).number
               == (!label_above(&high, &low) ? 20u : sum > OUTPUTS ? 16u : 0u));
    }
}

int main(void)
{
    begin(calls, CALLS);
    openings();
    wide_shares();
    labels();
    refusals();
    lists(700);
    any_stocks(20000);
    wide_stocks(10000);
    return finish();
}
