/* Pairs: comparing, checking, and their windows. */
#include "sections.h"

static void compare_and_check(struct side *side)
{
    size_t *count = side->with;
    side->status = open_side(side);
    if (side->status.number == 0)
        side->status = companion_compare_pair(&side->link, &side->pair);
    if (side->status.number == 0)
        side->status = companion_check(&side->link, &side->pair, 0, *count);
    companion_close_pair(&side->pair);
}

/* Records for both sides: mixed & 1 takes the first dealing's scalar record from another one with the same head, mixed & 2 the
 * second one's; mixed & 4 alters the first dealing's Delta, so that half of the outputs fit. */
static void mixed_sides(unsigned mixed)
{
    for (int k = 0; k < 2; k++) {
        static struct companion_dealt dealt, other;
        deal_raw(&small, (uint8_t)(k + 1), &dealt);
        deal_raw(&small, (uint8_t)(k + 1), &other);
        if (mixed >> k & 1)
            dealt = (memcpy(other.noise, dealt.noise, dealt.noise_len), other);
        if (k == 0 && mixed & 4)
            dealt.scalar[2 + 1 + 1 + 1 + 1 + 2 + 32 + 5] ^= 1;
        memcpy(sides[k].noise, dealt.noise, dealt.noise_len);
        memcpy(sides[1 - k].scalar, dealt.scalar, dealt.scalar_len);
        sides[k].noise_len = dealt.noise_len;
        sides[1 - k].scalar_len = dealt.scalar_len;
    }
}

/* How many of `pairs` pass a check of `count` triples; both ends must find the same. */
static size_t passed(unsigned mixed, size_t pairs, size_t count)
{
    size_t result = 0;
    sides[0].run = sides[1].run = compare_and_check;
    sides[0].with = sides[1].with = &count;
    for (size_t k = 0; k < pairs; k++) {
        mixed_sides(mixed);
        run_both(sides);
        CHECK(sides[0].status.number == sides[1].status.number, "ends differ: %s", said(sides[0].status));
        CHECK(sides[0].status.number == 0 || sides[0].status.number == COMPANION_NOT_PAIRED, "%s", said(sides[0].status));
        result += sides[0].status.number == 0;
    }
    return result;
}

/* Within five standard deviations of what the header says. */
static void near(size_t pass, size_t pairs, double chance, const char *what)
{
    double off = (double)pass - chance * (double)pairs;
    CHECK(off * off < 25 * (double)pairs * chance * (1 - chance) + 1, "%s: %zu of %zu pass", what, pass, pairs);
}

void test_pairing(size_t count)
{
    size_t alone, second, both, half, part = count / 2;
    CHECK(passed(0, 20, 40) == 20, "pairs that were dealt together fail");
    CHECK(passed(1 + 2 * 0, count / 3, 40) + passed(2, count / 3, 40) + passed(3, count - 2 * (count / 3), 40) == 0, "mixed pairs pass");
    near(alone = passed(1, part, 1), part, 0.5, "first mixed");
    near(second = passed(2, part, 2), part, 0.25, "second mixed");
    near(both = passed(3, part, 3), part, 0.125, "both mixed");
    near(half = passed(4, part, 4), part, 0.31640625, "half of the outputs fit"); /* (3 / 4)^4 */
    printf("pairing: of %zu mixed pairs none passes a check of 40 triples; of %zu each, %zu pass with 1 triple, %zu with 2, %zu with 3;"
           " %zu with 4 where half of the outputs fit\n", count, part, alone, second, both, half);
}

/* What a side is given for a comparison that must fail. */
static void compare_only(struct side *side)
{
    side->status = open_side(side);
    if (side->status.number == 0)
        side->status = companion_compare_pair(&side->link, &side->pair);
    companion_close_pair(&side->pair);
}

/* With one record: the noise end's, or, where something is given, the scalar end's. */
static void compare_one(struct side *side)
{
    struct companion_end end;
    side->status = side->with == NULL ? companion_open(side->noise, side->noise_len, &end)
                                      : companion_open(side->scalar, side->scalar_len, &end);
    if (side->status.number == 0)
        side->status = companion_compare(&side->link, &end);
    companion_close(&end);
}

void test_heads(size_t count)
{
    static struct side others[2];
    struct companion_sizes sizes = small;
    (void)count;
    sides[0].run = sides[1].run = compare_only;
    for (int k = 0; k < 6; k++) {
        static const size_t changed[] = {0, 0, 0, 9, 3, 120};
        uint32_t due = k == 0 ? 0 : COMPANION_OTHER_DEALING;
        deal_sides(&small, 1, sides);
        sizes = small;
        *(k == 3 ? &sizes.depth : k == 4 ? &sizes.trees : &sizes.outputs) = k >= 3 ? changed[k] : small.outputs;
        deal_sides(&sizes, k == 2 ? 5 : 1, others); /* other code keys; another label; other sizes */
        if (k > 0) {
            memcpy(sides[1].noise, others[1].noise, sizeof sides[1].noise);
            sides[1].noise_len = others[1].noise_len;
        }
        if (k > 1) {
            memcpy(sides[1].scalar, others[1].scalar, sizeof sides[1].scalar);
            sides[1].scalar_len = others[1].scalar_len;
        }
        run_both(sides);
        EXPECT(due, sides[0].status);
        EXPECT(due, sides[1].status);
        if (k > 0) {
            static const char *const differ[] = {"", "is code key", "is code key, label; label", "is d, code key", "is t, code key",
                                                 "is n, code key"};
            SAYS(sides[0].status, "what differs is ");
            SAYS(sides[0].status, differ[k]);
        }
        CHECK(k != 2 || strstr(said(sides[0].status), "label 3 here, 11 there") != NULL, "%s", said(sides[0].status));
        CHECK(k != 2 || strstr(said(sides[1].status), "label 12 here, 4 there") != NULL, "%s", said(sides[1].status));
    }
    for (size_t k = 0; k < 4; k++) { /* in the label, or the code key, of one record alone */
        size_t place = (k % 2 == 0 ? 1 + 1 + 4 + 2 : 1 + 1 + 4 + 2 + 16) + draw(16);
        mixed_sides(0);
        (k < 2 ? sides[1].noise : sides[1].scalar)[place] ^= 0x40;
        run_both(sides);
        EXPECT(COMPANION_OTHER_DEALING, sides[0].status);
        EXPECT(COMPANION_OTHER_DEALING, sides[1].status);
    }
    deal_sides(&small, 1, sides); /* both are the same end */
    memcpy(&sides[1], &sides[0], sizeof sides[0]);
    run_both(sides);
    EXPECT(COMPANION_OTHER_DEALING, sides[0].status);
    for (int k = 0; k < 3; k++) { /* one record each: both ends of a dealing; the noise end twice; the scalar end twice */
        deal_sides(&small, 1, sides);
        sides[0].run = sides[1].run = compare_one;
        sides[0].with = k == 2 ? &sizes : NULL;
        sides[1].with = k == 1 ? NULL : &sizes;
        if (k > 0) {
            memcpy(sides[1].noise, sides[0].noise, sides[1].noise_len = sides[0].noise_len);
            memcpy(sides[1].scalar, sides[0].scalar, sides[1].scalar_len = sides[0].scalar_len);
        }
        run_both(sides);
        EXPECT(k == 0 ? 0 : COMPANION_OTHER_DEALING, sides[0].status);
        EXPECT(k == 0 ? 0 : COMPANION_OTHER_DEALING, sides[1].status);
        CHECK(k == 0 || strstr(said(sides[0].status), "or of the same end: what differs is end") != NULL, "%s", said(sides[0].status));
    }
    deal_sides(&small, 1, sides);
    EXPECT(COMPANION_WRONG_RECORD,
           companion_open_pair(sides[0].scalar, sides[0].scalar_len, sides[0].noise, sides[0].noise_len, &sides[0].pair));
    EXPECT(COMPANION_SAME_LABEL,
           companion_open_pair(sides[0].noise, sides[0].noise_len, sides[1].scalar, sides[1].scalar_len, &sides[0].pair));
    EXPECT(10, companion_open_pair(sides[0].noise, sides[0].noise_len, sides[0].scalar, 0, &sides[0].pair));
    EXPECT(0, open_side(&sides[0]));
    EXPECT(COMPANION_NOT_COMPARED, companion_add_triples(&sides[0].pair, 0, 1, &(struct companion_triples){0, NULL, 0}));
    companion_close_pair(&sides[0].pair);
    printf("heads: equal ones, and 14 kinds that do not fit\n");
}

static void open_windows(struct side *side)
{
    struct companion_triples triples = {0, NULL, 0}, other = {0, NULL, 0};
    side->status = open_side(side);
    if (side->status.number == 0)
        side->status = companion_compare_pair(&side->link, &side->pair);
    if (side->status.number == 0)
        side->status = companion_check(&side->link, &side->pair, 40, 20);
    if (side->status.number != 0)
        return;
    EXPECT(COMPANION_USED, companion_add_triples(&side->pair, 40, 20, &triples));
    EXPECT(COMPANION_USED, companion_add_triples(&side->pair, 59, 1, &triples));
    EXPECT(COMPANION_USED, companion_add_triples(&side->pair, 30, 11, &triples));
    EXPECT(COMPANION_USED, companion_add_triples(&side->pair, 0, 128, &triples));
    CHECK(triples.count == 0 && triples.bytes == NULL, "nothing was added");
    EXPECT(0, companion_add_triples(&side->pair, 50, 0, &triples));
    EXPECT(0, companion_add_triples(&side->pair, 30, 10, &triples));
    EXPECT(0, companion_add_triples(&side->pair, 60, 68, &triples));
    EXPECT(COMPANION_USED, companion_add_triples(&side->pair, 127, 1, &other)); /* for another run */
    EXPECT(COMPANION_USED, companion_add_triples(&side->pair, 30, 10, &triples)); /* for the same one */
    EXPECT(7, companion_add_triples(&side->pair, 127, 2, &other));
    companion_free_triples(&triples);
    EXPECT(COMPANION_USED, companion_add_triples(&side->pair, 35, 1, &triples));
    side->status = companion_check(&side->link, &side->pair, side->with == NULL ? 20 : 25, 10); /* of these, 25 to 29 at both */
    companion_close_pair(&side->pair);
}

static void check_twice(struct side *side)
{
    side->status = open_side(side);
    if (side->status.number == 0)
        side->status = companion_compare_pair(&side->link, &side->pair);
    if (side->status.number == 0)
        side->status = companion_check(&side->link, &side->pair, 0, 10);
    if (side->status.number == 0)
        side->status = companion_check(&side->link, &side->pair, side->with == NULL ? 9 : 10, 10);
    companion_close_pair(&side->pair);
}

/* Windows at random, against a plain list of what was taken. */
void test_windows(size_t count)
{
    struct companion_triples triples = {0, NULL, 0};
    static uint8_t taken[EXPANDER_OUTPUTS_MAX];
    size_t refused = 0, given = 0;
    deal_sides(&small, 1, sides);
    sides[0].run = sides[1].run = open_windows;
    sides[0].with = sides[1].with = NULL;
    run_both(sides);
    EXPECT(0, sides[0].status);
    EXPECT(0, sides[1].status);
    deal_sides(&small, 1, sides);
    sides[0].run = sides[1].run = check_twice;
    sides[0].with = &triples; /* this end asks for a fresh window, and the other does not */
    run_both(sides);
    EXPECT(COMPANION_USED, sides[1].status);
    EXPECT_FAR(COMPANION_USED, sides[0].status);
    for (size_t turn = 0; turn < count; turn++) {
        deal_sides(&small, 1, sides);
        EXPECT(0, open_side(&sides[0]));
        sides[0].pair.compared = 1;
        memset(taken, 0, sizeof taken);
        for (size_t step = 0; step < 40; step++) {
            size_t first = draw(sides[0].pair.outputs), many = draw(12), before = 0;
            int past = first + many > sides[0].pair.outputs;
            for (size_t k = first; k < first + many; k++)
                before += taken[k];
            EXPECT(past ? 7 : before > 0 ? COMPANION_USED : 0, companion_add_triples(&sides[0].pair, first, many, &triples));
            for (size_t k = first; k < first + many && !past && before == 0; k++)
                taken[k] = 1;
            refused += before > 0;
            given += !past && before == 0;
        }
        companion_free_triples(&triples);
        companion_close_pair(&sides[0].pair);
        CHECK(sides[0].pair.used[0] == 0, "what is closed is all 0");
    }
    printf("windows: %zu are given once, %zu that were given in part before are refused\n", given, refused);
}
