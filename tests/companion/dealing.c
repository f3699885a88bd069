/* Dealing and ends. */
#include "sections.h"

static void try_window(const struct companion_end *noise, const struct companion_end *scalar, size_t first, size_t count)
{
    struct companion_window n, s;
    size_t width = noise->head.element_words;
    EXPECT(0, companion_expand(noise, first, count, &n));
    EXPECT(0, companion_expand(scalar, first, count, &s));
    CHECK((n.pads != NULL) == (noise->head.field == 1) && s.u == NULL && s.choices == NULL, "members of a window");
    for (size_t k = 0; k < count; k++) {
        if (noise->head.field == EXPANDER_PRIME) {
            CHECK(s.elements[k] == times_plus(scalar->delta[0], n.u[k], n.elements[k]), "w = Delta u + v");
            continue;
        }
        for (size_t word = 0; word < width; word++)
            CHECK(s.elements[2 * k + word] == (n.elements[2 * k + word] ^ (n.u[k] ? scalar->delta[word] : 0)), "w = Delta u + v");
        CHECK(n.choices[k] == n.u[k] && memcmp(n.pads + 16 * k, s.pads + 32 * k + 16 * n.choices[k], 16) == 0, "pads");
    }
    companion_free_window(&n);
    companion_free_window(&s);
    companion_free_window(&s);
}

static void try_dealing(const struct companion_sizes *sizes)
{
    static struct companion_dealt dealt;
    struct companion_end noise, scalar, none;
    size_t n = sizes->outputs, first = draw(n + 1);
    EXPECT(0, companion_deal(sizes, companion_label(draw(1000)), &dealt));
    EXPECT(0, companion_open(dealt.noise, dealt.noise_len, &noise));
    EXPECT(0, companion_open(dealt.scalar, dealt.scalar_len, &scalar));
    EXPECT(10, companion_open(dealt.scalar, dealt.scalar_len - 1, &none));
    CHECK(none.record == NULL && none.head.number == 0, "what is not opened is all 0");
    CHECK(noise.head.depth == sizes->depth && noise.head.outputs == n && scalar.head.trees == sizes->trees, "heads");
    try_window(&noise, &scalar, 0, n);
    try_window(&noise, &scalar, first, draw(n - first + 1));
    EXPECT(7, companion_expand(&noise, 1, n, &(struct companion_window){0, 0, 0, 0, 0, 0}));
    EXPECT(7, companion_expand(&scalar, SIZE_MAX, SIZE_MAX, &(struct companion_window){0, 0, 0, 0, 0, 0}));
    companion_close(&noise);
    companion_close(&scalar);
    companion_close(&scalar);
}

/* Each place is as often in a choice as it should be, and so is each pair of places. */
static void try_positions(size_t count)
{
    enum { PLACES = 8, TREES = 3 };
    static struct companion_dealt dealt;
    const struct companion_sizes sizes = {EXPANDER_BINARY, 3, 1, TREES, 1, 4};
    double seen[PLACES][PLACES] = {{0}}, due, spread;
    for (size_t k = 0; k < count; k++) {
        struct companion_end end;
        int noise[PLACES];
        EXPECT(0, companion_deal(&sizes, companion_label(k), &dealt));
        EXPECT(0, companion_open(dealt.noise, dealt.noise_len, &end));
        for (size_t place = 0; place < PLACES; place++)
            noise[place] = (int)(end.noise[place] ^ (place > 0 ? end.noise[place - 1] : 0));
        for (size_t a = 0; a < PLACES; a++)
            for (size_t b = 0; b <= a; b++)
                seen[a][b] += noise[a] & noise[b];
        companion_close(&end);
    }
    for (size_t a = 0; a < PLACES; a++)
        for (size_t b = 0; b <= a; b++) {
            double chance = a == b ? 3.0 / 8 : 3.0 / 28, off;
            due = chance * (double)count;
            spread = due * (1 - chance);
            off = seen[a][b] - due;
            CHECK(off * off < 30 * spread, "places %zu and %zu: %.0f times where %.0f are due", a, b, seen[a][b], due);
        }
}

/* Each bit of Delta and of a noise value is 1 as often as not. */
static void try_values(size_t count)
{
    static struct companion_dealt dealt;
    const struct companion_sizes sizes = {EXPANDER_PRIME, 1, 1, 1, 1, 1};
    double seen[2][61] = {{0}};
    for (size_t k = 0; k < count; k++) {
        struct companion_end noise, scalar;
        EXPECT(0, companion_deal(&sizes, companion_label(k), &dealt));
        EXPECT(0, companion_open(dealt.noise, dealt.noise_len, &noise));
        EXPECT(0, companion_open(dealt.scalar, dealt.scalar_len, &scalar));
        CHECK(scalar.delta[1] == 0 && scalar.delta[0] < EXPANDER_MODULUS, "Delta of field 2");
        for (size_t bit = 0; bit < 61; bit++) {
            seen[0][bit] += (double)(noise.noise[1] >> bit & 1);
            seen[1][bit] += (double)(scalar.delta[0] >> bit & 1);
        }
        companion_close(&noise);
        companion_close(&scalar);
    }
    for (size_t k = 0; k < 2 * 61; k++) {
        double off = seen[k / 61][k % 61] - (double)count / 2;
        CHECK(off * off < 30 * (double)count / 4, "bit %zu is 1 in %.0f of %zu", k % 61, seen[k / 61][k % 61], count);
    }
}

void test_dealing(size_t count)
{
    static struct companion_dealt dealt;
    static const struct companion_sizes bad[] = {
        {0, 4, 1, 2, 2, 4}, {3, 4, 1, 2, 2, 4}, {1, 0, 1, 1, 1, 1}, {1, 17, 1, 2, 2, 4}, {1, 64, 1, 2, 2, 4}, {1, 4, 3, 2, 2, 4},
        {1, 4, 0, 2, 2, 4}, {1, 4, 1, 0, 2, 4}, {1, 4, 1, 17, 2, 4}, {1, 8, 1, 65, 2, 4}, {2, 4, 1, 2, 17, 4}, {2, 4, 1, 2, 2, 9},
        {1, SIZE_MAX, 1, SIZE_MAX, 2, 4}, {1, 4, 1, 2, 2, SIZE_MAX}};
    for (size_t k = 0; k < count; k++) {
        struct companion_sizes sizes = random_sizes();
        try_dealing(&sizes);
    }
    for (size_t k = 0; k < sizeof bad / sizeof *bad; k++) {
        EXPECT(k < 2 ? 1 : 2, companion_deal(&bad[k], companion_label(1), &dealt));
        CHECK(dealt.noise_len == 0 && dealt.noise[0] == 0, "nothing is dealt");
    }
    for (int field = 1; field <= 2; field++) { /* zeros are drawn for roots, code key, a place, values and Delta, and more */
        struct companion_sizes sizes = {(uint8_t)field, 4, 1, 1, 2, 4};
        for (zeros = 1; zeros < 9;) {
            int left = zeros;
            EXPECT(0, companion_deal(&sizes, companion_label(1), &dealt));
            zeros = left + 1;
        }
        zeros = 0;
    }
    try_positions(20 * count);
    try_values(4 * count);
    printf("dealing: %zu dealings of random sizes, %zu more for the places, %zu for the values\n", count, 20 * count, 4 * count);
}
