/* Circuits: what is built, counted and evaluated. */
#include "sections.h"

enum { WIDTH_MAX = 80, BITS_MAX = 2 * WIDTH_MAX };

void random_bits(uint8_t *bits, size_t count)
{
    for (size_t k = 0; k < count; k++)
        bits[k] = (uint8_t)draw(2);
}

/* Sums and orders of numbers in bits, as one does them by hand. */
static void plain_sum(const uint8_t *a, const uint8_t *b, size_t width, uint8_t *sum)
{
    unsigned carry = 0;
    for (size_t k = 0; k < width; k++) {
        carry += (unsigned)a[k] + b[k];
        sum[k] = carry & 1;
        carry >>= 1;
    }
    sum[width] = (uint8_t)carry;
}

static int plain_order(const uint8_t *a, const uint8_t *b, size_t width)
{
    for (size_t k = width; k-- > 0;)
        if (a[k] != b[k])
            return a[k] < b[k] ? -1 : 1;
    return 0;
}

static size_t log2_up(size_t n)
{
    size_t bits = 0;
    while ((size_t)1 << bits < n)
        bits++;
    return bits;
}

/* A circuit with one subject, and inputs of two words; values are in `bits`. */
static struct companion_circuit built;

static void begin_words(size_t width, companion_wire *a, companion_wire *b)
{
    memset(&built, 0, sizeof built);
    companion_input(&built, COMPANION_ROLE_1, a, width);
    companion_input(&built, COMPANION_ROLE_2, b, width);
}

static void count_is(size_t ands, size_t rounds, const char *what)
{
    struct expander_described_circuit counts;
    EXPECT(0, companion_count(&built, &counts));
    CHECK(counts.ands == ands && counts.rounds == rounds, "%s: %zu ANDs and %zu rounds where %zu and %zu are due", what, counts.ands,
          counts.rounds, ands, rounds);
}

static void try_words(int form, size_t width)
{
    companion_wire a[WIDTH_MAX], b[WIDTH_MAX], out[WIDTH_MAX + 1], less, equal;
    uint8_t bits[BITS_MAX], got[WIDTH_MAX + 1], due[WIDTH_MAX + 1];
    size_t flat_rounds = 2 + log2_up(width);
    begin_words(width, a, b);
    companion_sum(&built, form, a, b, width, out);
    companion_output(&built, COMPANION_BOTH, out, width + 1);
    if (form == COMPANION_RIPPLE)
        count_is(width, width + 1, "ripple sum");
    else
        CHECK(companion_count(&built, &(struct expander_described_circuit){0, 0, 0, 0, 0, 0}).number == 0, "flat sum");
    for (int turn = 0; turn < 8; turn++) {
        random_bits(bits, 2 * width);
        memset(bits, turn == 0, turn < 2 ? width : 0);
        plain_sum(bits, bits + width, width, due);
        EXPECT(0, companion_evaluate(&built, bits, got));
        CHECK(memcmp(got, due, width + 1) == 0, "a sum of width %zu", width);
    }

    begin_words(width, a, b);
    companion_difference(&built, form, a, b, width, out);
    companion_output(&built, COMPANION_BOTH, out, width + 1);
    for (int turn = 0; turn < 8; turn++) {
        random_bits(bits, 2 * width);
        if (turn == 0)
            memcpy(bits, bits + width, width);
        EXPECT(0, companion_evaluate(&built, bits, got));
        plain_sum(got, bits + width, width, due); /* difference + b is a */
        CHECK(memcmp(due, bits, width) == 0 && got[width] == (plain_order(bits, bits + width, width) < 0), "a difference of width %zu",
              width);
    }

    begin_words(width, a, b);
    less = companion_less(&built, form, a, b, width);
    companion_output(&built, COMPANION_BOTH, &less, 1);
    if (form == COMPANION_RIPPLE)
        count_is(width, width + 1, "ripple less");
    else {
        struct expander_described_circuit counts;
        EXPECT(0, companion_count(&built, &counts));
        CHECK(counts.rounds == flat_rounds && counts.ands <= 3 * width, "flat less: %zu rounds, %zu ANDs", counts.rounds, counts.ands);
    }
    equal = companion_equal(&built, a, b, width);
    companion_output(&built, COMPANION_BOTH, &equal, 1);
    companion_select(&built, less, a, b, width, out);
    companion_output(&built, COMPANION_BOTH, out, width);
    for (int turn = 0; turn < 8; turn++) {
        int order;
        random_bits(bits, 2 * width);
        if (turn < 2)
            memcpy(bits, bits + width, width);
        bits[0] = turn == 1 ? bits[0] ^ 1 : bits[0];
        order = plain_order(bits, bits + width, width);
        EXPECT(0, companion_evaluate(&built, bits, got));
        CHECK(got[0] == (order < 0) && got[1] == (order == 0), "an order of width %zu", width);
        EXPECT(0, companion_evaluate(&built, bits, got)); /* the lesser one */
        CHECK(memcmp(got + 2, order < 0 ? bits : bits + width, width - 1) == 0, "a selection of width %zu", width);
    }
}

static void try_least(int form, size_t n, size_t width)
{
    companion_wire words[256], least[16], number[8];
    uint8_t bits[256], got[24];
    size_t best = 0, len = log2_up(n);
    memset(&built, 0, sizeof built);
    for (size_t k = 0; k < n; k++)
        companion_input(&built, (uint8_t)(1 + k % 2), words + k * width, width);
    companion_least(&built, form, words, n, width, least, number);
    companion_output(&built, COMPANION_BOTH, least, width);
    if (len > 0)
        companion_output(&built, COMPANION_BOTH, number, len);
    for (int turn = 0; turn < 6; turn++) {
        random_bits(bits, n * width);
        for (size_t k = best = 0; k < n; k++)
            if (plain_order(bits + k * width, bits + best * width, width) < 0)
                best = k;
        EXPECT(0, companion_evaluate(&built, bits, got));
        CHECK(memcmp(got, bits + best * width, width) == 0 && companion_from_bits(got + width, len) == best, "the least of %zu", n);
    }
    if (n == 8 && width == 8)
        printf("circuits: the least of 8 words of 8 bits has %s form: ", form == COMPANION_FLAT ? "flat" : "ripple");
    if (n == 8 && width == 8) {
        struct expander_described_circuit counts;
        EXPECT(0, companion_count(&built, &counts));
        printf("%zu ANDs, %zu rounds\n", counts.ands, counts.rounds);
    }
}

void random_circuit(struct companion_circuit *circuit, size_t gates)
{
    companion_wire word[64];
    memset(circuit, 0, sizeof *circuit);
    for (size_t k = 1 + draw(4); k > 0; k--) {
        size_t width = 1 + draw(12);
        companion_input(circuit, (uint8_t)(1 + draw(2)), word, width);
    }
    while (circuit->gates < gates) {
        uint64_t made = circuit->inputs + circuit->gates, kind = draw(16);
        companion_wire a = (companion_wire)draw(made), b = (companion_wire)draw(made);
        if (kind == 0)
            companion_bit(circuit, (unsigned)draw(2));
        if (kind < 6)
            companion_and(circuit, a, b);
        else if (kind < 12)
            companion_xor(circuit, a, b);
        else
            companion_not(circuit, a);
    }
    for (size_t k = 1 + draw(4); k > 0; k--) {
        size_t width = 1 + draw(12);
        for (size_t bit = 0; bit < width; bit++)
            word[bit] = (companion_wire)draw(circuit->inputs + circuit->gates);
        companion_output(circuit, (uint8_t)(1 + draw(3)), word, width);
    }
    CHECK(circuit->fault == 0, "a random circuit has a fault");
}

static void try_faults_of_building(void)
{
    companion_wire word[8], many[4096], sum[4097];
    static uint8_t bytes[COMPANION_CIRCUIT_MAX];
    size_t written;
    struct { uint32_t due; int kind; } cases[] = {
        {COMPANION_BAD_WORD, 0}, {COMPANION_BAD_WORD, 1}, {COMPANION_LATE_INPUT, 2}, {COMPANION_WIRES, 3}, {COMPANION_WIRES, 4},
        {COMPANION_OUTPUTS, 5}, {COMPANION_BAD_WIRE, 6}, {COMPANION_BAD_WIRE, 7}, {COMPANION_BAD_WORD, 8}, {COMPANION_BAD_WORD, 9},
        {COMPANION_BAD_WORD, 10}, {COMPANION_BAD_WIRE, 11}, {COMPANION_BAD_WORD, 12}};
    memset(many, 0, sizeof many);
    for (size_t k = 0; k < sizeof cases / sizeof *cases; k++) {
        memset(&built, 0, sizeof built);
        if (cases[k].kind != 11)
            companion_input(&built, COMPANION_ROLE_1, word, 8);
        switch (cases[k].kind) {
        case 0: companion_input(&built, COMPANION_ROLE_1, word, 0); break;
        case 1: companion_input(&built, COMPANION_BOTH, word, 1); break;
        case 2: companion_input(&built, COMPANION_ROLE_2, word, (companion_xor(&built, 0, 1), 1)); break;
        case 3: companion_input(&built, COMPANION_ROLE_2, many, 4089 - 8 + 8); break;
        case 4: while (built.fault == 0) companion_and(&built, 0, 1); break;
        case 5: companion_output(&built, COMPANION_BOTH, many, 4096); companion_output(&built, COMPANION_BOTH, word, 1); break;
        case 6: companion_and(&built, 8, 0); break;
        case 7: word[3] = 9; companion_output(&built, COMPANION_BOTH, word, 8); break;
        case 8: companion_output(&built, COMPANION_SHARED + 1, word, 8); break;
        case 9: companion_sum(&built, COMPANION_FLAT, word, word, 0, sum); break;
        case 10: companion_least(&built, COMPANION_FLAT, word, 0, 1, sum, sum + 1); break;
        case 11: companion_bit(&built, 1); break;
        default: companion_least(&built, COMPANION_FLAT, many, 4096, 1, sum, sum + 100); break;
        }
        CHECK(built.fault == cases[k].due, "kind %d: fault %u", cases[k].kind, (unsigned)built.fault);
        EXPECT(cases[k].due, companion_write(&built, bytes, sizeof bytes, &written));
        EXPECT(cases[k].due, companion_evaluate(&built, bytes, bytes));
        CHECK(companion_and(&built, 0, 0) == 0 && written == 0, "after a fault nothing is made");
    }
    memset(&built, 0, sizeof built);
    companion_input(&built, COMPANION_ROLE_1, word, 8);
    EXPECT(17, companion_count(&built, &(struct expander_described_circuit){0, 0, 0, 0, 0, 0})); /* no outputs */
    companion_output(&built, COMPANION_BOTH, word, 8);
    EXPECT(COMPANION_NO_ROOM, companion_write(&built, bytes, 10, &written));
    EXPECT(0, companion_write(&built, bytes, 11, &written));
    memset(bytes, 2, 8);
    EXPECT(COMPANION_NOT_BITS, companion_evaluate(&built, bytes, bytes + 8));
}

/* A gate that a constant settles costs nothing. */
static void try_constants(void)
{
    companion_wire a[16], c[16], sum[17], less;
    uint8_t bits[16], got[18];
    memset(&built, 0, sizeof built);
    companion_input(&built, COMPANION_ROLE_1, a, 16);
    companion_constant(&built, 1000, c, 16);
    companion_sum(&built, COMPANION_FLAT, a, c, 16, sum);
    less = companion_less(&built, COMPANION_RIPPLE, a, c, 16);
    companion_output(&built, COMPANION_BOTH, sum, 17);
    companion_output(&built, COMPANION_BOTH, &less, 1);
    for (int turn = 0; turn < 50; turn++) {
        uint64_t value = turn == 0 ? 1000 : turn == 1 ? 999 : draw(turn % 2 ? 65536 : 2000);
        companion_to_bits(value, bits, 16);
        EXPECT(0, companion_evaluate(&built, bits, got));
        CHECK(companion_from_bits(got, 17) == value + 1000 && got[17] == (value < 1000), "sums with a constant");
    }
    CHECK(companion_and(&built, c[0], a[1]) == c[0] && companion_xor(&built, c[0], a[1]) == a[1], "constants fold");
}

void test_circuits(size_t count)
{
    for (size_t width = 1; width <= WIDTH_MAX - 10; width++)
        for (int form = COMPANION_RIPPLE; form <= COMPANION_FLAT; form++)
            try_words(form, width);
    for (size_t n = 1; n <= 17; n++)
        for (int form = COMPANION_RIPPLE; form <= COMPANION_FLAT; form++)
            try_least(form, n, n == 8 ? 8 : 1 + draw(10));
    for (size_t width = 8; width <= 64; width *= 2) {
        companion_wire a[64], b[64], out[65];
        struct expander_described_circuit counts;
        begin_words(width, a, b);
        companion_sum(&built, COMPANION_FLAT, a, b, width, out);
        companion_output(&built, COMPANION_BOTH, out, width + 1);
        EXPECT(0, companion_count(&built, &counts));
        CHECK(counts.rounds == 2 + log2_up(width), "a flat sum of %zu bits has %zu rounds", width, counts.rounds);
        printf("circuits: a flat sum of %zu bits has %zu ANDs and %zu rounds; ripple, %zu and %zu\n", width, counts.ands, counts.rounds,
               width, width + 1);
    }
    try_faults_of_building();
    try_constants();
    (void)count;
}
