/* Measures for docs/SIZES.md, on rows that the library gives; tools/sizes compiles and calls it.
 *
 *   sizes pair   SIZES                the lightest sum of two rows: x, x', weight; the lightest row: x, weight
 *   sizes every  SIZES                every sum of two rows by a plain count: x, x', weight
 *   sizes rows   SIZES                the places of every row
 *   sizes merged SIZES FIELD ROWS CHECKS
 *                                     rows that lie close together, at least ROWS: their number, and how
 *                                     many places a trial with them keeps
 *   sizes bias   SIZES T SAMPLES      the lightest pair's weight, the mean of (-1)^(u_x + u_x') over
 *                                     dealings, and in how many of them the library's calls were asked
 *   sizes layers SIZES FIELD T T' SAMPLES
 *                                     a word's weight, the lightest pair's or in field 2 the lightest row's,
 *                                     and its excess in each of two layers and in their sum, over sources
 *                                     that the library deals, expands and adds up
 *   sizes least  L OUTPUTS TRIALS     for the codes of a source: the mean of the least weight of a row
 *
 * SIZES stands for D L OUTPUTS KEY.
 * KEY is 32 hexadecimal digits. In field 1 online adds what stands at a row's places. So vectors that
 * hold in strip i each place's own number, and 0 elsewhere, give term i's place of every row; a block
 * of 16 bytes has room for seven strips.
 */
#include "expander.h"

#include <emmintrin.h>
#include <stdio.h>
#include <stdlib.h>
#include <string.h>

__extension__ typedef unsigned __int128 wide;

enum {
    LEAVES = EXPANDER_LEAVES_MAX, TERMS = EXPANDER_TERMS_MAX, OUTPUTS = EXPANDER_OUTPUTS_MAX,
    NUMBER_BITS = EXPANDER_DEPTH_MAX + 1, /* of a place, counted from 1 */
    A_BLOCK = 128 / NUMBER_BITS,          /* strips that a block serves */
    LANES = 8                             /* rows that are compared at a time */
};

/* Stops the compiler where a limit of expander.h no longer fits what is built on it here. */
#define LIMIT(name, holds) typedef char name[(holds) ? 1 : -1]
LIMIT(a_place_has_its_bits, LEAVES == 1 << EXPANDER_DEPTH_MAX && NUMBER_BITS < 32);
LIMIT(an_offset_has_sixteen_bits, LEAVES - 1 <= 0xffff);

/* A limit of expander.h as it stands in a text. */
#define SAY_AS_IT_IS(number) #number
#define SAY(limit) SAY_AS_IT_IS(limit)

static unsigned field = EXPANDER_BINARY, depth, terms, outputs, leaves, strip;
static uint8_t code_key[16], zeros[16];
static uint16_t offset[TERMS][OUTPUTS + LANES]; /* of each term's place from its strip's start */
static uint8_t noise_record[EXPANDER_NOISE_RECORD_MAX], scalar_record[EXPANDER_SCALAR_RECORD_MAX];
static size_t noise_len, scalar_len;

static void stop(const char *what)
{
    fprintf(stderr, "sizes: %s\n", what);
    exit(1);
}

static void accepted(uint32_t number)
{
    if (number != EXPANDER_ACCEPTED) {
        fprintf(stderr, "sizes: a call was refused with %u\n", number);
        exit(1);
    }
}

/* ---- Random numbers, the same in every run: SplitMix64 ---- */

static uint64_t state = 44;

static uint64_t draw(void)
{
    uint64_t z = state += 0x9e3779b97f4a7c15u;
    z = (z ^ z >> 30) * 0xbf58476d1ce4e5b9u;
    z = (z ^ z >> 27) * 0x94d049bb133111ebu;
    return z ^ z >> 31;
}

static uint32_t draw_below(uint32_t bound)
{
    return (uint32_t)((draw() >> 32) * bound >> 32);
}

/* ---- Rows ---- */

static void deal(size_t trees, const uint32_t *positions)
{
    static uint8_t roots[16 * EXPANDER_TREES_MAX];
    uint64_t values[EXPANDER_TREES_MAX];
    uint8_t delta[16] = {1};
    for (size_t k = 0; k < trees; k++) {
        uint64_t word = draw();
        memcpy(roots + 16 * k, &word, sizeof word);
        values[k] = field == EXPANDER_BINARY ? 1 : 1 + draw() % (EXPANDER_MODULUS - 1);
    }
    struct expander_two_lengths r = expander_deal(
        (uint8_t)field, depth, 1, trees, terms, outputs, roots, 16 * trees, positions, trees,
        values, trees, delta, 16, code_key, 16, zeros, 16, noise_record, sizeof noise_record,
        scalar_record, sizeof scalar_record);
    accepted(r.number);
    noise_len = r.first_written;
    scalar_len = r.second_written;
}

static void ask_rows(void)
{
    static uint64_t vector[2 * LEAVES], out[2 * OUTPUTS];
    uint32_t position = 0;
    deal(1, &position);
    for (unsigned first = 0; first < terms; first += A_BLOCK) {
        unsigned count = terms - first < A_BLOCK ? terms - first : A_BLOCK;
        memset(vector, 0, sizeof vector);
        for (unsigned k = 0; k < count; k++)
            for (unsigned j = 0; j < strip; j++) {
                wide number = (wide)(j + 1) << NUMBER_BITS * k;
                size_t place = (size_t)(first + k) * strip + j;
                vector[2 * place] = (uint64_t)number;
                vector[2 * place + 1] = (uint64_t)(number >> 64);
            }
        accepted(expander_scalar_online(scalar_record, scalar_len, vector, 2 * (size_t)leaves, 0,
                                        outputs, out, 2 * (size_t)outputs).number);
        for (unsigned x = 0; x < outputs; x++) {
            wide block = (wide)out[2 * x + 1] << 64 | out[2 * x];
            for (unsigned k = 0; k < count; k++) {
                uint32_t number = (uint32_t)(block >> NUMBER_BITS * k) & ((1u << NUMBER_BITS) - 1);
                if (number == 0 || number > strip)
                    stop("a row has no place in a strip");
                offset[first + k][x] = (uint16_t)(number - 1);
            }
        }
    }
}

static void print_rows(void)
{
    for (unsigned x = 0; x < outputs; x++)
        for (unsigned i = 0; i < terms; i++)
            printf("%u%c", i * strip + offset[i][x], i + 1 < terms ? ' ' : '\n');
}

/* ---- Pairs ---- */

struct pair {
    unsigned x, y, weight;
};

/* The lightest sum of rows x and y, x below y; of equal ones the first. Sums stay below 2^16, since
 * terms * (strip - 1) does. */
static struct pair lightest_pair(void)
{
    struct pair best = {0, 0, UINT16_MAX + 1};
    for (unsigned y = outputs; y < outputs + LANES; y++)
        for (unsigned i = 0; i < terms; i++)
            offset[i][y] = 0;
    for (unsigned x = 0; x + 1 < outputs; x++) {
        __m128i own[TERMS];
        for (unsigned i = 0; i < terms; i++)
            own[i] = _mm_set1_epi16((short)offset[i][x]);
        for (unsigned y = x + 1; y < outputs; y += LANES) {
            __m128i sum = _mm_setzero_si128();
            for (unsigned i = 0; i < terms; i++) {
                __m128i far = _mm_loadu_si128((const __m128i *)(const void *)&offset[i][y]);
                sum = _mm_add_epi16(sum, _mm_or_si128(_mm_subs_epu16(own[i], far),
                                                      _mm_subs_epu16(far, own[i])));
            }
            uint16_t weight[LANES];
            _mm_storeu_si128((__m128i *)(void *)weight, sum);
            for (unsigned k = 0; k < LANES && y + k < outputs; k++)
                if (weight[k] < best.weight)
                    best = (struct pair){x, y + k, weight[k]};
        }
    }
    return best;
}

/* The lightest row. Its word is set between its terms from the top down by twos. */
static struct pair lightest_row(void)
{
    struct pair best = {0, 0, UINT32_MAX};
    for (unsigned x = 0; x < outputs; x++) {
        unsigned weight = 0, before = 0;
        for (unsigned i = 0; i < terms; i++) {
            unsigned end = i * strip + offset[i][x] + 1;
            if ((terms - i) % 2 == 1)
                weight += end - before;
            before = end;
        }
        if (weight < best.weight)
            best = (struct pair){x, x, weight};
    }
    return best;
}

/* The places j at which rows x and y together have an odd number of terms at j or above. */
static void word_of(unsigned x, unsigned y, uint8_t *word)
{
    memset(word, 0, leaves);
    for (unsigned i = 0; i < terms; i++) {
        word[i * strip + offset[i][x]] ^= 1;
        word[i * strip + offset[i][y]] ^= 1;
    }
    for (unsigned j = leaves - 1; j-- > 0;)
        word[j] ^= word[j + 1];
}

static unsigned weight_of(const uint8_t *word)
{
    unsigned weight = 0;
    for (unsigned j = 0; j < leaves; j++)
        weight += word[j];
    return weight;
}

static void print_every_pair(void)
{
    static uint8_t word[LEAVES];
    for (unsigned x = 0; x < outputs; x++)
        for (unsigned y = x + 1; y < outputs; y++) {
            word_of(x, y, word);
            printf("%u %u %u\n", x, y, weight_of(word));
        }
}

/* ---- Dealings ---- */

static int rising(const void *a, const void *b)
{
    uint32_t p = *(const uint32_t *)a, q = *(const uint32_t *)b;
    return (p > q) - (p < q);
}

/* u_x + u_y of a dealing with these places of noise, by the library: deal, offline, online. */
static unsigned ask_sum(unsigned x, unsigned y, uint32_t *positions, unsigned trees)
{
    static uint64_t noise[LEAVES], v[2 * LEAVES];
    uint64_t u[2], v_out[2];
    qsort(positions, trees, sizeof *positions, rising);
    deal(trees, positions);
    accepted(expander_noise_offline(noise_record, noise_len, noise, leaves, v,
                                    2 * (size_t)leaves).number);
    for (unsigned k = 0; k < 2; k++)
        accepted(expander_noise_online(noise_record, noise_len, noise, leaves, v,
                                       2 * (size_t)leaves, k == 0 ? x : y, 1, u + k, 1, v_out,
                                       2).number);
    return (unsigned)(u[0] ^ u[1]);
}

/* Noise places are drawn anew for each dealing. u_x + u_y is the number of them in the pair's word,
 * modulo 2; in the first ASKED dealings the library's calls must say so too. */
static void print_bias(unsigned trees, unsigned long samples)
{
    enum { ASKED = 64 };
    static uint8_t word[LEAVES];
    static uint32_t met[LEAVES]; /* the last dealing in which a place was drawn */
    struct pair p = lightest_pair();
    long long sum = 0;
    word_of(p.x, p.y, word);
    for (unsigned long s = 1; s <= samples; s++) {
        uint32_t positions[EXPANDER_TREES_MAX];
        unsigned odd = 0;
        for (unsigned k = 0; k < trees;) {
            uint32_t place = draw_below(leaves);
            if (met[place] == s)
                continue;
            met[place] = (uint32_t)s;
            positions[k++] = place;
            odd ^= word[place];
        }
        if (s <= ASKED && ask_sum(p.x, p.y, positions, trees) != odd)
            stop("the library's outputs differ from the word's");
        sum += odd ? -1 : 1;
    }
    printf("%u %.9f %d\n", p.weight, (double)sum / (double)samples, ASKED);
}

/* ---- Layers ---- */

static uint64_t layer_noise[2][LEAVES], layer_v[2][2 * LEAVES]; /* of each layer; the second becomes their sum */

/* A layer with places drawn at random, dealt and expanded by the library. */
static void expand_layer(unsigned trees, uint64_t *noise, uint64_t *v, size_t v_len)
{
    static uint32_t met[LEAVES], layer; /* the last layer in which a place was drawn */
    uint32_t positions[EXPANDER_TREES_MAX];
    layer++;
    for (unsigned k = 0; k < trees;) {
        uint32_t place = draw_below(leaves);
        if (met[place] != layer)
            positions[k++] = place;
        met[place] = layer;
    }
    qsort(positions, trees, sizeof *positions, rising);
    deal(trees, positions);
    accepted(expander_noise_offline(noise_record, noise_len, noise, leaves, v, v_len).number);
}

/* What the excess is the mean of: in field 1 -1 to u_x + u_y, in field 2 whether u_x is 0. */
static int seen(unsigned x, unsigned y, const uint64_t *noise, const uint64_t *v, size_t v_len)
{
    uint64_t u[2] = {0, 0}, v_out[2];
    for (unsigned k = 0; k < (field == EXPANDER_BINARY ? 2u : 1u); k++)
        accepted(expander_noise_online(noise_record, noise_len, noise, leaves, v, v_len, k == 0 ? x : y, 1,
                                       u + k, 1, v_out, 2).number);
    return field == EXPANDER_BINARY ? (u[0] == u[1] ? 1 : -1) : u[0] == 0;
}

/* In field 2 a row's word is not 0 from place 0 to its highest place, which is its last term's. */
static struct pair lightest_prime_row(void)
{
    struct pair best = {0, 0, UINT32_MAX};
    for (unsigned x = 0; x < outputs; x++) {
        unsigned weight = (terms - 1) * strip + offset[terms - 1][x] + 1;
        if (weight < best.weight)
            best = (struct pair){x, x, weight};
    }
    return best;
}

static void print_layers(unsigned of_field, const unsigned *trees, unsigned long samples)
{
    struct pair p = of_field == EXPANDER_BINARY ? lightest_pair() : lightest_prime_row();
    size_t v_len = (size_t)leaves * (unsigned)EXPANDER_ELEMENT_WORDS(of_field);
    long long sum[3] = {0, 0, 0};
    field = of_field;
    for (unsigned long s = 0; s < samples; s++) {
        for (unsigned k = 0; k < 2; k++) {
            expand_layer(trees[k], layer_noise[k], layer_v[k], v_len);
            sum[k] += seen(p.x, p.y, layer_noise[k], layer_v[k], v_len);
        }
        accepted(expander_add((uint8_t)field, layer_noise[0], leaves, layer_noise[1], leaves).number);
        accepted(expander_add((uint8_t)field, layer_v[0], v_len, layer_v[1], v_len).number);
        sum[2] += seen(p.x, p.y, layer_noise[1], layer_v[1], v_len);
    }
    printf("%u", p.weight);
    for (unsigned k = 0; k < 3; k++)
        printf(" %.9f", (double)sum[k] / (double)samples);
    putchar('\n');
}

/* ---- Rows that lie close together ---- */

static unsigned chosen[OUTPUTS]; /* rows, the closest to the centre first */
static uint64_t distance[OUTPUTS];

static int closer(const void *a, const void *b)
{
    unsigned x = *(const unsigned *)a, y = *(const unsigned *)b;
    return distance[x] != distance[y] ? (distance[x] > distance[y]) - (distance[x] < distance[y])
                                      : (x > y) - (x < y);
}

/* Puts the rows in order: each term's distance from the centre, as a share of the strip, to the
 * given power, and of these the sum. */
static void order_by(const uint32_t *centre, unsigned power)
{
    for (unsigned x = 0; x < outputs; x++) {
        chosen[x] = x;
        distance[x] = 0;
        for (unsigned i = 0; i < terms; i++) {
            uint64_t gap = offset[i][x] > centre[i] ? offset[i][x] - centre[i] : centre[i] - offset[i][x];
            uint64_t factor = 1;
            for (unsigned k = 0; k < power; k++)
                factor *= 256 * gap / strip;
            distance[x] += factor;
        }
    }
    qsort(chosen, outputs, sizeof *chosen, closer);
}

static int falling(const void *a, const void *b)
{
    return rising(b, a);
}

/* How many places a trial with the first rows of `chosen` keeps. Columns are equal between
 * neighbouring places of these rows: such a run is one unknown, and the longest are kept. Above the
 * highest place columns are zero: noise there is in no equation. In field 1 a column between the
 * last place of a strip and the first of the next has the same entry in every row, 0 or 1: all of
 * them together are one unknown. */
static unsigned kept_places(unsigned rows, unsigned unknowns, unsigned of_field)
{
    static uint8_t begins[LEAVES + 1]; /* whether a run begins at a column */
    static uint32_t run[LEAVES + 1];
    unsigned runs = 0, kept = 0, start = 0, strip_before = terms;
    memset(begins, 0, leaves + 1);
    for (unsigned k = 0; k < rows; k++)
        for (unsigned i = 0; i < terms; i++)
            begins[i * strip + offset[i][chosen[k]] + 1] = 1;
    for (unsigned j = 1; j <= leaves; j++) {
        if (j < leaves && !begins[j])
            continue;
        unsigned strip_here = begins[j] ? (j - 1) / strip : terms;
        if (strip_here == terms || (of_field == EXPANDER_BINARY && strip_here != strip_before))
            kept += j - start;
        else
            run[runs++] = j - start;
        strip_before = strip_here;
        start = j;
    }
    if (of_field == EXPANDER_BINARY)
        unknowns--;
    qsort(run, runs, sizeof *run, falling);
    for (unsigned k = 0; k < runs && k < unknowns; k++)
        kept += run[k];
    return kept;
}

/* Tries centres: a row drawn, then the mean of the rows that kept most, a few times. A trial has as
 * many unknowns as rows, less the checks. */
static void print_merged(unsigned of_field, unsigned rows_min, unsigned checks)
{
    enum { TRIES = 24, STEPS = 4, ROWS_MAX = 1024 };
    static const unsigned powers[] = {2, 4, 6};
    unsigned best = 0, best_rows = 0;
    for (unsigned k = 0; k < TRIES; k++) {
        uint32_t centre[TERMS];
        unsigned from = draw_below(outputs);
        for (unsigned i = 0; i < terms; i++)
            centre[i] = offset[i][from];
        for (unsigned step = 0; step < STEPS; step++) {
            unsigned most = 0, most_rows = 1;
            order_by(centre, powers[k % 3]);
            for (unsigned rows = rows_min; rows <= outputs && rows <= ROWS_MAX; rows += 1 + rows / 12) {
                unsigned kept = kept_places(rows, rows - checks, of_field);
                if (kept > most) {
                    most = kept;
                    most_rows = rows;
                }
            }
            if (most > best) {
                best = most;
                best_rows = most_rows;
            }
            for (unsigned i = 0; i < terms; i++) {
                uint64_t sum = 0;
                for (unsigned y = 0; y < most_rows; y++)
                    sum += offset[i][chosen[y]];
                centre[i] = (uint32_t)(sum / most_rows);
            }
        }
    }
    printf("%u %u\n", best_rows, best);
}

/* ---- Codes of the sources ---- */

/* The mean over `trials` codes of the least weight among n rows, as a share of the length 5 n; each
 * row has one term in each of l strips of 5 n / l places, rounded down. */
static void print_least(unsigned row_terms, unsigned rows, unsigned trials)
{
    double sum = 0;
    uint32_t width = 5 * rows / row_terms;
    for (unsigned k = 0; k < trials; k++) {
        uint32_t least = UINT32_MAX;
        for (unsigned x = 0; x < rows; x++) {
            uint32_t weight = 0, last = 0; /* of the places up to the last term, from the top down */
            for (unsigned i = 0; i < row_terms; i++) {
                uint32_t place = i * width + draw_below(width) + 1;
                if ((row_terms - i) % 2 == 1)
                    weight += place - last;
                last = place;
            }
            least = weight < least ? weight : least;
        }
        sum += (double)least / (5 * rows);
    }
    printf("%.9f\n", sum / trials);
}

/* ---- Arguments ---- */

static unsigned long number(const char *text)
{
    char *end;
    unsigned long value = strtoul(text, &end, 10);
    if (*text < '0' || *text > '9' || *end != '\0')
        stop("an argument is no number");
    return value;
}

static void read_sizes(char **argv)
{
    depth = (unsigned)number(argv[0]);
    terms = (unsigned)number(argv[1]);
    outputs = (unsigned)number(argv[2]);
    if (strlen(argv[3]) != 32 || strspn(argv[3], "0123456789abcdefABCDEF") != 32)
        stop("a code key is 32 hexadecimal digits");
    for (int k = 0; k < 16; k++) {
        char digits[3] = {argv[3][2 * k], argv[3][2 * k + 1], '\0'};
        code_key[k] = (uint8_t)strtoul(digits, NULL, 16);
    }
    if (depth < 1 || depth > EXPANDER_DEPTH_MAX)
        stop("d is 1 to " SAY(EXPANDER_DEPTH_MAX));
    leaves = 1u << depth;
    if (terms < 1 || terms > EXPANDER_TERMS_MAX || terms > leaves)
        stop("l is 1 to " SAY(EXPANDER_TERMS_MAX) ", and at most N");
    if (outputs < 2 || outputs > leaves / 2)
        stop("n is 2 to N / 2");
    strip = leaves / terms;
    ask_rows();
}

static unsigned read_trees(const char *text)
{
    unsigned long trees = number(text);
    if (trees < 1 || trees > EXPANDER_TREES_MAX || trees > leaves)
        stop("t is 1 to " SAY(EXPANDER_TREES_MAX) ", and at most N");
    return (unsigned)trees;
}

int main(int argc, char **argv)
{
    const char *what = argc > 1 ? argv[1] : "";
    if (strcmp(what, "least") == 0 && argc == 5) {
        print_least((unsigned)number(argv[2]), (unsigned)number(argv[3]), (unsigned)number(argv[4]));
        return 0;
    }
    if (argc < 6)
        stop("too few arguments");
    read_sizes(argv + 2);
    if (strcmp(what, "pair") == 0 && argc == 6) {
        struct pair p = lightest_pair(), row = lightest_row();
        printf("%u %u %u %u %u\n", p.x, p.y, p.weight, row.x, row.weight);
    } else if (strcmp(what, "every") == 0 && argc == 6) {
        print_every_pair();
    } else if (strcmp(what, "rows") == 0 && argc == 6) {
        print_rows();
    } else if (strcmp(what, "merged") == 0 && argc == 9) {
        unsigned long rows = number(argv[7]), checks = number(argv[8]);
        if (rows <= checks || rows > outputs)
            stop("ROWS is above CHECKS, and at most n");
        print_merged((unsigned)number(argv[6]), (unsigned)rows, (unsigned)checks);
    } else if (strcmp(what, "bias") == 0 && argc == 8) {
        print_bias(read_trees(argv[6]), number(argv[7]));
    } else if (strcmp(what, "layers") == 0 && argc == 10) {
        unsigned trees[2];
        trees[0] = read_trees(argv[7]);
        trees[1] = read_trees(argv[8]);
        print_layers((unsigned)number(argv[6]), trees, number(argv[9]));
    } else {
        stop("no such measure");
    }
    return 0;
}
