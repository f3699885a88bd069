/* A plain second implementation of document 01 with document 02's requests 4, 7, 8 and
 * 10 (plain.h).
 */
#include "plain.h"

#include <string.h>

#define P PLAIN_P
#define MAX_TREES PLAIN_TREES
#define MAX_TERMS 32
#define MAX_CHILDREN 8
#define MAX_SIBLINGS 35 /* d = 15, g = 3 */
#define MAX_PAD_INDEX 32768

typedef plain_wide wide;
typedef struct plain_block block;
typedef struct plain_key round_keys;
typedef struct plain_result result;

/* ---- AES-128 (FIPS 197), by tables that are worked out at the first call ---- */

static uint8_t sbox[256];
static uint32_t mix[4][256]; /* SubBytes and MixColumns of a byte in row 0, 1, 2, 3 */
static round_keys child_keys[MAX_CHILDREN], pad_key;
static int ready;

static uint8_t xtime(uint8_t a)
{
    return (uint8_t)((a << 1) ^ ((a >> 7) * 0x1b));
}

static uint8_t byte_product(uint8_t a, uint8_t b)
{
    uint8_t r = 0;
    for (; b != 0; b >>= 1, a = xtime(a))
        if (b & 1)
            r ^= a;
    return r;
}

/* The inverse (0 for 0), which is the power 254, and then the affine step. */
static uint8_t sbox_rule(uint8_t a)
{
    uint8_t inverse = 1, r = 0;
    for (int k = 0; k < 254; k++)
        inverse = byte_product(inverse, a);
    for (int i = 0; i < 8; i++) {
        int bit = inverse >> i ^ inverse >> (i + 4) % 8 ^ inverse >> (i + 5) % 8
                ^ inverse >> (i + 6) % 8 ^ inverse >> (i + 7) % 8 ^ 0x63 >> i;
        r |= (uint8_t)((bit & 1) << i);
    }
    return r;
}

static uint32_t rotate_left(uint32_t x, unsigned bits)
{
    return x << bits | x >> (32 - bits);
}

static void start(void)
{
    uint8_t key[16];
    if (ready)
        return;
    for (unsigned x = 0; x < 256; x++) {
        uint8_t s = sbox_rule((uint8_t)x);
        uint8_t twice = xtime(s);
        sbox[x] = s;
        mix[0][x] = (uint32_t)twice | (uint32_t)s << 8 | (uint32_t)s << 16
                  | (uint32_t)(twice ^ s) << 24;
        for (unsigned row = 1; row < 4; row++)
            mix[row][x] = rotate_left(mix[0][x], 8 * row);
    }
    ready = 1;
    for (unsigned c = 0; c < MAX_CHILDREN; c++) {
        memset(key, (int)c, 16);
        plain_expand_key(&child_keys[c], key);
    }
    memset(key, 0xff, 16);
    plain_expand_key(&pad_key, key);
}

uint8_t plain_sbox(uint8_t x)
{
    start();
    return sbox[x];
}

static uint32_t byte_of(uint32_t column, unsigned row)
{
    return column >> (8 * row) & 0xff;
}

/* Words least byte first, as a little-endian machine has them in memory. */
static uint64_t load_word(const uint8_t *bytes)
{
    uint64_t x;
    memcpy(&x, bytes, 8);
    return x;
}

static void store_word(uint8_t *bytes, uint64_t x)
{
    memcpy(bytes, &x, 8);
}

block plain_load(const uint8_t bytes[16])
{
    block b = {load_word(bytes), load_word(bytes + 8)};
    return b;
}

void plain_store(uint8_t bytes[16], block b)
{
    store_word(bytes, b.lo);
    store_word(bytes + 8, b.hi);
}

void plain_expand_key(round_keys *key, const uint8_t bytes[16])
{
    uint32_t *w = key->column;
    uint8_t rcon = 1;
    start();
    for (unsigned i = 0; i < 4; i++)
        w[i] = (uint32_t)(load_word(bytes + 8 * (i / 2)) >> (32 * (i % 2)));
    for (unsigned i = 4; i < 44; i++) {
        uint32_t t = w[i - 1];
        if (i % 4 == 0) {
            t = rotate_left(t, 24);
            t = (uint32_t)sbox[byte_of(t, 0)] | (uint32_t)sbox[byte_of(t, 1)] << 8
              | (uint32_t)sbox[byte_of(t, 2)] << 16 | (uint32_t)sbox[byte_of(t, 3)] << 24;
            t ^= rcon;
            rcon = xtime(rcon);
        }
        w[i] = w[i - 4] ^ t;
    }
}

static uint32_t mixed(uint32_t a, uint32_t b, uint32_t c, uint32_t d, uint32_t key)
{
    return key ^ mix[0][byte_of(a, 0)] ^ mix[1][byte_of(b, 1)]
         ^ mix[2][byte_of(c, 2)] ^ mix[3][byte_of(d, 3)];
}

static uint32_t shifted(uint32_t a, uint32_t b, uint32_t c, uint32_t d, uint32_t key)
{
    return key ^ ((uint32_t)sbox[byte_of(a, 0)] | (uint32_t)sbox[byte_of(b, 1)] << 8
                  | (uint32_t)sbox[byte_of(c, 2)] << 16 | (uint32_t)sbox[byte_of(d, 3)] << 24);
}

#define ROUND(t, s, key) \
    t##0 = mixed(s##0, s##1, s##2, s##3, (key)[0]); \
    t##1 = mixed(s##1, s##2, s##3, s##0, (key)[1]); \
    t##2 = mixed(s##2, s##3, s##0, s##1, (key)[2]); \
    t##3 = mixed(s##3, s##0, s##1, s##2, (key)[3])

block plain_encrypt(const round_keys *key, block b)
{
    const uint32_t *k = key->column;
    uint32_t s0 = (uint32_t)b.lo ^ k[0], s1 = (uint32_t)(b.lo >> 32) ^ k[1];
    uint32_t s2 = (uint32_t)b.hi ^ k[2], s3 = (uint32_t)(b.hi >> 32) ^ k[3];
    uint32_t t0, t1, t2, t3;
    block r;
    ROUND(t, s, k + 4);
    ROUND(s, t, k + 8);
    ROUND(t, s, k + 12);
    ROUND(s, t, k + 16);
    ROUND(t, s, k + 20);
    ROUND(s, t, k + 24);
    ROUND(t, s, k + 28);
    ROUND(s, t, k + 32);
    ROUND(t, s, k + 36);
    k += 40;
    r.lo = shifted(t0, t1, t2, t3, k[0]) | (uint64_t)shifted(t1, t2, t3, t0, k[1]) << 32;
    r.hi = shifted(t2, t3, t0, t1, k[2]) | (uint64_t)shifted(t3, t0, t1, t2, k[3]) << 32;
    return r;
}

/* ---- Fields ---- */

static int is_zero(block a)
{
    return a.lo == 0 && a.hi == 0;
}

static block exclusive_or(block a, block b)
{
    block r = {a.lo ^ b.lo, a.hi ^ b.hi};
    return r;
}

static uint64_t add_mod(uint64_t a, uint64_t b)
{
    uint64_t r = a + b;
    return r >= P ? r - P : r;
}

/* x modulo p: 2^61 is 1 modulo p. */
uint64_t plain_reduce(uint64_t x)
{
    uint64_t r = (x & P) + (x >> 61);
    return r >= P ? r - P : r;
}

/* x modulo p, for x below 2^127. */
uint64_t plain_reduce_wide(wide x)
{
#ifdef __SIZEOF_INT128__
    wide folded = (x & P) + (x >> 61); /* below 2^67 */
    return plain_reduce(((uint64_t)folded & P) + (uint64_t)(folded >> 61));
#else
    return plain_reduce(x);
#endif
}

static uint64_t multiply_mod(uint64_t a, uint64_t b)
{
    return plain_reduce_wide(plain_add_product(0, a, b));
}

block plain_add(unsigned field, block a, block b)
{
    block r = {0, 0};
    if (field == 1)
        return exclusive_or(a, b);
    r.lo = add_mod(a.lo, b.lo);
    return r;
}

block plain_subtract(unsigned field, block a, block b)
{
    block r = {0, 0};
    if (field == 1)
        return exclusive_or(a, b);
    r.lo = add_mod(a.lo, P - b.lo);
    return r;
}

/* a × u: u is a noise value or a coefficient. */
block plain_scale(unsigned field, block a, uint64_t u)
{
    block r = {0, 0};
    if (field == 1)
        return u == 1 ? a : r;
    r.lo = multiply_mod(a.lo, u);
    return r;
}

unsigned plain_width(unsigned field)
{
    return field == 1 ? 2 : 1;
}

static unsigned element_bytes(unsigned field)
{
    return 8 * plain_width(field);
}

static int is_element(unsigned field, uint64_t word)
{
    return field == 1 || word < P;
}

static block load_element(unsigned field, const uint8_t *bytes)
{
    block b = {load_word(bytes), field == 1 ? load_word(bytes + 8) : 0};
    return b;
}

/* ---- Trees ---- */

static block child(unsigned c, block s)
{
    return exclusive_or(plain_encrypt(&child_keys[c], s), s);
}

block plain_child(unsigned c, block s)
{
    start();
    return child(c, s);
}

static unsigned children_of(struct plain_shape tree)
{
    return 1u << tree.branch_bits;
}

static size_t siblings_of(struct plain_shape tree)
{
    return (size_t)(tree.depth / tree.branch_bits) * (children_of(tree) - 1);
}

block plain_leaf_element(unsigned field, block leaf)
{
    if (field == 2) {
        leaf.lo = plain_reduce(leaf.lo);
        leaf.hi = 0;
    }
    return leaf;
}

static void add_element(unsigned field, uint64_t *sum, block a)
{
    if (field == 1) {
        sum[0] ^= a.lo;
        sum[1] ^= a.hi;
    } else {
        sum[0] = add_mod(sum[0], a.lo);
    }
}

/* Add the elements of all leaves of the tree below s to sum. */
static void add_tree(unsigned field, block s, struct plain_shape tree, uint64_t *sum)
{
    unsigned children = children_of(tree);
    size_t part;
    if (tree.depth == 0) {
        add_element(field, sum, plain_leaf_element(field, s));
        return;
    }
    tree.depth -= tree.branch_bits;
    part = (size_t)plain_width(field) << tree.depth;
    for (unsigned c = 0; c < children; c++, sum += part)
        if (tree.depth == 0)
            add_element(field, sum, plain_leaf_element(field, child(c, s)));
        else
            add_tree(field, child(c, s), tree, sum);
}

/* Add the elements of all leaves of the tree but the one at position, from the siblings. */
static void add_punctured(unsigned field, const uint8_t *siblings, uint32_t position,
                          struct plain_shape tree, uint64_t *sum)
{
    unsigned children = children_of(tree);
    while (tree.depth > 0) {
        uint32_t digit, front;
        tree.depth -= tree.branch_bits;
        digit = position >> tree.depth & (children - 1);
        front = (position >> tree.depth) - digit;
        for (uint32_t c = 0; c < children; c++)
            if (c != digit) {
                size_t from = (size_t)(front + c) << tree.depth;
                add_tree(field, plain_load(siblings), tree, sum + plain_width(field) * from);
                siblings += 16;
            }
    }
}

/* The leaf of the tree below s at position, and the siblings beside the path to it. */
static block puncture(block s, uint32_t position, struct plain_shape tree, block *siblings)
{
    unsigned children = children_of(tree);
    while (tree.depth > 0) {
        uint32_t digit;
        tree.depth -= tree.branch_bits;
        digit = position >> tree.depth & (children - 1);
        for (uint32_t c = 0; c < children; c++)
            if (c != digit)
                *siblings++ = child(c, s);
        s = child(digit, s);
    }
    return s;
}

/* ---- Records ---- */

/* What is left to read. */
struct reader {
    const uint8_t *at;
    size_t left;
};

static const uint8_t *take(struct reader *in, size_t bytes)
{
    const uint8_t *at = in->at;
    if (in->left < bytes)
        return NULL;
    in->at += bytes;
    in->left -= bytes;
    return at;
}

static uint32_t take_number(struct reader *in, uint32_t *x)
{
    *x = 0;
    for (unsigned k = 0; k < 3; k++) {
        const uint8_t *byte = take(in, 1);
        if (byte == NULL)
            return 10;
        *x |= (uint32_t)(*byte & 0x7f) << (7 * k);
        if (*byte < 0x80)
            return *byte == 0 && k > 0 ? 11 : 0;
    }
    return 11;
}

size_t plain_write_number(uint8_t bytes[3], uint32_t x)
{
    size_t n = 0;
    for (; x >= 0x80; x >>= 7)
        bytes[n++] = (uint8_t)(x | 0x80);
    bytes[n++] = (uint8_t)x;
    return n;
}

static size_t number_length(uint32_t x)
{
    uint8_t bytes[3];
    return plain_write_number(bytes, x);
}

static int depth_admitted(size_t d)
{
    return d >= 1 && d <= 16;
}

static int branch_bits_admitted(size_t d, size_t g)
{
    return g >= 1 && g <= 3 && d % g == 0;
}

static int trees_admitted(size_t d, size_t t)
{
    size_t leaves = (size_t)1 << d;
    return t >= 1 && t <= (leaves < MAX_TREES ? leaves : MAX_TREES);
}

static int terms_admitted(size_t d, size_t l)
{
    size_t leaves = (size_t)1 << d;
    return l >= 1 && l <= (leaves < MAX_TERMS ? leaves : MAX_TERMS);
}

static int outputs_admitted(size_t d, size_t n)
{
    return n >= 1 && n <= (size_t)1 << (d - 1);
}

static uint32_t read_head(struct reader *in, unsigned end, struct plain_record *r)
{
    const uint8_t *byte;
    uint32_t number;
    if ((byte = take(in, 1)) == NULL)
        return 10;
    if (*byte != end)
        return 9;
    if ((byte = take(in, 1)) == NULL)
        return 10;
    if (*byte != 1 && *byte != 2)
        return 1;
    r->field = *byte;
    if ((number = take_number(in, &r->shape.depth)) != 0)
        return number;
    if (!depth_admitted(r->shape.depth))
        return 2;
    if ((number = take_number(in, &r->shape.branch_bits)) != 0)
        return number;
    if (!branch_bits_admitted(r->shape.depth, r->shape.branch_bits))
        return 2;
    if ((number = take_number(in, &r->trees)) != 0)
        return number;
    if (!trees_admitted(r->shape.depth, r->trees))
        return 2;
    if ((number = take_number(in, &r->terms)) != 0)
        return number;
    if (!terms_admitted(r->shape.depth, r->terms))
        return 2;
    if ((number = take_number(in, &r->outputs)) != 0)
        return number;
    if (!outputs_admitted(r->shape.depth, r->outputs))
        return 2;
    if ((r->code_key = take(in, 16)) == NULL)
        return 10;
    if ((r->label = take(in, 16)) == NULL)
        return 10;
    return 0;
}

uint32_t plain_read_noise_record(const uint8_t *source, size_t source_len, struct plain_record *r)
{
    struct reader in = {source, source_len};
    const uint8_t *bytes;
    uint32_t number, x, next = 0;
    if ((number = read_head(&in, 1, r)) != 0)
        return number;
    for (unsigned i = 0; i < r->trees; i++) {
        struct plain_tree *tree = &r->tree[i];
        if ((number = take_number(&in, &x)) != 0)
            return number;
        tree->position = next + x;
        if (tree->position >= (uint32_t)1 << r->shape.depth)
            return 4;
        next = tree->position + 1;
        tree->value = 1;
        if (r->field == 2) {
            if ((bytes = take(&in, 8)) == NULL)
                return 10;
            tree->value = load_word(bytes);
            if (tree->value == 0 || tree->value >= P)
                return 5;
        }
        if ((bytes = take(&in, element_bytes(r->field))) == NULL)
            return 10;
        tree->correction = load_element(r->field, bytes);
        if (!is_element(r->field, tree->correction.lo))
            return 8;
        if ((tree->siblings = take(&in, 16 * siblings_of(r->shape))) == NULL)
            return 10;
    }
    return in.left > 0 ? 12 : 0;
}

uint32_t plain_read_scalar_record(const uint8_t *source, size_t source_len, struct plain_record *r)
{
    struct reader in = {source, source_len};
    const uint8_t *bytes;
    uint32_t number;
    if ((number = read_head(&in, 2, r)) != 0)
        return number;
    if ((bytes = take(&in, element_bytes(r->field))) == NULL)
        return 10;
    r->delta = load_element(r->field, bytes);
    if (is_zero(r->delta) || !is_element(r->field, r->delta.lo))
        return 6;
    if ((r->roots = take(&in, 16 * (size_t)r->trees)) == NULL)
        return 10;
    return in.left > 0 ? 12 : 0;
}

struct plain_described plain_describe(const uint8_t *source, size_t source_len)
{
    struct plain_described d = {0, 0, 0, 0, 0, 0, 0, 0, 0, 0, {0}, {0}};
    struct plain_record r;
    if (source_len == 0)
        d.number = 10;
    else if (source[0] == 1)
        d.number = plain_read_noise_record(source, source_len, &r);
    else if (source[0] == 2)
        d.number = plain_read_scalar_record(source, source_len, &r);
    else
        d.number = 9;
    if (d.number != 0)
        return d;
    d.end = source[0];
    d.field = r.field;
    d.depth = r.shape.depth;
    d.branch_bits = r.shape.branch_bits;
    d.trees = r.trees;
    d.terms = r.terms;
    d.outputs = r.outputs;
    d.leaves = (size_t)1 << r.shape.depth;
    d.element_words = plain_width(r.field);
    memcpy(d.label, r.label, 16);
    memcpy(d.code_key, r.code_key, 16);
    return d;
}

/* ---- Dealing ---- */

static result refused(uint32_t number)
{
    result r = {number, 0, 0};
    return r;
}

static result accepted(size_t first, size_t second)
{
    result r = {0, first, second};
    return r;
}

static uint8_t *put(uint8_t *to, const uint8_t *bytes, size_t n)
{
    memcpy(to, bytes, n);
    return to + n;
}

static uint8_t *put_element(uint8_t *to, unsigned field, block a)
{
    uint8_t bytes[16];
    plain_store(bytes, a);
    return put(to, bytes, element_bytes(field));
}

enum { SIZES = 5 }; /* d, g, t, l, n */

static uint8_t *put_head(uint8_t *to, uint8_t end, uint8_t field, const uint32_t sizes[SIZES],
                         const uint8_t *code_key, const uint8_t *label)
{
    *to++ = end;
    *to++ = field;
    for (unsigned k = 0; k < SIZES; k++)
        to += plain_write_number(to, sizes[k]);
    to = put(to, code_key, 16);
    return put(to, label, 16);
}

result plain_deal(
    uint8_t field, size_t depth, size_t branch_bits, size_t trees, size_t terms, size_t outputs,
    const uint8_t *roots, size_t roots_len, const uint32_t *positions, size_t positions_len,
    const uint64_t *values, size_t values_len, const uint8_t *delta, size_t delta_len,
    const uint8_t *code_key, size_t code_key_len, const uint8_t *label, size_t label_len,
    uint8_t *noise_record, size_t noise_record_len, uint8_t *scalar_record,
    size_t scalar_record_len)
{
    size_t head_len, noise_len, scalar_len;
    uint32_t sizes[SIZES];
    struct plain_shape shape;
    block scalar;
    uint8_t *to;

    start();
    if (field != 1 && field != 2)
        return refused(1);
    if (!depth_admitted(depth) || !branch_bits_admitted(depth, branch_bits)
        || !trees_admitted(depth, trees) || !terms_admitted(depth, terms)
        || !outputs_admitted(depth, outputs))
        return refused(2);
    if (roots_len != 16 * trees || positions_len != trees || values_len != trees
        || delta_len != 16 || code_key_len != 16 || label_len != 16)
        return refused(3);
    for (size_t i = 0; i < trees; i++)
        if (positions[i] >= (uint32_t)1 << depth || (i > 0 && positions[i] <= positions[i - 1]))
            return refused(4);
    for (size_t i = 0; i < trees; i++)
        if (field == 1 ? values[i] != 1 : values[i] == 0 || values[i] >= P)
            return refused(5);
    scalar = plain_load(delta);
    if (is_zero(scalar) || (field == 2 && (scalar.lo == 0 || scalar.lo >= P || scalar.hi != 0)))
        return refused(6);

    sizes[0] = (uint32_t)depth;
    sizes[1] = (uint32_t)branch_bits;
    sizes[2] = (uint32_t)trees;
    sizes[3] = (uint32_t)terms;
    sizes[4] = (uint32_t)outputs;
    shape.depth = sizes[0];
    shape.branch_bits = sizes[1];
    head_len = 2 + 16 + 16;
    for (unsigned k = 0; k < SIZES; k++)
        head_len += number_length(sizes[k]);
    scalar_len = head_len + element_bytes(field) + 16 * trees;
    noise_len = head_len
              + trees * ((field == 2 ? 8 : 0) + element_bytes(field) + 16 * siblings_of(shape));
    for (size_t i = 0; i < trees; i++)
        noise_len += number_length(i == 0 ? positions[0] : positions[i] - positions[i - 1] - 1);
    if (noise_record_len < noise_len || scalar_record_len < scalar_len)
        return refused(13);

    to = put_head(noise_record, 1, field, sizes, code_key, label);
    for (size_t i = 0; i < trees; i++) {
        uint32_t s = positions[i];
        block siblings[MAX_SIBLINGS];
        block leaf = puncture(plain_load(roots + 16 * i), s, shape, siblings);
        to += plain_write_number(to, i == 0 ? s : s - positions[i - 1] - 1);
        if (field == 2) {
            store_word(to, values[i]);
            to += 8;
        }
        to = put_element(to, field,
                         plain_subtract(field, plain_leaf_element(field, leaf),
                                        plain_scale(field, scalar, values[i])));
        for (size_t k = 0; k < siblings_of(shape); k++) {
            plain_store(to, siblings[k]);
            to += 16;
        }
    }
    to = put_head(scalar_record, 2, field, sizes, code_key, label);
    to = put_element(to, field, scalar);
    put(to, roots, 16 * trees);
    return accepted(noise_len, scalar_len);
}

/* ---- Offline ---- */

/* Place j becomes the sum of places 0 to j. */
void plain_accumulate_noise(unsigned field, uint64_t *noise, size_t n)
{
    uint64_t sum = 0;
    for (size_t j = 0; j < n; j++)
        noise[j] = sum = field == 1 ? sum ^ noise[j] : add_mod(sum, noise[j]);
}

static void accumulate(unsigned field, uint64_t *a, size_t n)
{
    block sum = {0, 0};
    if (field == 2) {
        plain_accumulate_noise(2, a, n);
        return;
    }
    for (size_t j = 0; j < n; j++) {
        a[2 * j] = sum.lo ^= a[2 * j];
        a[2 * j + 1] = sum.hi ^= a[2 * j + 1];
    }
}

result plain_noise_offline(
    const uint8_t *source, size_t source_len, uint64_t *noise, size_t noise_len,
    uint64_t *v, size_t v_len)
{
    struct plain_record r;
    size_t leaves, width;
    uint32_t number = plain_read_noise_record(source, source_len, &r);
    start();
    if (number != 0)
        return refused(number);
    leaves = (size_t)1 << r.shape.depth;
    width = plain_width(r.field);
    if (noise_len < leaves || v_len < width * leaves)
        return refused(13);

    memset(noise, 0, 8 * leaves);
    memset(v, 0, 8 * width * leaves);
    for (unsigned i = 0; i < r.trees; i++) {
        const struct plain_tree *tree = &r.tree[i];
        noise[tree->position] = tree->value;
        add_punctured(r.field, tree->siblings, tree->position, r.shape, v);
        add_element(r.field, v + width * tree->position, tree->correction);
    }
    plain_accumulate_noise(r.field, noise, leaves);
    accumulate(r.field, v, leaves);
    return accepted(leaves, width * leaves);
}

result plain_scalar_offline(
    const uint8_t *source, size_t source_len, uint64_t *w, size_t w_len,
    uint64_t *delta, size_t delta_len)
{
    struct plain_record r;
    size_t leaves, width;
    uint32_t number = plain_read_scalar_record(source, source_len, &r);
    start();
    if (number != 0)
        return refused(number);
    leaves = (size_t)1 << r.shape.depth;
    width = plain_width(r.field);
    if (w_len < width * leaves || delta_len < 2)
        return refused(13);

    memset(w, 0, 8 * width * leaves);
    for (unsigned i = 0; i < r.trees; i++)
        add_tree(r.field, plain_load(r.roots + 16 * i), r.shape, w);
    accumulate(r.field, w, leaves);
    delta[0] = r.delta.lo;
    delta[1] = r.delta.hi;
    return accepted(width * leaves, 2);
}

/* ---- Online ---- */

size_t plain_term(const round_keys *code, unsigned field, size_t strip, uint64_t x, uint64_t i,
                  uint64_t *coefficient)
{
    block in = {x, i};
    block out = plain_encrypt(code, in);
    *coefficient = field == 1 ? 1 : plain_reduce(out.hi);
    return (size_t)(i * strip + out.lo % strip);
}

/* What rows are worked out from; noise is NULL at the scalar end. */
struct rows {
    round_keys code;
    unsigned field, terms;
    size_t leaves, strip;
    const uint64_t *noise, *elements;
};

/* Row x: u, where there is noise, and the element. Whether each word that it uses is admitted. */
static int binary_row(const struct rows *r, uint64_t x, uint64_t *u_out, uint64_t *element_out)
{
    uint64_t coefficient, u = 0, used = 0, lo = 0, hi = 0;
    for (unsigned i = 0; i < r->terms; i++) {
        size_t j = plain_term(&r->code, 1, r->strip, x, i, &coefficient);
        if (r->noise != NULL) {
            u ^= r->noise[j];
            used |= r->noise[j];
        }
        lo ^= r->elements[2 * j];
        hi ^= r->elements[2 * j + 1];
    }
    if (r->noise != NULL)
        *u_out = u;
    element_out[0] = lo;
    element_out[1] = hi;
    return used <= 1;
}

static int prime_row(const struct rows *r, uint64_t x, uint64_t *u_out, uint64_t *element_out)
{
    wide u = 0, sum = 0; /* at most 32 products below 2^122 */
    uint64_t coefficient;
    int admitted = 1;
    for (unsigned i = 0; i < r->terms; i++) {
        size_t j = plain_term(&r->code, 2, r->strip, x, i, &coefficient);
        if (r->noise != NULL) {
            admitted &= r->noise[j] < P;
            u = plain_add_product(u, coefficient, r->noise[j]);
        }
        admitted &= r->elements[j] < P;
        sum = plain_add_product(sum, coefficient, r->elements[j]);
    }
    if (r->noise != NULL)
        *u_out = plain_reduce_wide(u);
    *element_out = plain_reduce_wide(sum);
    return admitted;
}

static int row(const struct rows *r, uint64_t x, uint64_t *u_out, uint64_t *element_out)
{
    return (r->field == 1 ? binary_row : prime_row)(r, x, u_out, element_out);
}

/* Whether every word is admitted, so that no row uses another. */
static int all_admitted(const struct rows *r)
{
    uint64_t limit = r->field == 1 ? 2 : P;
    for (size_t j = 0; r->noise != NULL && j < r->leaves; j++)
        if (r->noise[j] >= limit)
            return 0;
    for (size_t j = 0; r->field == 2 && j < r->leaves; j++)
        if (r->elements[j] >= P)
            return 0;
    return 1;
}

/* The window's rows; 0, with nothing written, if one uses a word that is not admitted. A few rows
 * are kept back until all of them have passed; for many, all words are tested first. */
static int window(const struct plain_record *record, const uint64_t *noise,
                  const uint64_t *elements, size_t first, size_t count, uint64_t *u_out,
                  uint64_t *element_out)
{
    enum { FEW = 64 };
    uint64_t u[FEW], element[2 * FEW];
    size_t width = plain_width(record->field);
    struct rows r;
    plain_expand_key(&r.code, record->code_key);
    r.field = record->field;
    r.terms = record->terms;
    r.leaves = (size_t)1 << record->shape.depth;
    r.strip = r.leaves / r.terms;
    r.noise = noise;
    r.elements = elements;
    if (count <= FEW) {
        for (size_t k = 0; k < count; k++)
            if (!row(&r, first + k, u + k, element + width * k))
                return 0;
        if (noise != NULL)
            memcpy(u_out, u, 8 * count);
        memcpy(element_out, element, 8 * width * count);
        return 1;
    }
    if (!all_admitted(&r))
        for (size_t k = 0; k < count; k++)
            if (!row(&r, first + k, u, element))
                return 0;
    for (size_t k = 0; k < count; k++)
        row(&r, first + k, noise != NULL ? u_out + k : NULL, element_out + width * k);
    return 1;
}

int plain_window_past(size_t first, size_t count, size_t end)
{
    return first > end || count > end - first;
}

result plain_noise_online(
    const uint8_t *source, size_t source_len, const uint64_t *noise, size_t noise_len,
    const uint64_t *v, size_t v_len, size_t first, size_t count,
    uint64_t *u_out, size_t u_out_len, uint64_t *v_out, size_t v_out_len)
{
    struct plain_record r;
    size_t leaves, width;
    uint32_t number = plain_read_noise_record(source, source_len, &r);
    if (number != 0)
        return refused(number);
    leaves = (size_t)1 << r.shape.depth;
    width = plain_width(r.field);
    if (noise_len != leaves || v_len != width * leaves)
        return refused(3);
    if (plain_window_past(first, count, r.outputs))
        return refused(7);
    if (u_out_len < count || v_out_len < width * count)
        return refused(13);
    if (!window(&r, noise, v, first, count, u_out, v_out))
        return refused(8);
    return accepted(count, width * count);
}

result plain_scalar_online(
    const uint8_t *source, size_t source_len, const uint64_t *w, size_t w_len,
    size_t first, size_t count, uint64_t *w_out, size_t w_out_len)
{
    struct plain_record r;
    size_t leaves, width;
    uint32_t number = plain_read_scalar_record(source, source_len, &r);
    if (number != 0)
        return refused(number);
    leaves = (size_t)1 << r.shape.depth;
    width = plain_width(r.field);
    if (w_len != width * leaves)
        return refused(3);
    if (plain_window_past(first, count, r.outputs))
        return refused(7);
    if (w_out_len < width * count)
        return refused(13);
    if (!window(&r, NULL, w, first, count, NULL, w_out))
        return refused(8);
    return accepted(width * count, 0);
}

/* ---- Pads ---- */

/* Whether len is size × count, as whole numbers. */
static int is_multiple(size_t len, size_t size, size_t count)
{
    return len % size == 0 && len / size == count;
}

/* E(FF.., a exclusive-or the block of x) exclusive-or a, where a is E(FF.., b). */
static block pad(size_t x, block b)
{
    block index = {x, 0}, a = plain_encrypt(&pad_key, b);
    return exclusive_or(plain_encrypt(&pad_key, exclusive_or(a, index)), a);
}

uint32_t plain_noise_pads(
    size_t first, size_t count, const uint8_t *v, size_t v_len,
    const uint8_t *choices, size_t choices_len, uint8_t *pads, size_t pads_len)
{
    start();
    if (!is_multiple(v_len, 16, count) || choices_len != count)
        return 3;
    if (plain_window_past(first, count, MAX_PAD_INDEX))
        return 7;
    if (pads_len < 16 * count)
        return 13;
    for (size_t k = 0; k < count; k++)
        if (choices[k] > 1)
            return 8;
    for (size_t k = 0; k < count; k++)
        plain_store(pads + 16 * k, pad(first + k, plain_load(v + 16 * k)));
    return 0;
}

uint32_t plain_scalar_pads(
    size_t first, size_t count, const uint8_t *w, size_t w_len,
    const uint8_t *delta, size_t delta_len, uint8_t *pads, size_t pads_len)
{
    block d;
    start();
    if (!is_multiple(w_len, 16, count) || delta_len != 16)
        return 3;
    if (plain_window_past(first, count, MAX_PAD_INDEX))
        return 7;
    d = plain_load(delta);
    if (is_zero(d))
        return 6;
    if (pads_len < 32 * count)
        return 13;
    for (size_t k = 0; k < count; k++) {
        block b = plain_load(w + 16 * k);
        plain_store(pads + 32 * k, pad(first + k, b));
        plain_store(pads + 32 * k + 16, pad(first + k, exclusive_or(b, d)));
    }
    return 0;
}

/* ---- The version ---- */

uint32_t plain_version(const char *text)
{
    uint32_t parts[3] = {0, 0, 0};
    unsigned part = 0;
    for (; *text != '\0'; text++)
        if (*text == '.')
            part++;
        else
            parts[part] = 10 * parts[part] + (uint32_t)(*text - '0');
    return 10000 * parts[0] + 100 * parts[1] + parts[2];
}
