/* Sources of layers: what is dealt, and that an end is its layers' sum. */
#include "layers.h"

void take_records(struct dealt *dealt, size_t layers)
{
    dealt->layers = layers;
    for (size_t k = 0; k < layers; k++) {
        dealt->noise[k] = (struct companion_record){dealt->made[k].noise, dealt->made[k].noise_len};
        dealt->scalar[k] = (struct companion_record){dealt->made[k].scalar, dealt->made[k].scalar_len};
    }
}

void deal(const struct companion_sizes *sizes, uint64_t label, size_t layers, struct dealt *dealt)
{
    EXPECT(0, companion_deal_layers(sizes, companion_label(label), layers, dealt->made));
    take_records(dealt, layers);
}

int is_zero(const void *memory, size_t len)
{
    size_t k = 0;
    while (k < len && ((const uint8_t *)memory)[k] == 0)
        k++;
    return k == len;
}

void is_sum(const struct companion_end *end, const struct companion_record *records, size_t layers)
{
    size_t words = end->head.leaves * end->head.element_words, noise = end->noise != NULL ? end->head.leaves : 0;
    uint64_t *sum = __real_calloc(words + noise, 8);
    for (size_t k = 0; k < layers; k++) {
        struct companion_end alone;
        struct expander_described head;
        EXPECT(0, companion_open(records[k].bytes, records[k].len, &alone));
        CHECK(companion_layers(&alone) == 1, "a dealing has one layer");
        for (size_t j = 0; j < words + noise; j++) {
            uint64_t word = j < words ? alone.elements[j] : alone.noise[j - words];
            sum[j] = end->head.field == EXPANDER_BINARY ? sum[j] ^ word : (sum[j] + word) % EXPANDER_MODULUS;
        }
        head = companion_layer(end, k + 1);
        CHECK(memcmp(head.label, alone.head.label, 16) == 0 && head.trees == alone.head.trees && head.number == 0, "head of layer %zu",
              k + 1);
        CHECK(memcmp(end->delta, alone.delta, sizeof end->delta) == 0, "Delta of layer %zu", k + 1);
        companion_close(&alone);
    }
    CHECK(memcmp(sum, end->elements, 8 * words) == 0 && (noise == 0 || memcmp(sum + words, end->noise, 8 * noise) == 0),
          "the vectors are not the layers' sums");
    CHECK(companion_layers(end) == layers && memcmp(end->record, records[layers - 1].bytes, end->record_len) == 0
          && end->record_len == records[layers - 1].len, "the record is not the last one's");
    CHECK(companion_layer(end, 0).end == 0 && companion_layer(end, layers + 1).end == 0, "a layer that is not there");
    __real_free(sum);
}

void correlates(const struct companion_end *noise, const struct companion_end *scalar)
{
    struct companion_window n, s;
    size_t count = noise->head.outputs;
    EXPECT(0, companion_expand(noise, 0, count, &n));
    EXPECT(0, companion_expand(scalar, 0, count, &s));
    for (size_t k = 0; k < count; k++) {
        if (noise->head.field == EXPANDER_PRIME) {
            CHECK(s.elements[k] == times_plus(scalar->delta[0], n.u[k], n.elements[k]), "w = Delta u + v");
            continue;
        }
        for (size_t word = 0; word < 2; word++)
            CHECK(s.elements[2 * k + word] == (n.elements[2 * k + word] ^ (n.u[k] ? scalar->delta[word] : 0)), "w = Delta u + v");
        CHECK(memcmp(n.pads + 16 * k, s.pads + 32 * k + 16 * n.choices[k], 16) == 0, "pads");
    }
    companion_free_window(&n);
    companion_free_window(&s);
}

void deal_raw(const struct raw *raw, struct companion_dealt *dealt)
{
    uint8_t roots[16 * 64], delta[16] = {raw->delta}, key[16] = {raw->code_key}, label[16] = {raw->label};
    const struct companion_sizes *sizes = &raw->sizes;
    uint32_t positions[64];
    uint64_t values[64];
    struct expander_two_lengths made;
    for (size_t k = 0; k < sizeof roots; k++)
        roots[k] = (uint8_t)draw(256);
    for (size_t k = 0; k < sizes->trees; k++) {
        uint32_t part = (uint32_t)(((size_t)1 << sizes->depth) / sizes->trees);
        positions[k] = (uint32_t)k * part + (uint32_t)draw(part);
        values[k] = 1;
    }
    made = expander_deal(sizes->field, sizes->depth, sizes->branch_bits, sizes->trees, sizes->terms, sizes->outputs, roots,
                         16 * sizes->trees, positions, sizes->trees, values, sizes->trees, delta, 16, key, 16, label, 16, dealt->noise,
                         sizeof dealt->noise, dealt->scalar, sizeof dealt->scalar);
    CHECK(made.number == 0, "a dealing is refused");
    dealt->noise_len = made.first_written;
    dealt->scalar_len = made.second_written;
}

void test_dealing(size_t count)
{
    static struct dealt dealt, more;
    struct companion_sizes sizes = small;
    struct expander_label high;
    struct companion_status status;
    size_t total, failed = 0;
    memset(&high, 255, sizeof high);
    high.bytes[0] = 254;
    for (size_t k = 0; k < count; k++) { /* one Delta, one code key, roots and places of each layer's own, labels that rise by one */
        struct expander_label label = companion_label(254 + k % 3 + 65536 * (k % 2));
        size_t layers = 1 + k % COMPANION_LAYERS_MAX;
        sizes.field = (uint8_t)(1 + k % 2);
        EXPECT(0, companion_deal_layers(&sizes, label, layers, dealt.made));
        for (size_t j = 0; j < layers; j++) {
            struct expander_described head = expander_describe(dealt.made[j].noise, dealt.made[j].noise_len);
            size_t element = sizes.field == 1 ? 16 : 8, start = dealt.made[j].scalar_len - 16 * sizes.trees - element;
            uint64_t low;
            memcpy(&low, head.label, 8);
            CHECK(head.number == 0 && low == 254 + k % 3 + 65536 * (k % 2) + j && is_zero(head.label + 8, 8), "labels rise by one");
            CHECK(memcmp(dealt.made[j].scalar + start, dealt.made[0].scalar + start, element) == 0, "Delta");
            CHECK(memcmp(dealt.made[j].scalar + 8, dealt.made[0].scalar + 8, 16) == 0, "code key");
            for (size_t i = 0; i < j; i++)
                for (size_t root = 0; root < sizes.trees; root++)
                    CHECK(memcmp(dealt.made[j].scalar + start + element + 16 * root, dealt.made[i].scalar + start + element + 16 * root, 16)
                          != 0, "a root comes twice");
        }
    }
    status = EXPECT(COMPANION_LAYER_LABEL, companion_deal_layers(&small, high, 3, dealt.made)); /* there are two from here on */
    CHECK(is_zero(dealt.made, 3 * sizeof *dealt.made) && status.line == 3, "what was dealt is left");
    EXPECT(0, companion_deal_layers(&small, high, 2, dealt.made));
    memset(&dealt.made, 1, sizeof dealt.made);
    EXPECT(COMPANION_BAD_LAYERS, companion_deal_layers(&small, high, 0, dealt.made));
    EXPECT(COMPANION_BAD_LAYERS, companion_deal_layers(&small, high, 17, dealt.made));
    CHECK(dealt.made[0].noise[0] == 1, "what is not dealt was written");
    sizes.trees = 65;
    EXPECT(2, companion_deal_layers(&sizes, high, 2, dealt.made));
    CHECK(is_zero(dealt.made, 2 * sizeof *dealt.made), "what was dealt is left");
    watch(SIZE_MAX);
    EXPECT(0, companion_deal_layers(&small, companion_label(1), 3, more.made));
    total = unwatch();
    for (size_t place = 0; place < total; place++) {
        memset(&more.made, 1, sizeof more.made);
        watch(place);
        status = companion_deal_layers(&small, companion_label(1), 3, more.made);
        unwatch();
        if (failed_call[0] == '\0') { /* how often a place is drawn again is chance, so this run may have made fewer draws */
            EXPECT(0, status);
            continue;
        }
        EXPECT(COMPANION_NO_RANDOM, status);
        CHECK(is_zero(more.made, 3 * sizeof *more.made) && more.made[3].noise[0] == 1, "what was dealt is left");
        failed++;
    }
    CHECK(failed > 10, "only %zu draws failed", failed);
    printf("layers: %zu sources dealt; each of %zu draws fails in turn\n", count, failed);
}
