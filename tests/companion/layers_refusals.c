/* Layers that do not fit are refused before anything is expanded. */
#include "layers.h"

/* Opening is refused with a sentence, before anything is expanded, and what it was to open is closed. */
static void refuses(const char *where, const struct companion_record *records, size_t layers, uint32_t number, const char *words)
{
    struct companion_end end;
    struct companion_pair pair;
    struct companion_status status;
    watch(SIZE_MAX);
    status = expect(where, number, companion_open_layers(records, layers, 2, &end));
    if (strcmp(said(status), words) != 0)
        complain(where, "'%s' is not '%s'", said(status), words);
    if (calls != 0 || !is_zero(&end, sizeof end))
        complain(where, "something was expanded or allocated, or is open");
    if (layers > 0 && layers <= COMPANION_LAYERS_MAX && records[0].len > 0) { /* the same in a pair */
        int noise = records[0].bytes[0] == EXPANDER_NOISE_END;
        static struct dealt other;
        deal(&small, 100, 1, &other);
        calls = 0;
        status = noise ? companion_open_pair_layers(records, layers, other.scalar, 1, 2, &pair)
                       : companion_open_pair_layers(other.noise, 1, records, layers, 2, &pair);
        if (status.number != number || strcmp(said(status), words) != 0 || calls != 0 || !is_zero(&pair, sizeof pair))
            complain(where, "in a pair: %s", said(status));
    }
    unwatch();
    count_checks(3);
}
#define REFUSES(records, layers, number, words) refuses(HERE, records, layers, number, words)

/* A source of four layers of which one may be changed. */
static void deal_mixed(size_t changed, const struct raw *as, struct dealt *dealt)
{
    for (size_t k = 0; k < 4; k++) {
        struct raw raw = {small, 9, 7, (uint8_t)(10 + k)};
        deal_raw(k == changed ? as : &raw, &dealt->made[k]);
    }
    take_records(dealt, 4);
}

void test_refusals(size_t count)
{
    static struct dealt dealt;
    static struct companion_record many[COMPANION_LAYERS_MAX + 1];
    static const struct { struct raw raw; const char *words; } others[] = {
        {{{2, 8, 1, 4, 8, 128}, 9, 7, 12}, "layer 3: the layer does not fit the first one: what differs is field"},
        {{{1, 9, 1, 4, 8, 128}, 9, 7, 12}, "layer 3: the layer does not fit the first one: what differs is d"},
        {{{1, 8, 1, 4, 7, 128}, 9, 7, 12}, "layer 3: the layer does not fit the first one: what differs is l"},
        {{{1, 8, 1, 4, 8, 127}, 9, 7, 12}, "layer 3: the layer does not fit the first one: what differs is n"},
        {{{1, 8, 1, 4, 8, 128}, 9, 8, 12}, "layer 3: the layer does not fit the first one: what differs is code key"},
        {{{2, 9, 1, 4, 7, 127}, 9, 8, 11}, "layer 3: the layer does not fit the first one: what differs is field, d, l, n, code key"}};
    struct companion_end noise, scalar;
    struct companion_pair pair;
    struct companion_status status;
    (void)count;
    for (size_t k = 0; k < sizeof others / sizeof *others; k++) {
        deal_mixed(2, &others[k].raw, &dealt);
        REFUSES(dealt.noise, 4, COMPANION_OTHER_LAYER, others[k].words);
        REFUSES(dealt.scalar, 4, COMPANION_OTHER_LAYER, others[k].words);
    }
    deal_mixed(2, &(struct raw){small, 9, 7, 11}, &dealt); /* labels that stand still, and that fall */
    REFUSES(dealt.noise, 4, COMPANION_LAYER_LABEL, "layer 3: the layer's label is not above that of the layer before: 11 after 11");
    REFUSES(dealt.scalar, 4, COMPANION_LAYER_LABEL, "layer 3: the layer's label is not above that of the layer before: 11 after 11");
    deal_mixed(1, &(struct raw){small, 9, 7, 3}, &dealt);
    REFUSES(dealt.noise, 4, COMPANION_LAYER_LABEL, "layer 2: the layer's label is not above that of the layer before: 3 after 10");
    many[0] = many[1] = dealt.noise[0]; /* a dealing given twice would be u = v = w = 0 */
    REFUSES(many, 2, COMPANION_LAYER_LABEL, "layer 2: the layer's label is not above that of the layer before: 10 after 10");
    deal_mixed(3, &(struct raw){small, 8, 7, 20}, &dealt); /* another Delta: the scalar end sees it, the noise end cannot */
    REFUSES(dealt.scalar, 4, COMPANION_OTHER_DELTA,
            "layer 4: the layer's Delta is not the first one's: they were not dealt as layers of one source");
    EXPECT(0, companion_open_layers(dealt.noise, 4, 2, &noise));
    companion_close(&noise);
    deal_mixed(1, &(struct raw){{1, 8, 2, 16, 8, 128}, 9, 7, 11}, &dealt); /* g and t may differ */
    EXPECT(0, companion_open_layers(dealt.noise, 4, 2, &noise));
    EXPECT(0, companion_open_layers(dealt.scalar, 4, 2, &scalar));
    is_sum(&noise, dealt.noise, 4);
    is_sum(&scalar, dealt.scalar, 4);
    correlates(&noise, &scalar);
    CHECK(companion_layer(&noise, 2).trees == 16 && companion_layer(&noise, 2).branch_bits == 2, "heads");
    companion_close(&noise);
    companion_close(&scalar);
    many[0] = dealt.noise[0]; /* the other end's record among them; one that is cut; an empty one */
    many[1] = dealt.scalar[1];
    REFUSES(many, 2, COMPANION_OTHER_LAYER, "layer 2: the layer does not fit the first one: what differs is end");
    many[1] = dealt.noise[1];
    many[1].len--;
    REFUSES(many, 2, EXPANDER_RECORD_ENDS, "layer 2: expander_describe refused with 10: the record ends before a field, or inside it");
    many[0].len = 0;
    REFUSES(many, 2, EXPANDER_RECORD_ENDS, "layer 1: expander_describe refused with 10: the record ends before a field, or inside it");
    REFUSES(many, 1, EXPANDER_RECORD_ENDS, "expander_describe refused with 10: the record ends before a field, or inside it");
    REFUSES(many, 0, COMPANION_BAD_LAYERS, "the number of layers is not 1 to 16");
    REFUSES(many, COMPANION_LAYERS_MAX + 1, COMPANION_BAD_LAYERS, "the number of layers is not 1 to 16");
    REFUSES(many, SIZE_MAX, COMPANION_BAD_LAYERS, "the number of layers is not 1 to 16");
    /* Pairs: ends exchanged, field 2, a label in both sources. */
    deal_mixed(4, NULL, &dealt);
    watch(SIZE_MAX);
    EXPECT(COMPANION_WRONG_RECORD, companion_open_pair_layers(dealt.scalar, 4, dealt.noise, 4, 2, &pair));
    EXPECT(COMPANION_BAD_LAYERS, companion_open_pair_layers(dealt.noise, 4, dealt.scalar, 0, 2, &pair));
    status = EXPECT(COMPANION_SAME_LABEL, companion_open_pair_layers(dealt.noise, 2, dealt.scalar + 1, 3, 2, &pair));
    CHECK(unwatch() == 0 && is_zero(&pair, sizeof pair), "something was expanded");
    SAYS_JUST(status, "both dealings of the pair have one label: 11");
    CHECK(live == 0, "%zu pieces of memory are left", live);
    printf("layers: %d kinds that do not fit are refused before anything is expanded, with the layer\n", 20);
}
