/* Tests of the companion's layers, under sanitizers and with the calls of the system and of the expander wrapped (tests/companion/run says
 * which): every one can be made to fail in whatever thread makes it, and what is freed must have been wiped.
 *
 *   layers SECTION [COUNT]    sections are listed in layers.h
 */
#include "layers.h"

void test_sums(size_t count)
{
    static struct dealt dealt;
    size_t layers_seen = 0, threads_seen = 0;
    for (size_t k = 0; k < count; k++) {
        struct companion_sizes sizes = random_sizes();
        size_t layers = k < COMPANION_LAYERS_MAX ? k + 1 : 1 + draw(6), threads = draw(6);
        struct companion_end noise, scalar;
        deal(&sizes, 1 + draw(1000), layers, &dealt);
        watch(SIZE_MAX);
        EXPECT(0, companion_open_layers(dealt.noise, layers, threads, &noise));
        EXPECT(0, companion_open_layers(dealt.scalar, layers, threads, &scalar));
        unwatch();
        CHECK(offline == 2 * layers && (threads > 1 || abroad == 0), "layers that were expanded: %zu", offline);
        is_sum(&noise, dealt.noise, layers);
        is_sum(&scalar, dealt.scalar, layers);
        correlates(&noise, &scalar);
        companion_close(&noise);
        companion_close(&scalar);
        CHECK(is_zero(&noise, sizeof noise) && companion_layers(&noise) == 0, "a closed end");
        layers_seen += layers;
        threads_seen += abroad;
    }
    CHECK(live == 0, "%zu pieces of memory are left", live);
    printf("layers: %zu sources of %zu layers, both ends: the sums of the layers alone, and correlated; %zu were expanded by further"
           " threads\n", count, layers_seen, threads_seen);
}

/* Two threads work at once, whichever end; where none starts the caller's does all. */
void test_threads(size_t count)
{
    static struct dealt dealt[2];
    struct companion_pair pair;
    struct companion_end end;
    (void)count;
    deal(&small, 1, 4, &dealt[0]);
    deal(&small, 5, 4, &dealt[1]);
    for (int kind = 0; kind < 3; kind++) {
        meeting = 2;
        watch(SIZE_MAX);
        if (kind == 2) {
            EXPECT(0, companion_open_pair_layers(dealt[0].noise, 4, dealt[1].scalar, 4, 2, &pair));
            companion_close_pair(&pair);
        } else {
            EXPECT(0, companion_open_layers(kind == 0 ? dealt[0].noise : dealt[0].scalar, 4, 2, &end));
            companion_close(&end);
        }
        unwatch();
        CHECK(meeting == 0 && abroad > 0 && abroad < offline, "two threads do not expand at once");
    }
    meeting = 2; /* both dealings of a pair, of one layer each */
    watch(SIZE_MAX);
    EXPECT(0, companion_open_pair_layers(dealt[0].noise, 1, dealt[1].scalar, 1, 2, &pair));
    unwatch();
    CHECK(meeting == 0 && abroad == 1, "two threads do not expand a pair's two dealings at once");
    companion_close_pair(&pair);
    no_thread = 1;
    watch(SIZE_MAX);
    EXPECT(0, companion_open_pair_layers(dealt[0].noise, 4, dealt[1].scalar, 4, 8, &pair));
    unwatch();
    no_thread = 0;
    CHECK(offline == 8 && abroad == 0, "the caller's thread does not do the work");
    is_sum(&pair.noise, dealt[0].noise, 4);
    is_sum(&pair.scalar, dealt[1].scalar, 4);
    companion_close_pair(&pair);
    watch(SIZE_MAX); /* more than there are layers */
    EXPECT(0, companion_open_layers(dealt[0].noise, 4, SIZE_MAX, &end));
    CHECK(unwatch() <= 2 + 4 + 3 * 3 + 4 + 8, "threads without work are started");
    is_sum(&end, dealt[0].noise, 4);
    companion_close(&end);
    CHECK(live == 0, "%zu pieces of memory are left", live);
    printf("layers: two threads expand at once, at either end and in a pair; where none starts, the caller's does all\n");
}

void test_stocks(size_t count)
{
    static struct dealt a, b;
    static const uint32_t shares[1] = {50};
    struct companion_pair pair, fresh;
    struct companion_end end;
    struct companion_stock stock;
    struct companion_status status;
    size_t first;
    (void)count;
    deal(&small, 1, 3, &a);
    deal(&small, 4, 3, &b);
    EXPECT(0, companion_open_pair_layers(a.noise, 3, b.scalar, 3, 1, &pair));
    CHECK(pair.role == 1 && pair.label.bytes[0] == 6, "a pair of layers has the highest label of all");
    EXPECT(0, companion_create_stock(NULL, pair.label, pair.outputs, shares, 1, &stock));
    for (uint64_t label = 1; label <= 10; label++) { /* a fresh source has no label of 1 to 6, in none of its layers */
        uint64_t other = label + 3;
        deal(&small, label, 3, &a);
        deal(&small, other, 3, &b);
        EXPECT(0, companion_open_pair_layers(label % 2 ? a.noise : b.noise, 3, label % 2 ? b.scalar : a.scalar, 3, 2, &fresh));
        CHECK(fresh.role == (label % 2 ? 1 : 2) && fresh.label.bytes[0] == other + 2, "roles and labels");
        status = companion_pass_pair(&stock, &fresh);
        if (label <= 6) {
            EXPECT(20, status);
            CHECK(status.label.bytes[0] == label && status.other.bytes[0] == 6 && stock.stock.label.bytes[0] == 6, "%s", said(status));
        } else if (label == 7) {
            EXPECT(0, status);
            CHECK(stock.stock.label.bytes[0] == 12, "the stock has the highest label");
            EXPECT(21, companion_draw(&stock, NULL, pair.label, 0, 1, &first));
            EXPECT(0, companion_draw(&stock, NULL, fresh.label, 0, 1, &first));
        } else {
            EXPECT(20, status);
            CHECK(stock.stock.label.bytes[0] == 12, "a refused passage changes the stock");
        }
        companion_close_pair(&fresh);
    }
    for (uint64_t label = 11; label <= 13; label++) { /* one end */
        deal(&small, label, 4, &a);
        EXPECT(0, companion_open_layers(a.scalar, 4, 1, &end));
        EXPECT(label == 13 ? 0 : 20, companion_pass_end(&stock, &end));
        CHECK(stock.stock.label.bytes[0] == (label == 13 ? 16 : 12), "the stock has the highest label");
        companion_close(&end);
    }
    companion_close_pair(&pair);
    deal(&small, 20, 1, &a); /* without layers all is as it was: the label of a pair is the lower one */
    deal(&small, 19, 1, &b);
    EXPECT(0, companion_open_pair(a.noise[0].bytes, a.noise[0].len, b.scalar[0].bytes, b.scalar[0].len, &pair));
    CHECK(pair.role == 2 && pair.label.bytes[0] == 19, "a pair of two dealings");
    EXPECT(0, companion_pass_pair(&stock, &pair));
    CHECK(stock.stock.label.bytes[0] == 19, "the lower label");
    EXPECT(20, companion_pass_pair(&stock, &pair));
    companion_close_pair(&pair);
    companion_close_stock(&stock);
    CHECK(live == 0, "%zu pieces of memory are left", live);
    printf("layers: a stock takes the highest label, and passes to no source that has one of those before\n");
}

void test_faults(size_t count)
{
    static struct dealt a, b;
    size_t places = 0, told = 0, unharmed = 0;
    deal(&small, 1, 4, &a);
    deal(&small, 5, 3, &b);
    for (size_t turn = 0; turn < count; turn++)
        for (size_t number = 1; number <= 4; number++) { /* of threads */
            size_t total;
            struct companion_pair pair;
            watch(SIZE_MAX);
            EXPECT(0, companion_open_pair_layers(a.noise, 4, b.scalar, 3, number, &pair));
            total = unwatch();
            companion_close_pair(&pair);
            for (size_t place = 0; place < total; place++) {
                struct companion_status status;
                int thread, memory;
                watch(place);
                status = companion_open_pair_layers(a.noise, 4, b.scalar, 3, number, &pair);
                unwatch();
                CHECK(failed_call[0] != '\0', "call %zu of %zu did not fail", place, total);
                thread = strncmp(failed_call, "pthread_", 8) == 0 && strcmp(failed_call, "pthread_mutex_init") != 0;
                memory = strcmp(failed_call, "calloc") == 0;
                if (status.number == 0) { /* a further thread had no memory, or did not start */
                    CHECK(thread || memory, "the failure of %s is not told", failed_call);
                    is_sum(&pair.noise, a.noise, 4);
                    is_sum(&pair.scalar, b.scalar, 3);
                    unharmed++;
                } else {
                    CHECK(!thread && status.number == (memory || failed_call[0] == 'p' ? COMPANION_NO_MEMORY
                                                       : strcmp(failed_call, "expander_add") == 0 ? 3u : 13u), "%s", said(status));
                    CHECK(is_zero(&pair, sizeof pair), "something stays open");
                    CHECK(failed_call[0] != 'e' || (status.line >= 1 && status.line <= 4 && strcmp(status.call, failed_call) == 0), "%s",
                          said(status));
                    told++;
                }
                companion_close_pair(&pair);
                CHECK(live == 0, "%zu pieces of memory are left", live);
                places++;
            }
        }
    CHECK(told > 30 && unharmed > 10, "%zu and %zu", told, unharmed);
    printf("layers: each of %zu calls fails in turn, on 1 to 4 threads: %zu leave nothing open, %zu threads less do no harm\n", places,
           told, unharmed);
}

int main(int argc, char **argv)
{
    static const struct section sections[] = {SECTIONS(SECTION_ROW)};
    return run_sections(argc, argv, sections, sizeof sections / sizeof *sections);
}
