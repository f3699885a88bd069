/* Faults: each call of the system, or of the expander, fails in turn, and the link at each place. */
#include "sections.h"

/* All that one end does, from the dealing to the outputs, with a stock in a file. */
static struct companion_circuit fault_circuit;
static void whole_season(struct side *side)
{
    struct companion_stock stock;
    struct companion_triples triples = {0, NULL, 0};
    struct companion_dealt *dealt = __real_calloc(1, sizeof *dealt);
    struct expander_label label = companion_label(9);
    struct companion_window window;
    uint8_t own[8] = {1, 0, 1, 1, 0, 1, 0, 0}, outputs[16];
    size_t first = 0;
    uint32_t shares[1] = {100};
    char name[100];
    snprintf(name, sizeof name, "%s", side->with == NULL ? "" : (char *)side->with);
    side->status = companion_deal(&small, label, dealt);
    __real_free(dealt);
    if (side->status.number == 0)
        side->status = open_side(side);
    if (side->status.number != 0)
        return;
    label = side->pair.label;
    side->status = companion_create_stock(name[0] == '\0' ? NULL : name, label, side->pair.outputs, shares, 1, &stock);
    if (side->status.number == 0 && name[0] != '\0') {
        companion_close_stock(&stock);
        side->status = companion_open_stock(name, label, &stock);
    }
    if (side->status.number == 0) {
        side->status = companion_expand(&side->pair.noise, 0, 4, &window);
        companion_free_window(&window);
    }
    if (side->status.number == 0)
        side->status = companion_compare(&side->link, side->pair.role == 1 ? &side->pair.noise : &side->pair.scalar);
    if (side->status.number == 0)
        side->status = companion_compare_pair(&side->link, &side->pair);
    if (side->status.number == 0)
        side->status = companion_draw(&stock, &side->link, label, 0, 8, &first);
    if (side->status.number == 0)
        side->status = companion_check(&side->link, &side->pair, first, 8);
    for (int turn = 0; turn < 2; turn++) {
        if (side->status.number == 0)
            side->status = companion_draw(&stock, &side->link, label, 0, 20, &first);
        if (side->status.number == 0)
            side->status = companion_add_triples(&side->pair, first, 20, &triples);
    }
    if (side->status.number == 0)
        side->status = companion_run(&side->link, side->pair.role, &fault_circuit, own, &triples, outputs, NULL);
    if (side->status.number == 0)
        CHECK(companion_from_bits(outputs, 9) == 2 * 45, "the sum is %u", (unsigned)companion_from_bits(outputs, 9));
    if (side->status.number == 0)
        side->status = companion_pass(&stock, companion_label(10), 100);
    companion_free_triples(&triples);
    companion_close_stock(&stock);
    companion_close_pair(&side->pair);
}

static void run_season(enum mode how, size_t place)
{
    fresh_folder();
    for (int k = 0; k < 2; k++) {
        sides[k].run = whole_season;
        sides[k].with = k == 1 ? path : NULL;
        sides[k].mode = k == 1 ? how : WELL;
        sides[k].at = place;
    }
    deal_sides(&small, 1, sides);
    run_both(sides);
    sides[1].mode = WELL;
    remove_folder();
}

static void limited_season(struct side *side)
{
    limit_link(side);
    whole_season(side);
}

void test_faults(size_t count)
{
    companion_wire a[8], b[8], sum[9];
    size_t places = 0, silent = 0, refused = 0, not_reached = 0, total;
    static size_t kinds[LAST_NUMBER + 1];
    size_t told = 0;
    memset(&fault_circuit, 0, sizeof fault_circuit);
    companion_input(&fault_circuit, COMPANION_ROLE_1, a, 8);
    companion_input(&fault_circuit, COMPANION_ROLE_2, b, 8);
    companion_sum(&fault_circuit, COMPANION_FLAT, a, b, 8, sum);
    companion_output(&fault_circuit, COMPANION_BOTH, sum, 9);

    run_season(WELL, 0);
    EXPECT(0, sides[0].status);
    EXPECT(0, sides[1].status);
    run_season(FAILS, SIZE_MAX); /* none fails; those of the expander are counted too */
    EXPECT(0, sides[1].status);
    total = sides[1].calls;
    for (int how = SHORT; how <= INTERRUPTED; how++) {
        run_season((enum mode)how, 0);
        EXPECT(0, sides[1].status);
    }
    /* Each call in turn. Where one fails whose failure does no harm (the closing of what was read) all goes on. */
    for (size_t place = 0; place < total; place++) {
        run_season(FAILS, place);
        if (sides[1].failed_call[0] == '\0') { /* how often an end waits depends on the other, so this run may have made fewer calls */
            CHECK(sides[1].calls <= place, "call %zu of %zu did not fail", place, sides[1].calls);
            EXPECT(0, sides[1].status);
            not_reached++;
            continue;
        }
        kinds[sides[1].status.number]++;
        CHECK(strlen(said(sides[1].status)) > 3, "no text");
        if (sides[0].status.number == COMPANION_FAR)
            EXPECT_FAR(sides[1].status.number, sides[0].status);
        told += sides[0].status.number == COMPANION_FAR;
        CHECK(sides[1].status.number == 0 || sides[0].status.number == 0 || sides[0].status.number == COMPANION_CLOSED
              || sides[0].status.number == COMPANION_NOT_MOVED || sides[0].status.number == COMPANION_FAR, "the far end: %s",
              said(sides[0].status));
        silent += sides[1].status.number == 0;
        refused += strncmp(sides[1].failed_call, "expander_", 9) == 0;
        CHECK(sides[1].status.number != 0 || strcmp(sides[1].failed_call, "close") == 0, "the failure of %s is not told",
              sides[1].failed_call);
        places++;
    }
    CHECK(kinds[COMPANION_NO_MEMORY] > 3 && kinds[COMPANION_NO_RANDOM] > 3 && kinds[COMPANION_FILE] > 10, "kinds of faults");
    CHECK(refused > 6, "only %zu calls of the expander were made to refuse", refused);
    CHECK(not_reached < 20, "%zu places were not reached", not_reached);
    CHECK(told > 30, "the far end was told of %zu only", told);
    printf("faults: each of %zu calls fails in turn (memory %zu, random bytes %zu, files %zu, links %zu, the expander %zu, a close that"
           " does no harm %zu); the far end is told of %zu; short and interrupted ones do not fail\n", places, kinds[COMPANION_NO_MEMORY],
           kinds[COMPANION_NO_RANDOM], kinds[COMPANION_FILE], kinds[COMPANION_CLOSED] + kinds[COMPANION_NOT_MOVED], refused, silent, told);

    run_season(WELL, 0);
    total = sides[1].socket.sent + sides[1].socket.received;
    for (size_t left = places = 0; left < total; left += 1 + (count == 0 ? draw(20) : 0), places++)
        for (int how = 0; how < 3; how++) {
            limits.left = left;
            limits.how = how;
            fresh_folder();
            memset(&sides[0].pair, 0, sizeof sides[0].pair);
            sides[0].run = whole_season;
            sides[1].run = limited_season;
            sides[1].with = path;
            sides[0].with = NULL;
            deal_sides(&small, 1, sides);
            run_both(sides);
            remove_folder();
            EXPECT(how == 0 ? COMPANION_CLOSED : COMPANION_NOT_MOVED, sides[1].status);
            if (sides[0].status.number != 0)
                EXPECT(COMPANION_CLOSED, sides[0].status);
        }
    printf("faults: the link ends, fails or moves too much at each of %zu places of %zu bytes\n", places, total);
}
