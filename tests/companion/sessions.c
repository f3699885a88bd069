/* Sessions: records and stocks brought along, circuits computed one after the other. */
#include "sections.h"

#include <unistd.h>

/* What an end brings to a session: its records, in one layer or in two, and a stock in a file where it has one. */
static struct bringing {
    struct companion_record noise[2], scalar[2];
    struct companion_records records;
    struct companion_session session;
    struct companion_stock stock;
    char path[120];
    int with_stock;
    size_t caller;
    uint8_t further[EXPANDER_NOISE_RECORD_MAX + EXPANDER_SCALAR_RECORD_MAX];
} bringing[2];

static struct bringing *bring(struct side *side)
{
    struct bringing *own = &bringing[side == &sides[1]];
    own->noise[0].bytes = side->noise;
    own->noise[0].len = side->noise_len;
    own->scalar[0].bytes = side->scalar;
    own->scalar[0].len = side->scalar_len;
    own->records.noise = own->noise;
    own->records.scalar = own->scalar;
    return own;
}

/* Deals both sources in so many layers, with labels from 10 on and from 20 on. */
static void deal_layers(size_t layers)
{
    for (int side = 0; side < 2; side++) {
        static struct companion_dealt dealt[2];
        EXPECT(0, companion_deal_layers(&larger, companion_label(10 + 10 * (uint64_t)side), layers, dealt));
        memcpy(sides[side].noise, dealt[0].noise, sides[side].noise_len = dealt[0].noise_len);
        memcpy(sides[1 - side].scalar, dealt[0].scalar, sides[1 - side].scalar_len = dealt[0].scalar_len);
        memcpy(bringing[side].further, dealt[1].noise, bringing[side].noise[1].len = dealt[1].noise_len);
        memcpy(bringing[1 - side].further + EXPANDER_NOISE_RECORD_MAX, dealt[1].scalar,
               bringing[1 - side].scalar[1].len = dealt[1].scalar_len);
        bringing[side].noise[1].bytes = bringing[side].further;
        bringing[side].scalar[1].bytes = bringing[side].further + EXPANDER_NOISE_RECORD_MAX;
        bringing[side].records.noise_layers = bringing[side].records.scalar_layers = bringing[side].records.threads = layers;
        companion_wipe(dealt, sizeof dealt);
    }
}

static struct companion_status join(struct side *side)
{
    struct bringing *own = bring(side);
    return companion_join(&side->link, &own->records, own->with_stock ? &own->stock : NULL, own->caller, &own->session);
}

static int is_left(const struct companion_session *session)
{
    static const struct companion_session left;
    return memcmp(session, &left, sizeof left) == 0;
}

static void run_once(struct side *side)
{
    struct bringing *own = bring(side);
    struct joint *joint = side->with;
    side->status = companion_once(&side->link, &own->records, own->with_stock ? &own->stock : NULL, 0, &joint->circuit, joint->own,
                                  joint->outputs);
}

/* The state through a session: it becomes shares, is added up twice, and is opened. */
static void compute_state(struct side *side)
{
    size_t which = side == &sides[1];
    struct companion_session *session = &bringing[which].session;
    side->status = join(side);
    if (side->status.number == 0)
        side->status = companion_compute(session, &sharing, own_words[which], NULL, NULL, &state[which]);
    for (int turn = 0; turn < 2 && side->status.number == 0; turn++)
        side->status = companion_compute(session, &adding, NULL, &state[which], NULL, &state[which]);
    if (side->status.number == 0)
        side->status = companion_compute(session, &opening, NULL, &state[which], shown[which], NULL);
    companion_leave(session);
    CHECK(is_left(session), "what is left is all 0");
}

static void expect_state(void)
{
    EXPECT(0, sides[0].status);
    EXPECT(0, sides[1].status);
    STANDS_FOR(state, THIRD_STATE, 16);
    CHECK(companion_from_bits(shown[0], 8) == THIRD_SUM && companion_from_bits(shown[1], 8) == THIRD_SUM, "the sum opened");
    free_both(state);
}

static void create_stock_of(int side, uint64_t label, uint32_t share)
{
    struct bringing *own = &bringing[side];
    snprintf(own->path, sizeof own->path, "%.90s-%d", path, side);
    unlink(own->path);
    EXPECT(0, companion_create_stock(own->path, companion_label(label), larger.outputs, &share, 1, &own->stock));
    own->with_stock = 1;
}

static void close_stocks(void)
{
    for (int side = 0; side < 2; side++) {
        char lock[130];
        companion_close_stock(&bringing[side].stock);
        bringing[side].with_stock = 0;
        snprintf(lock, sizeof lock, "%s.lock", bringing[side].path);
        unlink(bringing[side].path);
        unlink(lock);
    }
}

/* Sessions over stocks in files go on where the one before ended, also where a program starts again; an end with its stock in memory, which
 * is behind, takes what the other's stock has left. */
static void keep_stocks(void)
{
    struct expander_described_circuit adds, opens;
    size_t each;
    EXPECT(0, companion_count(&adding, &adds));
    EXPECT(0, companion_count(&opening, &opens));
    each = COMPANION_CHECKED + 2 * adds.ands + opens.ands;
    fresh_folder();
    sides[0].run = sides[1].run = compute_state;
    for (size_t layers = 1; layers <= 2; layers++) {
        deal_layers(layers);
        create_stock_of(0, layers == 1 ? 10 : 21, 400); /* the lower label; of layers, the highest */
        create_stock_of(1, layers == 1 ? 10 : 21, 400);
        for (size_t turn = 1; turn <= 3; turn++) {
            if (turn == 3)
                bringing[1].with_stock = 0;
            run_both(sides);
            expect_state();
            for (int side = 0; side < 2; side++) {
                CHECK(bringing[side].stock.stock.next[0] == (turn == 3 && side == 1 ? 2 : turn) * each, "turn %zu of end %d", turn, side);
                companion_close_stock(&bringing[side].stock);
                EXPECT(0, companion_open_stock(bringing[side].path, companion_label(layers == 1 ? 10 : 21), &bringing[side].stock));
            }
        }
        close_stocks();
    }
    remove_folder();
}

/* What is wrong at the second end when it joins, or when it computes. */
enum {
    RECORD, OTHER_LABEL, FEW, OTHER_HEAD, MIXED, WRONG_CALLER, NO_OWN, FAULTY, LEFT, OTHER_ANDS, OTHER_GATES, SPENT, FAULTS_OF_SESSIONS
};
static struct companion_circuit many_ands, one_and;
static void session_with_fault(struct side *side)
{
    size_t which = side == &sides[1], next;
    int fault = *(int *)side->with;
    struct companion_session *session = &bringing[which].session;
    struct companion_circuit c = fault == NO_OWN || fault == OTHER_ANDS || fault == OTHER_GATES ? one_and : sharing;
    side->status = join(side);
    if (side->status.number != 0) {
        CHECK(is_left(session), "what was not joined is all 0");
        return;
    }
    if (which && fault == FAULTY)
        companion_and(&c, 4095, 0);
    if (which && fault == OTHER_ANDS)
        companion_and(&c, 0, 2);
    if (which && fault == OTHER_GATES)
        companion_xor(&c, 0, 2);
    if (fault == SPENT)
        EXPECT(EXPANDER_SHARE_SPENT, companion_compute(session, &many_ands, own_words[which], NULL, shown[which], NULL));
    next = session->memory.stock.next[0];
    side->status = companion_compute(session, &c, which && fault == NO_OWN ? NULL : own_words[which], NULL, NULL, &state[which]);
    CHECK(session->memory.stock.next[0] == next || fault == OTHER_GATES, "a refused circuit costs triples, or one without ANDs does");
    companion_leave(session);
    if (which && fault == LEFT)
        side->status = companion_compute(session, &c, own_words[which], NULL, NULL, &state[which]);
}

static void refuse_sessions(void)
{
    static const struct { uint32_t number, far; } dues[FAULTS_OF_SESSIONS] = { /* far: what the first end is told, or has of itself */
        [RECORD] = {EXPANDER_BYTES_AFTER, COMPANION_FAR}, [OTHER_LABEL] = {EXPANDER_LABEL_NOT_IN_USE, COMPANION_FAR},
        [FEW] = {EXPANDER_SHARE_SPENT, COMPANION_FAR}, [MIXED] = {COMPANION_NOT_PAIRED, COMPANION_NOT_PAIRED},
        [OTHER_HEAD] = {COMPANION_OTHER_DEALING, COMPANION_OTHER_DEALING},
        [WRONG_CALLER] = {EXPANDER_NO_CALLER, COMPANION_FAR}, [NO_OWN] = {COMPANION_NO_INPUTS, COMPANION_FAR},
        [FAULTY] = {COMPANION_BAD_WIRE, COMPANION_FAR}, [LEFT] = {COMPANION_NOT_COMPARED, 0},
        [OTHER_ANDS] = {COMPANION_OUT_OF_STEP, COMPANION_OUT_OF_STEP}, [OTHER_GATES] = {COMPANION_OTHER_CIRCUIT, COMPANION_OTHER_CIRCUIT},
        [SPENT] = {0, 0}};
    companion_wire a[8], b[8], product;
    one_and = many_ands = (struct companion_circuit){0};
    companion_input(&one_and, COMPANION_ROLE_1, a, 8);
    companion_input(&one_and, COMPANION_ROLE_2, b, 8);
    product = companion_and(&one_and, a[0], b[0]);
    companion_output(&one_and, COMPANION_SHARED, &product, 1);
    companion_input(&many_ands, COMPANION_ROLE_1, a, 8);
    companion_input(&many_ands, COMPANION_ROLE_2, b, 8);
    for (size_t k = 0; k < 500; k++)
        product = companion_and(&many_ands, a[k % 8], b[k % 7]);
    companion_output(&many_ands, COMPANION_BOTH, &product, 1);
    fresh_folder();
    for (int fault = 0; fault < FAULTS_OF_SESSIONS; fault++) {
        deal_layers(1);
        sides[0].run = sides[1].run = session_with_fault;
        sides[0].with = sides[1].with = &fault;
        if (fault == RECORD)
            sides[1].noise[sides[1].noise_len++] = 0;
        if (fault == OTHER_LABEL || fault == FEW)
            create_stock_of(1, fault == FEW ? 10 : 20, COMPANION_CHECKED - (fault == FEW));
        if (fault == WRONG_CALLER)
            bringing[1].caller = 1;
        if (fault == MIXED || fault == OTHER_HEAD) { /* of another dealing, under the same head or not */
            static struct companion_dealt dealt;
            deal_raw(&larger, 10, &dealt);
            memcpy(sides[0].noise, dealt.noise, sides[0].noise_len = dealt.noise_len);
            if (fault == MIXED)
                deal_raw(&larger, 10, &dealt);
            else
                EXPECT(0, companion_deal(&larger, companion_label(10), &dealt)); /* another code key */
            memcpy(sides[1].scalar, dealt.scalar, sides[1].scalar_len = dealt.scalar_len);
        }
        run_both(sides);
        EXPECT(dues[fault].number, sides[1].status);
        EXPECT(dues[fault].far, sides[0].status);
        if (dues[fault].far == COMPANION_FAR)
            EXPECT_FAR(dues[fault].number, sides[0].status);
        bringing[1].caller = 0;
        free_both(state);
        close_stocks();
    }
    remove_folder();
}

/* Every call of the system of a whole session fails in turn, and its link ends, fails or moves too much at every place. */
static void session_in_file(struct side *side)
{
    int which = side == &sides[1];
    uint32_t share = 400;
    struct bringing *own = &bringing[which];
    side->status = companion_create_stock(which ? path : NULL, companion_label(own->records.noise_layers == 1 ? 10 : 21), larger.outputs,
                                          &share, 1, &own->stock);
    side->with = side->status.number != 0 ? NULL : own;
    if (side->status.number != 0)
        return;
    own->with_stock = 1;
    compute_state(side);
    companion_close_stock(&own->stock);
    own->with_stock = 0;
}

static void limited_session(struct side *side)
{
    limit_link(side);
    session_in_file(side);
}

static void run_session(enum mode how, size_t place, void (*second)(struct side *side))
{
    fresh_folder();
    sides[0].run = session_in_file;
    sides[1].run = second;
    sides[1].mode = how;
    sides[1].at = place;
    run_both(sides);
    sides[1].mode = WELL;
    remove_folder();
    for (int side = 0; side < 2; side++) /* what was kept before is as it was, and what a run kept is whole */
        CHECK(state[side].count == (state[side].bits == NULL ? 0 : 16), "%zu shares", state[side].count);
    free_both(state);
}

static void fault_sessions(size_t layers, size_t count)
{
    size_t total = 0, places = 0, not_reached = 0, told = 0;
    deal_layers(layers);
    for (int how = WELL; how <= INTERRUPTED; how++) { /* FAILS: none fails, and those of the expander are counted too */
        run_session((enum mode)how, SIZE_MAX, session_in_file);
        EXPECT(0, sides[0].status);
        EXPECT(0, sides[1].status);
        total = how == FAILS ? sides[1].calls : total;
    }
    for (size_t place = 0; place < total; place++) {
        run_session(FAILS, place, session_in_file);
        if (sides[1].failed_call[0] == '\0') {
            EXPECT(0, sides[1].status);
            not_reached++;
            continue;
        }
        if (sides[0].status.number == COMPANION_FAR || (sides[1].with != NULL && sides[1].status.number != 0
            && (strcmp(sides[1].failed_call, "calloc") == 0 || strncmp(sides[1].failed_call, "expander_", 9) == 0)))
            EXPECT_FAR(sides[1].status.number, sides[0].status); /* of what fails in the session, and is not the link, it is told */
        told += sides[0].status.number == COMPANION_FAR;
        CHECK(sides[1].status.number == 0 || sides[0].status.number == 0 || sides[0].status.number == COMPANION_CLOSED
              || sides[0].status.number == COMPANION_NOT_MOVED || sides[0].status.number == COMPANION_FAR, "the far end: %s",
              said(sides[0].status));
        CHECK(sides[1].status.number != 0 || strcmp(sides[1].failed_call, "close") == 0
              || (layers > 1 && strcmp(sides[1].failed_call, "calloc") == 0), "the failure of %s is not told", sides[1].failed_call);
        places++; /* where a thread of several has no memory the others do its work */
    }
    CHECK(places > 150 && told > 60 && not_reached < 20, "%zu places, of %zu the far end was told, %zu were not reached", places, told,
          not_reached);
    printf("sessions: in %zu %s each of %zu calls fails in turn; the far end is told of %zu\n", layers, layers == 1 ? "layer" : "layers",
           places, told);
    run_session(WELL, 0, session_in_file);
    total = sides[1].socket.sent + sides[1].socket.received;
    for (size_t left = places = 0; left < total && layers == 1; left += 1 + (count == 0 ? draw(20) : 0), places++)
        for (limits.how = 0; limits.how < 3; limits.how++) {
            limits.left = left;
            run_session(WELL, 0, limited_session);
            EXPECT(limits.how == 0 ? COMPANION_CLOSED : COMPANION_NOT_MOVED, sides[1].status);
            if (sides[0].status.number != 0)
                EXPECT(COMPANION_CLOSED, sides[0].status);
        }
    if (layers == 1)
        printf("sessions: the link ends, fails or moves too much at each of %zu places of %zu bytes\n", places, total);
}

void test_sessions(size_t count)
{
    static struct companion_circuit circuit;
    static uint8_t due[4096];
    for (size_t k = 0; k < count; k++) {
        uint32_t share = (uint32_t)larger.outputs;
        size_t layers = 1 + draw(2);
        random_circuit(&circuit, 1 + draw(400));
        prepare(&circuit, due);
        deal_layers(layers);
        sides[0].run = sides[1].run = run_once;
        for (int side = 0; side < 2; side++) {
            EXPECT(0, companion_create_stock(NULL, companion_label(layers == 1 ? 10 : 21), share, &share, 1, &bringing[side].stock));
            bringing[side].with_stock = draw(2) == 0;
        }
        run_both(sides);
        EXPECT(0, sides[0].status);
        EXPECT(0, sides[1].status);
        outputs_are(due);
        for (int side = 0; side < 2; side++) { /* a run's ANDs are count in joints */
            size_t drawn = bringing[side].with_stock ? COMPANION_CHECKED + joints[side].count : 0;
            CHECK(bringing[side].stock.stock.next[0] == drawn, "%zu are drawn", (size_t)bringing[side].stock.stock.next[0]);
            bringing[side].with_stock = 0;
            companion_close_stock(&bringing[side].stock);
        }
    }
    build_shared_circuits();
    keep_stocks();
    refuse_sessions();
    printf("sessions: %zu circuits by one call as the plain evaluation has them; stocks go on; %d ways to be refused\n", count,
           FAULTS_OF_SESSIONS - 1);
    fault_sessions(1, count >= 1000);
    fault_sessions(2, count >= 1000);
}
