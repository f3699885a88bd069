/* Joint runs of circuits. */
#include "sections.h"

/* A link that keeps what is sent. */
static struct { uint8_t bytes[65536]; size_t len; } tapped;
static ptrdiff_t tap_send(void *context, const uint8_t *bytes, size_t len)
{
    ptrdiff_t put = companion_socket_send(context, bytes, len);
    for (ptrdiff_t k = 0; k < put && tapped.len < sizeof tapped.bytes; k++)
        tapped.bytes[tapped.len++] = bytes[k];
    return put;
}
static void run_tapped(struct side *side)
{
    side->link.send = tap_send;
    tapped.len = 0;
    run_jointly(side);
}

/* Of its own inputs an end sends masks, which are random bits: as many 1 as 0, and others for the same inputs. */
static void try_masks(void)
{
    enum { BITS = 64, BEFORE = SENT_BEFORE + 4 + 40 + 4, TURNS = 20 };
    static uint8_t masks[TURNS][BITS], due[4096];
    static struct companion_circuit circuit;
    companion_wire a[BITS], b[BITS], less;
    size_t ones = 0;
    memset(&circuit, 0, sizeof circuit);
    companion_input(&circuit, COMPANION_ROLE_1, a, BITS);
    companion_input(&circuit, COMPANION_ROLE_2, b, BITS);
    less = companion_less(&circuit, COMPANION_FLAT, a, b, BITS);
    companion_output(&circuit, COMPANION_BOTH, &less, 1);
    prepare(&circuit, due);
    sides[1].run = run_tapped;
    for (size_t turn = 0; turn < TURNS; turn++) {
        deal_sides(&larger, turn, sides);
        run_both(sides);
        EXPECT(0, sides[0].status);
        EXPECT(0, sides[1].status);
        memcpy(masks[turn], tapped.bytes + BEFORE, BITS);
        for (size_t k = 0; k < BITS; k++) {
            CHECK(masks[turn][k] <= 1, "a mask is no bit");
            ones += masks[turn][k];
        }
        for (size_t k = 0; k < turn; k++)
            CHECK(memcmp(masks[k], masks[turn], BITS) != 0, "the same masks twice");
    }
    CHECK(ones > TURNS * BITS / 2 - 120 && ones < TURNS * BITS / 2 + 120, "%zu of %d masks are 1", ones, TURNS * BITS);
}

/* Without inputs where some are due a run is refused; where none are, it runs. */
static void try_no_inputs(void)
{
    static struct companion_circuit circuit;
    static uint8_t due[4096];
    companion_wire a[4], b[4], less;
    memset(&circuit, 0, sizeof circuit);
    companion_input(&circuit, COMPANION_ROLE_1, a, 4);
    companion_constant(&circuit, 9, b, 4);
    less = companion_less(&circuit, COMPANION_FLAT, a, b, 4);
    companion_output(&circuit, COMPANION_BOTH, &less, 1);
    for (int without = 0; without < 2; without++) {
        prepare(&circuit, due);
        deal_sides(&larger, 1, sides);
        joints[without].without_inputs = 1;
        run_both(sides);
        joints[without].without_inputs = 0;
        if (without == 0) {
            EXPECT(COMPANION_NO_INPUTS, sides[0].status);
            EXPECT_FAR(COMPANION_NO_INPUTS, sides[1].status);
        } else {
            EXPECT(0, sides[0].status);
            EXPECT(0, sides[1].status);
            outputs_are(due);
        }
    }
}

void test_runs(size_t count)
{
    static struct companion_circuit circuit;
    static uint8_t due[4096];
    struct expander_described_circuit counts;
    for (size_t k = 0; k < count; k++) {
        random_circuit(&circuit, 1 + draw(400));
        prepare(&circuit, due);
        deal_sides(&larger, k, sides);
        run_both(sides);
        EXPECT(0, sides[0].status);
        EXPECT(0, sides[1].status);
        outputs_are(due);
        EXPECT(0, companion_count(&circuit, &counts));
        CHECK(joints[0].rounds == counts.rounds && joints[1].rounds == counts.rounds, "rounds");
        CHECK(sides[0].socket.sent == sides[1].socket.received, "bytes");
    }
    try_masks();
    for (int fault = 0; fault < 12; fault++) { /* the second side differs */
        static const uint32_t dues[] = {COMPANION_OTHER_CIRCUIT, COMPANION_OTHER_SHARES, COMPANION_OTHER_SHARES, COMPANION_OTHER_WINDOWS,
                                        COMPANION_OTHER_WINDOWS, COMPANION_NOT_BITS, EXPANDER_TOO_FEW_TRIPLES, COMPANION_BAD_WIRE,
                                        EXPANDER_WRONG_END, EXPANDER_WRONG_END, COMPANION_OUT_OF_STEP, EXPANDER_WINDOW_PAST_END};
        do {
            random_circuit(&circuit, 60);
            prepare(&circuit, due);
        } while (companion_count(&circuit, &counts).number == 0
                 && (counts.ands < 4 || circuit.output_width[0] < 2 || joints[1].own_count == 0));
        deal_sides(&larger, 1, sides);
        switch (fault) {
        case 0: joints[1].circuit.gate[30].kind = joints[1].circuit.gate[30].kind == 1 ? 2 : 1; joints[1].count++; joints[0].count++; break;
        case 1:
            joints[1].circuit.output_role[0] ^= COMPANION_BOTH;
            joints[1].circuit.output_role[0] |= joints[1].circuit.output_role[0] == 0;
            break;
        case 2: joints[1].circuit.output_width[0]--; joints[1].circuit.output_width[joints[1].circuit.output_words++] = 1; break;
        case 3: joints[1].first++; break;
        case 4: joints[1].count++; break;
        case 5: memset(joints[1].own, 2, sizeof joints[1].own); break;
        case 6: joints[1].count = counts.ands - 1; break;
        case 7: companion_and(&joints[1].circuit, 4095, 0); break;
        case 8: joints[1].role = COMPANION_BOTH; break;
        case 9: joints[1].role = 255; break;
        case 10: joints[1].role = COMPANION_ROLE_1; break; /* which is the far end's */
        default: joints[1].first = larger.outputs; break;
        }
        run_both(sides);
        EXPECT(dues[fault], sides[1].status);
        if (fault < 5 || fault == 10) /* both find it */
            EXPECT(dues[fault], sides[0].status);
        else if (fault < 10) /* it is told */
            EXPECT_FAR(dues[fault], sides[0].status);
        else /* in a call without a link */
            EXPECT(COMPANION_CLOSED, sides[0].status);
        CHECK(fault < 5 || fault > 9 || sides[1].socket.sent == SENT_BEFORE + 4, "fault %d: %zu bytes were sent", fault,
              sides[1].socket.sent);
        if (fault == 6) {
            char due_text[100];
            snprintf(due_text, sizeof due_text, "%zu are needed, %zu are there", counts.ands, counts.ands - 1);
            SAYS(sides[1].status, due_text);
        }
    }
    for (uint8_t role = 0; role <= COMPANION_BOTH; role += COMPANION_BOTH) { /* an input that no end, or either, gives */
        prepare(&circuit, due);
        deal_sides(&larger, 1, sides);
        joints[0].circuit.input_role[0] = joints[1].circuit.input_role[0] = role;
        run_both(sides);
        EXPECT(COMPANION_BAD_WORD, sides[0].status);
        EXPECT(COMPANION_BAD_WORD, sides[1].status);
        CHECK(sides[0].socket.sent == SENT_BEFORE + 4 || sides[0].socket.sent == SENT_BEFORE, "%zu bytes were sent", sides[0].socket.sent);
    }
    try_no_inputs();
    printf("runs: %zu random circuits as the plain evaluation has them, and 12 ways in which ends differ\n", count);
}
