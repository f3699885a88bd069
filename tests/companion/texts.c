/* Texts: every number of every call has one. */
#include "sections.h"

#include <errno.h>

void test_texts(size_t count)
{
    static const char *const names[] = {
        "deal", "describe", "noise_offline", "scalar_offline", "noise_online", "scalar_online", "noise_direct", "scalar_direct",
        "noise_pads", "scalar_pads", "read_amount", "write_amount", "correction_bits", "mask_messages", "unmask_messages", "triples",
        "open_stock", "draw", "preview", "pass_stock", "circuit_step", "circuit_round", "describe_circuit", "version", "add"};
    char name[64], tiny[5];
    struct companion_status status = {2, "expander_deal", 0, 0, 0, 0, 0, 0, {{0}}, {{0}}};
    (void)count;
    for (size_t k = 0; k < sizeof names / sizeof *names; k++)
        for (uint32_t number = 0; number <= EXPANDER_LABEL_NOT_IN_USE; number++) {
            snprintf(name, sizeof name, "expander_%s", names[k]);
            CHECK(strncmp(companion_meaning(name, number), "no such ", 8) != 0, "%s %u", name, (unsigned)number);
        }
    for (uint32_t number = COMPANION_NO_MEMORY; number <= LAST_NUMBER; number++)
        CHECK(strcmp(companion_meaning("", number), "no such number") != 0, "%u", (unsigned)number);
    CHECK(strcmp(companion_meaning("", 22), "no such number") == 0
          && strcmp(companion_meaning("", LAST_NUMBER + 1), "no such number") == 0, "22");
    CHECK(strcmp(companion_meaning("expander_nothing", 3), "no such call") == 0, "a name that is no call's");
    CHECK(strcmp(companion_meaning("expander_", 3), "no such call") == 0 && strcmp(companion_meaning("dea", 2), "no such call") == 0
          && strcmp(companion_meaning("nothing", 0), "done") == 0, "names that are no call's");
    CHECK(companion_version() == COMPANION_VERSION_NUMBER, "the companion's version");
    CHECK(strcmp(companion_meaning("expander_draw", 15), companion_meaning("draw", 15)) == 0, "names");
    CHECK(strstr(companion_meaning("expander_scalar_pads", 3), "delta") != NULL
          && strstr(companion_meaning("expander_pads", 3), "delta") == NULL, "names");
    companion_text(status, tiny, sizeof tiny);
    CHECK(strcmp(tiny, "expa") == 0, "a short text");
    CHECK(strcmp(said(status), "expander_deal refused with 2: depth, branch_bits, trees, terms or outputs is outside its range, or depth "
                               "is no multiple of branch_bits") == 0, "%s", said(status));
    status.needed = status.there = SIZE_MAX; /* every detail at its longest */
    status.parts = 2 * COMPANION_PART_LABEL - 1;
    memset(&status.label, 255, sizeof status.label);
    memset(&status.other, 254, sizeof status.other);
    for (uint32_t number = 0; number <= LAST_NUMBER; number++) {
        status.number = status.far = number;
        status.system = ENAMETOOLONG;
        CHECK(strlen(said(status)) < 299, "a text is too long");
    }
    status.number = COMPANION_OTHER_DEALING;
    status.line = COMPANION_LAYERS_MAX;
    status.parts |= COMPANION_PART_LAYERS;
    status.needed = status.there = COMPANION_LAYERS_MAX;
    CHECK(strlen(said(status)) < 299, "a text is too long");
    SAYS(status, "layer 16: the far end's record");
    SAYS(status, "; 16 layers here, 16 there");
    status.line = 0;
    status.parts &= ~COMPANION_PART_LAYERS;
    SAYS(status, "what differs is end, field, d, g, t, l, n, code key, label; label 0xffffffffffffffffffffffffffffffff here, "
                 "0xfefefefefefefefefefefefefefefefe there");
    printf("texts: every number of every call has one\n");
}
