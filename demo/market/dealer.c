/* The dealer of a season: makes two sources with the roles exchanged, each of several layers, hands
 * each house its records over a pipe, the noise records first, and ends.
 *
 *   dealer NORTH SOUTH SECONDS LABEL DEPTH BRANCH_BITS TREES TERMS OUTPUTS LAYERS
 *
 * NORTH and SOUTH are the numbers of open pipes, SECONDS how long it waits for a house to read.
 * The layers of the first source have the labels from LABEL on, and those of the second follow.
 */
#include "common.h"

/* A record goes out as its length in two bytes, the lower first, and its bytes. */
static void hand_over(struct channel *house, const uint8_t *record, size_t len)
{
    uint8_t len_bytes[2] = {(uint8_t)len, (uint8_t)(len >> 8)};
    expect_done(house, companion_send(&house->link, len_bytes, sizeof len_bytes));
    expect_done(house, companion_send(&house->link, record, len));
}

int main(int argc, char **argv)
{
    static struct companion_dealt dealt[HOUSES][COMPANION_LAYERS_MAX]; /* house k is noise end of k */
    struct channel houses[HOUSES];
    struct companion_sizes sizes;
    unsigned label, seconds, layers;
    begin("dealer");
    if (argc != 11)
        stop("usage: dealer NORTH SOUTH SECONDS LABEL DEPTH BRANCH_BITS TREES TERMS OUTPUTS LAYERS");
    seconds = number_argument(argv[3], 3600);
    for (unsigned k = 0; k < HOUSES; k++)
        open_channel(&houses[k], (int)number_argument(argv[1 + k], 1023), house_names[k], seconds);
    label = number_argument(argv[4], 65000);
    sizes.field = EXPANDER_BINARY;
    sizes.depth = number_argument(argv[5], 255);
    sizes.branch_bits = number_argument(argv[6], 255);
    sizes.trees = number_argument(argv[7], 255);
    sizes.terms = number_argument(argv[8], 255);
    sizes.outputs = number_argument(argv[9], EXPANDER_OUTPUTS_MAX);
    layers = number_argument(argv[10], COMPANION_LAYERS_MAX);

    for (unsigned k = 0; k < HOUSES; k++)
        expect_done(&houses[k], companion_deal_layers(&sizes, companion_label(label + k * layers),
                                                      layers, dealt[k]));
    for (unsigned k = 0; k < HOUSES; k++) {
        for (unsigned layer = 0; layer < layers; layer++)
            hand_over(&houses[k], dealt[k][layer].noise, dealt[k][layer].noise_len);
        for (unsigned layer = 0; layer < layers; layer++)
            hand_over(&houses[k], dealt[1 - k][layer].scalar, dealt[1 - k][layer].scalar_len);
    }
    companion_wipe(dealt, sizeof dealt);
    return 0;
}
