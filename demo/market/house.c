/* A house: finds the price with the other house, season by season, without showing it its bids.
 *
 *   house ROLE FAR SECONDS LAYERS BIDS...
 *
 * ROLE is 1 for North and 2 for South, FAR the number of an open socket to the other house, SECONDS
 * how long the house waits for another process, LAYERS how many layers a source has. Each bid file
 * is a season's. The dealers' records come on standard input; a report of each auction goes to
 * standard output.
 */
#include "report.h"

#include <string.h>
#include <unistd.h>

enum { SEASONS_MAX = 8, RECORD_MAX = 65535 };
LIMIT(a_record_has_a_length_of_two_bytes, EXPANDER_NOISE_RECORD_MAX <= RECORD_MAX && EXPANDER_SCALAR_RECORD_MAX <= RECORD_MAX);

struct house {
    uint8_t role;               /* in the circuit */
    unsigned seasons, layers;
    struct channel dealer, far; /* far is the other house */
    struct companion_circuit circuit;
    unsigned ands[CALLERS];     /* by caller of the stock, what a season takes */
    struct companion_pair pair; /* its part in the season's two sources */
    struct companion_stock stock;
};

/* The records of an end, layer by layer. */
struct records {
    struct companion_record layer[COMPANION_LAYERS_MAX];
    uint8_t bytes[COMPANION_LAYERS_MAX][RECORD_MAX];
};

static void receive_records(struct channel *dealer, unsigned layers, struct records *records)
{
    uint8_t len[2];
    for (unsigned k = 0; k < layers; k++) {
        struct companion_record *record = &records->layer[k];
        expect_done(dealer, companion_receive(&dealer->link, len, sizeof len));
        record->bytes = records->bytes[k];
        record->len = (size_t)(len[0] | len[1] << 8);
        expect_done(dealer, companion_receive(&dealer->link, records->bytes[k], record->len));
    }
}

/* Expands the season's records, once on one thread and once on two, to show the times of both. The
 * houses take turns, so that each has the machine to itself: North goes first, and says when it is
 * done. */
static void expand(struct house *house, const struct records *noise, const struct records *scalar,
                   struct report *report)
{
    uint8_t done = 1;
    if (house->role == COMPANION_ROLE_2)
        expect_done(&house->far, companion_receive(&house->far.link, &done, sizeof done));
    for (unsigned threads = 1; threads <= 2; threads++) {
        double start = milliseconds();
        companion_close_pair(&house->pair);
        expect_done(&house->dealer, companion_open_pair_layers(noise->layer, house->layers, scalar->layer,
                                                               house->layers, threads, &house->pair));
        report->ms[threads == 1 ? OFFLINE : ON_TWO] = milliseconds() - start;
    }
    if (house->role == COMPANION_ROLE_1)
        expect_done(&house->far, companion_send(&house->far.link, &done, sizeof done));
    house->far.socket.sent = house->far.socket.received = 0;
}

/* What a caller takes in a season. Both houses draw in the same order, so they draw the same. */
static size_t draw(struct house *house, unsigned caller, struct report *report)
{
    const struct expander_stock *stock = &house->stock.stock;
    size_t first;
    expect_done(&house->far, companion_draw(&house->stock, NULL, house->pair.label, caller,
                                            house->ands[caller], &first));
    report->drawn[caller] = house->ands[caller];
    report->left[caller] = stock->end[caller] - stock->next[caller];
    return first;
}

/* Takes the season's records, expands them, compares them with the other house's, and puts the
 * stock on them: a fresh one in the first season, with enough for every season, and later what the
 * season before left. Last, the houses open some triples, to see whether all was dealt together. */
static void take_dealings(struct house *house, unsigned season, struct report *report)
{
    static struct records noise, scalar;
    struct companion_pair *pair = &house->pair;
    size_t first;
    receive_records(&house->dealer, house->layers, &noise);
    receive_records(&house->dealer, house->layers, &scalar);
    expand(house, &noise, &scalar, report);
    companion_wipe(&noise, sizeof noise);
    companion_wipe(&scalar, sizeof scalar);
    expect_done(&house->far, companion_compare_pair(&house->far.link, pair));
    if (pair->role != house->role)
        stop("the records are %s's", house->far.far_name);
    if (season == 0) {
        uint32_t shares[CALLERS];
        for (unsigned caller = 0; caller < CALLERS; caller++)
            shares[caller] = house->ands[caller] * house->seasons;
        expect_done(&house->dealer, companion_create_stock(NULL, pair->label, pair->outputs, shares,
                                                           CALLERS, &house->stock));
    } else {
        expect_done(&house->dealer, companion_pass_pair(&house->stock, pair));
    }
    first = draw(house, CHECK, report);
    expect_done(&house->far, companion_check(&house->far.link, pair, first, CHECKED));
}

/* Draws each task's triples in turn, since the tasks' ANDs follow each other in the circuit, and
 * runs it. */
static void hold_auction(struct house *house, const struct bids *bids, struct report *report)
{
    uint8_t own[HOUSE_INPUTS], output[CLEARING_OUTPUTS];
    struct companion_triples triples = {0, NULL, 0};
    size_t rounds;
    double start = milliseconds();
    for (unsigned task = 0; task < TASKS; task++) {
        size_t first = draw(house, task, report);
        expect_done(&house->far,
                    companion_add_triples(&house->pair, first, house->ands[task], &triples));
    }
    report->ms[TRIPLES] = milliseconds() - start;
    start = milliseconds();
    write_bids(bids, own);
    expect_done(&house->far, companion_run(&house->far.link, house->role, &house->circuit, own,
                                           &triples, output, &rounds));
    report->rounds = (unsigned)rounds;
    report->found = read_clearing(output);
    report->ms[CIRCUIT] = milliseconds() - start;
}

static void run_season(struct house *house, unsigned season, const struct bids *bids)
{
    struct report report;
    memset(&report, 0, sizeof report);
    take_dealings(house, season, &report);
    hold_auction(house, bids, &report);
    companion_close_pair(&house->pair);
    report.sent = (unsigned)house->far.socket.sent;
    report.received = (unsigned)house->far.socket.received;
    print_report(&report);
}

int main(int argc, char **argv)
{
    static struct house house;
    struct bids bids[SEASONS_MAX];
    unsigned seconds;
    begin("house");
    if (argc < 6 || argc > 5 + SEASONS_MAX)
        stop("usage: house ROLE FAR SECONDS LAYERS BIDS...");
    house.role = (uint8_t)number_argument(argv[1], HOUSES);
    if (house.role == 0)
        stop("a house's role is 1 or 2");
    begin(house_names[house.role - 1]);
    house.seasons = (unsigned)argc - 5;
    house.layers = number_argument(argv[4], COMPANION_LAYERS_MAX);
    seconds = number_argument(argv[3], 3600);
    open_channel(&house.dealer, STDIN_FILENO, "the dealer", seconds);
    open_channel(&house.far, (int)number_argument(argv[2], 1023), house_names[HOUSES - house.role],
                 seconds);
    build_clearing(&house.circuit, house.ands);
    house.ands[CHECK] = CHECKED;

    for (unsigned k = 0; k < house.seasons; k++)
        read_bids(argv[5 + k], &bids[k]);
    for (unsigned k = 0; k < house.seasons; k++)
        run_season(&house, k, &bids[k]);
    companion_close_stock(&house.stock);
    return 0;
}
