/* The harness: starts two houses and, each season, a dealer; shows what the houses print on one
 * screen, and beside it what the plain computation gives, since it may read both houses' bids.
 *
 *   market PROGRAMS BIDS SECONDS DEPTH BRANCH_BITS TREES TERMS OUTPUTS LAYERS TENTHS
 *
 * PROGRAMS is the folder of the programs dealer and house. BIDS has the files spring/north.bids,
 * spring/south.bids, autumn/north.bids and autumn/south.bids. SECONDS is how long the processes
 * wait for each other; the harness waits twice as long for them. The rest are the dealings' sizes,
 * how many layers a source has, and the tenths of a bit that docs/SIZES.md gives a layer at these
 * sizes (0: nothing is said). Ends with status 0 if in both seasons both houses find what the plain
 * computation gives.
 */
#define _POSIX_C_SOURCE 200809L
#include "report.h"

#include <errno.h>
#include <fcntl.h>
#include <signal.h>
#include <stdarg.h>
#include <string.h>
#include <sys/socket.h>
#include <sys/wait.h>
#include <time.h>
#include <unistd.h>

enum { SEASONS = 2, SIZES = 6, PATH_BYTES = 1024 };

static const char *const season_names[SEASONS] = {"spring", "autumn"};
static const char *const season_titles[SEASONS] = {"SPRING", "AUTUMN"};
static const char *const file_names[HOUSES] = {"north", "south"};

struct pipe_ends {
    int from, to;
};

struct market {
    char dealer[PATH_BYTES], house[PATH_BYTES]; /* the programs */
    char bid_files[HOUSES][SEASONS][PATH_BYTES];
    char *seconds; /* an argument of dealer and house */
    char **sizes;  /* SIZES arguments of the dealer; the last, of the houses too */
    unsigned harness_seconds, layers;
    struct pipe_ends records[HOUSES]; /* from the dealers to each house */
    struct pipe_ends reports[HOUSES]; /* from each house to the harness */
    int sockets[HOUSES];              /* each house's end of the socket pair */
    pid_t house_ids[HOUSES];
};

static void write_path(char path[PATH_BYTES], const char *format, ...)
{
    va_list arguments;
    int len;
    va_start(arguments, format);
    len = vsnprintf(path, PATH_BYTES, format, arguments);
    va_end(arguments);
    if (len < 0 || len >= PATH_BYTES)
        stop("a path is too long");
}

/* What is opened here is closed in every program that is started, unless it is kept for it. So
 * houses are connected by nothing else, and a house that ends is noticed by the other. */
static void close_in_programs(int fd)
{
    if (fcntl(fd, F_SETFD, FD_CLOEXEC) != 0)
        stop("cannot set up a pipe: %s", strerror(errno));
}

static void keep_in_program(int fd)
{
    if (fcntl(fd, F_SETFD, 0) != 0)
        stop("cannot set up a pipe: %s", strerror(errno));
}

static void keep_in_program_as(int fd, int as)
{
    if (dup2(fd, as) < 0)
        stop("cannot set up a pipe: %s", strerror(errno));
}

/* A standard stream that is closed is opened on /dev/null: else a pipe would get its number, which a house's own streams take. */
static void open_standard_streams(void)
{
    int fd;
    do
        fd = open("/dev/null", O_RDWR);
    while (fd >= 0 && fd <= STDERR_FILENO);
    if (fd >= 0)
        close(fd);
}

static struct pipe_ends open_pipe(void)
{
    int ends[2];
    if (pipe(ends) != 0)
        stop("cannot open a pipe: %s", strerror(errno));
    close_in_programs(ends[0]);
    close_in_programs(ends[1]);
    return (struct pipe_ends){ends[0], ends[1]};
}

static void open_connections(struct market *market)
{
    for (unsigned house = 0; house < HOUSES; house++) {
        market->records[house] = open_pipe();
        market->reports[house] = open_pipe();
    }
    if (socketpair(AF_UNIX, SOCK_STREAM, 0, market->sockets) != 0)
        stop("cannot open a socket pair: %s", strerror(errno));
    close_in_programs(market->sockets[0]);
    close_in_programs(market->sockets[1]);
}

/* As fork, but stops if there is no further process. */
static pid_t fork_process(void)
{
    pid_t id;
    fflush(stdout); /* else both processes would print what is held back */
    id = fork();
    if (id < 0)
        stop("cannot start a process: %s", strerror(errno));
    return id;
}

static void run_program(char **arguments)
{
    execv(arguments[0], arguments);
    stop("cannot run %s: %s", arguments[0], strerror(errno));
}

static pid_t start_house(struct market *market, unsigned house)
{
    char role[12], far[12];
    char *arguments[] = {market->house, role, far, market->seconds, market->sizes[SIZES - 1],
                         market->bid_files[house][0], market->bid_files[house][1], NULL};
    pid_t id = fork_process();
    if (id == 0) {
        snprintf(role, sizeof role, "%u", house + 1);
        snprintf(far, sizeof far, "%d", market->sockets[house]);
        keep_in_program_as(market->records[house].from, STDIN_FILENO);
        keep_in_program_as(market->reports[house].to, STDOUT_FILENO);
        keep_in_program(market->sockets[house]);
        run_program(arguments);
    }
    return id;
}

static void start_houses(struct market *market)
{
    for (unsigned house = 0; house < HOUSES; house++)
        market->house_ids[house] = start_house(market, house);
    for (unsigned house = 0; house < HOUSES; house++) {
        close(market->records[house].from);
        close(market->reports[house].to);
        close(market->sockets[house]);
    }
}

static pid_t start_dealer(struct market *market, unsigned label)
{
    char north[12], south[12], label_text[12];
    char **sizes = market->sizes;
    char *arguments[] = {market->dealer, north, south, market->seconds, label_text, sizes[0],
                         sizes[1], sizes[2], sizes[3], sizes[4], sizes[5], NULL};
    pid_t id = fork_process();
    if (id == 0) {
        snprintf(north, sizeof north, "%d", market->records[0].to);
        snprintf(south, sizeof south, "%d", market->records[1].to);
        snprintf(label_text, sizeof label_text, "%u", label);
        keep_in_program(market->records[0].to);
        keep_in_program(market->records[1].to);
        run_program(arguments);
    }
    return id;
}

/* Whether a process is stopped (SIGSTOP, or as a job) and so does nothing until it is continued. */
static int is_stopped(pid_t id)
{
    siginfo_t about;
    about.si_pid = 0;
    return waitid(P_PID, (id_t)id, &about, WSTOPPED | WNOHANG | WNOWAIT) == 0 && about.si_pid == id;
}

/* Waits for a process, and ends it if that takes too long, or if it is stopped and nothing more is to come of it. Returns
 * whether it gave status 0. */
static int ended_well(const struct market *market, pid_t id, int nothing_to_come)
{
    const struct timespec moment = {0, 2000000};
    double limit = milliseconds() + 1000.0 * market->harness_seconds;
    int status;
    while (waitpid(id, &status, WNOHANG) == 0) {
        if (milliseconds() > limit || (nothing_to_come && is_stopped(id))) {
            kill(id, SIGKILL);
            waitpid(id, &status, 0);
            return 0;
        }
        nanosleep(&moment, NULL);
    }
    return WIFEXITED(status) && WEXITSTATUS(status) == 0;
}

/* Reads the line that a house prints of an auction. Returns whether it came. */
static int read_report(struct market *market, unsigned house, struct report *report)
{
    struct channel channel;
    char line[512];
    size_t len = 0;
    open_channel(&channel, market->reports[house].from, house_names[house],
                 market->harness_seconds);
    do
        if (companion_receive(&channel.link, line + len, 1).number != COMPANION_DONE)
            return 0;
    while (line[len++] != '\n' && len < sizeof line - 1);
    line[len] = '\0';
    return parse_report(line, report);
}

/* Both houses' curves added up. */
static struct bids add_bids(const struct bids *north, const struct bids *south)
{
    struct bids sum;
    for (unsigned side = 0; side < SIDES; side++)
        for (unsigned level = 0; level < LEVELS; level++)
            sum.quantity[side][level] = north->quantity[side][level] + south->quantity[side][level];
    return sum;
}

/* The plain computation: the lowest level at which supply meets demand, and demand there. */
static struct clearing clear_plainly(const struct bids *sum)
{
    for (unsigned level = 0; level < LEVELS; level++)
        if (sum->quantity[SELL][level] >= sum->quantity[BUY][level])
            return (struct clearing){level + 1, sum->quantity[BUY][level]};
    return (struct clearing){0, 0};
}

static void show_curve(const char *name, const unsigned quantity[LEVELS])
{
    printf("  %-12s", name);
    for (unsigned level = 0; level < LEVELS; level++)
        printf("%6u", quantity[level]);
    printf("\n");
}

static void show_curves(const struct bids *sum, const struct clearing *plain)
{
    static const unsigned levels[LEVELS] = {1, 2, 3, 4, 5, 6, 7, 8};
    show_curve("level", levels);
    show_curve("demand", sum->quantity[BUY]);
    show_curve("supply", sum->quantity[SELL]);
    printf("%*s\n", (int)(14 + 6 * plain->level), plain->level > 0 ? "^^^" : "");
}

static void show_found(const char *who, const struct clearing *found)
{
    printf("  %-12s", who);
    if (found->level > 0)
        printf("level %u, %3u units", found->level, found->quantity);
    else
        printf("no level, 0 units ");
}

/* A line for each house, and a third for the plain computation. */
static void show_results(const struct report reports[HOUSES], const struct clearing *plain)
{
    for (unsigned house = 0; house < HOUSES; house++) {
        const struct report *report = &reports[house];
        show_found(house_names[house], &report->found);
        printf("   %u triples, %u rounds, %u bytes out, %u in\n",
               report->drawn[SUMS] + report->drawn[COMPARISON] + report->drawn[CHOICE],
               report->rounds, report->sent, report->received);
    }
    show_found("plain", plain);
    printf("   from both bid files, without the houses\n\n");
}

static void show_times(const struct report *report, const char *name)
{
    printf("  %-12s %7.1f %7.1f %7.2f %7.1f  ", name, report->ms[OFFLINE], report->ms[ON_TWO],
           report->ms[TRIPLES], report->ms[CIRCUIT]);
}

static void show_caller(const struct report *report, unsigned caller)
{
    printf("%-10s %6u %6u\n", caller_names[caller], report->drawn[caller], report->left[caller]);
}

/* Each house's times, and beside them what each caller drew from the stock and has left. */
static void show_times_and_stock(const struct report reports[HOUSES])
{
    printf("  %-12s %7s %7s %7s %7s  %-10s %6s %6s\n", "milliseconds", "offline", "on two", "triples",
           "circuit", "caller", "drew", "left");
    show_times(&reports[0], house_names[0]);
    show_caller(&reports[0], SUMS);
    show_times(&reports[1], house_names[1]);
    show_caller(&reports[0], COMPARISON);
    for (unsigned caller = CHOICE; caller < CALLERS; caller++) {
        printf("%*s", 48, "");
        show_caller(&reports[0], caller);
    }
    printf("\n");
}

/* What comes of an auction, the worst last: both houses found what the plain computation gives, one
 * found something else, or one ended before it found anything. */
enum outcome { AGREED, DIFFERED, NO_PRICE };

static int same(const struct clearing *a, const struct clearing *b)
{
    return a->level == b->level && a->quantity == b->quantity;
}

/* Shows a season's auction, beside the plain computation. */
static enum outcome show_auction(struct market *market, unsigned season,
                                 const struct report reports[HOUSES])
{
    struct bids north, south, sum;
    struct clearing plain;
    read_bids(market->bid_files[0][season], &north);
    read_bids(market->bid_files[1][season], &south);
    sum = add_bids(&north, &south);
    plain = clear_plainly(&sum);
    show_curves(&sum, &plain);
    show_results(reports, &plain);
    show_times_and_stock(reports);
    return same(&reports[0].found, &plain) && same(&reports[1].found, &plain) ? AGREED : DIFFERED;
}

static enum outcome run_season(struct market *market, unsigned season)
{
    struct report reports[HOUSES];
    unsigned count = HOUSES * market->layers, label = 1 + count * season; /* of the first layer */
    if (!ended_well(market, start_dealer(market, label), 0))
        return NO_PRICE;
    for (unsigned house = 0; house < HOUSES; house++)
        if (!read_report(market, house, &reports[house]))
            return NO_PRICE;
    printf("  %s   %s dealings %u to %u. The dealer is gone.\n\n", season_titles[season],
           season == 0 ? "A stock is opened on" : "What is left of the stock passes to", label,
           label + count - 1);
    return show_auction(market, season, reports);
}

/* Runs the seasons, up to one without a price. Returns the worst outcome. */
static enum outcome run_seasons(struct market *market)
{
    enum outcome worst = AGREED;
    for (unsigned season = 0; season < SEASONS && worst != NO_PRICE; season++) {
        enum outcome outcome = run_season(market, season);
        if (outcome > worst)
            worst = outcome;
    }
    return worst;
}

/* Closes what leads to the houses and waits for them; without a price one that is stopped is ended at once. Returns whether
 * both ended with status 0. */
static int end_houses(struct market *market, enum outcome outcome)
{
    int well = 1;
    for (unsigned house = 0; house < HOUSES; house++) {
        close(market->records[house].to);
        close(market->reports[house].from);
    }
    for (unsigned house = 0; house < HOUSES; house++)
        well &= ended_well(market, market->house_ids[house], outcome == NO_PRICE);
    return well;
}

static void set_paths(struct market *market, const char *programs, const char *bids)
{
    write_path(market->dealer, "%s/dealer", programs);
    write_path(market->house, "%s/house", programs);
    for (unsigned house = 0; house < HOUSES; house++)
        for (unsigned season = 0; season < SEASONS; season++)
            write_path(market->bid_files[house][season], "%s/%s/%s.bids", bids,
                       season_names[season], file_names[house]);
}

int main(int argc, char **argv)
{
    static struct market market;
    enum outcome outcome;
    unsigned tenths;
    begin("market");
    open_standard_streams();
    if (argc != 4 + SIZES + 1)
        stop("usage: market PROGRAMS BIDS SECONDS DEPTH BRANCH_BITS TREES TERMS OUTPUTS LAYERS TENTHS");
    set_paths(&market, argv[1], argv[2]);
    market.seconds = argv[3];
    market.harness_seconds = 2 * number_argument(argv[3], 3600);
    market.sizes = argv + 4;
    market.layers = number_argument(market.sizes[SIZES - 1], COMPANION_LAYERS_MAX);
    tenths = number_argument(argv[4 + SIZES], 9999);

    printf("\n  TWO HOUSES, ONE PRICE\n\n"
           "  Neither house sees the other's bids. The curves are both houses' together,\n"
           "  added up for this screen alone.\n\n"
           "  Dealings of field 1: d = %s, g = %s, t = %s, l = %s, n = %s; layers: %u\n",
           argv[4], argv[5], argv[6], argv[7], argv[8], market.layers);
    if (tenths > 0)
        printf("  Lightest pair, worst of sixteen keys: %u.%u bits a layer, %u in all (docs/SIZES.md)\n",
               tenths / 10, tenths % 10, tenths * market.layers / 10);
    printf("  Offline is on one thread, and then on two; the houses take turns.\n\n");
    open_connections(&market);
    start_houses(&market);
    outcome = run_seasons(&market);
    if (!end_houses(&market, outcome) || outcome == NO_PRICE)
        stop("a house or the dealer ended early, so there is no price");
    if (outcome == DIFFERED)
        stop("a house found something else than the plain computation");
    printf("  Both houses and the plain computation agree in both seasons.\n\n");
    return 0;
}
