/* Links: what is altered on the way, refused, late or silent. */
#include "sections.h"

#include <errno.h>
#include <netinet/in.h>
#include <signal.h>
#include <sys/socket.h>
#include <sys/wait.h>
#include <time.h>
#include <unistd.h>

struct flipped flipped;
static ptrdiff_t flip_send(void *context, const uint8_t *bytes, size_t len)
{
    uint8_t copy[4096];
    ptrdiff_t put;
    len = len < sizeof copy ? len : sizeof copy;
    memcpy(copy, bytes, len);
    if (flipped.place >= flipped.sent && flipped.place - flipped.sent < len)
        copy[flipped.place - flipped.sent] ^= (uint8_t)(1 << flipped.bit);
    put = companion_socket_send(context, copy, len);
    flipped.sent += put > 0 ? (size_t)put : 0;
    return put;
}

void flip_link(struct side *side)
{
    side->link.send = flip_send;
    flipped.sent = 0;
}

static void run_flipped(struct side *side)
{
    flip_link(side);
    run_jointly(side);
}

/* Each bit of each byte of a run in turn: no end gives a wrong result, and where it is not in the last message no end gives any. */
void test_altered(size_t count)
{
    enum { LAST = 4 + 16 };
    static struct companion_circuit circuit;
    static uint8_t due[4096];
    companion_wire a[4], b[4], sum[5];
    size_t total = 0, tried = 0, one_sided = 0;
    memset(&circuit, 0, sizeof circuit);
    companion_input(&circuit, COMPANION_ROLE_1, a, 4);
    companion_input(&circuit, COMPANION_ROLE_2, b, 4);
    companion_sum(&circuit, COMPANION_FLAT, a, b, 4, sum);
    companion_output(&circuit, COMPANION_BOTH, sum, 5);
    for (size_t from = 0; from < 2; from++) {
        prepare(&circuit, due);
        sides[from].run = run_flipped;
        flipped.place = SIZE_MAX;
        deal_sides(&larger, 1, sides);
        run_both(sides);
        EXPECT(0, sides[0].status);
        EXPECT(0, sides[1].status);
        total = sides[from].socket.sent;
        for (flipped.place = SENT_BEFORE; flipped.place < total; flipped.place++)
            for (flipped.bit = (int)draw(count == 0 ? 8 : 1); flipped.bit < 8; flipped.bit += count == 0 ? 8 : 1, tried++) {
                size_t given = 0;
                memset(joints[0].outputs, 7, sizeof joints[0].outputs);
                memset(joints[1].outputs, 7, sizeof joints[1].outputs);
                run_both(sides);
                for (int side = 0; side < 2; side++) {
                    const uint8_t *out = joints[side].outputs;
                    CHECK(sides[side].status.number == 0 ? memcmp(out, due, 5) == 0 : out[0] == 7 && out[4] == 7,
                          "bit %d of byte %zu of end %zu: end %d has a result that is wrong, or not to be given: %s", flipped.bit,
                          flipped.place, from, side, said(sides[side].status));
                    given += sides[side].status.number == 0;
                }
                CHECK(given == 0 || (given == 1 && flipped.place >= total - LAST), "byte %zu of %zu: %zu ends give a result: %s",
                      flipped.place, total, given, said(sides[0].status));
                one_sided += given == 1;
                CHECK(given == 1 || sides[0].status.number == COMPANION_FAR || sides[1].status.number == COMPANION_FAR
                      || sides[0].status.number == sides[1].status.number || sides[0].status.number == COMPANION_CLOSED
                      || sides[1].status.number == COMPANION_CLOSED, "%s; %s", said(sides[0].status), said(sides[1].status));
            }
    }
    CHECK(one_sided > 0, "the last message never parted the ends");
    printf("altered: %zu bits of a run altered on the way, none in silence; in the last message %zu, where one end has the result\n", tried,
           one_sided);
}

/* Over TCP, where an end that closes with bytes unread has the other's sends refused: the number still arrives, however late
 * the other end looks. */
void test_refusals(size_t count)
{
    static struct companion_circuit circuit;
    companion_wire a[4], b[4], less;
    size_t told = 0;
    companion_input(&circuit, COMPANION_ROLE_1, a, 4);
    companion_input(&circuit, COMPANION_ROLE_2, b, 4);
    less = companion_less(&circuit, COMPANION_RIPPLE, a, b, 4);
    companion_output(&circuit, COMPANION_BOTH, &less, 1);
    for (size_t turn = 0; turn < count; turn++) {
        struct sockaddr_in address;
        socklen_t len = sizeof address;
        struct companion_triples triples = {4, take(12, 1), 0}, none = {0, NULL, 0};
        struct companion_socket far = {0, 20000, 0, 0, 0};
        struct companion_link link = {companion_socket_send, companion_socket_receive, &far};
        const uint8_t own[4] = {0, 1, 0, 1};
        uint8_t output[1];
        int fds[2], listening = socket(AF_INET, SOCK_STREAM, 0), status;
        pid_t id;
        memset(&address, 0, sizeof address);
        address.sin_family = AF_INET;
        address.sin_addr.s_addr = htonl(INADDR_LOOPBACK);
        fds[0] = socket(AF_INET, SOCK_STREAM, 0);
        if (bind(listening, (struct sockaddr *)&address, len) != 0 || listen(listening, 1) != 0
            || getsockname(listening, (struct sockaddr *)&address, &len) != 0 || connect(fds[0], (struct sockaddr *)&address, len) != 0
            || (fds[1] = accept(listening, NULL, NULL)) < 0)
            complain(HERE, "no TCP connection on this machine");
        fflush(stdout);
        id = fork();
        if (id == 0) {
            far.fd = fds[1];
            __real_close(fds[0]);
            _exit(companion_run(&link, COMPANION_ROLE_1, &circuit, own, &none, output, NULL).number != EXPANDER_TOO_FEW_TRIPLES);
        }
        far.fd = fds[0];
        __real_close(fds[1]);
        __real_close(listening);
        usleep((useconds_t)(turn % 3 * 3000));
        EXPECT_FAR(EXPANDER_TOO_FEW_TRIPLES, companion_run(&link, COMPANION_ROLE_2, &circuit, own, &triples, output, NULL));
        __real_close(fds[0]);
        CHECK(waitpid(id, &status, 0) == id && status == 0, "the end that refuses: %d", status);
        told++;
    }
    printf("refusals: over TCP %zu refusals of one end are the other's, as the far end's\n", told);
}

/* A link that sends a byte at a time, and waits before each; and both ends' limits. */
static int drip_wait, whole_limit[2];
static ptrdiff_t drip_send(void *context, const uint8_t *bytes, size_t len)
{
    (void)len;
    usleep((useconds_t)drip_wait * 1000);
    return companion_socket_send(context, bytes, 1);
}
static void run_limited(struct side *side)
{
    int which = side == &sides[1];
    if (which)
        side->link.send = drip_send;
    companion_limit(&side->socket, whole_limit[which]);
    run_jointly(side);
}

static double seconds_now(void)
{
    struct timespec time;
    clock_gettime(CLOCK_MONOTONIC, &time);
    return (double)time.tv_sec + (double)time.tv_nsec / 1e9;
}

/* A far end that moves a byte now and then is given up when the whole time is over, and is told. */
void test_limits(size_t count)
{
    static struct companion_circuit circuit;
    static uint8_t due[4096];
    double began;
    (void)count;
    random_circuit(&circuit, 60);
    for (int turn = 0; turn < 3; turn++) {
        prepare(&circuit, due);
        deal_sides(&larger, 1, sides);
        sides[0].run = sides[1].run = run_limited;
        whole_limit[0] = turn == 0 ? -1 : turn == 1 ? 60000 : 300;
        whole_limit[1] = -1;
        drip_wait = turn == 2 ? 10 : 0;
        began = seconds_now();
        run_both(sides);
        if (turn < 2) {
            EXPECT(0, sides[0].status);
            EXPECT(0, sides[1].status);
            continue;
        }
        CHECK(seconds_now() - began > 0.25 && seconds_now() - began < 10, "a limit of 0.3 seconds took %.1f", seconds_now() - began);
        EXPECT(COMPANION_NOT_MOVED, sides[0].status);
        CHECK(sides[0].status.system == ETIMEDOUT, "errno");
        CHECK(sides[1].status.number == COMPANION_CLOSED || sides[1].status.far == COMPANION_NOT_MOVED, "the far end: %s",
              said(sides[1].status));
    }
    printf("limits: a run whose far end sends a byte now and then is over when its whole time is\n");
}

struct limited limits;
static ptrdiff_t limited_send(void *context, const uint8_t *bytes, size_t len)
{
    struct limited *limited = context;
    if (limited->left == 0)
        return limited->how == 0 ? 0 : limited->how == 1 ? -1 : (ptrdiff_t)len + 1;
    len = len < limited->left ? len : limited->left;
    limited->left -= len;
    return companion_socket_send(limited->socket, bytes, len);
}
static ptrdiff_t limited_receive(void *context, uint8_t *bytes, size_t len)
{
    struct limited *limited = context;
    if (limited->left == 0)
        return limited->how == 0 ? 0 : limited->how == 1 ? -1 : (ptrdiff_t)len + 1;
    len = len < limited->left ? len : limited->left;
    limited->left -= len;
    return companion_socket_receive(limited->socket, bytes, len);
}

void limit_link(struct side *side)
{
    limits.socket = &side->socket;
    side->link.send = limited_send;
    side->link.receive = limited_receive;
    side->link.context = &limits;
}

/* A far end that is silent: the wait ends. */
void test_silence(size_t count)
{
    uint8_t byte, many[65536];
    int fds[2];
    struct companion_socket quiet;
    struct companion_link link = {companion_socket_send, companion_socket_receive, &quiet};
    (void)count;
    memset(many, 0, sizeof many);
    memset(&quiet, 0, sizeof quiet);
    for (int kind = 0; kind < 2; kind++) {
        struct companion_status status;
        if (kind == 0 ? socketpair(AF_UNIX, SOCK_STREAM, 0, fds) : pipe(fds))
            complain(HERE, "no socket pair, or no pipe");
        quiet.milliseconds = 50;
        quiet.fd = fds[0];
        EXPECT(COMPANION_NOT_MOVED, status = companion_receive(&link, &byte, 1));
        CHECK(status.system == ETIMEDOUT, "errno");
        quiet.fd = fds[1];
        do
            status = companion_send(&link, many, sizeof many);
        while (status.number == 0);
        EXPECT(COMPANION_NOT_MOVED, status);
        CHECK(status.system == ETIMEDOUT, "errno");
        __real_close(fds[0]);
        signal(SIGPIPE, kind == 0 ? SIG_DFL : SIG_IGN);
        EXPECT(COMPANION_CLOSED, companion_send(&link, many, 1));
        __real_close(fds[1]);
    }
    printf("silence: a far end that does nothing ends the wait, and one that is closed raises no signal\n");
}
