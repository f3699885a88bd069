/* Two ends of layers, which compare and check. */
#include "layers.h"

#include <sys/socket.h>
#include <unistd.h>

struct side {
    struct companion_link link;
    struct companion_socket socket;
    struct dealt noise, scalar; /* of which it holds the records of its own end */
    struct companion_pair pair;
    struct companion_status status;
    size_t noise_layers, scalar_layers;
    int one; /* it compares its noise end, 1, or its scalar end, 2, alone */
    int only; /* it compares, and does not check */
};

static void *run_side(void *context)
{
    struct side *side = context;
    side->status = companion_open_pair_layers(side->noise.noise, side->noise_layers, side->scalar.scalar, side->scalar_layers, 2,
                                              &side->pair);
    if (side->status.number == 0)
        side->status = side->one == 0 ? companion_compare_pair(&side->link, &side->pair)
                       : companion_compare(&side->link, side->one == 1 ? &side->pair.noise : &side->pair.scalar);
    if (side->status.number == 0 && side->one == 0 && !side->only)
        side->status = companion_check(&side->link, &side->pair, 0, 40);
    companion_close_pair(&side->pair);
    shutdown(side->socket.fd, SHUT_RDWR);
    return NULL;
}

static void run_both(struct side sides[2])
{
    pthread_t thread;
    int fds[2];
    if (socketpair(AF_UNIX, SOCK_STREAM, 0, fds) != 0)
        complain(HERE, "no socket pair");
    for (int k = 0; k < 2; k++) {
        sides[k].socket = (struct companion_socket){fds[k], 20000, 0, 0, 0};
        sides[k].link = (struct companion_link){companion_socket_send, companion_socket_receive, &sides[k].socket};
    }
    if (__real_pthread_create(&thread, NULL, run_side, &sides[0]) != 0)
        complain(HERE, "no thread");
    run_side(&sides[1]);
    pthread_join(thread, NULL);
    close(fds[0]);
    close(fds[1]);
}

/* Two sources with the roles exchanged: labels 10, 12 and so on, and 50, 52 and so on. */
static void deal_sides(struct side sides[2], size_t first, size_t second)
{
    static struct dealt made;
    for (size_t k = 0; k < 2; k++) {
        size_t layers = k == 0 ? first : second;
        for (size_t j = 0; j < layers; j++) {
            struct raw raw = {small, (uint8_t)(3 + k), (uint8_t)(7 + k), (uint8_t)((k == 0 ? 10 : 50) + 2 * j)};
            deal_raw(&raw, &made.made[j]);
        }
        sides[k].noise = made;
        sides[1 - k].scalar = made;
        take_records(&sides[k].noise, layers);
        take_records(&sides[1 - k].scalar, layers);
        sides[k].noise_layers = sides[1 - k].scalar_layers = layers;
    }
}

void test_joint(size_t count)
{
    static struct side sides[2];
    for (size_t first = 1; first <= COMPANION_LAYERS_MAX; first += first < 4 ? 1 : 4) /* all fit, also with other numbers of layers */
        for (size_t second = 1; second <= COMPANION_LAYERS_MAX; second += second < 4 ? 1 : 4) {
            deal_sides(sides, first, second);
            for (int one = 0; one < 2; one++) {
                sides[0].one = one;
                sides[1].one = 2 * one;
                run_both(sides);
                EXPECT(0, sides[0].status);
                EXPECT(0, sides[1].status);
                if (one == 1) /* 96 bytes a head, 4 before a message and at the end; a dealing sends what it sent without layers */
                    CHECK(sides[0].socket.sent == 4 + 96 + (first > 1 ? 4 + 96 * (first - 1) : 0) + 4, "%zu bytes", sides[0].socket.sent);
            }
            sides[0].one = sides[1].one = 0;
        }
    for (size_t k = 0; k < count; k++) { /* the head of one layer changed: its label here; g and t there, in the other source */
        size_t layers = 2 + draw(5), layer = draw(layers);
        char due[160];
        deal_sides(sides, layers, 3);
        sides[0].noise.made[layer].noise[1 + 1 + 4 + 2 + 16]++;
        run_both(sides);
        EXPECT(COMPANION_OTHER_DEALING, sides[0].status);
        EXPECT(COMPANION_OTHER_DEALING, sides[1].status);
        snprintf(due, sizeof due, "layer %zu: the far end's record is of another dealing, or of the same end: what differs is label; label"
                                  " %zu here, %zu there", layer + 1, 11 + 2 * layer, 10 + 2 * layer);
        SAYS_JUST(sides[0].status, due);
        deal_sides(sides, 3, layers);
        deal_raw(&(struct raw){{1, 8, 2, 16, 8, 128}, 4, 8, (uint8_t)(50 + 2 * layer)}, &sides[0].scalar.made[layer]);
        take_records(&sides[0].scalar, layers);
        run_both(sides);
        EXPECT(COMPANION_OTHER_DEALING, sides[0].status);
        EXPECT(COMPANION_OTHER_DEALING, sides[1].status);
        snprintf(due, sizeof due, "layer %zu: the far end's record is of another dealing, or of the same end: what differs is g, t",
                 layer + 1);
        SAYS_JUST(sides[0].status, due);
        SAYS_JUST(sides[1].status, due);
    }
    deal_sides(sides, 4, 4); /* a layer that an end has not: the last one, or one between; and one layer here, many there */
    sides[1].scalar_layers = 3;
    run_both(sides);
    EXPECT(COMPANION_OTHER_DEALING, sides[0].status);
    SAYS_JUST(sides[0].status, "the far end's record is of another dealing, or of the same end: what differs is label, layers; label 16 "
                               "here, 14 there; 4 layers here, 3 there");
    SAYS_JUST(sides[1].status, "the far end's record is of another dealing, or of the same end: what differs is label, layers; label 14 "
                               "here, 16 there; 3 layers here, 4 there");
    deal_sides(sides, 4, 4);
    sides[1].scalar.scalar[1] = sides[1].scalar.scalar[2];
    sides[1].scalar.scalar[2] = sides[1].scalar.scalar[3];
    sides[1].scalar_layers = 3;
    run_both(sides);
    EXPECT(COMPANION_OTHER_DEALING, sides[0].status);
    EXPECT(COMPANION_OTHER_DEALING, sides[1].status);
    CHECK(sides[0].status.parts == COMPANION_PART_LAYERS, "%s", said(sides[0].status));
    deal_sides(sides, 4, 4);
    sides[1].scalar_layers = 1;
    run_both(sides);
    EXPECT(COMPANION_OTHER_DEALING, sides[0].status);
    EXPECT(COMPANION_OTHER_DEALING, sides[1].status);
    CHECK(sides[1].status.needed == 1 && sides[1].status.there == 4, "%s", said(sides[1].status));
    for (size_t layer = 0; layer < 3; layer++) { /* a noise record under another Delta, which only the check finds */
        deal_sides(sides, 3, 2);
        deal_raw(&(struct raw){small, 99, 7, (uint8_t)(10 + 2 * layer)}, &sides[0].noise.made[layer]);
        take_records(&sides[0].noise, 3);
        sides[0].only = sides[1].only = 1;
        run_both(sides);
        EXPECT(0, sides[0].status);
        EXPECT(0, sides[1].status);
        sides[0].only = sides[1].only = 0;
        run_both(sides);
        EXPECT(COMPANION_NOT_PAIRED, sides[0].status);
        EXPECT(COMPANION_NOT_PAIRED, sides[1].status);
    }
    CHECK(live == 0, "%zu pieces of memory are left", live);
    printf("layers: ends of 1 to 16 layers compare how many and every head, %zu changed ones; the check finds a Delta that the noise end"
           " cannot see\n", 2 * count);
}
