/* Two ends in two threads, what they deal and run jointly. */
#include "sections.h"

#include <pthread.h>
#include <sys/socket.h>

const struct companion_sizes larger = {EXPANDER_BINARY, 10, 2, 4, 8, 512};
struct joint joints[2];
struct side sides[2];

static void *run_side(void *context)
{
    struct side *side = context;
    mode = side->mode;
    at = side->at;
    calls = 0;
    failed_call = "";
    side->run(side);
    side->calls = calls;
    side->failed_call = failed_call;
    mode = WELL;
    shutdown(side->socket.fd, SHUT_RDWR); /* the far end does not wait for what does not come */
    return NULL;
}

void connect_sides(struct side both[2])
{
    int fds[2];
    if (socketpair(AF_UNIX, SOCK_STREAM, 0, fds) != 0)
        complain(HERE, "no socket pair");
    for (int k = 0; k < 2; k++) {
        both[k].socket.fd = fds[k];
        both[k].socket.milliseconds = 20000;
        both[k].socket.sent = both[k].socket.received = 0;
        both[k].link.send = companion_socket_send;
        both[k].link.receive = companion_socket_receive;
        both[k].link.context = &both[k].socket;
    }
}

void run_both(struct side both[2])
{
    pthread_t thread;
    connect_sides(both);
    if (pthread_create(&thread, NULL, run_side, &both[0]) != 0)
        complain(HERE, "no thread");
    run_side(&both[1]);
    pthread_join(thread, NULL);
    __real_close(both[0].socket.fd);
    __real_close(both[1].socket.fd);
}

void deal_sides(const struct companion_sizes *sizes, uint64_t k, struct side both[2])
{
    for (int side = 0; side < 2; side++) {
        static struct companion_dealt dealt;
        EXPECT(0, companion_deal(sizes, companion_label(2 * k + 1 + (uint64_t)side), &dealt));
        memcpy(both[side].noise, dealt.noise, dealt.noise_len);
        memcpy(both[1 - side].scalar, dealt.scalar, dealt.scalar_len);
        both[side].noise_len = dealt.noise_len;
        both[1 - side].scalar_len = dealt.scalar_len;
        companion_wipe(&dealt, sizeof dealt);
        CHECK(dealt.noise[0] == 0 && dealt.noise_len == 0, "not wiped");
    }
}

struct companion_status open_side(struct side *side)
{
    return companion_open_pair(side->noise, side->noise_len, side->scalar, side->scalar_len, &side->pair);
}

void deal_raw(const struct companion_sizes *sizes, uint8_t label, struct companion_dealt *dealt)
{
    uint8_t roots[16 * 64], delta[16], head[16] = {7}, label_bytes[16] = {label};
    uint32_t positions[64];
    uint64_t values[64];
    struct expander_two_lengths made;
    for (size_t k = 0; k < sizeof roots; k++)
        roots[k] = (uint8_t)draw(256);
    for (size_t k = 0; k < sizeof delta; k++)
        delta[k] = (uint8_t)(1 + draw(255));
    for (size_t k = 0; k < sizes->trees; k++) {
        uint32_t part = (uint32_t)(((size_t)1 << sizes->depth) / sizes->trees);
        positions[k] = (uint32_t)k * part + (uint32_t)draw(part);
        values[k] = 1;
    }
    made = expander_deal(1, sizes->depth, sizes->branch_bits, sizes->trees, sizes->terms, sizes->outputs, roots, 16 * sizes->trees,
                         positions, sizes->trees, values, sizes->trees, delta, 16, head, 16, label_bytes, 16, dealt->noise,
                         sizeof dealt->noise, dealt->scalar, sizeof dealt->scalar);
    CHECK(made.number == 0, "a dealing is refused");
    dealt->noise_len = made.first_written;
    dealt->scalar_len = made.second_written;
}

void run_jointly(struct side *side)
{
    struct joint *joint = side->with;
    struct companion_triples triples = {0, NULL, 0};
    size_t half = joint->count / 2;
    side->status = open_side(side);
    if (side->status.number == 0)
        side->status = companion_compare_pair(&side->link, &side->pair);
    if (side->status.number == 0)
        side->status = companion_check(&side->link, &side->pair, 0, 2);
    if (side->status.number == 0)
        side->status = companion_add_triples(&side->pair, joint->first, half, &triples);
    if (side->status.number == 0)
        side->status = companion_add_triples(&side->pair, joint->first + half, joint->count - half, &triples);
    if (side->status.number == 0)
        side->status = companion_run(&side->link, joint->role != 0 ? joint->role : side->pair.role, &joint->circuit,
                                     joint->without_inputs ? NULL : joint->own, &triples, joint->outputs, &joint->rounds);
    CHECK(side->status.number != 0 || (triples.bytes == NULL && triples.count == 0), "triples are spent");
    companion_free_triples(&triples);
    companion_close_pair(&side->pair);
}

void prepare(const struct companion_circuit *circuit, uint8_t *due)
{
    uint8_t inputs[4096];
    struct expander_described_circuit counts;
    size_t wire = 0;
    random_bits(inputs, circuit->inputs);
    EXPECT(0, companion_evaluate(circuit, inputs, due));
    EXPECT(0, companion_count(circuit, &counts));
    for (int k = 0; k < 2; k++) {
        joints[k].circuit = *circuit;
        joints[k].role = 0;
        joints[k].own_count = 0;
        memset(joints[k].own, 0, sizeof joints[k].own); /* also what a wrong role would read */
        joints[k].first = 2;
        joints[k].count = counts.ands;
        sides[k].with = &joints[k];
        sides[k].run = run_jointly;
    }
    for (size_t word = 0; word < circuit->input_words; word++)
        for (size_t k = 0; k < circuit->input_width[word]; k++, wire++) {
            struct joint *owner = &joints[circuit->input_role[word] - 1];
            owner->own[owner->own_count++] = inputs[wire];
        }
}

void outputs_are(const uint8_t *due)
{
    for (int side = 0; side < 2; side++) {
        const struct companion_circuit *c = &joints[side].circuit;
        size_t bit = 0;
        for (size_t word = 0; word < c->output_words; word++)
            for (size_t k = 0; k < c->output_width[word]; k++, bit++)
                CHECK(joints[side].outputs[bit] == (c->output_role[word] >> side & 1 ? due[bit] : 0), "output %zu of role %d", bit,
                      side + 1);
    }
}
