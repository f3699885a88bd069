/* AES-128 (FIPS 197) of a block of one end under a key of the other, in two processes over a socket pair. A round is a circuit. Between the
 * circuits both ends hold state and round key as shares, and neither knows them; the last circuit opens the ciphertext to both. */
#define _POSIX_C_SOURCE 200809L
#include <expander_companion.h>

#include <stdio.h>
#include <string.h>
#include <sys/socket.h>
#include <sys/wait.h>
#include <unistd.h>

enum { ROUNDS = 10, BITS = 128, GATES = 115 };

/* The S-box of Boyar and Peralta ("A new combinational logic minimization technique with applications to cryptology", SEA 2010): 32 ANDs
 * and 83 exclusive ors, before the constant 0x63 is added. Wires 0 to 7 are the byte's bits, lowest first. Each row makes the next wire,
 * from 8 on, of two before it; an AND has the second one negated. sbox_outputs are the wires of the result's bits. */
static const int8_t sbox_gates[GATES][2] = {
    {4, 2}, {7, 1}, {7, 4}, {7, 2}, {6, 5}, {12, 0}, {13, 4}, {9, 8}, {13, 7}, {13, 1}, {17, 11}, {3, 15}, {19, 2}, {19, 6}, {20, 0},
    {20, 12}, {21, 10}, {0, 24}, {23, 24}, {23, 11}, {12, 24}, {9, 28}, {7, 28}, {15, -20}, {18, -22}, {32, 31}, {0, -14}, {34, 31},
    {9, -28}, {17, -13}, {37, 36}, {16, -25}, {39, 36}, {10, -24}, {8, -26}, {42, 41}, {11, -23}, {44, 41}, {33, 43}, {35, 45}, {38, 43},
    {40, 45}, {46, 21}, {47, 27}, {48, 29}, {49, 30}, {50, 51}, {50, -52}, {53, 55}, {54, -56}, {57, 51}, {52, 53}, {51, 55}, {60, -59},
    {61, 53}, {52, 62}, {56, 62}, {53, -64}, {65, 63}, {56, 65}, {58, -67}, {54, 68}, {69, 66}, {58, 62}, {58, 69}, {62, 66}, {71, 70},
    {73, -20}, {66, -22}, {0, -62}, {72, -28}, {69, -13}, {58, -25}, {71, -24}, {74, -26}, {70, -23}, {73, -15}, {66, -18}, {62, -14},
    {72, -9}, {69, -17}, {58, -16}, {71, -10}, {74, -8}, {70, -11}, {90, 91}, {85, 86}, {80, 88}, {84, 85}, {77, 87}, {77, 80}, {82, 83},
    {75, 78}, {81, 82}, {91, 92}, {87, 95}, {97, 100}, {79, 93}, {78, 101}, {93, 104}, {89, 104}, {99, 105}, {96, 105}, {79, 106},
    {108, 109}, {76, 110}, {106, 110}, {103, 109}, {95, 107}, {111, 112}, {100, 113}, {98, 113}, {94, 112}, {111, 118}, {102, 117},
};
static const uint8_t sbox_outputs[8] = {116, 115, 120, 119, 118, 122, 121, 114};

/* Words of bytes: byte k has bits 8 k to 8 k + 7, lowest first. */
static void substitute(struct companion_circuit *c, const companion_wire *byte, companion_wire *result)
{
    companion_wire wire[8 + GATES];
    memcpy(wire, byte, 8 * sizeof *wire);
    for (int k = 0; k < GATES; k++) {
        int left = sbox_gates[k][0], right = sbox_gates[k][1];
        wire[8 + k] = right < 0 ? companion_and(c, wire[left], wire[-right]) : companion_xor(c, wire[left], wire[right]);
    }
    for (int k = 0; k < 8; k++)
        result[k] = 0x63 >> k & 1 ? companion_not(c, wire[sbox_outputs[k]]) : wire[sbox_outputs[k]];
}

static void add(struct companion_circuit *c, companion_wire *to, const companion_wire *word, int width)
{
    for (int k = 0; k < width; k++)
        to[k] = companion_xor(c, to[k], word[k]);
}

/* A column: byte r becomes 2 (a_r + a_r+1) + a_r+1 + (a_r+2 + a_r+3), where 2 is a shift, and 0x1b where a bit is carried out. */
static void mix(struct companion_circuit *c, const companion_wire *column, companion_wire *mixed)
{
    companion_wire sums[32];
    memcpy(sums, column, sizeof sums);
    for (int r = 0; r < 4; r++)
        add(c, sums + 8 * r, column + 8 * ((r + 1) % 4), 8);
    for (int r = 0; r < 4; r++) {
        companion_wire *byte = mixed + 8 * r, *sum = sums + 8 * r;
        for (int k = 0; k < 8; k++)
            byte[k] = k == 0 ? sum[7] : 0x1b >> k & 1 ? companion_xor(c, sum[k - 1], sum[7]) : sum[k - 1];
        add(c, byte, column + 8 * ((r + 1) % 4), 8);
        add(c, byte, sums + 8 * ((r + 2) % 4), 8);
    }
}

/* Round 1 takes key and block, each of its end, and adds the key first. The others take round key and state as shares. Each makes the next
 * round key; the last leaves out the columns, and opens its state. */
static void build_round(struct companion_circuit *c, int round)
{
    static const uint8_t constants[ROUNDS] = {0x01, 0x02, 0x04, 0x08, 0x10, 0x20, 0x40, 0x80, 0x1b, 0x36};
    companion_wire key[BITS], state[BITS], next[BITS], word[32], constant[8];
    memset(c, 0, sizeof *c);
    companion_input(c, round == 1 ? COMPANION_ROLE_1 : COMPANION_SHARED, key, BITS);
    companion_input(c, round == 1 ? COMPANION_ROLE_2 : COMPANION_SHARED, state, BITS);
    if (round == 1)
        add(c, state, key, BITS);
    for (int k = 0; k < 16; k++) /* row k % 4 comes from as many columns further on */
        substitute(c, state + 8 * ((k + k % 4 * 4) % 16), next + 8 * k);
    memcpy(state, next, sizeof state);
    for (int k = 0; k < 4 && round < ROUNDS; k++)
        mix(c, next + 32 * k, state + 32 * k);
    for (int k = 0; k < 4; k++) /* the key's last word, turned by a byte */
        substitute(c, key + 96 + 8 * ((k + 1) % 4), word + 8 * k);
    companion_constant(c, constants[round - 1], constant, 8);
    add(c, word, constant, 8);
    for (int k = 0; k < 4; k++)
        add(c, key + 32 * k, k == 0 ? word : key + 32 * (k - 1), 32);
    add(c, state, key, BITS);
    if (round < ROUNDS)
        companion_output(c, COMPANION_SHARED, key, BITS);
    companion_output(c, round < ROUNDS ? COMPANION_SHARED : COMPANION_BOTH, state, BITS);
}

/* All rounds in a session. */
static struct companion_status encrypt(struct companion_session *session, const uint8_t *own, uint8_t *output)
{
    static struct companion_circuit circuit;
    struct companion_shares state = {0, NULL, 0};
    struct companion_status status;
    int round = 1;
    do {
        build_round(&circuit, round);
        status = companion_compute(session, &circuit, own, &state, round < ROUNDS ? NULL : output, &state);
    } while (status.number == 0 && round++ < ROUNDS);
    companion_free_shares(&state);
    return status;
}

int main(void)
{
    static const uint8_t texts[3][16] = { /* FIPS 197, appendix B: key, block, and what is due */
        {0x2b, 0x7e, 0x15, 0x16, 0x28, 0xae, 0xd2, 0xa6, 0xab, 0xf7, 0x15, 0x88, 0x09, 0xcf, 0x4f, 0x3c},
        {0x32, 0x43, 0xf6, 0xa8, 0x88, 0x5a, 0x30, 0x8d, 0x31, 0x31, 0x98, 0xa2, 0xe0, 0x37, 0x07, 0x34},
        {0x39, 0x25, 0x84, 0x1d, 0x02, 0xdc, 0x09, 0xfb, 0xdc, 0x11, 0x85, 0x97, 0x19, 0x6a, 0x0b, 0x32}};
    static struct companion_dealt dealt[2]; /* with the roles exchanged: end k is the noise end of dealing k */
    static struct companion_session session;
    const struct companion_sizes sizes = {EXPANDER_BINARY, 14, 2, 64, 32, 8192}; /* n: 6,400 ANDs, and 40 triples to check */
    struct companion_status status = companion_deal(&sizes, companion_label(1), &dealt[0]);
    uint8_t own[BITS], output[BITS];
    char text[300];
    int fds[2], end, other = 1, wrong = 0;
    COMPANION_NEXT(status, companion_deal(&sizes, companion_label(2), &dealt[1]));
    if (status.number != 0 || socketpair(AF_UNIX, SOCK_STREAM, 0, fds) != 0)
        return 1;
    end = fork() == 0;
    struct companion_socket far = {fds[end], 30000, 0, 0, 0};
    struct companion_link link = {companion_socket_send, companion_socket_receive, &far};
    struct companion_record noise = {dealt[end].noise, dealt[end].noise_len}, scalar = {dealt[1 - end].scalar, dealt[1 - end].scalar_len};
    struct companion_records records = {&noise, &scalar, 1, 1, 1};
    for (int k = 0; k < 16; k++) /* this end's own alone */
        companion_to_bits(texts[end][k], own + 8 * k, 8);
    status = companion_join(&link, &records, NULL, 0, &session);
    companion_wipe(dealt, sizeof dealt);
    COMPANION_NEXT(status, encrypt(&session, own, output));
    companion_leave(&session);
    companion_text(status, text, sizeof text);
    printf("end %d: %s", end + 1, status.number != 0 ? text : "");
    for (int k = 0; k < 16 && status.number == 0; k++) {
        unsigned byte = (unsigned)companion_from_bits(output + 8 * k, 8);
        printf("%02x", byte);
        wrong |= byte != texts[2][k];
    }
    printf(" (%d bytes sent)\n", (int)far.sent);
    return (end == 0 && (wait(&other) < 0 || other != 0)) || status.number != 0 || wrong;
}
