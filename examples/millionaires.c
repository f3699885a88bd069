/* Two millionaires find out who is richer, the classic task of secure computation, in two processes over a socket pair. */
#define _POSIX_C_SOURCE 200809L
#include <expander_companion.h>

#include <stdio.h>
#include <sys/socket.h>
#include <sys/wait.h>
#include <unistd.h>

enum { BITS = 32 };

int main(void)
{
    static const uint64_t wealth[2] = {3141592653u, 2718281828u};
    static struct companion_circuit circuit;
    static struct companion_dealt dealt[2]; /* with the roles exchanged: end k is the noise end of dealing k */
    const struct companion_sizes sizes = {EXPANDER_BINARY, 10, 2, 64, 32, 256}; /* d, g, t, l, n: see docs/SIZES.md */
    companion_wire first[BITS], second[BITS], richer;
    uint8_t own[BITS], found = 2;
    char text[300];
    int fds[2], end, other = 1;
    companion_input(&circuit, COMPANION_ROLE_1, first, BITS);
    companion_input(&circuit, COMPANION_ROLE_2, second, BITS);
    richer = companion_less(&circuit, COMPANION_FLAT, second, first, BITS);
    companion_output(&circuit, COMPANION_BOTH, &richer, 1);
    for (end = 0; end < 2; end++)
        if (companion_deal(&sizes, companion_label((uint64_t)end + 1), &dealt[end]).number != 0) return 1;
    if (socketpair(AF_UNIX, SOCK_STREAM, 0, fds) != 0) return 1;

    end = fork() == 0; /* two processes from here on, each of which uses its own wealth and records alone */
    companion_to_bits(wealth[end], own, BITS);
    struct companion_record noise = {dealt[end].noise, dealt[end].noise_len}, scalar = {dealt[1 - end].scalar, dealt[1 - end].scalar_len};
    struct companion_records records = {&noise, &scalar, 1, 1, 1};
    struct companion_socket far = {fds[end], 30000, 0, 0, 0};
    struct companion_link link = {companion_socket_send, companion_socket_receive, &far};
    struct companion_status status = companion_once(&link, &records, NULL, 0, &circuit, own, &found);
    companion_wipe(dealt, sizeof dealt);
    companion_text(status, text, sizeof text);
    if (status.number != 0) fprintf(stderr, "end %d: %s\n", end + 1, text);
    else printf("end %d: the %s is richer\n", end + 1, found ? "first" : "second");
    return (end == 0 && (wait(&other) < 0 || other != 0)) || status.number != 0 || found != (wealth[0] > wealth[1]);
}
