/* A circuit in Bristol Fashion: read, counted, run by two ends in two processes, written back. Without an argument it is the sum of two
 * numbers of two bits; with one, the circuit in that file, on inputs that are all 1. */
#define _POSIX_C_SOURCE 200809L
#include <expander_companion.h>

#include <stdio.h>
#include <string.h>
#include <sys/socket.h>
#include <sys/wait.h>
#include <unistd.h>

static const char adder[] =
    "6 11\n"
    "2 2 2\n"
    "1 3\n"
    "\n"
    "2 1 0 2 8 XOR\n"
    "2 1 0 2 4 AND\n"
    "2 1 1 3 5 XOR\n"
    "2 1 5 4 9 XOR\n"
    "4 2 1 5 3 4 6 7 MAND\n"
    "2 1 6 7 10 XOR\n";

static struct companion_circuit circuit;
static struct companion_dealt dealt[2];
static struct expander_described_circuit counts;
static uint8_t own[EXPANDER_WIRES_MAX], outputs[EXPANDER_CIRCUIT_OUTPUTS_MAX], plain[EXPANDER_CIRCUIT_OUTPUTS_MAX];

int main(int argc, char **argv)
{
    static char text[COMPANION_BRISTOL_MAX], said[300];
    struct companion_sizes sizes = {EXPANDER_BINARY, 8, 2, 64, 32, 0};
    struct companion_status status;
    size_t len = sizeof adder - 1;
    int fds[2], end, other = 1;
    memcpy(text, adder, len);
    if (argc > 1) {
        FILE *file = fopen(argv[1], "rb");
        len = file == NULL ? 0 : fread(text, 1, sizeof text, file);
        if (file == NULL || ferror(file)) {
            fprintf(stderr, "%s cannot be read\n", argv[1]);
            return 1;
        }
        fclose(file);
    }
    status = companion_read_bristol(text, len, &circuit);
    COMPANION_NEXT(status, companion_count(&circuit, &counts));
    while ((size_t)1 << sizes.depth < 4 * (counts.ands + COMPANION_CHECKED))
        sizes.depth += 2;
    sizes.outputs = (size_t)1 << (sizes.depth - 2); /* n = N / 4, and at least one for each AND and each triple that is opened */
    for (int k = 0; k < 2; k++)
        COMPANION_NEXT(status, companion_deal(&sizes, companion_label((uint64_t)k + 1), &dealt[k]));
    companion_text(status, said, sizeof said);
    if (status.number != 0 || socketpair(AF_UNIX, SOCK_STREAM, 0, fds) != 0) {
        printf("%s: %s\n", argc > 1 ? argv[1] : "the adder", said);
        return 1;
    }
    memset(own, 1, sizeof own);
    end = fork() == 0;
    struct companion_record noise = {dealt[end].noise, dealt[end].noise_len}, scalar = {dealt[1 - end].scalar, dealt[1 - end].scalar_len};
    struct companion_records records = {&noise, &scalar, 1, 1, 1};
    struct companion_socket far = {fds[end], 30000, 0, 0, 0};
    struct companion_link link = {companion_socket_send, companion_socket_receive, &far};
    companion_limit(&far, 300000); /* for all of it, beside half a minute for each move */
    status = companion_once(&link, &records, NULL, 0, &circuit, own, outputs);
    companion_wipe(dealt, sizeof dealt);
    companion_text(status, said, sizeof said);
    if (status.number != 0) fprintf(stderr, "end %d: %s\n", end + 1, said);
    if (end == 1 || status.number != 0) return status.number != 0;
    printf("%s; %d ANDs, %d rounds; outputs", said, (int)counts.ands, (int)counts.rounds);
    for (size_t k = 0; k < circuit.outputs && k < 64; k++)
        printf(" %d", outputs[k]);
    if (companion_evaluate(&circuit, own, plain).number != 0 || memcmp(outputs, plain, circuit.outputs) != 0)
        status.number = COMPANION_NOT_BITS;
    if (companion_write_bristol(&circuit, text, sizeof text, &len).number == 0)
        printf("; written back in %d bytes\n", (int)len);
    return wait(&other) < 0 || other != 0 || status.number != 0;
}
