/* Chosen messages: the scalar end offers two messages an output, the noise end opens the one that it wants and
 * sends correction bits for it, not the choice itself. Two processes over a socket pair. */
#define _POSIX_C_SOURCE 200809L
#include <expander_companion.h>

#include <stdio.h>
#include <string.h>
#include <sys/socket.h>
#include <sys/wait.h>
#include <unistd.h>

enum { FIRST = 100, COUNT = 3 }; /* at most EXPANDER_BATCH_MAX */

static struct companion_status refused(const char *call, uint32_t number)
{
    struct companion_status status;
    memset(&status, 0, sizeof status);
    status.number = number;
    status.call = call;
    return status;
}

/* The noise end sends correction bits, receives both messages masked, and opens those that it wants. */
static struct companion_status choose(const struct companion_link *link, const struct companion_end *end, uint8_t *opened)
{
    static const uint8_t wanted[COUNT] = {1, 0, 1}; /* known to this end alone */
    uint8_t bits[COUNT], answers[32 * COUNT];
    struct companion_window window;
    struct companion_status status = companion_expand(end, FIRST, COUNT, &window);
    COMPANION_NEXT(status, refused("expander_correction_bits", expander_correction_bits(
        COUNT, window.choices, COUNT, wanted, COUNT, bits, sizeof bits).number));
    COMPANION_NEXT(status, companion_send(link, bits, sizeof bits));
    COMPANION_NEXT(status, companion_receive(link, answers, sizeof answers));
    COMPANION_NEXT(status, refused("expander_unmask_messages", expander_unmask_messages(
        COUNT, wanted, COUNT, window.pads, 16 * COUNT, answers, sizeof answers, opened, 16 * COUNT).number));
    companion_free_window(&window);
    return status;
}

static struct companion_status offer(const struct companion_link *link, const struct companion_end *end, const uint8_t *messages)
{
    uint8_t bits[COUNT], answers[32 * COUNT];
    struct companion_window window;
    struct companion_status status = companion_expand(end, FIRST, COUNT, &window);
    COMPANION_NEXT(status, companion_receive(link, bits, sizeof bits));
    COMPANION_NEXT(status, refused("expander_mask_messages", expander_mask_messages(
        COUNT, bits, sizeof bits, window.pads, 32 * COUNT, messages, 32 * COUNT, answers, sizeof answers).number));
    COMPANION_NEXT(status, companion_send(link, answers, sizeof answers));
    companion_free_window(&window);
    return status;
}

int main(void)
{
    static const char *const texts[2 * COUNT] = {"hold", "offer", "buy", "sell", "no", "yes"};
    static struct companion_dealt dealt;
    static struct companion_end end;
    const struct companion_sizes sizes = {EXPANDER_BINARY, 10, 2, 64, 32, 256};
    uint8_t messages[32 * COUNT], opened[16 * COUNT];
    char text[300];
    int fds[2], noise, other = 1;
    struct companion_status status = companion_deal(&sizes, companion_label(1), &dealt);
    if (status.number != 0 || socketpair(AF_UNIX, SOCK_STREAM, 0, fds) != 0)
        return 1;
    memset(messages, 0, sizeof messages);
    memset(opened, 0, sizeof opened);
    for (int k = 0; k < 2 * COUNT; k++)
        memcpy(messages + 16 * k, texts[k], strlen(texts[k]));

    noise = fork() != 0;
    struct companion_socket far = {fds[noise], 30000, 0, 0, 0};
    struct companion_link link = {companion_socket_send, companion_socket_receive, &far};
    status = noise ? companion_open(dealt.noise, dealt.noise_len, &end) : companion_open(dealt.scalar, dealt.scalar_len, &end);
    companion_wipe(&dealt, sizeof dealt);
    COMPANION_NEXT(status, companion_compare(&link, &end));
    COMPANION_NEXT(status, noise ? choose(&link, &end, opened) : offer(&link, &end, messages));
    companion_close(&end);
    companion_text(status, text, sizeof text);
    if (!noise)
        return status.number != 0;
    printf("%s; opened: %.16s, %.16s, %.16s\n", text, (char *)opened, (char *)opened + 16, (char *)opened + 32);
    return wait(&other) < 0 || other != 0 || status.number != 0 || strcmp((char *)opened, "offer") != 0;
}
