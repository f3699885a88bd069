#define _POSIX_C_SOURCE 200809L
#include "inner.h"

#include <errno.h>
#include <poll.h>
#include <string.h>
#include <sys/socket.h>
#include <time.h>
#include <unistd.h>

/* Milliseconds of a clock that only rises, and not from 0. */
static int64_t now(void)
{
    struct timespec time = {0, 0};
    clock_gettime(CLOCK_MONOTONIC, &time);
    return 1 + (int64_t)time.tv_sec * 1000 + time.tv_nsec / 1000000;
}

void companion_limit(struct companion_socket *socket, int milliseconds)
{
    socket->until = milliseconds < 0 ? 0 : now() + milliseconds;
}

/* Waits until the socket can be read (POLLIN) or written (POLLOUT), or is closed. Once all is to be over nothing more is read;
 * what can be written without waiting still is, since it may be why this end gives up. */
static int ready(const struct companion_socket *socket, short event)
{
    struct pollfd polled = {socket->fd, event, 0};
    int wait = socket->milliseconds, count = 0;
    int64_t left = socket->until == 0 ? INT64_MAX : socket->until - now();
    if (wait < 0 ? left <= INT32_MAX : left < wait)
        wait = left > 0 ? (int)left : 0;
    if (left > 0 || event == POLLOUT)
        count = poll(&polled, 1, wait);
    if (count == 0)
        errno = ETIMEDOUT;
    return count > 0;
}

ptrdiff_t companion_socket_send(void *context, const uint8_t *bytes, size_t len)
{
    enum { PIECE = 512 }; /* a pipe that poll calls ready takes this much without waiting */
    struct companion_socket *socket = context;
    ssize_t put;
    do {
        put = ready(socket, POLLOUT) ? send(socket->fd, bytes, len, MSG_NOSIGNAL | MSG_DONTWAIT) : -1;
        if (put < 0 && errno == ENOTSOCK)
            put = write(socket->fd, bytes, len < PIECE ? len : PIECE);
    } while (put < 0 && (errno == EINTR || errno == EAGAIN));
    socket->sent += put > 0 ? (size_t)put : 0;
    return put < 0 && (errno == EPIPE || errno == ECONNRESET) ? 0 : put;
}

ptrdiff_t companion_socket_receive(void *context, uint8_t *bytes, size_t len)
{
    struct companion_socket *socket = context;
    ssize_t got;
    do
        got = ready(socket, POLLIN) ? read(socket->fd, bytes, len) : -1;
    while (got < 0 && (errno == EINTR || errno == EAGAIN));
    socket->received += got > 0 ? (size_t)got : 0;
    return got < 0 && errno == ECONNRESET ? 0 : got;
}

/* Sends all of out or, where that is NULL, receives all of in. */
static struct companion_status move(const struct companion_link *link, const uint8_t *out, uint8_t *in, size_t len)
{
    for (size_t done = 0; done < len;) {
        size_t rest = len - done;
        ptrdiff_t count;
        errno = 0;
        count = out != NULL ? link->send(link->context, out + done, rest) : link->receive(link->context, in + done, rest);
        if (count <= 0 || (size_t)count > rest)
            return companion_failed_at(count == 0 ? COMPANION_CLOSED : COMPANION_NOT_MOVED, out != NULL ? "send" : "receive",
                                       count < 0 ? errno : 0);
        done += (size_t)count;
    }
    return companion_done();
}

struct companion_status companion_send(const struct companion_link *link, const void *bytes, size_t len)
{
    return move(link, bytes, NULL, len);
}

struct companion_status companion_receive(const struct companion_link *link, void *bytes, size_t len)
{
    return move(link, NULL, bytes, len);
}

struct companion_status companion_tell(const struct companion_link *link, struct companion_status status)
{
    if (status.number != COMPANION_DONE && status.number != COMPANION_FAR && status.number != COMPANION_CLOSED
        && status.number != COMPANION_NOT_MOVED && status.number != COMPANION_FORKED)
        companion_send(link, &status.number, sizeof status.number); /* where that fails nobody is there */
    return status;
}

/* Receives what begins a message of the far end. */
static struct companion_status receive_number(const struct companion_link *link)
{
    uint32_t number = 0;
    struct companion_status status = companion_receive(link, &number, sizeof number), far = companion_failed(COMPANION_FAR);
    far.far = number;
    if (number != COMPANION_DONE)
        NEXT(status, number <= EXPANDER_LABEL_NOT_IN_USE || (number >= COMPANION_NO_MEMORY && number <= COMPANION_LAST_NUMBER)
                     ? far : companion_failed(COMPANION_OUT_OF_STEP)); /* no message of a call begins so */
    return status;
}

/* Sends the beginning of a message. Where the far end has closed the link its number may have come before. */
static struct companion_status send_first(const struct companion_link *link, const void *bytes, size_t len)
{
    struct companion_status status = companion_send(link, bytes, len), far;
    if (status.number != COMPANION_CLOSED)
        return status;
    far = receive_number(link);
    return far.number == COMPANION_FAR ? far : status;
}

/* In turns of one piece each way, so that a long one does not fill the link. The number goes with the first piece. An end that
 * waits in vain, and has sent all that it was to send, says so. */
struct companion_status companion_exchange(const struct companion_link *link, const void *own, size_t own_len, void *far,
                                           size_t far_len)
{
    enum { NUMBER = 4, PIECE = 4096 - NUMBER };
    uint8_t first[NUMBER + PIECE] = {0};
    struct companion_status status;
    size_t len = own_len < PIECE ? own_len : PIECE;
    if (len > 0)
        memcpy(first + NUMBER, own, len);
    status = send_first(link, first, NUMBER + len);
    companion_wipe(first, sizeof first);
    if (status.number != COMPANION_DONE)
        return status;
    status = receive_number(link);
    for (size_t at = 0; status.number == COMPANION_DONE && (at < own_len || at < far_len); at += PIECE) {
        if (at > 0 && at < own_len) {
            status = companion_send(link, (const uint8_t *)own + at, own_len - at < PIECE ? own_len - at : PIECE);
            if (status.number != COMPANION_DONE)
                return status;
            len = own_len - at < PIECE ? own_len : at + PIECE;
        }
        if (at < far_len)
            NEXT(status, companion_receive(link, (uint8_t *)far + at, far_len - at < PIECE ? far_len - at : PIECE));
    }
    if (status.number == COMPANION_NOT_MOVED && len == own_len)
        companion_send(link, &status.number, NUMBER);
    return status;
}

struct companion_status companion_settle(const struct companion_link *link, struct companion_status status)
{
    struct companion_status far;
    if (status.number == COMPANION_FAR || status.number == COMPANION_CLOSED || status.number == COMPANION_NOT_MOVED)
        return status;
    far = send_first(link, &status.number, sizeof status.number);
    NEXT(far, receive_number(link));
    return status.number == COMPANION_DONE ? far : status;
}

uint64_t companion_sum_of(uint64_t sum, const void *bytes, size_t len)
{
    for (size_t k = 0; k < len; k++)
        sum = (sum ^ ((const uint8_t *)bytes)[k]) * 0x100000001b3u;
    return sum;
}

/* What both ends of a dealing know. */
struct head {
    uint64_t tag, end, said[6];
    uint8_t code_key[16], label[16];
};

static struct head head_of(const struct companion_end *end, size_t layer)
{
    size_t layers = companion_layers(end);
    struct expander_described h = companion_layer(end, layer);
    struct head head = {layers > 1 ? COMPANION_TAG_LAYERS + layers : COMPANION_TAG_HEAD, h.end,
                        {h.field, h.depth, h.branch_bits, h.trees, h.terms, h.outputs}, {0}, {0}};
    memcpy(head.code_key, h.code_key, sizeof head.code_key);
    memcpy(head.label, h.label, sizeof head.label);
    return head;
}

/* How many layers a head's tag says; 0 if it is no head's. */
static size_t layers_of(const struct head *head)
{
    return head->tag == COMPANION_TAG_HEAD ? 1
           : head->tag > COMPANION_TAG_LAYERS + 1 && head->tag <= COMPANION_TAG_LAYERS + COMPANION_LAYERS_MAX
           ? (size_t)(head->tag - COMPANION_TAG_LAYERS) : 0;
}

/* What of two heads differs; of one dealing they name both ends. */
static uint32_t parts_of(const struct head *own, const struct head *far)
{
    uint32_t parts = own->end + far->end != EXPANDER_NOISE_END + EXPANDER_SCALAR_END ? COMPANION_PART_END : 0;
    for (size_t k = 0; k < sizeof own->said / sizeof *own->said; k++)
        if (own->said[k] != far->said[k])
            parts |= COMPANION_PART_FIELD << k;
    if (memcmp(own->code_key, far->code_key, sizeof own->code_key) != 0)
        parts |= COMPANION_PART_CODE_KEY;
    return memcmp(own->label, far->label, sizeof own->label) != 0 ? parts | COMPANION_PART_LABEL : parts;
}

/* What is found of two heads of a layer; of the last one, also how many layers there are. */
static struct companion_status compare_heads(const struct head *own, const struct head *far, size_t layer)
{
    uint32_t parts = parts_of(own, far) | (own->tag != far->tag ? COMPANION_PART_LAYERS : 0);
    struct companion_status status = companion_failed(parts == 0 ? COMPANION_DONE : COMPANION_OTHER_DEALING);
    status = companion_with_labels(status, COMPANION_OTHER_DEALING, own->label, far->label);
    if (parts & COMPANION_PART_LAYERS)
        status = companion_with_counts(status, COMPANION_OTHER_DEALING, layers_of(own), layers_of(far));
    status.parts = parts;
    return companion_in_layer(layers_of(own) > 1 && own->tag == far->tag ? layer : 0, status);
}

/* Exchanges the heads of the last layers of one end, or of two; of these the far end sends the other dealing's first. Where they fit and
 * say that there are more layers, those heads follow in the same order. */
static struct companion_status compare(const struct companion_link *link, const struct companion_end *const *ends, size_t count)
{
    struct head own[2 * COMPANION_LAYERS_MAX], far[2 * COMPANION_LAYERS_MAX];
    struct companion_status status;
    size_t all = count, at = count;
    memset(own, 0, sizeof own);
    for (size_t k = 0; k < count; k++) {
        own[k] = head_of(ends[k], companion_layers(ends[k]));
        for (size_t layer = 1; layer < layers_of(&own[k]); layer++)
            own[all++] = head_of(ends[k], layer);
    }
    status = companion_exchange(link, own, count * sizeof *own, far, count * sizeof *far);
    for (size_t k = 0; k < count; k++)
        NEXT(status, companion_failed(layers_of(&far[k]) == 0 ? COMPANION_OUT_OF_STEP : COMPANION_DONE));
    if (status.number != COMPANION_DONE)
        return companion_tell(link, status);
    for (size_t k = 0; k < count; k++)
        NEXT(status, compare_heads(&own[k], &far[count - 1 - k], layers_of(&own[k])));
    if (all > count)
        NEXT(status, companion_exchange(link, own + count, (all - count) * sizeof *own, far + count, (all - count) * sizeof *far));
    for (size_t k = 0; k < count; k++)
        for (size_t layer = 1, more = layers_of(&own[k]) - 1; layer <= more; layer++, at++)
            NEXT(status, compare_heads(&own[at], &far[(k + 1 < count ? all - more : count) + layer - 1], layer));
    return companion_settle(link, status);
}

struct companion_status companion_compare(const struct companion_link *link, const struct companion_end *end)
{
    return compare(link, &end, 1);
}

struct companion_status companion_compare_pair(const struct companion_link *link, struct companion_pair *pair)
{
    const struct companion_end *ends[2] = {&pair->noise, &pair->scalar};
    struct companion_status status = compare(link, ends, 2);
    pair->compared = status.number == 0;
    return status;
}

/* Whether count triples of both ends hold: bits, and the third ones combined the AND of the others. */
static uint32_t judge(const uint8_t *own, const uint8_t *far, size_t count)
{
    uint32_t number = COMPANION_DONE;
    for (size_t k = 0; k < 3 * count; k += 3) {
        if (far[k] > 1 || far[k + 1] > 1 || far[k + 2] > 1)
            return COMPANION_NOT_BITS;
        if ((own[k + 2] ^ far[k + 2]) != ((own[k] ^ far[k]) & (own[k + 1] ^ far[k + 1])))
            number = COMPANION_NOT_PAIRED;
    }
    return number;
}

struct companion_status companion_check(const struct companion_link *link, struct companion_pair *pair, size_t first, size_t count)
{
    struct companion_triples own = {0, NULL, 0};
    uint64_t asked[2] = {COMPANION_TAG_CHECK, 0}, far_asked[2];
    uint8_t *far = NULL;
    struct companion_status status = companion_add_triples(pair, first, count, &own);
    asked[1] = own.windows;
    NEXT(status, companion_given(far = companion_take(3 * count)));
    NEXT(status, companion_exchange(link, asked, sizeof asked, far_asked, sizeof far_asked));
    NEXT(status, companion_failed(memcmp(asked, far_asked, sizeof asked) != 0 ? COMPANION_OUT_OF_STEP : COMPANION_DONE));
    if (status.number != COMPANION_DONE) {
        companion_tell(link, status);
    } else {
        status = companion_exchange(link, own.bytes, 3 * count, far, 3 * count);
        NEXT(status, companion_failed(judge(own.bytes, far, count)));
        status = companion_settle(link, status);
    }
    companion_give_back(far, 3 * count);
    companion_free_triples(&own);
    return status;
}
