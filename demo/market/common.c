#define _POSIX_C_SOURCE 200809L
#include "common.h"

#include <errno.h>
#include <signal.h>
#include <stdarg.h>
#include <stdio.h>
#include <stdlib.h>
#include <time.h>

const char *const house_names[HOUSES] = {"North", "South"};

static const char *process_name = "market";

void begin(const char *name)
{
    process_name = name;
    signal(SIGPIPE, SIG_IGN);
}

void stop(const char *format, ...)
{
    char message[1536];
    va_list arguments;
    va_start(arguments, format);
    vsnprintf(message, sizeof message, format, arguments);
    va_end(arguments);
    fprintf(stderr, "%s: %s\n", process_name, message); /* whole, since others print there too */
    exit(1);
}

unsigned number_argument(const char *text, unsigned most)
{
    char *rest;
    unsigned long number = strtoul(text, &rest, 10);
    if (text[0] < '0' || text[0] > '9' || *rest != '\0' || number > most)
        stop("the argument '%s' is no number from 0 to %u", text, most);
    return (unsigned)number;
}

double milliseconds(void)
{
    struct timespec now;
    clock_gettime(CLOCK_MONOTONIC, &now);
    return (double)now.tv_sec * 1e3 + (double)now.tv_nsec / 1e6;
}

void open_channel(struct channel *channel, int fd, const char *far_name, unsigned seconds)
{
    channel->far_name = far_name;
    channel->socket = (struct companion_socket){fd, (int)seconds * 1000, 0, 0, 0};
    channel->link = (struct companion_link){companion_socket_send, companion_socket_receive,
                                            &channel->socket};
}

void expect_done(const struct channel *channel, struct companion_status status)
{
    char text[300];
    companion_text(status, text, sizeof text);
    if (status.number == COMPANION_CLOSED)
        stop("%s stopped in the middle", channel->far_name);
    if (status.number == COMPANION_NOT_MOVED && status.system == ETIMEDOUT)
        stop("%s did nothing for %d seconds", channel->far_name,
             channel->socket.milliseconds / 1000);
    if (status.number == COMPANION_FAR)
        stop("%s refused with %u: %s", channel->far_name, (unsigned)status.far,
             companion_meaning("", status.far));
    if (status.number == COMPANION_OTHER_DEALING)
        stop("a record is of another dealing than %s's", channel->far_name);
    if (status.number != COMPANION_DONE)
        stop("%s", text);
}
