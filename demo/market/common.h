/* What dealer, houses and harness share: ending with a plain message, and links that never wait for
 * ever.
 */
#ifndef MARKET_COMMON_H
#define MARKET_COMMON_H

#include "expander_companion.h"

/* Stops the compiler where a limit of expander.h no longer fits what is built on it here. */
#define LIMIT(name, holds) typedef char name[(holds) ? 1 : -1]

/* House 0 is North, house 1 is South. North is the noise end of a season's first dealing and the
 * scalar end of its second; South is the other end of each. */
enum { HOUSES = 2 };
extern const char *const house_names[HOUSES];

/* Names this process in its messages. A write to a process that is gone then fails, and does not
 * end this one by a signal. */
void begin(const char *name);

/* Says "NAME: message" on the error stream and ends the process with status 1. */
void stop(const char *format, ...);

/* The argument as a number of at most `most`; stops where it is none. */
unsigned number_argument(const char *text, unsigned most);

/* A clock for measuring phases. */
double milliseconds(void);

/* This process's end of a pipe or socket, and who is at the other end. */
struct channel {
    const char *far_name;
    struct companion_socket socket;
    struct companion_link link;
};

void open_channel(struct channel *channel, int fd, const char *far_name, unsigned seconds);

/* Stops unless the status says that all is done. Where the far end stopped, was silent or has
 * records of another dealing, the message names it. */
void expect_done(const struct channel *channel, struct companion_status status);

#endif
