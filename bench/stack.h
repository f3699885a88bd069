/* The stack that a call takes. */
#ifndef STACK_H
#define STACK_H

#include <stddef.h>

/* Stops the compiler where a limit of expander.h no longer fits what is built on it here. */
#define LIMIT(name, holds) typedef char name[(holds) ? 1 : -1]

/* The bytes of a painted stack that are no longer painted after call(who); of an empty call if it is
 * NULL. */
size_t stack_touched(void (*call)(int), int who);

#endif
