/* Calls of the system and of the expander, wrapped for the tests of layers: each can fail in whatever thread makes it. */
#include "layers.h"

#include <errno.h>
#include <signal.h>
#include <unistd.h>

static int watched;
static size_t at = SIZE_MAX;
size_t calls, live, offline;
const char *failed_call = "";
static pthread_t caller;
int no_thread;
size_t abroad, meeting;

static int fails(const char *name)
{
    if (!__atomic_load_n(&watched, __ATOMIC_RELAXED) || __atomic_fetch_add(&calls, 1, __ATOMIC_RELAXED) != at)
        return 0;
    failed_call = name;
    return 1;
}

enum { BEFORE = 16 };
void *__wrap_calloc(size_t count, size_t size);
void *__wrap_calloc(size_t count, size_t size)
{
    size_t *memory = fails("calloc") ? NULL : __real_calloc(1, BEFORE + count * size);
    if (memory == NULL)
        return NULL;
    *memory = count * size;
    __atomic_fetch_add(&live, 1, __ATOMIC_RELAXED);
    return (uint8_t *)memory + BEFORE;
}

void __wrap_free(void *memory);
void __wrap_free(void *memory)
{
    uint8_t *bytes = memory;
    size_t len = memory == NULL ? 0 : *(size_t *)(void *)(bytes - BEFORE);
    for (size_t k = 0; k < len; k++)
        if (bytes[k] != 0)
            complain(HERE, "byte %zu of %zu is freed and not wiped", k, len);
    if (memory != NULL) {
        __atomic_fetch_sub(&live, 1, __ATOMIC_RELAXED);
        __real_free(bytes - BEFORE);
    }
}

ssize_t __real_getrandom(void *bytes, size_t len, unsigned flags);
ssize_t __wrap_getrandom(void *bytes, size_t len, unsigned flags);
ssize_t __wrap_getrandom(void *bytes, size_t len, unsigned flags)
{
    if (!fails("getrandom"))
        return __real_getrandom(bytes, len, flags);
    errno = ENOSYS;
    return -1;
}

int __wrap_pthread_create(pthread_t *thread, const pthread_attr_t *how, void *(*run)(void *), void *with);
int __wrap_pthread_create(pthread_t *thread, const pthread_attr_t *how, void *(*run)(void *), void *with)
{
    return fails("pthread_create") || (watched && no_thread) ? EAGAIN : __real_pthread_create(thread, how, run, with);
}

#define WRAP_INT(name, parameters, arguments) \
    int __real_##name parameters; \
    int __wrap_##name parameters; \
    int __wrap_##name parameters { return fails(#name) ? ENOMEM : __real_##name arguments; }
WRAP_INT(pthread_attr_init, (pthread_attr_t *how), (how))
WRAP_INT(pthread_attr_setstacksize, (pthread_attr_t *how, size_t size), (how, size))
WRAP_INT(pthread_mutex_init, (pthread_mutex_t *lock, const pthread_mutexattr_t *how), (lock, how))

/* What happens in a thread that expands a layer: signals are blocked unless it is the caller's; two may wait for each other. */
static void expands(void)
{
    sigset_t blocked;
    if (!watched)
        return;
    __atomic_fetch_add(&offline, 1, __ATOMIC_RELAXED);
    pthread_sigmask(SIG_SETMASK, NULL, &blocked);
    if (!pthread_equal(pthread_self(), caller)) {
        __atomic_fetch_add(&abroad, 1, __ATOMIC_RELAXED);
        CHECK(sigismember(&blocked, SIGUSR1) == 1 && sigismember(&blocked, SIGINT) == 1, "a thread of the companion's gets signals");
    } else {
        CHECK(sigismember(&blocked, SIGUSR1) == 0, "the caller's signals are still blocked");
    }
    if (__atomic_load_n(&meeting, __ATOMIC_RELAXED) > 0) {
        __atomic_fetch_sub(&meeting, 1, __ATOMIC_RELAXED);
        for (int wait = 0; wait < 20000 && __atomic_load_n(&meeting, __ATOMIC_RELAXED) > 0; wait++)
            usleep(1000);
    }
}

/* The archive is not instrumented: so the thread sanitizer sees here what a call reads and writes. */
static void touch(uint64_t *words, size_t len)
{
    volatile uint64_t *first = words, *last = words + (len > 0 ? len - 1 : 0);
    *first = *first;
    *last = *last;
}

typedef struct expander_two_lengths two_lengths;
typedef struct expander_one_length one_length;
#define WRAP_OFFLINE(name) \
    two_lengths __real_##name(const uint8_t *a, size_t b, uint64_t *c, size_t d, uint64_t *e, size_t f); \
    two_lengths __wrap_##name(const uint8_t *a, size_t b, uint64_t *c, size_t d, uint64_t *e, size_t f); \
    two_lengths __wrap_##name(const uint8_t *a, size_t b, uint64_t *c, size_t d, uint64_t *e, size_t f) \
    { \
        two_lengths refused = {13, 0, 0}; \
        expands(); \
        touch(c, d); \
        touch(e, f); \
        return fails(#name) ? refused : __real_##name(a, b, c, d, e, f); \
    }
WRAP_OFFLINE(expander_noise_offline)
WRAP_OFFLINE(expander_scalar_offline)
one_length __real_expander_add(uint8_t a, const uint64_t *b, size_t c, uint64_t *d, size_t e);
one_length __wrap_expander_add(uint8_t a, const uint64_t *b, size_t c, uint64_t *d, size_t e);
one_length __wrap_expander_add(uint8_t a, const uint64_t *b, size_t c, uint64_t *d, size_t e)
{
    one_length refused = {3, 0};
    touch((uint64_t *)(uintptr_t)b, c);
    touch(d, e);
    return fails("expander_add") ? refused : __real_expander_add(a, b, c, d, e);
}

void watch(size_t place)
{
    at = place;
    calls = offline = abroad = 0;
    failed_call = "";
    caller = pthread_self();
    __atomic_store_n(&watched, 1, __ATOMIC_RELAXED);
}

size_t unwatch(void)
{
    __atomic_store_n(&watched, 0, __ATOMIC_RELAXED);
    return calls;
}
