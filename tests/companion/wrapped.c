/* The system's calls, wrapped, and those of the expander that accept whatever the companion lends them. */
#include "sections.h"

#include <errno.h>
#include <malloc.h>
#include <signal.h>
#include <sys/stat.h>
#include <unistd.h>

__thread enum mode mode;
__thread size_t at, calls;
__thread int zeros;
__thread const char *failed_call = "";

/* Counts a call. Returns 0 where it goes on, or the errno with which it fails. */
static int counted(int error)
{
    size_t number = calls++;
    if (mode == DIES_BEFORE && number == at)
        raise(SIGKILL);
    if (mode == INTERRUPTED && draw(2) == 0)
        return EINTR;
    return mode == FAILS && number == at ? error : 0;
}

static long ended(long result)
{
    if (mode == DIES_AFTER && calls == at + 1)
        raise(SIGKILL);
    return result;
}

#define WRAPPED(name, error, failure, ...) \
    do { \
        int fault_ = counted(error); \
        if (fault_ != 0) { \
            failed_call = #name; \
            errno = fault_; \
            return failure; \
        } \
        return (__typeof__(__real_##name(__VA_ARGS__)))ended((long)__real_##name(__VA_ARGS__)); \
    } while (0)

/* Memory whose size is known: to the sanitizer, or else because it stands before it. */
#ifdef __SANITIZE_ADDRESS__
void *take(size_t count, size_t size)
{
    return __real_calloc(count, size);
}

static size_t size_of(void *memory)
{
    return malloc_usable_size(memory);
}

static void give_back(void *memory)
{
    __real_free(memory);
}
#else
enum { BEFORE = 16 };
void *take(size_t count, size_t size)
{
    size_t *memory = __real_calloc(1, BEFORE + count * size);
    if (memory == NULL)
        return NULL;
    *memory = count * size;
    return (uint8_t *)memory + BEFORE;
}

static size_t size_of(void *memory)
{
    return *(size_t *)(void *)((uint8_t *)memory - BEFORE);
}

static void give_back(void *memory)
{
    __real_free(memory == NULL ? NULL : (uint8_t *)memory - BEFORE);
}
#endif

void *__wrap_calloc(size_t count, size_t size);
void *__wrap_calloc(size_t count, size_t size)
{
    if (mode == INTERRUPTED)
        return take(count, size);
    if (counted(ENOMEM) != 0) {
        failed_call = "calloc";
        return NULL;
    }
    return take(count, size);
}

void __wrap_free(void *memory);
void __wrap_free(void *memory)
{
    size_t len = memory == NULL ? 0 : size_of(memory);
    for (size_t k = 0; k < len; k++)
        if (((uint8_t *)memory)[k] != 0)
            complain(HERE, "byte %zu of %zu is freed and not wiped", k, len);
    count_checks(memory != NULL);
    give_back(memory);
}

ssize_t __real_getrandom(void *bytes, size_t len, unsigned flags);
ssize_t __wrap_getrandom(void *bytes, size_t len, unsigned flags);
ssize_t __wrap_getrandom(void *bytes, size_t len, unsigned flags)
{
    if (zeros > 0 && zeros-- > 0) {
        memset(bytes, 0, len);
        return (ssize_t)len;
    }
    WRAPPED(getrandom, ENOSYS, -1, bytes, mode == SHORT && len > 1 ? 1 : len, flags);
}

ssize_t __wrap_read(int fd, void *bytes, size_t len);
ssize_t __wrap_read(int fd, void *bytes, size_t len)
{
    WRAPPED(read, EIO, -1, fd, bytes, mode == SHORT ? 1 : len);
}

ssize_t __real_pread(int fd, void *bytes, size_t len, off_t place);
ssize_t __wrap_pread(int fd, void *bytes, size_t len, off_t place);
ssize_t __wrap_pread(int fd, void *bytes, size_t len, off_t place)
{
    WRAPPED(pread, EIO, -1, fd, bytes, mode == SHORT ? 1 : len, place);
}

ssize_t __wrap_write(int fd, const void *bytes, size_t len);
ssize_t __wrap_write(int fd, const void *bytes, size_t len)
{
    WRAPPED(write, ENOSPC, -1, fd, bytes, mode == SHORT ? 1 : len);
}

ssize_t __real_send(int fd, const void *bytes, size_t len, int flags);
ssize_t __wrap_send(int fd, const void *bytes, size_t len, int flags);
ssize_t __wrap_send(int fd, const void *bytes, size_t len, int flags)
{
    WRAPPED(send, ECONNRESET, -1, fd, bytes, mode == SHORT ? 1 : len, flags);
}

struct pollfd;
int __real_poll(struct pollfd *polled, unsigned long count, int milliseconds);
int __wrap_poll(struct pollfd *polled, unsigned long count, int milliseconds);
int __wrap_poll(struct pollfd *polled, unsigned long count, int milliseconds)
{
    WRAPPED(poll, ENOMEM, -1, polled, count, milliseconds);
}

int __wrap_open(const char *name, int flags, ...);
int __wrap_open(const char *name, int flags, ...)
{
    if (mode == INTERRUPTED)
        return __real_open(name, flags, 0600);
    WRAPPED(open, EACCES, -1, name, flags, 0600);
}

int __real_openat(int in, const char *name, int flags, ...);
int __wrap_openat(int in, const char *name, int flags, ...);
int __wrap_openat(int in, const char *name, int flags, ...)
{
    if (mode == INTERRUPTED)
        return __real_openat(in, name, flags, 0600);
    WRAPPED(openat, EACCES, -1, in, name, flags, 0600);
}

char *__real_realpath(const char *name, char *resolved);
char *__wrap_realpath(const char *name, char *resolved);
char *__wrap_realpath(const char *name, char *resolved)
{
    if (mode == INTERRUPTED)
        return __real_realpath(name, resolved);
    WRAPPED(realpath, EACCES, NULL, name, resolved);
}

int __wrap_close(int fd);
int __wrap_close(int fd)
{
    int fault = mode == INTERRUPTED ? 0 : counted(EIO), result = __real_close(fd);
    if (fault != 0) {
        failed_call = "close";
        errno = fault;
    }
    return (int)ended(fault != 0 ? -1 : result);
}

#define WRAP_FILE_CALL(name, type) \
    int __real_##name type; \
    int __wrap_##name type;
WRAP_FILE_CALL(fsync, (int fd))
WRAP_FILE_CALL(renameat, (int from_folder, const char *from, int to_folder, const char *to))
WRAP_FILE_CALL(flock, (int fd, int operation))
WRAP_FILE_CALL(fstat, (int fd, struct stat *about))
WRAP_FILE_CALL(fstatat, (int in, const char *name, struct stat *about, int how))
WRAP_FILE_CALL(unlinkat, (int in, const char *name, int how))
WRAP_FILE_CALL(ftruncate, (int fd, off_t len))

int __wrap_fsync(int fd)
{
    if (mode == INTERRUPTED)
        return __real_fsync(fd);
    WRAPPED(fsync, EIO, -1, fd);
}

int __wrap_renameat(int from_folder, const char *from, int to_folder, const char *to)
{
    if (mode == INTERRUPTED)
        return __real_renameat(from_folder, from, to_folder, to);
    WRAPPED(renameat, EROFS, -1, from_folder, from, to_folder, to);
}

int __wrap_flock(int fd, int operation)
{
    if (mode == INTERRUPTED)
        return __real_flock(fd, operation);
    WRAPPED(flock, ENOLCK, -1, fd, operation);
}

int __wrap_fstat(int fd, struct stat *about)
{
    if (mode == INTERRUPTED)
        return __real_fstat(fd, about);
    WRAPPED(fstat, EIO, -1, fd, about);
}

int __wrap_fstatat(int in, const char *name, struct stat *about, int how)
{
    if (mode == INTERRUPTED)
        return __real_fstatat(in, name, about, how);
    WRAPPED(fstatat, EIO, -1, in, name, about, how);
}

int __wrap_unlinkat(int in, const char *name, int how)
{
    if (mode == INTERRUPTED)
        return __real_unlinkat(in, name, how);
    WRAPPED(unlinkat, EACCES, -1, in, name, how);
}

int __wrap_ftruncate(int fd, off_t len)
{
    if (mode == INTERRUPTED)
        return __real_ftruncate(fd, len);
    WRAPPED(ftruncate, EIO, -1, fd, len);
}

/* Calls of the expander that accept whatever the companion lends them, and so are made to refuse. */
#define WRAP_REFUSAL(type, name, zero, parameters, arguments) \
    type __real_##name parameters; \
    type __wrap_##name parameters; \
    type __wrap_##name parameters \
    { \
        type refused = zero; \
        if (mode != FAILS || counted(1) == 0) \
            return __real_##name arguments; \
        failed_call = #name; \
        *(uint32_t *)&refused = EXPANDER_BUFFER_SHORT; \
        return refused; \
    }
#define TWO {0, 0, 0}
#define ONE {0, 0}
typedef struct expander_two_lengths two_lengths;
typedef struct expander_one_length one_length;
WRAP_REFUSAL(two_lengths, expander_noise_offline, TWO,
             (const uint8_t *a, size_t b, uint64_t *c, size_t d, uint64_t *e, size_t f), (a, b, c, d, e, f))
WRAP_REFUSAL(two_lengths, expander_scalar_offline, TWO,
             (const uint8_t *a, size_t b, uint64_t *c, size_t d, uint64_t *e, size_t f), (a, b, c, d, e, f))
WRAP_REFUSAL(one_length, expander_scalar_online, ONE,
             (const uint8_t *a, size_t b, const uint64_t *c, size_t d, size_t e, size_t f, uint64_t *g, size_t h), (a, b, c, d, e, f, g, h))
WRAP_REFUSAL(uint32_t, expander_noise_pads, 0,
             (size_t a, size_t b, const uint8_t *c, size_t d, const uint8_t *e, size_t f, uint8_t *g, size_t h), (a, b, c, d, e, f, g, h))
WRAP_REFUSAL(uint32_t, expander_scalar_pads, 0,
             (size_t a, size_t b, const uint8_t *c, size_t d, const uint8_t *e, size_t f, uint8_t *g, size_t h), (a, b, c, d, e, f, g, h))
WRAP_REFUSAL(one_length, expander_triples, ONE,
             (const uint8_t *a, size_t b, const uint8_t *c, size_t d, const uint8_t *e, size_t f, uint8_t *g, size_t h),
             (a, b, c, d, e, f, g, h))
