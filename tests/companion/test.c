/* Checks, draws and sections of the companion's tests. */
#include "test.h"

#include <stdarg.h>

static size_t checks;

void count_checks(size_t more)
{
    __atomic_fetch_add(&checks, more, __ATOMIC_RELAXED);
}

void complain(const char *where, const char *format, ...)
{
    va_list arguments;
    fprintf(stderr, "%s: ", where);
    va_start(arguments, format);
    vfprintf(stderr, format, arguments);
    va_end(arguments);
    fprintf(stderr, "\n");
    exit(1);
}

const char *said(struct companion_status status)
{
    static __thread char text[300];
    companion_text(status, text, sizeof text);
    return text;
}

struct companion_status expect(const char *where, uint32_t wanted, struct companion_status status)
{
    if (status.number != wanted || strlen(said(status)) < 4 || strstr(said(status), "no such") != NULL)
        complain(where, "status %u where %u is due: %s", (unsigned)status.number, (unsigned)wanted, said(status));
    count_checks(1);
    return status;
}

void expect_far(const char *where, uint32_t wanted, struct companion_status status)
{
    expect(where, COMPANION_FAR, status);
    if (status.far != wanted || strstr(said(status), "the far end refused with ") == NULL)
        complain(where, "the far end's %u where %u is due: %s", (unsigned)status.far, (unsigned)wanted, said(status));
}

__thread uint64_t seed = 1;
uint64_t draw(uint64_t below)
{
    seed = seed * 6364136223846793005u + 1442695040888963407u;
    return (seed >> 33) % below;
}

const struct companion_sizes small = {EXPANDER_BINARY, 8, 1, 4, 8, 128};

struct companion_sizes random_sizes(void)
{
    struct companion_sizes sizes;
    sizes.field = (uint8_t)(1 + draw(2));
    sizes.depth = 1 + draw(9);
    do
        sizes.branch_bits = 1 + draw(3);
    while (sizes.depth % sizes.branch_bits != 0);
    sizes.trees = 1 + draw(sizes.depth > 5 ? 64 : (uint64_t)1 << sizes.depth);
    sizes.terms = 1 + draw(sizes.depth > 4 ? 32 : (uint64_t)1 << sizes.depth);
    sizes.outputs = 1 + draw((uint64_t)1 << (sizes.depth - 1));
    return sizes;
}

uint64_t times_plus(uint64_t a, uint64_t b, uint64_t c)
{
    for (; b > 0; b >>= 1) {
        if (b & 1)
            c = (c + a) % EXPANDER_MODULUS;
        a = 2 * a % EXPANDER_MODULUS;
    }
    return c;
}

int run_sections(int argc, char **argv, const struct section *sections, size_t count)
{
    int none = 1;
    for (size_t k = 0; k < count; k++)
        if (argc == 1 || strcmp(argv[1], sections[k].name) == 0) {
            sections[k].run(argc > 2 ? (size_t)strtoul(argv[2], NULL, 10) : sections[k].count);
            none = 0;
        }
    if (none)
        complain(HERE, "there is no section %s", argv[1]);
    printf("%zu checks\n", checks);
    return 0;
}
