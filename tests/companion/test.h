/* What both programs of the companion's tests share: checks, draws and sections. */
#ifndef TEST_H
#define TEST_H

#include "expander_companion.h"

#include <stdio.h>
#include <stdlib.h>
#include <string.h>

/* The file and the line. */
#define HERE __FILE__ ":" TEXT(__LINE__)
#define TEXT(number) TEXT_OF(number)
#define TEXT_OF(number) #number

/* Counts a check, or says what is wrong and ends the program. */
#define CHECK(true, ...) ((true) ? count_checks(1) : complain(HERE, __VA_ARGS__))
void count_checks(size_t more);
void complain(const char *where, const char *format, ...) __attribute__((noreturn, format(printf, 2, 3)));

/* The text of a status. */
const char *said(struct companion_status status);

/* Expects a number, and in any case a text. */
#define EXPECT(wanted, call) expect(HERE, wanted, call)
struct companion_status expect(const char *where, uint32_t wanted, struct companion_status status);

/* Expects that the far end refused with this number, and that the text says so. */
#define EXPECT_FAR(wanted, call) expect_far(HERE, wanted, call)
void expect_far(const char *where, uint32_t wanted, struct companion_status status);

/* Expects words in the text of a status. */
#define SAYS(status, words) CHECK(strstr(said(status), words) != NULL, "'%s' does not say '%s'", said(status), words)

/* A small generator of these tests' own: the same draws in every run. */
extern __thread uint64_t seed;
uint64_t draw(uint64_t below);

/* Sizes of a dealing. */
extern const struct companion_sizes small;
struct companion_sizes random_sizes(void);

/* (a b + c) mod p by additions alone. */
uint64_t times_plus(uint64_t a, uint64_t b, uint64_t c);

/* A program's list of sections, SECTIONS(X), has X(NAME, COUNT) for each. It declares their functions and makes the rows of the program's
 * table: so the compiler refuses a section that the list has not, by -Wmissing-prototypes, and the linker one that the list alone has. */
#define DECLARE_SECTION(name, standard) void test_##name(size_t count);
#define SECTION_ROW(name, standard) {#name, test_##name, standard},
struct section {
    const char *name;
    void (*run)(size_t count);
    size_t count; /* unless the program is given one */
};

/* Runs the section that the program's arguments name, or each of them, and prints how many checks were made. */
int run_sections(int argc, char **argv, const struct section *sections, size_t count);

#endif
