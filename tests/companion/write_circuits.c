/* Writes the bytes of every circuit that the companion builds, one a line: each of its words' operations in both forms, on words of many
 * widths, of inputs and with constants among them; the least of words; the Bristol texts named. tests/companion/run compares the lines of
 * programs built by different compilers. */
#include <expander_companion.h>

#include <stdio.h>
#include <stdlib.h>
#include <string.h>

enum { WIDEST = 33, MOST_WORDS = 9, TEXT_MAX = 1 << 16 };

static void stop(const char *why)
{
    fprintf(stderr, "write_circuits: %s\n", why);
    exit(1);
}

static void show(const struct companion_circuit *circuit)
{
    static uint8_t bytes[COMPANION_CIRCUIT_MAX];
    size_t len;
    if (companion_write(circuit, bytes, sizeof bytes, &len).number != 0)
        stop("a circuit has a fault");
    for (size_t k = 0; k < len; k++)
        printf("%02x", bytes[k]);
    printf("\n");
}

/* Every operation on two words; the second has the constants 1 and 0 in turn where `mixed` says so. */
static void operations(int form, size_t width, int mixed)
{
    static struct companion_circuit circuit;
    companion_wire a[WIDEST], b[WIDEST], result[WIDEST + 1], bit;
    memset(&circuit, 0, sizeof circuit);
    companion_input(&circuit, COMPANION_ROLE_1, a, width);
    companion_input(&circuit, COMPANION_ROLE_2, b, width);
    for (size_t k = 0; mixed && k < width; k += 2)
        companion_constant(&circuit, k / 2 + 1, &b[k], 1);
    companion_sum(&circuit, form, a, b, width, result);
    companion_output(&circuit, COMPANION_BOTH, result, width + 1);
    companion_difference(&circuit, form, a, b, width, result);
    companion_output(&circuit, COMPANION_BOTH, result, width + 1);
    bit = companion_less(&circuit, form, a, b, width);
    companion_output(&circuit, COMPANION_BOTH, &bit, 1);
    companion_select(&circuit, bit, a, b, width, result);
    companion_output(&circuit, COMPANION_BOTH, result, width);
    bit = companion_equal(&circuit, a, b, width);
    companion_output(&circuit, COMPANION_BOTH, &bit, 1);
    show(&circuit);
}

static void least(int form, size_t words, size_t width)
{
    static struct companion_circuit circuit;
    companion_wire word[MOST_WORDS * WIDEST], result[WIDEST], number[4] = {0};
    memset(&circuit, 0, sizeof circuit);
    companion_input(&circuit, COMPANION_ROLE_1, word, words * width);
    companion_least(&circuit, form, word, words, width, result, number);
    companion_output(&circuit, COMPANION_BOTH, result, width);
    companion_output(&circuit, COMPANION_BOTH, number, 1);
    show(&circuit);
}

static void bristol(const char *path)
{
    static struct companion_circuit circuit;
    static char text[TEXT_MAX];
    FILE *file = fopen(path, "rb");
    size_t len = file == NULL ? 0 : fread(text, 1, sizeof text, file);
    if (file == NULL || fclose(file) != 0 || companion_read_bristol(text, len, &circuit).number != 0)
        stop(path);
    show(&circuit);
}

int main(int argc, char **argv)
{
    static const int forms[] = {COMPANION_RIPPLE, COMPANION_FLAT};
    for (int f = 0; f < 2; f++)
        for (size_t width = 1; width <= WIDEST; width++) {
            operations(forms[f], width, 0);
            operations(forms[f], width, 1);
            if (width <= 8)
                for (size_t words = 1; words <= MOST_WORDS; words++)
                    least(forms[f], words, width);
        }
    for (int k = 1; k < argc; k++)
        bristol(argv[k]);
    return 0;
}
