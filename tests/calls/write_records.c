/* Deals sample records for the pair program and writes them to the current folder: noise.key and
 * scalar.key of one dealing, and as other.key the scalar record of a dealing that differs from it in
 * the label alone.
 *   write_records          field 1, a noise record of more than 4,096 bytes
 *   write_records binary   the records of demo/binary: two children a node
 *   write_records prime    the records of demo/prime: four children a node
 */
#include "dealing.h"
#include "expander.h"

#include <stdio.h>
#include <string.h>

static struct dealing x;
static uint8_t noise[EXPANDER_NOISE_RECORD_MAX], scalar[EXPANDER_SCALAR_RECORD_MAX];

static struct expander_two_lengths deal(void)
{
    return expander_deal(x.field, x.depth, x.branch_bits, x.trees, x.terms, x.outputs, x.roots,
                         16 * x.trees, x.positions, x.trees, x.values, x.trees, x.delta, 16,
                         x.code_key, 16, x.label, 16, noise, sizeof noise, scalar, sizeof scalar);
}

static int write_file(const char *name, const uint8_t *bytes, size_t length)
{
    FILE *file = fopen(name, "wb");
    if (file == NULL)
        return 0;
    size_t written = fwrite(bytes, 1, length, file);
    return fclose(file) == 0 && written == length;
}

int main(int argc, char **argv)
{
    const char *which = argc > 1 ? argv[1] : "";
    struct expander_two_lengths r;
    if (strcmp(which, "binary") == 0)
        make_dealing(&x, EXPANDER_BINARY, 10, 1, 16, 8, 512);
    else if (strcmp(which, "prime") == 0)
        make_dealing(&x, EXPANDER_PRIME, 10, 2, 16, 8, 512);
    else
        make_dealing(&x, EXPANDER_BINARY, 10, 1, 64, 32, 512);
    r = deal();
    if (r.number != EXPANDER_ACCEPTED || (argc == 1 && r.first_written <= 4096)
        || !write_file("noise.key", noise, r.first_written)
        || !write_file("scalar.key", scalar, r.second_written))
        return 1;
    x.label[15] ^= 1;
    r = deal();
    return r.number == EXPANDER_ACCEPTED && write_file("other.key", scalar, r.second_written)
               ? 0
               : 1;
}
