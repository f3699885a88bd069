/* The command's reading and diagnosis of a record with one more branch bit than are admitted, built with a header that admits it: under
 * the sanitizers nothing is written past an array. tests/command/run compiles it. */
#include "command.h"

#include <string.h>

enum { BITS = EXPANDER_BRANCH_BITS_MAX, DEPTH_OF_TREE = EXPANDER_DEPTH_MAX / BITS * BITS };
enum { SIBLINGS_OF_TREE = DEPTH_OF_TREE / BITS * ((1 << BITS) - 1), HEAD_LEN = 39, NOISE_LEN = HEAD_LEN + 1 + 16 + 16 * SIBLINGS_OF_TREE };

int main(void)
{
    static uint8_t noise[NOISE_LEN], scalar[HEAD_LEN + 16 + 16];
    static struct layout noise_layout, scalar_layout;
    static const uint8_t head[7] = {EXPANDER_NOISE_END, EXPANDER_BINARY, DEPTH_OF_TREE, BITS, 1, 1, 1};
    struct diagnosis diagnosis;
    for (size_t k = 0; k < sizeof noise; k++)
        noise[k] = (uint8_t)(7 * k + 1);
    memcpy(noise, head, sizeof head);
    noise[HEAD_LEN] = 5; /* the position */
    memcpy(scalar, noise, HEAD_LEN);
    scalar[0] = EXPANDER_SCALAR_END;
    scalar[HEAD_LEN] = 1; /* Delta; the root is 0 */
    lay_out(noise, sizeof noise, &noise_layout);
    lay_out(scalar, sizeof scalar, &scalar_layout);
    if (!noise_layout.whole || !scalar_layout.whole || noise_layout.siblings != SIBLINGS_OF_TREE)
        return 1;
    diagnose(noise, &noise_layout, scalar, &scalar_layout, &diagnosis);
    printf("%zu siblings, %zu findings\n", noise_layout.siblings, diagnosis.count);
    end_diagnosis(&diagnosis);
    return 0;
}
