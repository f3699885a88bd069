/* Writes the bytes of the market's circuit, as a house builds it. tests/market/run holds them to what is proved. */
#include "clearing.h"

#include <stdio.h>

int main(void)
{
    static struct companion_circuit circuit;
    static uint8_t bytes[COMPANION_CIRCUIT_MAX];
    unsigned ands[TASKS];
    size_t len;
    build_clearing(&circuit, ands);
    if (companion_write(&circuit, bytes, sizeof bytes, &len).number != 0 || fwrite(bytes, 1, len, stdout) != len)
        return 1;
    return fflush(stdout) != 0;
}
