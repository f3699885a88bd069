/* A fuzz target for the reader of Bristol texts: whatever the bytes are, it reads a circuit or names a fault and a line; what it
 * read is admitted by the library, and is the same circuit after it was written and read again. */
#include "expander_companion.h"

#include <stdlib.h>
#include <string.h>

int LLVMFuzzerTestOneInput(const uint8_t *bytes, size_t len);

static void expect(int true)
{
    if (!true)
        abort();
}

int LLVMFuzzerTestOneInput(const uint8_t *bytes, size_t len)
{
    static struct companion_circuit read, again;
    static char text[COMPANION_BRISTOL_MAX], said[300];
    static uint8_t inputs[EXPANDER_WIRES_MAX], outputs[EXPANDER_CIRCUIT_OUTPUTS_MAX], outputs_again[EXPANDER_CIRCUIT_OUTPUTS_MAX];
    struct expander_described_circuit counts;
    size_t written;
    char *copy = malloc(len > 0 ? len : 1); /* so that what lies past the text is not the fuzzer's */
    struct companion_status status;
    if (copy == NULL)
        return 0;
    memcpy(copy, bytes, len);
    status = companion_read_bristol(copy, len, &read);
    companion_text(status, said, sizeof said);
    if (status.number != 0) {
        expect(status.line > 0 && strncmp(said, "line ", 5) == 0 && read.inputs == 0);
    } else {
        for (size_t k = 0; k < read.inputs; k++)
            inputs[k] = bytes[k % len] & 1;
        expect(companion_count(&read, &counts).number == 0 && counts.gates == read.gates);
        expect(companion_write_bristol(&read, text, sizeof text, &written).number == 0);
        expect(companion_read_bristol(text, written, &again).number == 0);
        expect(companion_evaluate(&read, inputs, outputs).number == 0);
        expect(companion_evaluate(&again, inputs, outputs_again).number == 0);
        expect(again.gates == read.gates && memcmp(outputs, outputs_again, read.outputs) == 0);
    }
    free(copy);
    return 0;
}
