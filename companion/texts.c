#define _POSIX_C_SOURCE 200809L
#include "inner.h"

#include <stdio.h>
#include <string.h>

struct companion_status companion_failed_at(uint32_t number, const char *call, int system)
{
    struct companion_status status;
    memset(&status, 0, sizeof status);
    status.number = number;
    status.call = number == COMPANION_DONE ? "" : call;
    status.system = system;
    return status;
}

struct companion_status companion_with_labels(struct companion_status status, uint32_t number, const uint8_t *label, const uint8_t *other)
{
    if (status.number == number) {
        memcpy(status.label.bytes, label, sizeof status.label.bytes);
        memcpy(status.other.bytes, other, sizeof status.other.bytes);
    }
    return status;
}

struct companion_status companion_with_counts(struct companion_status status, uint32_t number, size_t needed, size_t there)
{
    if (status.number == number) {
        status.needed = needed;
        status.there = there;
    }
    return status;
}

struct companion_status companion_in_layer(size_t layer, struct companion_status status)
{
    if (status.number != COMPANION_DONE)
        status.line = layer;
    return status;
}

uint32_t companion_version(void)
{
    return COMPANION_VERSION_NUMBER;
}

/* What the expander's calls test. Calls are named by what follows expander_ in them, each between blanks; a call that no row of a number
 * names has the last of them (tests/scripts/calls.py holds the names to expander.h). From 100 on a row is for all calls. */
#define NOISE_READERS " noise_offline noise_online noise_direct "
#define SCALAR_READERS " scalar_offline scalar_online scalar_direct "
#define READERS NOISE_READERS SCALAR_READERS
static const struct { uint32_t number; const char *calls, *text; } tests[] = {
    {0, "", "done"},
    {1, " deal add ", "field is not 1 or 2"},
    {1, " describe " READERS, "the record's field byte is not 1 or 2"},
    {2, " deal ", "depth, branch_bits, trees, terms or outputs is outside its range, or depth is no multiple of branch_bits"},
    {2, " open_stock ",
     "the number of callers is not 1 to " SAY(EXPANDER_CALLERS_MAX) ", or outputs is not 1 to " SAY(EXPANDER_OUTPUTS_MAX)},
    {2, " pass_stock ", "outputs is not 1 to " SAY(EXPANDER_OUTPUTS_MAX)},
    {2, " describe " READERS, "d, g, t, l or n of the record is outside its range, or d is no multiple of g"},
    {3, " deal ", "roots, positions, values, delta, code_key or label does not have its length"},
    {3, " add ", "from and into do not have the same length"},
    {3, " noise_online ", "noise or v is not as long as the record says"},
    {3, " scalar_online ", "w is not as long as the record says"},
    {3, " noise_pads ", "v is not 16 bytes an output, or choices not 1"},
    {3, " scalar_pads ", "w is not 16 bytes an output, or delta not 16 bytes"},
    {3, " correction_bits mask_messages unmask_messages ",
     "count is above " SAY(EXPANDER_BATCH_MAX) ", or an input does not have its length for it"},
    {3, " triples ", "pads are not 16 bytes a choice, or messages not 32"},
    {3, " circuit_step ", "shares are not one an input, or triples not three bytes each"},
    {3, " circuit_round ", "shares are not one an input, triples not three bytes each, or far bits not two for each AND that waits"},
    {4, " deal ", "a position is not above the one before, or is N or more"},
    {4, " describe " NOISE_READERS, "a position of the record is N or more"},
    {5, " deal ", "a noise value is not 1 (field 1), or not 1 to p - 1 (field 2)"},
    {5, " describe " NOISE_READERS, "a noise value of the record is 0, or p or more"},
    {6, " deal ", "delta is zero or, in field 2, p or more, or its last eight bytes are not 00"},
    {6, " scalar_pads ", "delta is zero"},
    {6, " describe " SCALAR_READERS, "the record's Delta is zero, or p or more"},
    {7, " noise_pads scalar_pads ", "first + count is above " SAY(EXPANDER_PAD_WINDOW_END)},
    {7, " noise_online scalar_online noise_direct scalar_direct ", "first + count is above the dealing's n"},
    {8, " noise_pads triples ", "a choice is above 1"},
    {8, " correction_bits ", "a choice or a wanted bit is above 1"},
    {8, " mask_messages ", "a correction bit is above 1"},
    {8, " unmask_messages ", "a wanted bit is above 1"},
    {8, " circuit_step circuit_round ", "a share, a triple's bit or a far bit is above 1"},
    {8, " add ", "a word of from or of into is p or more"},
    {8, " read_amount ", "element is p or more"},
    {8, " noise_online scalar_online ", "a correction of the record, or a word at a place that the window's rows use, is no element"},
    {8, " describe noise_offline noise_direct ", "a correction of the record is p or more"},
    {9, " circuit_step circuit_round ", "role is not 1 or 2"},
    {9, " describe ", "the record's end byte is not 1 or 2"},
    {9, READERS, "the record is the other end's: its end byte"},
    {10, " circuit_step circuit_round describe_circuit ", "the circuit ends before a number, or inside it"},
    {10, " describe " READERS, "the record ends before a field, or inside it"},
    {11, " describe circuit_step circuit_round describe_circuit " READERS,
     "a number that was read is not in its shortest form, or has more than three bytes"},
    {12, " circuit_step circuit_round describe_circuit ", "bytes follow the circuit"},
    {12, " describe " READERS, "bytes follow the record"},
    {13, " circuit_round ", "output is shorter than the outputs, or bits_out than two bytes an AND"},
    {13, " deal noise_pads scalar_pads correction_bits mask_messages unmask_messages triples circuit_step " READERS,
     "an output buffer is shorter than what is to be written"},
    {14, " draw preview ", "caller is not below the stock's number of callers"},
    {15, " draw preview ", "the caller's remaining share is below count"},
    {16, " pass_stock ", "what the callers have left sums to more than outputs"},
    {16, " open_stock ", "the shares sum to more than outputs"},
    {17, " circuit_step ", "a size, kind or wire of the circuit is not admitted, or the state waits at no AND"},
    {17, " circuit_round describe_circuit ", "a size, kind or wire of the circuit is not admitted"},
    {18, " circuit_step circuit_round ", "there are fewer triples than ANDs"},
    {19, " write_amount ", "amount is below -(2^60 - 1) or above 2^60 - 1"},
    {20, " pass_stock ", "label is not above the one in use"},
    {21, " draw preview ", "label is not the one in use"},
    {COMPANION_NO_MEMORY, "", "the system gives no memory"},
    {COMPANION_NO_RANDOM, "", "the system gives no random bytes"},
    {COMPANION_CLOSED, "", "the far end closed the link"},
    {COMPANION_NOT_MOVED, "", "the link failed, or its time was over"},
    {COMPANION_OUT_OF_STEP, "", "the far end makes another call, or asks for another count, window or role"},
    {COMPANION_OTHER_DEALING, "", "the far end's record is of another dealing, or of the same end"},
    {COMPANION_NOT_PAIRED, "", "a sacrificed triple does not hold: the ends' records were not dealt together"},
    {COMPANION_NOT_COMPARED, "", "the pair's heads were not compared with the far end's"},
    {COMPANION_WRONG_RECORD, "", "a noise record and a scalar record of field 1 are due, in this order"},
    {COMPANION_SAME_LABEL, "", "both dealings of the pair have one label"},
    {COMPANION_OTHER_CIRCUIT, "", "the far end runs another circuit"},
    {COMPANION_OTHER_SHARES, "", "the far end has other words of inputs or outputs, or gives them other roles"},
    {COMPANION_OTHER_WINDOWS, "", "the far end's triples are of other windows"},
    {COMPANION_NOT_BITS, "", "an input, or a byte that the far end sent, is no bit"},
    {COMPANION_FILE, "", "the system refused the stock's file"},
    {COMPANION_FILE_THERE, "", "a stock is to be created where there is a file"},
    {COMPANION_FILE_DAMAGED, "", "the file is no stock's, or not whole: its mark, length or sum"},
    {COMPANION_FILE_IN_USE, "", "the stock is open elsewhere"},
    {COMPANION_WIRES, "", "the circuit has more wires than EXPANDER_WIRES_MAX, " SAY(EXPANDER_WIRES_MAX)},
    {COMPANION_OUTPUTS, "", "the circuit has more outputs than EXPANDER_CIRCUIT_OUTPUTS_MAX, " SAY(EXPANDER_CIRCUIT_OUTPUTS_MAX)},
    {COMPANION_BAD_WIRE, "", "a gate or output reads a wire that is not made"},
    {COMPANION_BAD_WORD, "", "a word's width is 0 or too large, or its role is not admitted"},
    {COMPANION_LATE_INPUT, "", "an input comes after a gate"},
    {COMPANION_NO_ROOM, "", "the buffer is shorter than what is to be written"},
    {COMPANION_TEXT_NUMBER, "", "a number is due, of digits alone, at most 999999999, and for EQ 0 or 1"},
    {COMPANION_TEXT_VALUES, "", "values are due: at least one, each of a width of at least 1, and together no more than the wires"},
    {COMPANION_TEXT_GATE, "", "a gate is none of XOR, AND, INV, EQ, EQW and MAND"},
    {COMPANION_TEXT_COUNTS, "", "a gate's numbers of wires do not fit its name"},
    {COMPANION_TEXT_WIRE, "", "a wire's number is not below the number of wires"},
    {COMPANION_TEXT_EARLY, "", "a gate reads a wire that nothing before it makes"},
    {COMPANION_TEXT_TWICE, "", "a gate makes a wire that is made already"},
    {COMPANION_TEXT_ENDS, "", "the text ends before its last gate"},
    {COMPANION_TEXT_AFTER, "", "something follows where the line, or the text, is to end"},
    {COMPANION_TEXT_UNMADE, "", "no gate makes an output wire"},
    {COMPANION_FAR, "", "the far end refused"},
    {COMPANION_ALTERED, "", "what one end sent is not what the other received: it was altered on the way"},
    {COMPANION_USED, "", "the window, or a part of it, was opened or made triples before"},
    {COMPANION_NO_INPUTS, "", "own is NULL, and the circuit has inputs of this end"},
    {COMPANION_FORKED, "", "the stock was opened in another process: a process that forks opens its stock afterwards"},
    {COMPANION_FILE_CHANGED, "", "the stock's file is not what was written last: it was replaced, changed, moved or removed"},
    {COMPANION_FILE_LINKED, "", "the stock's file has a second name, a hard link, under which it would be handed out again"},
    {COMPANION_BAD_LAYERS, "", "the number of layers is not 1 to " SAY(COMPANION_LAYERS_MAX)},
    {COMPANION_OTHER_LAYER, "", "the layer does not fit the first one"},
    {COMPANION_LAYER_LABEL, "", "the layer's label is not above that of the layer before"},
    {COMPANION_OTHER_DELTA, "", "the layer's Delta is not the first one's: they were not dealt as layers of one source"},
    {COMPANION_SHARES_COUNT, "", "the circuit takes, or the part has, another number of shares than there are"},
    {COMPANION_OTHER_ORIGIN, "", "the far end's shares come from another run, or are another part of it"},
    {COMPANION_NOT_KEPT, "", "kept is NULL, and the circuit has outputs that stay shared"},
};

/* The calls of the expander, as above. */
static const char calls[] =
    " deal describe noise_offline scalar_offline add noise_online scalar_online noise_direct scalar_direct noise_pads scalar_pads"
    " correction_bits mask_messages unmask_messages triples describe_circuit circuit_step circuit_round open_stock draw preview"
    " pass_stock read_amount write_amount version ";

/* Whether a name of len characters stands between blanks among some. */
static int is_among(const char *names, const char *name, size_t len)
{
    while (*names != '\0' && (len == 0 || strncmp(names + 1, name, len) != 0 || names[1 + len] != ' '))
        names += 1 + strcspn(names + 1, " ");
    return *names != '\0';
}

const char *companion_meaning(const char *call, uint32_t number)
{
    const char *last = "no such number";
    size_t skip = strncmp(call, "expander_", 9) == 0 ? 9 : 0, len = strlen(call + skip);
    if (number != COMPANION_DONE && number < COMPANION_NO_MEMORY && call[0] != '\0' && !is_among(calls, call + skip, len))
        return "no such call";
    for (size_t k = 0; k < sizeof tests / sizeof *tests; k++) {
        if (tests[k].number != number)
            continue;
        if (tests[k].calls[0] == '\0' || is_among(tests[k].calls, call + skip, len))
            return tests[k].text;
        last = tests[k].text;
    }
    return last;
}

/* A label as the number that it is: in decimal up to 64 bits, else in hexadecimal. */
enum { LABEL_TEXT = 2 + 32 + 1 };
static void label_text(struct expander_label label, char text[LABEL_TEXT])
{
    uint64_t low, high;
    memcpy(&low, label.bytes, sizeof low);
    memcpy(&high, label.bytes + sizeof low, sizeof high);
    if (high == 0)
        snprintf(text, LABEL_TEXT, "%llu", (unsigned long long)low);
    else
        snprintf(text, LABEL_TEXT, "0x%llx%016llx", (unsigned long long)high, (unsigned long long)low);
}

/* What a status says beyond its meaning: counts, labels, parts of heads. */
enum { DETAIL_TEXT = 200 };
static void detail_text(const struct companion_status *status, char text[DETAIL_TEXT])
{
    static const char *const parts[] = {"end", "field", "d", "g", "t", "l", "n", "code key", "label", "layers"};
    char label[LABEL_TEXT], other[LABEL_TEXT];
    size_t len = 0;
    int labels = strcmp((label_text(status->label, label), label), (label_text(status->other, other), other)) != 0;
    int heads = status->number == COMPANION_OTHER_DEALING || status->number == COMPANION_OTHER_LAYER;
    text[0] = '\0';
    if ((status->number == EXPANDER_TOO_FEW_TRIPLES && status->needed > 0)
        || (status->number == COMPANION_SHARES_COUNT && status->needed != status->there))
        snprintf(text, DETAIL_TEXT, ": %zu are needed, %zu are there", status->needed, status->there);
    if (status->number == EXPANDER_SHARE_SPENT && status->needed > 0)
        snprintf(text, DETAIL_TEXT, ": %zu are asked for, %zu are left", status->needed, status->there);
    if ((status->number == EXPANDER_LABEL_NOT_ABOVE || status->number == EXPANDER_LABEL_NOT_IN_USE) && (labels || strcmp(label, "0") != 0))
        snprintf(text, DETAIL_TEXT, ": label is %s, in use is %s", label, other);
    if (status->number == COMPANION_SAME_LABEL)
        snprintf(text, DETAIL_TEXT, ": %s", label);
    if (status->number == COMPANION_LAYER_LABEL)
        snprintf(text, DETAIL_TEXT, ": %s after %s", label, other);
    for (size_t k = 0; heads && k < sizeof parts / sizeof *parts; k++)
        if (status->parts >> k & 1)
            len += (size_t)snprintf(text + len, DETAIL_TEXT - len, "%s%s", len == 0 ? ": what differs is " : ", ", parts[k]);
    if (len > 0 && labels)
        len += (size_t)snprintf(text + len, DETAIL_TEXT - len, "; label %s here, %s there", label, other);
    if (len > 0 && status->parts & COMPANION_PART_LAYERS)
        snprintf(text + len, DETAIL_TEXT - len, "; %zu layers here, %zu there", status->needed, status->there);
}

void companion_text(struct companion_status status, char *text, size_t text_len)
{
    char reason[100] = "", detail[DETAIL_TEXT], layer[32] = "";
    const char *meaning = companion_meaning(status.call, status.number);
    int named = status.number != COMPANION_DONE && status.call[0] != '\0';
    if (status.system != 0 && strerror_r(status.system, reason, sizeof reason) != 0)
        reason[0] = '\0';
    int of_text = (status.number >= COMPANION_TEXT_NUMBER && status.number <= COMPANION_TEXT_UNMADE) || status.number == COMPANION_WIRES
                  || status.number == COMPANION_OUTPUTS;
    detail_text(&status, detail);
    if (status.line > 0 && !of_text)
        snprintf(layer, sizeof layer, "layer %zu: ", status.line);
    if (status.line > 0 && of_text)
        snprintf(text, text_len, "line %zu: %s", status.line, meaning);
    else if (status.number == COMPANION_FAR)
        snprintf(text, text_len, "%s with %u: %s", meaning, (unsigned)status.far, companion_meaning("", status.far));
    else if (status.number != COMPANION_DONE && status.number < COMPANION_NO_MEMORY)
        snprintf(text, text_len, "%s%s refused with %u: %s%s", layer, status.call, (unsigned)status.number, meaning, detail);
    else if (detail[0] != '\0')
        snprintf(text, text_len, "%s%s%s", layer, meaning, detail);
    else
        snprintf(text, text_len, "%s%s%s%s%s%s", layer, meaning, named ? ": " : "", named ? status.call : "",
                 reason[0] != '\0' ? ": " : "", reason);
}
