/* expander circuit. NOT PROVED. */
#include "command.h"

#include <stdlib.h>
#include <string.h>

enum { CIRCUIT_FILE_MAX = 1 << 22, VALUES_FILE_MAX = 1 << 16 };
LIMIT(a_circuit_can_be_read, CIRCUIT_FILE_MAX > COMPANION_CIRCUIT_MAX && CIRCUIT_FILE_MAX > COMPANION_BRISTOL_MAX);
LIMIT(a_bit_for_each_wire_can_be_read, VALUES_FILE_MAX >= 8 * EXPANDER_WIRES_MAX);

static const char help[] =
    "usage: expander circuit info [--json] CIRCUIT\n"
    "       expander circuit from-bristol [--output FILE] TEXT\n"
    "       expander circuit to-bristol [--input-widths W,..] [--output-widths W,..] [--output FILE] CIRCUIT\n"
    "       expander circuit eval [--inputs FILE] [--input-widths W,..] [--output-widths W,..] [--json] CIRCUIT\n"
    "\n"
    "  info           inputs, gates, outputs, ANDs, rounds, and the triples that a run needs\n"
    "  from-bristol   reads a circuit in Bristol Fashion and writes the bytes that a run takes\n"
    "  to-bristol     writes a circuit in Bristol Fashion\n"
    "  eval           evaluates a circuit on given inputs, alone and in the open\n"
    "\n"
    "CIRCUIT is a circuit's bytes or its text in Bristol Fashion; which of the two it is shows. At most 4,096 wires and 4,096\n"
    "outputs. A file may be - for standard input.\n"
    "\n"
    "  --inputs FILE         the values, one for each input word, between blanks or lines: decimal up to 64 bits, 0x and\n"
    "                        hexadecimal digits, or 0b and bits; standard input if not given, since they may be secret,\n"
    "                        but where CIRCUIT is\n"
    "  --input-widths W,..   how many bits the words of inputs have, lowest bit first; needed of bytes, which do not say it,\n"
    "  --output-widths W,..  if there is more than one word of inputs, or of outputs\n"
    "  --output FILE         a new file that its owner alone can read, instead of standard output (-)\n"
    "  --json                print one JSON object\n"
    "\n"
    "Exit status: 0 done, 2 the circuit or an input is refused or a file is unusable. NOT PROVED.\n";

struct reader {
    const uint8_t *at;
};

/* A number of a circuit that was accepted. */
static size_t next_number(struct reader *r)
{
    size_t value = 0;
    for (unsigned shift = 0;; shift += 7) {
        uint8_t byte = *r->at++;
        value |= (size_t)(byte & 127u) << shift;
        if (byte < 128)
            return value;
    }
}

/* The circuit of accepted bytes, with all inputs as one word, and all outputs. */
static void read_bytes(const uint8_t *bytes, struct companion_circuit *circuit)
{
    struct reader r = {bytes};
    memset(circuit, 0, sizeof *circuit);
    circuit->inputs = next_number(&r);
    circuit->gates = next_number(&r);
    circuit->outputs = next_number(&r);
    for (size_t k = 0; k < circuit->gates; k++) {
        circuit->gate[k].kind = (uint8_t)next_number(&r);
        circuit->gate[k].left = (companion_wire)next_number(&r);
        circuit->gate[k].right = circuit->gate[k].kind == EXPANDER_GATE_NOT ? circuit->gate[k].left : (companion_wire)next_number(&r);
    }
    for (size_t k = 0; k < circuit->outputs; k++)
        circuit->output[k] = (companion_wire)next_number(&r);
    circuit->input_words = circuit->output_words = 1;
    circuit->input_width[0] = (uint16_t)circuit->inputs;
    circuit->output_width[0] = (uint16_t)circuit->outputs;
    circuit->input_role[0] = COMPANION_ROLE_1;
    circuit->output_role[0] = COMPANION_BOTH;
}

/* Widths that sum to all, as W,W,..; complains and returns 0 if text does not say that. */
static int read_widths(const char *text, const char *option, size_t all, uint16_t *widths, size_t *words)
{
    size_t sum = 0, count = 0, most = all;
    const char *at = text;
    int well = 1;
    while (well) {
        size_t width = 0;
        well = *at >= '0' && *at <= '9';
        for (; *at >= '0' && *at <= '9' && width <= most; at++)
            width = 10 * width + (size_t)(*at - '0');
        well = well && width >= 1 && width <= most - sum;
        if (well) {
            widths[count++] = (uint16_t)width;
            sum += width;
        }
        if (!well || *at == '\0')
            break;
        well = *at++ == ',';
    }
    if (!well || sum != all) {
        complain("%s is to be numbers from 1 on, with commas between, that sum to %zu, not '%.60s'", option, all, text);
        return 0;
    }
    *words = count;
    return 1;
}

/* A text never reads as bytes: its second number would be 9 gates or more, and no character is a gate's kind. */
static int read_circuit(const char *path, int bristol_only, struct companion_circuit *circuit, int *bristol)
{
    struct bytes file;
    struct companion_status status;
    uint32_t number;
    char text[300];
    int looks_like_text = 1;
    if (!read_file(path, CIRCUIT_FILE_MAX, &file))
        return 0;
    number = expander_describe_circuit(file.at, file.len).number;
    *bristol = number != 0;
    if (number == 0 && bristol_only) {
        complain("%s is a circuit's bytes, and a text in Bristol Fashion was expected", path);
        drop_bytes(&file);
        return 0;
    }
    if (number == 0) {
        read_bytes(file.at, circuit);
        drop_bytes(&file);
        return 1;
    }
    for (size_t k = file.len >= 3 && memcmp(file.at, "\xEF\xBB\xBF", 3) == 0 ? 3 : 0; k < file.len && k < 64; k++)
        looks_like_text &= (file.at[k] >= 0x20 && file.at[k] < 0x7F) || (file.at[k] >= 9 && file.at[k] <= 13);
    status = companion_read_bristol((const char *)file.at, file.len, circuit);
    drop_bytes(&file);
    if (status.number == 0)
        return 1;
    companion_text(status, text, sizeof text);
    if (looks_like_text || bristol_only)
        complain("%s: %s", path, text);
    else
        complain("%s: refused with %u: %s; it is no text in Bristol Fashion either", path, (unsigned)number,
                 companion_meaning("expander_describe_circuit", number));
    return 0;
}

static int set_widths(struct companion_circuit *circuit, int bristol, const char *input_widths, const char *output_widths)
{
    if (bristol && (input_widths != NULL || output_widths != NULL)) {
        complain("a text in Bristol Fashion says its widths itself: --input-widths and --output-widths are for a circuit's bytes");
        return 0;
    }
    if (input_widths != NULL && !read_widths(input_widths, "--input-widths", circuit->inputs, circuit->input_width,
                                             &circuit->input_words))
        return 0;
    for (size_t k = 0; k < circuit->input_words; k++)
        circuit->input_role[k] = k == 0 ? COMPANION_ROLE_1 : COMPANION_ROLE_2;
    if (output_widths != NULL && !read_widths(output_widths, "--output-widths", circuit->outputs, circuit->output_width,
                                              &circuit->output_words))
        return 0;
    for (size_t k = 0; k < circuit->output_words; k++)
        circuit->output_role[k] = COMPANION_BOTH;
    return 1;
}

static void print_widths(const uint16_t *widths, size_t words)
{
    for (size_t k = 0; k < words; k++)
        printf("%s%u", k > 0 ? "," : "", widths[k]);
}

static int show_info(const char *path, struct companion_circuit *circuit, int bristol, int json)
{
    struct expander_described_circuit counts;
    struct companion_status status = companion_count(circuit, &counts);
    char text[300];
    if (status.number != 0) {
        companion_text(status, text, sizeof text);
        return complain("%s: %s", path, text);
    }
    if (json) {
        printf("{");
        print_json_path("file", path);
        printf(",\"format\":\"%s\",\"inputs\":%zu,\"gates\":%zu,\"outputs\":%zu,\"ands\":%zu,\"rounds\":%zu,\"triples\":%zu",
               bristol ? "bristol" : "bytes", counts.inputs, counts.gates, counts.outputs, counts.ands, counts.rounds, counts.ands);
        if (bristol) {
            printf(",\"input_widths\":[");
            print_widths(circuit->input_width, circuit->input_words);
            printf("],\"output_widths\":[");
            print_widths(circuit->output_width, circuit->output_words);
            printf("]");
        }
        printf("}\n");
        return WELL;
    }
    print_name(stdout, path);
    printf("\n  format    %s\n  inputs    %zu", bristol ? "Bristol Fashion" : "bytes", counts.inputs);
    if (bristol) {
        printf(", in words of ");
        print_widths(circuit->input_width, circuit->input_words);
    }
    printf("\n  gates     %zu\n  outputs   %zu", counts.gates, counts.outputs);
    if (bristol) {
        printf(", in words of ");
        print_widths(circuit->output_width, circuit->output_words);
    }
    printf("\n  ANDs      %zu\n  rounds    %zu\n  triples   %zu\n", counts.ands, counts.rounds, counts.ands);
    return WELL;
}

static int write_circuit(const char *path, const struct companion_circuit *circuit, int as_text, const char *output)
{
    size_t room = as_text ? COMPANION_BRISTOL_MAX : COMPANION_CIRCUIT_MAX, written = 0;
    char *made = calloc(room, 1), text[300];
    struct companion_status status;
    int done = 0;
    if (made == NULL)
        return complain("the system gives no memory; nothing was written");
    status = as_text ? companion_write_bristol(circuit, made, room, &written) : companion_write(circuit, (uint8_t *)made, room, &written);
    if (status.number != 0) {
        companion_text(status, text, sizeof text);
        complain("%s: %s; nothing was written", path, text);
    } else {
        done = give(output, made, written);
    }
    free(made);
    return done ? WELL : UNUSABLE;
}

/* ---- eval ---- */

static int is_blank(uint8_t c)
{
    return c == ' ' || (c >= 9 && c <= 13);
}

/* One value of width bits; says nothing of what stands there, since it may be secret. Returns 0 if it is none. */
static int read_value(const uint8_t *text, size_t len, uint8_t *bits, size_t width)
{
    int hex = len > 2 && text[0] == '0' && (text[1] == 'x' || text[1] == 'X'), two = len > 2 && text[0] == '0' && text[1] == 'b';
    size_t per = hex ? 4 : 1, start = hex || two ? 2 : 0;
    uint64_t value = 0;
    memset(bits, 0, width);
    for (size_t k = 0; k < len - start; k++) {
        uint8_t c = hex || two ? text[len - 1 - k] : text[k]; /* hexadecimal digits and bits from the last on */
        int digit = c >= '0' && c <= '9' ? c - '0' : c >= 'a' && c <= 'f' ? c - 'a' + 10 : c >= 'A' && c <= 'F' ? c - 'A' + 10 : 99;
        if (digit >= (hex ? 16 : two ? 2 : 10))
            return 0;
        if (!hex && !two) {
            if (value > (UINT64_MAX - (unsigned)digit) / 10)
                return 0;
            value = 10 * value + (unsigned)digit;
            continue;
        }
        for (size_t b = 0; b < per; b++) {
            unsigned bit = (unsigned)digit >> b & 1u;
            if (per * k + b < width)
                bits[per * k + b] = (uint8_t)bit;
            else if (bit)
                return 0;
        }
    }
    if (!hex && !two) {
        if (width < 64 && value >> width != 0)
            return 0;
        companion_to_bits(value, bits, width);
    }
    return 1;
}

static int read_values(const char *path, const struct companion_circuit *circuit, uint8_t *bits)
{
    struct bytes file;
    size_t at = 0, done = 0, word;
    int well = 1;
    if (!read_file(path, VALUES_FILE_MAX, &file))
        return 0;
    for (word = 0; well; word++) {
        size_t first;
        while (at < file.len && is_blank(file.at[at]))
            at++;
        if (at == file.len || word == circuit->input_words)
            break;
        first = at;
        while (at < file.len && !is_blank(file.at[at]))
            at++;
        well = read_value(file.at + first, at - first, bits + done, circuit->input_width[word]);
        if (!well)
            complain("input value %zu is to be a number of %u bits: decimal up to 64 bits, 0x and hexadecimal digits, or 0b and bits",
                     word, circuit->input_width[word]);
        done += circuit->input_width[word];
    }
    if (well && (word < circuit->input_words || at < file.len)) {
        complain("%zu input values are expected, and there are %s", circuit->input_words, at < file.len ? "more" : "fewer");
        well = 0;
    }
    drop_bytes(&file);
    return well;
}

static void print_word(const uint8_t *bits, size_t width, int json)
{
    enum { EXACT = 53 }; /* bits of a number that every reader of JSON keeps */
    if (width <= 64) {
        const char *quote = json && width > EXACT ? "\"" : "";
        printf("%s%llu%s", quote, (unsigned long long)companion_from_bits(bits, width), quote);
        return;
    }
    printf(json ? "\"0x" : "0x");
    for (size_t k = (width + 3) / 4; k-- > 0;) {
        unsigned digit = 0;
        for (size_t b = 0; b < 4 && 4 * k + b < width; b++)
            digit |= (unsigned)bits[4 * k + b] << b;
        printf("%x", digit);
    }
    printf(json ? "\"" : "");
}

static int evaluate(const char *path, const struct companion_circuit *circuit, const char *inputs, int json)
{
    uint8_t *in = calloc(circuit->inputs + 1, 1), *out = calloc(circuit->outputs + 1, 1);
    struct companion_status status;
    char text[300];
    int result = UNUSABLE;
    if (in == NULL || out == NULL) {
        complain("the system gives no memory");
    } else if (read_values(inputs == NULL ? "-" : inputs, circuit, in)) {
        status = companion_evaluate(circuit, in, out);
        if (status.number != 0) {
            companion_text(status, text, sizeof text);
            complain("%s: %s", path, text);
        } else {
            size_t at = 0;
            printf(json ? "{\"outputs\":[" : "");
            for (size_t k = 0; k < circuit->output_words; at += circuit->output_width[k++]) {
                printf(json && k > 0 ? "," : "");
                print_word(out + at, circuit->output_width[k], json);
                printf(json ? "" : "\n");
            }
            printf(json ? "]}\n" : "");
            result = WELL;
        }
    }
    if (in != NULL)
        companion_wipe(in, circuit->inputs + 1);
    if (out != NULL)
        companion_wipe(out, circuit->outputs + 1);
    free(in);
    free(out);
    return result;
}

int run_circuit(int argc, char **argv)
{
    static const char *const actions[] = {"info", "from-bristol", "to-bristol", "eval"};
    static const char *const names[] = {"circuit info", "circuit from-bristol", "circuit to-bristol", "circuit eval"};
    const char *output = NULL, *inputs = NULL, *input_widths = NULL, *output_widths = NULL;
    int json = 0, want_help = 0, operands, bristol, action = 0, status = UNUSABLE;
    const struct option all[] = {{"--help", &want_help, NULL}, {"--json", &json, NULL}, {"--output", NULL, &output},
                                 {"--inputs", NULL, &inputs}, {"--input-widths", NULL, &input_widths},
                                 {"--output-widths", NULL, &output_widths}};
    static const char takes[4][6] = {{1, 1, 0, 0, 0, 0}, {1, 0, 1, 0, 0, 0}, {1, 0, 1, 0, 1, 1}, {1, 1, 0, 1, 1, 1}};
    struct option options[6];
    size_t count = 0;
    struct companion_circuit *circuit;
    if (argc > 0 && strcmp(argv[0], "--help") == 0) {
        fputs(help, stdout);
        return WELL;
    }
    while (argc > 0 && action < 4 && strcmp(argv[0], actions[action]) != 0)
        action++;
    if (argc == 0 || action == 4)
        return complain("info, from-bristol, to-bristol or eval is expected%s%.40s", argc > 0 ? ", not " : "", argc > 0 ? argv[0] : "");
    name_subcommand(names[action]);
    for (size_t k = 0; k < sizeof all / sizeof *all; k++)
        if (takes[action][k])
            options[count++] = all[k];
    operands = take_options(argc - 1, argv + 1, options, count);
    if (operands < 0)
        return UNUSABLE;
    if (want_help) {
        fputs(help, stdout);
        return WELL;
    }
    if (operands != 1)
        return complain("one file is expected: expander circuit %s %s", actions[action], action == 1 ? "TEXT" : "CIRCUIT");
    if (action == 3 && strcmp(argv[1], "-") == 0 && (inputs == NULL || strcmp(inputs, "-") == 0))
        return complain("standard input is the circuit, so the values are expected in a file: --inputs FILE");
    if ((circuit = calloc(1, sizeof *circuit)) == NULL)
        return complain("the system gives no memory");
    if (read_circuit(argv[1], action == 1, circuit, &bristol) && set_widths(circuit, bristol, input_widths, output_widths)) {
        if (action == 0)
            status = show_info(argv[1], circuit, bristol, json);
        else if (action == 3)
            status = evaluate(argv[1], circuit, inputs, json);
        else
            status = write_circuit(argv[1], circuit, action == 2, output);
    }
    if (json && status == UNUSABLE) {
        printf("{");
        print_json_path("file", argv[1]);
        printf(",");
        print_json_error();
        printf("\n");
    }
    free(circuit);
    return status;
}
