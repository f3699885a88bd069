/* expander deal, describe and expand. NOT PROVED. */
#include "command.h"

#include <stdlib.h>
#include <string.h>

/* ---- deal ---- */

static const char deal_help[] =
    "usage: expander deal --field FIELD --depth D --branch-bits G --trees T --terms L --outputs N --label LABEL\n"
    "                     [--layers K] --noise FILE --scalar FILE\n"
    "\n"
    "Deals: draws roots, positions, noise values, Delta and the code key by getrandom, and writes both records to new files\n"
    "that their owner alone can read. A file that exists is not written over. Each record is for its end alone.\n"
    "\n"
    "  --field FIELD      binary (or 1), or prime (or 2)\n"
    "  --depth D          depth of a tree, 1 to " SAY(EXPANDER_DEPTH_MAX) "; it has 2^D leaves\n"
    "  --branch-bits G    1 to " SAY(EXPANDER_BRANCH_BITS_MAX) ", and D a multiple of it; a node has 2^G children\n"
    "  --trees T          trees, each with one noise place, 1 to " SAY(EXPANDER_TREES_MAX) " and at most 2^D\n"
    "  --terms L          terms in a row, 1 to " SAY(EXPANDER_TERMS_MAX) " and at most 2^D\n"
    "  --outputs N        outputs, 1 to 2^D / 2\n"
    "  --label LABEL      another for each dealing: a number, or 32 hexadecimal digits, the label's bytes in order\n"
    "  --layers K         layers of one source, 1 to " SAY(COMPANION_LAYERS_MAX) ": dealings under one Delta and one code key, with the labels\n"
    "                     LABEL, LABEL + 1 and so on; 1 if not given\n"
    "  --noise FILE       the noise record\n"
    "  --scalar FILE      the scalar record\n"
    "\n"
    "With several layers FILE.1 is the first one's record, and so on; from ten on FILE.01. All noise records are for one end\n"
    "and all scalar records for the other, and each end needs all of its own: expand takes them in this order.\n"
    "No sizes are recommended; docs/SIZES.md says what known attacks cost.\n"
    "Exit status: 0 all files are written, 2 none is. NOT PROVED.\n";

static int hex_digit(char c)
{
    return c >= '0' && c <= '9' ? c - '0' : c >= 'a' && c <= 'f' ? c - 'a' + 10 : c >= 'A' && c <= 'F' ? c - 'A' + 10 : -1;
}

static int read_label(const char *text, struct expander_label *label)
{
    uint64_t number;
    size_t len = strlen(text);
    if (len == 32 && strspn(text, "0123456789abcdefABCDEF") == 32) {
        for (size_t k = 0; k < 16; k++)
            label->bytes[k] = (uint8_t)(16 * hex_digit(text[2 * k]) + hex_digit(text[2 * k + 1]));
        return 1;
    }
    if (len == 0 || len > 19 || strspn(text, "0123456789") != len || !read_number(text, "--label", 0, UINT64_MAX, &number)) {
        complain("--label is to be a number of at most 19 digits, or 32 hexadecimal digits, not '%.40s'", text);
        return 0;
    }
    *label = companion_label(number);
    return 1;
}

int run_deal(int argc, char **argv)
{
    const char *field = NULL, *size[5] = {NULL, NULL, NULL, NULL, NULL}, *label_text = NULL, *noise = NULL, *scalar = NULL;
    const char *layers_text = NULL;
    int want_help = 0, operands, done;
    const struct option options[] = {{"--field", NULL, &field}, {"--depth", NULL, &size[0]}, {"--branch-bits", NULL, &size[1]},
                                     {"--trees", NULL, &size[2]}, {"--terms", NULL, &size[3]}, {"--outputs", NULL, &size[4]},
                                     {"--label", NULL, &label_text}, {"--noise", NULL, &noise}, {"--scalar", NULL, &scalar},
                                     {"--help", &want_help, NULL}, {"--layers", NULL, &layers_text}};
    struct companion_sizes sizes;
    struct companion_dealt *dealt;
    struct companion_status status;
    struct expander_label label;
    uint64_t given[5], leaves, layers = 1;
    char text[300];
    operands = take_options(argc, argv, options, sizeof options / sizeof *options);
    if (operands < 0)
        return UNUSABLE;
    if (want_help) {
        fputs(deal_help, stdout);
        return WELL;
    }
    if (operands > 0)
        return complain("'%s' belongs to no option; --help shows those that there are", argv[0]);
    for (size_t k = 0; k < sizeof options / sizeof *options - 2; k++)
        if (*options[k].value == NULL)
            return complain("%s is missing; all options but --layers and --help are needed", options[k].name);
    if (strcmp(field, "binary") != 0 && strcmp(field, "1") != 0 && strcmp(field, "prime") != 0 && strcmp(field, "2") != 0)
        return complain("--field is to be binary (or 1) or prime (or 2), not '%.40s'", field);
    if (!read_number(size[0], "--depth", 1, EXPANDER_DEPTH_MAX, &given[0]))
        return UNUSABLE;
    leaves = (uint64_t)1 << given[0];
    if (!read_number(size[1], "--branch-bits", 1, EXPANDER_BRANCH_BITS_MAX, &given[1]))
        return UNUSABLE;
    if (given[0] % given[1] != 0)
        return complain("--depth is to be a multiple of --branch-bits, and %d is none of %d", (int)given[0], (int)given[1]);
    if (!read_number(size[2], "--trees", 1, leaves < EXPANDER_TREES_MAX ? leaves : EXPANDER_TREES_MAX, &given[2])
        || !read_number(size[3], "--terms", 1, leaves < EXPANDER_TERMS_MAX ? leaves : EXPANDER_TERMS_MAX, &given[3])
        || !read_number(size[4], "--outputs", 1, leaves / 2, &given[4]) || !read_label(label_text, &label)
        || (layers_text != NULL && !read_number(layers_text, "--layers", 1, COMPANION_LAYERS_MAX, &layers)))
        return UNUSABLE;
    if (strcmp(noise, "-") == 0 || strcmp(scalar, "-") == 0)
        return complain("a record goes to a file for its end alone, not to standard output; ./- names a file called -");
    if (strcmp(noise, scalar) == 0)
        return complain("--noise and --scalar are to name two files, and both name %s", noise);
    sizes.field = strcmp(field, "binary") == 0 || strcmp(field, "1") == 0 ? EXPANDER_BINARY : EXPANDER_PRIME;
    sizes.depth = (size_t)given[0];
    sizes.branch_bits = (size_t)given[1];
    sizes.trees = (size_t)given[2];
    sizes.terms = (size_t)given[3];
    sizes.outputs = (size_t)given[4];
    if ((dealt = calloc((size_t)layers, sizeof *dealt)) == NULL)
        return complain("the system gives no memory; nothing was written");
    status = companion_deal_layers(&sizes, label, (size_t)layers, dealt);
    if (status.number != 0) {
        companion_text(status, text, sizeof text);
        complain("%s; nothing was written", text);
        done = 0;
    } else {
        done = write_layers(dealt, (size_t)layers, noise, scalar);
    }
    companion_wipe(dealt, (size_t)layers * sizeof *dealt);
    free(dealt);
    return done ? WELL : UNUSABLE;
}

/* ---- describe ---- */

static const char describe_help[] =
    "usage: expander describe [--json] FILE..\n"
    "\n"
    "Says of each record its end, field, sizes, label and code key, the leaves N, how long it and its vectors are, and how many\n"
    "outputs it has; of a refused one the number with its text, the part of the record and the byte at which it was found.\n"
    "Several files are shown as a table. FILE may be - for standard input.\n"
    "\n"
    "  --json    print a JSON array with an object for each file\n"
    "\n"
    "Exit status: 0 all are accepted, 2 one is refused or cannot be read. NOT PROVED.\n";

struct described {
    const char *path;
    size_t len;
    struct expander_described head;
    struct layout layout;
    const char *instead; /* what it is, if it is no record */
};

static const char *end_name(const struct described *one)
{
    return one->head.end == EXPANDER_NOISE_END ? "noise" : "scalar";
}

static const char *field_name(const struct described *one)
{
    return one->head.field == EXPANDER_BINARY ? "binary" : "prime";
}

static void print_refused(const struct described *one)
{
    char text[120];
    printf("refused with %u: %s", (unsigned)one->head.number, companion_meaning("expander_describe", one->head.number));
    if (one->layout.number != one->head.number)
        return;
    part_words(one->layout.part, one->layout.in_tree, one->layout.level, one->layout.child, text, sizeof text);
    printf("; %s, byte %zu", text, one->layout.at);
    if (one->instead != NULL)
        printf("; %s", one->instead);
    else if (one->head.number == EXPANDER_RECORD_ENDS)
        print_due_length(&one->layout, one->layout.end, one->len, "its");
}

static void print_one(const struct described *one)
{
    const struct expander_described *head = &one->head;
    print_name(stdout, one->path);
    if (head->number != 0) {
        printf(": ");
        print_refused(one);
        printf("\n");
        return;
    }
    printf("\n  end       %s (%u)\n  field     %s (%u)\n  sizes     d = %zu, g = %zu, t = %zu, l = %zu, n = %zu\n  label     ",
           end_name(one), head->end, field_name(one), head->field, head->depth, head->branch_bits, head->trees, head->terms,
           head->outputs);
    print_label(head->label);
    printf("\n  code key  ");
    print_hex(head->code_key, 16);
    printf("\n  leaves    N = %zu\n  outputs   %zu\n", head->leaves, head->outputs);
    if (head->end == EXPANDER_NOISE_END)
        printf("  lengths   record %zu bytes, accumulated noise %zu words, accumulated v %zu words\n", one->len, head->leaves,
               head->leaves * head->element_words);
    else
        printf("  lengths   record %zu bytes, accumulated w %zu words, Delta 2 words\n", one->len, head->leaves * head->element_words);
}

static void print_row(const struct described *one, int width)
{
    const struct expander_described *head = &one->head;
    uint64_t number;
    print_name(stdout, one->path);
    printf("%*s  ", width - (int)strlen(one->path), "");
    if (head->number != 0) {
        print_refused(one);
        printf("\n");
        return;
    }
    printf("%-6s %-6s %2zu %1zu %2zu %2zu %5zu %5zu %5zu  ", end_name(one), field_name(one), head->depth, head->branch_bits, head->trees,
           head->terms, head->outputs, head->leaves, one->len);
    print_hex(head->label, 16);
    printf("  ");
    print_hex(head->code_key, 16);
    if (label_number(head->label, &number))
        printf("  %llu", (unsigned long long)number);
    printf("\n");
}

static void print_object(const struct described *one)
{
    const struct expander_described *head = &one->head;
    size_t least, most;
    uint64_t number;
    printf("{");
    print_json_path("file", one->path);
    printf(",\"number\":%u,\"bytes\":%zu", (unsigned)head->number, one->len);
    if (head->number != 0) {
        printf(",\"text\":");
        print_json_text(companion_meaning("expander_describe", head->number));
        if (one->layout.number == head->number) {
            printf(",\"part\":\"%s\",\"byte\":%zu", part_name(one->layout.part), one->layout.at);
            if (part_of_tree(one->layout.part))
                printf(",\"tree\":%zu", one->layout.in_tree);
        }
        if (one->instead != NULL) {
            printf(",\"remark\":");
            print_json_text(one->instead);
        } else if (head->number == EXPANDER_RECORD_ENDS && due_length(&one->layout, one->layout.end, &least, &most)) {
            printf(",\"due_bytes\":[%zu,%zu]", least, most);
        }
    } else {
        printf(",\"end\":\"%s\",\"field\":%u,\"d\":%zu,\"g\":%zu,\"t\":%zu,\"l\":%zu,\"n\":%zu,\"leaves\":%zu,\"element_words\":%zu",
               end_name(one), head->field, head->depth, head->branch_bits, head->trees, head->terms, head->outputs, head->leaves,
               head->element_words);
        printf(",\"label\":\"");
        print_hex(head->label, 16);
        if (label_number(head->label, &number))
            printf("\",\"label_number\":\"%llu", (unsigned long long)number);
        printf("\",\"code_key\":\"");
        print_hex(head->code_key, 16);
        printf("\"");
    }
    printf("}");
}

int run_describe(int argc, char **argv)
{
    int json = 0, want_help = 0, operands, status = WELL, width = 4, shown = 0;
    const struct option options[] = {{"--json", &json, NULL}, {"--help", &want_help, NULL}};
    operands = take_options(argc, argv, options, sizeof options / sizeof *options);
    if (operands < 0)
        return UNUSABLE;
    if (want_help) {
        fputs(describe_help, stdout);
        return WELL;
    }
    if (operands == 0)
        return complain("a file is expected: expander describe FILE..");
    if (!one_standard_input(argv, operands))
        return UNUSABLE;
    for (int k = 0; k < operands; k++)
        width = (int)strlen(argv[k]) > width ? (int)strlen(argv[k]) : width;
    if (json)
        printf("[");
    else if (operands > 1)
        printf("%-*s  end    field   d g  t  l     n     N bytes  %-32s  %-32s  %s\n", width, "file", "label", "code key",
               "label's number");
    for (int k = 0; k < operands; k++) {
        struct bytes file;
        struct described one;
        if (!read_file(argv[k], RECORD_FILE_MAX, &file)) {
            status = UNUSABLE;
            if (json) {
                printf("%s{", shown++ > 0 ? "," : "");
                print_json_path("file", argv[k]);
                printf(",");
                print_json_error();
            }
            continue;
        }
        one.path = argv[k];
        one.len = file.len;
        one.head = expander_describe(file.at, file.len);
        lay_out(file.at, file.len, &one.layout);
        one.instead = one.head.number != 0 ? what_instead(file.at, file.len) : NULL;
        drop_bytes(&file);
        status = one.head.number != 0 ? UNUSABLE : status;
        if (json) {
            printf("%s", shown++ > 0 ? "," : "");
            print_object(&one);
        } else if (operands > 1) {
            print_row(&one, width);
        } else {
            print_one(&one);
        }
        companion_wipe(&one, sizeof one); /* noise values stand in the layout */
    }
    if (json)
        printf("]\n");
    return status;
}

/* ---- expand ---- */

#define THREADS_MAX 64

static const char expand_help[] =
    "usage: expander expand [--first I] [--count C] [--format text|binary] [--output FILE] [--threads T] RECORD..\n"
    "\n"
    "Gives the outputs I to I + C - 1 of a record: u and v of a noise record, w of a scalar record. They are secret.\n"
    "Several records, up to " SAY(COMPANION_LAYERS_MAX) ", are the layers of one source at one end, in the order of their labels; they are added up.\n"
    "\n"
    "  --first I         the first output, 0 if not given\n"
    "  --count C         how many, all from I on if not given; I + C is at most n\n"
    "  --format text     a line an output: its index, u (noise record), and v or w; an element of field 1 as 32 hexadecimal\n"
    "                    digits, its bytes in order, numbers of field 2 decimal\n"
    "  --format binary   for each output u as 8 bytes (noise record) and v or w as 16 bytes (field 1) or 8 (field 2), each word\n"
    "                    least byte first\n"
    "  --output FILE     a new file that its owner alone can read, instead of standard output (-)\n"
    "  --threads T       how many layers are expanded at once, 1 to " SAY(THREADS_MAX) "; 1 if not given\n"
    "\n"
    "Exit status: 0 all is written, 2 nothing is. NOT PROVED.\n";

struct text {
    char *at;
    size_t len, room;
};

/* Lines, or bytes, of a window. */
static void put_output(struct text *to, const struct companion_end *end, const struct companion_window *window, size_t first, size_t k,
                       int binary)
{
    size_t words = end->head.element_words;
    const uint64_t *element = window->elements + words * k;
    if (binary) {
        if (window->u != NULL) {
            memcpy(to->at + to->len, &window->u[k], 8);
            to->len += 8;
        }
        memcpy(to->at + to->len, element, 8 * words);
        to->len += 8 * words;
        return;
    }
    to->len += (size_t)snprintf(to->at + to->len, to->room - to->len, "%zu ", first + k);
    if (window->u != NULL)
        to->len += (size_t)snprintf(to->at + to->len, to->room - to->len, "%llu ", (unsigned long long)window->u[k]);
    if (words == 1)
        to->len += (size_t)snprintf(to->at + to->len, to->room - to->len, "%llu\n", (unsigned long long)element[0]);
    for (size_t b = 0; words == 2 && b < 16; b++)
        to->len += (size_t)snprintf(to->at + to->len, to->room - to->len, b < 15 ? "%02x" : "%02x\n",
                                    ((const uint8_t *)element)[b]);
}

int run_expand(int argc, char **argv)
{
    const char *first_text = NULL, *count_text = NULL, *format = NULL, *output = NULL, *threads_text = NULL;
    int want_help = 0, operands, done = 0;
    const struct option options[] = {{"--first", NULL, &first_text}, {"--count", NULL, &count_text}, {"--format", NULL, &format},
                                     {"--output", NULL, &output}, {"--threads", NULL, &threads_text},
                                     {"--help", &want_help, NULL}};
    struct companion_end end;
    struct companion_window window;
    struct companion_status status;
    struct text text = {NULL, 0, 0};
    uint64_t first = 0, many = 0, threads = 1;
    char sentence[300];
    operands = take_options(argc, argv, options, sizeof options / sizeof *options);
    if (operands < 0)
        return UNUSABLE;
    if (want_help) {
        fputs(expand_help, stdout);
        return WELL;
    }
    if (operands < 1 || operands > COMPANION_LAYERS_MAX)
        return complain("a file is expected, a record, or one for each of up to " SAY(COMPANION_LAYERS_MAX)
                        " layers of one end: expander expand RECORD..");
    if (!one_standard_input(argv, operands) || (threads_text != NULL && !read_number(threads_text, "--threads", 1, THREADS_MAX, &threads)))
        return UNUSABLE;
    if (format != NULL && strcmp(format, "text") != 0 && strcmp(format, "binary") != 0)
        return complain("--format is to be text or binary, not '%.40s'", format);
    memset(&window, 0, sizeof window);
    if (open_layers(argv, (size_t)operands, (size_t)threads, &end) != OPENED)
        return UNUSABLE;
    if ((first_text == NULL || read_number(first_text, "--first", 0, end.head.outputs, &first))
        && (count_text == NULL || read_number(count_text, "--count", 0, end.head.outputs - first, &many))) {
        many = count_text == NULL ? end.head.outputs - first : many;
        status = companion_expand(&end, (size_t)first, (size_t)many, &window);
        text.room = (size_t)many * 80 + 1;
        if (status.number != 0) {
            companion_text(status, sentence, sizeof sentence);
            complain("%s: %s", argv[0], sentence);
        } else if ((text.at = calloc(text.room, 1)) == NULL) {
            complain("the system gives no memory");
        } else {
            for (size_t k = 0; k < many; k++)
                put_output(&text, &end, &window, (size_t)first, k, format != NULL && strcmp(format, "binary") == 0);
            done = give(output, text.at, text.len);
        }
    }
    if (text.at != NULL)
        companion_wipe(text.at, text.room);
    free(text.at);
    companion_free_window(&window);
    companion_close(&end);
    return done ? WELL : UNUSABLE;
}
