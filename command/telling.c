/* What expander check prints. NOT PROVED. */
#include "check.h"

static void print_span(struct span span)
{
    if (span.len == 1)
        printf("byte %zu", span.first);
    else
        printf("bytes %zu to %zu", span.first, span.first + span.len - 1);
}

static void print_finding(const struct check *check, const struct finding *finding)
{
    char text[120];
    if (finding->part == FILE_END) {
        print_name(stdout, check->path[finding->file]);
        printf(" is cut off: it ends before byte %zu", finding->bytes.first);
        return;
    }
    if (finding->part == INSERTED || finding->part == DROPPED) {
        printf(finding->level == 1 ? "a byte is" : "%zu bytes are", finding->level);
        printf(finding->part == INSERTED ? " too many among " : " missing before one of ");
        print_span(finding->bytes);
        printf(" of ");
        print_name(stdout, check->path[finding->file]);
        return;
    }
    part_words(finding->part, finding->tree, finding->level, finding->child, text, sizeof text);
    printf("%s: ", text);
    print_span(finding->bytes);
    printf(" of ");
    print_name(stdout, check->path[finding->file]);
    if (finding->altered.len > 0 && finding->altered.len < finding->bytes.len) {
        printf(", altered at ");
        print_span(finding->altered);
    }
}

static void print_diagnosis(const struct check *check)
{
    const struct diagnosis *diagnosis = &check->diagnosis;
    if (diagnosis->apart) {
        printf("diagnosis: no tree of the noise record follows from its root: the two were not dealt together, or too much of them is "
               "altered for more to be told\n");
        return;
    }
    if (!check->diagnosed || diagnosis->count == 0 || diagnosis->no_memory) {
        printf("diagnosis: from what this follows cannot be told\n");
        return;
    }
    printf("diagnosis:\n");
    for (size_t group = 0; group < diagnosis->groups; group++) {
        size_t members = 0, at = 0;
        for (size_t k = 0; k < diagnosis->count; k++)
            members += diagnosis->finding[k].group == group;
        for (size_t k = 0; k < diagnosis->count; k++) {
            if (diagnosis->finding[k].group != group)
                continue;
            printf(at++ == 0 ? (members > 1 ? "  one or more of these, it cannot be told which:\n    " : "  ") : "    or ");
            print_finding(check, &diagnosis->finding[k]);
            printf("\n");
        }
        if (members > 1 && diagnosis->maybe_apart)
            printf("    or the two were not dealt together\n");
    }
}

static void print_result(const char *name, const struct result *result, const char *what, const char *one)
{
    if (!result->done)
        return;
    printf("%-10s%zu of %zu hold: %s", name, result->hold, result->tried, what);
    if (result->hold < result->tried)
        printf("; the first that does not is %s %zu", one, result->first);
    printf("\n");
}

static void print_value(const struct check *check, int file, int part)
{
    const struct layout *layout = &check->layout[file];
    struct span span = layout->head[part];
    size_t sizes[] = {layout->depth, layout->branch_bits, layout->trees, layout->terms, layout->outputs};
    if (part == FIELD_BYTE)
        printf("%u", layout->field);
    else if (part >= DEPTH && part <= OUTPUTS)
        printf("%zu", sizes[part - DEPTH]);
    else if (part == LABEL)
        print_label(check->file[file].at + span.first);
    else
        print_hex(check->file[file].at + span.first, span.len);
}

static void print_refusal(const struct check *check, int file)
{
    const struct layout *layout = &check->layout[file];
    char text[120];
    part_words(layout->part, layout->in_tree, layout->level, layout->child, text, sizeof text);
    print_name(stdout, check->path[file]);
    printf(": refused with %u: %s", (unsigned)check->number[file], companion_meaning("expander_describe", check->number[file]));
    if (layout->number == check->number[file])
        printf("; found at byte %zu, %s", layout->at, text);
    if (check->instead[file] != NULL)
        printf("; %s", check->instead[file]);
    else if (check->number[file] == EXPANDER_RECORD_ENDS && !print_due_length(layout, layout->end, check->file[file].len, "its"))
        print_due_length(&check->layout[1 - file], file == 0 ? EXPANDER_NOISE_END : EXPANDER_SCALAR_END, check->file[file].len,
                         "the other one's");
    printf("\n");
}

/* Whether what the two files are says enough: one is no record, or both are of one end. */
static int explained(const struct check *check)
{
    return check->instead[0] != NULL || check->instead[1] != NULL
           || (check->number[0] == 0 && check->number[1] == 0 && check->layout[0].end == check->layout[1].end);
}

void print_text(const struct check *check)
{
    const struct layout *n = &check->layout[0];
    for (int file = 0; file < 2; file++)
        if (check->number[file] != 0)
            print_refusal(check, file);
    if (check->number[0] == 0 && check->number[1] == 0 && check->status != UNUSABLE) {
        if (!check->heads_differ)
            printf("heads     equal: field %u, d = %zu, g = %zu, t = %zu, l = %zu, n = %zu\n", n->field, n->depth, n->branch_bits,
                   n->trees, n->terms, n->outputs);
        for (int part = FIELD_BYTE; part < HEAD_PARTS; part++)
            if (check->differs[part]) {
                printf("heads     %s differs: ", part_name((enum part)part));
                for (int file = 0; file < 2; file++) {
                    print_value(check, file, part);
                    printf(" (");
                    print_span(check->layout[file].head[part]);
                    printf(" of ");
                    print_name(stdout, check->path[file]);
                    printf(file == 0 ? "), " : ")\n");
                }
            }
    }
    print_result("places", &check->places, "w0 = Delta mu + v0", "place");
    print_result("outputs", &check->outputs, "w = Delta u + v", "output");
    print_result("bench", &check->bench, check->as_online ? "as the online calls" : "NOT as the online calls", "output");
    if (check->remark != NULL)
        printf("remark: %s\n", check->remark);
    if (check->diagnosis.count > 0 || (check->status != WELL && !explained(check)))
        print_diagnosis(check);
    printf("%s\n", check->verdict);
}

static void print_json_result(const char *name, const struct result *result)
{
    if (!result->done)
        return;
    printf(",\"%s\":{\"tried\":%zu,\"hold\":%zu,\"first_difference\":", name, result->tried, result->hold);
    if (result->hold < result->tried)
        printf("%zu}", result->first);
    else
        printf("null}");
}

static void print_json_span(const char *name, struct span span)
{
    printf(",\"%s\":", name);
    if (span.len > 0)
        printf("[%zu,%zu]", span.first, span.first + span.len - 1);
    else
        printf("null");
}

void print_json(const struct check *check)
{
    const struct diagnosis *diagnosis = &check->diagnosis;
    int comma = 0;
    printf("{");
    print_json_path("noise", check->path[0]);
    printf(",");
    print_json_path("scalar", check->path[1]);
    printf(",\"verdict\":");
    print_json_text(check->verdict);
    printf(",\"status\":%d,\"refused\":[", check->status);
    for (int file = 0; file < 2; file++)
        if (check->number[file] != 0) {
            const struct layout *layout = &check->layout[file];
            size_t least, most;
            printf("%s{\"file\":\"%s\",\"number\":%u,\"text\":", comma++ ? "," : "", file == 0 ? "noise" : "scalar",
                   (unsigned)check->number[file]);
            print_json_text(companion_meaning("expander_describe", check->number[file]));
            if (layout->number == check->number[file])
                printf(",\"part\":\"%s\",\"byte\":%zu", part_name(layout->part), layout->at);
            if (layout->number == check->number[file] && part_of_tree(layout->part))
                printf(",\"tree\":%zu", layout->in_tree);
            if (check->instead[file] != NULL) {
                printf(",\"remark\":");
                print_json_text(check->instead[file]);
            } else if (check->number[file] == EXPANDER_RECORD_ENDS && due_length(layout, layout->end, &least, &most)) {
                printf(",\"due_bytes\":[%zu,%zu]", least, most);
            }
            printf("}");
        }
    printf("],\"heads_differ_in\":[");
    comma = 0;
    for (int part = FIELD_BYTE; part < HEAD_PARTS; part++)
        if (check->differs[part])
            printf("%s\"%s\"", comma++ ? "," : "", part_name((enum part)part));
    printf("]");
    print_json_result("places", &check->places);
    print_json_result("outputs", &check->outputs);
    print_json_result("bench", &check->bench);
    if (check->bench.done)
        printf(",\"bench_as_online\":%s", check->as_online ? "true" : "false");
    if (check->remark != NULL) {
        printf(",\"remark\":");
        print_json_text(check->remark);
    }
    printf(",\"dealt_together\":%s,\"no_tree_follows\":%s", check->diagnosed && diagnosis->together > 0 ? "true" : "null",
           !check->diagnosed || diagnosis->together < 0 ? "null" : diagnosis->together == 0 ? "true" : "false");
    printf(",\"diagnosis\":[");
    comma = 0;
    for (size_t group = 0; check->diagnosed && !diagnosis->no_memory && group < diagnosis->groups; group++) {
        int inner = 0;
        for (size_t k = 0; k < diagnosis->count; k++) {
            const struct finding *finding = &diagnosis->finding[k];
            if (finding->group != group)
                continue;
            printf("%s{\"part\":\"%s\",\"file\":\"%s\"", inner++ ? "," : comma++ ? ",[" : "[", part_name(finding->part),
                   finding->file == NOISE_FILE ? "noise" : "scalar");
            if (part_of_tree(finding->part))
                printf(",\"tree\":%zu", finding->tree);
            if (finding->part == SIBLING)
                printf(",\"level\":%zu", finding->level);
            if (finding->part == INSERTED || finding->part == DROPPED)
                printf(",\"count\":%zu", finding->level);
            if (finding->part == SIBLING && finding->child != ANY_CHILD)
                printf(",\"child\":%zu", finding->child);
            print_json_span("bytes", finding->bytes);
            print_json_span("altered", finding->altered);
            printf("}");
        }
        printf(inner ? "]" : "");
    }
    printf("]}\n");
}

