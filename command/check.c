/* expander check. NOT PROVED. */
#define _POSIX_C_SOURCE 200809L
#include "check.h"

#include <stdlib.h>
#include <string.h>
#include <time.h>

enum { WINDOW = 32 };
LIMIT(a_record_can_be_read, RECORD_FILE_MAX > EXPANDER_NOISE_RECORD_MAX && RECORD_FILE_MAX > EXPANDER_SCALAR_RECORD_MAX);

static const char help[] =
    "usage: expander check [--bench] [--json] [--quiet] NOISE.. SCALAR..\n"
    "\n"
    "Says whether a noise record and a scalar record belong together. Compares their heads field by field; then\n"
    "w0 = Delta mu + v0 at every place, which also sees what no output reads; then w = Delta u + v at every output.\n"
    "Prints 'correct pair', or where they first differ and from which bytes of which file that follows, as far as it\n"
    "can be told: what is named alone is certain by the rules that expander(1) gives, all else is said as alternatives.\n"
    "Trees, levels, children, places, outputs and bytes count from 0.\n"
    "Of layers, all noise records come first, and then as many scalar records in the same order. Each pair is checked as if\n"
    "it were alone, and then whether they fit each other: field, d, l, n, code key, rising labels, Delta.\n"
    "\n"
    "  --bench   compute every output by the expansion for the bench too; slow: hours at the largest sizes\n"
    "  --json    print one JSON object\n"
    "  --quiet   say nothing of progress on standard error\n"
    "\n"
    "Whoever checks a pair holds both ends' secrets.\n"
    "Exit status: 0 correct pair, 1 the two differ, 2 a record is refused or a file is unusable. NOT PROVED.\n";

static double seconds(void)
{
    struct timespec now;
    clock_gettime(CLOCK_MONOTONIC, &now);
    return (double)now.tv_sec + 1e-9 * (double)now.tv_nsec;
}

/* From the third second on, every other second. */
static void progress(struct check *check, const char *what, size_t done, size_t all, double since)
{
    double now = seconds();
    if (check->quiet || now - check->begun < 2 || now - check->said < 2)
        return;
    check->said = now;
    if (done > 0 && now - since > 1)
        fprintf(stderr, "expander check: %s %zu of %zu, about %.0f s left\n", what, done, all,
                (now - since) * (double)(all - done) / (double)done);
    else
        fprintf(stderr, "expander check: %s %zu of %zu\n", what, done, all);
}

/* ---- what is computed ---- */

static void count(struct result *result, size_t at, int holds)
{
    if (!holds && result->hold == result->tried)
        result->first = at;
    result->tried++;
    result->hold += holds != 0;
}

/* w = Delta u + v, for elements of W words. */
static int correlated(size_t element_words, const uint64_t *w, const uint64_t *delta, uint64_t u, const uint64_t *v)
{
    if (element_words == 1)
        return w[0] == prime_sum(prime_product(delta[0], u), v[0]);
    return w[0] == ((u != 0 ? delta[0] : 0) ^ v[0]) && w[1] == ((u != 0 ? delta[1] : 0) ^ v[1]);
}

/* A window by the expansion for the bench: u, v and w one after the other in room. Returns 0 after a complaint. */
static int compare_window(const struct companion_end *noise, const struct companion_end *scalar, size_t first, size_t many,
                          uint64_t *room, struct result *result)
{
    size_t words = noise->head.element_words;
    uint64_t *u = room, *v = room + many, *w = v + words * many;
    if (expander_noise_direct(noise->record, noise->record_len, first, many, u, many, v, words * many).number != 0
        || expander_scalar_direct(scalar->record, scalar->record_len, first, many, w, words * many).number != 0) {
        complain("the expansion for the bench refused the window at output %zu", first);
        return 0;
    }
    for (size_t k = 0; k < many; k++)
        count(result, first + k, correlated(words, w + words * k, scalar->delta, u[k], v + words * k));
    return 1;
}

/* All places, all outputs and, if wanted, the bench. Returns 0 after a complaint. */
static int compare_values(struct check *check, int bench)
{
    struct companion_end end[2];
    struct companion_window window[2];
    struct companion_status status;
    char text[300];
    size_t words, outputs;
    double since;
    int done = 1;
    memset(end, 0, sizeof end);
    memset(window, 0, sizeof window);
    progress(check, "expanding the records, step", 0, 2, check->begun);
    status = companion_open(check->file[0].at, check->file[0].len, &end[0]);
    progress(check, "expanding the records, step", 1, 2, check->begun);
    if (status.number == 0)
        status = companion_open(check->file[1].at, check->file[1].len, &end[1]);
    words = end[0].head.element_words;
    outputs = end[0].head.outputs < end[1].head.outputs ? end[0].head.outputs : end[1].head.outputs;
    if (status.number == 0) {
        for (size_t j = 0; j < end[0].head.leaves; j++)
            count(&check->places, j, correlated(words, end[1].elements + words * j, end[1].delta, end[0].noise[j],
                                                end[0].elements + words * j));
        check->places.done = 1;
        progress(check, "outputs", 0, outputs, check->begun);
        status = companion_expand(&end[0], 0, outputs, &window[0]);
    }
    if (status.number == 0)
        status = companion_expand(&end[1], 0, outputs, &window[1]);
    if (status.number == 0) {
        for (size_t x = 0; x < outputs; x++)
            count(&check->outputs, x, correlated(words, window[1].elements + words * x, end[1].delta, window[0].u[x],
                                                 window[0].elements + words * x));
        check->outputs.done = 1;
    }
    since = seconds();
    check->as_online = 1;
    for (size_t x = 0; bench && done && status.number == 0 && x < outputs; x += WINDOW) {
        uint64_t room[5 * WINDOW];
        size_t many = outputs - x < WINDOW ? outputs - x : WINDOW;
        done = compare_window(&end[0], &end[1], x, many, room, &check->bench);
        check->as_online &= done && memcmp(room, window[0].u + x, 8 * many) == 0
                            && memcmp(room + many, window[0].elements + words * x, 8 * words * many) == 0
                            && memcmp(room + many + words * many, window[1].elements + words * x, 8 * words * many) == 0;
        companion_wipe(room, sizeof room);
        progress(check, "outputs by the expansion for the bench", x + many, outputs, since);
    }
    check->bench.done = bench && done && status.number == 0;
    for (int k = 0; k < 2; k++) {
        companion_free_window(&window[k]);
        companion_close(&end[k]);
    }
    if (status.number != 0) {
        companion_text(status, text, sizeof text);
        complain("the pair cannot be compared: %s", text);
        done = 0;
    }
    return done;
}

/* ---- the command ---- */

static int judge(struct check *check, int bench)
{
    const struct layout *n = &check->layout[0], *s = &check->layout[1];
    for (int file = 0; file < 2; file++) {
        check->number[file] = expander_describe(check->file[file].at, check->file[file].len).number;
        lay_out(check->file[file].at, check->file[file].len, &check->layout[file]);
        check->instead[file] = check->number[file] != 0 ? what_instead(check->file[file].at, check->file[file].len) : NULL;
    }
    if (check->number[0] == 0 && check->number[1] == 0 && n->end == EXPANDER_SCALAR_END && s->end == EXPANDER_NOISE_END) {
        complain("%s is a scalar record and %s a noise record: give the noise record first", check->path[0], check->path[1]);
        return 0;
    }
    if (check->number[0] != 0 || check->number[1] != 0 || n->end != EXPANDER_NOISE_END || s->end != EXPANDER_SCALAR_END) {
        check->status = UNUSABLE;
        if (check->number[0] == 0 && check->number[1] != 0 && n->end == EXPANDER_SCALAR_END)
            check->remark = "the first file is a scalar record, and the noise record is expected first";
        if (check->number[1] == 0 && check->number[0] != 0 && s->end == EXPANDER_NOISE_END)
            check->remark = "the second file is a noise record, and the noise record is expected first";
        check->verdict = check->number[0] != 0 || check->number[1] != 0 ? "refused"
                         : n->end == EXPANDER_NOISE_END ? "both are noise records" : "both are scalar records";
        if (check->number[0] == 0 && check->number[1] == 0)
            check->remark = n->end == EXPANDER_NOISE_END ? "two noise records are given, and the second is to be a scalar record"
                                                         : "two scalar records are given, and the first is to be a noise record";
        if (check->file[0].len > 0 && check->file[0].len == check->file[1].len
            && memcmp(check->file[0].at, check->file[1].at, check->file[0].len) == 0)
            check->remark = "one record is given twice: both files have the same bytes";
        if (diagnose_cut(check) || find_displaced(check))
            return 1;
        diagnose_heads(check);
        if (!check->diagnosed || check->diagnosis.count == 0) {
            check->diagnosed = 0;
            end_diagnosis(&check->diagnosis);
            diagnose_refused(check);
        }
        return 1;
    }
    compare_heads(check);
    if (check->heads_differ) {
        check->status = DIFFER;
        check->verdict = "the heads differ";
        if (check->differs[FIELD_BYTE])
            check->remark = n->field == EXPANDER_BINARY ? "the noise record is of field 1 and the scalar record of field 2"
                                                        : "the noise record is of field 2 and the scalar record of field 1";
        if (!find_displaced(check)) {
            diagnose_heads(check);
            diagnose_alike(check);
        }
        return 1;
    }
    if (!compare_values(check, bench))
        return 0;
    if (!find_displaced(check) && !find_positions_anew(check)) {
        diagnose(check->file[0].at, n, check->file[1].at, s, &check->diagnosis);
        check->diagnosed = 1;
    }
    if (check->places.hold == check->places.tried && check->outputs.hold == check->outputs.tried
        && check->bench.hold == check->bench.tried && check->as_online) {
        check->status = WELL;
        check->verdict = "correct pair";
        if (check->diagnosis.count > 0)
            check->remark = "a record is not as it was dealt, in bytes that no place depends on";
        else if (check->diagnosis.moved)
            check->remark = "the roots stand in another order than the trees, which changes no place";
    } else {
        check->status = DIFFER;
        check->verdict = check->diagnosis.apart ? "the two differ: no tree follows from its root" : "the two differ";
    }
    return 1;
}

int run_check(int argc, char **argv)
{
    struct check *check;
    int bench = 0, json = 0, quiet = 0, want_help = 0, operands, status = UNUSABLE;
    const struct option options[] = {{"--bench", &bench, NULL}, {"--json", &json, NULL}, {"--quiet", &quiet, NULL},
                                     {"--help", &want_help, NULL}};
    operands = take_options(argc, argv, options, sizeof options / sizeof *options);
    if (operands < 0)
        return UNUSABLE;
    if (want_help) {
        fputs(help, stdout);
        return WELL;
    }
    if (operands < 2 || operands % 2 != 0 || operands > 2 * COMPANION_LAYERS_MAX)
        return complain("two files are expected, a noise record and a scalar record: expander check NOISE SCALAR; or two for each of up to "
                        SAY(COMPANION_LAYERS_MAX) " layers, the noise records first");
    if (!one_standard_input(argv, operands))
        return UNUSABLE;
    if (operands > 2)
        return check_layers(argv, (size_t)operands / 2, bench, json, quiet);
    if ((check = calloc(1, sizeof *check)) == NULL)
        return complain("the system gives no memory");
    check->quiet = quiet;
    check->begun = seconds();
    for (int file = 0; file < 2; file++)
        check->path[file] = argv[file];
    if (read_file(check->path[0], RECORD_FILE_MAX, &check->file[0]) && read_file(check->path[1], RECORD_FILE_MAX, &check->file[1])
        && judge(check, bench)) {
        if (json)
            print_json(check);
        else
            print_text(check);
        status = check->status;
    } else if (json) {
        printf("{");
        print_json_path("noise", argv[0]);
        printf(",");
        print_json_path("scalar", argv[1]);
        printf(",");
        print_json_error();
        printf("\n");
    }
    end_diagnosis(&check->diagnosis);
    for (int file = 0; file < 2; file++)
        drop_bytes(&check->file[file]);
    companion_wipe(check, sizeof *check);
    free(check);
    return status;
}
