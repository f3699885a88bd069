/* Circuits in Bristol Fashion, read and written. */
#include "sections.h"

#include <fcntl.h>

static char *read_file(const char *name, size_t *len)
{
    int fd = __real_open(name, O_RDONLY);
    char *text = malloc(1 << 20);
    ssize_t got;
    *len = 0;
    if (fd < 0 || text == NULL)
        complain(HERE, "cannot read %s", name);
    while ((got = __real_read(fd, text + *len, (1 << 20) - *len)) > 0)
        *len += (size_t)got;
    __real_close(fd);
    return text;
}

/* A text with random wire numbers, MAND, EQ and EQW among its gates, beside the circuit that it stands for. */
static size_t random_text(char *text, size_t room, uint8_t *inputs, size_t gates, uint8_t *values, size_t *outputs)
{
    enum { IN = 8 };
    size_t wires = IN, number[600], shuffled[600], out = 4 + draw(8), len = 0, lines = 0;
    char body[32768];
    size_t body_len = 0;
    random_bits(inputs, IN);
    memcpy(values, inputs, IN);
    for (size_t k = 0; k < IN; k++)
        number[k] = k;
    while (wires < IN + gates) { /* wires by the order in which they are made; their numbers come later */
        size_t a = draw(wires), b = draw(wires), kind = draw(7);
        int many = kind == 6 ? 1 + (int)draw(3) : 1;
        lines++;
        body_len += (size_t)snprintf(body + body_len, sizeof body - body_len, "%s", "");
        for (int k = 0; k < many; k++) {
            size_t x = k == 0 ? a : draw(wires - (size_t)k), y = k == 0 ? b : draw(wires - (size_t)k);
            uint8_t left = values[x], right = values[y];
            values[wires] = (uint8_t)(kind == 0 ? left ^ right : kind == 1 || kind == 6 ? left & right : kind == 2 ? left ^ 1
                                      : kind == 3 ? (int)(a & 1) : left);
            /* %..: wires are put in by their numbers below */
            if (kind == 6)
                body_len += (size_t)snprintf(body + body_len, sizeof body - body_len, "%s@%zu &%zu =%zu", k ? " " : "M", x, y, wires);
            else if (kind == 3)
                body_len += (size_t)snprintf(body + body_len, sizeof body - body_len, "E%zu =%zu", a & 1, wires);
            else
                body_len += (size_t)snprintf(body + body_len, sizeof body - body_len, "%c@%zu &%zu =%zu", "XAI.WW."[kind], x, y, wires);
            wires++;
        }
        body_len += (size_t)snprintf(body + body_len, sizeof body - body_len, "\n");
    }
    /* The last `out` numbers are outputs; inputs keep theirs; all others are shuffled. */
    for (size_t k = IN; k < wires; k++)
        shuffled[k] = k;
    for (size_t k = wires - 1; k > IN; k--) {
        size_t j = IN + draw(k - IN + 1), kept = shuffled[k];
        shuffled[k] = shuffled[j];
        shuffled[j] = kept;
    }
    for (size_t k = IN; k < wires; k++)
        number[k] = shuffled[k];
    len = (size_t)snprintf(text, room, "%zu %zu\n2 3 5\n1 %zu\n\n", lines, wires, out);
    for (char *line = body, *end; (end = strchr(line, '\n')) != NULL; line = end + 1) {
        size_t x[4], y[4], z[4], n = 0;
        *end = '\0';
        if (line[0] == 'E') {
            sscanf(line, "E%zu =%zu", &x[0], &z[0]);
            len += (size_t)snprintf(text + len, room - len, "1 1 %zu %zu EQ\n", x[0], number[z[0]]);
            continue;
        }
        for (char *at_ = line + 1; sscanf(at_, " @%zu &%zu =%zu", &x[n], &y[n], &z[n]) == 3; n++)
            if ((at_ = strchr(at_ + 2, '@')) == NULL) {
                n++;
                break;
            }
        if (line[0] == 'M') {
            len += (size_t)snprintf(text + len, room - len, "%zu %zu", 2 * n, n);
            for (size_t k = 0; k < n; k++)
                len += (size_t)snprintf(text + len, room - len, " %zu", number[x[k]]);
            for (size_t k = 0; k < n; k++)
                len += (size_t)snprintf(text + len, room - len, " %zu", number[y[k]]);
            for (size_t k = 0; k < n; k++)
                len += (size_t)snprintf(text + len, room - len, " %zu", number[z[k]]);
            len += (size_t)snprintf(text + len, room - len, " MAND\n");
        } else if (line[0] == 'X' || line[0] == 'A')
            len += (size_t)snprintf(text + len, room - len, "2 1 %zu %zu %zu %s\n", number[x[0]], number[y[0]], number[z[0]],
                                    line[0] == 'X' ? "XOR" : "AND");
        else
            len += (size_t)snprintf(text + len, room - len, "1 1 %zu %zu %s\n", number[x[0]], number[z[0]], line[0] == 'I' ? "INV" : "EQW");
    }
    /* values by number, of the outputs alone */
    {
        uint8_t by_number[600];
        for (size_t k = 0; k < wires; k++)
            by_number[number[k]] = values[k];
        memcpy(values, by_number + wires - out, out);
    }
    *outputs = out;
    return len;
}

static void try_text(size_t gates)
{
    static char text[65536], again[COMPANION_BRISTOL_MAX];
    static struct companion_circuit read, second;
    uint8_t inputs[8], values[600], got[600];
    size_t outputs, written, len = random_text(text, sizeof text, inputs, gates, values, &outputs);
    struct companion_status status = companion_read_bristol(text, len, &read);
    CHECK(status.number == 0, "%s in\n%.2000s", said(status), text);
    CHECK(read.inputs == 8 && read.outputs == outputs && read.input_role[0] == 1 && read.input_role[1] == 2, "sizes of a text");
    EXPECT(0, companion_evaluate(&read, inputs, got));
    CHECK(memcmp(got, values, outputs) == 0, "a text is another circuit:\n%.3000s", text);
    EXPECT(0, companion_write_bristol(&read, again, sizeof again, &written));
    EXPECT(0, companion_read_bristol(again, written, &second));
    EXPECT(0, companion_evaluate(&second, inputs, got));
    CHECK(memcmp(got, values, outputs) == 0 && second.gates == read.gates, "a text written is another circuit");
    EXPECT(COMPANION_NO_ROOM, companion_write_bristol(&read, again, draw(written), &written));
    status = companion_read_bristol(text, draw(len), &second); /* cut off: read whole only if no gate is missing */
    CHECK(status.number >= COMPANION_WIRES || strcmp(said(status), "done") == 0, "%s", said(status));
}

/* Files of a folder: those named NUMBER-LINE-.. must be refused with that number at that line. */
static void try_corpus(const char *corpus)
{
    static struct companion_circuit read;
    char command[4096], name[2048];
    FILE *list;
    size_t files = 0;
    snprintf(command, sizeof command, "ls '%s'", corpus);
    list = popen(command, "r");
    while (list != NULL && fscanf(list, "%1000s", command) == 1) {
        unsigned number = 0, line = 0;
        size_t len;
        char *text;
        struct companion_status status;
        snprintf(name, sizeof name, "%s/%.1000s", corpus, command);
        CHECK(sscanf(command, "%u-%u-", &number, &line) == 2, "no number and line: %s", command);
        text = read_file(name, &len);
        status = companion_read_bristol(text, len, &read);
        CHECK(status.number == number && status.line == line, "%s: %u, %s", command, (unsigned)status.number, said(status));
        CHECK(number == 0 || read.inputs == 0, "what is not read is all 0");
        __real_free(text);
        files++;
    }
    CHECK(list != NULL && pclose(list) == 0 && files > 30, "only %zu files in %s", files, corpus);
    printf("bristol: %zu files of the corpus give their number and line\n", files);
}

void test_bristol(size_t count)
{
    static char text[COMPANION_BRISTOL_MAX];
    static struct companion_circuit circuit, read;
    struct companion_status status;
    size_t written;
    uint8_t inputs[64], got[64], due[64];
    for (size_t k = 0; k < count; k++)
        try_text(12 + draw(200));
    for (size_t k = 0; k < count; k++) { /* outputs anywhere, also inputs and twice the same */
        random_circuit(&circuit, 1 + draw(300));
        EXPECT(0, companion_write_bristol(&circuit, text, sizeof text, &written));
        EXPECT(0, companion_read_bristol(text, written, &read));
        random_bits(inputs, circuit.inputs);
        EXPECT(0, companion_evaluate(&circuit, inputs, due));
        EXPECT(0, companion_evaluate(&read, inputs, got));
        CHECK(memcmp(due, got, circuit.outputs) == 0 && read.input_words == circuit.input_words, "a circuit written and read");
    }
    while (circuit.fault == 0 && circuit.inputs + circuit.gates < EXPANDER_WIRES_MAX) /* the largest */
        companion_and(&circuit, (companion_wire)draw(circuit.inputs + circuit.gates), 0);
    EXPECT(0, companion_write_bristol(&circuit, text, sizeof text, &written));
    EXPECT(0, companion_read_bristol(text, written, &read));
    CHECK(read.gates == circuit.gates, "the largest circuit");
    written = (size_t)snprintf(text, sizeof text, "4096 4097\n1 1\n1 1\n\n");
    for (size_t k = 0; k < EXPANDER_WIRES_MAX; k++) /* one wire more than that */
        written += (size_t)snprintf(text + written, sizeof text - written, "1 1 %zu %zu INV\n", k, k + 1);
    status = companion_read_bristol(text, written, &read);
    CHECK(status.number == COMPANION_WIRES && status.line == 4100 && strstr(said(status), "EXPANDER_WIRES_MAX") != NULL, "%s",
          said(status));
    try_corpus("tests/companion/bristol");
    printf("bristol: %zu random texts and %zu random circuits, written and read back\n", count, count);
}
