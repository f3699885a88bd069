/* Where the parts of a record stand, and where a record is refused: docs/RECORD-FORMAT.md. NOT PROVED; what it finds is held
 * to the number that expander_describe gives. */
#include "command.h"

#include <stdlib.h>
#include <string.h>

static const char *const names[] = {
    "end", "field", "d", "g", "t", "l", "n", "code key", "label", "position", "noise value", "correction", "sibling", "Delta",
    "root", "bytes after the record", "tree", "cut off: the file ends early", "bytes too many", "missing bytes",
};

const char *part_name(enum part part)
{
    return names[part];
}

int part_of_tree(enum part part)
{
    return part == POSITION || part == VALUE || part == CORRECTION || part == SIBLING || part == ROOT || part == WHOLE_TREE;
}

void part_words(enum part part, size_t tree, size_t level, size_t child, char *text, size_t text_len)
{
    if (part == SIBLING && child == ANY_CHILD)
        snprintf(text, text_len, "sibling of tree %zu at level %zu", tree, level);
    else if (part == SIBLING)
        snprintf(text, text_len, "sibling of tree %zu at level %zu, child %zu", tree, level, child);
    else if (part == WHOLE_TREE)
        snprintf(text, text_len, "all of tree %zu", tree);
    else if (part_of_tree(part))
        snprintf(text, text_len, "%s of tree %zu", names[part], tree);
    else
        snprintf(text, text_len, "%s", names[part]);
}

struct reader {
    const uint8_t *record;
    size_t len, at;
    struct layout *layout;
    size_t tree;
};

/* The first failure counts. */
static void refuse(struct reader *r, uint32_t number, enum part part, size_t begins, size_t at)
{
    struct layout *to = r->layout;
    if (to->number != 0)
        return;
    to->number = number;
    to->part = part;
    to->in_tree = r->tree;
    to->begins = begins;
    to->at = at;
}

static int take(struct reader *r, size_t len, enum part part, struct span *span)
{
    span->first = r->at;
    span->len = len;
    if (r->len - r->at < len) {
        refuse(r, EXPANDER_RECORD_ENDS, part, r->at, r->len);
        return 0;
    }
    r->at += len;
    return 1;
}

static int take_number(struct reader *r, enum part part, struct span *span, size_t *number)
{
    size_t value = 0, k = 0;
    span->first = r->at;
    for (;; k++) {
        if (r->at + k >= r->len) {
            refuse(r, EXPANDER_RECORD_ENDS, part, r->at, r->len);
            return 0;
        }
        value |= (size_t)(r->record[r->at + k] & 0x7F) << (7 * k);
        if (r->record[r->at + k] < 0x80)
            break;
        if (k == 2) {
            refuse(r, EXPANDER_BAD_NUMBER, part, r->at, r->at + 2);
            return 0;
        }
    }
    if (k > 0 && r->record[r->at + k] == 0) {
        refuse(r, EXPANDER_BAD_NUMBER, part, r->at, r->at + k);
        return 0;
    }
    span->len = k + 1;
    r->at += k + 1;
    *number = value;
    return 1;
}

static int take_size(struct reader *r, enum part part, size_t *size, size_t most)
{
    struct span *span = &r->layout->head[part];
    if (!take_number(r, part, span, size))
        return 0;
    if (*size < 1 || *size > most || (part == BRANCH_BITS && r->layout->depth % *size != 0)) {
        refuse(r, EXPANDER_BAD_SIZE, part, span->first, span->first);
        return 0;
    }
    return 1;
}

static int take_head(struct reader *r)
{
    struct layout *to = r->layout;
    size_t leaves;
    if (!take(r, 1, END_BYTE, &to->head[END_BYTE]))
        return 0;
    to->end = r->record[0];
    if (to->end != EXPANDER_NOISE_END && to->end != EXPANDER_SCALAR_END) {
        refuse(r, EXPANDER_WRONG_END, END_BYTE, 0, 0);
        return 0;
    }
    if (!take(r, 1, FIELD_BYTE, &to->head[FIELD_BYTE]))
        return 0;
    to->field = r->record[1];
    if (to->field != EXPANDER_BINARY && to->field != EXPANDER_PRIME) {
        refuse(r, EXPANDER_BAD_FIELD, FIELD_BYTE, 1, 1);
        return 0;
    }
    if (!take_size(r, DEPTH, &to->depth, EXPANDER_DEPTH_MAX))
        return 0;
    leaves = (size_t)1 << to->depth;
    if (!take_size(r, BRANCH_BITS, &to->branch_bits, EXPANDER_BRANCH_BITS_MAX)
        || !take_size(r, TREES, &to->trees, leaves < EXPANDER_TREES_MAX ? leaves : EXPANDER_TREES_MAX)
        || !take_size(r, TERMS, &to->terms, leaves < EXPANDER_TERMS_MAX ? leaves : EXPANDER_TERMS_MAX)
        || !take_size(r, OUTPUTS, &to->outputs, leaves / 2) || !take(r, 16, CODE_KEY, &to->head[CODE_KEY])
        || !take(r, 16, LABEL, &to->head[LABEL]))
        return 0;
    to->head_len = r->at;
    to->levels = to->depth / to->branch_bits;
    to->branches = (size_t)1 << to->branch_bits;
    to->siblings = to->levels * (to->branches - 1);
    return 1;
}

uint64_t word_at(const uint8_t *bytes)
{
    uint64_t word;
    memcpy(&word, bytes, sizeof word);
    return word;
}

static int take_tree(struct reader *r, struct tree_layout *tree, uint32_t next)
{
    struct layout *to = r->layout;
    size_t written = 0, digit;
    struct span one;
    tree->value.len = 0;
    if (!take_number(r, POSITION, &tree->position, &written))
        return 0;
    tree->written = (uint32_t)written;
    tree->place = next + tree->written;
    tree->noise = 1;
    if (tree->place >> to->depth != 0)
        refuse(r, EXPANDER_BAD_POSITION, POSITION, tree->position.first, tree->position.first);
    if (to->field == EXPANDER_PRIME) {
        if (!take(r, 8, VALUE, &tree->value))
            return 0;
        tree->noise = word_at(r->record + tree->value.first);
        if (tree->noise == 0 || tree->noise >= EXPANDER_MODULUS)
            refuse(r, EXPANDER_BAD_NOISE, VALUE, tree->value.first, tree->value.first);
    }
    if (!take(r, to->field == EXPANDER_PRIME ? 8 : 16, CORRECTION, &tree->correction))
        return 0;
    if (to->field == EXPANDER_PRIME && word_at(r->record + tree->correction.first) >= EXPANDER_MODULUS)
        refuse(r, EXPANDER_NOT_ELEMENT, CORRECTION, tree->correction.first, tree->correction.first);
    tree->siblings = r->at;
    for (size_t k = 0; k < to->siblings; k++)
        if (!take(r, 16, SIBLING, &one)) {
            if (to->part == SIBLING && to->number == EXPANDER_RECORD_ENDS) {
                to->level = k / (to->branches - 1);
                digit = (tree->place >> (to->depth - to->branch_bits * (to->level + 1))) & (to->branches - 1);
                to->child = k % (to->branches - 1);
                to->child += to->child >= digit;
            }
            return 0;
        }
    return 1;
}

static int take_body(struct reader *r)
{
    struct layout *to = r->layout;
    struct span span;
    uint32_t next = 0;
    if (to->end == EXPANDER_NOISE_END) {
        for (r->tree = 0; r->tree < to->trees; r->tree++) {
            if (!take_tree(r, &to->tree[r->tree], next))
                return 0;
            next = to->tree[r->tree].place + 1;
            to->trees_read++;
        }
        return 1;
    }
    if (!take(r, to->field == EXPANDER_PRIME ? 8 : 16, DELTA, &span))
        return 0;
    to->delta = span.first;
    if (to->field == EXPANDER_PRIME ? word_at(r->record + to->delta) % EXPANDER_MODULUS == 0
                                          || word_at(r->record + to->delta) >= EXPANDER_MODULUS
                                    : word_at(r->record + to->delta) == 0 && word_at(r->record + to->delta + 8) == 0)
        refuse(r, EXPANDER_BAD_DELTA, DELTA, to->delta, to->delta);
    to->roots = r->at;
    for (r->tree = 0; r->tree < to->trees; r->tree++)
        if (!take(r, 16, ROOT, &span))
            return 0;
    return 1;
}

void lay_out(const uint8_t *record, size_t len, struct layout *layout)
{
    struct reader r = {record, len, 0, layout, 0};
    memset(layout, 0, sizeof *layout);
    if (!take_head(&r) || !take_body(&r))
        return;
    r.tree = 0;
    layout->ends = r.at;
    layout->whole = 1;
    if (r.at < len)
        refuse(&r, EXPANDER_BYTES_AFTER, SURPLUS, r.at, r.at);
}

int due_length(const struct layout *layout, uint8_t end, size_t *least, size_t *most)
{
    size_t trees = layout->trees, leaves = (size_t)1 << layout->depth, rest, longer;
    if (layout->head_len == 0)
        return 0;
    *least = *most = layout->head_len + (layout->field == EXPANDER_BINARY ? 16 : 8) + 16 * trees;
    if (end == EXPANDER_SCALAR_END)
        return 1;
    *least = layout->head_len + trees * (1 + 16 + 16 * layout->siblings);
    /* Positions rise below N: one that is written in two bytes skips 128 places or more, in three 16,384. */
    rest = leaves - trees;
    longer = rest / 128 < trees ? rest / 128 : trees;
    rest = longer == trees ? rest - 128 * trees : 0;
    *most = *least + longer + (rest / (16384 - 128) < trees ? rest / (16384 - 128) : trees);
    return 1;
}

int print_due_length(const struct layout *layout, uint8_t end, size_t len, const char *whose)
{
    size_t least, most;
    if (!due_length(layout, end, &least, &most))
        return 0;
    printf("; it has %zu bytes, and %s head calls for %zu", len, whose, least);
    if (most > least)
        printf(" to %zu", most);
    return 1;
}

/* A record's bytes from digits of 4 or 6 bits each, with blanks between; their number, 0 if there are other characters. */
static size_t from_digits(const uint8_t *text, size_t len, int bits, uint8_t *bytes)
{
    static const char digits[] = "ABCDEFGHIJKLMNOPQRSTUVWXYZabcdefghijklmnopqrstuvwxyz0123456789+/";
    size_t made = 0, ends = 0;
    unsigned held = 0, word = 0;
    for (size_t k = 0; k < len; k++) {
        uint8_t c = text[k];
        const char *at = c != 0 ? strchr(digits, c) : NULL;
        unsigned digit = at != NULL ? (unsigned)(at - digits) : 64;
        if (c == ' ' || (c >= 9 && c <= 13))
            continue;
        if (bits == 4) /* 0 to 9 stand at 52, A at 0, a at 26 */
            digit = digit >= 52 && digit < 62 ? digit - 52 : digit < 6 ? digit + 10 : digit >= 26 && digit < 32 ? digit - 16 : 64;
        if (bits == 6 && c == '=' && ++ends <= 2)
            continue;
        if (digit == 64 || ends > 0)
            return 0;
        word = (word << bits | digit) & 0xFFFF;
        held += (unsigned)bits;
        if (held >= 8) {
            held -= 8;
            bytes[made++] = (uint8_t)(word >> held);
        }
    }
    return bits == 4 && held != 0 ? 0 : made;
}

/* Whether bytes are a text: no control characters but blanks. */
static int is_text(const uint8_t *bytes, size_t len)
{
    for (size_t k = 0; k < len; k++)
        if ((bytes[k] < 0x20 && (bytes[k] < 9 || bytes[k] > 13)) || bytes[k] == 0x7F)
            return 0;
    return 1;
}

const char *what_instead(const uint8_t *bytes, size_t len)
{
    const char *said = "it is a text, and a record's bytes are expected";
    uint8_t *made;
    size_t made_len;
    if (len == 0)
        return "the file is empty";
    if (!is_text(bytes, len))
        return NULL;
    if ((made = malloc(len)) == NULL)
        return said;
    made_len = from_digits(bytes, len, 4, made);
    if (made_len > 0)
        said = expander_describe(made, made_len).number == 0 ? "it is a record written in hexadecimal digits, and its bytes are expected"
                                                              : "it is hexadecimal digits, and a record's bytes are expected";
    else if ((made_len = from_digits(bytes, len, 6, made)) > 0 && expander_describe(made, made_len).number == 0)
        said = "it is a record written in base64, and its bytes are expected";
    companion_wipe(made, len);
    free(made);
    return said;
}
