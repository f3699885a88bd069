/* What follows from the heads of two records, and from where one is refused. NOT PROVED. */
#include "check.h"
#include "walking.h"

#include <stdlib.h>
#include <string.h>

void compare_heads(struct check *check)
{
    const struct layout *n = &check->layout[0], *s = &check->layout[1];
    for (int part = FIELD_BYTE; part < HEAD_PARTS; part++) {
        const struct span *a = &n->head[part], *b = &s->head[part];
        check->differs[part] = a->len != b->len || memcmp(check->file[0].at + a->first, check->file[1].at + b->first, a->len) != 0;
        check->heads_differ |= check->differs[part];
    }
}

/* Whether the heads agree in all on which trees depend. */
static int alike(const struct check *check)
{
    return !check->differs[FIELD_BYTE] && !check->differs[DEPTH] && !check->differs[BRANCH_BITS] && !check->differs[TREES];
}

/* A record with the other one's head: its own bytes from the end of that head on. Returns its number, and its layout. */
static uint32_t with_head(const struct bytes *own, uint8_t end, const struct bytes *other, size_t head_len, struct bytes *made,
                          struct layout *layout)
{
    uint32_t number = EXPANDER_RECORD_ENDS;
    memset(layout, 0, sizeof *layout);
    made->len = own->len;
    made->at = NULL;
    if (own->len < head_len || (made->at = malloc(own->len)) == NULL)
        return number;
    memcpy(made->at, own->at, own->len);
    memcpy(made->at, other->at, head_len);
    made->at[0] = end;
    number = expander_describe(made->at, made->len).number;
    lay_out(made->at, made->len, layout);
    return number;
}

/* How well a pair fits: 0 not at all, 1 some trees follow from their roots, 2 it is what a dealing makes. */
static int fit(const struct bytes file[2], const struct layout *n, const struct layout *s, struct diagnosis *seen)
{
    if (!n->whole || !s->whole || n->end != EXPANDER_NOISE_END || s->end != EXPANDER_SCALAR_END || n->field != s->field
        || n->depth != s->depth || n->branch_bits != s->branch_bits || n->trees != s->trees)
        return 0;
    diagnose(file[0].at, n, file[1].at, s, seen);
    return seen->dealt ? 2 : seen->together > 0 ? 1 : 0;
}

/* How many bytes a number takes; 4 where it does not end with the third. */
static size_t number_len(const struct bytes *file, size_t at)
{
    size_t len = 1;
    while (len < 4 && at + len < file->len && file->at[at + len - 1] >= 128)
        len++;
    return len;
}

/* Whether a part of the head is wrong in this file itself, where the other one's head lets trees follow from their roots: field,
 * d, g and t are, since trees depend on them; l, n, code key and label only where l or n is not admitted with that d, or where n takes
 * another length, which moves all that follows. */
static int wrong_itself(const struct check *check, enum file file, const struct layout *right, enum part part)
{
    const uint8_t *at = check->file[file].at + right->head[part].first;
    size_t leaves = (size_t)1 << right->depth, len = number_len(&check->file[file], right->head[part].first), number = 0;
    for (size_t k = 0; k < len && k < 3; k++)
        number |= (size_t)(at[k] & 127u) << (7 * k);
    if (part == TERMS)
        return len != 1 || number < 1 || number > EXPANDER_TERMS_MAX || number > leaves;
    if (part == OUTPUTS)
        return len != right->head[part].len || number < 1 || number > leaves / 2;
    return part < TERMS;
}

/* Findings for the parts in which the heads differ, as the other file's head lays them out; wrong is the file that has wrong ones, or
 * -1 where that cannot be told. What may be either file's is said of both. */
static void find_head(struct check *check, int wrong, const struct layout *right)
{
    static const uint8_t ends[2] = {EXPANDER_NOISE_END, EXPANDER_SCALAR_END};
    const struct span none = {0, 0};
    for (int part = END_BYTE; part < HEAD_PARTS; part++) {
        struct span span = right->head[part], altered = none;
        size_t group = check->diagnosis.groups;
        for (size_t k = span.first; k < span.first + span.len; k++)
            if (part != END_BYTE ? check->file[0].at[k] != check->file[1].at[k]
                                 : wrong >= 0 && check->file[wrong].at[k] != ends[wrong]) {
                altered.first = altered.len == 0 ? k : altered.first;
                altered.len = k + 1 - altered.first;
            }
        for (int file = 0; file < 2 && altered.len > 0; file++) {
            int itself = wrong >= 0 && wrong_itself(check, (enum file)wrong, right, (enum part)part);
            struct finding finding = {group, (enum part)part, (enum file)file, 0, 0, 0, span, itself && part < TERMS ? altered : none};
            if (!itself || file == wrong)
                add_finding(&check->diagnosis, finding);
        }
    }
}

/* Heads differ, or a head is refused: tries each file with the other one's head. */
void diagnose_heads(struct check *check)
{
    static const uint8_t ends[2] = {EXPANDER_NOISE_END, EXPANDER_SCALAR_END};
    struct diagnosis seen[2];
    int fits[2] = {0, 0}, wrong;
    memset(seen, 0, sizeof seen);
    memset(&check->diagnosis, 0, sizeof check->diagnosis);
    check->diagnosis.together = -1;
    for (int file = 0; file < 2; file++) {
        struct bytes pair[2] = {check->file[0], check->file[1]}, made;
        struct layout mended, right = check->layout[1 - file];
        uint32_t number;
        /* The other file must read by itself, at its own end. */
        if (check->number[1 - file] != 0 || right.end != ends[1 - file])
            continue;
        number = with_head(&check->file[file], ends[file], &check->file[1 - file], right.head_len, &made, &mended);
        if (number == 0) {
            pair[file] = made;
            fits[file] = file == 0 ? fit(pair, &mended, &right, &seen[0]) : fit(pair, &right, &mended, &seen[1]);
        }
        drop_bytes(&made);
        companion_wipe(&mended, sizeof mended);
        companion_wipe(&right, sizeof right);
    }
    if (fits[0] > 0 || fits[1] > 0) {
        check->diagnosed = 1;
        check->diagnosis.together = 1;
        wrong = fits[0] > fits[1] ? NOISE_FILE : fits[1] > fits[0] ? SCALAR_FILE : -1;
        find_head(check, wrong, &check->layout[wrong == NOISE_FILE ? 1 : 0]);
        if (wrong >= 0 || alike(check)) /* what is wrong beside the heads, in trees that both layouts agree on */
            add_findings(&check->diagnosis, &seen[wrong >= 0 ? wrong : 0]);
    }
    for (int file = 0; file < 2; file++)
        end_diagnosis(&seen[file]);
}

/* The part that is refused is not admitted, so it is wrong itself, whatever else would account for it. Where something else would,
 * it may be wrong too, and what was altered in this one is not known. */
static void settle_refused(struct diagnosis *seen, struct finding refused)
{
    const struct span none = {0, 0};
    size_t kept = 0, group = SIZE_MAX, members = 0;
    for (size_t k = 0; k < seen->count; k++) {
        const struct finding *one = &seen->finding[k];
        if (one->part == refused.part && one->file == refused.file && one->tree == refused.tree) {
            group = one->group;
            refused.altered = one->altered;
        }
    }
    for (size_t k = 0; k < seen->count; k++) {
        members += seen->finding[k].group == group;
        if (seen->finding[k].group != group)
            seen->finding[kept++] = seen->finding[k];
    }
    seen->count = kept;
    refused.altered = members > 1 ? none : refused.altered;
    refused.group = group == SIZE_MAX ? seen->groups : group;
    add_finding(seen, refused);
}

/* Whether nothing of the part's tree agrees with its root: then the part may stand at another place than where it was read. */
static int in_doubt(const struct diagnosis *seen, struct finding part)
{
    for (size_t k = 0; k < seen->count; k++)
        if (seen->finding[k].part == WHOLE_TREE && seen->finding[k].tree == part.tree && part.file == NOISE_FILE)
            return 1;
    return 0;
}

/* Whether one record alone is refused, and heads agree. */
static int one_refused(const struct check *check)
{
    const struct layout *n = &check->layout[0], *s = &check->layout[1];
    size_t head_len = check->number[0] == 0 ? n->head_len : s->head_len;
    return (check->number[0] == 0) != (check->number[1] == 0) && check->file[0].len >= head_len && check->file[1].len >= head_len
           && head_len > 0 && memcmp(check->file[0].at + 1, check->file[1].at + 1, head_len - 1) == 0
           && n->end == EXPANDER_NOISE_END && s->end == EXPANDER_SCALAR_END;
}

int diagnose_cut(struct check *check)
{
    int file = check->number[0] != 0 ? NOISE_FILE : SCALAR_FILE;
    size_t len = check->file[file].len;
    struct finding cut = {0, FILE_END, (enum file)file, 0, 0, 0, {len, 1}, {len, 1}};
    struct finding dropped = {0, DROPPED, (enum file)file, 0, 0, 0, {0, 0}, {0, 0}};
    size_t due, most;
    if (!one_refused(check) || check->layout[file].number != EXPANDER_RECORD_ENDS
        || !prefix_agrees(check->file[0].at, check->file[0].len, &check->layout[0], check->file[1].at, check->file[1].len,
                          &check->layout[1]))
        return 0;
    if (file == SCALAR_FILE && due_length(&check->layout[file], EXPANDER_SCALAR_END, &due, &most) && due - len < BLOCK) {
        cut.altered.len = 0; /* what there is of the last root agrees with nothing: a byte of it may be missing before its end */
        dropped.level = due - len;
        dropped.bytes = (struct span){due - BLOCK, len + 1 - (due - BLOCK)};
        add_finding(&check->diagnosis, dropped);
    }
    add_finding(&check->diagnosis, cut);
    check->diagnosis.together = check->diagnosed = 1;
    return 1;
}

/* A record is refused though heads agree: the same look at trees and roots, as far as both can be laid out. */
void diagnose_refused(struct check *check)
{
    const struct layout *n = &check->layout[0], *s = &check->layout[1], *at;
    size_t len;
    struct finding refused;
    struct diagnosis *to = &check->diagnosis;
    int wrong = check->number[0] != 0 ? NOISE_FILE : SCALAR_FILE;
    if (!one_refused(check))
        return;
    at = &check->layout[wrong];
    len = check->file[wrong].len;
    memset(&refused, 0, sizeof refused);
    refused.file = (enum file)wrong;
    refused.part = at->part;
    refused.tree = at->in_tree;
    if (wrong == NOISE_FILE && find_positions_anew(check))
        return;
    if (!n->whole || !s->whole)
        return;
    diagnose(check->file[0].at, n, check->file[1].at, s, to);
    if (at->number == EXPANDER_BYTES_AFTER && to->dealt) {
        refused.bytes = refused.altered = (struct span){at->at, len - at->at};
        refused.tree = 0;
        add_finding(to, refused);
    } else if (at->number != EXPANDER_BYTES_AFTER && at->ends == len && at->number != EXPANDER_BAD_POSITION && to->together > 0
               && !in_doubt(to, refused)) {
        const struct tree_layout *tree = &n->tree[at->in_tree];
        refused.bytes = at->part == VALUE ? tree->value : at->part == CORRECTION ? tree->correction
                        : (struct span){s->delta, s->roots - s->delta};
        refused.tree = at->part == DELTA ? 0 : refused.tree;
        settle_refused(to, refused);
    }
    check->diagnosed = to->count > 0 && to->together > 0 && (at->number != EXPANDER_BYTES_AFTER || to->dealt);
    if (!check->diagnosed)
        end_diagnosis(to);
}

void diagnose_alike(struct check *check)
{
    const struct layout *n = &check->layout[0], *s = &check->layout[1];
    if (!alike(check) || check->diagnosed)
        return;
    diagnose(check->file[0].at, n, check->file[1].at, s, &check->diagnosis);
    check->diagnosed = 1;
    if (!check->diagnosis.apart && n->head_len == s->head_len)
        find_head(check, -1, n);
}
