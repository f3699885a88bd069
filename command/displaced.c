/* Where the trees of a noise record and the roots of a scalar record stand, whatever the parts before them are read as. NOT PROVED.
 *
 * A sibling that agrees with its root (128 bits) stands where it was found. The places of two trees in a row say how many bytes lie
 * between their siblings, so bytes that are too many or missing there show; so they do between two siblings of a tree, and between roots.
 * A position that is read in another length than it was written in moves nothing. */
#include "check.h"
#include "walking.h"

#include <string.h>

/* So many bytes that are too many or missing at one place are looked for: fewer than a Delta of field 2 has, so that no part of another
 * size is taken for them. */
enum { FAR = 7 };

/* Where a tree's siblings stand. */
struct stand {
    int found, placed;  /* some sibling agrees with its root; its place is beyond doubt */
    size_t place;
    size_t at, end;     /* the siblings' first byte, and the byte after the last */
    size_t first, last; /* of those that agree: the first byte, and the byte after the last */
    int inner;          /* bytes too many among them, or missing if below 0, between the bytes from and to */
    size_t from, to;
};

/* The siblings from a byte on, those from number `split` on that many bytes further; 0 where the file has ended. */
static void take_siblings(const struct bytes *noise, const struct shape *shape, size_t at, size_t split, int further, uint8_t *siblings)
{
    memset(siblings, 0, BLOCK * shape->siblings);
    for (size_t k = 0; k < shape->siblings; k++) {
        size_t first = at + BLOCK * k + (size_t)(k >= split ? further : 0);
        if (first + BLOCK <= noise->len)
            memcpy(siblings + BLOCK * k, noise->at + first, BLOCK);
    }
}

/* Whether a sibling of the first level that begins at a byte agrees. */
static int begins_at(const struct bytes *noise, const struct shape *shape, uint8_t children[BRANCHES_MAX][BLOCK], size_t at)
{
    for (size_t c = 0; c < shape->branches; c++)
        for (size_t slot = c > 0 ? c - 1 : 0; slot <= c && slot + 1 < shape->branches; slot++)
            if (at + BLOCK * (slot + 1) <= noise->len && memcmp(children[c], noise->at + at + BLOCK * slot, BLOCK) == 0)
                return 1;
    return 0;
}

static size_t last_agreeing(const struct walk *walk, size_t count)
{
    while (count > 0 && !walk->agrees[count - 1])
        count--;
    return count;
}

static void set_stand(const struct shape *shape, const struct walk *walk, size_t at, size_t split, int further, struct stand *stand)
{
    size_t first = 0, last = last_agreeing(walk, shape->siblings);
    while (!walk->agrees[first])
        first++;
    stand->found = 1;
    stand->placed = walk->deepest == (int)shape->levels - 1 && !walk->tied;
    stand->place = walk->place;
    stand->at = at;
    stand->inner = further;
    stand->end = at + BLOCK * shape->siblings + (size_t)further;
    stand->first = at + BLOCK * first;
    stand->last = at + BLOCK * last + (size_t)(last > split ? further : 0);
    if (further != 0) {
        size_t next = split;
        while (next < shape->siblings && !walk->agrees[next])
            next++;
        stand->from = at + BLOCK * last_agreeing(walk, split);
        stand->to = at + BLOCK * next + (size_t)further;
    }
}

/* Looks for the siblings of a tree that begin at a byte from `from` to `to`, nearest to `near` first. */
static void find_stand(const struct bytes *noise, const struct shape *shape, const uint8_t *root, size_t hint, size_t from, size_t to,
                       size_t near, struct stand *stand)
{
    uint8_t children[BRANCHES_MAX][BLOCK], siblings[BLOCK * SIBLINGS_MAX];
    struct walk walk, other;
    memset(stand, 0, sizeof *stand);
    make_children(root, shape->branch_bits, children);
    for (size_t turn = 0; turn <= 2 * (to - from) + 1 && !stand->found; turn++) {
        size_t at = turn % 2 == 0 ? near + turn / 2 : near - turn / 2 - 1, best, level;
        if (at < from || at > to || !begins_at(noise, shape, children, at))
            continue;
        take_siblings(noise, shape, at, 0, 0, siblings);
        walk_tree(shape, root, siblings, hint, 0, &walk);
        if (walk.agree == 0)
            continue;
        set_stand(shape, &walk, at, shape->siblings, 0, stand);
        best = walk.agree;
        level = last_agreeing(&walk, shape->siblings) / (shape->branches - 1); /* the first at which not all agree */
        for (int further = -FAR; further <= FAR && walk.deepest < (int)shape->levels - 1; further++)
            for (size_t digit = 0; digit < shape->branches && further != 0; digit++) {
                size_t shift = shape->depth - shape->branch_bits * (level + 1), split = last_agreeing(&walk, shape->siblings);
                size_t way = (walk.place & ~((shape->branches - 1) << shift)) | digit << shift;
                for (size_t more = 0; more < 2 && split + more < shape->siblings; more++) {
                    take_siblings(noise, shape, at, split + more, further, siblings);
                    walk_tree(shape, root, siblings, way, 0, &other);
                    if (other.agree > best) {
                        best = other.agree;
                        set_stand(shape, &other, at, split + more, further, stand);
                    }
                }
            }
    }
    companion_wipe(children, sizeof children);
    companion_wipe(siblings, sizeof siblings);
    companion_wipe(&walk, sizeof walk);
    companion_wipe(&other, sizeof other);
}

/* The length of the numbers with which `trees` positions in a row are written, the last of them at place, after one at before
 * (SIZE_MAX: none); 0 if that cannot be told. */
static size_t positions_len(size_t before, size_t place, size_t trees)
{
    size_t sum = place - before - trees;
    if (before != SIZE_MAX && place <= before)
        return 0;
    if (sum < 128)
        return trees;
    return trees > 1 ? 0 : sum < 16384 ? 2 : NUMBER_MAX;
}

/* Bytes that are too many between two that are confirmed, or missing there: before one of these. Where the missing ones were as those
 * around them, what is confirmed before and after overlaps. */
static void add_moved(struct diagnosis *to, size_t group, enum file file, int extra, size_t before, size_t after)
{
    struct span between = {before, after - before}, around = {before < after ? before : after, 1};
    struct finding finding = {group, extra > 0 ? INSERTED : DROPPED, file, 0, 0, 0, between, {0, 0}};
    around.len += before < after ? after - before : before - after;
    finding.bytes = extra > 0 ? between : around;
    finding.level = (size_t)(extra > 0 ? extra : -extra); /* how many */
    add_finding(to, finding);
}

/* The end of a file that is not where it is due: bytes after the record, or a cut, certain where all before it is confirmed; else a few
 * bytes may be too many or missing there. */
static void find_end(struct diagnosis *to, enum file file, size_t confirmed, size_t due, size_t len)
{
    struct span after = {due, len - due}, end = {len, 1};
    struct finding finding = {to->groups, len > due ? SURPLUS : FILE_END, file, 0, 0, 0, len > due ? after : end, len > due ? after : end};
    int certain = confirmed == due;
    if (len == due || (!certain && (len > due + FAR || due > len + FAR)))
        return;
    if (!certain) {
        finding.altered.len = 0;
        add_moved(to, finding.group, file, (int)(len - due), confirmed, len);
    }
    add_finding(to, finding);
}

/* The first byte of a file's head that is not as the other one's; the head's length if there is none. */
static size_t same_head(const struct check *check, enum file own, size_t head_len)
{
    static const uint8_t ends[2] = {EXPANDER_NOISE_END, EXPANDER_SCALAR_END};
    const struct bytes *file = &check->file[own], *other = &check->file[1 - own];
    size_t at = 1;
    if (file->len == 0 || file->at[0] != ends[own])
        return 0;
    while (at < head_len && at < file->len && file->at[at] == other->at[at])
        at++;
    return at;
}

/* The places of all trees as far as they are found. Returns how many are, and adds what is displaced; 0 if the sizes are not confirmed. */
static size_t find_trees(const struct check *check, struct stand *stand, struct diagnosis *to)
{
    const struct layout *s = &check->layout[SCALAR_FILE], *n = &check->layout[NOISE_FILE];
    const struct bytes *noise = &check->file[NOISE_FILE];
    struct shape shape = shape_of(s);
    size_t end = s->head_len, confirmed = same_head(check, NOISE_FILE, s->head_len), before = SIZE_MAX, unknown = 0, found = 0;
    int told = 1, sized = 0; /* all lengths so far can be told; trees have the length that the head says, so that it is right */
    for (size_t k = 0; k < s->trees; k++) {
        size_t body = BLOCK + BLOCK * shape.siblings, from = end + unknown * (1 + body) + BLOCK + 1, len, trees = unknown + 1;
        int extra;
        find_stand(noise, &shape, check->file[SCALAR_FILE].at + s->roots + BLOCK * k, n->trees_read > k ? n->tree[k].place : 0,
                   from > FAR ? from - FAR : 0, from + (NUMBER_MAX - 1) * trees + FAR, from, &stand[k]);
        if (!stand[k].found) {
            unknown++;
            continue;
        }
        found++;
        sized |= k > 0 && unknown == 0; /* another length would have the next tree elsewhere */
        told = told && (stand[k].placed || s->depth < 8);
        len = !told ? 0 : s->depth < 8 ? trees : positions_len(before, stand[k].place, trees);
        told = len > 0;
        extra = (int)stand[k].at - (int)(end + len + trees * BLOCK + unknown * BLOCK * shape.siblings);
        if (told && extra != 0) {
            size_t group = to->groups;
            add_moved(to, group, NOISE_FILE, extra, confirmed, stand[k].first);
            for (size_t j = k - unknown; j < k; j++) { /* a tree that stands nowhere may be another */
                struct finding other = {group, ROOT, SCALAR_FILE, j, 0, 0, {s->roots + BLOCK * j, BLOCK}, {0, 0}};
                add_finding(to, other);
                other.part = WHOLE_TREE;
                other.file = NOISE_FILE;
                other.bytes = (struct span){confirmed, stand[k].first - confirmed};
                add_finding(to, other);
            }
        }
        if (stand[k].inner != 0)
            add_moved(to, to->groups, NOISE_FILE, stand[k].inner, stand[k].from, stand[k].to);
        end = stand[k].end;
        confirmed = stand[k].last;
        before = stand[k].place;
        unknown = 0;
    }
    if (found > 0 && unknown == 0) {
        sized |= noise->len <= end + FAR && end <= noise->len + FAR;
        find_end(to, NOISE_FILE, confirmed, end, noise->len);
    }
    if (!sized)
        end_diagnosis(to);
    return sized ? found : 0;
}

/* Finds displaced bytes among the roots. */
static size_t find_roots(const struct check *check, struct diagnosis *to)
{
    const struct layout *n = &check->layout[NOISE_FILE];
    const struct bytes *noise = &check->file[NOISE_FILE], *scalar = &check->file[SCALAR_FILE];
    struct shape shape = shape_of(n);
    size_t due = n->head_len + (n->field == EXPANDER_BINARY ? 16 : 8), confirmed = same_head(check, SCALAR_FILE, n->head_len), found = 0;
    struct walk walk;
    for (size_t k = 0; k < n->trees; k++, due += BLOCK)
        for (int turn = 0; turn <= 2 * FAR; turn++) {
            int extra = turn % 2 == 0 ? turn / 2 : -(turn / 2) - 1;
            size_t at = due + (size_t)extra;
            if (at + BLOCK > scalar->len)
                continue;
            walk_tree(&shape, scalar->at + at, noise->at + n->tree[k].siblings, n->tree[k].place, 0, &walk);
            if (walk.agree == 0)
                continue;
            if (extra != 0)
                add_moved(to, to->groups, SCALAR_FILE, extra, confirmed, at);
            found++;
            due = at;
            confirmed = at + BLOCK;
            break;
        }
    companion_wipe(&walk, sizeof walk);
    if (found > 0)
        find_end(to, SCALAR_FILE, confirmed, due, scalar->len);
    return found;
}

/* Whether a diagnosis has bytes that are too many or missing. */
static int has_moved(const struct diagnosis *diagnosis)
{
    for (size_t k = 0; k < diagnosis->count; k++)
        if (diagnosis->finding[k].part == INSERTED || diagnosis->finding[k].part == DROPPED)
            return 1;
    return 0;
}

int find_displaced(struct check *check)
{
    static const uint8_t ends[2] = {EXPANDER_NOISE_END, EXPANDER_SCALAR_END};
    struct stand stand[EXPANDER_TREES_MAX];
    int moved = 0;
    for (int file = 0; file < 2 && !moved; file++) {
        struct diagnosis seen;
        memset(&seen, 0, sizeof seen);
        if (check->number[1 - file] != 0 || check->layout[1 - file].end != ends[1 - file])
            continue;
        seen.together = (file == NOISE_FILE ? find_trees(check, stand, &seen) : find_roots(check, &seen)) > 0;
        moved = has_moved(&seen);
        if (moved) {
            end_diagnosis(&check->diagnosis);
            check->diagnosis = seen;
            check->diagnosed = 1;
        } else {
            end_diagnosis(&seen);
        }
    }
    companion_wipe(stand, sizeof stand);
    return moved;
}

/* A position as it is read, and in how many bytes; more than NUMBER_MAX where it is none. */
static size_t read_position(const uint8_t *at, size_t *len)
{
    size_t read = 0;
    for (*len = 1; *len <= NUMBER_MAX; ++*len) {
        read |= (size_t)(at[*len - 1] & 127u) << (7 * (*len - 1));
        if (at[*len - 1] < 128)
            break;
    }
    return read;
}

int find_positions_anew(struct check *check)
{
    const struct layout *s = &check->layout[SCALAR_FILE];
    const uint8_t *noise = check->file[NOISE_FILE].at;
    size_t end = s->head_len, before = SIZE_MAX, width = s->field == EXPANDER_BINARY ? 16 : 8;
    struct stand stand[EXPANDER_TREES_MAX];
    struct diagnosis seen, rest;
    struct layout *layout = &check->anew;
    int whole;
    memset(&seen, 0, sizeof seen);
    memset(&rest, 0, sizeof rest);
    whole = check->number[SCALAR_FILE] == 0 && s->end == EXPANDER_SCALAR_END && find_trees(check, stand, &seen) == s->trees
            && seen.count == 0;
    *layout = *s; /* heads are equal */
    for (size_t k = 0; k < s->trees && whole; k++) {
        struct tree_layout *tree = &layout->tree[k];
        size_t due = stand[k].place - before - 1, len = due < 128 ? 1 : due < 16384 ? 2 : NUMBER_MAX, read_len, many;
        whole = stand[k].placed && end + len + BLOCK == stand[k].at;
        if (!whole)
            break;
        tree->position = (struct span){end, len};
        tree->value = (struct span){end + len, BLOCK - width};
        tree->correction = (struct span){end + len + BLOCK - width, width};
        tree->siblings = stand[k].at;
        tree->written = (uint32_t)due; /* what is wrong with it is said here */
        tree->place = (uint32_t)stand[k].place;
        tree->noise = tree->value.len == 0 ? 1 : word_at(noise + tree->value.first);
        if (read_position(noise + end, &read_len) != due || read_len != len) {
            uint8_t bytes[NUMBER_MAX] = {0};
            struct finding finding = {seen.groups, POSITION, NOISE_FILE, k, 0, 0, tree->position, {0, 0}};
            for (size_t b = 0; b < len; b++)
                bytes[b] = (uint8_t)((due >> (7 * b) & 127) | (b + 1 < len ? 128u : 0u));
            finding.altered = differing(noise + end, bytes, len, end, &many);
            add_finding(&seen, finding);
        }
        before = stand[k].place;
        end = stand[k].end;
    }
    whole = whole && seen.count > 0;
    if (whole) { /* what is wrong besides: siblings, corrections, values, Delta */
        diagnose(noise, layout, check->file[SCALAR_FILE].at, s, &rest);
        add_findings(&seen, &rest);
        seen.together = 1;
        end_diagnosis(&check->diagnosis);
        check->diagnosis = seen;
        check->diagnosed = 1;
    } else {
        end_diagnosis(&seen);
    }
    end_diagnosis(&rest);
    companion_wipe(stand, sizeof stand);
    companion_wipe(layout, sizeof *layout);
    return whole;
}
