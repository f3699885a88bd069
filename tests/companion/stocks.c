/* Stocks: draws, passages, and files that are changed or cut. */
#include "sections.h"

#include <signal.h>
#include <sys/resource.h>
#include <sys/stat.h>
#include <unistd.h>

char folder[64], path[100];

void fresh_folder(void)
{
    const char *above = getenv("TMPDIR");
    snprintf(folder, sizeof folder, "%s/stock-XXXXXX", above != NULL && strlen(above) < 40 ? above : "/tmp");
    if (mkdtemp(folder) == NULL)
        complain(HERE, "no folder");
    snprintf(path, sizeof path, "%s/stock", folder);
}

void remove_folder(void)
{
    char name[128];
    static const char *const endings[] = {"", ".new", ".lock", ".link"};
    for (int k = 0; k < 4; k++) {
        snprintf(name, sizeof name, "%s%s", path, endings[k]);
        remove(name);
    }
    CHECK(rmdir(folder) == 0, "%s holds more than a stock", folder);
}

void change_byte(size_t place, long len)
{
    FILE *file = fopen(path, "r+b");
    int byte;
    CHECK(file != NULL, "no file");
    fseek(file, (long)place, SEEK_SET);
    byte = fgetc(file);
    fseek(file, (long)place, SEEK_SET);
    fputc(byte ^ 1, file);
    fclose(file);
    CHECK(len < 0 || truncate(path, len) == 0, "truncate");
}

const uint32_t stock_shares[3] = {100, 50, 0};

static void step_together(struct side *side)
{
    size_t *first = side->with;
    struct companion_stock stock;
    side->status = companion_create_stock(NULL, companion_label(1), 200, stock_shares, 3, &stock);
    if (*first > 0) /* this one is ahead */
        side->status = companion_draw(&stock, NULL, companion_label(1), 0, *first, first);
    side->status = companion_draw(&stock, &side->link, companion_label(1), 0, 10, first);
    companion_close_stock(&stock);
}

/* Draws until nothing is left, and goes on with another caller over the same link. */
static void spend_together(struct side *side)
{
    size_t first = 0, draws = 0;
    struct companion_stock stock;
    side->status = companion_create_stock(NULL, companion_label(1), 200, stock_shares, 3, &stock);
    while (side->status.number == 0 && draws < 99) {
        side->status = companion_draw(&stock, &side->link, companion_label(1), 0, 30, &first);
        draws += side->status.number == 0;
    }
    CHECK(draws == 3, "%zu draws", draws);
    EXPECT(EXPANDER_SHARE_SPENT, side->status);
    side->status = companion_draw(&stock, &side->link, companion_label(1), 1, 30, &first);
    CHECK(first == 100, "the other caller's first is %zu", first);
    if (side->with != NULL) /* this end lacks the label that the other draws from */
        side->status = companion_draw(&stock, &side->link, companion_label(2), 1, 1, &first);
    else
        side->status = companion_draw(&stock, &side->link, companion_label(1), 1, 1, &first);
    companion_close_stock(&stock);
}

/* A crash between the passages of two ends: one has passed, the other, that has not, passes when it comes up. */
static void pass_apart(void)
{
    struct companion_stock ends[2];
    struct expander_label one = companion_label(1), two = companion_label(2);
    size_t first[2];
    char paths[2][128];
    fresh_folder();
    for (int k = 0; k < 2; k++) {
        snprintf(paths[k], sizeof paths[k], "%s.%d", path, k);
        EXPECT(0, companion_create_stock(paths[k], one, 200, stock_shares, 3, &ends[k]));
        EXPECT(0, companion_draw(&ends[k], NULL, one, 0, 30, &first[k]));
    }
    EXPECT(0, companion_pass(&ends[0], two, 120));
    for (int k = 0; k < 2; k++) {
        companion_close_stock(&ends[k]);
        EXPECT(k == 0 ? 0 : 21, companion_open_stock(paths[k], two, &ends[k]));
    }
    EXPECT(0, companion_open_stock(paths[1], one, &ends[1]));
    EXPECT(0, companion_pass(&ends[1], two, 120));
    for (size_t caller = 0; caller < 2; caller++) {
        EXPECT(0, companion_draw(&ends[0], NULL, two, caller, 7, &first[0]));
        EXPECT(0, companion_draw(&ends[1], NULL, two, caller, 7, &first[1]));
        CHECK(first[0] == first[1], "after the passages the ends draw %zu and %zu", first[0], first[1]);
    }
    for (int k = 0; k < 2; k++) {
        companion_close_stock(&ends[k]);
        CHECK(remove(paths[k]) == 0 && remove(strcat(paths[k], ".lock")) == 0, "no file");
    }
    remove_folder();
}

void test_stock(size_t count)
{
    struct companion_stock a, b;
    struct expander_label one = companion_label(1), two = companion_label(2);
    size_t first = 7, positions[2], len;
    struct stat about;
    struct rlimit limit, none;
    (void)count;
    fresh_folder();
    EXPECT(COMPANION_FILE, companion_open_stock(path, one, &a));
    EXPECT(16, companion_create_stock(path, one, 149, stock_shares, 3, &a));
    EXPECT(2, companion_create_stock(path, one, 149, stock_shares, 0, &a));
    EXPECT(0, companion_create_stock(path, one, 200, stock_shares, 3, &a));
    EXPECT(COMPANION_FILE_IN_USE, companion_open_stock(path, one, &b));
    EXPECT(COMPANION_FILE_IN_USE, companion_create_stock(path, one, 200, stock_shares, 3, &b));
    EXPECT(0, companion_draw(&a, NULL, one, 0, 30, &first));
    CHECK(first == 0, "the first draw");
    EXPECT(0, companion_draw(&a, NULL, one, 1, 20, &first));
    CHECK(first == 100, "the second caller's");
    SAYS(companion_draw(&a, NULL, one, 0, 71, &first),
         "expander_draw refused with 15: the caller's remaining share is below count: 71 are asked for, 70 are left");
    EXPECT(15, companion_draw(&a, NULL, one, 0, 71, &first));
    EXPECT(14, companion_draw(&a, NULL, one, 3, 1, &first));
    EXPECT(21, companion_draw(&a, NULL, two, 0, 1, &first));
    SAYS(companion_draw(&a, NULL, two, 0, 1, &first),
         "expander_draw refused with 21: label is not the one in use: label is 2, in use is 1");
    companion_close_stock(&a);
    companion_close_stock(&a);
    EXPECT(COMPANION_FILE_THERE, companion_create_stock(path, one, 200, stock_shares, 3, &a));
    for (at = 0; at < 20; at++) { /* whatever fails while it looks, a stock that is there is not written over */
        calls = 0;
        mode = FAILS;
        CHECK(companion_create_stock(path, one, 200, stock_shares, 3, &a).number != 0, "created over a stock, where call %zu fails", at);
        mode = WELL;
    }
    EXPECT(21, companion_open_stock(path, two, &a));
    EXPECT(0, companion_open_stock(path, one, &a));
    EXPECT(0, companion_draw(&a, NULL, one, 0, 5, &first));
    CHECK(first == 30, "what was drawn stays drawn");
    EXPECT(20, companion_pass(&a, one, 200));
    EXPECT(16, companion_pass(&a, two, 94));
    EXPECT(0, companion_pass(&a, two, 95));
    companion_close_stock(&a);
    EXPECT(21, companion_open_stock(path, one, &a));
    EXPECT(0, companion_open_stock(path, two, &a));
    EXPECT(0, companion_draw(&a, NULL, two, 0, 65, &first));
    CHECK(first == 0, "a fresh dealing's indices");

    /* A disk with no room: the kernel itself writes 40 bytes and then refuses. */
    signal(SIGXFSZ, SIG_IGN);
    getrlimit(RLIMIT_FSIZE, &none);
    limit = none;
    limit.rlim_cur = 40;
    setrlimit(RLIMIT_FSIZE, &limit);
    EXPECT(COMPANION_FILE, companion_draw(&a, NULL, two, 1, 30, &first));
    setrlimit(RLIMIT_FSIZE, &none);
    EXPECT(0, companion_draw(&a, NULL, two, 1, 30, &first));
    CHECK(first == 65, "what was not saved was not drawn");
    companion_close_stock(&a);

    CHECK(stat(path, &about) == 0 && (about.st_mode & 077) == 0, "others may read the file");
    len = (size_t)about.st_size;
    for (size_t place = 0; place < len; place++) {
        change_byte(place, -1);
        EXPECT(COMPANION_FILE_DAMAGED, companion_open_stock(path, two, &a));
        change_byte(place, -1);
    }
    EXPECT(0, companion_open_stock(path, two, &a));
    companion_close_stock(&a);
    CHECK(truncate(path, (long)len + 1) == 0, "truncate");
    EXPECT(COMPANION_FILE_DAMAGED, companion_open_stock(path, two, &a));
    for (long cut = (long)len - 1; cut >= 0; cut -= 7) {
        CHECK(truncate(path, cut) == 0, "truncate");
        EXPECT(COMPANION_FILE_DAMAGED, companion_open_stock(path, two, &a));
    }
    remove_folder();
    EXPECT(COMPANION_FILE, companion_create_stock("/nowhere/at/all", one, 200, stock_shares, 3, &a));

    for (size_t ahead = 0; ahead <= 60; ahead += 20) { /* ends that crashed at different times */
        memset(sides, 0, sizeof sides);
        positions[0] = ahead;
        positions[1] = ahead / 2;
        sides[0].with = &positions[0];
        sides[1].with = &positions[1];
        sides[0].run = sides[1].run = step_together;
        run_both(sides);
        EXPECT(0, sides[0].status);
        EXPECT(0, sides[1].status);
        CHECK(positions[0] == ahead && positions[1] == ahead, "ends draw %zu and %zu", positions[0], positions[1]);
    }
    memset(sides, 0, sizeof sides);
    sides[0].run = sides[1].run = spend_together;
    sides[1].with = &first;
    run_both(sides);
    EXPECT_FAR(EXPANDER_LABEL_NOT_IN_USE, sides[0].status);
    EXPECT(EXPANDER_LABEL_NOT_IN_USE, sides[1].status);
    pass_apart();
    printf("stock: %zu bytes a file; each byte changed, and each cut, is noticed\n", len);
}
