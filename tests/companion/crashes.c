/* Stocks whose process is killed, and that processes open at once. */
#include "sections.h"

#include <fcntl.h>
#include <signal.h>
#include <sys/wait.h>
#include <unistd.h>

/* What the process that is killed says: the label that it has, and a window that it was handed out, or none. */
struct handed {
    uint64_t label;
    size_t first, count;
};

/* What is done around a stock that is open. */
enum { CHDIR = 1, LINK = 2, FORK = 4, UNLOCK = 8 };
static const int around[] = {0, CHDIR, LINK, FORK, UNLOCK, CHDIR | LINK | FORK | UNLOCK};
enum { AROUND = sizeof around / sizeof *around };

/* A child that tries to draw: from its copy of the stock, or from the file once the lock is removed. It is to get nothing. */
static void draw_in_child(int to, struct companion_stock *stock, struct handed handed, int fresh)
{
    struct companion_status status = {0, "", 0, 0, 0, 0, 0, 0, {{0}}, {{0}}};
    int ended_as;
    pid_t id = fork();
    if (id == 0) {
        if (fresh) {
            companion_close_stock(stock);
            status = companion_open_stock(path, companion_label(handed.label), stock);
        }
        handed.count = 2;
        for (size_t caller = 0; caller < 2 && status.number == 0; caller++)
            if ((status = companion_draw(stock, NULL, companion_label(handed.label), caller, handed.count, &handed.first)).number == 0
                && __real_write(to, &handed, sizeof handed) != sizeof handed)
                _exit(5);
        _exit(status.number == (fresh ? COMPANION_FILE_IN_USE : COMPANION_FORKED) ? 0 : 1);
    }
    if (waitpid(id, &ended_as, 0) != id || ended_as != 0)
        _exit(6);
}

/* A process that draws, or first passes, or passes after a draw, until it is killed, and says by the pipe what it was handed out.
 * Its stock has the label, or the next one: a passage was saved, and nobody was told. */
static void draw_and_die(int to, enum mode how, size_t place, uint64_t turn, uint64_t label, int what)
{
    struct companion_stock stock;
    struct companion_status status;
    struct handed handed = {label + 1, 0, 0};
    char name[128];
    seed = turn;
    mode = WELL;
    snprintf(name, sizeof name, "%s%s", what & CHDIR ? strrchr(path, '/') + 1 : path, what & LINK ? ".link" : "");
    if (what & CHDIR && chdir(folder) != 0)
        _exit(7);
    status = companion_open_stock(name, companion_label(label + 1), &stock);
    if (status.number == EXPANDER_LABEL_NOT_IN_USE) {
        handed.label = label;
        status = companion_open_stock(name, companion_label(label), &stock);
    } else if (status.number == COMPANION_FILE) {
        status = companion_create_stock(path, companion_label(handed.label), EXPANDER_OUTPUTS_MAX,
                                        (const uint32_t[2]){EXPANDER_OUTPUTS_MAX / 2, EXPANDER_OUTPUTS_MAX / 2}, 2, &stock);
    }
    if (status.number != 0 || __real_write(to, &handed, sizeof handed) != sizeof handed)
        _exit(2);
    if (what & CHDIR && chdir("/") != 0)
        _exit(7);
    if (what & FORK)
        draw_in_child(to, &stock, handed, 0);
    snprintf(name, sizeof name, "%s.lock", path);
    if (what & UNLOCK && remove(name) == 0)
        draw_in_child(to, &stock, handed, 1);
    calls = 0;
    at = place;
    mode = how;
    for (size_t step = 0;; step++) {
        handed.count = 0;
        if (step == turn % 5) { /* in two of five runs a passage is among the two steps that are made */
            status = companion_pass(&stock, companion_label(++handed.label), EXPANDER_OUTPUTS_MAX);
        } else {
            handed.count = 1 + draw(3);
            status = companion_draw(&stock, NULL, companion_label(handed.label), draw(2), handed.count, &handed.first);
        }
        if (status.number != 0)
            _exit(status.number == EXPANDER_SHARE_SPENT ? 3 : 4);
        if (__real_write(to, &handed, sizeof handed) != sizeof handed)
            _exit(5);
    }
}

/* Kills before and after each call of the system that saving makes; a crash of the machine may also lose the rename, until
 * the folder is synced: then the file before it is put back. */
void test_crashes(size_t count)
{
    enum { STEPS = 13 }; /* fstat, fstatat, pread; unlinkat, openat, flock, fstat, fstatat, write, fsync, renameat, close, fsync */
    static uint8_t used[EXPANDER_OUTPUTS_MAX]; /* of the label's dealing */
    char before[128], command[300];
    size_t given = 0, put_back = 0, runs_made = 0, passages = 0, unsaid = 0, kinds[AROUND] = {0};
    uint64_t label = 0;
    fresh_folder();
    snprintf(before, sizeof before, "%s.link", path);
    CHECK(symlink("stock", before) == 0, "symlink");
    snprintf(before, sizeof before, "%s.before", path);
    for (size_t turn = 0; turn < count; turn++) {
        enum mode how = turn % 2 == 0 ? DIES_BEFORE : DIES_AFTER;
        size_t place = turn / 2 % (2 * STEPS), step = place % STEPS, seen = 0, kind = turn / (4 * STEPS) % AROUND;
        struct handed handed;
        int fds[2], status;
        pid_t id;
        if (pipe(fds) != 0)
            complain(HERE, "no pipe");
        snprintf(command, sizeof command, "cp -p '%s' '%s' 2>/dev/null", path, before);
        if (turn % 7 == 0 && place < STEPS && system(command) != 0 && turn > 0)
            complain(HERE, "no copy");
        fflush(stdout);
        id = fork();
        if (id == 0)
            draw_and_die(fds[1], how, place, turn + 1, label, around[kind]);
        kinds[kind]++;
        __real_close(fds[1]);
        while (__real_read(fds[0], &handed, sizeof handed) == sizeof handed) {
            if (handed.label != label) {
                CHECK(handed.label == label + 1, "label %u after %u", (unsigned)handed.label, (unsigned)label);
                label = handed.label;
                memset(used, 0, sizeof used);
                unsaid += seen == 0;
                passages++;
            }
            for (size_t k = handed.first; k < handed.first + handed.count; k++) {
                CHECK(!used[k], "index %zu of label %u is handed out twice, in run %zu", k, (unsigned)label, turn);
                used[k] = 1;
                given++;
            }
            seen++;
        }
        __real_close(fds[0]);
        waitpid(id, &status, 0);
        CHECK(WIFSIGNALED(status) && WTERMSIG(status) == SIGKILL, "run %zu ended by itself, status %d", turn, status);
        CHECK(seen == 1 + place / STEPS, "run %zu made %zu steps", turn, seen);
        /* Renamed and not synced: the machine may come up with the file as it was before this run. */
        if (turn % 7 == 0 && turn > 0 && place < STEPS && (how == DIES_BEFORE ? step >= 11 && step <= 12 : step >= 10 && step <= 11)) {
            CHECK(rename(before, path) == 0, "nothing to put back");
            put_back++;
        }
        runs_made++;
    }
    remove(before);
    remove_folder();
    CHECK(count < 500 || (passages > count / 10 && unsaid > count / 100), "%zu passages, %zu of them found after a crash", passages,
          unsaid);
    printf("crashes: %zu runs killed before and after each of the %d calls of saving, %zu indices handed out, none twice; %zu passages,"
           " %zu of them found after a crash; %zu times the rename was lost; %zu runs with chdir, %zu with a link, %zu with a fork,"
           " %zu with the lock removed, %zu with all of these\n", runs_made, STEPS, given, passages, unsaid, put_back, kinds[1], kinds[2],
           kinds[3], kinds[4], kinds[5]);
}

/* Processes that remove the lock and create one stock at once: one does, and draws. */
static void create_at_once(size_t count)
{
    enum { PROCESSES = 4 };
    char lock[128];
    size_t created = 0, in_use = 0;
    for (size_t turn = 0; turn < count; turn++) {
        struct companion_stock stock;
        pid_t ids[PROCESSES];
        int start[2], status, good = 0;
        fresh_folder();
        snprintf(lock, sizeof lock, "%s.lock", path);
        if (turn % 3 == 0) { /* one that was cut short */
            snprintf(lock, sizeof lock, "%s.new", path);
            __real_close(__real_open(lock, O_WRONLY | O_CREAT, 0600));
            snprintf(lock, sizeof lock, "%s.lock", path);
        }
        CHECK(pipe(start) == 0, "no pipe");
        fflush(stdout);
        for (size_t process = 0; process < PROCESSES; process++)
            if ((ids[process] = fork()) == 0) {
                struct companion_status made;
                size_t first;
                char go;
                __real_close(start[1]);
                if (__real_read(start[0], &go, 1) != 0) /* the parent closes it */
                    _exit(2);
                remove(lock);
                made = companion_create_stock(path, companion_label(1), 200, stock_shares, 3, &stock);
                remove(lock);
                if (made.number != 0)
                    _exit(made.number == COMPANION_FILE_IN_USE ? 3 : made.number == COMPANION_FILE_THERE ? 4 : (int)made.number);
                _exit((int)companion_draw(&stock, NULL, companion_label(1), 0, 1, &first).number);
            }
        __real_close(start[0]);
        __real_close(start[1]);
        for (size_t process = 0; process < PROCESSES; process++) {
            CHECK(waitpid(ids[process], &status, 0) == ids[process] && WIFEXITED(status), "a process ended by a signal");
            status = WEXITSTATUS(status);
            CHECK(status == 0 || status == 3 || status == 4, "a process ended with %d", status);
            good += status == 0;
            in_use += status == 3;
        }
        CHECK(good == 1, "%d processes created one stock", good);
        created++;
        remove_folder();
    }
    printf("races: %zu stocks that %d processes create at once, with the lock removed: one does; %zu times it was in use\n", created,
           PROCESSES, in_use);
}

/* Processes that remove the lock, open the stock, draw and close it, all at once: each index goes to one of them. A process goes on until
 * it has opened the stock a quarter of count times, however often it is refused: that hangs on how the system shares out its time. */
void test_races(size_t count)
{
    enum { PROCESSES = 4 };
    static uint8_t used[EXPANDER_OUTPUTS_MAX];
    static const uint32_t all[1] = {EXPANDER_OUTPUTS_MAX};
    struct companion_stock stock;
    struct handed handed;
    char lock[128];
    size_t given = 0, refused = 0;
    pid_t ids[PROCESSES];
    int fds[2], status;
    create_at_once(count);
    fresh_folder();
    snprintf(lock, sizeof lock, "%s.link", path);
    CHECK(symlink("stock", lock) == 0 && pipe(fds) == 0, "symlink");
    EXPECT(0, companion_create_stock(path, companion_label(1), EXPANDER_OUTPUTS_MAX, all, 1, &stock));
    companion_close_stock(&stock);
    snprintf(lock, sizeof lock, "%s.lock", path);
    fflush(stdout);
    for (size_t process = 0; process < PROCESSES; process++)
        if ((ids[process] = fork()) == 0) {
            char name[128];
            seed = process + 1;
            for (size_t times = 0; times < (count + 3) / 4;) {
                struct companion_status opened;
                snprintf(name, sizeof name, "%s%s", path, draw(2) == 0 ? "" : ".link");
                remove(lock);
                opened = companion_open_stock(name, companion_label(1), &stock);
                times += opened.number == 0;
                handed.label = opened.number;
                handed.count = 0;
                for (size_t k = opened.number == 0 ? 1 + draw(3) : 0; k > 0; k--) {
                    handed.count = 1 + draw(3);
                    opened = companion_draw(&stock, NULL, companion_label(1), 0, handed.count, &handed.first);
                    if (opened.number == EXPANDER_SHARE_SPENT)
                        _exit(0);
                    if (opened.number != 0 || __real_write(fds[1], &handed, sizeof handed) != sizeof handed)
                        _exit(2);
                }
                if (opened.number != 0 && __real_write(fds[1], &handed, sizeof handed) != sizeof handed)
                    _exit(2);
                companion_close_stock(&stock);
            }
            _exit(0);
        }
    __real_close(fds[1]);
    while (__real_read(fds[0], &handed, sizeof handed) == sizeof handed) {
        CHECK(handed.label == 0 || handed.label == COMPANION_FILE_IN_USE, "a process is refused with %u", (unsigned)handed.label);
        refused += handed.label != 0;
        for (size_t k = handed.first; k < handed.first + handed.count; k++, given++) {
            CHECK(!used[k], "index %zu is handed out twice", k);
            used[k] = 1;
        }
    }
    for (size_t process = 0; process < PROCESSES; process++)
        CHECK(waitpid(ids[process], &status, 0) == ids[process] && status == 0, "a process failed: %d", status);
    __real_close(fds[0]);
    remove_folder();
    CHECK(given >= count, "%zu indices, %zu refused", given, refused);
    printf("races: %d processes remove the lock, open and draw at once, %zu times each: %zu indices, none twice; %zu times it was in use\n",
           PROCESSES, (count + 3) / 4, given, refused);
}
