/* A stock and its file: a change of folders, forks, links, removed locks, other files in its place. */
#include "sections.h"

#include <errno.h>
#include <fcntl.h>
#include <sys/socket.h>
#include <sys/stat.h>
#include <sys/wait.h>
#include <unistd.h>

/* Runs a part of a test in a child, which ends with the number of its status. */
static uint32_t in_child(struct companion_status (*part)(struct companion_stock *stock), struct companion_stock *stock)
{
    int status;
    pid_t id;
    fflush(stdout);
    id = fork();
    if (id == 0)
        _exit((int)part(stock).number);
    waitpid(id, &status, 0);
    CHECK(WIFEXITED(status), "a child ended by a signal");
    return (uint32_t)WEXITSTATUS(status);
}

static struct companion_status draw_there(struct companion_stock *stock)
{
    size_t first;
    return companion_draw(stock, NULL, companion_label(1), 0, 10, &first);
}

/* Over a link that is its parent's too. */
static struct companion_link shared_link;
static struct companion_status draw_jointly_there(struct companion_stock *stock)
{
    size_t first;
    return companion_draw(stock, &shared_link, companion_label(1), 0, 10, &first);
}

static struct companion_status pass_there(struct companion_stock *stock)
{
    return companion_pass(stock, companion_label(2), 200);
}

/* Closes its copy, and opens the stock itself. */
static struct companion_status open_there(struct companion_stock *stock)
{
    companion_close_stock(stock);
    return companion_open_stock(path, companion_label(1), stock);
}

static struct companion_status create_there(struct companion_stock *stock)
{
    companion_close_stock(stock);
    return companion_create_stock(path, companion_label(1), 200, stock_shares, 3, stock);
}

static void remove_named(const char *ending)
{
    char name[128];
    snprintf(name, sizeof name, "%s%s", path, ending);
    CHECK(remove(name) == 0, "no %s", name);
}

/* What the file under this name has handed out to caller 0, as whoever opens it next finds it. */
static size_t handed_out(const char *name)
{
    struct companion_stock stock;
    size_t first;
    EXPECT(0, companion_open_stock(name, companion_label(1), &stock));
    EXPECT(0, companion_draw(&stock, NULL, companion_label(1), 0, 0, &first));
    companion_close_stock(&stock);
    return first;
}

/* A stock goes on with the file that it opened, whatever is done around it; else it draws nothing. */
void test_holding(size_t count)
{
    struct companion_stock a, b;
    struct expander_label one = companion_label(1);
    struct companion_status status;
    struct stat about;
    char other[140], elsewhere[140], before[4096];
    size_t first = 7;
    (void)count;
    CHECK(getcwd(before, sizeof before) != NULL, "no folder");
    fresh_folder();
    snprintf(other, sizeof other, "%s.other", path);
    snprintf(elsewhere, sizeof elsewhere, "%s/elsewhere", folder);

    /* chdir: by a relative path, and then from another folder, where nothing is made. */
    CHECK(mkdir(elsewhere, 0700) == 0 && chdir(folder) == 0, "mkdir");
    EXPECT(0, companion_create_stock("stock", one, 200, stock_shares, 3, &a));
    CHECK(chdir(elsewhere) == 0, "chdir");
    EXPECT(0, companion_draw(&a, NULL, one, 0, 10, &first));
    CHECK(first == 0 && stat("stock", &about) != 0, "the stock is saved in another folder");
    companion_close_stock(&a);
    CHECK(chdir(folder) == 0, "chdir");
    EXPECT(0, companion_open_stock("elsewhere/../stock", one, &a));
    CHECK(chdir(elsewhere) == 0, "chdir");
    EXPECT(0, companion_draw(&a, NULL, one, 0, 10, &first));
    CHECK(first == 10, "%zu is drawn after a change of folders", first);
    companion_close_stock(&a);
    CHECK(chdir(before) == 0 && rmdir(elsewhere) == 0, "the other folder holds something");
    CHECK(handed_out(path) == 20, "the file is stale");

    /* fork: the child is refused, in memory too, the parent goes on; the child opens it once the parent has closed it. */
    EXPECT(0, companion_open_stock(path, one, &a));
    EXPECT(0, companion_create_stock(NULL, one, 200, stock_shares, 3, &b));
    CHECK(in_child(draw_there, &a) == COMPANION_FORKED && in_child(draw_there, &b) == COMPANION_FORKED, "a child draws");
    CHECK(in_child(pass_there, &a) == COMPANION_FORKED && in_child(pass_there, &b) == COMPANION_FORKED, "a child passes");
    connect_sides(sides);
    shared_link = sides[0].link;
    CHECK(in_child(draw_jointly_there, &a) == COMPANION_FORKED, "a child draws over its parent's link");
    CHECK(recv(sides[1].socket.fd, elsewhere, 1, MSG_DONTWAIT) < 0 && errno == EAGAIN, "a child sends over its parent's link");
    __real_close(sides[0].socket.fd);
    __real_close(sides[1].socket.fd);
    CHECK(in_child(open_there, &a) == COMPANION_FILE_IN_USE, "a child opens what its parent has open");
    EXPECT(0, companion_draw(&a, NULL, one, 0, 10, &first));
    CHECK(first == 20, "the parent draws %zu", first);
    EXPECT(0, companion_draw(&b, NULL, one, 0, 10, &first));
    companion_close_stock(&a);
    companion_close_stock(&b);
    CHECK(in_child(open_there, &a) == 0, "a child does not open what nobody has open");
    CHECK(in_child(draw_there, &a) == EXPANDER_LABEL_NOT_IN_USE, "what is closed draws"); /* label 0, no callers */

    /* A symbolic link: it stays, and the file behind it is the stock's. */
    snprintf(elsewhere, sizeof elsewhere, "%s.link", path);
    CHECK(symlink("stock", elsewhere) == 0, "symlink");
    EXPECT(COMPANION_FILE_THERE, companion_create_stock(elsewhere, one, 200, stock_shares, 3, &a));
    EXPECT(0, companion_open_stock(elsewhere, one, &a));
    EXPECT(0, companion_draw(&a, NULL, one, 0, 10, &first));
    CHECK(lstat(elsewhere, &about) == 0 && S_ISLNK(about.st_mode), "the link is replaced");
    EXPECT(COMPANION_FILE_IN_USE, companion_open_stock(path, one, &b));
    EXPECT(COMPANION_FILE_IN_USE, companion_open_stock(elsewhere, one, &b));
    companion_close_stock(&a);
    CHECK(first == 30 && handed_out(path) == 40 && handed_out(elsewhere) == 40, "the stock forks at a link");
    CHECK(remove(elsewhere) == 0 && symlink("nowhere", elsewhere) == 0, "symlink");
    EXPECT(COMPANION_FILE_THERE, companion_create_stock(elsewhere, one, 200, stock_shares, 3, &a));
    EXPECT(COMPANION_FILE, companion_open_stock(elsewhere, one, &a));
    CHECK(remove(elsewhere) == 0 && remove(strcat(elsewhere, ".lock")) == 0, "no lock");

    /* The lock is removed: nobody else gets in, before and after a draw, in this process or another. */
    EXPECT(0, companion_open_stock(path, one, &a));
    for (int turn = 0; turn < 3; turn++) {
        remove_named(".lock");
        EXPECT(COMPANION_FILE_IN_USE, companion_open_stock(path, one, &b));
        remove_named(".lock");
        CHECK(in_child(open_there, &a) == COMPANION_FILE_IN_USE, "a second opener gets in");
        remove_named(".lock");
        CHECK(in_child(create_there, &a) == COMPANION_FILE_THERE, "a second creator gets in");
        EXPECT(0, companion_draw(&a, NULL, one, 0, 1, &first));
        CHECK(first == 40 + (size_t)turn, "%zu is drawn", first);
    }

    /* Another file in its place, another content, another name, no file, another folder: nothing is drawn. */
    for (int how = 0; how < 6; how++) {
        char command[400];
        uint32_t due = how == 4 ? COMPANION_FILE_LINKED : how == 5 ? 0 : COMPANION_FILE_CHANGED;
        static const char *const commands[] = {"cp '%s' '%s' && mv '%s' '%s'", NULL, "rm '%s'; true '%s' '%s' '%s'", NULL,
                                               "ln '%s' '%s'; true '%s' '%s'", NULL};
        if (how == 1) { /* of the same file */
            change_byte(50, -1);
        } else if (how == 3) {
            CHECK(truncate(path, 50) == 0, "truncate");
        } else if (how == 5) { /* the folder is another's name: it goes on in the one that it opened */
            snprintf(elsewhere, sizeof elsewhere, "%s.moved", folder);
            CHECK(rename(folder, elsewhere) == 0 && mkdir(folder, 0700) == 0, "rename");
        } else {
            snprintf(command, sizeof command, commands[how], path, other, other, path);
            CHECK(system(command) == 0, "%s", command);
        }
        status = companion_draw(&a, NULL, one, 0, 1, &first);
        EXPECT(due, status);
        status = companion_pass(&a, one, 200);
        EXPECT(EXPANDER_LABEL_NOT_ABOVE, status);
        SAYS(status, "label is 1, in use is 1");
        if (how != 5)
            EXPECT(due, companion_pass(&a, companion_label(2), 200));
        companion_close_stock(&a);
        if (how == 0)
            EXPECT(0, companion_open_stock(path, one, &a)); /* it says what was written last, so opened afresh it is good */
        if (how == 0)
            companion_close_stock(&a);
        if (how == 4) {
            EXPECT(COMPANION_FILE_LINKED, companion_open_stock(path, one, &a));
            EXPECT(COMPANION_FILE_LINKED, companion_open_stock(other, one, &a));
            CHECK(remove(other) == 0 && remove(strcat(other, ".lock")) == 0, "no second name");
            EXPECT(0, companion_open_stock(path, one, &a));
        } else if (how == 5) {
            CHECK(rmdir(folder) == 0 && rename(elsewhere, folder) == 0, "rename");
            EXPECT(0, companion_open_stock(path, one, &a));
        } else {
            if (how != 2)
                remove(path);
            EXPECT(0, companion_create_stock(path, one, 200, stock_shares, 3, &a));
        }
    }

    /* What the program closes is not written. */
    __real_close(a.file);
    EXPECT(COMPANION_FILE, companion_draw(&a, NULL, one, 0, 1, &first));
    a.file = __real_open("/dev/null", O_RDONLY);
    EXPECT(COMPANION_FILE_CHANGED, companion_draw(&a, NULL, one, 0, 1, &first));
    companion_close_stock(&a);
    EXPECT(COMPANION_FILE, companion_create_stock(strcat(strcpy(other, folder), "/"), one, 200, stock_shares, 3, &a));
    remove_folder();
    printf("holding: chdir, forks, links, removed locks and changed files: the stock goes on with its file, or draws nothing\n");
}
