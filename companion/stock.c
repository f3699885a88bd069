#define _XOPEN_SOURCE 700 /* POSIX of 2008, with realpath */
#include "inner.h"

#include <errno.h>
#include <fcntl.h>
#include <limits.h>
#include <stdio.h>
#include <stdlib.h>
#include <string.h>
#include <sys/file.h>
#include <sys/stat.h>
#include <unistd.h>

/* A stock's file: a mark, the stock, a sum of both, as memory has them. */
struct file {
    char mark[16];
    struct expander_stock stock;
    uint32_t filled; /* 0: else there would be a gap here */
    uint64_t sum;
};
static const char mark[17] = "expander stock 1";

/* Names of the file, the next file and the lock, in its folder: they stand in one piece of memory, at one distance. */
enum { ENDING = 6, NAMES = 3 };
static char *name_of(const struct companion_stock *stock, size_t which)
{
    return stock->name + which * (strlen(stock->name) + ENDING);
}

#define failed(call) companion_failed_at(COMPANION_FILE, call, errno)

/* The file that holds a stock. */
static struct file file_of(const struct expander_stock *stock)
{
    struct file file;
    memset(&file, 0, sizeof file);
    memcpy(file.mark, mark, sizeof file.mark);
    file.stock = *stock;
    file.sum = companion_sum_of(0, &file, offsetof(struct file, sum));
    return file;
}

/* Takes the lock of a file that is open. */
static struct companion_status lock_file(int fd)
{
    return flock(fd, LOCK_EX | LOCK_NB) == 0 ? companion_done()
           : errno == EWOULDBLOCK ? companion_failed(COMPANION_FILE_IN_USE) : failed("flock");
}

/* Reads the file that is open, which is exactly as long as a stock's. */
static struct companion_status read_file(int fd, struct file *file)
{
    for (size_t done = 0; done < sizeof *file;) {
        ssize_t got = pread(fd, (uint8_t *)file + done, sizeof *file - done, (off_t)done);
        done += got > 0 ? (size_t)got : 0;
        if (got == 0)
            return companion_failed(COMPANION_FILE_DAMAGED);
        if (got < 0 && errno != EINTR)
            return failed("pread");
    }
    return companion_done();
}

/* What a name stands for is the file that is open and locked, and is called so alone. Where not, other is the number. Only then
 * does nobody else have the stock: whoever has it keeps the lock of the file that the stock's name stands for. */
static struct companion_status look(const struct companion_stock *stock, const char *name, int fd, uint32_t other, struct stat *opened)
{
    struct stat named;
    if (fstat(fd, opened) != 0)
        return failed("fstat");
    if (fstatat(stock->folder, name, &named, AT_SYMLINK_NOFOLLOW) != 0)
        return errno == ENOENT ? companion_failed(other) : failed("fstatat");
    return companion_failed(named.st_dev != opened->st_dev || named.st_ino != opened->st_ino ? other
                            : opened->st_nlink != 1 ? COMPANION_FILE_LINKED : COMPANION_DONE);
}

/* Nothing has the stock's name. */
static struct companion_status look_for_none(const struct companion_stock *stock)
{
    struct stat about;
    return fstatat(stock->folder, stock->name, &about, AT_SYMLINK_NOFOLLOW) == 0 ? companion_failed(COMPANION_FILE_THERE)
           : errno == ENOENT ? companion_done() : failed("fstatat"); /* it may be there */
}

static void keep_identity(struct companion_stock *stock, const struct stat *about)
{
    stock->device = (uint64_t)about->st_dev;
    stock->inode = (uint64_t)about->st_ino;
}

/* The file is the one that was written last, and says what was written. */
static struct companion_status compare_file(struct companion_stock *stock)
{
    struct file due = file_of(&stock->stock), found;
    struct stat about;
    struct companion_status status = look(stock, stock->name, stock->file, COMPANION_FILE_CHANGED, &about);
    NEXT(status, companion_failed((uint64_t)about.st_dev != stock->device || (uint64_t)about.st_ino != stock->inode
                                  || about.st_size != (off_t)sizeof found ? COMPANION_FILE_CHANGED : COMPANION_DONE));
    NEXT(status, read_file(stock->file, &found));
    NEXT(status, companion_failed(memcmp(&due, &found, sizeof due) != 0 ? COMPANION_FILE_CHANGED : COMPANION_DONE));
    return status;
}

/* Writes the next file, which is locked before it gets the stock's name. One that is there is of a run that was cut short; or, where
 * a stock is created, of another that creates it now, and has its lock. So of several that create one stock one does. */
static struct companion_status write_next(struct companion_stock *stock, const struct file *file, int *fd, struct stat *about)
{
    struct companion_status status;
    const char *next = name_of(stock, 1);
    int creates = stock->file < 0, tries = 8; /* who is too late to create the stock may make one in between */
    do {
        if (!creates && unlinkat(stock->folder, next, 0) != 0 && errno != ENOENT)
            return failed("unlinkat");
        *fd = openat(stock->folder, next, O_RDWR | O_CREAT | (creates ? 0 : O_EXCL) | O_NOFOLLOW | O_CLOEXEC, 0600);
    } while (*fd < 0 && errno == EEXIST && --tries > 0);
    if (*fd < 0)
        return failed("openat");
    status = lock_file(*fd);
    NEXT(status, look(stock, next, *fd, COMPANION_FILE_IN_USE, about));
    if (creates) {
        NEXT(status, look_for_none(stock));
        NEXT(status, ftruncate(*fd, 0) == 0 ? companion_done() : failed("ftruncate"));
    }
    for (size_t done = 0; done < sizeof *file && status.number == 0;) {
        ssize_t put = write(*fd, (const uint8_t *)file + done, sizeof *file - done);
        done += put > 0 ? (size_t)put : 0;
        if (put == 0 || (put < 0 && errno != EINTR))
            status = failed("write");
    }
    NEXT(status, fsync(*fd) == 0 ? companion_done() : failed("fsync"));
    return status;
}

/* Saves what comes after, and takes it. Once the file is renamed it is taken even where the folder's sync fails: nobody
 * knows then which of the two a crash would leave. */
static struct companion_status save(struct companion_stock *stock, const struct expander_stock *after)
{
    struct file file = file_of(after);
    struct companion_status status = companion_done();
    struct stat about;
    int fd = -1;
    if (stock->name != NULL) {
        if (stock->file >= 0) /* else it is created */
            status = compare_file(stock);
        NEXT(status, write_next(stock, &file, &fd, &about));
        NEXT(status, renameat(stock->folder, name_of(stock, 1), stock->folder, stock->name) == 0 ? companion_done() : failed("renameat"));
        if (status.number != 0) {
            if (fd >= 0)
                close(fd);
            return status;
        }
        if (stock->file >= 0)
            close(stock->file);
        stock->file = fd;
        keep_identity(stock, &about);
        status = fsync(stock->folder) == 0 ? companion_done() : failed("fsync");
    }
    stock->stock = *after;
    return status;
}

/* Opens the file, locks it, and reads it. */
static struct companion_status load(struct companion_stock *stock)
{
    struct file file;
    struct stat about;
    struct companion_status status;
    if ((stock->file = openat(stock->folder, stock->name, O_RDWR | O_NOFOLLOW | O_CLOEXEC)) < 0)
        return failed("openat");
    status = lock_file(stock->file);
    NEXT(status, look(stock, stock->name, stock->file, COMPANION_FILE_IN_USE, &about)); /* else whoever has it just wrote another */
    NEXT(status, companion_failed(about.st_size != (off_t)sizeof file ? COMPANION_FILE_DAMAGED : COMPANION_DONE));
    NEXT(status, read_file(stock->file, &file));
    if (status.number == 0
        && (memcmp(file.mark, mark, sizeof file.mark) != 0 || file.sum != companion_sum_of(0, &file, offsetof(struct file, sum))))
        status = companion_failed(COMPANION_FILE_DAMAGED);
    if (status.number == 0) {
        keep_identity(stock, &about);
        stock->stock = file.stock;
    }
    return status;
}

/* Takes the folder and the name in it, following links to a file that is to be there, and the lock. */
static struct companion_status take_path(const char *path, int there, struct companion_stock *stock)
{
    char whole[PATH_MAX], *name;
    if (strlen(path) >= sizeof whole) {
        errno = ENAMETOOLONG;
        return failed("open");
    }
    if (there && realpath(path, whole) == NULL)
        return failed("realpath");
    if (!there)
        strcpy(whole, path);
    name = strrchr(whole, '/') == NULL ? whole : strrchr(whole, '/') + 1;
    if (*name == '\0') {
        errno = EISDIR;
        return failed("open");
    }
    if ((stock->name = companion_take(NAMES * (strlen(name) + ENDING))) == NULL)
        return companion_failed(COMPANION_NO_MEMORY);
    strcpy(stock->name, name);
    strcat(strcpy(name_of(stock, 1), name), ".new");
    strcat(strcpy(name_of(stock, 2), name), ".lock");
    *name = '\0'; /* the folder is left */
    if ((stock->folder = open(whole[0] == '\0' ? "." : whole, O_RDONLY | O_DIRECTORY | O_CLOEXEC)) < 0)
        return failed("open");
    if ((stock->lock = openat(stock->folder, name_of(stock, 2), O_RDWR | O_CREAT | O_NOFOLLOW | O_CLOEXEC, 0600)) < 0)
        return failed("openat");
    return lock_file(stock->lock);
}

/* A stock that has nothing yet. */
static void begin(struct companion_stock *stock)
{
    memset(stock, 0, sizeof *stock);
    stock->folder = stock->lock = stock->file = -1;
    stock->process = getpid();
}

/* The label's test, with both labels; and that there are callers. */
static struct companion_status test_label(const struct companion_stock *stock, struct expander_label label, size_t caller,
                                          struct expander_drawn *drawn)
{
    *drawn = expander_draw(stock->stock, label, caller, 0);
    return companion_with_labels(companion_refused("expander_draw", drawn->number), EXPANDER_LABEL_NOT_IN_USE, label.bytes,
                                 stock->stock.label.bytes);
}

struct companion_status companion_create_stock(const char *path, struct expander_label label, size_t outputs,
                                               const uint32_t *shares, size_t shares_len, struct companion_stock *stock)
{
    struct expander_opened_stock opened = expander_open_stock(label, outputs, shares, shares_len);
    struct companion_status status = companion_refused("expander_open_stock", opened.number);
    begin(stock);
    if (path != NULL) {
        NEXT(status, take_path(path, 0, stock));
        NEXT(status, look_for_none(stock));
    }
    NEXT(status, save(stock, &opened.stock));
    if (status.number != 0)
        companion_close_stock(stock);
    return status;
}

struct companion_status companion_open_stock(const char *path, struct expander_label label, struct companion_stock *stock)
{
    struct expander_drawn drawn;
    struct companion_status status;
    begin(stock);
    status = take_path(path, 1, stock);
    NEXT(status, load(stock));
    NEXT(status, test_label(stock, label, 0, &drawn));
    if (status.number != 0)
        companion_close_stock(stock);
    return status;
}

void companion_close_stock(struct companion_stock *stock)
{
    int fds[3] = {stock->file, stock->lock, stock->folder};
    for (size_t k = 0; k < 3; k++)
        if (stock->name != NULL && fds[k] >= 0)
            close(fds[k]);
    companion_give_back(stock->name, stock->name == NULL ? 0 : NAMES * (strlen(stock->name) + ENDING));
    memset(stock, 0, sizeof *stock);
}

/* A child has a copy of the stock, and would draw what its parent draws. What is closed has no process. */
static struct companion_status test_process(const struct companion_stock *stock)
{
    return companion_failed(stock->process != 0 && stock->process != getpid() ? COMPANION_FORKED : COMPANION_DONE);
}

/* Both ends say what they draw and where they stand; skip is how far this one is behind. */
static struct companion_status agree(const struct companion_link *link, struct expander_label label, size_t caller,
                                     size_t count, size_t first, size_t *skip)
{
    uint64_t own[6] = {COMPANION_TAG_DRAW, caller, count, 0, 0, first}, far[6];
    struct companion_status status;
    memcpy(own + 3, label.bytes, sizeof label.bytes);
    status = companion_exchange(link, own, sizeof own, far, sizeof far);
    if (status.number != 0)
        return status;
    *skip = far[5] > first ? (size_t)(far[5] - first) : 0;
    status = companion_failed(memcmp(own, far, 3 * sizeof *own) != 0 ? COMPANION_OUT_OF_STEP
                              : memcmp(own + 3, far + 3, 2 * sizeof *own) != 0 ? COMPANION_OTHER_DEALING : COMPANION_DONE);
    status.parts = status.number == COMPANION_OTHER_DEALING ? COMPANION_PART_LABEL : 0;
    return companion_with_labels(status, COMPANION_OTHER_DEALING, label.bytes, (const uint8_t *)(far + 3));
}

struct companion_status companion_draw(struct companion_stock *stock, const struct companion_link *link,
                                       struct expander_label label, size_t caller, size_t count, size_t *first)
{
    struct expander_drawn drawn;
    struct companion_status status = test_process(stock);
    size_t skip = 0, left;
    *first = 0;
    NEXT(status, test_label(stock, label, caller, &drawn)); /* and where it stands */
    if (link != NULL) {
        NEXT(status, agree(link, label, caller, count, drawn.first, &skip));
        companion_tell(link, status);
    }
    if (status.number != 0)
        return status;
    drawn = expander_draw(stock->stock, label, caller, skip);
    if (drawn.number == 0)
        drawn = expander_draw(drawn.stock, label, caller, count);
    left = stock->stock.end[caller] > stock->stock.next[caller] ? stock->stock.end[caller] - stock->stock.next[caller] : 0;
    status = companion_with_counts(companion_refused("expander_draw", drawn.number), EXPANDER_SHARE_SPENT,
                                   count > SIZE_MAX - skip ? SIZE_MAX : skip + count, left);
    NEXT(status, save(stock, &drawn.stock));
    if (link != NULL)
        status = companion_settle(link, status);
    if (status.number == 0)
        *first = drawn.first;
    return status;
}

/* Passes the stock to a label, where all labels of the fresh source are above the one in use: the lowest is. */
static struct companion_status pass(struct companion_stock *stock, struct expander_label lowest, struct expander_label label,
                                    size_t outputs)
{
    struct expander_opened_stock passed = expander_pass_stock(stock->stock, lowest, outputs);
    struct companion_status status = test_process(stock);
    NEXT(status, companion_with_labels(companion_refused("expander_pass_stock", passed.number), EXPANDER_LABEL_NOT_ABOVE, lowest.bytes,
                                       stock->stock.label.bytes));
    passed = expander_pass_stock(stock->stock, label, outputs);
    NEXT(status, companion_refused("expander_pass_stock", passed.number));
    NEXT(status, save(stock, &passed.stock));
    return status;
}

struct companion_status companion_pass(struct companion_stock *stock, struct expander_label label, size_t outputs)
{
    return pass(stock, label, label, outputs);
}

/* The first layer's label, which is an end's lowest. */
static struct expander_label lowest_of(const struct companion_end *end)
{
    struct expander_described head = companion_layer(end, 1);
    struct expander_label label;
    memcpy(label.bytes, head.label, sizeof label.bytes);
    return label;
}

struct companion_status companion_pass_end(struct companion_stock *stock, const struct companion_end *fresh)
{
    struct expander_label label;
    memcpy(label.bytes, fresh->head.label, sizeof label.bytes);
    return pass(stock, lowest_of(fresh), label, fresh->head.outputs);
}

struct companion_status companion_pass_pair(struct companion_stock *stock, const struct companion_pair *fresh)
{
    struct expander_label noise = lowest_of(&fresh->noise), scalar = lowest_of(&fresh->scalar);
    return pass(stock, companion_label_order(noise.bytes, scalar.bytes) < 0 ? noise : scalar, fresh->label, fresh->outputs);
}
