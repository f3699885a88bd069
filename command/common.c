/* Sentences, options, files, JSON. NOT PROVED. */
#define _GNU_SOURCE /* O_TMPFILE */
#include "command.h"

#include <errno.h>
#include <fcntl.h>
#include <stdarg.h>
#include <stdlib.h>
#include <string.h>
#include <sys/stat.h>
#include <unistd.h>

static const char *subcommand = "";
static char said[1024]; /* the last complaint */

void name_subcommand(const char *name)
{
    subcommand = name;
}

int complain(const char *format, ...)
{
    va_list arguments;
    va_start(arguments, format);
    vsnprintf(said, sizeof said, format, arguments);
    va_end(arguments);
    fflush(stdout);
    fprintf(stderr, "expander%s%s: ", subcommand[0] != '\0' ? " " : "", subcommand);
    print_name(stderr, said);
    fprintf(stderr, "\n");
    return UNUSABLE;
}

void print_json_complaint(void)
{
    printf("\"error\":");
    print_json_text(said);
}

void print_json_error(void)
{
    print_json_complaint();
    printf(",\"status\":%d}", UNUSABLE);
}

int take_options(int argc, char **argv, const struct option *options, size_t count)
{
    int operands = 0, no_more = 0;
    for (int k = 0; k < argc; k++) {
        const char *word = argv[k], *equals = strchr(word, '=');
        size_t len = equals != NULL ? (size_t)(equals - word) : strlen(word), at = 0;
        if (no_more || word[0] != '-' || word[1] == '\0') {
            argv[operands++] = argv[k];
            continue;
        }
        if (strcmp(word, "--") == 0) {
            no_more = 1;
            continue;
        }
        while (at < count && (strlen(options[at].name) != len || strncmp(options[at].name, word, len) != 0))
            at++;
        if (at == count) {
            complain("there is no option %.*s; --help shows those that there are", (int)len, word);
            return -1;
        }
        if (options[at].flag != NULL && equals != NULL) {
            complain("%s takes no value", options[at].name);
            return -1;
        }
        if (options[at].flag != NULL) {
            *options[at].flag = 1;
        } else if (*options[at].value != NULL) {
            complain("%s is given twice", options[at].name);
            return -1;
        } else if (equals != NULL) {
            *options[at].value = equals + 1;
        } else if (k + 1 < argc) {
            *options[at].value = argv[++k];
        } else {
            complain("%s needs a value behind it", options[at].name);
            return -1;
        }
    }
    return operands;
}

int read_number(const char *text, const char *what, uint64_t least, uint64_t most, uint64_t *number)
{
    uint64_t value = 0;
    const char *at = text;
    for (; *at >= '0' && *at <= '9' && value <= (UINT64_MAX - 9) / 10; at++)
        value = 10 * value + (uint64_t)(*at - '0');
    if (at == text || *at != '\0' || value < least || value > most) {
        complain("%s is to be a number from %llu to %llu, not '%.40s'", what, (unsigned long long)least, (unsigned long long)most,
                 text);
        return 0;
    }
    *number = value;
    return 1;
}

int read_file(const char *path, size_t most, struct bytes *file)
{
    int standard = strcmp(path, "-") == 0, fd = standard ? STDIN_FILENO : open(path, O_RDONLY | O_CLOEXEC), failed = 0;
    struct stat about;
    ssize_t got = 1;
    file->at = NULL;
    file->len = 0;
    if (fd < 0 || fstat(fd, &about) != 0) {
        complain("%s cannot be read: %s", path, strerror(errno));
        failed = 1;
    } else if (S_ISDIR(about.st_mode)) {
        complain("%s is a folder, and a file was expected", path);
        failed = 1;
    } else if ((file->at = calloc(most + 1, 1)) == NULL) {
        complain("the system gives no memory for %s", path);
        failed = 1;
    }
    while (!failed && got > 0 && file->len <= most) {
        got = read(fd, file->at + file->len, most + 1 - file->len);
        if (got > 0)
            file->len += (size_t)got;
        else if (got < 0 && errno == EINTR)
            got = 1;
    }
    if (!failed && got < 0) {
        complain("%s cannot be read: %s", path, strerror(errno));
        failed = 1;
    } else if (!failed && file->len > most) {
        complain("%s has more than %zu bytes, which is more than is expected of any such file", path, most);
        failed = 1;
    }
    if (fd >= 0 && !standard)
        close(fd);
    if (failed && file->at != NULL) {
        companion_wipe(file->at, most + 1);
        drop_bytes(file);
    }
    return !failed;
}

int one_standard_input(char **paths, int count)
{
    int times = 0;
    for (int k = 0; k < count; k++)
        times += strcmp(paths[k], "-") == 0;
    if (times > 1)
        complain("standard input can be one of the files, and - is given %d times", times);
    return times <= 1;
}

void drop_bytes(struct bytes *file)
{
    if (file->at != NULL)
        companion_wipe(file->at, file->len);
    free(file->at);
    file->at = NULL;
    file->len = 0;
}

static int refuse_file(struct new_file *file, const char *what, int reason)
{
    complain("%s cannot be %s: %s; nothing was written", file->path, what, strerror(reason));
    return 0;
}

int begin_file(struct new_file *file, const char *path)
{
    struct stat about;
    const char *slash = strrchr(path, '/');
    size_t len = slash == NULL ? 0 : (size_t)(slash - path) + 1, room = strlen(path) + 40;
    char *folder;
    memset(file, 0, sizeof *file);
    file->path = path;
    file->fd = -1;
    if (path[0] == '\0' || (slash != NULL && slash[1] == '\0')) {
        complain("'%s' is no name of a file; nothing was written", path);
        return 0;
    }
    if (lstat(path, &about) == 0) {
        complain("%s exists, and is not written over; nothing was written", path);
        return 0;
    }
    if ((folder = calloc(room, 1)) == NULL) {
        complain("the system gives no memory; nothing was written");
        return 0;
    }
    snprintf(folder, room, "%.*s.", (int)len, path);
    file->fd = open(folder, O_TMPFILE | O_WRONLY | O_CLOEXEC, 0600); /* has no name, so a crash leaves nothing */
    if (file->fd < 0 && (errno == EOPNOTSUPP || errno == EISDIR || errno == EINVAL)) {
        snprintf(folder, room, "%.*s.%s.%ld.new", (int)len, path, path + len, (long)getpid());
        file->fd = open(folder, O_CREAT | O_EXCL | O_WRONLY | O_CLOEXEC, 0600);
        if (file->fd >= 0) {
            file->temporary = folder;
            folder = NULL;
        }
    }
    if (file->fd < 0)
        refuse_file(file, "created", errno);
    free(folder);
    return file->fd >= 0;
}

int fill_file(struct new_file *file, const void *bytes, size_t len)
{
    const uint8_t *at = bytes;
    size_t done = 0;
    while (done < len) {
        ssize_t put = write(file->fd, at + done, len - done);
        if (put > 0)
            done += (size_t)put;
        else if (put == 0 || errno != EINTR)
            return refuse_file(file, "written", put == 0 ? EIO : errno);
    }
    if (fchmod(file->fd, 0600) != 0 || fsync(file->fd) != 0)
        return refuse_file(file, "written", errno);
    return 1;
}

int keep_file(struct new_file *file)
{
    char source[64];
    int done;
    if (file->temporary != NULL) {
        done = linkat(AT_FDCWD, file->temporary, AT_FDCWD, file->path, 0);
    } else {
        snprintf(source, sizeof source, "/proc/self/fd/%d", file->fd);
        done = linkat(AT_FDCWD, source, AT_FDCWD, file->path, AT_SYMLINK_FOLLOW);
    }
    if (done != 0)
        return refuse_file(file, "created", errno);
    file->kept = 1;
    return 1;
}

void drop_file(struct new_file *file, int undo)
{
    if (file->fd >= 0)
        close(file->fd);
    if (file->temporary != NULL)
        unlink(file->temporary);
    if (file->kept && undo)
        unlink(file->path);
    free(file->temporary);
    file->temporary = NULL;
    file->fd = -1;
}

int give(const char *path, const void *bytes, size_t len)
{
    struct new_file file;
    int done;
    if (path == NULL || strcmp(path, "-") == 0) { /* at once, since standard output's buffer is not wiped */
        size_t written = 0;
        fflush(stdout);
        while (written < len) {
            ssize_t put = write(STDOUT_FILENO, (const uint8_t *)bytes + written, len - written);
            if (put > 0) {
                written += (size_t)put;
            } else if (put == 0 || errno != EINTR) {
                complain("cannot write to standard output: %s", strerror(put == 0 ? EIO : errno));
                return 0;
            }
        }
        return 1;
    }
    done = begin_file(&file, path) && fill_file(&file, bytes, len) && keep_file(&file);
    drop_file(&file, 0);
    return done;
}

int end_output(int status)
{
    if (fflush(stdout) != 0 || ferror(stdout))
        return complain("cannot write to standard output: %s", strerror(errno));
    return status;
}

/* How many bytes of UTF-8 stand here as one character, 0 if none do: no surrogates, nothing longer than it need be, nothing above
 * U+10FFFF. */
static size_t utf8_len(const unsigned char *at)
{
    unsigned first = *at, least = first == 0xE0 ? 0xA0 : first == 0xF0 ? 0x90 : 0x80;
    unsigned most = first == 0xED ? 0x9F : first == 0xF4 ? 0x8F : 0xBF;
    size_t len = first < 0x80 ? 1 : first < 0xC2 ? 0 : first < 0xE0 ? 2 : first < 0xF0 ? 3 : first < 0xF5 ? 4 : 0;
    for (size_t k = 1; k < len; k++, least = 0x80, most = 0xBF)
        if (at[k] < least || at[k] > most)
            return 0;
    return len;
}

void print_json_text(const char *text)
{
    putchar('"');
    for (const unsigned char *at = (const unsigned char *)text; *at != 0;) {
        size_t len = utf8_len(at);
        if (len == 0)
            printf("\\ufffd");
        else if (*at == '"' || *at == '\\')
            printf("\\%c", *at);
        else if (*at < 0x20 || *at == 0x7F)
            printf("\\u%04x", *at);
        else
            fwrite(at, 1, len, stdout);
        at += len > 0 ? len : 1;
    }
    putchar('"');
}

void print_json_path(const char *name, const char *path)
{
    size_t at = 0, len = 1;
    printf("\"%s\":", name);
    print_json_text(path);
    for (; path[at] != '\0' && len > 0; at += len)
        len = utf8_len((const unsigned char *)path + at);
    if (len == 0) {
        printf(",\"%s_bytes\":\"", name);
        print_hex((const uint8_t *)path, strlen(path));
        printf("\"");
    }
}

int label_number(const uint8_t label[16], uint64_t *number)
{
    struct expander_label same;
    memcpy(number, label, sizeof *number);
    same = companion_label(*number);
    return memcmp(same.bytes, label, 16) == 0;
}

void print_label(const uint8_t label[16])
{
    uint64_t number;
    print_hex(label, 16);
    if (label_number(label, &number))
        printf(" (number %llu)", (unsigned long long)number);
}

void print_hex(const uint8_t *bytes, size_t len)
{
    for (size_t k = 0; k < len; k++)
        printf("%02x", bytes[k]);
}

void print_name(FILE *to, const char *name)
{
    for (; *name != '\0'; name++)
        fputc((unsigned char)*name < 0x20 || *name == 0x7F ? '?' : *name, to);
}
