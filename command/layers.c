/* Layers: the records of several dealings of one source, in files. NOT PROVED. */
#include "command.h"

#include <stdlib.h>
#include <string.h>

/* The name of a layer's file: of one layer the path itself, of several with the layer's number behind it. Names sort as layers do. */
static char *name_layer(const char *path, size_t layers, size_t layer)
{
    size_t room = strlen(path) + 8;
    char *name = calloc(room, 1);
    if (name == NULL)
        complain("the system gives no memory; nothing was written");
    else if (layers == 1)
        strcpy(name, path);
    else
        snprintf(name, room, "%s.%0*zu", path, layers < 10 ? 1 : 2, layer);
    return name;
}

int write_layers(const struct companion_dealt *dealt, size_t layers, const char *noise, const char *scalar)
{
    struct new_file file[2 * COMPANION_LAYERS_MAX];
    char *name[2 * COMPANION_LAYERS_MAX];
    size_t count = 2 * layers;
    int done = 1;
    memset(name, 0, sizeof name);
    memset(file, 0, sizeof file);
    for (size_t k = 0; k < count; k++)
        file[k].fd = -1;
    for (size_t k = 0; done && k < count; k++)
        done = (name[k] = name_layer(k % 2 == 0 ? noise : scalar, layers, 1 + k / 2)) != NULL && begin_file(&file[k], name[k]);
    for (size_t k = 0; done && k < count; k++)
        done = k % 2 == 0 ? fill_file(&file[k], dealt[k / 2].noise, dealt[k / 2].noise_len)
                          : fill_file(&file[k], dealt[k / 2].scalar, dealt[k / 2].scalar_len);
    for (size_t k = 0; done && k < count; k++)
        done = keep_file(&file[k]);
    for (size_t k = count; k-- > 0;) {
        drop_file(&file[k], !done);
        free(name[k]);
    }
    return done;
}

enum opened open_layers(char **paths, size_t layers, size_t threads, struct companion_end *end)
{
    struct bytes file[COMPANION_LAYERS_MAX];
    struct companion_record record[COMPANION_LAYERS_MAX];
    struct companion_status status;
    char text[300];
    size_t count = 0;
    enum opened opened = NOT_READ;
    memset(end, 0, sizeof *end);
    while (count < layers && read_file(paths[count], RECORD_FILE_MAX, &file[count])) {
        record[count].bytes = file[count].at;
        record[count].len = file[count].len;
        count++;
    }
    if (count == layers) {
        status = companion_open_layers(record, layers, threads, end);
        opened = status.number == 0 ? OPENED : status.number == COMPANION_NO_MEMORY ? NOT_READ : NOT_FIT;
        companion_text(status, text, sizeof text);
        if (opened != OPENED)
            complain("%s: %s", paths[status.line > 0 ? status.line - 1 : 0], text);
    }
    while (count > 0)
        drop_bytes(&file[--count]);
    return opened;
}

int check_layers(char **paths, size_t layers, int bench, int json, int quiet)
{
    static char words[][8] = {"--bench", "--json", "--quiet", "--"};
    int given[4] = {bench, json, quiet, 1}, status = WELL;
    enum opened fit = OPENED;
    for (size_t k = 0; k < 2 * layers; k++)
        if (strcmp(paths[k], "-") == 0)
            return complain("the records of several layers are read twice, so standard input can be none of them");
    if (json)
        printf("{\"layers\":[\n");
    for (size_t k = 0; k < layers; k++) { /* pair by pair, as if it were given alone */
        char *arguments[6];
        int count = 0, pair;
        for (int word = 0; word < 4; word++)
            if (given[word])
                arguments[count++] = words[word];
        arguments[count++] = paths[k];
        arguments[count++] = paths[layers + k];
        if (json)
            printf("%s", k > 0 ? "," : "");
        else
            printf("%slayer %zu\n", k > 0 ? "\n" : "", k + 1);
        pair = run_check(count, arguments);
        status = pair > status ? pair : status;
    }
    for (size_t end = 0; end < 2 && status != UNUSABLE && fit == OPENED; end++) { /* and then as layers of one source */
        struct companion_end opened;
        fit = open_layers(paths + end * layers, layers, 1, &opened);
        companion_close(&opened);
    }
    if (fit != OPENED)
        status = fit == NOT_FIT ? DIFFER : UNUSABLE;
    if (json) {
        printf("],\"one_source\":%s", status == UNUSABLE ? "null" : fit == OPENED ? "true" : "false");
        if (fit != OPENED) {
            printf(",");
            print_json_complaint();
        }
        printf(",\"status\":%d}\n", status);
    } else if (status != UNUSABLE) {
        printf("\nlayers: %zu, %s\n", layers, fit == OPENED ? "which fit each other" : "which are not of one source");
    }
    return status;
}
