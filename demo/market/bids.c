#define _POSIX_C_SOURCE 200809L
#include "bids.h"

#include "common.h"

#include <errno.h>
#include <stdio.h>
#include <stdlib.h>
#include <string.h>

static const char blanks[] = " \t\r\n";

/* Where the reading of a bid file is, for its messages. */
struct place {
    const char *path;
    unsigned line;
};

static void fault(const struct place *place, const char *what)
{
    stop("%s, line %u: %s", place->path, place->line, what);
}

/* The line's next number; stops unless it is there and at most `most`. */
static unsigned take_number(const struct place *place, char **rest, unsigned most, const char *what)
{
    unsigned long number;
    *rest += strspn(*rest, blanks);
    if (**rest < '0' || **rest > '9')
        fault(place, what);
    errno = 0;
    number = strtoul(*rest, rest, 10);
    if (errno != 0 || number > most)
        fault(place, what);
    return (unsigned)number;
}

/* Reads the line of the level with this index. */
static void take_level(const struct place *place, char *line, unsigned index, struct bids *bids)
{
    static const char quantity[] = "a level's line is its number and two quantities from 0 to 255";
    unsigned *buy = bids->quantity[BUY], *sell = bids->quantity[SELL];
    if (index == LEVELS)
        fault(place, "there are more than eight levels");
    if (take_number(place, &line, LEVELS, "a line begins with a level from 1 to 8") != index + 1)
        fault(place, "levels are not 1 to 8 in order");
    buy[index] = take_number(place, &line, QUANTITY_MAX, quantity);
    sell[index] = take_number(place, &line, QUANTITY_MAX, quantity);
    if (line[strspn(line, blanks)] != '\0')
        fault(place, quantity);
    if (index > 0 && buy[index] > buy[index - 1])
        fault(place, "more is bought than at the level before");
    if (index > 0 && sell[index] < sell[index - 1])
        fault(place, "less is sold than at the level before");
}

void read_bids(const char *path, struct bids *bids)
{
    char line[128];
    struct place place = {path, 0};
    unsigned levels = 0;
    FILE *file = fopen(path, "r");
    if (file == NULL)
        stop("cannot read the bid file %s: %s", path, strerror(errno));
    while (fgets(line, sizeof line, file) != NULL) {
        place.line++;
        if (strchr(line, '\n') == NULL && !feof(file))
            fault(&place, "the line is too long, or is no text");
        if (line[0] != '#' && line[strspn(line, blanks)] != '\0')
            take_level(&place, line, levels++, bids);
    }
    if (ferror(file))
        stop("cannot read the bid file %s: %s", path, strerror(errno));
    fclose(file);
    if (levels < LEVELS)
        stop("%s: only %u of eight levels are there", path, levels);
}
