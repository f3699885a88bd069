/* expander: one command for those who commission, install and support units. NOT PROVED: plain C99 over expander.h and the
 * companion. expander.1 is its manual page. */
#include "command.h"

#include <string.h>

static const char help[] =
    "usage: expander deal | describe | check | expand | circuit ..\n"
    "\n"
    "  deal       draw a dealing at random and write both records to new files\n"
    "  describe   say what records are, or where and why they are refused\n"
    "  check      say whether two records belong together and, if not, from which bytes that follows\n"
    "  expand     give a window of a record's outputs\n"
    "  circuit    show, convert and evaluate circuits\n"
    "\n"
    "expander help SUBCOMMAND, or expander SUBCOMMAND --help, says more, and so does the manual page expander(1).\n"
    "expander --version gives the version.\n"
    "Exit status: 0 well, 1 two records differ (check), 2 refused or unusable.\n"
    "This command is not proved; the calls of expander.h that it makes are.\n";

int main(int argc, char **argv)
{
    static char want_help[] = "--help";
    static const struct { const char *name; int (*run)(int, char **); } subcommands[] = {
        {"deal", run_deal}, {"describe", run_describe}, {"check", run_check}, {"expand", run_expand}, {"circuit", run_circuit}};
    int asked = argc >= 2 && (strcmp(argv[1], "help") == 0 || strcmp(argv[1], "--help") == 0 || strcmp(argv[1], "-h") == 0);
    if (asked && argc == 2) {
        fputs(help, stdout);
        return end_output(WELL);
    }
    if (argc >= 2 && strcmp(argv[1], "--version") == 0) {
        if (argc > 2)
            return complain("--version takes nothing behind it, and '%.40s' stands there", argv[2]);
        printf("expander %s\n", EXPANDER_VERSION);
        return end_output(WELL);
    }
    if (asked) { /* help SUBCOMMAND is SUBCOMMAND --help */
        argv[1] = argv[2];
        argv[2] = want_help;
    }
    for (size_t k = 0; argc >= 2 && k < sizeof subcommands / sizeof *subcommands; k++)
        if (strcmp(argv[1], subcommands[k].name) == 0) {
            name_subcommand(subcommands[k].name);
            return end_output(subcommands[k].run(argc - 2, argv + 2));
        }
    if (argc < 2)
        return complain("a subcommand is expected: deal, describe, check, expand or circuit; --help says more");
    return complain("there is no subcommand %.40s; there are deal, describe, check, expand and circuit", argv[1]);
}
