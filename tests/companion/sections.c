/* Tests of the companion, under the sanitizers and with the system's calls wrapped (tests/companion/run says which): every call of
 * the system can be made to fail, to move less than was asked, or to be interrupted, and what is freed must have been wiped.
 *
 *   sections SECTION [COUNT]    sections are listed in sections.h
 */
#include "sections.h"

int main(int argc, char **argv)
{
    static const struct section sections[] = {SECTIONS(SECTION_ROW)};
    return run_sections(argc, argv, sections, sizeof sections / sizeof *sections);
}
