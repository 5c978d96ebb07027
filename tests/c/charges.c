/*
 * A program for quotes, which are made before there are losses: prints the charge of a column of
 * the 1965 Table M at an entry ratio, both given in hundredths. The line has the word charge, the
 * column, the entry ratio, the charge in whole thousandths, and the unrounded charge with so many
 * digits that it can be read back exactly.
 *
 * Exit status: 0 shown, 1 the column or the entry ratio is refused, 3 wrong usage, 4 the line
 * cannot be printed.
 */
#include "retro.h"

#include <errno.h>
#include <inttypes.h>
#include <stdio.h>
#include <stdlib.h>
#include <string.h>

enum { SHOWN = 0, REFUSED = 1, USAGE = 3, UNPRINTED = 4 };

/* The question that is answered No. */
static const char *question(uint32_t refused)
{
    switch (refused) {
    case 20:
        return "Is the column from 36 to 52 hundredths?";
    case 21:
        return "Is the entry ratio at most 500 hundredths?";
    default:
        return "a question that is not asked here.";
    }
}

/* Takes a whole number of 32 bits in decimal digits. Gives 0 where it is none. */
static int take_number(const char *text, uint32_t *number)
{
    if (*text == '\0' || strspn(text, "0123456789") != strlen(text)) {
        return 0;
    }
    errno = 0;
    unsigned long long value = strtoull(text, NULL, 10);
    *number = (uint32_t)value;
    return errno == 0 && value <= UINT32_MAX;
}

int main(int argc, char **argv)
{
    uint32_t column, entry_ratio;
    if (argc != 3 || !take_number(argv[1], &column) || !take_number(argv[2], &entry_ratio)) {
        fprintf(stderr, "usage: charges COLUMN ENTRY_RATIO, both in hundredths\n");
        return USAGE;
    }
    double charge;
    uint32_t thousandths;
    uint32_t refused = retro_charge(column, entry_ratio, &charge, &thousandths);
    if (refused != 0) {
        fprintf(stderr, "charges: refused with %" PRIu32 ": %s No.\n", refused, question(refused));
        return REFUSED;
    }
    printf("charge %" PRIu32 " %" PRIu32 " %" PRIu32 " %.17g\n", column, entry_ratio, thousandths,
           charge);
    if (fflush(stdout) != 0 || ferror(stdout)) {
        fprintf(stderr, "charges: the line cannot be printed\n");
        return UNPRINTED;
    }
    return SHOWN;
}
