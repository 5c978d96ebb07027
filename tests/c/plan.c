/*
 * A program for offices that sell plans on premiums: finds the basic premium of the group file that
 * it is given by name, for a maximum and a minimum premium in whole dollars, taxes included. A number
 * of trials may follow; without it there are twenty, which always finish.
 *
 * It prints the trials made, and whether the plan is finished; the best basic premium yet that reaches
 * the total, in dollars a risk; the largest known to fall short of it, or none; and of the whole group
 * what the premiums of that best one come to, the taxed expenses and losses that they are to pay, and
 * what they are over them. In a finished plan the best and the largest that falls short are a dollar
 * apart, and the best is the least of all. Where it is above 0 the premiums are then over by at most a
 * taxed dollar a risk; where it is 0 they may be over by any amount, as where the minimum premium alone
 * is more than is owed.
 *
 * These amounts are in dollars to four places. What is owed has no more; the premiums and the
 * difference are cut off there.
 *
 * Exit status: 0 shown, 1 the file or the premiums are refused, 2 the file cannot be read, 3 wrong
 * usage, 4 the lines cannot be printed.
 */
#include "retro.h"

#include <errno.h>
#include <inttypes.h>
#include <stdbool.h>
#include <stdio.h>
#include <stdlib.h>
#include <string.h>

enum { SHOWN = 0, REFUSED = 1, UNREADABLE = 2, USAGE = 3, UNPRINTED = 4 };

/* What was read of the file. A byte more than the largest file has is refused as the whole is. */
static uint8_t file[RETRO_LARGEST_FILE + 1];

/* What the file has: the number of claims of each risk, the claims in dollars, and their bits. */
static uint8_t counts[RETRO_MOST_RISKS];
static uint32_t claims[RETRO_MOST_CLAIMS];
static uint8_t joined[RETRO_MOST_CLAIMS];

/* Why the file or the premiums are refused. */
static const char *reason(uint32_t refused)
{
    switch (refused) {
    case 22:
        return "the minimum premium is above the maximum premium";
    case 23:
        return "no basic premium from 0 to 1,048,575 dollars a risk reaches the taxed expenses and "
               "losses";
    default:
        return "the file, by the questions in retro.h";
    }
}

/* Reads the file of this name. Gives 0, or the reason why not as errno has it. */
static int read_file(const char *name, size_t *len)
{
    FILE *stream = fopen(name, "rb");
    if (stream == NULL) {
        return errno;
    }
    errno = 0;
    *len = fread(file, 1, sizeof file, stream);
    int failed = !ferror(stream) ? 0 : errno != 0 ? errno : EIO;
    fclose(stream);
    return failed;
}

/* Takes a whole number of 32 bits in decimal digits. Gives 0 where it is none. */
static int take_number(const char *text, uint32_t *number)
{
    if (*text == '\0' || strspn(text, "0123456789") != strlen(text)) {
        return 0;
    }
    errno = 0;
    unsigned long long value = strtoull(text, NULL, 10);
    *number = (uint32_t)value;
    return errno == 0 && value <= UINT32_MAX;
}

/* What the limit leaves of an accident, 0 being no limit. */
static uint64_t limited(uint64_t accident, uint32_t limit)
{
    return limit != 0 && accident > limit ? limit : accident;
}

/* A group as a plan takes it: A of each risk, and SL and SA of the group, as retro.h has them. */
struct losses {
    uint64_t of_risk[RETRO_MOST_RISKS];
    uint64_t total;
    uint64_t limited;
};

/* Adds up the losses of a group that was read: a claim opens an accident, or belongs to the one of the
   claim before it. */
static void add_up(const retro_group *group, struct losses *losses)
{
    size_t claim = 0;
    for (uint32_t k = 0; k < group->risks; k++) {
        uint64_t accident = 0, of_risk = 0;
        for (size_t after = claim + counts[k]; claim < after; claim++) {
            if (!joined[claim]) {
                of_risk += limited(accident, group->loss_limit);
                accident = 0;
            }
            accident += claims[claim];
            losses->total += claims[claim];
        }
        losses->of_risk[k] = of_risk + limited(accident, group->loss_limit);
        losses->limited += losses->of_risk[k];
    }
}

/* What the premiums of a basic premium come to, in ten-thousandths of a dollar, cut off. Each is
   computed times 10,000,000 * n, as a whole number of 64 bits, and then divided: only the rests below
   a dollar are added up as they are. */
static uint64_t premiums_in_all(const retro_group *group, const struct losses *losses,
                                uint64_t basic, uint64_t maximum, uint64_t minimum)
{
    uint64_t n = group->risks, dollar = 10000000 * n, dollars = 0, rests = 0;
    uint64_t excess = group->conversion * (losses->total - losses->limited);
    for (uint64_t k = 0; k < n; k++) {
        uint64_t converted = n * group->conversion * losses->of_risk[k];
        uint64_t premium = group->tax * (1000 * n * basic + excess + converted);
        if (premium < minimum * dollar) {
            premium = minimum * dollar;
        } else if (premium > maximum * dollar) {
            premium = maximum * dollar;
        }
        dollars += premium / dollar;
        rests += premium % dollar;
    }
    return 10000 * dollars + 10000 * rests / dollar;
}

/* A line with a basic premium of a risk. */
static void print_basic(const char *what, uint32_t basic)
{
    printf("%-28s %12" PRIu32 "      dollars a risk\n", what, basic);
}

/* A line with an amount of the whole group, which is given in ten-thousandths of a dollar. */
static void print_amount(const char *what, uint64_t amount)
{
    printf("%-28s %12" PRIu64 ".%04" PRIu64 " dollars for the group\n", what, amount / 10000,
           amount % 10000);
}

/* Prints the lines. Gives 0, or the refusal if the file or the premiums are refused. */
static uint32_t show(size_t len, uint32_t maximum, uint32_t minimum, uint32_t trials)
{
    uint32_t made, best;
    int32_t short_of;
    uint32_t refused = retro_plan(file, len, maximum, minimum, trials, &made, &best, &short_of);
    if (refused != 0) {
        return refused;
    }
    retro_group group = retro_read(file, len, counts, RETRO_MOST_RISKS, claims, RETRO_MOST_CLAIMS,
                                   joined, RETRO_MOST_CLAIMS);
    if (group.refused != 0) {
        return group.refused;
    }
    static struct losses losses;
    add_up(&group, &losses);
    uint64_t total = premiums_in_all(&group, &losses, best, maximum, minimum);
    uint64_t owed = group.tax * ((uint64_t)group.risks * group.expense + losses.total);
    bool finished = (int64_t)best - short_of == 1;
    printf("%-28s %12" PRIu32 "      %s\n", "trials made", made,
           finished ? "finished" : "not finished");
    print_basic("best basic premium", best);
    if (short_of < 0) {
        printf("%-28s %12s\n", "largest known to fall short", "none");
    } else {
        print_basic("largest known to fall short", (uint32_t)short_of);
    }
    print_amount("premiums", total);
    print_amount("taxed expenses and losses", owed);
    print_amount("premiums over these", total - owed);
    return 0;
}

int main(int argc, char **argv)
{
    uint32_t maximum, minimum, trials = 20;
    if ((argc != 4 && argc != 5) || !take_number(argv[2], &maximum) ||
        !take_number(argv[3], &minimum) || (argc == 5 && !take_number(argv[4], &trials))) {
        fprintf(stderr, "usage: plan FILE MAXIMUM MINIMUM [TRIALS], both premiums in dollars\n");
        return USAGE;
    }
    size_t len = 0;
    int failed = read_file(argv[1], &len);
    if (failed != 0) {
        fprintf(stderr, "plan: %s cannot be read: %s\n", argv[1], strerror(failed));
        return UNREADABLE;
    }
    uint32_t refused = show(len, maximum, minimum, trials);
    if (refused != 0) {
        fprintf(stderr, "plan: refused with %" PRIu32 ": %s\n", refused, reason(refused));
        return REFUSED;
    }
    if (fflush(stdout) != 0 || ferror(stdout)) {
        fprintf(stderr, "plan: the lines cannot be printed\n");
        return UNPRINTED;
    }
    return SHOWN;
}
