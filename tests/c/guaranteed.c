/*
 * A program for underwriters: rates the group file that it is given by name, and prints for each risk what
 * the plan saved or cost beside guaranteed cost, and the group's totals. The premium discount
 * schedule may follow as seven whole numbers, each width in dollars before its rate in tenths of a
 * percent, and the last rate alone; without them it is the stock schedule of 1986.
 *
 * Exit status: 0 shown, 1 the file or the schedule is refused, 2 the file cannot be read, 3 wrong
 * usage, 4 the lines cannot be printed.
 */
#include "retro.h"

#include <errno.h>
#include <inttypes.h>
#include <stdio.h>
#include <stdlib.h>
#include <string.h>

enum { SHOWN = 0, REFUSED = 1, UNREADABLE = 2, USAGE = 3, UNPRINTED = 4 };

/* What was read of the file. A byte more than the largest file has is refused as the whole is. */
static uint8_t file[RETRO_LARGEST_FILE + 1];

/* Why the file or the schedule is refused. */
static const char *reason(uint32_t refused)
{
    switch (refused) {
    case 16:
        return "a rate of the schedule is above 100.0 percent";
    case 17:
        return "a width of the schedule is 0";
    default:
        return "the file, by the questions in retro.h";
    }
}

/* Reads the file of this name. Gives 0, or the reason why not as errno has it. */
static int read_file(const char *name, size_t *len)
{
    FILE *stream = fopen(name, "rb");
    if (stream == NULL) {
        return errno;
    }
    errno = 0;
    *len = fread(file, 1, sizeof file, stream);
    int failed = !ferror(stream) ? 0 : errno != 0 ? errno : EIO;
    fclose(stream);
    return failed;
}

/* Takes a whole number of 32 bits in decimal digits. Gives 0 where it is none. */
static int take_number(const char *text, uint32_t *number)
{
    if (*text == '\0' || strspn(text, "0123456789") != strlen(text)) {
        return 0;
    }
    errno = 0;
    unsigned long long value = strtoull(text, NULL, 10);
    *number = (uint32_t)value;
    return errno == 0 && value <= UINT32_MAX;
}

/* Takes the seven numbers of a schedule. Gives 0 where one of them is none. */
static int take_schedule(char **texts, retro_schedule *schedule)
{
    retro_layer *layers = schedule->layers;
    for (size_t k = 0; k < 3; k++) {
        if (!take_number(texts[2 * k], &layers[k].width) ||
            !take_number(texts[2 * k + 1], &layers[k].rate)) {
            return 0;
        }
    }
    return take_number(texts[6], &layers[3].rate);
}

/* Premium k of a rated group. */
static uint32_t premium_at(const uint8_t *premiums, uint32_t k)
{
    const uint8_t *four = premiums + 4 * (size_t)k;
    return (uint32_t)four[0] << 24 | (uint32_t)four[1] << 16 | (uint32_t)four[2] << 8 | four[3];
}

/* What the plan saved or cost. */
static void print_difference(int64_t difference)
{
    if (difference < 0) {
        printf("  saved %10" PRId64 "\n", -difference);
    } else {
        printf("  cost  %10" PRId64 "\n", difference);
    }
}

/* A line with an amount of the whole group, which is given in thousandths of a dollar. */
static void print_thousandths(const char *what, uint64_t amount)
{
    printf("%-24s %12" PRIu64 ".%03" PRIu64 " dollars for the group\n", what, amount / 1000,
           amount % 1000);
}

/* Prints the lines. Gives 0, or the refusal if the file or the schedule is refused. */
static uint32_t show(size_t len, retro_schedule schedule)
{
    uint8_t premiums[4 * RETRO_MOST_RISKS];
    int64_t differences[RETRO_MOST_RISKS];
    uint32_t risks, discount, guaranteed;
    uint64_t basic, excess, billed;
    int64_t difference;
    uint32_t refused = retro_guaranteed(file, len, schedule, premiums, sizeof premiums, differences,
                                        RETRO_MOST_RISKS, &risks, &basic, &excess, &billed,
                                        &discount, &guaranteed, &difference);
    if (refused != 0) {
        return refused;
    }
    for (uint32_t k = 0; k < risks; k++) {
        printf("risk %3" PRIu32 "  premium %10" PRIu32, k + 1, premium_at(premiums, k));
        print_difference(differences[k]);
    }
    printf("group     premium %10" PRIu64, billed);
    print_difference(difference);
    printf("%-24s %12" PRIu32 "     dollars a risk\n", "standard premium", discount + guaranteed);
    printf("%-24s %12" PRIu32 "     dollars a risk\n", "premium discount", discount);
    printf("%-24s %12" PRIu32 "     dollars a risk\n", "guaranteed cost", guaranteed);
    print_thousandths("basic premium", basic);
    print_thousandths("excess loss charge", excess);
    return 0;
}

int main(int argc, char **argv)
{
    retro_schedule schedule = {{{5000, 0}, {95000, 109}, {400000, 126}, {0, 144}}};
    if ((argc != 2 && argc != 9) || (argc == 9 && !take_schedule(argv + 2, &schedule))) {
        fprintf(stderr, "usage: guaranteed FILE [WIDTH RATE WIDTH RATE WIDTH RATE RATE]\n");
        return USAGE;
    }
    size_t len = 0;
    int failed = read_file(argv[1], &len);
    if (failed != 0) {
        fprintf(stderr, "guaranteed: %s cannot be read: %s\n", argv[1], strerror(failed));
        return UNREADABLE;
    }
    uint32_t refused = show(len, schedule);
    if (refused != 0) {
        fprintf(stderr, "guaranteed: refused with %" PRIu32 ": %s\n", refused, reason(refused));
        return REFUSED;
    }
    if (fflush(stdout) != 0 || ferror(stdout)) {
        fprintf(stderr, "guaranteed: the lines cannot be printed\n");
        return UNPRINTED;
    }
    return SHOWN;
}
