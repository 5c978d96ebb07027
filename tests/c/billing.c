/*
 * A billing program: rates the group file that it is given by name, and prints an invoice line for
 * each risk, the group's totals, and the group's charge and savings at three entry ratios.
 *
 * Exit status: 0 billed, 1 the file is refused, 2 the file cannot be read, 3 wrong usage, 4 the
 * invoice cannot be printed.
 */
#include "retro.h"

#include <errno.h>
#include <inttypes.h>
#include <stdio.h>
#include <stdlib.h>
#include <string.h>

enum { BILLED = 0, REFUSED = 1, UNREADABLE = 2, USAGE = 3, UNPRINTED = 4 };

/* The question of each refusal of retro_rate and retro_table, as retro.h numbers them. 11 is not
   used: no call answers it. */
static const char *const questions[] = {
    [1] = "Has the file at least 16 bytes?",
    [2] = "Is the edition 1 or 2 and the spare bit 0?",
    [3] = "Is the standard premium at least 1?",
    [4] = "Is the loss conversion factor from 1.000 to 2.000?",
    [5] = "Is the tax multiplier from 1.0000 to 2.0000?",
    [6] = "Are both marks at most 6.000?",
    [7] = "Is there at least one risk?",
    [8] = "Does the file end with the byte that holds the last claim or count?",
    [9] = "Are the fill bits of the last byte zero?",
    [10] = "Is the sum of limited losses at least 1?",
    [12] = "Is the balanced basic premium at least 0?",
    [13] = "Is the buffer for the premiums long enough?",
    [14] = "Is the entry ratio at most 6.00?",
    [18] = "Is the minimum mark at most the maximum mark?",
    [19] = "Does the first claim of each risk open an accident?",
};

/* The question that is answered No, also where the number has no text here. */
static const char *question(uint32_t refused)
{
    const char *text = refused < sizeof questions / sizeof questions[0] ? questions[refused] : NULL;
    return text != NULL ? text : "a question that is not asked here.";
}

/* A file in memory. */
struct contents {
    uint8_t *bytes;
    size_t len;
};

/* Reads a stream to its end. Gives 0, or the reason why not as errno has it. */
static int read_all(FILE *stream, struct contents *contents)
{
    size_t room = 0;
    for (;;) {
        if (contents->len == room) {
            size_t more = room == 0 ? RETRO_LARGEST_FILE + 1 : 2 * room;
            uint8_t *bytes = more > room ? realloc(contents->bytes, more) : NULL;
            if (bytes == NULL) {
                return ENOMEM;
            }
            contents->bytes = bytes;
            room = more;
        }
        errno = 0;
        size_t got = fread(contents->bytes + contents->len, 1, room - contents->len, stream);
        contents->len += got;
        if (ferror(stream)) {
            return errno != 0 ? errno : EIO;
        }
        if (got == 0) {
            return 0;
        }
    }
}

/* Reads the file of this name, whatever its size. The caller frees the bytes. */
static int read_file(const char *name, struct contents *contents)
{
    FILE *stream = fopen(name, "rb");
    if (stream == NULL) {
        return errno;
    }
    int failed = read_all(stream, contents);
    fclose(stream);
    return failed;
}

/* Premium k of a rated group. */
static uint32_t premium_at(const uint8_t *premiums, uint32_t k)
{
    const uint8_t *four = premiums + 4 * (size_t)k;
    return (uint32_t)four[0] << 24 | (uint32_t)four[1] << 16 | (uint32_t)four[2] << 8 | four[3];
}

/* A line with an amount of the whole group, which is given in thousandths of a dollar. */
static void print_thousandths(const char *what, uint64_t amount)
{
    printf("%-24s %12" PRIu64 ".%03" PRIu64 " dollars for the group\n", what, amount / 1000,
           amount % 1000);
}

/* The charge and the savings at an entry ratio in hundredths. Gives 0 or the refusal. */
static uint32_t print_charge(const struct contents *file, uint32_t entry_ratio)
{
    uint32_t charge, savings;
    uint32_t refused = retro_table(file->bytes, file->len, entry_ratio, &charge, &savings);
    if (refused == 0) {
        printf("entry ratio %" PRIu32 ".%02" PRIu32, entry_ratio / 100, entry_ratio % 100);
        printf("  charge %" PRIu32 ".%03" PRIu32, charge / 1000, charge % 1000);
        printf("  savings %" PRIu32 ".%03" PRIu32 "\n", savings / 1000, savings % 1000);
    }
    return refused;
}

/* Prints the invoice. Gives 0, or the refusal if the file is refused. */
static uint32_t bill(const struct contents *file)
{
    static const uint32_t entry_ratios[] = {50, 100, 150};
    uint8_t premiums[4 * RETRO_MOST_RISKS];
    uint32_t risks;
    uint64_t basic, excess, billed;
    uint32_t refused = retro_rate(file->bytes, file->len, premiums, sizeof premiums, &risks, &basic,
                                  &excess, &billed);
    if (refused != 0) {
        return refused;
    }
    for (uint32_t k = 0; k < risks; k++) {
        printf("risk %3" PRIu32 "  premium %10" PRIu32 "\n", k + 1, premium_at(premiums, k));
    }
    printf("%-24s %12" PRIu32 "\n", "risks", risks);
    printf("%-24s %12" PRIu64 "     dollars for the group\n", "billed", billed);
    print_thousandths("basic premium", basic);
    print_thousandths("excess loss charge", excess);
    for (size_t k = 0; k < sizeof entry_ratios / sizeof entry_ratios[0] && refused == 0; k++) {
        refused = print_charge(file, entry_ratios[k]);
    }
    return refused;
}

int main(int argc, char **argv)
{
    if (argc != 2) {
        fprintf(stderr, "usage: billing FILE\n");
        return USAGE;
    }
    struct contents file = {NULL, 0};
    int failed = read_file(argv[1], &file);
    if (failed != 0) {
        fprintf(stderr, "billing: %s cannot be read: %s\n", argv[1], strerror(failed));
        free(file.bytes);
        return UNREADABLE;
    }
    uint32_t refused = bill(&file);
    free(file.bytes);
    if (refused != 0) {
        fprintf(stderr, "billing: %s is refused with %" PRIu32 ": %s No.\n", argv[1], refused,
                question(refused));
        return REFUSED;
    }
    if (fflush(stdout) != 0 || ferror(stdout)) {
        fprintf(stderr, "billing: the invoice cannot be printed\n");
        return UNPRINTED;
    }
    return BILLED;
}
