/*
 * Document 01's four-risk group through retro_write, then retro_read, then retro_write of what was
 * read, in edition 1, and in edition 2 with claims that share an accident: every value that comes
 * back, every byte of the file, and all that must stay as it was.
 *
 * Exit status: 0 all as expected, 1 a difference; each is named on standard error.
 */
#include "retro.h"

#include <inttypes.h>
#include <stdio.h>

/* The group's sizes, the lengths of its files, and how many entries more than it needs each buffer
   has. */
enum { RISKS = 4, CLAIMS = 6, LENGTH_1 = 34, LENGTH_2 = 35, MORE = 5 };

/* What the buffers hold before a call. */
enum { UNTOUCHED = 0xa5 };

static const retro_header group_header = {
    .loss_limit = 5000,
    .standard_premium = 10000,
    .expense = 2000,
    .conversion = 1100,
    .tax = 10500,
    .mark_kind = 0,
    .maximum_mark = 900,
    .minimum_mark = 200,
};
static const uint8_t group_counts[RISKS] = {0, 2, 1, 3};
static const uint32_t group_claims[CLAIMS] = {3000, 1000, 7000, 5000, 6000, 2000};

/* The group's file in edition 1, from document 01's widths by hand. */
static const uint8_t file_1[LENGTH_1] = {
    0x10, 0x13, 0x88, /* edition 1, loss limit 5,000 */
    0x00, 0x9c, 0x40, 0x01, 0xf4, 0x22, 0x62, 0x90, 0x40, 0xe1, 0x01, 0x90,
    0x08,                                           /* standard premium to spare bit */
    0x00,                                           /* no claims; two bits of the next count */
    0x20, 0x0b, 0xb8, 0x00, 0x3e, 0x80,             /* 2 claims: 3,000 and 1,000 */
    0x40, 0x6d, 0x60,                               /* 1 claim: 7,000 */
    0x30, 0x13, 0x88, 0x01, 0x77, 0x00, 0x07, 0xd0, /* 3 claims: 5,000, 6,000 and 2,000 */
};

/* The same in edition 2, with a bit before each claim: 3,000 and 1,000 are of one accident, and so
   are 5,000 and 6,000. */
static const uint8_t file_2[LENGTH_2] = {
    0x20, 0x13, 0x88, /* edition 2, loss limit 5,000 */
    0x00, 0x9c, 0x40, 0x01, 0xf4, 0x22, 0x62, 0x90, 0x40, 0xe1, 0x01, 0x90,
    0x08,                               /* standard premium to spare bit */
    0x00,                               /* no claims; two bits of the next count */
    0x20, 0x05, 0xdc, 0x40, 0x0f, 0xa0, /* 2 claims: 3,000 and 1,000; two bits of the next count */
    0x10, 0x0d, 0xac,                   /* 1 claim: 7,000, of which the last bit follows */
    0x06, 0x01, 0x38, 0x88, 0x0b, 0xb8, 0x00, 0x1f, 0x40, /* 3 claims: 5,000, 6,000 and 2,000 */
};

/* The group in one edition. */
typedef struct group_case {
    uint32_t edition;
    uint8_t joined[CLAIMS]; /* the bits of its claims */
    const uint8_t *file;
    size_t length;
} group_case;

static const group_case cases[] = {
    {1, {0, 0, 0, 0, 0, 0}, file_1, LENGTH_1},
    {2, {0, 1, 0, 0, 1, 0}, file_2, LENGTH_2},
};

/* What retro_write is given beside a room. */
typedef struct values {
    uint32_t edition;
    retro_header header;
    uint8_t counts[RISKS + MORE];
    uint32_t claims[CLAIMS + MORE];
    uint8_t joined[CLAIMS + MORE];
    size_t joined_len;
} values;

static int compared = 0;
static int differing = 0;

/* Compares one value that a call gave with what it must be. */
static void value(const char *what, uint64_t is, uint64_t must_be)
{
    compared++;
    if (is != must_be) {
        differing++;
        fprintf(stderr, "%s: %" PRIu64 ", not %" PRIu64 "\n", what, is, must_be);
    }
}

/* The same for entry `k` of a buffer, counted from 0. */
static void entry(const char *what, size_t k, uint64_t is, uint64_t must_be)
{
    char name[64];
    snprintf(name, sizeof name, "%s %zu", what, k);
    value(name, is, must_be);
}

static void fill_bytes(uint8_t *bytes, size_t len)
{
    for (size_t k = 0; k < len; k++) {
        bytes[k] = UNTOUCHED;
    }
}

static void fill_numbers(uint32_t *numbers, size_t len)
{
    for (size_t k = 0; k < len; k++) {
        numbers[k] = UNTOUCHED;
    }
}

/* retro_write of these values into a room of `file`. */
static uint32_t write_values(const values *given, uint8_t *file, size_t room, size_t *length)
{
    return retro_write(given->edition, given->header, given->counts, RISKS, given->claims, CLAIMS,
                       given->joined, given->joined_len, file, room, length);
}

/* retro_write that is refused with `question` and leaves the length and every byte as they were. */
static void refuse_group(const char *what, uint32_t question, values given, size_t room)
{
    uint8_t file[LENGTH_2 + MORE];
    size_t length = UNTOUCHED;
    fill_bytes(file, sizeof file);
    value(what, write_values(&given, file, room, &length), question);
    value("length after a refusal", length, UNTOUCHED);
    for (size_t k = 0; k < sizeof file; k++) {
        entry("byte after a refusal", k, file[k], UNTOUCHED);
    }
}

/* What retro_write refuses: each of these values made wrong in one place, and a room that is a byte
   short. */
static void refuse_groups(const group_case *group, values given)
{
    size_t room = group->length + MORE;
    values wrong = given;
    wrong.edition = 3;
    refuse_group("write of edition 3", 2, wrong, room);
    wrong = given;
    wrong.header.minimum_mark = given.header.maximum_mark + 1;
    refuse_group("write of a minimum mark above the maximum mark", 18, wrong, room);
    wrong = given;
    wrong.joined_len = CLAIMS - 1;
    refuse_group("write of a bit too few", 15, wrong, room);
    wrong.joined_len = CLAIMS + 1;
    refuse_group("write of a bit too many", 15, wrong, room);
    wrong = given;
    wrong.joined[CLAIMS - 1] = 2;
    refuse_group("write of a bit above 1", 15, wrong, room);
    wrong = given;
    wrong.joined[0] = 1;
    refuse_group("write of a first claim that is joined", group->edition == 1 ? 15 : 19, wrong,
                 room);
    refuse_group("write into a byte too few", 13, given, group->length - 1);
}

/* retro_write into a room for the file and more. */
static void write_group(const char *what, const group_case *group, values given, uint8_t *file)
{
    refuse_groups(group, given);
    size_t length = UNTOUCHED;
    fill_bytes(file, group->length + MORE);
    value(what, write_values(&given, file, group->length + MORE, &length), 0);
    value("length", length, group->length);
    for (size_t k = 0; k < group->length; k++) {
        entry("byte", k, file[k], group->file[k]);
    }
    for (size_t k = group->length; k < group->length + MORE; k++) {
        entry("byte after the file", k, file[k], UNTOUCHED);
    }
}

/* The answer of retro_read to the group's file. */
static void compare_answer(retro_group group, uint32_t edition)
{
    value("read", group.refused, 0);
    value("risks", group.risks, RISKS);
    value("loss_limit", group.loss_limit, 5000);
    value("standard_premium", group.standard_premium, 10000);
    value("expense", group.expense, 2000);
    value("conversion", group.conversion, 1100);
    value("tax", group.tax, 10500);
    value("mark_kind", group.mark_kind, 0);
    value("maximum_mark", group.maximum_mark, 900);
    value("minimum_mark", group.minimum_mark, 200);
    value("edition", group.edition, edition);
}

/* retro_read of the group's file into rooms for so many entries. What is read becomes values for
   retro_write. */
static retro_group read_file(const group_case *group, const uint8_t *file, size_t joined_room,
                             values *read)
{
    fill_bytes(read->counts, RISKS + MORE);
    fill_numbers(read->claims, CLAIMS + MORE);
    fill_bytes(read->joined, CLAIMS + MORE);
    return retro_read(file, group->length, read->counts, RISKS + MORE, read->claims, CLAIMS + MORE,
                      read->joined, joined_room);
}

/* retro_read into a room for the bits that is an entry short, and into rooms for all entries and
   more. */
static values read_group(const group_case *group, const uint8_t *file)
{
    values read;
    retro_group answer = read_file(group, file, CLAIMS - 1, &read);
    value("read into a bit too few", answer.refused, 13);
    value("edition after a refusal", answer.edition, 0);
    for (size_t k = 0; k < RISKS + MORE; k++) {
        entry("count after a refusal", k, read.counts[k], UNTOUCHED);
    }
    for (size_t k = 0; k < CLAIMS + MORE; k++) {
        entry("claim after a refusal", k, read.claims[k], UNTOUCHED);
        entry("bit after a refusal", k, read.joined[k], UNTOUCHED);
    }
    answer = read_file(group, file, CLAIMS + MORE, &read);
    compare_answer(answer, group->edition);
    for (size_t k = 0; k < RISKS + MORE; k++) {
        entry("count", k, read.counts[k], k < RISKS ? group_counts[k] : UNTOUCHED);
    }
    for (size_t k = 0; k < CLAIMS + MORE; k++) {
        entry("claim", k, read.claims[k], k < CLAIMS ? group_claims[k] : UNTOUCHED);
        entry("bit", k, read.joined[k], k < CLAIMS ? group->joined[k] : UNTOUCHED);
    }
    read.edition = answer.edition;
    read.header = (retro_header){
        answer.loss_limit, answer.standard_premium, answer.expense,      answer.conversion,
        answer.tax,        answer.mark_kind,        answer.maximum_mark, answer.minimum_mark,
    };
    read.joined_len = CLAIMS;
    return read;
}

/* The group's values in an edition. */
static values values_of(const group_case *group)
{
    values given = {.edition = group->edition, .header = group_header, .joined_len = CLAIMS};
    for (size_t k = 0; k < RISKS; k++) {
        given.counts[k] = group_counts[k];
    }
    for (size_t k = 0; k < CLAIMS; k++) {
        given.claims[k] = group_claims[k];
        given.joined[k] = group->joined[k];
    }
    return given;
}

int main(void)
{
    for (size_t k = 0; k < sizeof cases / sizeof cases[0]; k++) {
        uint8_t file[LENGTH_2 + MORE];
        write_group("write", &cases[k], values_of(&cases[k]), file);
        values read = read_group(&cases[k], file);
        write_group("write of what was read", &cases[k], read, file);
    }
    if (differing > 0) {
        fprintf(stderr, "round_trip: %d of %d values differ\n", differing, compared);
        return 1;
    }
    printf("round_trip: %d values and bytes as expected\n", compared);
    return 0;
}
