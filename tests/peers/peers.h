/*
 * peers.h: a tuned rater, a tuned reader and a tuned writer of group files, beside which the
 * benchmark measures retro_rate, retro_read and retro_write. They are part of the tests; nothing of
 * them is shipped.
 *
 * They take and make files of edition 1 alone, in which each claim has 20 bits and is an accident
 * of its own.
 *
 * They are given only what the library accepts: they ask no question and test no length. A claim
 * takes one 64-bit load or store, one byte swap and two shifts. They load up to PEERS_SPARE bytes
 * past a file's end, and the writer sets some of these to 0, so the memory of a file goes on for as
 * many.
 *
 * Each source is compiled for this machine in two forms (tests/build.rs): claim by claim, as the
 * loops are written, and with vectors, where gcc may take several claims at a time. In the second
 * form the functions have names of their own.
 */
#ifndef PEERS_H
#define PEERS_H

#include "retro.h"

#include <stddef.h>
#include <stdint.h>
#include <string.h>

#ifdef WITH_VECTORS
#define tuned_rate tuned_rate_with_vectors
#define tuned_read tuned_read_with_vectors
#define tuned_write tuned_write_with_vectors
#endif

/* The bytes after a file that may be loaded, and set to 0 by the writer. */
enum { PEERS_SPARE = 8 };

/* What the rater gives beside the premiums, as retro_rate does. */
typedef struct tuned_rated {
    uint32_t risks;
    uint64_t basic;
    uint64_t excess;
    uint64_t billed;
} tuned_rated;

/* Rates a file that retro_rate accepts and stores four bytes for each risk in `premiums`. */
tuned_rated tuned_rate(const uint8_t *restrict file, uint8_t *restrict premiums);

/* Takes a file apart that retro_read accepts and stores as many counts and claims as it has, and a
   0 in `joined` for each claim, as retro_read does for edition 1. */
retro_group tuned_read(const uint8_t *restrict file, uint8_t *restrict counts,
                       uint32_t *restrict claims, uint8_t *restrict joined);

/* Makes the file of values that retro_write accepts for edition 1 and gives its length. */
size_t tuned_write(retro_header header, const uint8_t *restrict counts, size_t risks,
                   const uint32_t *restrict claims, uint8_t *restrict file);

/* The widths of the fields in bits, in file order. */
enum {
    EDITION_WIDTH = 4,
    LOSS_LIMIT_WIDTH = 20,
    STANDARD_PREMIUM_WIDTH = 22,
    EXPENSE_WIDTH = 20,
    CONVERSION_WIDTH = 11,
    TAX_WIDTH = 15,
    MARK_KIND_WIDTH = 1,
    MARK_WIDTH = 13,
    RISKS_WIDTH = 8,
    SPARE_WIDTH = 1,
    COUNT_WIDTH = 6,
    CLAIM_WIDTH = 20,
};

enum { WORD_WIDTH = 64, WORD_BYTES = 8, HEADER_BYTES = 16 };

/* The eight bytes from `bytes` on as a number, the first the most significant. */
static inline uint64_t load_word(const uint8_t *bytes)
{
    uint64_t word;
    memcpy(&word, bytes, sizeof word);
    return __builtin_bswap64(word);
}

/* Stores a number as eight bytes, the most significant first. */
static inline void store_word(uint8_t *bytes, uint64_t word)
{
    word = __builtin_bswap64(word);
    memcpy(bytes, &word, sizeof word);
}

/* The field of `width` bits, at most 57, at a bit place of the file. The place moves on to the next
   field. */
static inline uint64_t take(const uint8_t *file, size_t *place, unsigned width)
{
    uint64_t word = load_word(file + *place / 8);
    uint64_t value = word << (*place % 8) >> (WORD_WIDTH - width);
    *place += width;
    return value;
}

/* The header of a file, as retro_read gives it. The place moves from the file's first bit to the
   first count. */
static inline retro_group take_header(const uint8_t *file, size_t *place)
{
    retro_group group = {.refused = 0, .edition = 1};
    *place = EDITION_WIDTH;
    group.loss_limit = (uint32_t)take(file, place, LOSS_LIMIT_WIDTH);
    group.standard_premium = (uint32_t)take(file, place, STANDARD_PREMIUM_WIDTH);
    group.expense = (uint32_t)take(file, place, EXPENSE_WIDTH);
    group.conversion = (uint32_t)take(file, place, CONVERSION_WIDTH);
    group.tax = (uint32_t)take(file, place, TAX_WIDTH);
    group.mark_kind = (uint32_t)take(file, place, MARK_KIND_WIDTH);
    group.maximum_mark = (uint32_t)take(file, place, MARK_WIDTH);
    group.minimum_mark = (uint32_t)take(file, place, MARK_WIDTH);
    group.risks = (uint32_t)take(file, place, RISKS_WIDTH);
    *place += SPARE_WIDTH;
    return group;
}

#endif
