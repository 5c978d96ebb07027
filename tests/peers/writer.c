/* The tuned writer: the file of edition 1 of header values, counts and claims. */
#include "peers.h"

/* Stores the header, of which the expense provision has its last two bits in the second word. */
static inline void put_header(retro_header header, size_t risks, uint8_t *file)
{
    enum { LATER = 2 };
    uint64_t word = 1; /* the edition */
    word = word << LOSS_LIMIT_WIDTH | header.loss_limit;
    word = word << STANDARD_PREMIUM_WIDTH | header.standard_premium;
    word = word << (EXPENSE_WIDTH - LATER) | header.expense >> LATER;
    store_word(file, word);
    word = header.expense;
    word = word << CONVERSION_WIDTH | header.conversion;
    word = word << TAX_WIDTH | header.tax;
    word = word << MARK_KIND_WIDTH | header.mark_kind;
    word = word << MARK_WIDTH | header.maximum_mark;
    word = word << MARK_WIDTH | header.minimum_mark;
    word = word << RISKS_WIDTH | risks;
    word = word << SPARE_WIDTH;
    store_word(file + WORD_BYTES, word);
}

/* The word begun at `next`: its first `used` bits, which are fewer than 8, and zeros. */
typedef struct begun {
    uint8_t *next;
    uint64_t word;
    unsigned used;
} begun;

/* Puts a field behind the bits that are begun, and stores the word; what is begun then are the bits
   of its last byte that is not full. */
static inline begun put(begun at, unsigned width, uint64_t value)
{
    at.word |= value << (WORD_WIDTH - width - at.used);
    store_word(at.next, at.word);
    at.used += width;
    at.next += at.used / 8;
    at.word <<= at.used / 8 * 8;
    at.used %= 8;
    return at;
}

size_t tuned_write(retro_header header, const uint8_t *restrict counts, size_t risks,
                   const uint32_t *restrict claims, uint8_t *restrict file)
{
    put_header(header, risks, file);
    begun at = {file + HEADER_BYTES, 0, 0};
    for (size_t risk = 0; risk < risks; risk++) {
        size_t count = counts[risk];
        at = put(at, COUNT_WIDTH, count);
        for (size_t k = 0; k < count; k++) {
            at = put(at, CLAIM_WIDTH, claims[k]);
        }
        claims += count;
    }
    return (size_t)(at.next - file) + (at.used > 0);
}
