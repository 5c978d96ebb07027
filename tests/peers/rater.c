/* The tuned rater: steps 1 to 6 of document 01 for a file of edition 1, in 64-bit arithmetic. */
#include "peers.h"

/* The lesser of two numbers. */
static inline uint64_t lesser(uint64_t one, uint64_t other)
{
    return one < other ? one : other;
}

/* The greater of two numbers. */
static inline uint64_t greater(uint64_t one, uint64_t other)
{
    return one > other ? one : other;
}

/* SL and SA: a group's losses, and its losses with each claim cut to the limit. */
typedef struct sums {
    uint64_t losses;
    uint64_t limited;
} sums;

/* Step 1: sums the claims of all risks, of which the first count is at the place, and stores the
   limited losses of each. */
static inline sums sum_losses(const uint8_t *file, size_t place, size_t risks, uint64_t limit,
                              uint64_t *limited)
{
    sums group = {0, 0};
    for (size_t risk = 0; risk < risks; risk++) {
        size_t count = take(file, &place, COUNT_WIDTH);
        uint64_t sum = 0;
        for (size_t k = 0; k < count; k++) {
            uint64_t claim = take(file, &place, CLAIM_WIDTH);
            group.losses += claim;
            sum += lesser(claim, limit);
        }
        limited[risk] = sum;
        group.limited += sum;
    }
    return group;
}

/* Step 3: makes the limited losses of each risk its ratable losses, from `minimum` to `maximum`,
   and gives their sum. */
static inline uint64_t cut_to_marks(uint64_t *losses, size_t risks, uint64_t minimum,
                                    uint64_t maximum)
{
    uint64_t sum = 0;
    for (size_t risk = 0; risk < risks; risk++) {
        losses[risk] = lesser(greater(losses[risk], minimum), maximum);
        sum += losses[risk];
    }
    return sum;
}

/* Step 6: stores each premium, which is (fixed + factor * ratable losses) / divisor rounded down,
   and gives their sum. */
static inline uint64_t bill(const uint64_t *ratable, size_t risks, uint64_t fixed, uint64_t factor,
                            uint64_t divisor, uint8_t *premiums)
{
    uint64_t billed = 0;
    for (size_t risk = 0; risk < risks; risk++) {
        uint64_t premium = (fixed + factor * ratable[risk]) / divisor;
        uint32_t bytes = __builtin_bswap32((uint32_t)premium);
        memcpy(premiums + 4 * risk, &bytes, sizeof bytes);
        billed += premium;
    }
    return billed;
}

tuned_rated tuned_rate(const uint8_t *restrict file, uint8_t *restrict premiums)
{
    size_t place;
    retro_group header = take_header(file, &place);
    uint64_t n = header.risks;
    uint64_t c = header.conversion;
    uint64_t tax = header.tax;

    /* without a limit, one that cuts no claim */
    uint64_t limit = header.loss_limit == 0 ? UINT64_MAX : header.loss_limit;
    uint64_t losses[RETRO_MOST_RISKS];
    sums group = sum_losses(file, place, n, limit, losses);

    /* step 2: a mark is so many thousandths of the standard premium or of the mean of losses */
    uint64_t measured = header.mark_kind == 0 ? header.standard_premium : group.limited;
    uint64_t parts = header.mark_kind == 0 ? 1000 : 1000 * n;
    uint64_t maximum = header.maximum_mark * measured / parts;
    uint64_t minimum = header.minimum_mark * measured / parts;
    uint64_t ratable = cut_to_marks(losses, n, minimum, maximum);

    /* steps 4 and 5; SX - SS is what the limited losses have above the ratable ones */
    uint64_t basic =
        1000 * n * header.expense - (c - 1000) * group.losses + c * (group.limited - ratable);
    uint64_t excess = c * (group.losses - group.limited);

    /* half of the divisor more, so that rounding down gives the nearest dollar */
    uint64_t divisor = 10000000 * n;
    uint64_t fixed = tax * (basic + excess) + divisor / 2;
    uint64_t billed = bill(losses, n, fixed, tax * n * c, divisor, premiums);
    return (tuned_rated){header.risks, basic, excess, billed};
}
