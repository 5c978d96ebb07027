/*
 * The names, types and layouts that retro.h promises, checked as C11 and as C++11 when compiled, and
 * each call by a pointer of exactly its type when linked and run.
 *
 * Exit status: 0 all as expected, else the number of the call that answered otherwise.
 */
#include "retro.h"

#ifndef __cplusplus
#define static_assert _Static_assert
#endif

static_assert(sizeof(retro_header) == 32, "eight numbers of 32 bits");
static_assert(offsetof(retro_header, loss_limit) == 0, "first");
static_assert(offsetof(retro_header, standard_premium) == 4, "second");
static_assert(offsetof(retro_header, expense) == 8, "third");
static_assert(offsetof(retro_header, conversion) == 12, "fourth");
static_assert(offsetof(retro_header, tax) == 16, "fifth");
static_assert(offsetof(retro_header, mark_kind) == 20, "sixth");
static_assert(offsetof(retro_header, maximum_mark) == 24, "seventh");
static_assert(offsetof(retro_header, minimum_mark) == 28, "eighth");

static_assert(sizeof(retro_group) == 44, "eleven numbers of 32 bits");
static_assert(offsetof(retro_group, refused) == 0, "first");
static_assert(offsetof(retro_group, risks) == 4, "second");
static_assert(offsetof(retro_group, loss_limit) == 8, "third");
static_assert(offsetof(retro_group, standard_premium) == 12, "fourth");
static_assert(offsetof(retro_group, expense) == 16, "fifth");
static_assert(offsetof(retro_group, conversion) == 20, "sixth");
static_assert(offsetof(retro_group, tax) == 24, "seventh");
static_assert(offsetof(retro_group, mark_kind) == 28, "eighth");
static_assert(offsetof(retro_group, maximum_mark) == 32, "ninth");
static_assert(offsetof(retro_group, minimum_mark) == 36, "tenth");
static_assert(offsetof(retro_group, edition) == 40, "eleventh");

static_assert(sizeof(retro_layer) == 8, "two numbers of 32 bits");
static_assert(offsetof(retro_layer, width) == 0, "first");
static_assert(offsetof(retro_layer, rate) == 4, "second");

static_assert(sizeof(retro_schedule) == 32, "four layers");
static_assert(offsetof(retro_schedule, layers) == 0, "first");
static_assert(sizeof(((retro_schedule *)0)->layers) == 32, "four, one after another");

static_assert(sizeof(double) == 8, "an IEEE double");

static_assert(RETRO_MOST_RISKS == 255, "8 bits");
static_assert(RETRO_MOST_CLAIMS == 255 * 63, "6 bits for each risk");
static_assert(RETRO_LARGEST_FILE == (128 + 255 * 6 + 16065 * 21 + 7) / 8, "of edition 2");

/* The calls as pointers of exactly these types. */
static uint32_t (*const rate)(const uint8_t *, size_t, uint8_t *, size_t, uint32_t *, uint64_t *,
                              uint64_t *, uint64_t *) = retro_rate;
static uint32_t (*const table)(const uint8_t *, size_t, uint32_t, uint32_t *,
                               uint32_t *) = retro_table;
static retro_group (*const take)(const uint8_t *, size_t, uint8_t *, size_t, uint32_t *, size_t,
                                 uint8_t *, size_t) = retro_read;
static uint32_t (*const make)(uint32_t, retro_header, const uint8_t *, size_t, const uint32_t *,
                              size_t, const uint8_t *, size_t, uint8_t *, size_t,
                              size_t *) = retro_write;
static uint32_t (*const beside)(const uint8_t *, size_t, retro_schedule, uint8_t *, size_t,
                                int64_t *, size_t, uint32_t *, uint64_t *, uint64_t *, uint64_t *,
                                uint32_t *, uint32_t *, int64_t *) = retro_guaranteed;
static uint32_t (*const quote)(uint32_t, uint32_t, double *, uint32_t *) = retro_charge;
static uint32_t (*const sell)(const uint8_t *, size_t, uint32_t, uint32_t, uint32_t, uint32_t *,
                              uint32_t *, int32_t *) = retro_plan;

/* One risk with a claim of 1 and an expense provision of 5: c is 1.000, T 1.0000, without limit. */
static const uint8_t one_risk[20] = {0x10, 0x00, 0x00, 0x00, 0x00, 0x04, 0x00, 0x01, 0x5f, 0x42,
                                     0x71, 0x00, 0x00, 0x00, 0x00, 0x02, 0x04, 0x00, 0x00, 0x40};

/* Each call on a file is given nothing, with null pointers where the count is 0. A charge is
   refused with 20 and 21, and a plan with 22 and 23, which leaves the numbers as they were, and then
   given. */
int main(void)
{
    uint32_t risks = 0, charge = 0, savings = 0, discount = 0, guaranteed = 0, thousandths = 7;
    uint64_t basic = 0, excess = 0, billed = 0;
    int64_t difference = 0;
    double unrounded = -7.5;
    size_t length = 0;
    retro_header header = {0, 1, 0, 1000, 10000, 0, 0, 0};
    retro_schedule schedule = {{{5000, 0}, {95000, 109}, {400000, 126}, {0, 144}}};
    if (rate(NULL, 0, NULL, 0, &risks, &basic, &excess, &billed) != 1) {
        return 1;
    }
    if (table(NULL, 0, 0, &charge, &savings) != 1) {
        return 2;
    }
    retro_group group = take(NULL, 0, NULL, 0, NULL, 0, NULL, 0);
    if (group.refused != 1 || group.risks != 0 || group.minimum_mark != 0 || group.edition != 0) {
        return 3;
    }
    for (uint32_t edition = 0; edition < 4; edition++) {
        uint32_t question = edition == 1 || edition == 2 ? 7 : 2;
        if (make(edition, header, NULL, 0, NULL, 0, NULL, 0, NULL, 0, &length) != question) {
            return 4;
        }
    }
    if (beside(NULL, 0, schedule, NULL, 0, NULL, 0, &risks, &basic, &excess, &billed, &discount,
               &guaranteed, &difference) != 1) {
        return 5;
    }
    if (quote(53, 501, &unrounded, &thousandths) != 20 ||
        quote(52, 501, &unrounded, &thousandths) != 21 || unrounded != -7.5 || thousandths != 7 ||
        quote(50, 100, &unrounded, &thousandths) != 0 || unrounded != 0.5 || thousandths != 500) {
        return 6;
    }
    uint32_t made = 7, best = 8;
    int32_t short_of = 9;
    if (sell(NULL, 0, 9, 1, 20, &made, &best, &short_of) != 1 ||
        sell(one_risk, sizeof one_risk, 5, 6, 20, &made, &best, &short_of) != 22 ||
        sell(one_risk, sizeof one_risk, 5, 5, 20, &made, &best, &short_of) != 23 || made != 7 ||
        best != 8 || short_of != 9 ||
        sell(one_risk, sizeof one_risk, 6, 0, 20, &made, &best, &short_of) != 0 || made != 20 ||
        best != 5 || short_of != 4 ||
        sell(one_risk, sizeof one_risk, 6, 6, 3, &made, &best, &short_of) != 0 || made != 3 ||
        best != 131071 || short_of != -1) {
        return 7;
    }
    return 0;
}
