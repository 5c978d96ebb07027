/*
 * retro.h: retrospective premiums balanced on a group's own Table M.
 *
 * A group file holds one size group: 1 to 255 risks with the same standard premium, each with 0 to
 * 63 claims. There are two editions of it. In edition 2 each claim has a bit before its dollars: 1
 * where it belongs to the same accident as the claim before it in that risk, else 0. The loss limit
 * applies to an accident's sum. In edition 1 a claim has no bit and is its own accident. Every call
 * on a file takes either edition. The calls rate such a file (retro_rate), rate it beside
 * guaranteed cost (retro_guaranteed), find the basic premium of a plan that is sold on premiums in
 * place of marks (retro_plan), give the group's charge and savings at an entry ratio (retro_table),
 * take a file apart (retro_read) and make one (retro_write).
 *
 * Before there are losses there is no file: for quotes retro_charge gives a charge of the 1965
 * Table M, which is the same for every group.
 *
 * Building
 *
 * The header is C11 and C++11; the library is for x86-64 Linux and needs the C library alone.
 *
 *     (cd crates/retro_c && rt lib)
 *     cc -Iinclude billing.c crates/retro_c/out/libretro_c.a -o billing
 *
 * Answers
 *
 * Each call but retro_read answers 0 when it has a result, else the number of the first question that
 * is answered No. retro_read answers a struct, whose first member, refused, is that 0 or that number.
 * No refusal has another cause. After a refusal every buffer and every number that was lent holds what
 * it held before the call.
 *
 *      1  Has the file at least 16 bytes?
 *      2  Is the edition 1 or 2, and the spare bit 0?
 *      3  Is the standard premium at least 1?
 *      4  Is the loss conversion factor from 1,000 to 2,000 thousandths?
 *      5  Is the tax multiplier from 10,000 to 20,000 ten-thousandths?
 *      6  Are both marks at most 6,000 thousandths?
 *      7  Is the number of risks at least 1?
 *      8  Does the file end with the byte that holds the last claim or count?
 *      9  Are the bits that fill its last byte zero?
 *     10  Is the group's sum of limited losses at least 1?
 *     11  (not asked any more: no call answers it, and the number is kept free)
 *     12  Is the balanced basic premium at least 0?
 *     13  Is each lent buffer long enough?
 *     14  Is the entry ratio at most 600 hundredths?
 *     15  Do the number of risks, the counts, the claims and the header values fit their widths in
 *         the file, and do the counts add to the number of claims? Are there exactly as many bits
 *         as claims, none above 1, and in edition 1 none above 0?
 *     16  Are all four rates of the schedule at most 1,000 tenths of a percent?
 *     17  Are the first three widths of the schedule at least 1?
 *     18  Is the minimum mark at most the maximum mark, both as written in thousandths?
 *     19  Does the first claim of each risk open an accident: is its bit 0?
 *     20  Is the column from 36 to 52 hundredths?
 *     21  Is the entry ratio at most 500 hundredths?
 *     22  Is the minimum premium at most the maximum premium?
 *     23  Does a basic premium from 0 to 1,048,575 dollars a risk reach the taxed expenses and losses?
 *
 *     retro_rate        asks 1 to 6, 18, 7 to 9, 19, 10, 12, 13
 *     retro_guaranteed  asks 1 to 6, 18, 7 to 9, 19, 10, 12, 13, then 16, then 17
 *     retro_plan        asks 1 to 6, 18, 7 to 9, 19, 10, then 22, then 23
 *     retro_table       asks 1 to 6, 18, 7 to 9, 19, 10, then 14
 *     retro_read        asks 1 to 6, 18, 7 to 9, 19, then 13
 *     retro_write       asks 2 of the edition, 3 to 6, 18, 7, then 15, then 19, then 13
 *     retro_charge      asks 20, then 21
 *
 * 11 asked after 10 whether the minimum mark in whole dollars is at most the maximum mark in whole
 * dollars. Since 18 compares the marks as written, no file could be refused with 11 any more: marks
 * of either kind that are in order as written are in order in whole dollars, as rounding down keeps
 * their order. So it is gone, and no file has another result by this. No call answers 11, and no
 * later question will have that number.
 *
 * Memory
 *
 * The caller owns all memory. A call allocates nothing and keeps no pointer after it returns.
 *
 * A slice is a pointer and a count of elements. Its pointer may be null where the count is 0. Every
 * other pointer, also that to a number, must be aligned for its type and point to as many elements
 * as the count says, readable ones, and writable ones where it is not to const. What a call writes must
 * not overlap with anything else that the same call is given. These two, and for retro_charge how the
 * thread rounds, are not checked. Bytes, counts, claims, bits and values of any kind are answered.
 *
 * A call needs less than 16 KiB of stack.
 *
 * Threads
 *
 * The calls have no state. Any number of threads may call at the same time, also on the same file,
 * as long as no thread writes what another thread's call is given.
 */
#ifndef RETRO_H
#define RETRO_H

#include <stddef.h>
#include <stdint.h>

#ifdef __cplusplus
extern "C" {
#endif

/* The most risks and the most claims of a group, and the length in bytes of the largest file, which
   is of edition 2. */
#define RETRO_MOST_RISKS 255
#define RETRO_MOST_CLAIMS 16065
#define RETRO_LARGEST_FILE 42378

/* The header values of a group file, in file order, each with what retro_write takes. */
typedef struct retro_header {
    uint32_t loss_limit;       /* dollars per accident, 0 for no limit; at most 1,048,575 */
    uint32_t standard_premium; /* dollars; 1 to 4,194,303 */
    uint32_t expense;          /* expense provision per risk without taxes, dollars; to 1,048,575 */
    uint32_t conversion;       /* loss conversion factor, thousandths; 1,000 to 2,000 */
    uint32_t tax;              /* tax multiplier, ten-thousandths; 10,000 to 20,000 */
    uint32_t mark_kind;        /* 0: the marks are loss ratios, to the standard premium;
                                  1: they are entry ratios, to the group's mean limited losses */
    uint32_t maximum_mark;     /* thousandths; at most 6,000 */
    uint32_t minimum_mark;     /* thousandths; at most the maximum mark */
} retro_header;

/* A layer of a premium discount schedule. */
typedef struct retro_layer {
    uint32_t width; /* whole dollars; at least 1 in the first three, not looked at in the last */
    uint32_t rate;  /* tenths of a percent; at most 1,000 */
} retro_layer;

/* A premium discount schedule: one layer above the other, from the first dollar on. The last has no
   end. */
typedef struct retro_schedule {
    retro_layer layers[4];
} retro_schedule;

/* What retro_read answers. Where `refused` is not 0, all else is 0. */
typedef struct retro_group {
    uint32_t refused; /* 0, or the number of the first question answered No */
    uint32_t risks;   /* the number of risks */
    uint32_t loss_limit;
    uint32_t standard_premium;
    uint32_t expense;
    uint32_t conversion;
    uint32_t tax;
    uint32_t mark_kind;
    uint32_t maximum_mark;
    uint32_t minimum_mark;
    uint32_t edition; /* 1 or 2 */
} retro_group;

/*
 * Rates a group file.
 *
 *     premiums  gets the billed premium of each risk in file order, in whole dollars, to the nearest, an
 *               exact half upward, as four bytes with the most significant first. Four bytes for each
 *               risk are enough, so 4 * RETRO_MOST_RISKS always are. Later bytes keep their contents.
 *     risks     gets the number of risks.
 *     basic     gets the balanced basic premium of the whole group in thousandths of a dollar.
 *     excess    gets the excess loss charge of the whole group in thousandths of a dollar.
 *     billed    gets the sum of the billed premiums in dollars.
 *
 * Premium k, counted from 0, is
 *
 *     (uint32_t)premiums[4 * k] << 24 | (uint32_t)premiums[4 * k + 1] << 16
 *         | (uint32_t)premiums[4 * k + 2] << 8 | (uint32_t)premiums[4 * k + 3]
 */
uint32_t retro_rate(const uint8_t *file, size_t file_len, uint8_t *premiums, size_t premiums_len,
                    uint32_t *risks, uint64_t *basic, uint64_t *excess, uint64_t *billed);

/*
 * Rates a group file and sets each premium beside guaranteed cost, to show what the plan saved or
 * cost. Guaranteed cost is the standard premium less the premium discount of a schedule.
 *
 *     schedule     has the four layers. Each of the first three takes at most its width of what the
 *                  layers before it left of the standard premium; the last takes all that is left.
 *     premiums     gets the billed premium of each risk in file order, in whole dollars, as four
 *                  bytes with the most significant first. Four bytes for each risk are enough, so
 *                  4 * RETRO_MOST_RISKS always are. Later bytes keep their contents.
 *     differences  gets for each risk in file order its billed premium less guaranteed cost, in
 *                  whole dollars: below 0 where the plan saved, above 0 where it cost. Each is from
 *                  -4,194,303 to below 2^31. differences_len counts numbers, not bytes. One entry
 *                  for each risk is enough, so RETRO_MOST_RISKS always are. Later entries keep
 *                  their contents.
 *     risks        gets the number of risks.
 *     basic        gets the balanced basic premium of the whole group in thousandths of a dollar.
 *     excess       gets the excess loss charge of the whole group in thousandths of a dollar.
 *     billed       gets the sum of the billed premiums in dollars.
 *     discount     gets the discount on the standard premium in whole dollars: each layer's part
 *                  times its rate, added over the layers and then rounded once to the nearest
 *                  dollar, an exact half upward. It is at most the standard premium.
 *     guaranteed   gets guaranteed cost in whole dollars, the same for each risk: the standard
 *                  premium less the discount, 0 to 4,194,303.
 *     difference   gets the sum of the differences in dollars, which is billed less risks times
 *                  guaranteed. Without its sign it is below 550,000,000,000.
 *
 * The premiums, risks, basic, excess and billed are those of retro_rate for the same file. With
 * layers of 5,000 at 0, 95,000 at 109 and 400,000 at 126 and the rest at 144, a standard premium of
 * 125,000 has the discount 13,505 and the guaranteed cost 111,495.
 *
 * The refusals of retro_rate come first, with 13 where either buffer is too short; then 16 where
 * one of the four rates is above 1,000; then 17 where one of the first three widths is 0. After any
 * of them both buffers and all seven numbers hold what they held: with 16 and 17, too, no premium
 * has been stored.
 */
uint32_t retro_guaranteed(const uint8_t *file, size_t file_len, retro_schedule schedule,
                          uint8_t *premiums, size_t premiums_len, int64_t *differences,
                          size_t differences_len, uint32_t *risks, uint64_t *basic,
                          uint64_t *excess, uint64_t *billed, uint32_t *discount,
                          uint32_t *guaranteed, int64_t *difference);

/*
 * Finds the basic premium of a plan that is sold on premiums: the office chooses the maximum and the
 * minimum premium of a risk, and the basic premium is the least with which the premiums of the group
 * total at least its taxed expenses and losses.
 *
 *     maximum   is the maximum premium G in whole dollars, taxes included; any number.
 *     minimum   is the minimum premium H in whole dollars, taxes included; at most G.
 *     trials    is the number of trials that may be made; any number.
 *     made      gets the number of trials made: trials, or 20 if that is less.
 *     best      gets the best basic premium yet that reaches the total, in whole dollars a risk, 0 to
 *               1,048,575.
 *     short_of  gets the largest basic premium known to fall short of it, in whole dollars a risk, or -1
 *               if none is.
 *
 * For a basic premium of B whole dollars the premium of a risk is, in dollars and not rounded,
 *
 *     T * (1,000 * n * B + Q + n * c * A) / (10,000,000 * n)
 *
 * and if that is below H it is H, and if above G it is G: the bounds hold the taxed premium. Here n
 * is the number of risks, T the tax multiplier in ten-thousandths and c the loss conversion factor in
 * thousandths. A is the risk's limited losses: the sum of its accidents, each cut to the loss limit where there
 * is one. Q is the excess loss charge of the group in thousandths of a dollar, c times all that the
 * limit cuts off. The sum of the premiums over all risks never falls as B grows. The total that it
 * must reach is the taxed expenses and losses, T * (n * e + SL) / 10,000 dollars, where e is the
 * expense provision of a risk and SL the sum of all claims, not limited. B reaches the total if the
 * sum of its premiums is at least the total, and falls short of it if not; nothing is rounded.
 *
 * Whether 1,048,575 reaches the total is looked at first. That is no trial, so with trials 0 best is
 * 1,048,575 and short_of -1. Each trial is made at the middle of the two, (best + short_of) / 2,
 * which is a whole number, and the middle becomes best if it reaches the total and short_of if not.
 * So after k trials best less short_of is 2^(20 - k). After twenty it is 1, the plan is finished, and
 * no more are made: twenty trials always finish. In a finished plan best is the least basic premium
 * of all, from 0 on, that reaches the total; and where best is above 0, the sum of its premiums is
 * over the total by at most n * T / 10,000 dollars. Unlike those of retro_rate before they are
 * rounded, the premiums of a plan need not come to the total exactly.
 *
 * Where best is 0 the sum may be over the total by far more, as where premiums are held at a minimum
 * above what is owed, and the answer, 0 and -1, is the same as where 0 reaches the total exactly; and
 * so it may be in a plan that is not finished. Whoever must know adds the premiums up, as
 * tests/c/plan.c does: no call gives their sum.
 *
 * The marks of the file are asked by 6 and 18, and its standard premium by 3; they are not used
 * further, so that a change of them that passes these changes no plan.
 *
 * Two risks without limit, with losses of 0 and 20, have e 5, c 1,000 and T 10,000: their premiums
 * are B and B + 20, and the total is 30. With G 4,294,967,295 and H 0, twenty trials give best 5 and
 * short_of 4; with G 18 and H 0, 12 and 11; with G 18 and H 12, 0 and -1, of which the premiums come
 * to 30; with G 60 and H 50, 0 and -1 too, of which they come to 100. G 14 is refused with 23.
 *
 * The refusals of the file come first, 1 to 10 with 18 after 6 and 19 after 9; then 22 where H is
 * above G; then 23 where no basic premium from 0 to 1,048,575 reaches the total, whatever the trials.
 * No other number is answered: 12 and 13 are not asked. After any of them, made, best and short_of
 * hold what they held.
 */
uint32_t retro_plan(const uint8_t *file, size_t file_len, uint32_t maximum, uint32_t minimum,
                    uint32_t trials, uint32_t *made, uint32_t *best, int32_t *short_of);

/*
 * Gives the charge and the savings of a group's own Table M at an entry ratio.
 *
 *     entry_ratio  is in hundredths, 0 to 600.
 *     charge       gets the charge in thousandths: what the risks' limited losses have above that
 *                  ratio of their mean, as a part of all limited losses.
 *     savings      gets the savings in thousandths: what they lack below it.
 *
 * Both are to the nearest thousandth, an exact half upward.
 */
uint32_t retro_table(const uint8_t *file, size_t file_len, uint32_t entry_ratio, uint32_t *charge,
                     uint32_t *savings);

/*
 * Takes a group file apart. The answer has the number of risks, the header values and the edition.
 *
 *     counts  gets the number of claims of each risk in file order.
 *     claims  gets all claims in dollars: those of the first risk, then those of the second, and so
 *             on. claims_len counts numbers, not bytes.
 *     joined  gets the bit of each claim in the same order: 1 where it belongs to the same accident
 *             as the claim before it in that risk, else 0. For a file of edition 1 all are 0.
 *
 * As many counts as there are risks and as many claims and bits as there are claims are enough, the
 * bits in edition 1 too; so RETRO_MOST_RISKS counts, RETRO_MOST_CLAIMS claims and RETRO_MOST_CLAIMS
 * bits always are. Later entries keep their contents.
 */
retro_group retro_read(const uint8_t *file, size_t file_len, uint8_t *counts, size_t counts_len,
                       uint32_t *claims, size_t claims_len, uint8_t *joined, size_t joined_len);

/*
 * Makes a group file, of which retro_read gives the same values back.
 *
 *     edition  is 1 or 2. The spare bit is written as 0.
 *     header   has the header values.
 *     counts   has the number of claims of each risk, 0 to 63. There are as many risks as counts, 1
 *              to 255.
 *     claims   has all claims in dollars in the order of retro_read, each at most 1,048,575.
 *     joined   has the bit of each claim, as many as there are claims: 1 where it belongs to the
 *              same accident as the claim before it in that risk, else 0. The first of a risk is 0.
 *              In edition 1, whose claims have no bits, all are 0.
 *     file     gets the file's bytes. RETRO_LARGEST_FILE bytes are always enough. Bytes after the
 *              file keep their contents.
 *     length   gets the number of bytes of the file.
 *
 * The file may yet be refused with 10 or 12 by retro_rate and retro_guaranteed, with 10 by
 * retro_table, and by retro_plan with 10, or with 23 where the maximum premium is too low.
 */
uint32_t retro_write(uint32_t edition, retro_header header, const uint8_t *counts,
                     size_t counts_len, const uint32_t *claims, size_t claims_len,
                     const uint8_t *joined, size_t joined_len, uint8_t *file, size_t file_len,
                     size_t *length);

/*
 * Gives a charge of the 1965 Table M: what a risk's losses are expected to have above an entry
 * ratio of its expected losses, as a part of these. It takes no file and no buffer.
 *
 *     column       is the premium group in hundredths, 36 to 52. A premium group is a column of the
 *                  table and is named by its charge at the entry ratio 1.00: 36 is the column .36,
 *                  whose charge there is 0.360.
 *     entry_ratio  is in hundredths, 0 to 500: 150 is the entry ratio 1.50.
 *     charge       gets the unrounded charge, above 0 and at most 1.
 *     thousandths  gets the charge in whole thousandths, 27 to 1,000.
 *
 * Each column has seven coefficients, b2 to b8, which the library holds in whole ten-millionths as
 * they were printed in 1965. Each is divided by 10,000,000, and r is entry_ratio divided by 100.
 * The charge is then
 *
 *     1 / (1 + r + r * r * (b2 + r * (b3 + r * (b4 + r * (b5 + r * (b6 + r * (b7 + r * b8)))))))
 *
 * in doubles in the order in which C has it, (1 + r) + ((r * r) * (..)). Each quotient, product and
 * sum is rounded to the nearest double by itself, and no product is fused with a sum. So the double
 * is the same bit for bit on every machine with IEEE doubles. The calling thread must round to
 * nearest, as it does where fesetround or the like was not called; with another rounding the last
 * bits differ. The charge lies within a millionth of the exact quotient.
 *
 * The thousandths are made of that double: the greatest whole number from 1 to 1,000 that is at
 * most (charge + 0.0005) * 1000, sum and product in doubles too, or 0 if none is; and where that is
 * below 1 - r in thousandths, which is 1,000 - 10 * entry_ratio, they are 1 - r. At the entry ratio
 * 100 they are ten times the column; at 0 they are 1,000. In none of these columns does the 0 or
 * the 1 - r decide: the thousandths are 27 at the least.
 *
 * Column 44 at the entry ratio 200 has 232 thousandths, and its double is 0.23242048174815902 by
 * "%.17g" of printf.
 *
 * A column below 36 or above 52 is refused with 20, whatever the entry ratio; then an entry ratio
 * above 500 with 21. After either, charge and thousandths hold what they held. Of charge it is proved
 * that it is the same number, infinity or signed zero, or still a NaN; the proofs know one NaN, so that
 * its bits stay is tested.
 */
uint32_t retro_charge(uint32_t column, uint32_t entry_ratio, double *charge, uint32_t *thousandths);

#ifdef __cplusplus
}
#endif

#endif
