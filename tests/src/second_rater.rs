//! A second rater: retrospective premiums balanced on a group's own Table M.
//!
//! It follows document 01, with job 1 of document 02 for guaranteed cost, job 2
//! for the order of the marks, job 4 for accidents and job 7 for the question
//! that is taken out, and serves as the outside figure against which a
//! production rater is compared. To share no mistake with such a rater it goes a
//! deliberately different way: the whole file is expanded to one string of bits,
//! every field is taken as a 128-bit whole number, all arithmetic is in `i128`
//! and `u128`, every risk has its own `Vec` of claims, which are sorted into a
//! `Vec` for each accident before anything is summed, and each step of the
//! documents is one plain function with the document's letter or words in its
//! comment. Speed and memory are of no concern.
//!
//! Money is whole dollars. The calls answer `Err(k)` where the first question
//! answered No is number `k` of the documents.

#![forbid(unsafe_code)]

/// Largest number of risks in a group, from the width of n.
pub const MOST_RISKS: usize = 255;
/// Largest number of claims of one risk, from the width of a count.
pub const MOST_CLAIMS_PER_RISK: usize = 63;
/// Length in bytes of the largest file, which is of edition 2.
pub const LARGEST_FILE: usize = 42_378;

// Widths of the fields in bits, in file order.
const EDITION_WIDTH: usize = 4;
const LOSS_LIMIT_WIDTH: usize = 20;
const STANDARD_PREMIUM_WIDTH: usize = 22;
const EXPENSE_WIDTH: usize = 20;
const CONVERSION_WIDTH: usize = 11;
const TAX_WIDTH: usize = 15;
const MARK_KIND_WIDTH: usize = 1;
const MARK_WIDTH: usize = 13;
const RISKS_WIDTH: usize = 8;
const SPARE_WIDTH: usize = 1;
const COUNT_WIDTH: usize = 6;
// In edition 2 alone: before each claim, "1 when the claim belongs to the same
// accident as the claim before it in that risk".
const JOINED_WIDTH: usize = 1;
const CLAIM_WIDTH: usize = 20;

/// The header values of a group file, loss limit to minimum mark.
#[derive(Clone, Copy, Debug, PartialEq, Eq)]
pub struct Header {
    /// Loss limit per accident in dollars; 0 means no limit.
    pub loss_limit: u32,
    /// Standard premium P in dollars.
    pub standard_premium: u32,
    /// Expense provision e per risk in dollars, taxes excluded.
    pub expense: u32,
    /// Loss conversion factor c in thousandths.
    pub conversion: u32,
    /// Tax multiplier T in ten-thousandths.
    pub tax: u32,
    /// 0: the marks are loss ratios. 1: they are entry ratios.
    pub mark_kind: u32,
    /// Maximum mark in thousandths.
    pub maximum_mark: u32,
    /// Minimum mark in thousandths.
    pub minimum_mark: u32,
}

/// What Read gives: the edition, the header, the claim count of each risk, and
/// all claims in file order with the bit of each.
#[derive(Clone, Debug, PartialEq, Eq)]
pub struct Group {
    pub edition: u32,
    pub header: Header,
    pub counts: Vec<u8>,
    pub claims: Vec<u32>,
    /// 1 where the claim belongs to the accident of the claim before it. All 0
    /// in edition 1.
    pub joined: Vec<u8>,
}

/// One risk as rated.
#[derive(Clone, Copy, Debug, PartialEq, Eq)]
pub struct Line {
    /// L, the sum of claims.
    pub total: u128,
    /// A, the limited losses.
    pub limited: u128,
    /// K, the ratable losses.
    pub ratable: u128,
    /// The billed premium in dollars.
    pub premium: u128,
}

/// What Rate gives.
#[derive(Clone, Debug, PartialEq, Eq)]
pub struct Rated {
    /// n, the number of risks.
    pub risks: u32,
    /// M, the balanced basic of the group in thousandths of a dollar.
    pub basic: i128,
    /// Q, the excess loss charge of the group in thousandths of a dollar.
    pub excess: u128,
    /// The sum of the billed premiums.
    pub billed: u128,
    /// The billed premiums in file order.
    pub premiums: Vec<u128>,
    /// The risks in file order.
    pub lines: Vec<Line>,
}

/// One row of a premium discount schedule.
#[derive(Clone, Copy, Debug, PartialEq, Eq)]
pub struct Layer {
    /// The layer's width in dollars. In the last row it is not looked at.
    pub width: u32,
    /// The layer's rate in tenths of a percent.
    pub rate: u32,
}

/// What the call for guaranteed cost gives.
#[derive(Clone, Debug, PartialEq, Eq)]
pub struct Guaranteed {
    /// Rate's results.
    pub rated: Rated,
    /// The premium discount on P in dollars.
    pub discount: u128,
    /// Guaranteed cost in dollars.
    pub guaranteed: u128,
    /// For each risk in file order, billed minus guaranteed cost.
    pub differences: Vec<i128>,
    /// The sum of the differences.
    pub difference: i128,
}

// ---------------------------------------------------------------------------
// The file as a string of bits
// ---------------------------------------------------------------------------

/// The whole file as bits, most significant bit of each byte first.
fn bits_of(file: &[u8]) -> Vec<bool> {
    let mut bits = Vec::with_capacity(file.len() * 8);
    for &byte in file {
        for value in [128u8, 64, 32, 16, 8, 4, 2, 1] {
            bits.push(byte & value != 0);
        }
    }
    bits
}

/// The bytes of a string of bits whose length is a multiple of 8.
fn bytes_of(bits: &[bool]) -> Vec<u8> {
    let mut bytes = Vec::with_capacity(bits.len() / 8);
    for eight in bits.chunks(8) {
        let mut byte = 0u8;
        for &bit in eight {
            byte = byte * 2 + u8::from(bit);
        }
        bytes.push(byte);
    }
    bytes
}

/// The field of `width` bits at `place`. Bits past the end count as 0.
fn take(bits: &[bool], place: usize, width: usize) -> u128 {
    let mut value = 0u128;
    for k in place..place + width {
        let bit = k < bits.len() && bits[k];
        value = value * 2 + u128::from(bit);
    }
    value
}

/// Adds a field of `width` bits at the end, most significant bit first.
fn put(bits: &mut Vec<bool>, value: u128, width: usize) {
    for power in (0..width).rev() {
        bits.push((value / 2u128.pow(power as u32)) % 2 == 1);
    }
}

/// The number of whole bytes that hold `bits` bits.
fn bytes_for(bits: usize) -> usize {
    bits.div_ceil(8)
}

// ---------------------------------------------------------------------------
// The fields of a file
// ---------------------------------------------------------------------------

/// The header's fields as they stand in the file.
struct Fields {
    edition: u128,
    loss_limit: u128,
    standard_premium: u128,
    expense: u128,
    conversion: u128,
    tax: u128,
    mark_kind: u128,
    maximum_mark: u128,
    minimum_mark: u128,
    risks: u128,
    spare: u128,
    /// The bit after the header.
    end: usize,
}

/// A claim as it stands in the file.
#[derive(Clone, Copy)]
struct Claim {
    /// Whether its bit says that it belongs to the same accident as the claim
    /// before it in that risk. In edition 1 there is no bit, and none does.
    joined: bool,
    dollars: u128,
}

/// A file that passed questions 1 to 9, 18 and 19.
struct Opened {
    fields: Fields,
    /// The claims of each risk.
    risks: Vec<Vec<Claim>>,
}

/// Takes the fields of the header one after another.
fn take_header(bits: &[bool]) -> Fields {
    let mut place = 0;
    let mut next = |width: usize| {
        let value = take(bits, place, width);
        place += width;
        value
    };
    let edition = next(EDITION_WIDTH);
    let loss_limit = next(LOSS_LIMIT_WIDTH);
    let standard_premium = next(STANDARD_PREMIUM_WIDTH);
    let expense = next(EXPENSE_WIDTH);
    let conversion = next(CONVERSION_WIDTH);
    let tax = next(TAX_WIDTH);
    let mark_kind = next(MARK_KIND_WIDTH);
    let maximum_mark = next(MARK_WIDTH);
    let minimum_mark = next(MARK_WIDTH);
    let risks = next(RISKS_WIDTH);
    let spare = next(SPARE_WIDTH);
    Fields {
        edition,
        loss_limit,
        standard_premium,
        expense,
        conversion,
        tax,
        mark_kind,
        maximum_mark,
        minimum_mark,
        risks,
        spare,
        end: place,
    }
}

/// Takes the claims of `n` risks from `start` on: 20 bits a claim in edition 1,
/// and one bit before them in edition 2. Gives them and the bit after the last
/// count or claim, which may lie past the end of the file.
fn take_risks(bits: &[bool], start: usize, n: u128, edition: u128) -> (Vec<Vec<Claim>>, usize) {
    let mut place = start;
    let mut risks = Vec::new();
    for _ in 0..n {
        let count = take(bits, place, COUNT_WIDTH);
        place += COUNT_WIDTH;
        let mut claims = Vec::new();
        for _ in 0..count {
            let mut joined = false;
            if edition == 2 {
                joined = take(bits, place, JOINED_WIDTH) == 1;
                place += JOINED_WIDTH;
            }
            let dollars = take(bits, place, CLAIM_WIDTH);
            place += CLAIM_WIDTH;
            claims.push(Claim { joined, dollars });
        }
        risks.push(claims);
    }
    (risks, place)
}

/// Question 2 of the edition: "Edition 2 passes question 2", and edition 1 "is
/// still read".
fn edition_passes(edition: u128) -> bool {
    edition == 1 || edition == 2
}

/// Question 19, whose No is "a risk's first claim has the bit set": whether it
/// has not. A risk without claims has no first claim.
fn first_bit_passes(bits: &[bool]) -> bool {
    match bits.first() {
        Some(&first) => !first,
        None => true,
    }
}

/// Question 18, whose No is "the minimum mark exceeds the maximum mark":
/// whether it does not. The marks are compared "as written", in thousandths
/// whatever their kind.
fn marks_pass(maximum_mark: u128, minimum_mark: u128) -> bool {
    minimum_mark <= maximum_mark
}

/// Questions 3 to 6, then 18, then 7, which a file and the values for Write
/// both must pass.
fn ask_values(
    standard_premium: u128,
    conversion: u128,
    tax: u128,
    maximum_mark: u128,
    minimum_mark: u128,
    n: u128,
) -> Result<(), u32> {
    if standard_premium < 1 {
        return Err(3);
    }
    if !(1_000..=2_000).contains(&conversion) {
        return Err(4);
    }
    if !(10_000..=20_000).contains(&tax) {
        return Err(5);
    }
    if maximum_mark > 6_000 || minimum_mark > 6_000 {
        return Err(6);
    }
    if !marks_pass(maximum_mark, minimum_mark) {
        return Err(18);
    }
    if n < 1 {
        return Err(7);
    }
    Ok(())
}

/// Questions 1 to 9, with 18 between 6 and 7, then 19, which every call on a
/// file asks first.
fn open(file: &[u8]) -> Result<Opened, u32> {
    if file.len() < 16 {
        return Err(1);
    }
    let bits = bits_of(file);
    let fields = take_header(&bits);
    if !edition_passes(fields.edition) || fields.spare != 0 {
        return Err(2);
    }
    ask_values(
        fields.standard_premium,
        fields.conversion,
        fields.tax,
        fields.maximum_mark,
        fields.minimum_mark,
        fields.risks,
    )?;
    let (risks, end) = take_risks(&bits, fields.end, fields.risks, fields.edition);
    if file.len() != bytes_for(end) {
        return Err(8);
    }
    if bits[end..].iter().any(|&bit| bit) {
        return Err(9);
    }
    for claims in &risks {
        let joined: Vec<bool> = claims.iter().map(|claim| claim.joined).collect();
        if !first_bit_passes(&joined) {
            return Err(19);
        }
    }
    Ok(Opened { fields, risks })
}

// ---------------------------------------------------------------------------
// From claims to premiums
// ---------------------------------------------------------------------------

/// Step 1, L: the sum of a risk's claims.
fn total_losses(claims: &[Claim]) -> u128 {
    claims.iter().map(|claim| claim.dollars).sum()
}

/// The accidents of a risk, each with the dollars of its claims: a claim with
/// bit 0 opens one, a claim with bit 1 belongs to the last. A first claim has
/// passed question 19.
fn accidents(claims: &[Claim]) -> Vec<Vec<u128>> {
    let mut accidents: Vec<Vec<u128>> = Vec::new();
    for claim in claims {
        if !claim.joined {
            accidents.push(Vec::new());
        }
        let last = accidents
            .last_mut()
            .expect("a first claim opens an accident");
        last.push(claim.dollars);
    }
    accidents
}

/// Step 1, A: "The limit applies to the accident's sum", so it is the sum of
/// the lesser of each accident's sum and the loss limit. Without a limit it is
/// L.
fn limited_losses(claims: &[Claim], loss_limit: u128) -> u128 {
    if loss_limit == 0 {
        return total_losses(claims);
    }
    let mut sum = 0;
    for accident in accidents(claims) {
        let dollars: u128 = accident.iter().sum();
        sum += if dollars < loss_limit {
            dollars
        } else {
            loss_limit
        };
    }
    sum
}

/// Step 2: a loss ratio mark in dollars, rounded down.
fn loss_ratio_dollars(mark: u128, standard_premium: u128) -> u128 {
    mark * standard_premium / 1_000
}

/// Step 2: an entry ratio mark in dollars, rounded down. SA is the group's sum
/// of limited losses.
fn entry_ratio_dollars(mark: u128, sum_limited: u128, n: u128) -> u128 {
    mark * sum_limited / (1_000 * n)
}

/// Step 2, LG from the maximum mark and LH from the minimum mark.
fn mark_dollars(mark: u128, fields: &Fields, sum_limited: u128) -> u128 {
    if fields.mark_kind == 0 {
        loss_ratio_dollars(mark, fields.standard_premium)
    } else {
        entry_ratio_dollars(mark, sum_limited, fields.risks)
    }
}

/// What `value` has above `mark`.
fn above(value: u128, mark: u128) -> u128 {
    value.saturating_sub(mark)
}

/// What `value` lacks below `mark`.
fn lack(value: u128, mark: u128) -> u128 {
    mark.saturating_sub(value)
}

/// Step 3, SX: the sum of what each A has above LG.
fn sum_above_maximum(limited: &[u128], maximum: u128) -> u128 {
    limited.iter().map(|&a| above(a, maximum)).sum()
}

/// Step 3, SS: the sum of what each A lacks below LH.
fn sum_below_minimum(limited: &[u128], minimum: u128) -> u128 {
    limited.iter().map(|&a| lack(a, minimum)).sum()
}

/// Step 3, K: a risk's A, raised to LH if below and cut to LG if above.
fn ratable_losses(limited: u128, minimum: u128, maximum: u128) -> u128 {
    if limited < minimum {
        minimum
    } else if limited > maximum {
        maximum
    } else {
        limited
    }
}

/// Step 4, M: the balanced basic of the group in thousandths of a dollar,
/// M = 1,000 × n × e − (c − 1,000) × SL + c × (SX − SS).
fn balanced_basic(
    n: u128,
    expense: u128,
    conversion: u128,
    sum_total: u128,
    sum_above: u128,
    sum_below: u128,
) -> i128 {
    let n = n as i128;
    let e = expense as i128;
    let c = conversion as i128;
    let sl = sum_total as i128;
    let sx = sum_above as i128;
    let ss = sum_below as i128;
    1_000 * n * e - (c - 1_000) * sl + c * (sx - ss)
}

/// Step 5, Q: the excess loss charge of the group in thousandths of a dollar,
/// Q = c × (SL − SA).
fn excess_loss_charge(conversion: u128, sum_total: u128, sum_limited: u128) -> u128 {
    conversion * (sum_total - sum_limited)
}

/// The whole number nearest to `numerator` ÷ `denominator`, an exact half
/// upward.
fn nearest(numerator: u128, denominator: u128) -> u128 {
    let whole = numerator / denominator;
    let rest = numerator % denominator;
    if 2 * rest >= denominator {
        whole + 1
    } else {
        whole
    }
}

/// Step 6: the billed premium, T × (M + Q + n × c × K) ÷ (10,000,000 × n) to
/// the nearest dollar. M has passed question 12.
fn billed_premium(
    tax: u128,
    basic: u128,
    excess: u128,
    n: u128,
    conversion: u128,
    ratable: u128,
) -> u128 {
    nearest(
        tax * (basic + excess + n * conversion * ratable),
        10_000_000 * n,
    )
}

// ---------------------------------------------------------------------------
// Guaranteed cost beside the retro premium
// ---------------------------------------------------------------------------

/// Question 16, whose No is "a rate above 1,000": whether none of the four
/// rates is.
fn rates_pass(schedule: &[Layer; 4]) -> bool {
    schedule.iter().all(|layer| layer.rate <= 1_000)
}

/// Question 17, whose No is "one of the first three widths is 0": whether none
/// of them is.
fn widths_pass(schedule: &[Layer; 4]) -> bool {
    schedule[..3].iter().all(|layer| layer.width != 0)
}

/// The dollar at which the layer in row `k` (0 to 3) begins: the widths of the
/// layers before it added up.
fn lower_end(schedule: &[Layer; 4], k: usize) -> u128 {
    schedule[..k]
        .iter()
        .map(|layer| u128::from(layer.width))
        .sum()
}

/// The dollar at which the layer in row `k` (0 to 3) ends: "the first three
/// have a width in whole dollars of 32 bits and the last has no end".
fn upper_end(schedule: &[Layer; 4], k: usize) -> Option<u128> {
    if k == 3 {
        None
    } else {
        Some(lower_end(schedule, k) + u128::from(schedule[k].width))
    }
}

/// The part of P in the layer of row `k`: what of P lies below the layer's
/// upper end less what of P lies below its lower end.
fn part_in_layer(schedule: &[Layer; 4], k: usize, standard_premium: u128) -> u128 {
    let below_lower = standard_premium.min(lower_end(schedule, k));
    let below_upper = match upper_end(schedule, k) {
        Some(end) => standard_premium.min(end),
        None => standard_premium,
    };
    below_upper - below_lower
}

/// The discount on P: "the sum over layers, to the nearest dollar, half
/// upward". The sum is in thousandths of a dollar and rounded once.
fn premium_discount(schedule: &[Layer; 4], standard_premium: u128) -> u128 {
    let mut thousandths = 0;
    for k in 0..4 {
        let part = part_in_layer(schedule, k, standard_premium);
        thousandths += part * u128::from(schedule[k].rate);
    }
    nearest(thousandths, 1_000)
}

/// Guaranteed cost: "standard premium less discount". The rates have passed
/// question 16, so the discount is at most P.
fn guaranteed_cost(standard_premium: u128, discount: u128) -> u128 {
    standard_premium - discount
}

/// A risk's difference: "billed minus guaranteed cost, which may be negative".
fn billed_less_guaranteed(billed: u128, guaranteed: u128) -> i128 {
    billed as i128 - guaranteed as i128
}

// ---------------------------------------------------------------------------
// The calls
// ---------------------------------------------------------------------------

/// Rate: questions 1 to 10, 12 and 13, with 18 between 6 and 7 and 19 between 9
/// and 10. 11 is not asked: "rounding down keeps their order", so that LH is at
/// most LG wherever the marks have passed 18. `room` is the output buffer's
/// length in bytes; each premium needs four.
pub fn rate(file: &[u8], room: usize) -> Result<Rated, u32> {
    let Opened { fields, risks } = open(file)?;
    let n = fields.risks;

    let totals: Vec<u128> = risks.iter().map(|claims| total_losses(claims)).collect();
    let limited: Vec<u128> = risks
        .iter()
        .map(|claims| limited_losses(claims, fields.loss_limit))
        .collect();
    let sum_total: u128 = totals.iter().sum();
    let sum_limited: u128 = limited.iter().sum();
    if sum_limited < 1 {
        return Err(10);
    }

    let maximum = mark_dollars(fields.maximum_mark, &fields, sum_limited);
    let minimum = mark_dollars(fields.minimum_mark, &fields, sum_limited);
    let sum_above = sum_above_maximum(&limited, maximum);
    let sum_below = sum_below_minimum(&limited, minimum);
    let basic = balanced_basic(
        n,
        fields.expense,
        fields.conversion,
        sum_total,
        sum_above,
        sum_below,
    );
    if basic < 0 {
        return Err(12);
    }
    if (room as u128) < 4 * n {
        return Err(13);
    }

    let excess = excess_loss_charge(fields.conversion, sum_total, sum_limited);
    let mut lines = Vec::new();
    for (&total, &limited) in totals.iter().zip(&limited) {
        let ratable = ratable_losses(limited, minimum, maximum);
        let premium = billed_premium(
            fields.tax,
            basic as u128,
            excess,
            n,
            fields.conversion,
            ratable,
        );
        lines.push(Line {
            total,
            limited,
            ratable,
            premium,
        });
    }
    let premiums: Vec<u128> = lines.iter().map(|line| line.premium).collect();
    Ok(Rated {
        risks: n as u32,
        basic,
        excess,
        billed: premiums.iter().sum(),
        premiums,
        lines,
    })
}

/// Step 2 of a file that passes questions 1 to 9, 18 and 19: LG and LH. 10 is
/// not asked, so that SA may be 0.
pub fn marks_in_dollars(file: &[u8]) -> Result<(u128, u128), u32> {
    let Opened { fields, risks } = open(file)?;
    let limited = risks
        .iter()
        .map(|claims| limited_losses(claims, fields.loss_limit));
    let sum_limited = limited.sum();
    let maximum = mark_dollars(fields.maximum_mark, &fields, sum_limited);
    let minimum = mark_dollars(fields.minimum_mark, &fields, sum_limited);
    Ok((maximum, minimum))
}

/// Guaranteed cost beside the retro premium: Rate's questions, where 13 is of
/// both buffers, then 16, then 17. `premiums_room` is the length of the
/// premiums buffer in bytes, four for each risk; `differences_room` is that of
/// the differences buffer in entries, one for each risk.
pub fn guaranteed(
    file: &[u8],
    schedule: &[Layer; 4],
    premiums_room: usize,
    differences_room: usize,
) -> Result<Guaranteed, u32> {
    let rated = rate(file, premiums_room)?;
    if (differences_room as u128) < u128::from(rated.risks) {
        return Err(13);
    }
    if !rates_pass(schedule) {
        return Err(16);
    }
    if !widths_pass(schedule) {
        return Err(17);
    }

    let Opened { fields, .. } = open(file)?;
    let discount = premium_discount(schedule, fields.standard_premium);
    let guaranteed = guaranteed_cost(fields.standard_premium, discount);
    let mut differences = Vec::new();
    let mut difference = 0;
    for &premium in &rated.premiums {
        let one = billed_less_guaranteed(premium, guaranteed);
        differences.push(one);
        difference += one;
    }
    Ok(Guaranteed {
        rated,
        discount,
        guaranteed,
        differences,
        difference,
    })
}

/// Table: questions 1 to 10, with 18 between 6 and 7 and 19 between 9 and 10,
/// then 14. Gives the charge and the savings at the entry ratio `r` in
/// hundredths, both in thousandths.
pub fn table(file: &[u8], r: u32) -> Result<(u128, u128), u32> {
    let Opened { fields, risks } = open(file)?;
    let n = fields.risks;
    let limited: Vec<u128> = risks
        .iter()
        .map(|claims| limited_losses(claims, fields.loss_limit))
        .collect();
    let sum_limited: u128 = limited.iter().sum();
    if sum_limited < 1 {
        return Err(10);
    }
    if r > 600 {
        return Err(14);
    }

    let entry = u128::from(r) * sum_limited;
    let mut sum_above = 0;
    let mut sum_below = 0;
    for &a in &limited {
        sum_above += above(100 * n * a, entry);
        sum_below += lack(100 * n * a, entry);
    }
    let denominator = 100 * n * sum_limited;
    let charge = nearest(1_000 * sum_above, denominator);
    let savings = nearest(1_000 * sum_below, denominator);
    Ok((charge, savings))
}

/// Read: questions 1 to 9, with 18 between 6 and 7, then 19, then 13. The rooms
/// are the lengths of the buffers for the claim counts, for the claims and for
/// the bits, in entries; edition 1 too has as many bits as claims.
pub fn read(
    file: &[u8],
    counts_room: usize,
    claims_room: usize,
    joined_room: usize,
) -> Result<Group, u32> {
    let Opened { fields, risks } = open(file)?;
    let mut counts = Vec::new();
    let mut claims = Vec::new();
    let mut joined = Vec::new();
    for risk in &risks {
        counts.push(risk.len() as u8);
        for claim in risk {
            claims.push(claim.dollars as u32);
            joined.push(u8::from(claim.joined));
        }
    }
    if counts_room < counts.len() || claims_room < claims.len() || joined_room < joined.len() {
        return Err(13);
    }
    Ok(Group {
        edition: fields.edition as u32,
        header: Header {
            loss_limit: fields.loss_limit as u32,
            standard_premium: fields.standard_premium as u32,
            expense: fields.expense as u32,
            conversion: fields.conversion as u32,
            tax: fields.tax as u32,
            mark_kind: fields.mark_kind as u32,
            maximum_mark: fields.maximum_mark as u32,
            minimum_mark: fields.minimum_mark as u32,
        },
        counts,
        claims,
        joined,
    })
}

/// Whether `value` can be written in `width` bits.
fn fits(value: u128, width: usize) -> bool {
    value < 2u128.pow(width as u32)
}

/// Question 15: n, counts, claims and header values fit their widths, and the
/// counts add to the number of claims.
fn values_fit(header: &Header, counts: &[u8], claims: &[u32]) -> bool {
    let header_fits = fits(header.loss_limit.into(), LOSS_LIMIT_WIDTH)
        && fits(header.standard_premium.into(), STANDARD_PREMIUM_WIDTH)
        && fits(header.expense.into(), EXPENSE_WIDTH)
        && fits(header.conversion.into(), CONVERSION_WIDTH)
        && fits(header.tax.into(), TAX_WIDTH)
        && fits(header.mark_kind.into(), MARK_KIND_WIDTH)
        && fits(header.maximum_mark.into(), MARK_WIDTH)
        && fits(header.minimum_mark.into(), MARK_WIDTH);
    let n_fits = fits(counts.len() as u128, RISKS_WIDTH);
    let counts_fit = counts.iter().all(|&k| fits(k.into(), COUNT_WIDTH));
    let claims_fit = claims.iter().all(|&k| fits(k.into(), CLAIM_WIDTH));
    let counted: u128 = counts.iter().map(|&k| u128::from(k)).sum();
    header_fits && n_fits && counts_fit && claims_fit && counted == claims.len() as u128
}

/// Question 15 of the bits: "a list not as long as the claims, an entry above 1,
/// or a 1 given with edition 1 is a No to 15".
fn bits_fit(edition: u32, claims: &[u32], joined: &[u8]) -> bool {
    let as_long = joined.len() == claims.len();
    let none_above_1 = joined.iter().all(|&bit| fits(bit.into(), JOINED_WIDTH));
    let none_in_edition_1 = edition != 1 || !joined.contains(&1);
    as_long && none_above_1 && none_in_edition_1
}

/// Write: question 2 of the edition, then 3 to 6, 18, 7, 15, 19 and 13 in this
/// order. Gives the file's bytes; `room` is the output buffer's length in bytes.
pub fn write(
    edition: u32,
    header: &Header,
    counts: &[u8],
    claims: &[u32],
    joined: &[u8],
    room: usize,
) -> Result<Vec<u8>, u32> {
    if !edition_passes(edition.into()) {
        return Err(2);
    }
    ask_values(
        header.standard_premium.into(),
        header.conversion.into(),
        header.tax.into(),
        header.maximum_mark.into(),
        header.minimum_mark.into(),
        counts.len() as u128,
    )?;
    if !values_fit(header, counts, claims) || !bits_fit(edition, claims, joined) {
        return Err(15);
    }
    let mut first = 0;
    for &count in counts {
        let after = first + usize::from(count);
        let of_risk: Vec<bool> = joined[first..after].iter().map(|&bit| bit == 1).collect();
        if !first_bit_passes(&of_risk) {
            return Err(19);
        }
        first = after;
    }

    let mut bits = Vec::new();
    put(&mut bits, edition.into(), EDITION_WIDTH);
    put(&mut bits, header.loss_limit.into(), LOSS_LIMIT_WIDTH);
    put(
        &mut bits,
        header.standard_premium.into(),
        STANDARD_PREMIUM_WIDTH,
    );
    put(&mut bits, header.expense.into(), EXPENSE_WIDTH);
    put(&mut bits, header.conversion.into(), CONVERSION_WIDTH);
    put(&mut bits, header.tax.into(), TAX_WIDTH);
    put(&mut bits, header.mark_kind.into(), MARK_KIND_WIDTH);
    put(&mut bits, header.maximum_mark.into(), MARK_WIDTH);
    put(&mut bits, header.minimum_mark.into(), MARK_WIDTH);
    put(&mut bits, counts.len() as u128, RISKS_WIDTH);
    put(&mut bits, 0, SPARE_WIDTH);
    let mut first = 0;
    for &count in counts {
        put(&mut bits, count.into(), COUNT_WIDTH);
        let after = first + usize::from(count);
        for k in first..after {
            if edition == 2 {
                put(&mut bits, joined[k].into(), JOINED_WIDTH);
            }
            put(&mut bits, claims[k].into(), CLAIM_WIDTH);
        }
        first = after;
    }
    while bits.len() % 8 != 0 {
        bits.push(false);
    }

    let file = bytes_of(&bits);
    if room < file.len() {
        return Err(13);
    }
    Ok(file)
}

// ---------------------------------------------------------------------------
// What the program `retro` prints
// ---------------------------------------------------------------------------

/// The lines for a rated group.
pub fn print_rated(r: &Rated) -> String {
    let mut text = format!("group {} {} {} {}\n", r.risks, r.basic, r.excess, r.billed);
    for (k, line) in r.lines.iter().enumerate() {
        text.push_str(&format!(
            "{} {} {} {} {}\n",
            k + 1,
            line.total,
            line.limited,
            line.ratable,
            line.premium
        ));
    }
    text
}

/// The line for a refused file.
pub fn print_refused(k: u32) -> String {
    format!("refused {k}\n")
}
