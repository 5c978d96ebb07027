//! Plans sold on premiums a second time: job 6 of document 02, on the group file
//! and the losses of document 01.
//!
//! It serves as the outside figure against which a production call is compared.
//! To share no mistake with such a call it goes a deliberately different way: the
//! file is read by the second rater, an accident is summed from its last claim to
//! its first, every sum is a whole number of 128 bits from which no common factor
//! is taken out, and each premium is computed anew for each basic premium that is
//! looked at. Beside the trials stand two ways to the least basic premium without
//! any: one looks at every dollar from 0 on, the other goes through the stretches
//! of dollars in which no premium meets a bound and divides. From the least one
//! the result after any number of trials follows by its binary digits. Speed and
//! memory are of no concern.
//!
//! Money is whole dollars. The call answers `Err(k)` where the first question
//! answered No is number `k` of the documents.

#![forbid(unsafe_code)]

use crate::second_rater;

/// "the least B from 0 to 1,048,575".
pub const LARGEST_BASIC: u32 = 1_048_575;
/// "Twenty trials always finish."
pub const TRIALS_THAT_FINISH: u32 = 20;

/// What the call gives.
#[derive(Clone, Copy, Debug, PartialEq, Eq)]
pub struct Plan {
    /// "the trials made".
    pub made: u32,
    /// "the best B yet that reaches the total".
    pub best: u32,
    /// "the largest B known to fall short, −1 if none".
    pub short_of: i32,
}

/// What a plan is made from: the numbers of a file that passed questions 1 to 10
/// with 18 and 19 in their places.
#[derive(Clone, Debug, PartialEq, Eq)]
pub struct Books {
    /// n, the number of risks.
    pub risks: u128,
    /// T, the tax multiplier in ten-thousandths.
    pub tax: u128,
    /// c, the loss conversion factor in thousandths.
    pub conversion: u128,
    /// e, the expense provision per risk.
    pub expense: u128,
    /// SL, the group's sum of claims.
    pub sum_total: u128,
    /// Q, the excess loss charge of the group in thousandths of a dollar.
    pub excess: u128,
    /// A of each risk in file order.
    pub limited: Vec<u128>,
}

/// The call: the questions on the file, then "22 H above G, then 23 no B in the
/// range reaches the total". `maximum` is G and `minimum` is H.
pub fn plan(file: &[u8], maximum: u32, minimum: u32, trials: u32) -> Result<Plan, u32> {
    Books::of(file)?.plan(maximum, minimum, trials)
}

/// The same without trials: by the least basic premium and its binary digits.
pub fn plan_directly(file: &[u8], maximum: u32, minimum: u32, trials: u32) -> Result<Plan, u32> {
    Books::of(file)?.plan_directly(maximum, minimum, trials)
}

// ---------------------------------------------------------------------------
// The trials
// ---------------------------------------------------------------------------

/// The trials, with `reaches` for what is looked at to see whether a basic
/// premium reaches the total. None if 1,048,575 does not.
pub fn search(mut reaches: impl FnMut(u32) -> bool, trials: u32) -> Option<Plan> {
    // "Whether 1,048,575 reaches the total is looked at first and is no trial"
    if !reaches(LARGEST_BASIC) {
        return None;
    }
    // "so before any trial the result is 1,048,575 and −1"
    let mut made = 0;
    let mut best = i128::from(LARGEST_BASIC);
    let mut short_of = -1;
    // "Each trial given is made at the middle and halves their distance, until it
    // is 1, and then no more are made."
    while made < trials && best - short_of != 1 {
        let middle = middle(best, short_of);
        made += 1;
        if reaches(u32::try_from(middle).expect("it is above −1 and below 1,048,575")) {
            best = middle;
        } else {
            short_of = middle;
        }
    }
    Some(Plan {
        made,
        best: u32::try_from(best).expect("it is from 0 to 1,048,575"),
        short_of: i32::try_from(short_of).expect("it is from −1 to 1,048,574"),
    })
}

/// The middle of two whole numbers, which is one: their distance is a power of
/// two, and not 1.
fn middle(best: i128, short_of: i128) -> i128 {
    let sum = best + short_of;
    assert_eq!(sum % 2, 0, "{best} and {short_of} have a whole middle");
    sum / 2
}

/// The result after so many trials where `least` is the least basic premium that
/// reaches the total, without a trial. As many trials as are made fix as many of
/// the twenty binary digits of the least one, the first ones first. With all
/// other digits 1 that is the best yet, and with all other digits 0 it is one
/// above the largest known to fall short.
pub fn after(least: u32, trials: u32) -> Plan {
    assert!(least <= LARGEST_BASIC, "{least} is in the range");
    let made = trials.min(TRIALS_THAT_FINISH);
    let distance = 2_i128.pow(TRIALS_THAT_FINISH - made);
    let least = i128::from(least);
    let fixed = least - least % distance;
    Plan {
        made,
        best: u32::try_from(fixed + distance - 1).expect("it has twenty digits"),
        short_of: i32::try_from(fixed - 1).expect("it has twenty digits or is −1"),
    }
}

// ---------------------------------------------------------------------------
// Premiums and their total
// ---------------------------------------------------------------------------

impl Books {
    /// The books of a file. "Questions 1 to 10 come first, with 18 and 19 in their
    /// places": those before 10 are asked by Read, whose 13 no such room fails. "The
    /// file's marks are not used further."
    pub fn of(file: &[u8]) -> Result<Books, u32> {
        let group = second_rater::read(file, usize::MAX, usize::MAX, usize::MAX)?;
        let mut limited = Vec::new();
        let mut first = 0;
        for &count in &group.counts {
            let after = first + usize::from(count);
            limited.push(limited_losses(
                &group.claims[first..after],
                &group.joined[first..after],
                group.header.loss_limit.into(),
            ));
            first = after;
        }
        let conversion = u128::from(group.header.conversion);
        let sum_total = group.claims.iter().map(|&claim| u128::from(claim)).sum();
        let sum_limited: u128 = limited.iter().sum();
        if sum_limited < 1 {
            return Err(10);
        }
        Ok(Books {
            risks: group.counts.len() as u128,
            tax: group.header.tax.into(),
            conversion,
            expense: group.header.expense.into(),
            sum_total,
            // step 5: Q = c × (SL − SA)
            excess: conversion * (sum_total - sum_limited),
            limited,
        })
    }

    /// Questions 22 and 23, and the trials.
    pub fn plan(&self, maximum: u32, minimum: u32, trials: u32) -> Result<Plan, u32> {
        if minimum > maximum {
            return Err(22);
        }
        search(|basic| self.reaches(basic, maximum, minimum), trials).ok_or(23)
    }

    /// The same without trials.
    pub fn plan_directly(&self, maximum: u32, minimum: u32, trials: u32) -> Result<Plan, u32> {
        if minimum > maximum {
            return Err(22);
        }
        let least = self.least_directly(maximum, minimum).ok_or(23_u32)?;
        Ok(after(least, trials))
    }

    /// What a dollar is where "every premium" is "times 10,000,000 × n".
    pub fn dollar(&self) -> u128 {
        10_000_000 * self.risks
    }

    /// The premium of a risk with limited losses A for a basic of B whole dollars,
    /// not held: T × (1,000 × n × B + Q + n × c × A).
    pub fn not_held(&self, basic: u32, limited: u128) -> u128 {
        let basic = 1_000 * self.risks * u128::from(basic);
        let losses = self.risks * self.conversion * limited;
        self.tax * (basic + self.excess + losses)
    }

    /// The premiums in file order, each "held between H and G", in parts of a
    /// dollar: every premium times 10,000,000 × n.
    ///
    /// # Panics
    /// Where H is above G.
    pub fn premiums(
        &self,
        basic: u32,
        maximum: u32,
        minimum: u32,
    ) -> impl Iterator<Item = u128> + '_ {
        assert!(minimum <= maximum, "{minimum} has passed question 22");
        let most = u128::from(maximum) * self.dollar();
        let least = u128::from(minimum) * self.dollar();
        let premium = move |&limited: &u128| held(self.not_held(basic, limited), least, most);
        self.limited.iter().map(premium)
    }

    /// The total of the premiums, in the same parts of a dollar.
    ///
    /// # Panics
    /// Where H is above G.
    pub fn total(&self, basic: u32, maximum: u32, minimum: u32) -> u128 {
        self.premiums(basic, maximum, minimum).sum()
    }

    /// "the taxed expenses and losses", in the same parts of a dollar:
    /// 1,000 × n × T × (n × e + SL).
    pub fn target(&self) -> u128 {
        let expenses = self.risks * self.expense;
        1_000 * self.risks * self.tax * (expenses + self.sum_total)
    }

    /// Whether the premiums of this basic "total at least the taxed expenses and
    /// losses".
    pub fn reaches(&self, basic: u32, maximum: u32, minimum: u32) -> bool {
        self.total(basic, maximum, minimum) >= self.target()
    }

    // ---- the least basic premium without trials

    /// The least basic premium that reaches the total, if one does: every dollar
    /// of the range is looked at, from 0 on.
    pub fn least_by_scan(&self, maximum: u32, minimum: u32) -> Option<u32> {
        (0..=LARGEST_BASIC).find(|&basic| self.reaches(basic, maximum, minimum))
    }

    /// The same by division. A premium is H up to some dollar of the basic, then
    /// rises by the same amount with each dollar, and is G from another dollar on.
    /// Between two neighbours of all these dollars the total rises by the same
    /// amount with each dollar, so there a division finds the first that reaches.
    pub fn least_directly(&self, maximum: u32, minimum: u32) -> Option<u32> {
        assert!(minimum <= maximum, "{minimum} has passed question 22");
        let most = u128::from(maximum) * self.dollar();
        let least = u128::from(minimum) * self.dollar();
        let target = self.target();
        let rise = 1_000 * self.risks * self.tax;
        let end = u128::from(LARGEST_BASIC) + 1;

        // Of each risk: its premium without a basic, the first dollar at which it
        // is not below H, and the first at which it is not below G.
        let mut premiums = Vec::new();
        let mut dollars = vec![0, end];
        for &limited in &self.limited {
            let without = self.not_held(0, limited);
            let leaves = rises_needed(without, least, rise);
            let stops = rises_needed(without, most, rise);
            premiums.push((without, leaves, stops));
            dollars.extend([leaves.min(end), stops.min(end)]);
        }
        dollars.sort_unstable();
        dollars.dedup();

        for stretch in dollars.windows(2) {
            let (first, after) = (stretch[0], stretch[1]);
            // what the total has at all dollars of the stretch, and how many
            // premiums rise in it
            let mut fixed = 0;
            let mut rising = 0;
            for &(without, leaves, stops) in &premiums {
                if first < leaves {
                    fixed += least;
                } else if first < stops {
                    fixed += without;
                    rising += 1;
                } else {
                    fixed += most;
                }
            }
            let basic = if fixed >= target {
                first
            } else if rising > 0 {
                first.max(rises_needed(fixed, target, rising * rise))
            } else {
                continue;
            };
            if basic < after {
                return Some(u32::try_from(basic).expect("it is in the range"));
            }
        }
        None
    }
}

/// "held between H and G".
fn held(premium: u128, least: u128, most: u128) -> u128 {
    if premium < least {
        least
    } else if premium > most {
        most
    } else {
        premium
    }
}

/// The least number of equal rises after which `from` is not below `to`.
fn rises_needed(from: u128, to: u128, rise: u128) -> u128 {
    to.saturating_sub(from).div_ceil(rise)
}

/// Step 1, A, where "the limit applies to the accident's sum": from the last claim
/// of a risk to its first, a claim with bit 0 is the first of its accident.
fn limited_losses(claims: &[u32], joined: &[u8], loss_limit: u128) -> u128 {
    let mut sum = 0;
    let mut accident = 0;
    for (&claim, &bit) in claims.iter().zip(joined).rev() {
        accident += u128::from(claim);
        if bit == 0 {
            // 0 means no limit
            sum += match loss_limit {
                0 => accident,
                _ => accident.min(loss_limit),
            };
            accident = 0;
        }
    }
    sum
}
