//! The exported calls held to the second rater, Charge to `charges_1965` and Plan to `plans`: every
//! number and every byte, after answers and after refusals.
//!
//! Each call is made twice, Charge so for each of seven lent doubles, with everything it is lent
//! against the unreadable page before it and against the one after it. What is lent is preset, so
//! that a part that must keep its contents is seen to keep them.

use crate::calls::{self, Group, Lent, Numbers};
use crate::charges_1965;
use crate::generator::{get, EDITION};
use crate::guard::{Guarded, PLACES};
use crate::plans::{self, Plan};
use crate::samples::{bounds, schedules, Values};
use crate::second_rater::{self, Guaranteed, Layer, Rated};
use std::fmt;

/// Enough room in bytes for the premiums of 255 risks.
pub const BYTES: usize = 1_020;
/// Enough room in entries for the counts of 255 risks, and for the claims of small groups.
pub const ENTRIES: usize = 300;

// What the lent numbers hold before a call.
const RISKS: u32 = 0xa1b2_c3d4;
const BASIC: u64 = 0x0123_4567_89ab_cdef;
const EXCESS: u64 = 0xfedc_ba98_7654_3210;
const BILLED: u64 = 0x5a5a_a5a5_3c3c_c3c3;
const CHARGE: u32 = 0x1357_9bdf;
const SAVINGS: u32 = 0x2468_ace0;
const LENGTH: usize = 0x0f1e_2d3c_4b5a_6978;
const NUMBERS: Numbers = Numbers {
    risks: RISKS,
    basic: BASIC,
    excess: EXCESS,
    billed: BILLED,
    discount: 0xb4a5_9687,
    guaranteed: 0x7869_5a4b,
    difference: -0x1122_3344_5566_7788,
};
const THOUSANDTHS: u32 = 0xc0de_d00d;
/// The bits of the doubles that Charge is lent, one after another: two numbers, −0, both
/// infinities, and what is not a number, quiet and signalling, with bits of its own.
const DOUBLES: [u64; 7] = [
    0x3fe2_3456_789a_bcde,
    0x8123_4567_89ab_cdef,
    0x8000_0000_0000_0000,
    0x7ff0_0000_0000_0000,
    0xfff0_0000_0000_0000,
    0x7ff8_0bad_cafe_f00d,
    0xfff4_dead_beef_0001,
];
/// The numbers that Plan is lent in either place: the second have no bit of the first.
const PLANNED: [Plan; 2] = [
    Plan {
        made: 0x3c4d_5e6f,
        best: 0x9e8d_7c6b,
        short_of: 0x2b3a_4958,
    },
    Plan {
        made: !0x3c4d_5e6f,
        best: !0x9e8d_7c6b,
        short_of: !0x2b3a_4958,
    },
];

/// Byte k of a buffer before a call.
fn preset_byte(k: usize) -> u8 {
    (k as u8).wrapping_mul(151).wrapping_add(0xa5)
}

/// Bit k of a buffer before a call: neither 0 nor 1.
fn preset_bit(k: usize) -> u8 {
    preset_byte(k) | 2
}

/// Claim k of a buffer before a call.
fn preset_claim(k: usize) -> u32 {
    (k as u32).wrapping_mul(0x9e37_79b1) ^ 0xdead_beef
}

/// Difference k of a buffer before a call.
fn preset_difference(k: usize) -> i64 {
    (k as i64).wrapping_mul(0x9e37_79b9_7f4a_7c15u64 as i64) ^ 0x0ddb_a115_dead_beef
}

/// The calls: those of document 01 in its order, then those of document 02's jobs 1, 5 and 6.
#[derive(Clone, Copy, Debug, PartialEq, Eq)]
pub enum Call {
    Rate,
    Table,
    Read,
    Write,
    Guaranteed,
    Charge,
    Plan,
}

/// The calls of document 01.
pub const CALLS: [Call; 4] = [Call::Rate, Call::Table, Call::Read, Call::Write];

/// The number of the question that job 7 of document 02 took out. No call answers it, and no other
/// question has it.
pub const TAKEN_OUT: u32 = 11;

impl Call {
    /// The answers that the call can give: 0, or a question that it asks, in the order in which it
    /// asks them. `TAKEN_OUT` is none of them, whatever the call.
    pub fn answers(self) -> &'static [u32] {
        match self {
            Call::Rate => &[0, 1, 2, 3, 4, 5, 6, 18, 7, 8, 9, 19, 10, 12, 13],
            Call::Table => &[0, 1, 2, 3, 4, 5, 6, 18, 7, 8, 9, 19, 10, 14],
            Call::Read => &[0, 1, 2, 3, 4, 5, 6, 18, 7, 8, 9, 19, 13],
            Call::Write => &[0, 2, 3, 4, 5, 6, 18, 7, 15, 19, 13],
            Call::Guaranteed => &[0, 1, 2, 3, 4, 5, 6, 18, 7, 8, 9, 19, 10, 12, 13, 16, 17],
            Call::Charge => &[0, 20, 21],
            Call::Plan => &[0, 1, 2, 3, 4, 5, 6, 18, 7, 8, 9, 19, 10, 22, 23],
        }
    }

    /// The editions of what the call is given, as far as they pass question 2; none of Charge,
    /// which is given no file.
    fn editions(self) -> &'static [usize] {
        match self {
            Call::Charge => &[],
            _ => &[1, 2],
        }
    }

    /// Whether the call can give this answer to a file or to values of edition 1 or 2, and Charge
    /// at all. Edition 1 has no bits that are set, and Write asks 2 of the edition alone.
    fn gives(self, edition: usize, answer: u32) -> bool {
        let never = match answer {
            19 => edition == 1,
            2 => self == Call::Write,
            _ => false,
        };
        self.answers().contains(&answer) && !never
    }
}

/// How often each call gave each answer, where 0 is an acceptance, to files and values of edition
/// 1, of edition 2, and of another or of none, which are in the first place.
#[derive(Clone, Default)]
pub struct Counts([[[u64; 24]; 7]; 3]);

impl Counts {
    /// Counts an answer, which must be one that the call can give.
    fn add(&mut self, call: Call, edition: u32, answer: u32) {
        let edition = match edition {
            1 | 2 => edition as usize,
            _ => 0,
        };
        assert!(
            match edition {
                0 if !call.editions().is_empty() => matches!(answer, 1 | 2),
                _ => call.gives(edition, answer),
            },
            "{call:?} gave {answer} in edition {edition}, which it cannot give"
        );
        self.0[edition][call as usize][answer as usize] += 1;
    }

    /// How often any call gave the answer.
    pub fn of_any_call(&self, answer: u32) -> u64 {
        let calls = self.0.iter().flatten();
        calls.map(|of| of[answer as usize]).sum()
    }

    /// How often the call gave the answer to a file or values of any edition.
    pub fn of(&self, call: Call, answer: u32) -> u64 {
        let times = self.0.iter();
        times.map(|of| of[call as usize][answer as usize]).sum()
    }

    /// The same of edition 1 or 2.
    pub fn of_edition(&self, edition: usize, call: Call, answer: u32) -> u64 {
        self.0[edition][call as usize][answer as usize]
    }

    pub fn merge(&mut self, other: &Counts) {
        let others = other.0.iter().flatten().flatten();
        for (count, more) in self.0.iter_mut().flatten().flatten().zip(others) {
            *count += more;
        }
    }

    /// The answers of these calls that occurred fewer times than this, in all or in an edition in
    /// which they can occur; with the edition, or 0 for all.
    pub fn rarer_than(&self, least: u64, calls: &[Call]) -> Vec<(Call, usize, u32)> {
        let mut rare = Vec::new();
        for &call in calls {
            for &answer in call.answers() {
                if self.of(call, answer) < least {
                    rare.push((call, 0, answer));
                }
                for &edition in call.editions() {
                    let gives = call.gives(edition, answer);
                    if gives && self.of_edition(edition, call, answer) < least {
                        rare.push((call, edition, answer));
                    }
                }
            }
        }
        rare
    }

    /// One line an answer, and for each of these calls a column of all, of edition 1 and of edition
    /// 2, the first alone where it takes no file; a dash where the call cannot give the answer, and
    /// no line where none of them can.
    pub fn lines(&self, calls: &[Call]) -> String {
        let mut lines = format!("{:<10}", "answer");
        for call in calls {
            lines += &format!("{:>12}", format!("{call:?}"));
            for edition in call.editions() {
                lines += &format!("{:>8}", format!("ed. {edition}"));
            }
        }
        for answer in 0..24 {
            let gives = |call: &Call| call.answers().contains(&answer);
            if !calls.iter().any(gives) {
                continue;
            }
            lines += &match answer {
                0 => format!("\n{:<10}", "accepted"),
                _ => format!("\nrefused {answer:<2}"),
            };
            for call in calls {
                lines += &match gives(call) {
                    true => format!("{:>12}", self.of(*call, answer)),
                    false => format!("{:>12}", "-"),
                };
                for &edition in call.editions() {
                    lines += &match call.gives(edition, answer) {
                        true => format!("{:>8}", self.of_edition(edition, *call, answer)),
                        false => format!("{:>8}", "-"),
                    };
                }
            }
        }
        lines
    }
}

/// Memory for the calls, and how often they gave each answer.
pub struct HeldCalls {
    file: Guarded<u8>,
    premiums: Guarded<u8>,
    counts: Guarded<u8>,
    claims: Guarded<u32>,
    joined: Guarded<u8>,
    risks: Guarded<u32>,
    amounts: [Guarded<u64>; 3],
    ratios: [Guarded<u32>; 2],
    length: Guarded<usize>,
    differences: Guarded<i64>,
    costs: [Guarded<u32>; 2],
    difference: Guarded<i64>,
    charge: Guarded<f64>,
    thousandths: Guarded<u32>,
    made: Guarded<u32>,
    best: Guarded<u32>,
    short_of: Guarded<i32>,
    pub given: Counts,
}

impl Default for HeldCalls {
    fn default() -> HeldCalls {
        HeldCalls::new()
    }
}

impl HeldCalls {
    /// Memory for files and buffers somewhat larger than the largest group needs.
    pub fn new() -> HeldCalls {
        HeldCalls {
            file: Guarded::new(1 << 17),
            premiums: Guarded::new(1 << 13),
            counts: Guarded::new(1 << 17),
            claims: Guarded::new(1 << 17),
            joined: Guarded::new(1 << 17),
            risks: Guarded::new(1),
            amounts: [Guarded::new(1), Guarded::new(1), Guarded::new(1)],
            ratios: [Guarded::new(1), Guarded::new(1)],
            length: Guarded::new(1),
            differences: Guarded::new(1 << 11),
            costs: [Guarded::new(1), Guarded::new(1)],
            difference: Guarded::new(1),
            charge: Guarded::new(1),
            thousandths: Guarded::new(1),
            made: Guarded::new(1),
            best: Guarded::new(1),
            short_of: Guarded::new(1),
            given: Counts::default(),
        }
    }

    /// Rate of a file into a buffer of so many bytes. Gives the answer, which both raters gave.
    pub fn rate(&mut self, file: &[u8], room: usize) -> u32 {
        let mut premiums: Vec<u8> = (0..room).map(preset_byte).collect();
        let mut numbers = (RISKS, BASIC, EXCESS, BILLED);
        let answer = match second_rater::rate(file, room) {
            Err(question) => question,
            Ok(rated) => {
                put_premiums(&mut premiums, &rated);
                let (basic, excess) = (number(rated.basic), number(rated.excess));
                numbers = (rated.risks, basic, excess, number(rated.billed));
                0
            }
        };
        let [basic, excess, billed] = &mut self.amounts;
        for place in PLACES {
            let lent = self.file.copy(file, place);
            let buffer = self.premiums.slice(room, place);
            fill(buffer, preset_byte);
            let risks = self.risks.number(RISKS, place);
            let basic = basic.number(BASIC, place);
            let excess = excess.number(EXCESS, place);
            let billed = billed.number(BILLED, place);
            let given = calls::rate(lent, buffer, risks, basic, excess, billed);
            let about = || format!("Rate, {room} bytes lent, {place:?}, {}", Bytes(file));
            same(given, answer, "answer", about);
            same(
                (*risks, *basic, *excess, *billed),
                numbers,
                "n, M, Q and sum billed",
                about,
            );
            same(&*buffer, &premiums[..], "buffer", about);
            same(&*lent, file, "file after the call", about);
        }
        self.given.add(Call::Rate, get(file, EDITION), answer);
        answer
    }

    /// Guaranteed of a file and a schedule into buffers of so many bytes and so many differences.
    pub fn guaranteed(
        &mut self,
        file: &[u8],
        schedule: &[Layer; 4],
        premiums_room: usize,
        differences_room: usize,
    ) -> u32 {
        let mut premiums: Vec<u8> = (0..premiums_room).map(preset_byte).collect();
        let mut differences: Vec<i64> = (0..differences_room).map(preset_difference).collect();
        let mut numbers = NUMBERS;
        let given = second_rater::guaranteed(file, schedule, premiums_room, differences_room);
        let answer = match given {
            Err(question) => question,
            Ok(given) => {
                put_premiums(&mut premiums, &given.rated);
                for (entry, &difference) in differences.iter_mut().zip(&given.differences) {
                    *entry = number(difference);
                }
                numbers = numbers_of(&given);
                0
            }
        };
        let [basic, excess, billed] = &mut self.amounts;
        let [discount, guaranteed] = &mut self.costs;
        for place in PLACES {
            let lent_file = self.file.copy(file, place);
            let premiums_buffer = self.premiums.slice(premiums_room, place);
            let differences_buffer = self.differences.slice(differences_room, place);
            fill(premiums_buffer, preset_byte);
            fill(differences_buffer, preset_difference);
            let mut lent = Lent {
                risks: self.risks.number(NUMBERS.risks, place),
                basic: basic.number(NUMBERS.basic, place),
                excess: excess.number(NUMBERS.excess, place),
                billed: billed.number(NUMBERS.billed, place),
                discount: discount.number(NUMBERS.discount, place),
                guaranteed: guaranteed.number(NUMBERS.guaranteed, place),
                difference: self.difference.number(NUMBERS.difference, place),
            };
            let given = calls::guaranteed(
                lent_file,
                (*schedule).into(),
                premiums_buffer,
                differences_buffer,
                &mut lent,
            );
            let about = || {
                let rooms = format!("{premiums_room} bytes and {differences_room} numbers lent");
                format!(
                    "Guaranteed, {schedule:?}, {rooms}, {place:?}, {}",
                    Bytes(file)
                )
            };
            same(given, answer, "answer", about);
            same(lent.numbers(), numbers, "numbers", about);
            same(&*premiums_buffer, &premiums[..], "premiums", about);
            same(&*differences_buffer, &differences[..], "differences", about);
            same(&*lent_file, file, "file after the call", about);
        }
        self.given.add(Call::Guaranteed, get(file, EDITION), answer);
        answer
    }

    /// Table of a file at an entry ratio.
    pub fn table(&mut self, file: &[u8], entry_ratio: u32) -> u32 {
        let (answer, ratios) = match second_rater::table(file, entry_ratio) {
            Err(question) => (question, (CHARGE, SAVINGS)),
            Ok((charge, savings)) => (0, (number(charge), number(savings))),
        };
        let [charge, savings] = &mut self.ratios;
        for place in PLACES {
            let lent = self.file.copy(file, place);
            let charge = charge.number(CHARGE, place);
            let savings = savings.number(SAVINGS, place);
            let given = calls::table(lent, entry_ratio, charge, savings);
            let about = || format!("Table at {entry_ratio}, {place:?}, {}", Bytes(file));
            same(given, answer, "answer", about);
            same((*charge, *savings), ratios, "charge and savings", about);
            same(&*lent, file, "file after the call", about);
        }
        self.given.add(Call::Table, get(file, EDITION), answer);
        answer
    }

    /// Read of a file into buffers of so many entries.
    pub fn read(
        &mut self,
        file: &[u8],
        counts_room: usize,
        claims_room: usize,
        joined_room: usize,
    ) -> u32 {
        let mut counts: Vec<u8> = (0..counts_room).map(preset_byte).collect();
        let mut claims: Vec<u32> = (0..claims_room).map(preset_claim).collect();
        let mut joined: Vec<u8> = (0..joined_room).map(preset_bit).collect();
        let answer = match second_rater::read(file, counts_room, claims_room, joined_room) {
            Err(question) => Group::refused(question),
            Ok(group) => {
                counts[..group.counts.len()].copy_from_slice(&group.counts);
                claims[..group.claims.len()].copy_from_slice(&group.claims);
                joined[..group.joined.len()].copy_from_slice(&group.joined);
                let n = group.counts.len() as u32;
                Group::given(group.edition, n, group.header.into())
            }
        };
        for place in PLACES {
            let lent = self.file.copy(file, place);
            let counts_buffer = self.counts.slice(counts_room, place);
            let claims_buffer = self.claims.slice(claims_room, place);
            let joined_buffer = self.joined.slice(joined_room, place);
            fill(counts_buffer, preset_byte);
            fill(claims_buffer, preset_claim);
            fill(joined_buffer, preset_bit);
            let given = calls::read(lent, counts_buffer, claims_buffer, joined_buffer);
            let about = || {
                let rooms = format!("{counts_room} counts, {claims_room} claims");
                let rooms = format!("{rooms} and {joined_room} bits lent");
                format!("Read, {rooms}, {place:?}, {}", Bytes(file))
            };
            same(given, answer, "answer", about);
            same(&*counts_buffer, &counts[..], "counts", about);
            same(&*claims_buffer, &claims[..], "claims", about);
            same(&*joined_buffer, &joined[..], "bits", about);
            same(&*lent, file, "file after the call", about);
        }
        self.given
            .add(Call::Read, get(file, EDITION), answer.refused);
        answer.refused
    }

    /// Write of values into a buffer of so many bytes.
    pub fn write(&mut self, values: &Values, room: usize) -> u32 {
        let mut file: Vec<u8> = (0..room).map(preset_byte).collect();
        let (answer, length) = match values.written(room) {
            Err(question) => (question, LENGTH),
            Ok(bytes) => {
                file[..bytes.len()].copy_from_slice(&bytes);
                (0, bytes.len())
            }
        };
        let Values {
            edition,
            header,
            counts,
            claims,
            joined,
        } = values;
        for place in PLACES {
            let lent_counts = self.counts.copy(counts, place);
            let lent_claims = self.claims.copy(claims, place);
            let lent_joined = self.joined.copy(joined, place);
            let buffer = self.file.slice(room, place);
            fill(buffer, preset_byte);
            let given_length = self.length.number(LENGTH, place);
            let given = calls::write(
                *edition,
                (*header).into(),
                lent_counts,
                lent_claims,
                lent_joined,
                buffer,
                given_length,
            );
            let about = || format!("Write, {room} bytes lent, {place:?}, {values:?}");
            same(given, answer, "answer", about);
            same(*given_length, length, "length", about);
            same(&*buffer, &file[..], "buffer", about);
            same(&*lent_counts, &counts[..], "counts after the call", about);
            same(&*lent_claims, &claims[..], "claims after the call", about);
            same(&*lent_joined, &joined[..], "bits after the call", about);
        }
        self.given.add(Call::Write, *edition, answer);
        answer
    }

    /// Charge of a column at an entry ratio. Gives the answer, which both computations gave.
    pub fn charge(&mut self, column: u32, entry_ratio: u32) -> u32 {
        let charged = charges_1965::charge(column, entry_ratio);
        for place in PLACES {
            for before in DOUBLES {
                let (answer, numbers) = match charged {
                    Err(question) => (question, (Double(before), THOUSANDTHS)),
                    Ok(given) => (0, (Double(given.charge.to_bits()), given.thousandths)),
                };
                let charge = self.charge.number(f64::from_bits(before), place);
                let thousandths = self.thousandths.number(THOUSANDTHS, place);
                let given = calls::charge(column, entry_ratio, charge, thousandths);
                let about = || {
                    let lent = format!("{:?} lent", Double(before));
                    format!("Charge of column {column} at {entry_ratio}, {lent}, {place:?}")
                };
                same(given, answer, "answer", about);
                let given = (Double(charge.to_bits()), *thousandths);
                same(given, numbers, "charge and thousandths", about);
            }
        }
        let answer = charged.err().unwrap_or(0);
        self.given.add(Call::Charge, 0, answer);
        answer
    }

    /// Plan of a file under a maximum and a minimum premium, with so many trials. Gives the answer,
    /// which both computations gave.
    pub fn plan(&mut self, file: &[u8], maximum: u32, minimum: u32, trials: u32) -> u32 {
        let planned = plans::plan(file, maximum, minimum, trials);
        let answer = planned.err().unwrap_or(0);
        for (place, before) in PLACES.into_iter().zip(PLANNED) {
            let lent = self.file.copy(file, place);
            let made = self.made.number(before.made, place);
            let best = self.best.number(before.best, place);
            let short_of = self.short_of.number(before.short_of, place);
            let given = calls::plan(lent, maximum, minimum, trials, made, best, short_of);
            let about = || {
                let bounds = format!("maximum {maximum}, minimum {minimum}");
                let given = format!("{bounds}, {trials} trials, {before:?} lent");
                format!("Plan, {given}, {place:?}, {}", Bytes(file))
            };
            same(given, answer, "answer", about);
            let given = Plan {
                made: *made,
                best: *best,
                short_of: *short_of,
            };
            same(given, planned.unwrap_or(before), "plan", about);
            same(&*lent, file, "file after the call", about);
        }
        self.given.add(Call::Plan, get(file, EDITION), answer);
        answer
    }

    /// Each call on a file gives this question: where its buffers, entry ratio, schedule and bounds
    /// are sound, and where each of them fails 13, 14, 16, 17, 22 or 23.
    #[track_caller]
    pub fn all_give(&mut self, file: &[u8], question: u32) {
        for room in [BYTES, 3, 0] {
            assert_eq!(self.rate(file, room), question, "{file:02x?}");
        }
        for layers in schedules() {
            for (premiums, differences) in [(BYTES, ENTRIES), (3, ENTRIES), (BYTES, 0), (0, 0)] {
                let answer = self.guaranteed(file, &layers, premiums, differences);
                assert_eq!(answer, question, "{file:02x?}");
            }
        }
        for entry_ratio in [0, 100, 600, 601, u32::MAX] {
            assert_eq!(self.table(file, entry_ratio), question, "{file:02x?}");
        }
        for (maximum, minimum) in bounds() {
            for trials in [20, 0, u32::MAX] {
                let answer = self.plan(file, maximum, minimum, trials);
                assert_eq!(answer, question, "{file:02x?}");
            }
        }
        for (counts, claims, joined) in [
            (ENTRIES, ENTRIES, ENTRIES),
            (0, ENTRIES, ENTRIES),
            (ENTRIES, 0, ENTRIES),
            (ENTRIES, ENTRIES, 0),
            (0, 0, 0),
        ] {
            let answer = self.read(file, counts, claims, joined);
            assert_eq!(answer, question, "{file:02x?}");
        }
    }

    /// Write of values gives this question with room enough and without.
    #[track_caller]
    pub fn write_gives(&mut self, values: &Values, question: u32) {
        for room in [1 << 11, 16, 0] {
            assert_eq!(self.write(values, room), question, "{values:?}");
        }
    }

    /// What Read gives of an accepted file, as values for Write.
    fn values_in(&mut self, file: &[u8]) -> Values {
        let place = PLACES[0];
        let lent = self.file.copy(file, place);
        let most_claims = second_rater::MOST_RISKS * second_rater::MOST_CLAIMS_PER_RISK;
        let counts = self.counts.slice(second_rater::MOST_RISKS, place);
        let claims = self.claims.slice(most_claims, place);
        let joined = self.joined.slice(most_claims, place);
        fill(joined, preset_bit);
        let group = calls::read(lent, counts, claims, joined);
        assert_eq!(group.refused, 0, "{}", Bytes(file));
        let counts = &counts[..group.risks as usize];
        let sum = counts.iter().map(|&count| usize::from(count)).sum();
        Values {
            edition: group.edition,
            header: group.header().into(),
            counts: counts.to_vec(),
            claims: claims[..sum].to_vec(),
            joined: joined[..sum].to_vec(),
        }
    }

    /// Writes what Read of an accepted file gives, which must yield the same bytes.
    pub fn write_back(&mut self, file: &[u8]) {
        let values = self.values_in(file);
        let again = file_of(&values);
        let about = || format!("Write of what Read gives, {}", Bytes(file));
        same(&again[..], file, "bytes", about);
    }

    /// Reads what Write of accepted values gives, which must yield the same values.
    pub fn read_back(&mut self, values: &Values) {
        let file = file_of(values);
        let again = self.values_in(&file);
        let about = || format!("Read of what Write gives, {}", Bytes(&file));
        same(&again, values, "values", about);
    }
}

/// The file that Write makes of accepted values.
fn file_of(values: &Values) -> Vec<u8> {
    let mut file = vec![0; values.length()];
    let mut length = 0;
    let answer = calls::write(
        values.edition,
        values.header.into(),
        &values.counts,
        &values.claims,
        &values.joined,
        &mut file,
        &mut length,
    );
    assert_eq!((answer, length), (0, file.len()), "{values:?}");
    file
}

/// The numbers of Guaranteed as the call gives them.
fn numbers_of(given: &Guaranteed) -> Numbers {
    Numbers {
        risks: given.rated.risks,
        basic: number(given.rated.basic),
        excess: number(given.rated.excess),
        billed: number(given.rated.billed),
        discount: number(given.discount),
        guaranteed: number(given.guaranteed),
        difference: number(given.difference),
    }
}

/// Puts the premiums of a rated group at the start of a buffer.
fn put_premiums(buffer: &mut [u8], rated: &Rated) {
    for (four, &premium) in buffer.chunks_exact_mut(4).zip(&rated.premiums) {
        four.copy_from_slice(&number::<u32, _>(premium).to_be_bytes());
    }
}

/// Sets each number of a buffer by its index.
fn fill<T>(buffer: &mut [T], preset: impl Fn(usize) -> T) {
    for (k, number) in buffer.iter_mut().enumerate() {
        *number = preset(k);
    }
}

/// A number of the second rater in the width that the calls give it.
fn number<T: TryFrom<N>, N: fmt::Display + Copy>(value: N) -> T {
    T::try_from(value).unwrap_or_else(|_| panic!("{value} does not fit the exported number"))
}

/// Ends the comparison where a part differs between the library and the second rater.
fn same<T: PartialEq + fmt::Debug>(given: T, expected: T, part: &str, about: impl Fn() -> String) {
    assert!(
        given == expected,
        "{part}: the library gives {given:?}, the second rater {expected:?}\n{}",
        about()
    );
}

/// A double by its bits, so that it is equal to no other.
#[derive(Clone, Copy, PartialEq, Eq)]
struct Double(u64);

impl fmt::Debug for Double {
    fn fmt(&self, f: &mut fmt::Formatter) -> fmt::Result {
        write!(f, "{:?} ({:#018x})", f64::from_bits(self.0), self.0)
    }
}

/// A file in a message.
struct Bytes<'a>(&'a [u8]);

impl fmt::Display for Bytes<'_> {
    fn fmt(&self, f: &mut fmt::Formatter) -> fmt::Result {
        write!(f, "file of {} bytes: ", self.0.len())?;
        for byte in self.0 {
            write!(f, "{byte:02x}")?;
        }
        Ok(())
    }
}
