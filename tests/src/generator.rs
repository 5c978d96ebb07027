//! Generated groups, damaged files, values for Write, schedules and terms of plans, with the corners
//! of every field more often than chance has them.

use crate::plans::Books;
use crate::samples::{accidents, ranges, Sample, Values, AMPLE};
use crate::second_rater::{self, Header, Layer};

/// The largest claim, loss limit and expense provision.
const LARGEST: u32 = (1 << 20) - 1;
/// The largest standard premium.
const LARGEST_PREMIUM: u32 = (1 << 22) - 1;

/// A field of the header: its first bit and its width.
#[derive(Clone, Copy, Debug)]
pub struct Field {
    pub at: usize,
    pub width: usize,
}

/// The field of so many bits after another.
const fn after(field: Field, width: usize) -> Field {
    Field {
        at: field.at + field.width,
        width,
    }
}

pub const EDITION: Field = Field { at: 0, width: 4 };
pub const LOSS_LIMIT: Field = after(EDITION, 20);
pub const STANDARD_PREMIUM: Field = after(LOSS_LIMIT, 22);
pub const EXPENSE: Field = after(STANDARD_PREMIUM, 20);
pub const CONVERSION: Field = after(EXPENSE, 11);
pub const TAX: Field = after(CONVERSION, 15);
pub const MARK_KIND: Field = after(TAX, 1);
pub const MAXIMUM_MARK: Field = after(MARK_KIND, 13);
pub const MINIMUM_MARK: Field = after(MAXIMUM_MARK, 13);
pub const RISKS: Field = after(MINIMUM_MARK, 8);
pub const SPARE: Field = after(RISKS, 1);

/// The header's length in bytes.
pub const HEADER: usize = 16;

/// Puts a value into a field of the file, whatever the questions say to it.
pub fn set(file: &mut [u8], field: Field, value: u32) {
    for k in 0..field.width {
        let mask = 0x80 >> ((field.at + k) % 8);
        let byte = &mut file[(field.at + k) / 8];
        if value >> (field.width - 1 - k) & 1 == 1 {
            *byte |= mask;
        } else {
            *byte &= !mask;
        }
    }
}

/// The file with a field changed.
pub fn with(file: &[u8], field: Field, value: u32) -> Vec<u8> {
    let mut file = file.to_vec();
    set(&mut file, field, value);
    file
}

/// The value of a field of the file, which need not be in its header; bits past its end are 0.
pub fn get(file: &[u8], field: Field) -> u32 {
    let bit = |at: usize| at / 8 < file.len() && file[at / 8] & (0x80 >> (at % 8)) != 0;
    (field.at..field.at + field.width).fold(0, |value, at| 2 * value + u32::from(bit(at)))
}

/// The width in bits of a claim, in edition 2 with its bit. Any other edition is taken for 1.
pub fn claim_width(edition: u32) -> usize {
    match edition {
        2 => 21,
        _ => 20,
    }
}

/// The length in bits of a group's file without the fill bits.
pub fn bits(edition: u32, risks: usize, claims: usize) -> usize {
    128 + 6 * risks + claim_width(edition) * claims
}

/// A risk of a file by its bytes.
#[derive(Clone, Copy, Debug)]
pub struct RiskInFile {
    /// The number of its claims.
    pub claims: usize,
    /// The place in bits of the first of them, which in edition 2 begins with its bit.
    pub at: usize,
}

/// The risks that a file has by its bytes, whatever the questions say to it.
pub fn risks_in(file: &[u8]) -> Vec<RiskInFile> {
    let width = claim_width(get(file, EDITION));
    let mut at = 8 * HEADER;
    let mut risks = Vec::new();
    for _ in 0..get(file, RISKS) {
        let claims = get(file, Field { at, width: 6 }) as usize;
        at += 6;
        risks.push(RiskInFile { claims, at });
        at += width * claims;
    }
    risks
}

/// The bits of the first claims that lie in a file of edition 2, in file order.
pub fn first_bits(file: &[u8]) -> Vec<Field> {
    let risks = match get(file, EDITION) {
        2 => risks_in(file),
        _ => Vec::new(),
    };
    let with_claims = risks.into_iter().filter(|risk| risk.claims > 0);
    let bits = with_claims.map(|risk| Field {
        at: risk.at,
        width: 1,
    });
    bits.filter(|bit| bit.at < 8 * file.len()).collect()
}

/// What Guaranteed is given, sound or not.
#[derive(Clone, Debug)]
pub struct Quote {
    pub file: Vec<u8>,
    pub schedule: [Layer; 4],
    /// The length of the premiums in bytes.
    pub premiums_room: usize,
    /// The length of the differences in entries.
    pub differences_room: usize,
}

impl Quote {
    /// The standard premium that the file has by its bytes.
    pub fn standard_premium(&self) -> u32 {
        get(&self.file, STANDARD_PREMIUM)
    }

    /// The dollars of the standard premium in each layer.
    pub fn parts(&self) -> [u64; 4] {
        parts(&self.schedule, self.standard_premium())
    }

    /// The discount in thousandths of a dollar.
    pub fn thousandths(&self) -> u64 {
        thousandths(&self.schedule, self.standard_premium())
    }
}

/// The dollars of a standard premium in each layer.
fn parts(schedule: &[Layer; 4], standard_premium: u32) -> [u64; 4] {
    let mut left = u64::from(standard_premium);
    let mut parts = [0; 4];
    for (part, layer) in parts.iter_mut().zip(&schedule[..3]) {
        *part = left.min(layer.width.into());
        left -= *part;
    }
    parts[3] = left;
    parts
}

/// The discount on a standard premium in thousandths of a dollar.
fn thousandths(schedule: &[Layer; 4], standard_premium: u32) -> u64 {
    let parts = parts(schedule, standard_premium).into_iter();
    parts
        .zip(schedule)
        .map(|(part, layer)| part * u64::from(layer.rate))
        .sum()
}

/// What Plan is given, sound or not.
#[derive(Clone, Debug)]
pub struct Terms {
    pub file: Vec<u8>,
    /// G, the maximum premium in dollars.
    pub maximum: u32,
    /// H, the minimum premium in dollars.
    pub minimum: u32,
    /// The number of trials given.
    pub trials: u32,
}

/// Gives values as many claims and bits as their counts add to.
fn follow_the_counts(values: &mut Values) {
    let sum = values.counts.iter().map(|&count| usize::from(count)).sum();
    values.claims.resize(sum, 1);
    values.joined.resize(sum, 0);
}

/// A splitmix generator of 64 bits.
pub struct Random(u64);

impl Random {
    pub fn new(seed: u64) -> Random {
        Random(seed)
    }

    /// The next 64 bits.
    pub fn word(&mut self) -> u64 {
        self.0 = self.0.wrapping_add(0x9e37_79b9_7f4a_7c15);
        let mut z = self.0;
        z = (z ^ (z >> 30)).wrapping_mul(0xbf58_476d_1ce4_e5b9);
        z = (z ^ (z >> 27)).wrapping_mul(0x94d0_49bb_1331_11eb);
        z ^ (z >> 31)
    }

    /// A number from `low` to `high`, both included.
    pub fn between(&mut self, low: u32, high: u32) -> u32 {
        let span = u64::from(high - low) + 1;
        low + (self.word() % span) as u32
    }

    /// The same for lengths and places.
    pub fn within(&mut self, low: usize, high: usize) -> usize {
        low + (self.word() % (high - low + 1) as u64) as usize
    }

    /// True once in so many times.
    pub fn one_in(&mut self, times: u32) -> bool {
        self.between(1, times) == 1
    }

    pub fn one_of<T: Copy>(&mut self, choices: &[T]) -> T {
        choices[self.within(0, choices.len() - 1)]
    }

    /// The first of these, the last, any one, or all.
    pub fn some_of<'a, T>(&mut self, choices: &'a [T]) -> &'a [T] {
        let last = choices.len() - 1;
        let any = self.within(0, last);
        match self.between(0, 6) {
            0 => choices,
            1 | 2 => &choices[..1],
            3 | 4 => &choices[last..],
            _ => &choices[any..=any],
        }
    }

    /// A number below 2 to the power `width`, small ones as likely as large.
    pub fn of_any_size(&mut self, width: u32) -> u32 {
        let used = self.between(0, width);
        (self.word() & ((1 << used) - 1)) as u32
    }

    pub fn bytes(&mut self, len: usize) -> Vec<u8> {
        (0..len).map(|_| self.word() as u8).collect()
    }

    /// A buffer's length: mostly enough, else just too short or any.
    pub fn room(&mut self, enough: usize) -> usize {
        match self.between(0, 15) {
            0 => self.within(0, enough + 8),
            1 => enough.saturating_sub(1),
            2 => enough.saturating_sub(self.within(1, 5)),
            3..=9 => enough,
            _ => enough + self.within(0, 9),
        }
    }

    // ---- groups

    /// A group that passes questions 1 to 9, 18 and 19, of either edition.
    pub fn group(&mut self) -> Sample {
        let risks = self.risks();
        self.group_of(risks)
    }

    /// The same of risks with these claims, of which some may become others.
    fn group_of(&mut self, mut risks: Vec<Vec<u32>>) -> Sample {
        let in_edition_2 = self.one_in(2);
        let joined = match in_edition_2 {
            true => self.joined(&risks),
            false => risks.iter().map(|risk| vec![0; risk.len()]).collect(),
        };
        let loss_limit = self.loss_limit(&risks, &joined);
        if loss_limit > 0 && self.one_in(4) {
            self.claims_at_the_limit(&mut risks, loss_limit);
        }
        if loss_limit > 0 && in_edition_2 && self.one_in(3) {
            self.accidents_at_the_limit(&mut risks, &joined, loss_limit);
        }
        let header = self.header(loss_limit, &risks);
        let mut sample = Sample {
            header,
            risks,
            joined: in_edition_2.then_some(joined),
        };
        if self.one_in(6) {
            self.bring_basic_near_0(&mut sample);
        }
        sample
    }

    /// The claims of each risk.
    fn risks(&mut self) -> Vec<Vec<u32>> {
        if self.one_in(400) {
            // the longest file
            return self.risks_with(255, 63, 63, 20);
        }
        let n = match self.between(0, 11) {
            0 => 1,
            1 => self.one_of(&[254, 255]),
            2 => self.between(1, 255),
            3..=5 => self.between(1, 4),
            _ => self.between(1, 20),
        };
        let claim_width = self.between(1, 20);
        let (fewest, most) = match self.between(0, 11) {
            0 => (0, 0),
            1 => (0, 1),
            2 if n <= 8 => (63, 63),
            3 => (1, 1),
            4..=6 => (self.between(0, 2), self.between(2, 8)),
            _ => (0, self.of_any_size(6).max(1)),
        };
        self.risks_with(n, fewest, most, claim_width)
    }

    fn risks_with(&mut self, n: u32, fewest: u32, most: u32, width: u32) -> Vec<Vec<u32>> {
        let no_losses = self.one_in(40);
        let mut risks = Vec::new();
        for _ in 0..n {
            let count = self.between(fewest, most);
            let claims = (0..count).map(|_| match self.between(0, 15) {
                _ if no_losses => 0,
                0 => 0,
                1 => LARGEST,
                2 => 1,
                _ => self.of_any_size(width),
            });
            risks.push(claims.collect());
        }
        risks
    }

    /// Claims with nearly the largest sums: 63 large ones for each of 200 risks or more.
    fn heavy_risks(&mut self) -> Vec<Vec<u32>> {
        let n = self.between(200, 255);
        let mut of_risk = || (0..63).map(|_| self.between(900_000, LARGEST)).collect();
        (0..n).map(|_| of_risk()).collect()
    }

    /// The bits of each risk's claims: none set, all but the first, accidents of equal lengths,
    /// long ones, or any.
    fn joined(&mut self, risks: &[Vec<u32>]) -> Vec<Vec<u8>> {
        let kind = self.between(0, 7);
        let length = self.one_of(&[2, 2, 3, 3, 4, 7]);
        let mut joins = |claim: usize| match kind {
            _ if claim == 0 => 0,
            0 => 0,
            1 => 1,
            2 | 3 => u8::from(!claim.is_multiple_of(length)),
            4 => u8::from(!self.one_in(10)),
            5 => u8::from(self.one_in(4)),
            _ => u8::from(self.one_in(2)),
        };
        let mut of_risk = |risk: &Vec<u32>| (0..risk.len()).map(&mut joins).collect();
        risks.iter().map(&mut of_risk).collect()
    }

    /// No limit, a limit at a corner, or one at or beside a claim or an accident's sum.
    fn loss_limit(&mut self, risks: &[Vec<u32>], joined: &[Vec<u8>]) -> u32 {
        let claims = risks.concat();
        match self.between(0, 8) {
            0..=2 => 0,
            3 => self.one_of(&[1, LARGEST]),
            kind @ (4 | 5) if !claims.is_empty() => {
                let dollars = match kind {
                    4 => self.one_of(&claims).into(),
                    _ => self.one_of(&accidents(risks, joined).concat()),
                };
                let dollars = dollars.min(LARGEST.into()) as u32;
                self.one_of(&[
                    dollars,
                    dollars.saturating_sub(1),
                    (dollars + 1).min(LARGEST),
                ])
            }
            _ => self.of_any_size(20),
        }
    }

    /// Some claims become the limit, or the dollar below or above it.
    fn claims_at_the_limit(&mut self, risks: &mut [Vec<u32>], loss_limit: u32) {
        for claim in risks.iter_mut().flatten() {
            if self.one_in(3) {
                *claim = self.one_of(&[loss_limit, loss_limit - 1, (loss_limit + 1).min(LARGEST)]);
            }
        }
    }

    /// Some accidents of two claims or more come to the limit, or to the dollar below or above it,
    /// and some to 0.
    fn accidents_at_the_limit(
        &mut self,
        risks: &mut [Vec<u32>],
        joined: &[Vec<u8>],
        loss_limit: u32,
    ) {
        for (claims, joined) in risks.iter_mut().zip(joined) {
            for accident in ranges(joined) {
                if accident.len() >= 2 && self.one_in(2) {
                    let sums = [loss_limit - 1, loss_limit, loss_limit, loss_limit + 1, 0];
                    let sum = self.one_of(&sums);
                    self.divide(sum, &mut claims[accident]);
                }
            }
        }
    }

    /// Divides a sum of at most 2 to the power 20 into the claims of an accident.
    fn divide(&mut self, sum: u32, claims: &mut [u32]) {
        let mut left = sum;
        let last = claims.len() - 1;
        for claim in &mut claims[..last] {
            *claim = self.between(left.saturating_sub(LARGEST), left.min(LARGEST));
            left -= *claim;
        }
        claims[last] = left;
    }

    /// Header values that pass questions 2 to 6 and 18.
    fn header(&mut self, loss_limit: u32, risks: &[Vec<u32>]) -> Header {
        let (maximum_mark, minimum_mark) = self.marks();
        let losses: u64 = risks.iter().flatten().map(|&claim| u64::from(claim)).sum();
        let mean = (losses / risks.len() as u64).min(u64::from(LARGEST)) as u32;
        Header {
            loss_limit,
            standard_premium: match self.between(0, 7) {
                0 => 1,
                1 => LARGEST_PREMIUM,
                2..=4 => self.between(mean / 4, 4 * mean).clamp(1, LARGEST_PREMIUM),
                _ => self.of_any_size(22).max(1),
            },
            expense: match self.between(0, 7) {
                0 => 0,
                1 => LARGEST,
                2 | 3 => self.between(0, mean),
                4 | 5 => self.between(mean / 2, 4 * mean).min(LARGEST),
                _ => self.of_any_size(20),
            },
            conversion: match self.between(0, 3) {
                0 => self.one_of(&[1_000, 1_001, 1_999, 2_000]),
                1 => 1_000,
                _ => self.between(1_000, 2_000),
            },
            tax: match self.between(0, 3) {
                0 => self.one_of(&[10_000, 10_001, 19_999, 20_000]),
                1 => 10_000,
                _ => self.between(10_000, 20_000),
            },
            mark_kind: self.between(0, 1),
            maximum_mark,
            minimum_mark,
        }
    }

    /// The maximum and the minimum mark, in their order: equal, a thousandth apart, far apart, or
    /// any two.
    fn marks(&mut self) -> (u32, u32) {
        let one = self.mark();
        let other = match self.between(0, 9) {
            0 => one,
            1 if one < 6_000 => one + 1,
            1 => one - 1,
            2 => self.one_of(&[0, 6_000]),
            3..=5 => self.between(0, 500),
            _ => self.mark(),
        };
        (one.max(other), one.min(other))
    }

    /// A maximum and a minimum mark above it: the marks of a group exchanged, those a thousandth
    /// apart and 6.000 apart more often, and some above 6,000.
    fn crossed_marks(&mut self) -> (u32, u32) {
        let (larger, smaller) = match self.between(0, 8) {
            0 => {
                let smaller = self.one_of(&[6_000, 6_001, 8_190]);
                (self.between(smaller + 1, 8_191), smaller)
            }
            1..=3 => {
                let smaller = self.mark().min(5_999);
                (smaller + 1, smaller)
            }
            4 => (6_000, 0),
            _ => self.marks(),
        };
        if larger == smaller {
            // equal marks are not crossed
            return (0, larger.max(1));
        }
        (smaller, larger)
    }

    fn mark(&mut self) -> u32 {
        match self.between(0, 3) {
            0 => self.one_of(&[0, 0, 1, 999, 1_000, 1_001, 5_999, 6_000, 6_000]),
            1 => self.between(0, 6_000),
            _ => self.between(0, 2_000),
        }
    }

    /// Sets the expense provision to the least that gives no negative basic premium, or to one
    /// dollar less.
    fn bring_basic_near_0(&mut self, sample: &mut Sample) {
        let given = sample.header.expense;
        sample.header.expense = LARGEST;
        let Ok(rated) = second_rater::rate(&sample.file(), AMPLE) else {
            sample.header.expense = given;
            return;
        };
        let dollars = rated.basic / (1_000 * i128::from(rated.risks));
        let least = LARGEST.saturating_sub(u32::try_from(dollars).unwrap_or(u32::MAX));
        sample.header.expense = least.saturating_sub(self.between(0, 1));
    }

    // ---- files

    /// A file: of a sound group, or with its marks crossed, or with first claims joined, or with
    /// one or two kinds of damage done to it, or several of these.
    pub fn file(&mut self) -> Vec<u8> {
        let sample = self.group();
        let mut file = sample.file();
        if self.one_in(5) {
            self.cross_the_marks(&mut file);
        }
        if self.one_in(5) {
            self.join_first_claims(&mut file);
        }
        if self.one_in(2) {
            self.damage(&mut file, &sample);
            if self.one_in(5) {
                self.damage(&mut file, &sample);
            }
        }
        file
    }

    /// Sets the minimum mark above the maximum mark, some as loss ratios of a premium of 1, where
    /// about half come to the same dollars.
    fn cross_the_marks(&mut self, file: &mut [u8]) {
        let (maximum_mark, minimum_mark) = self.crossed_marks();
        set(file, MAXIMUM_MARK, maximum_mark);
        set(file, MINIMUM_MARK, minimum_mark);
        if self.one_in(6) {
            set(file, STANDARD_PREMIUM, 1);
            set(file, MARK_KIND, 0);
        }
    }

    /// In a file of edition 2, sets the bit of the first claim of a risk: of the first that has
    /// claims, of the last, of any, or of all.
    fn join_first_claims(&mut self, file: &mut [u8]) {
        let bits = first_bits(file);
        if bits.is_empty() {
            return;
        }
        for &bit in self.some_of(&bits) {
            set(file, bit, 1);
        }
    }

    fn damage(&mut self, file: &mut Vec<u8>, sample: &Sample) {
        match self.between(0, 11) {
            0 => self.turn_a_bit(file),
            1 => self.turn_a_bit_of_the_header(file),
            2 => file.truncate(self.within(0, file.len())),
            3 => file.truncate(file.len().saturating_sub(self.within(1, 3))),
            4 => file.truncate(self.within(0, HEADER + 3)),
            5 => {
                let len = self.within(1, 9);
                let added = self.one_of(&[0, 0, 0xff, 1]);
                file.resize(file.len() + len, added);
            }
            6 => self.set_a_fill_bit(file, sample),
            7 | 8 => self.spoil_a_field(file),
            9 => self.another_header(file),
            10 => {
                // whatever bytes under this header
                let len = self.within(0, 80);
                file.truncate(HEADER);
                file.extend(self.bytes(len));
            }
            _ => {
                let len = self.within(0, 80);
                *file = self.bytes(len);
            }
        }
    }

    fn turn_a_bit(&mut self, file: &mut [u8]) {
        if !file.is_empty() {
            let bit = self.within(0, 8 * file.len() - 1);
            file[bit / 8] ^= 0x80 >> (bit % 8);
        }
    }

    fn turn_a_bit_of_the_header(&mut self, file: &mut [u8]) {
        let header = file.len().min(HEADER);
        self.turn_a_bit(&mut file[..header]);
    }

    /// Sets one of the bits after the last field, where there is one.
    fn set_a_fill_bit(&mut self, file: &mut [u8], sample: &Sample) {
        let end = bits(sample.edition(), sample.risks.len(), sample.claims().len());
        if file.len() == end.div_ceil(8) && !end.is_multiple_of(8) {
            let bit = self.within(end, 8 * file.len() - 1);
            file[bit / 8] |= 0x80 >> (bit % 8);
        }
    }

    /// Gives one field of the header a value that fails a question, or is the other edition or
    /// another number of risks.
    fn spoil_a_field(&mut self, file: &mut [u8]) {
        if file.len() < HEADER {
            return;
        }
        let any = self.word() as u32;
        match self.between(0, 10) {
            0 => set(file, EDITION, self.one_of(&[0, 3, 4, 9, 10, 15])),
            1 => set(file, SPARE, 1),
            2 => set(file, STANDARD_PREMIUM, 0),
            3 => set(file, CONVERSION, self.one_of(&[0, 999, 2_001, 2_047])),
            4 => set(file, TAX, self.one_of(&[0, 9_999, 20_001, 32_767])),
            5 => set(file, MAXIMUM_MARK, self.one_of(&[6_001, 8_191])),
            6 => set(file, MINIMUM_MARK, self.one_of(&[6_001, 8_191])),
            7 | 8 => set(file, RISKS, 0),
            9 => set(file, RISKS, self.one_of(&[1, 254, 255, any])),
            _ => set(file, EDITION, get(file, EDITION) ^ 3),
        }
    }

    /// Another header over the claims: each field mostly of another group, at times of whatever
    /// bits.
    fn another_header(&mut self, file: &mut [u8]) {
        if file.len() < HEADER {
            return;
        }
        let risks = file[HEADER - 2..HEADER].to_vec();
        let other = self.group().file();
        file[..HEADER].copy_from_slice(&other[..HEADER]);
        if self.one_in(2) {
            // the number of risks and the spare bit stay
            file[HEADER - 2] = (file[HEADER - 2] & 0xfe) | (risks[0] & 1);
            file[HEADER - 1] = risks[1];
        }
        for field in [
            EDITION,
            LOSS_LIMIT,
            STANDARD_PREMIUM,
            EXPENSE,
            CONVERSION,
            TAX,
            MARK_KIND,
            MAXIMUM_MARK,
            MINIMUM_MARK,
            RISKS,
            SPARE,
        ] {
            if self.one_in(16) {
                set(file, field, self.word() as u32);
            }
        }
    }

    /// An entry ratio for Table, some above 600.
    pub fn entry_ratio(&mut self) -> u32 {
        match self.between(0, 7) {
            0 => self.one_of(&[0, 1, 99, 100, 101, 599, 600]),
            1 => self.one_of(&[601, 602, 1_000, 65_536, 65_636, 1 << 31, u32::MAX]),
            _ => self.between(0, 600),
        }
    }

    // ---- schedules

    /// A file, sound or damaged, with a schedule for its standard premium and buffers' lengths for
    /// its number of risks.
    pub fn quote(&mut self) -> Quote {
        let file = self.file();
        let risks = get(&file, RISKS) as usize;
        Quote {
            schedule: self.schedule(get(&file, STANDARD_PREMIUM)),
            premiums_room: self.room(4 * risks),
            differences_room: self.room(risks),
            file,
        }
    }

    /// A schedule: sound, or with a rate above 1,000, a width of 0 or both.
    pub fn schedule(&mut self, standard_premium: u32) -> [Layer; 4] {
        let (widths, rates) = (self.widths(standard_premium), self.rates());
        let mut schedule = [0, 1, 2, 3].map(|k| Layer {
            width: widths[k],
            rate: rates[k],
        });
        if self.one_in(4) {
            self.bring_discount_near_a_half(&mut schedule, standard_premium);
        }
        match self.between(0, 7) {
            0 => self.spoil_a_rate(&mut schedule),
            1 => self.spoil_a_width(&mut schedule),
            2 => {
                self.spoil_a_rate(&mut schedule);
                self.spoil_a_width(&mut schedule);
            }
            _ => {}
        }
        schedule
    }

    /// Widths of which the first three are not 0: some that the standard premium ends at or beside,
    /// some that add past 32 bits.
    fn widths(&mut self, standard_premium: u32) -> [u32; 4] {
        let mut widths = [0; 4];
        let mut end = 0u32;
        for width in &mut widths[..3] {
            let left = standard_premium.saturating_sub(end);
            *width = match self.between(0, 9) {
                0 => 1,
                1 => u32::MAX,
                // the end of the layer is that of the standard premium, or a dollar from it
                2 | 3 => self.one_of(&[left.saturating_sub(1), left, left + 1]),
                // cut to 32 bits the end of the layer is at most the standard premium
                4 => self.between(0, standard_premium).wrapping_sub(end),
                5 => self.of_any_size(32),
                6 => self.of_any_size(22),
                _ => self.between(0, left),
            }
            .max(1);
            end = end.wrapping_add(*width);
        }
        let any = self.of_any_size(32);
        widths[3] = self.one_of(&[0, 0, 1, standard_premium, any, u32::MAX]);
        widths
    }

    /// Rates that are at most 1,000.
    fn rates(&mut self) -> [u32; 4] {
        let kind = self.between(0, 5);
        [0; 4].map(|_| match kind {
            0 => 125 * self.between(0, 8),
            1 => self.one_of(&[0, 0, 1, 499, 500, 501, 999, 1_000, 1_000]),
            2 => self.between(0, 200),
            3 => self.of_any_size(10).min(1_000),
            _ => self.between(0, 1_000),
        })
    }

    /// Gives the first dollar a layer of its own, at the rate that brings the discount to an exact
    /// half, or to a thousandth from it.
    fn bring_discount_near_a_half(&mut self, schedule: &mut [Layer; 4], standard_premium: u32) {
        schedule[0] = Layer { width: 1, rate: 0 };
        let others = thousandths(schedule, standard_premium) % 1_000;
        let sought = self.one_of(&[1_499, 1_500, 1_500, 1_501]);
        schedule[0].rate = ((sought - others) % 1_000) as u32;
    }

    /// A rate above 1,000, mostly one alone.
    fn spoil_a_rate(&mut self, schedule: &mut [Layer; 4]) {
        let k = self.within(0, 3);
        let kept = schedule[k].rate;
        let any = self.between(1_001, u32::MAX);
        // some with the sound rate in the low bits
        let above = [1_001, 2_000, kept | 1 << 16, kept | 1 << 31, u32::MAX, any];
        schedule[k].rate = self.one_of(&above);
        if self.one_in(4) {
            schedule[self.within(0, 3)].rate = u32::MAX;
        }
    }

    /// A width of 0 among the first three, mostly one alone.
    fn spoil_a_width(&mut self, schedule: &mut [Layer; 4]) {
        schedule[self.within(0, 2)].width = 0;
        if self.one_in(4) {
            schedule[self.within(0, 3)].width = 0;
        }
    }

    // ---- plans sold on premiums

    /// A file, sound or damaged, with a maximum and a minimum premium for its group and a number of
    /// trials.
    pub fn terms(&mut self) -> Terms {
        let mut file = match self.between(0, 399) {
            0 => {
                let risks = self.heavy_risks();
                self.group_of(risks).file()
            }
            1..=200 => self.file(),
            _ => self.group().file(),
        };
        // beside a fault of the file the minimum is above the maximum about as often as not
        let (mut bounds, crossed) = match Books::of(&file) {
            Ok(books) => (self.bounds(&books), self.one_in(8)),
            Err(_) => (self.any_bounds(), self.one_in(2)),
        };
        if self.one_in(3) {
            self.bring_target_near_a_total(&mut file, bounds);
        }
        if crossed {
            bounds = self.crossed_bounds(bounds);
        }
        Terms {
            file,
            maximum: bounds.0,
            minimum: bounds.1,
            trials: self.trials(),
        }
    }

    /// A maximum and a minimum premium, in their order: without effect, at premiums that the risks
    /// have for some basic premium, at the mean premium that reaches the total, or any two.
    fn bounds(&mut self, books: &Books) -> (u32, u32) {
        let basic = match self.between(0, 4) {
            0 => 0,
            1 | 2 => self.of_any_size(20),
            _ => books.least_directly(u32::MAX, 0).unwrap_or(0),
        };
        let mean = books.target() / (books.dollar() * books.risks);
        let (one, other) = match self.between(0, 11) {
            0 | 1 => (u32::MAX, 0),
            2..=4 => (self.premium(books, basic), self.premium(books, basic)),
            5 | 6 => (self.premium(books, basic), 0),
            7 => (self.premium(books, basic), u32::MAX),
            8 => {
                let mean = self.beside(mean);
                (mean, mean)
            }
            9 => (self.beside(mean), self.premium(books, basic)),
            10 => (self.beside(mean), self.one_of(&[0, u32::MAX])),
            _ => self.any_bounds(),
        };
        (one.max(other), one.min(other))
    }

    /// Any maximum and minimum premium, in their order.
    fn any_bounds(&mut self) -> (u32, u32) {
        let [one, other] = [0, 1].map(|_| match self.between(0, 4) {
            0 => self.one_of(&[0, 1, u32::MAX]),
            _ => self.of_any_size(32),
        });
        (one.max(other), one.min(other))
    }

    /// A minimum premium above the maximum premium: these exchanged, a dollar apart, or far apart.
    fn crossed_bounds(&mut self, (maximum, minimum): (u32, u32)) -> (u32, u32) {
        let smaller = maximum.min(u32::MAX - 1);
        match self.between(0, 3) {
            0 => (smaller, smaller + 1),
            1 => (minimum.min(u32::MAX - 1), u32::MAX),
            _ if minimum < maximum => (minimum, maximum),
            _ => (0, maximum.max(1)),
        }
    }

    /// The premium of one of the risks for a basic premium, in whole dollars, or a dollar beside.
    fn premium(&mut self, books: &Books, basic: u32) -> u32 {
        let limited = self.one_of(&books.limited);
        self.beside(books.not_held(basic, limited) / books.dollar())
    }

    /// These dollars, or a dollar less or more.
    fn beside(&mut self, dollars: u128) -> u32 {
        let dollars = u32::try_from(dollars).expect("a premium has 32 bits");
        self.one_of(&[dollars, dollars, dollars.saturating_sub(1), dollars + 1])
    }

    /// Sets the expense provision so that the taxed expenses and losses come near the total of the
    /// premiums for some basic premium, where the file has premiums.
    fn bring_target_near_a_total(&mut self, file: &mut [u8], (maximum, minimum): (u32, u32)) {
        let Ok(books) = Books::of(file) else {
            return;
        };
        let total = books.total(self.of_any_size(20), maximum, minimum);
        let untaxed = total / (1_000 * books.risks * books.tax);
        let expense = untaxed.saturating_sub(books.sum_total) / books.risks;
        let expense = expense.min(LARGEST.into()) as u32 + self.between(0, 1);
        set(file, EXPENSE, expense.min(LARGEST));
    }

    /// A number of trials, some above 20 with a smaller one in their low bits.
    fn trials(&mut self) -> u32 {
        let few = self.between(0, 20);
        match self.between(0, 9) {
            0 => self.one_of(&[0, 1, 19, 20, 21, 22]),
            1 => self.one_of(&[32, 63, 64, 127, 255, 256, 65_535, 65_536, 1 << 31, u32::MAX]),
            2 => few | 1 << self.between(5, 31),
            3 | 4 => 20,
            _ => few,
        }
    }

    // ---- values for Write

    /// Values for Write: those of a sound group, or with its marks crossed, or with one or two of
    /// them spoiled, or both.
    pub fn values(&mut self) -> Values {
        let mut sample = self.group();
        if self.one_in(5) {
            let (maximum_mark, minimum_mark) = self.crossed_marks();
            sample = sample.with_marks(maximum_mark, minimum_mark);
        }
        let mut values = sample.values();
        if !self.one_in(3) {
            self.spoil(&mut values);
            if self.one_in(4) {
                self.spoil(&mut values);
            }
        }
        values
    }

    fn spoil(&mut self, values: &mut Values) {
        match self.between(0, 9) {
            0..=2 => self.spoil_the_header(&mut values.header),
            3 => self.spoil_the_number_of_risks(values),
            4 => self.spoil_a_count(values),
            5 => self.spoil_a_claim(&mut values.claims),
            6 => self.spoil_the_sum(values),
            7 => self.spoil_the_edition(&mut values.edition),
            8 => self.spoil_the_bits(values),
            _ => self.spoil_a_first_bit(values),
        }
    }

    /// An edition that is neither 1 nor 2, some with a sound one in the field's own bits.
    fn spoil_the_edition(&mut self, edition: &mut u32) {
        let sound = *edition;
        let any = self.between(3, u32::MAX);
        *edition = self.one_of(&[
            0,
            3,
            4,
            15,
            16,
            sound | 1 << 4,
            sound | 1 << 8,
            sound | 1 << 16,
            sound | 1 << 31,
            u32::MAX,
            any,
        ]);
    }

    /// A list of bits that is not as long as the claims, an entry above 1, or a 1 with edition 1.
    fn spoil_the_bits(&mut self, values: &mut Values) {
        let last = match values.joined.len() {
            0 => return values.joined.push(self.one_of(&[0, 1])),
            len => len - 1,
        };
        let bit = self.within(0, last);
        match self.between(0, 6) {
            0 => values.joined.truncate(last),
            1 => values.joined.truncate(bit),
            2 => {
                let len = last + 1 + self.within(1, 9);
                let added = self.one_of(&[0, 0, 1, 2]);
                values.joined.resize(len, added);
            }
            3 | 4 => values.joined[bit] |= self.one_of(&[2, 2, 4, 128, 254]),
            _ => {
                values.edition = 1;
                values.joined[bit] = 1;
            }
        }
    }

    /// Values of edition 2 with the bit of the first claim of a risk set: of the first that has
    /// claims, of the last, of any, or of all.
    fn spoil_a_first_bit(&mut self, values: &mut Values) {
        let mut at = 0;
        let mut places = Vec::new();
        for &count in &values.counts {
            if count > 0 && at < values.joined.len() {
                places.push(at);
            }
            at += usize::from(count);
        }
        if places.is_empty() {
            return;
        }
        values.edition = 2;
        for &place in self.some_of(&places) {
            values.joined[place] |= 1;
        }
    }

    /// Gives one header value a number that fails its question or its width.
    fn spoil_the_header(&mut self, header: &mut Header) {
        let (value, width, outside): (_, _, &[u32]) = match self.between(0, 7) {
            0 => (&mut header.loss_limit, 20, &[1 << 20]),
            1 => (&mut header.standard_premium, 22, &[0]),
            2 => (&mut header.expense, 20, &[1 << 20]),
            3 => (&mut header.conversion, 11, &[0, 999, 2_001]),
            4 => (&mut header.tax, 15, &[0, 9_999, 20_001]),
            5 => (&mut header.mark_kind, 1, &[2]),
            6 => (&mut header.maximum_mark, 13, &[6_001, 8_191]),
            _ => (&mut header.minimum_mark, 13, &[6_001, 8_191]),
        };
        // past the width, some with the sound value in the field's own bits
        let past = [
            1 << width,
            (1 << width) + *value,
            *value | 1 << 31,
            *value | 1 << 16,
            u32::MAX,
            self.word() as u32,
        ];
        *value = if self.one_in(2) {
            self.one_of(&past)
        } else {
            self.one_of(outside)
        };
    }

    /// No risks, or more than 255.
    fn spoil_the_number_of_risks(&mut self, values: &mut Values) {
        let n = self.one_of(&[0, 0, 256, 257, 300, 511, 512]);
        values.counts.resize(n, 0);
        if self.one_in(2) {
            follow_the_counts(values);
        }
    }

    /// A count that does not fit, mostly with as many claims as the counts add to.
    fn spoil_a_count(&mut self, values: &mut Values) {
        if values.counts.is_empty() {
            return;
        }
        let risk = self.within(0, values.counts.len() - 1);
        let kept = values.counts[risk] & 63;
        values.counts[risk] = self.one_of(&[64, 64 + kept, 128 + kept, 192 + kept, 255]);
        if !self.one_in(3) {
            follow_the_counts(values);
        }
    }

    /// A claim that does not fit.
    fn spoil_a_claim(&mut self, claims: &mut [u32]) {
        if claims.is_empty() {
            return;
        }
        let k = self.within(0, claims.len() - 1);
        let kept = claims[k] & LARGEST;
        let any = self.word() as u32;
        claims[k] = self.one_of(&[1 << 20, kept | 1 << 20, kept | 1 << 31, u32::MAX, any]);
    }

    /// Another number of claims than the counts add to, mostly with as many bits.
    fn spoil_the_sum(&mut self, values: &mut Values) {
        match self.between(0, 2) {
            0 => values.claims.push(1),
            1 => {
                values.claims.pop();
            }
            _ if values.counts.is_empty() => values.claims.push(0),
            _ => {
                let risk = self.within(0, values.counts.len() - 1);
                values.counts[risk] ^= 1;
            }
        }
        if !self.one_in(4) {
            values.joined.resize(values.claims.len(), 0);
        }
    }
}
