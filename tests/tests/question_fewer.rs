//! A question fewer, job 7 of document 02, through the exported calls: marks that are in order as
//! written are in order in dollars, of either kind, so that question 11 is not asked, its number is
//! kept free, and no file has another result by this. Every answer, number and byte is held to the
//! second rater. LG and LH are worked out here a second time, by step 2 of document 01, and the
//! answers are held to those of the questions that still had 11 among them.
//!
//! The gate runs 50,688 chosen files, 108,009 with each mark beside itself and the next, and
//! 200,000 generated ones from a fixed seed. A longer run, with another seed:
//!
//!     RETRO_FILES=5000000 RETRO_SEED=7 \
//!         cargo test --offline --release --test question_fewer -- generated

use retro_tests::calls::{self, Numbers};
use retro_tests::comparison::{about_half_in_either_edition, compare_in_threads, say, setting};
use retro_tests::generator::{
    get, set, with, Quote, Random, CONVERSION, EXPENSE, HEADER, MARK_KIND, MAXIMUM_MARK,
    MINIMUM_MARK, RISKS, STANDARD_PREMIUM, TAX,
};
use retro_tests::held_calls::{Call, HeldCalls, BYTES, ENTRIES, TAKEN_OUT};
use retro_tests::samples::{
    crossed_marks, one_claim_of_one, schedules, stock, two_risks_of_ten, Sample, AMPLE,
};
use retro_tests::second_rater::{self, Header};
use retro_tests::{repository, QUESTIONS_OF_A_FILE};
use std::collections::BTreeMap;
use std::fs;
use std::sync::Mutex;
use std::time::Instant;

/// Generated files in the gate.
const FILES: u64 = 200_000;
/// The seed in the gate.
const SEED: u64 = 1_965;
/// How often each answer must occur at least among the generated files.
const LEAST_OF_ANSWERS: u64 = 100;
/// How often each class of files must occur at least, of either kind in either edition.
const LEAST: u64 = 500;

/// The largest claim, and the largest expense provision.
const LARGEST: u32 = 1_048_575;
/// SA of the largest group: 255 × 63 claims of the largest value.
const LARGEST_SUM: u128 = 16_845_357_375;

// ---- step 2, and the questions with 11 among them

/// What a mark is taken of, by step 2 of document 01: m × P ÷ 1,000, or m × SA ÷ (1,000 × n).
#[derive(Clone, Copy)]
struct Measure {
    /// P or SA.
    of: u128,
    /// 1,000 or 1,000 × n.
    parts: u128,
}

impl Measure {
    fn new(kind: u32, standard_premium: u32, risks: u32, sum_limited: u128) -> Measure {
        match kind {
            0 => Measure {
                of: standard_premium.into(),
                parts: 1_000,
            },
            _ => Measure {
                of: sum_limited,
                parts: 1_000 * u128::from(risks),
            },
        }
    }

    /// A mark in whole dollars, rounded down.
    fn dollars(self, mark: u32) -> u128 {
        u128::from(mark) * self.of / self.parts
    }

    /// The least mark of so many dollars.
    fn least_mark(self, dollars: u128) -> u32 {
        (dollars * self.parts).div_ceil(self.of) as u32
    }
}

/// The marks of a group as written and in dollars, with what the dollars are made of.
struct Marks {
    edition: u32,
    kind: u32,
    maximum_mark: u32,
    minimum_mark: u32,
    standard_premium: u32,
    risks: u32,
    /// SL.
    sum_total: u128,
    /// SA.
    sum_limited: u128,
    /// LG.
    maximum: u128,
    /// LH.
    minimum: u128,
}

impl Marks {
    fn of(sample: &Sample) -> Marks {
        let Header {
            loss_limit,
            standard_premium,
            mark_kind,
            maximum_mark,
            minimum_mark,
            ..
        } = sample.header;
        let limit = match loss_limit {
            0 => u64::MAX,
            limit => limit.into(),
        };
        let risks = sample.risks.len() as u32;
        let accidents = sample.accidents().concat();
        let limited = accidents.iter().map(|&sum| u128::from(sum.min(limit)));
        let sum_limited = limited.sum();
        let measure = Measure::new(mark_kind, standard_premium, risks, sum_limited);
        Marks {
            edition: sample.edition(),
            kind: mark_kind,
            maximum_mark,
            minimum_mark,
            standard_premium,
            risks,
            sum_total: accidents.iter().copied().map(u128::from).sum(),
            sum_limited,
            maximum: measure.dollars(maximum_mark),
            minimum: measure.dollars(minimum_mark),
        }
    }

    /// The marks of a file that passes 1 to 9 and 19, whether or not it passes 18.
    fn in_file(file: &[u8]) -> Option<Marks> {
        let marks @ [maximum, minimum] = [MAXIMUM_MARK, MINIMUM_MARK].map(|mark| get(file, mark));
        if file.len() < HEADER || marks.iter().any(|&mark| mark > 6_000) {
            return None;
        }
        // marks of 0 pass 6 and 18
        let passing = with(&with(file, MAXIMUM_MARK, 0), MINIMUM_MARK, 0);
        let group = second_rater::read(&passing, AMPLE, AMPLE, AMPLE).ok()?;
        Some(Marks::of(&Sample::of(&group).with_marks(maximum, minimum)))
    }

    fn written(&self) -> (u32, u32) {
        (self.maximum_mark, self.minimum_mark)
    }

    /// Whether 18 is answered No.
    fn crossed(&self) -> bool {
        self.minimum_mark > self.maximum_mark
    }

    /// Whether the minimum mark is this many thousandths below the maximum mark, or more.
    fn apart(&self, thousandths: u32) -> bool {
        self.maximum_mark >= self.minimum_mark + thousandths
    }

    fn a_thousandth_apart(&self) -> bool {
        self.maximum_mark == self.minimum_mark + 1
    }

    /// The first No of Rate or Guaranteed where 11 is asked after 10, "Is LH at most LG?", of a
    /// file whose first No is this where it is not asked.
    fn with_11_asked(&self, answer: u32) -> u32 {
        match answer {
            // 10 is passed
            0 | 12 | 13 | 16 | 17 if self.minimum > self.maximum => TAKEN_OUT,
            _ => answer,
        }
    }
}

/// Of a file that passes the questions of its header, LH is at most LG with any losses, also where
/// 8, 9, 19 or 10 is answered No.
fn in_order_with_any_losses(file: &[u8]) {
    let [kind, standard_premium, risks] =
        [MARK_KIND, STANDARD_PREMIUM, RISKS].map(|field| get(file, field));
    let n = u128::from(risks);
    for sum_limited in [0, 1, n - 1, n, 999 * n, 1_000 * n + 1, LARGEST_SUM] {
        let measure = Measure::new(kind, standard_premium, risks, sum_limited);
        let [maximum, minimum] =
            [MAXIMUM_MARK, MINIMUM_MARK].map(|mark| measure.dollars(get(file, mark)));
        assert!(minimum <= maximum, "SA {sum_limited}, {file:02x?}");
    }
}

/// The questions with 11 among them are such that they refuse what document 01 refused.
#[test]
fn marks_that_document_01_refused_with_11() {
    for (standard_premium, dollars, refused) in [(1, (0, 0), false), (1_000, (900, 950), true)] {
        let marks = Marks::of(&crossed_marks(standard_premium));
        assert_eq!((marks.maximum, marks.minimum), dollars);
        for answer in [0, 12, 13, 16, 17] {
            let expected = if refused { 11 } else { answer };
            assert_eq!(marks.with_11_asked(answer), expected);
        }
        for answer in [1, 2, 3, 4, 5, 6, 18, 7, 8, 9, 19, 10] {
            assert_eq!(marks.with_11_asked(answer), answer);
        }
        // 18 comes first
        let file = crossed_marks(standard_premium).file_of_any_marks();
        HeldCalls::new().all_give(&file, 18);
    }
}

// ---- the comparison

/// Holds Rate and Guaranteed of a file to the second rater, LH to LG, and both answers to those
/// with 11 asked. Gives the marks of a file that passes 1 to 9 and 19.
fn compare(held_calls: &mut HeldCalls, quote: &Quote) -> Option<Marks> {
    let Quote {
        file,
        schedule,
        premiums_room,
        differences_room,
    } = quote;
    let answers = [
        held_calls.rate(file, *premiums_room),
        held_calls.guaranteed(file, schedule, *premiums_room, *differences_room),
    ];
    if !matches!(answers[0], 1..=7 | 18) {
        in_order_with_any_losses(file);
    }
    let marks = Marks::in_file(file)?;
    for answer in answers {
        assert_eq!(answer == 18, marks.crossed(), "{file:02x?}");
        let no_losses = !marks.crossed() && marks.sum_limited == 0;
        assert_eq!(answer == 10, no_losses, "{file:02x?}");
        assert_eq!(marks.with_11_asked(answer), answer, "{file:02x?}");
        assert_ne!(answer, TAKEN_OUT, "{file:02x?}");
    }
    match second_rater::marks_in_dollars(file) {
        Ok((maximum, minimum)) => {
            assert_eq!((maximum, minimum), (marks.maximum, marks.minimum));
            assert!(minimum <= maximum, "{file:02x?}");
        }
        Err(question) => assert_eq!((question, marks.crossed()), (18, true)),
    }
    Some(marks)
}

/// A class of files: its name, and whether a file with these marks is one of it.
type Class = (&'static str, fn(&Marks) -> bool);

/// The classes of marks that are in order.
const IN_ORDER: [Class; 34] = [
    ("marks 6.000 and 0", |m| m.written() == (6_000, 0)),
    ("marks 1.000 or more apart", |m| m.apart(1_000)),
    ("equal marks", |m| m.maximum_mark == m.minimum_mark),
    ("both marks 0", |m| m.written() == (0, 0)),
    ("both marks 6.000", |m| m.written() == (6_000, 6_000)),
    ("a thousandth apart", |m| m.a_thousandth_apart()),
    ("marks 0.001 and 0", |m| m.written() == (1, 0)),
    ("marks 6.000 and 5.999", |m| m.written() == (6_000, 5_999)),
    ("P 1", |m| m.standard_premium == 1),
    ("P 2", |m| m.standard_premium == 2),
    ("P 999 to 1,001", |m| {
        (999..=1_001).contains(&m.standard_premium)
    }),
    ("P 4,194,303", |m| m.standard_premium == 4_194_303),
    ("SA 0", |m| m.sum_limited == 0),
    ("SA 1", |m| m.sum_limited == 1),
    ("SA 1 by the limit", |m| {
        m.sum_limited == 1 && m.sum_total > 1
    }),
    ("n 1", |m| m.risks == 1),
    ("n 2", |m| m.risks == 2),
    ("n 3", |m| m.risks == 3),
    ("n 255", |m| m.risks == 255),
    ("P 1, n 255", |m| (m.standard_premium, m.risks) == (1, 255)),
    ("SA 1, n 255", |m| (m.sum_limited, m.risks) == (1, 255)),
    ("P 1, SA 1, n 255", |m| {
        (m.standard_premium, m.sum_limited, m.risks) == (1, 1, 255)
    }),
    ("P 1, a thousandth apart", |m| {
        m.standard_premium == 1 && m.a_thousandth_apart()
    }),
    ("SA 0, a thousandth apart", |m| {
        m.sum_limited == 0 && m.a_thousandth_apart()
    }),
    ("SA 1, a thousandth apart", |m| {
        m.sum_limited == 1 && m.a_thousandth_apart()
    }),
    ("SA 1, n 255, a thousandth apart", |m| {
        (m.sum_limited, m.risks) == (1, 255) && m.a_thousandth_apart()
    }),
    ("LH = LG", |m| m.minimum == m.maximum),
    ("LH below LG", |m| m.minimum < m.maximum),
    ("LH = LG of equal marks, above 0", |m| {
        m.minimum_mark == m.maximum_mark && m.minimum == m.maximum && m.minimum > 0
    }),
    ("LH = LG, marks apart", |m| {
        m.apart(1) && m.minimum == m.maximum
    }),
    ("LH = LG, 0.100 or more apart", |m| {
        m.apart(100) && m.minimum == m.maximum
    }),
    ("a thousandth apart, LH = LG", |m| {
        m.a_thousandth_apart() && m.minimum == m.maximum
    }),
    ("a thousandth apart, LG = LH + 1", |m| {
        m.a_thousandth_apart() && m.minimum + 1 == m.maximum
    }),
    ("a thousandth apart, LG above that", |m| {
        m.a_thousandth_apart() && m.minimum + 1 < m.maximum
    }),
];

/// The classes of marks that are crossed, which 18 refuses. Those with LH above LG document 01
/// refused with 11.
const CROSSED: [Class; 4] = [
    ("minimum a thousandth above", |m| {
        m.minimum_mark == m.maximum_mark + 1
    }),
    ("a thousandth above, LH = LG", |m| {
        m.minimum_mark == m.maximum_mark + 1 && m.minimum == m.maximum
    }),
    ("a thousandth above, LH above LG", |m| {
        m.minimum_mark == m.maximum_mark + 1 && m.minimum > m.maximum
    }),
    ("n 255, minimum above", |m| m.risks == 255),
];

/// How often each class occurred: of loss ratio marks in edition 1 and in edition 2, then of entry
/// ratio marks.
#[derive(Default)]
struct Classes(BTreeMap<&'static str, [u64; 4]>);

impl Classes {
    fn add(&mut self, marks: &Marks) {
        let column = 2 * marks.kind as usize + marks.edition as usize - 1;
        let classes: &[Class] = match marks.crossed() {
            false => &IN_ORDER,
            true => &CROSSED,
        };
        for (name, holds) in classes {
            if holds(marks) {
                self.0.entry(name).or_default()[column] += 1;
            }
        }
    }

    /// The classes with how often they occurred.
    fn all(&self) -> impl Iterator<Item = (&'static str, [u64; 4])> + '_ {
        let names = IN_ORDER.iter().chain(&CROSSED).map(|(name, _)| *name);
        names.map(|name| (name, self.0.get(name).copied().unwrap_or_default()))
    }

    /// One line a class.
    fn lines(&self) -> String {
        let mut lines = format!("{:<36}{:>12}{:>18}", "", "loss ratios", "entry ratios");
        lines += &format!("\n{:<36}", "files in edition");
        lines += &format!("{:>8}{:>8}{:>10}{:>8}", 1, 2, 1, 2);
        for (name, [a, b, c, d]) in self.all() {
            lines += &format!("\n{name:<36}{a:>8}{b:>8}{c:>10}{d:>8}");
        }
        lines
    }

    /// The classes that occurred fewer times than this, of some kind in some edition.
    fn rarer_than(&self, least: u64) -> Vec<(&'static str, [u64; 4])> {
        let rare = |times: &[u64; 4]| times.iter().any(|&times| times < least);
        self.all().filter(|(_, times)| rare(times)).collect()
    }
}

/// Standard premiums.
const PREMIUMS: [u32; 6] = [1, 2, 999, 1_000, 1_001, 4_194_303];

/// Maximum and minimum marks, in this order: far apart, equal, a thousandth apart, and crossed by a
/// thousandth.
const MARKS: [(u32, u32); 24] = [
    (6_000, 0),
    (6_000, 1),
    (5_999, 0),
    (6_000, 1_000),
    (900, 200),
    (0, 0),
    (1, 1),
    (999, 999),
    (1_000, 1_000),
    (1_001, 1_001),
    (5_999, 5_999),
    (6_000, 6_000),
    (1, 0),
    (2, 1),
    (1_000, 999),
    (1_001, 1_000),
    (3_000, 2_999),
    (5_999, 5_998),
    (6_000, 5_999),
    (0, 1),
    (999, 1_000),
    (1_000, 1_001),
    (2_999, 3_000),
    (5_999, 6_000),
];

/// Losses: the loss limit, the claims of each risk but one, and the claims of that one.
type Losses = (u32, &'static [u32], &'static [u32]);

/// None; none by claims of 0; 1 in all; 1 or little more by a limit; and means of 1, of 1,000 and a
/// little less or more, and of about the largest claim.
const LOSSES: [Losses; 11] = [
    (0, &[], &[]),
    (5, &[0], &[0]),
    (0, &[], &[1]),
    (0, &[0], &[1]),
    (1, &[], &[LARGEST]),
    // one accident in edition 2
    (1, &[], &[700, 300, 0, 48]),
    (0, &[1], &[1]),
    (0, &[1_000], &[1_000]),
    (0, &[1_000], &[999]),
    (0, &[1_000], &[1_001]),
    (0, &[LARGEST], &[LARGEST - 1]),
];

/// A file of these losses, of either edition and with so many risks, where the one risk is in the
/// middle. In edition 2 the claims of a risk are one accident. The header is that of a claim of 1.
fn file_of(edition: u32, n: usize, losses: Losses) -> Vec<u8> {
    let (loss_limit, others, one) = losses;
    let mut sample = one_claim_of_one(n);
    sample.header.loss_limit = loss_limit;
    sample.risks = vec![others.to_vec(); n];
    sample.risks[n / 2] = one.to_vec();
    if edition == 2 {
        let joined: Vec<(usize, usize)> = (1..one.len()).map(|claim| (n / 2, claim)).collect();
        sample = sample.in_edition_2(&joined);
    }
    sample.file()
}

/// The files of all losses, of either edition and with 1, 2, 3 and 255 risks.
fn chosen_files() -> Vec<Vec<u8>> {
    let mut files = Vec::new();
    for losses in LOSSES {
        for n in [1, 2, 3, 255] {
            files.extend([1, 2].map(|edition| file_of(edition, n, losses)));
        }
    }
    files
}

/// Sets the maximum and the minimum mark, in whatever order they are.
fn set_marks(file: &mut [u8], (maximum, minimum): (u32, u32)) {
    set(file, MAXIMUM_MARK, maximum);
    set(file, MINIMUM_MARK, minimum);
}

/// Each combination of losses, a number of risks, an edition, expenses with a loss conversion
/// factor, a mark kind, a standard premium and marks.
#[test]
fn each_combination() {
    let start = Instant::now();
    let mut held_calls = HeldCalls::new();
    let mut classes = Classes::default();
    let mut files = 0;
    for file in chosen_files() {
        let n = get(&file, RISKS) as usize;
        let mut quote = Quote {
            file,
            schedule: stock(),
            premiums_room: 4 * n,
            differences_room: n,
        };
        for (expense, conversion, kind) in [
            (0, 1_000, 0),
            (0, 1_000, 1),
            (LARGEST, 1_250, 0),
            (LARGEST, 1_250, 1),
        ] {
            set(&mut quote.file, EXPENSE, expense);
            set(&mut quote.file, CONVERSION, conversion);
            set(&mut quote.file, MARK_KIND, kind);
            for standard_premium in PREMIUMS {
                set(&mut quote.file, STANDARD_PREMIUM, standard_premium);
                for marks in MARKS {
                    set_marks(&mut quote.file, marks);
                    let marks = compare(&mut held_calls, &quote).expect("a sound file");
                    classes.add(&marks);
                    files += 1;
                }
            }
        }
    }
    let counts = &held_calls.given;
    say(&format!("comparison: {files} chosen files"));
    say(&counts.lines(&[Call::Rate, Call::Guaranteed]));
    say(&classes.lines());
    say(&format!(
        "comparison: no difference, {:.1} s",
        start.elapsed().as_secs_f64()
    ));
    // 11 losses, 4 numbers of risks, 2 editions, 2 expenses, 2 kinds, 6 premiums and 24 marks, of
    // which 5 are crossed; 2 of the 11 losses are 0
    assert_eq!(files, 11 * 4 * 2 * 2 * 2 * 6 * 24);
    for call in [Call::Rate, Call::Guaranteed] {
        assert_eq!(counts.of(call, 18), files * 5 / 24);
        assert_eq!(counts.of(call, 10), files * 19 / 24 * 2 / 11);
    }
    assert_eq!(counts.of_any_call(TAKEN_OUT), 0);
    let rare = classes.rarer_than(1);
    assert!(rare.is_empty(), "{rare:?}");
}

/// Generated files, everything lent lying against unreadable pages.
#[test]
fn generated_files() {
    let files = setting("RETRO_FILES", FILES);
    let seed = setting("RETRO_SEED", SEED);
    let start = Instant::now();
    let with_sum = |file: Vec<u8>| {
        let marks = Marks::in_file(&file).expect("a sound file");
        (file, marks.sum_limited)
    };
    let chosen: Vec<(Vec<u8>, u128)> = chosen_files().into_iter().map(with_sum).collect();
    let classes = Mutex::new(Classes::default());
    let counts = compare_in_threads(files, seed, |held_calls, random| {
        let quote = generated(random, &chosen);
        if let Some(marks) = compare(held_calls, &quote) {
            classes.lock().expect("no difference").add(&marks);
        }
    });
    let classes = classes.into_inner().expect("no difference");
    say(&format!(
        "comparison: {files} files with marks of all distances, seed {seed}"
    ));
    say(&counts.lines(&[Call::Rate, Call::Guaranteed]));
    say(&classes.lines());
    // all but those of a question of the header
    let in_order = [0, 8, 9, 19, 10, 12, 13].map(|answer| counts.of(Call::Rate, answer));
    say(&format!(
        "comparison: no difference, LH at most LG in {} files, {:.1} s",
        in_order.iter().sum::<u64>(),
        start.elapsed().as_secs_f64()
    ));
    let rare = counts.rarer_than(LEAST_OF_ANSWERS, &[Call::Rate, Call::Guaranteed]);
    assert!(
        rare.is_empty(),
        "fewer than {LEAST_OF_ANSWERS} times: {rare:?}"
    );
    assert_eq!(counts.of_any_call(TAKEN_OUT), 0);
    for call in [Call::Rate, Call::Guaranteed] {
        about_half_in_either_edition(&counts, call);
    }
    let rare = classes.rarer_than(LEAST);
    assert!(rare.is_empty(), "fewer than {LEAST} times: {rare:?}");
}

/// A file with a schedule and buffers' lengths: one of the chosen files or that of a generated
/// group, with chosen values in its header; or any, sound or damaged.
fn generated(random: &mut Random, chosen: &[(Vec<u8>, u128)]) -> Quote {
    let (mut file, sum_limited) = match random.between(0, 9) {
        0 | 1 => return random.quote(),
        2 => {
            let sample = random.group();
            (sample.file(), Marks::of(&sample).sum_limited)
        }
        _ => chosen[random.within(0, chosen.len() - 1)].clone(),
    };
    let n = get(&file, RISKS);
    let kind = random.between(0, 1);
    let standard_premium = match random.one_in(4) {
        true => 1,
        false => random.one_of(&PREMIUMS),
    };
    let any = random.of_any_size(20);
    for (field, value) in [
        (STANDARD_PREMIUM, standard_premium),
        (EXPENSE, random.one_of(&[0, 1, any, LARGEST, LARGEST])),
        (CONVERSION, random.one_of(&[1_000, 1_000, 1_100, 2_000])),
        (TAX, random.one_of(&[10_000, 10_500, 20_000])),
        (MARK_KIND, kind),
    ] {
        set(&mut file, field, value);
    }
    let measure = Measure::new(kind, standard_premium, n, sum_limited);
    set_marks(&mut file, generated_marks(random, measure));
    Quote {
        file,
        schedule: random.schedule(standard_premium),
        premiums_room: random.room(4 * n as usize),
        differences_room: random.room(n as usize),
    }
}

/// A maximum and a minimum mark at any distance: 6.000, large, some tenths, a thousandth, none, or
/// crossed by a thousandth. Of the close ones some are where another dollar begins.
fn generated_marks(random: &mut Random, measure: Measure) -> (u32, u32) {
    let most = measure.dollars(6_000);
    let mark = match random.between(0, 3) {
        0 => random.one_of(&[1, 999, 1_000, 1_001, 2_000, 3_000, 5_999]),
        1 | 2 if most > 0 => measure.least_mark(1 + u128::from(random.word()) % most),
        _ => random.between(1, 6_000),
    };
    match random.between(0, 15) {
        0 => (6_000, 0),
        1 => (random.between(4_000, 6_000), random.between(0, 2_000)),
        2 | 3 => (mark, mark.saturating_sub(random.between(100, 900))),
        4 => (0, 0),
        5 => (6_000, 6_000),
        6 | 7 => (mark, mark),
        8 => (1, 0),
        9 => (6_000, 5_999),
        10..=12 => (mark, mark - 1),
        _ => (mark - 1, mark),
    }
}

// ---- each mark

/// Each mark beside itself and beside the next: in dollars the next is never below, and all steps
/// from 0 to 6.000 add to the dollars of 6.000.
#[test]
fn each_mark_beside_itself_and_the_next() {
    let mut held_calls = HeldCalls::new();
    for (kind, standard_premium, n, dollars) in [
        // of P
        (0, 1, 2, 6),
        (0, 2, 2, 12),
        (0, 999, 2, 5_994),
        (0, 1_000, 2, 6_000),
        (0, 1_001, 2, 6_006),
        // of SA 1 over n
        (1, 4_194_303, 1, 6),
        (1, 4_194_303, 2, 3),
        (1, 4_194_303, 3, 2),
        (1, 4_194_303, 255, 0),
    ] {
        let mut sample = one_claim_of_one(n);
        sample.header.mark_kind = kind;
        sample.header.standard_premium = standard_premium;
        // more than SS can be, so that each is rated
        sample.header.expense = 6_006;
        let mut file = sample.file();
        let mut rated = |maximum: u32, minimum: u32| {
            set_marks(&mut file, (maximum, minimum));
            assert_eq!(held_calls.rate(&file, 4 * n), 0, "{maximum} {minimum}");
            second_rater::marks_in_dollars(&file).unwrap()
        };
        let mut sum = 0;
        for mark in 0..6_000 {
            let (maximum, minimum) = rated(mark, mark);
            assert_eq!(maximum, minimum);
            let (next, same) = rated(mark + 1, mark);
            assert_eq!(same, minimum);
            assert!(next >= minimum, "{mark}");
            sum += next - minimum;
        }
        assert_eq!(rated(6_000, 6_000), (dollars, dollars));
        assert_eq!(sum, dollars);
    }
    assert_eq!(held_calls.given.of(Call::Rate, 0), 9 * 12_001);
}

// ---- the questions

/// The calls, by the names that the header has.
const NAMED: [(&str, Call); 7] = [
    ("retro_rate", Call::Rate),
    ("retro_guaranteed", Call::Guaranteed),
    ("retro_plan", Call::Plan),
    ("retro_table", Call::Table),
    ("retro_read", Call::Read),
    ("retro_write", Call::Write),
    ("retro_charge", Call::Charge),
];

/// What any call is counted with, in all tests, is one of its answers: 11 is among those of none.
#[test]
fn no_call_answers_11() {
    let asked = [1, 2, 3, 4, 5, 6, 18, 7, 8, 9, 19, 10, 12, 13];
    assert_eq!(Call::Rate.answers()[1..], asked);
    let asked = [&asked[..], &[16, 17]].concat();
    assert_eq!(Call::Guaranteed.answers()[1..], asked);
    for (name, call) in NAMED {
        assert!(!call.answers().contains(&11), "{name}");
    }
    assert!(!QUESTIONS_OF_A_FILE.contains(&11));
    assert!(!repository().join("examples/refused-11.group").exists());
}

/// What a line of the header says that this call asks.
fn asked_by<'a>(line: &'a str, name: &str) -> Option<&'a str> {
    let list = line.strip_prefix(name)?.trim_start();
    list.strip_prefix("asks ")
}

/// The numbers of a list such as `2 of the edition, 3 to 6, 18, 7, then 15`.
fn numbers_in(list: &str) -> Vec<u32> {
    let mut numbers = Vec::new();
    for part in list.split(", ") {
        let part = part.strip_prefix("then ").unwrap_or(part);
        let words: Vec<&str> = part.split(' ').collect();
        match words[..] {
            [first, "to", last] => {
                numbers.extend(first.parse::<u32>().unwrap()..=last.parse().unwrap());
            }
            _ => numbers.push(words[0].parse().unwrap()),
        }
    }
    numbers
}

/// The number and the text of a line in the header's table of questions.
fn numbered(line: &str) -> Option<(u32, &str)> {
    let (number, text) = line.trim_start().split_once("  ")?;
    Some((number.parse().ok()?, text))
}

/// The header lists for each call the questions that it asks, and keeps the number 11 free.
#[test]
fn the_header_keeps_11_free() {
    let header = fs::read_to_string(repository().join("include/retro.h")).unwrap();
    let lines = || {
        header
            .lines()
            .filter_map(|line| line.strip_prefix(" *     "))
    };
    for (name, call) in NAMED {
        let lists = lines().filter_map(|line| asked_by(line, name));
        let lists: Vec<Vec<u32>> = lists.map(numbers_in).collect();
        assert_eq!(lists, [&call.answers()[1..]], "{name}");
    }
    // the table has a line for each number, in their order
    let table: Vec<(u32, &str)> = lines().filter_map(numbered).collect();
    let asked = NAMED.iter().flat_map(|(_, call)| call.answers());
    let last = *asked.max().unwrap();
    assert!(table.iter().map(|(number, _)| *number).eq(1..=last));
    for (number, text) in table {
        let asks = |(_, call): &(&str, Call)| call.answers().contains(&number);
        assert_eq!(NAMED.iter().any(asks), number != 11, "{number}");
        let free = text.starts_with("(not asked any more");
        assert_eq!(free, number == 11, "{number}");
    }
}

/// 10, then 12, then 13, then 16 and 17: a file that fails all of them, with one put right after
/// the other.
#[test]
fn questions_10_12_13_16_and_17_in_their_order() {
    let mut held_calls = HeldCalls::new();
    let mut sample = two_risks_of_ten(2_000);
    sample.header.standard_premium = 10;
    for kind in [0, 1] {
        sample.header.mark_kind = kind;
        // 60 and 0, 60 and 60, 60 and 59, and 59 and 59 dollars of P 10 and of a mean loss of 10
        for marks in [(6_000, 0), (6_000, 6_000), (6_000, 5_999), (5_999, 5_998)] {
            let with_losses = sample.with_marks(marks.0, marks.1);
            let without = Sample {
                risks: vec![vec![], vec![0]],
                ..with_losses.clone()
            };
            let mut with_expenses = with_losses.clone();
            with_expenses.header.expense = 1_000;
            let [_, rate, _, width, both] = schedules();
            let mut answers = |sample: &Sample, room: usize| {
                let file = sample.file();
                let rated = held_calls.rate(&file, 4 * room);
                let guaranteed = [both, rate, width, stock()]
                    .map(|layers| held_calls.guaranteed(&file, &layers, 4 * room, room));
                (rated, guaranteed)
            };
            for room in [0, 1, 2] {
                assert_eq!(answers(&without, room), (10, [10; 4]), "{marks:?}");
                assert_eq!(answers(&with_losses, room), (12, [12; 4]), "{marks:?}");
            }
            for room in [0, 1] {
                assert_eq!(answers(&with_expenses, room), (13, [13; 4]), "{marks:?}");
            }
            let passed = (0, [16, 16, 17, 0]);
            assert_eq!(answers(&with_expenses, 2), passed, "{marks:?}");
        }
    }
}

// ---- the figures

/// What Rate gives on a group with these marks, held to the second rater too: n, M, Q and the sum
/// billed, and the premiums.
fn rated(sample: &Sample, maximum: u32, minimum: u32) -> Result<(Numbered, Vec<u32>), u32> {
    let file = sample.with_marks(maximum, minimum).file_of_any_marks();
    let given = calls::rated(&file, BYTES);
    assert_eq!(
        HeldCalls::new().rate(&file, BYTES),
        given.as_ref().err().copied().unwrap_or(0)
    );
    given.map(|rated| (rated.numbers, rated.premiums))
}

/// n, M, Q and the sum billed.
type Numbered = (u32, u64, u64, u64);

/// Two risks of 500 and 1,500 with e 100, c 1.200, T 1.0000, no limit, and loss ratio marks.
fn two_risks_on(standard_premium: u32) -> Sample {
    Sample {
        header: Header {
            loss_limit: 0,
            standard_premium,
            expense: 100,
            conversion: 1_200,
            tax: 10_000,
            mark_kind: 0,
            maximum_mark: 0,
            minimum_mark: 0,
        },
        risks: vec![vec![500], vec![1_500]],
        joined: None,
    }
}

#[test]
fn loss_ratio_marks_equal_and_a_thousandth_apart() {
    let sample = two_risks_on(1_000);
    // LG and LH 900: SX 600 and SS 400, so M is 200,000 − 200 × 2,000 + 1,200 × 200; each K is 900,
    // and each premium (40,000 + 2,400 × 900) ÷ 2,000.
    let equal = ((2, 40_000, 0, 2_200), vec![1_100, 1_100]);
    assert_eq!(rated(&sample, 900, 900), Ok(equal));
    // LG 900 and LH 899: SS 399, so M is 1,200 more; K is 899 and 900, and the premiums are
    // (41,200 + 2,400 × 899) ÷ 2,000 = 1,099.4 and 1,100.6.
    let apart = ((2, 41_200, 0, 2_200), vec![1_099, 1_101]);
    assert_eq!(rated(&sample, 900, 899), Ok(apart.clone()));
    assert_eq!(rated(&sample, 899, 900), Err(18));
    // LG 899 and LH 898 of P 999: SX 601 and SS 398, so M is −200,000 + 1,200 × 203; the premiums
    // are (43,600 + 2,400 × 898) ÷ 2,000 and 1.2 more.
    let of_999 = ((2, 43_600, 0, 2_200), vec![1_099, 1_101]);
    assert_eq!(rated(&two_risks_on(999), 900, 899), Ok(of_999));
    // of P 1,001 they are 900.9 and 899.899
    assert_eq!(rated(&two_risks_on(1_001), 900, 899), Ok(apart));

    // Guaranteed cost is P, as the stock schedule has no discount on the first 5,000.
    let file = sample.with_marks(900, 899).file();
    let mut numbers = Numbers::default();
    let (mut premiums, mut differences) = ([0; 8], [0; 2]);
    let (layers, lent) = (stock().into(), &mut numbers.lend());
    let answer = calls::guaranteed(&file, layers, &mut premiums, &mut differences, lent);
    assert_eq!((answer, numbers.basic, numbers.billed), (0, 41_200, 2_200));
    assert_eq!((numbers.guaranteed, differences), (1_000, [99, 101]));
    let crossed = sample.with_marks(899, 900).file_of_any_marks();
    let answer = HeldCalls::new().guaranteed(&crossed, &stock(), BYTES, ENTRIES);
    assert_eq!(answer, 18);
}

#[test]
fn loss_ratio_marks_of_0_dollars() {
    // All marks below 1.000 are 0 dollars of P 1: SX 2,000, so M is −200,000 + 1,200 × 2,000, and
    // each premium half of 2,200.
    let sample = two_risks_on(1);
    let expected = ((2, 2_200_000, 0, 2_200), vec![1_100, 1_100]);
    for (maximum, minimum) in [(0, 0), (1, 0), (900, 900), (900, 899), (950, 900), (999, 0)] {
        let given = rated(&sample, maximum, minimum);
        assert_eq!(given.as_ref(), Ok(&expected), "{maximum} {minimum}");
    }
    for (maximum, minimum) in [(0, 1), (899, 900), (900, 950), (0, 999)] {
        assert_eq!(rated(&sample, maximum, minimum), Err(18));
    }
    // LG 1 and LH 0: SX 1,998, so M is 2,400 less; K is 1 and 1, and the premiums are the same.
    let a_dollar = ((2, 2_197_600, 0, 2_200), vec![1_100, 1_100]);
    assert_eq!(rated(&sample, 1_000, 999), Ok(a_dollar));
}

#[test]
fn loss_ratio_marks_of_the_largest_premium() {
    // 6.000 and 5.999 of P 4,194,303 are 25,165,818 and 25,161,623.697. Losses of 63 × 1,048,575 =
    // 66,060,225 and of 0, e 0 and c 1.000: SX 40,894,407 and SS 25,161,623, so M is 1,000 times
    // 15,732,784; the premiums are 7,866,392 and LG or LH.
    let mut sample = two_risks_on(4_194_303);
    sample.header.expense = 0;
    sample.header.conversion = 1_000;
    sample.risks = vec![vec![LARGEST; 63], vec![]];
    let expected = (
        (2, 15_732_784_000, 0, 66_060_225),
        vec![33_032_210, 33_028_015],
    );
    assert_eq!(rated(&sample, 6_000, 5_999), Ok(expected));
    assert_eq!(rated(&sample, 5_999, 6_000), Err(18));
    // Both 6.000: SS 25,165,818, so M is 1,000 times 15,728,589; each premium half of the losses,
    // at an exact half upward.
    let equal = (
        (2, 15_728_589_000, 0, 66_060_226),
        vec![33_030_113, 33_030_113],
    );
    assert_eq!(rated(&sample, 6_000, 6_000), Ok(equal));
}

#[test]
fn entry_ratio_marks_of_1_over_255() {
    // 6.000 and 5.999 of SA 1 are 6,000 ÷ 255,000 and 5,999 ÷ 255,000, both 0 dollars: SX is 1, so
    // M is 1,000, each K is 0, and each premium 1 ÷ 255.
    let mut sample = one_claim_of_one(255);
    let all_marks = [(6_000, 5_999), (6_000, 6_000), (6_000, 0), (1, 0), (0, 0)];
    for (maximum, minimum) in all_marks {
        let expected = ((255, 1_000, 0, 0), vec![0; 255]);
        assert_eq!(rated(&sample, maximum, minimum), Ok(expected));
    }
    for (maximum, minimum) in [(5_999, 6_000), (0, 1), (0, 6_000)] {
        assert_eq!(rated(&sample, maximum, minimum), Err(18));
    }
    // With e 1 M is 255,000 more, and each premium 1 and 1 ÷ 255.
    sample.header.expense = 1;
    for (maximum, minimum) in all_marks {
        let expected = ((255, 256_000, 0, 255), vec![1; 255]);
        assert_eq!(rated(&sample, maximum, minimum), Ok(expected));
    }
}

#[test]
fn entry_ratio_marks_of_one_third() {
    // 3.000 of SA 1 over three risks is 1 dollar, 2.999 is 0. LG 1 and LH 0: M is 0, and K is 1, 0
    // and 0.
    let mut sample = one_claim_of_one(3);
    let apart = ((3, 0, 0, 1), vec![1, 0, 0]);
    assert_eq!(rated(&sample, 3_000, 2_999), Ok(apart));
    assert_eq!(rated(&sample, 2_999, 3_000), Err(18));
    // Both 0: SX is 1, M 1,000, and each premium a third.
    let both_0 = ((3, 1_000, 0, 0), vec![0, 0, 0]);
    assert_eq!(rated(&sample, 2_999, 2_999), Ok(both_0));
    // Both 1: SS is 2, so M would be −2,000; with e 1 it is 1,000, and each premium four thirds.
    assert_eq!(rated(&sample, 3_000, 3_000), Err(12));
    sample.header.expense = 1;
    let both_1 = ((3, 1_000, 0, 3), vec![1, 1, 1]);
    assert_eq!(rated(&sample, 3_000, 3_000), Ok(both_1));
}

#[test]
fn entry_ratio_marks_of_what_a_limit_leaves() {
    // A claim of 1,048,575 cut to 1, and a risk without claims: Q is 1,000 × 1,048,574. 2.000 and
    // 1.999 of SA 1 over two risks are 1 and 0 dollars: M is 0, and the premiums are 524,287 and K.
    let mut sample = one_claim_of_one(2);
    sample.header.loss_limit = 1;
    sample.risks[0] = vec![LARGEST];
    let apart = ((2, 0, 1_048_574_000, 1_048_575), vec![524_288, 524_287]);
    assert_eq!(rated(&sample, 2_000, 1_999), Ok(apart));
    assert_eq!(rated(&sample, 1_999, 2_000), Err(18));
    // Both 0: M is 1,000, and each premium 524,287.5.
    let both_0 = ((2, 1_000, 1_048_574_000, 1_048_576), vec![524_288, 524_288]);
    assert_eq!(rated(&sample, 1_999, 1_999), Ok(both_0));
    // An accident of 3 and 4, cut to 1: Q is 6,000, and the premiums are 3 and K.
    sample.risks[0] = vec![3, 4];
    let sample = sample.in_edition_2(&[(0, 1)]);
    let apart = ((2, 0, 6_000, 7), vec![4, 3]);
    assert_eq!(rated(&sample, 2_000, 1_999), Ok(apart));
    assert_eq!(rated(&sample, 1_999, 2_000), Err(18));
}
