//! Measures the exported calls beside the other raters and the tuned peers.
//!
//!     cargo run --offline --release --bin bench
//!
//! Each figure is the median of 101 runs after 11 that do not count, in one process and with the
//! same buffers, which are not cleared between runs. The runs of the calls take turns. A run is as
//! many calls as take about a millisecond, and its time is divided by their number. Plan is called
//! with twenty trials and with none. The charges of the 1965 table, which take no file, are measured
//! after the others in the same way.

use retro_tests::calls;
use retro_tests::charges_1965;
use retro_tests::desk::{Call, Case, Desk, Joined};
use retro_tests::peers::Form::{ClaimByClaim, WithVectors};
use retro_tests::second_rater::{MOST_CLAIMS_PER_RISK, MOST_RISKS};
use std::hint::black_box;
use std::time::Instant;

const RUNS: usize = 101;
const UNCOUNTED: usize = 11;

/// The groups. Each risk has 63 claims, and those of edition 2 have the dollars of that of edition
/// 1 with as many risks.
#[derive(Clone, Copy, PartialEq)]
enum Of {
    /// 16 risks, or all 255, in edition 1.
    Few,
    Most,
    /// 255 risks in edition 2.
    NoneJoined,
    TwentiethJoined,
    QuarterJoined,
    HalfJoined,
    /// 16 risks in edition 2.
    FewNoneJoined,
    FewTwentiethJoined,
    FewQuarterJoined,
    FewHalfJoined,
}

use Of::{Few, HalfJoined, Most, NoneJoined, QuarterJoined, TwentiethJoined};
use Of::{FewHalfJoined, FewNoneJoined, FewQuarterJoined, FewTwentiethJoined};

const GROUPS: [Of; 10] = [
    Few,
    Most,
    NoneJoined,
    TwentiethJoined,
    QuarterJoined,
    HalfJoined,
    FewNoneJoined,
    FewTwentiethJoined,
    FewQuarterJoined,
    FewHalfJoined,
];

/// How Rate grows from few risks to most: of the small group and the large one of either edition and
/// of each share of joined claims.
const GROWTHS: [(&str, Of, Of); 5] = [
    ("edition 1", Few, Most),
    ("edition 2, no claim joined", FewNoneJoined, NoneJoined),
    (
        "edition 2, a twentieth joined",
        FewTwentiethJoined,
        TwentiethJoined,
    ),
    (
        "edition 2, a quarter joined",
        FewQuarterJoined,
        QuarterJoined,
    ),
    ("edition 2, half joined", FewHalfJoined, HalfJoined),
];

/// The number of risks of the small group.
const FEW: usize = 16;
/// The number of claims of the others.
const CLAIMS: usize = MOST_RISKS * MOST_CLAIMS_PER_RISK;

impl Of {
    fn name(self) -> &'static str {
        match self {
            Few => "16 risks",
            Most => "255 risks",
            NoneJoined => "255 risks, edition 2, no claim joined",
            TwentiethJoined => "255 risks, edition 2, a twentieth joined",
            QuarterJoined => "255 risks, edition 2, a quarter joined",
            HalfJoined => "255 risks, edition 2, half joined",
            FewNoneJoined => "16 risks, edition 2, no claim joined",
            FewTwentiethJoined => "16 risks, edition 2, a twentieth joined",
            FewQuarterJoined => "16 risks, edition 2, a quarter joined",
            FewHalfJoined => "16 risks, edition 2, half joined",
        }
    }

    fn case(self) -> Case {
        let of_edition_2 = |joined| Case::of_edition_2(MOST_RISKS, MOST_CLAIMS_PER_RISK, joined);
        let few_of_edition_2 = |joined| Case::of_edition_2(FEW, MOST_CLAIMS_PER_RISK, joined);
        match self {
            Few => Case::new(FEW, MOST_CLAIMS_PER_RISK),
            Most => Case::new(MOST_RISKS, MOST_CLAIMS_PER_RISK),
            NoneJoined => of_edition_2(Joined::None),
            TwentiethJoined => of_edition_2(Joined::AboutATwentieth),
            QuarterJoined => of_edition_2(Joined::AboutAQuarter),
            HalfJoined => of_edition_2(Joined::AboutHalf),
            FewNoneJoined => few_of_edition_2(Joined::None),
            FewTwentiethJoined => few_of_edition_2(Joined::AboutATwentieth),
            FewQuarterJoined => few_of_edition_2(Joined::AboutAQuarter),
            FewHalfJoined => few_of_edition_2(Joined::AboutHalf),
        }
    }
}

/// What is measured: a call, and its group.
#[derive(Clone, Copy, PartialEq)]
struct Measured(Call, Of);

const ALL: [Measured; 37] = [
    Measured(Call::Rate, Few),
    Measured(Call::Rate, Most),
    Measured(Call::TunedRater(ClaimByClaim), Most),
    Measured(Call::TunedRater(WithVectors), Most),
    Measured(Call::StraightforwardRater, Most),
    Measured(Call::SecondRater, Most),
    Measured(Call::Table, Most),
    Measured(Call::Read, Most),
    Measured(Call::TunedReader(ClaimByClaim), Most),
    Measured(Call::TunedReader(WithVectors), Most),
    Measured(Call::Write, Most),
    Measured(Call::TunedWriter(ClaimByClaim), Most),
    Measured(Call::TunedWriter(WithVectors), Most),
    Measured(Call::Guaranteed, Few),
    Measured(Call::Guaranteed, Most),
    Measured(Call::SecondRatersGuaranteed, Most),
    Measured(Call::Plan, Few),
    Measured(Call::Plan, Most),
    Measured(Call::PlanWithoutTrials, Few),
    Measured(Call::PlanWithoutTrials, Most),
    Measured(Call::SecondPlan, Most),
    Measured(Call::Rate, FewNoneJoined),
    Measured(Call::Rate, FewTwentiethJoined),
    Measured(Call::Rate, FewQuarterJoined),
    Measured(Call::Rate, FewHalfJoined),
    Measured(Call::Rate, NoneJoined),
    Measured(Call::Rate, TwentiethJoined),
    Measured(Call::Rate, QuarterJoined),
    Measured(Call::Rate, HalfJoined),
    Measured(Call::StraightforwardRater, QuarterJoined),
    Measured(Call::SecondRater, QuarterJoined),
    Measured(Call::Table, QuarterJoined),
    Measured(Call::Read, NoneJoined),
    Measured(Call::Read, QuarterJoined),
    Measured(Call::Write, QuarterJoined),
    Measured(Call::Guaranteed, QuarterJoined),
    Measured(Call::Plan, QuarterJoined),
];

/// A ratio of two medians. The goals are this project's own, but for the limit of `GROWTH_GOAL`.
struct Ratio {
    name: &'static str,
    of: Measured,
    to: Measured,
    decimals: usize,
    goal: &'static str,
}

/// A ratio with two decimals and no goal.
const fn ratio(name: &'static str, of: Measured, to: Measured) -> Ratio {
    Ratio {
        name,
        of,
        to,
        decimals: 2,
        goal: "",
    }
}

impl Ratio {
    const fn decimals(self, decimals: usize) -> Ratio {
        Ratio { decimals, ..self }
    }

    const fn goal(self, goal: &'static str) -> Ratio {
        Ratio { goal, ..self }
    }
}

/// How many times as long Rate may take on most risks as on few: by a goal of this project's own, and
/// by document 02, job 3.
const GROWTH_GOAL: &str = "below 17; document 02: at most 32";
/// The goal of Rate in edition 2 to Rate in edition 1, a claim. The files have as many claims.
const EDITION_GOAL: &str = "at most 1.3";

const RATIOS: [Ratio; 30] = [
    ratio(
        "Rate to the tuned rater, 255 risks",
        Measured(Call::Rate, Most),
        Measured(Call::TunedRater(ClaimByClaim), Most),
    )
    .goal("at most 1.0"),
    ratio(
        "Rate to the tuned rater with vectors, 255 risks",
        Measured(Call::Rate, Most),
        Measured(Call::TunedRater(WithVectors), Most),
    )
    .goal("at most 1.0"),
    ratio(
        "Rate to the straightforward rater, 255 risks",
        Measured(Call::Rate, Most),
        Measured(Call::StraightforwardRater, Most),
    )
    .goal("at most 1.0"),
    ratio(
        "Rate to the second rater, 255 risks",
        Measured(Call::Rate, Most),
        Measured(Call::SecondRater, Most),
    )
    .decimals(4),
    ratio(
        "Rate of 255 risks to Rate of 16",
        Measured(Call::Rate, Most),
        Measured(Call::Rate, Few),
    )
    .goal(GROWTH_GOAL),
    ratio(
        "Rate of 255 risks to Rate of 16, edition 2, no claim joined",
        Measured(Call::Rate, NoneJoined),
        Measured(Call::Rate, FewNoneJoined),
    )
    .goal(GROWTH_GOAL),
    ratio(
        "Rate of 255 risks to Rate of 16, edition 2, a twentieth joined",
        Measured(Call::Rate, TwentiethJoined),
        Measured(Call::Rate, FewTwentiethJoined),
    )
    .goal(GROWTH_GOAL),
    ratio(
        "Rate of 255 risks to Rate of 16, edition 2, a quarter joined",
        Measured(Call::Rate, QuarterJoined),
        Measured(Call::Rate, FewQuarterJoined),
    )
    .goal(GROWTH_GOAL),
    ratio(
        "Rate of 255 risks to Rate of 16, edition 2, half joined",
        Measured(Call::Rate, HalfJoined),
        Measured(Call::Rate, FewHalfJoined),
    )
    .goal(GROWTH_GOAL),
    ratio(
        "Read to the tuned reader, 255 risks",
        Measured(Call::Read, Most),
        Measured(Call::TunedReader(ClaimByClaim), Most),
    )
    .goal("at most 1.5"),
    ratio(
        "Read to the tuned reader with vectors, 255 risks",
        Measured(Call::Read, Most),
        Measured(Call::TunedReader(WithVectors), Most),
    )
    .goal("at most 1.5"),
    ratio(
        "Write to the tuned writer, 255 risks",
        Measured(Call::Write, Most),
        Measured(Call::TunedWriter(ClaimByClaim), Most),
    )
    .goal("at most 1.5"),
    ratio(
        "Write to the tuned writer with vectors, 255 risks",
        Measured(Call::Write, Most),
        Measured(Call::TunedWriter(WithVectors), Most),
    )
    .goal("at most 1.5"),
    ratio(
        "Guaranteed to the second rater's, 255 risks",
        Measured(Call::Guaranteed, Most),
        Measured(Call::SecondRatersGuaranteed, Most),
    )
    .decimals(4),
    ratio(
        "Guaranteed to Rate, 255 risks",
        Measured(Call::Guaranteed, Most),
        Measured(Call::Rate, Most),
    ),
    ratio(
        "Guaranteed of 255 risks to Guaranteed of 16",
        Measured(Call::Guaranteed, Most),
        Measured(Call::Guaranteed, Few),
    ),
    ratio(
        "Plan to the second computation, 255 risks",
        Measured(Call::Plan, Most),
        Measured(Call::SecondPlan, Most),
    )
    .decimals(4),
    ratio(
        "Plan to Rate, 255 risks",
        Measured(Call::Plan, Most),
        Measured(Call::Rate, Most),
    ),
    ratio(
        "Plan to Plan without trials, 255 risks",
        Measured(Call::Plan, Most),
        Measured(Call::PlanWithoutTrials, Most),
    ),
    ratio(
        "Plan of 255 risks to Plan of 16",
        Measured(Call::Plan, Most),
        Measured(Call::Plan, Few),
    ),
    ratio(
        "Plan without trials of 255 risks to that of 16",
        Measured(Call::PlanWithoutTrials, Most),
        Measured(Call::PlanWithoutTrials, Few),
    ),
    ratio(
        "Rate a claim, edition 2 with no claim joined to edition 1",
        Measured(Call::Rate, NoneJoined),
        Measured(Call::Rate, Most),
    )
    .goal(EDITION_GOAL),
    ratio(
        "Rate a claim, edition 2 with a twentieth joined to edition 1",
        Measured(Call::Rate, TwentiethJoined),
        Measured(Call::Rate, Most),
    )
    .goal(EDITION_GOAL),
    ratio(
        "Rate a claim, edition 2 with a quarter joined to edition 1",
        Measured(Call::Rate, QuarterJoined),
        Measured(Call::Rate, Most),
    )
    .goal(EDITION_GOAL),
    ratio(
        "Rate a claim, edition 2 with half joined to edition 1",
        Measured(Call::Rate, HalfJoined),
        Measured(Call::Rate, Most),
    )
    .goal(EDITION_GOAL),
    ratio(
        "Rate to the straightforward rater, edition 2, a quarter joined",
        Measured(Call::Rate, QuarterJoined),
        Measured(Call::StraightforwardRater, QuarterJoined),
    ),
    ratio(
        "Rate to the second rater, edition 2, a quarter joined",
        Measured(Call::Rate, QuarterJoined),
        Measured(Call::SecondRater, QuarterJoined),
    )
    .decimals(4),
    ratio(
        "Table a claim, edition 2 with a quarter joined to edition 1",
        Measured(Call::Table, QuarterJoined),
        Measured(Call::Table, Most),
    ),
    ratio(
        "Read a claim, edition 2 with a quarter joined to edition 1",
        Measured(Call::Read, QuarterJoined),
        Measured(Call::Read, Most),
    ),
    ratio(
        "Write a claim, edition 2 with a quarter joined to edition 1",
        Measured(Call::Write, QuarterJoined),
        Measured(Call::Write, Most),
    ),
];

/// The groups as they are handed to the calls.
struct Cases([Case; GROUPS.len()]);

impl Cases {
    fn new() -> Cases {
        Cases(GROUPS.map(Of::case))
    }

    /// The group that is measured.
    fn of(&self, Measured(_, of): Measured) -> &Case {
        &self.0[of as usize]
    }
}

/// The time of one call in nanoseconds, over so many of them.
fn time(desk: &mut Desk, call: Call, case: &Case, calls: u32) -> f64 {
    let start = Instant::now();
    for _ in 0..calls {
        desk.call(call, case);
    }
    start.elapsed().as_nanos() as f64 / f64::from(calls)
}

/// The times of one call in nanoseconds, in order of size.
struct Times(Vec<f64>);

impl Times {
    fn median(&self) -> f64 {
        self.0[RUNS / 2]
    }

    fn fastest(&self) -> f64 {
        self.0[0]
    }

    fn slowest(&self) -> f64 {
        self.0[RUNS - 1]
    }
}

/// Runs all calls in turns.
fn measure(cases: &Cases) -> [Times; ALL.len()] {
    let mut desk = Desk::new();
    let mut run =
        |measured: Measured, calls| time(&mut desk, measured.0, cases.of(measured), calls);
    let calls = ALL.map(|measured| {
        let once = (0..UNCOUNTED).map(|_| run(measured, 1));
        (1_000_000.0 / once.fold(f64::MAX, f64::min)).clamp(1.0, 10_000.0) as u32
    });
    let mut times = ALL.map(|_| Times(Vec::new()));
    for turn in 0..UNCOUNTED + RUNS {
        for (k, measured) in ALL.into_iter().enumerate() {
            let time = run(measured, calls[k]);
            if turn >= UNCOUNTED {
                times[k].0.push(time);
            }
        }
    }
    for times in &mut times {
        times.0.sort_by(f64::total_cmp);
    }
    times
}

/// What gives a charge of the 1965 table.
#[derive(Clone, Copy, PartialEq)]
enum Giver {
    Call,
    Straightforward,
    Second,
}

const GIVERS: [Giver; 3] = [Giver::Call, Giver::Straightforward, Giver::Second];

impl Giver {
    fn name(self) -> &'static str {
        match self {
            Giver::Call => "Charge",
            Giver::Straightforward => "straightforward charge",
            Giver::Second => "second computation",
        }
    }
}

/// A straightforward charge in Rust's doubles: the coefficients are divided once for all calls, the
/// steps are in the order written, and a conversion cuts the thousandths off.
struct Straightforward([[f64; 7]; 17]);

impl Straightforward {
    fn new() -> Straightforward {
        let mut rows = [[0.0; 7]; 17];
        for (row, column) in rows.iter_mut().zip(charges_1965::COLUMNS) {
            let whole = charges_1965::row(column).expect("the matrix has the column");
            *row = whole.map(|b| f64::from(b) / 10_000_000.0);
        }
        Straightforward(rows)
    }

    #[inline(never)]
    fn charge(&self, column: u32, entry_ratio: u32) -> Result<(f64, u32), u32> {
        let row = column
            .checked_sub(36)
            .and_then(|k| self.0.get(k as usize))
            .ok_or(20_u32)?;
        if entry_ratio > 500 {
            return Err(21);
        }
        let [b2, b3, b4, b5, b6, b7, b8] = row;
        let r = f64::from(entry_ratio) / 100.0;
        let charge = 1.0
            / (1.0
                + r
                + r * r * (b2 + r * (b3 + r * (b4 + r * (b5 + r * (b6 + r * (b7 + r * b8)))))));
        let greatest = (((charge + 0.0005) * 1_000.0) as u32).min(1_000);
        let one_less_r = 1_000_u32.saturating_sub(10 * entry_ratio);
        Ok((charge, greatest.max(one_less_r)))
    }
}

/// Charge by the exported call.
fn charge(column: u32, entry_ratio: u32) -> Result<(f64, u32), u32> {
    let (mut charge, mut thousandths) = (0.0, 0);
    match calls::charge(column, entry_ratio, &mut charge, &mut thousandths) {
        0 => Ok((charge, thousandths)),
        question => Err(question),
    }
}

/// The same by the second computation.
fn second_charge(column: u32, entry_ratio: u32) -> Result<(f64, u32), u32> {
    charges_1965::charge(column, entry_ratio).map(|given| (given.charge, given.thousandths))
}

/// The time of one charge in nanoseconds, over so many passes of these columns and entry ratios,
/// each of which must have one.
fn time_charges(
    pairs: &[(u32, u32)],
    passes: u32,
    charge: impl Fn(u32, u32) -> Result<(f64, u32), u32>,
) -> f64 {
    let start = Instant::now();
    for _ in 0..passes {
        for &(column, entry_ratio) in pairs {
            assert!(black_box(charge(black_box(column), black_box(entry_ratio))).is_ok());
        }
    }
    start.elapsed().as_nanos() as f64 / (f64::from(passes) * pairs.len() as f64)
}

/// What is measured of the charges: columns and entry ratios, by name.
struct Charges {
    name: String,
    pairs: Vec<(u32, u32)>,
}

impl Charges {
    /// A single pair.
    fn at(column: u32, entry_ratio: u32) -> Charges {
        let r = f64::from(entry_ratio) / 100.0;
        Charges {
            name: format!(".{column} at {r:.2}"),
            pairs: vec![(column, entry_ratio)],
        }
    }

    /// All pairs of the column that takes the call longest.
    fn slowest_column() -> Charges {
        let of_column = |column| {
            let pairs = charges_1965::ENTRY_RATIOS.map(|entry_ratio| (column, entry_ratio));
            pairs.collect::<Vec<(u32, u32)>>()
        };
        let least = |column| {
            let times = (0..RUNS).map(|_| time_charges(&of_column(column), 1, charge));
            times.fold(f64::MAX, f64::min)
        };
        let times = charges_1965::COLUMNS.map(|column| (least(column), column));
        let (_, column) = times
            .max_by(|one, other| one.0.total_cmp(&other.0))
            .expect("the table has columns");
        Charges {
            name: format!(".{column}, the slowest column"),
            pairs: of_column(column),
        }
    }

    /// All pairs of the table, column after column.
    fn all() -> Charges {
        let pairs: Vec<(u32, u32)> = charges_1965::pairs().collect();
        Charges {
            name: format!("all {} pairs", pairs.len()),
            pairs,
        }
    }
}

/// Measures the charges and prints their times and ratios.
fn charges() {
    let straightforward = Straightforward::new();
    for (column, entry_ratio) in charges_1965::pairs() {
        let given = charge(column, entry_ratio);
        assert_eq!(given, straightforward.charge(column, entry_ratio));
        assert_eq!(given, second_charge(column, entry_ratio));
    }
    let measured = [
        Charges::at(44, 0),
        Charges::at(44, 100),
        Charges::at(44, 500),
        Charges::slowest_column(),
        Charges::all(),
    ];
    let run = |giver: Giver, charges: &Charges, passes| match giver {
        Giver::Call => time_charges(&charges.pairs, passes, charge),
        Giver::Straightforward => time_charges(&charges.pairs, passes, |column, entry_ratio| {
            straightforward.charge(column, entry_ratio)
        }),
        Giver::Second => time_charges(&charges.pairs, passes, second_charge),
    };
    let passes = measured.each_ref().map(|charges| {
        GIVERS.map(|giver| {
            let once = (0..UNCOUNTED).map(|_| run(giver, charges, 1) * charges.pairs.len() as f64);
            (1_000_000.0 / once.fold(f64::MAX, f64::min)).clamp(1.0, 100_000.0) as u32
        })
    });
    let mut times = measured
        .each_ref()
        .map(|_| GIVERS.map(|_| Times(Vec::new())));
    for turn in 0..UNCOUNTED + RUNS {
        for (k, charges) in measured.iter().enumerate() {
            for giver in GIVERS {
                let time = run(giver, charges, passes[k][giver as usize]);
                if turn >= UNCOUNTED {
                    times[k][giver as usize].0.push(time);
                }
            }
        }
    }
    for times in times.iter_mut().flatten() {
        times.0.sort_by(f64::total_cmp);
    }
    println!("| charge of the 1965 table | median, ns a call | fastest | slowest |");
    println!("|---|---:|---:|---:|");
    for giver in GIVERS {
        for (charges, times) in measured.iter().zip(&times) {
            let times = &times[giver as usize];
            println!(
                "| {}, {} | {:.1} | {:.1} | {:.1} |",
                giver.name(),
                charges.name,
                times.median(),
                times.fastest(),
                times.slowest(),
            );
        }
    }
    println!();
    println!("| ratio of medians | to the straightforward charge | to the second computation |");
    println!("|---|---:|---:|");
    for (charges, times) in measured.iter().zip(&times) {
        let [of_call, of_straightforward, of_second] = times.each_ref().map(Times::median);
        println!(
            "| Charge, {} | {:.2} | {:.4} |",
            charges.name,
            of_call / of_straightforward,
            of_call / of_second,
        );
    }
}

fn main() {
    let cases = Cases::new();
    let times = measure(&cases);
    println!("| call | median, µs | fastest | slowest | MB/s at the median |");
    println!("|---|---:|---:|---:|---:|");
    for (measured, times) in ALL.into_iter().zip(&times) {
        println!(
            "| {}, {} | {:.2} | {:.2} | {:.2} | {:.0} |",
            measured.0.name(),
            measured.1.name(),
            times.median() / 1_000.0,
            times.fastest() / 1_000.0,
            times.slowest() / 1_000.0,
            cases.of(measured).file().len() as f64 * 1_000.0 / times.median(),
        );
    }
    let median = |measured: Measured| {
        let k = ALL.iter().position(|&one| one == measured);
        times[k.expect("it is measured")].median()
    };
    println!();
    println!("| ratio of medians | measured | own goal |");
    println!("|---|---:|---:|");
    for ratio in RATIOS {
        let goal = match ratio.goal {
            "" => String::new(),
            goal => format!("{goal} "),
        };
        println!(
            "| {} | {:.*} | {goal}|",
            ratio.name,
            ratio.decimals,
            median(ratio.of) / median(ratio.to),
        );
    }
    println!();
    for (what, few, most) in GROWTHS {
        let few = median(Measured(Call::Rate, few));
        let most = median(Measured(Call::Rate, most));
        println!(
            "Rate, {MOST_CLAIMS_PER_RISK} claims a risk, entry ratio marks, {what}, medians of \
             {RUNS} runs: {FEW} risks {:.2} µs, {MOST_RISKS} risks {:.2} µs, ratio {:.2} \
             (own goal {GROWTH_GOAL})",
            few / 1_000.0,
            most / 1_000.0,
            most / few,
        );
    }
    let a_claim = |of: Of| median(Measured(Call::Rate, of)) / CLAIMS as f64;
    println!(
        "Rate, {CLAIMS} claims, ns a claim: edition 1 {:.3}; edition 2 {:.3} with no claim joined, \
         {:.3} with a twentieth joined, {:.3} with a quarter joined, {:.3} with half joined (own goal \
         {EDITION_GOAL} of edition 1)",
        a_claim(Most),
        a_claim(NoneJoined),
        a_claim(TwentiethJoined),
        a_claim(QuarterJoined),
        a_claim(HalfJoined),
    );
    println!();
    charges();
}
