//! Charges of the 1965 table, job 5 of document 02, through the exported call: all 8,517 charges of
//! the table and what lies around it held to `charges_1965`, bit for bit, and what the job says of
//! them. The figures of single charges are those of that second computation.

use retro_tests::calls;
use retro_tests::charges_1965::{self, pairs, within, within_a_millionth, COLUMNS, ENTRY_RATIOS};
use retro_tests::comparison::say;
use retro_tests::generator::Random;
use retro_tests::held_calls::{Call, HeldCalls, TAKEN_OUT};
use std::time::Instant;

/// Charges of the table.
const PAIRS: u64 = 8_517;
/// The columns and the entry ratios of which each pair is compared.
const AROUND_COLUMNS: u32 = 128;
const AROUND_ENTRY_RATIOS: u32 = 2_000;
/// Random pairs.
const RANDOM_PAIRS: u64 = 200_000;
/// Their seed.
const SEED: u64 = 1_965;
/// How often each answer must occur at least among the random pairs.
const LEAST: u64 = 5_000;

// What the lent numbers hold before a call.
const CHARGE: f64 = -9.75;
const THOUSANDTHS: u32 = 0xeeee_eeee;

/// Numbers of 32 bits outside the columns: at their borders, such as would be a column with their
/// bits above 8, 16 or 31 dropped, tenfold or thousandths, and the largest.
const NO_COLUMNS: [u32; 24] = [
    0,
    1,
    5,
    16,
    34,
    35,
    53,
    54,
    63,
    100,
    127,
    128,
    255,
    256 + 36,
    256 + 52,
    360,
    520,
    65_536 + 36,
    65_536 + 52,
    (1 << 31) + 36,
    (1 << 31) + 52,
    i32::MAX as u32,
    u32::MAX - 16,
    u32::MAX,
];

/// Numbers of 32 bits above 500: at the border, such as would be an entry ratio with their bits
/// above 16 or 31 dropped, and the largest.
const NO_ENTRY_RATIOS: [u32; 15] = [
    501,
    502,
    510,
    511,
    512,
    600,
    601,
    1_000,
    5_000,
    65_536,
    65_536 + 500,
    i32::MAX as u32,
    1 << 31,
    (1 << 31) + 500,
    u32::MAX,
];

/// The charge of a column at an entry ratio by its bits, and its thousandths. A refusal leaves both
/// lent numbers as they were.
fn charge(column: u32, entry_ratio: u32) -> Result<(u64, u32), u32> {
    let (mut charge, mut thousandths) = (CHARGE, THOUSANDTHS);
    let answer = calls::charge(column, entry_ratio, &mut charge, &mut thousandths);
    let given = (charge.to_bits(), thousandths);
    if answer != 0 {
        assert_eq!(given, (CHARGE.to_bits(), THOUSANDTHS));
        return Err(answer);
    }
    Ok(given)
}

/// The thousandths of a charge of the table.
fn thousandths(column: u32, entry_ratio: u32) -> u32 {
    charge(column, entry_ratio).unwrap().1
}

/// The unrounded charge.
fn unrounded(column: u32, entry_ratio: u32) -> f64 {
    f64::from_bits(charge(column, entry_ratio).unwrap().0)
}

// ---- the comparison

/// Every charge of the table, and each within a millionth of the exact quotient.
#[test]
fn each_charge_of_the_table() {
    let start = Instant::now();
    let mut held_calls = HeldCalls::new();
    for (column, entry_ratio) in pairs() {
        assert_eq!(held_calls.charge(column, entry_ratio), 0);
        assert!(
            within_a_millionth(unrounded(column, entry_ratio), column, entry_ratio),
            "column {column} at {entry_ratio}"
        );
    }
    let given = held_calls.given.of(Call::Charge, 0);
    say(&format!(
        "comparison: {given} charges of the table, no difference, all within a millionth, {:.1} s",
        start.elapsed().as_secs_f64()
    ));
    assert_eq!(given, PAIRS);
}

/// What is off by somewhat more than a millionth is not within one. The charges themselves are
/// within a billionth of a thousandth.
#[test]
fn what_is_off_by_more_is_not_within_a_millionth() {
    for (column, entry_ratio) in pairs().step_by(37) {
        let (bits, _) = charge(column, entry_ratio).unwrap();
        let charge = f64::from_bits(bits);
        assert!(within(charge, column, entry_ratio, 1_000_000_000_000));
        for off in [-0.000_001_01, 0.000_001_01] {
            assert!(!within_a_millionth(charge + off, column, entry_ratio));
        }
    }
}

/// Every column below 128 at every entry ratio below 2,000; then random pairs, and all pairs of
/// corners.
#[test]
fn each_pair_around_the_table() {
    say(&format!(
        "comparison: {} columns at {} entry ratios, {RANDOM_PAIRS} random pairs, seed {SEED}",
        AROUND_COLUMNS, AROUND_ENTRY_RATIOS
    ));
    let start = Instant::now();

    let mut around = HeldCalls::new();
    for column in 0..AROUND_COLUMNS {
        for entry_ratio in 0..AROUND_ENTRY_RATIOS {
            around.charge(column, entry_ratio);
        }
    }
    let mut at_random = HeldCalls::new();
    let mut random = Random::new(SEED);
    for _ in 0..RANDOM_PAIRS {
        let (column, entry_ratio) = random_pair(&mut random);
        at_random.charge(column, entry_ratio);
    }
    let mut corners = HeldCalls::new();
    for column in NO_COLUMNS.into_iter().chain(COLUMNS) {
        for entry_ratio in NO_ENTRY_RATIOS.into_iter().chain([0, 1, 99, 100, 499, 500]) {
            corners.charge(column, entry_ratio);
        }
    }

    let mut counts = around.given.clone();
    counts.merge(&at_random.given);
    counts.merge(&corners.given);
    let answers = Call::Charge.answers();
    let sum: u64 = answers.iter().map(|&k| counts.of(Call::Charge, k)).sum();
    say(&counts.lines(&[Call::Charge]));
    say(&format!(
        "comparison: {sum} pairs, no difference, {:.1} s",
        start.elapsed().as_secs_f64()
    ));

    // 17 columns at 501 entry ratios; the other 111 columns; 17 columns at the other 1,499
    let expected = [PAIRS, 111 * 2_000, 17 * 1_499];
    for (&answer, times) in answers.iter().zip(expected) {
        assert_eq!(around.given.of(Call::Charge, answer), times, "{answer}");
    }
    let expected = [17 * 6, 24 * 21, 17 * 15];
    for (&answer, times) in answers.iter().zip(expected) {
        assert_eq!(corners.given.of(Call::Charge, answer), times, "{answer}");
    }
    let rare = at_random.given.rarer_than(LEAST, &[Call::Charge]);
    assert!(rare.is_empty(), "fewer than {LEAST} times: {rare:?}");
    assert_eq!(counts.of_any_call(TAKEN_OUT), 0);
}

/// A pair of any numbers of 32 bits, or with one or both of the table.
fn random_pair(random: &mut Random) -> (u32, u32) {
    let column = match random.between(0, 5) {
        0 => random.word() as u32,
        1 => random.of_any_size(32),
        2 => random.one_of(&NO_COLUMNS),
        _ => random.between(36, 52),
    };
    let entry_ratio = match random.between(0, 5) {
        0 => random.word() as u32,
        1 => random.of_any_size(32),
        2 => random.one_of(&NO_ENTRY_RATIOS),
        _ => random.between(0, 500),
    };
    (column, entry_ratio)
}

// ---- the questions

#[test]
fn a_column_outside_36_to_52_gives_20() {
    for entry_ratio in ENTRY_RATIOS {
        assert_eq!(charge(35, entry_ratio), Err(20));
        assert!(charge(36, entry_ratio).is_ok());
        assert!(charge(52, entry_ratio).is_ok());
        assert_eq!(charge(53, entry_ratio), Err(20));
        for column in NO_COLUMNS {
            assert_eq!(charge(column, entry_ratio), Err(20), "{column}");
        }
    }
    // No other number below 2^16 is a column.
    let taken: Vec<u32> = (0..1 << 16)
        .filter(|&column| charge(column, 100) != Err(20))
        .collect();
    assert_eq!(taken, COLUMNS.collect::<Vec<u32>>());
}

#[test]
fn an_entry_ratio_above_500_gives_21() {
    for column in COLUMNS {
        assert!(charge(column, 499).is_ok());
        assert!(charge(column, 500).is_ok());
        assert_eq!(charge(column, 501), Err(21));
        for entry_ratio in NO_ENTRY_RATIOS {
            assert_eq!(charge(column, entry_ratio), Err(21), "{entry_ratio}");
        }
        // No number below 2^16 but those of the table is an entry ratio.
        let taken = (0..1 << 16).filter(|&entry_ratio| charge(column, entry_ratio) != Err(21));
        assert!(taken.eq(ENTRY_RATIOS), "{column}");
    }
}

#[test]
fn question_20_before_21() {
    for column in NO_COLUMNS {
        for entry_ratio in NO_ENTRY_RATIOS {
            assert_eq!(charge(column, entry_ratio), Err(20));
        }
    }
    // Where the column is one of the table, 21 is what is left.
    assert_eq!(charge(53, 501), Err(20));
    assert_eq!(charge(52, 501), Err(21));
    assert_eq!(charge(53, 500), Err(20));
    assert_eq!(charge(u32::MAX, u32::MAX), Err(20));
    assert_eq!(charge(36, u32::MAX), Err(21));
    assert_eq!(charge(u32::MAX, 0), Err(20));
}

/// Column and entry ratio are not taken for each other.
#[test]
fn the_column_comes_first() {
    assert_eq!(thousandths(40, 52), 604);
    assert_eq!(thousandths(52, 40), 732);
    assert_eq!(charge(100, 36), Err(20));
    assert_eq!(thousandths(36, 100), 360);
}

// ---- the lent numbers

/// Doubles that are easily lost or changed when they are copied, by their bits: zeros, infinities,
/// the smallest, and what is not a number, quiet and signalling, with bits of its own.
const DOUBLES: [u64; 10] = [
    0x0000_0000_0000_0000,
    0x8000_0000_0000_0000,
    0x0000_0000_0000_0001,
    0x7ff0_0000_0000_0000,
    0xfff0_0000_0000_0000,
    0x7ff8_0000_0000_0000,
    0xfff8_1234_5678_9abc,
    0x7ff0_0000_0000_0001,
    0xfff7_ffff_ffff_ffff,
    0xffff_ffff_ffff_ffff,
];

#[test]
fn a_refusal_leaves_both_numbers() {
    for (column, entry_ratio, question) in [
        (35, 100, 20),
        (53, 0, 20),
        (53, 501, 20),
        (u32::MAX, u32::MAX, 20),
        (36, 501, 21),
        (52, u32::MAX, 21),
    ] {
        for bits in DOUBLES {
            for before in [0, 1, 1_000, 0x5a5a_a5a5, u32::MAX] {
                let (mut charge, mut thousandths) = (f64::from_bits(bits), before);
                let answer = calls::charge(column, entry_ratio, &mut charge, &mut thousandths);
                assert_eq!(answer, question);
                assert_eq!((charge.to_bits(), thousandths), (bits, before));
            }
        }
    }
}

#[test]
fn an_answer_does_not_depend_on_what_the_numbers_held() {
    for (column, entry_ratio) in [(36, 0), (44, 200), (51, 357), (52, 500)] {
        let expected = charge(column, entry_ratio).unwrap();
        for bits in DOUBLES {
            for before in [0, expected.1, u32::MAX] {
                let (mut charge, mut thousandths) = (f64::from_bits(bits), before);
                let answer = calls::charge(column, entry_ratio, &mut charge, &mut thousandths);
                assert_eq!(answer, 0);
                assert_eq!((charge.to_bits(), thousandths), expected);
            }
        }
    }
}

// ---- the figures

/// Three columns at five entry ratios: the thousandths and the double.
#[test]
fn fifteen_charges() {
    for (column, entry_ratio, thousandths, bits) in charges_1965::FIFTEEN {
        let given = charge(column, entry_ratio);
        assert_eq!(given, Ok((bits, thousandths)), ".{column} at {entry_ratio}");
    }
}

/// Two charges at which each of eight other ways to compute the formula gives another double.
#[test]
fn two_charges_that_show_the_order() {
    assert_eq!(charge(50, 332), Ok((0x3fc6_8702_7cde_7b61, 176)));
    assert_eq!(charge(51, 357), Ok((0x3fc5_f5cd_f127_b983, 172)));
}

#[test]
fn at_0_the_charge_is_1() {
    for column in COLUMNS {
        assert_eq!(charge(column, 0), Ok((1.0_f64.to_bits(), 1_000)));
    }
}

/// "At r 1.00 the thousandths equal ten times the column's hundredths."
#[test]
fn at_1_the_thousandths_are_ten_times_the_column() {
    for column in COLUMNS {
        assert_eq!(thousandths(column, 100), 10 * column);
    }
}

/// "if below 1 − r, then 1 − r"
#[test]
fn thousandths_are_never_below_1_less_r() {
    for (column, entry_ratio) in pairs() {
        let thousandths = thousandths(column, entry_ratio);
        assert!(
            thousandths >= 1_000_u32.saturating_sub(10 * entry_ratio),
            ".{column} at {entry_ratio}: {thousandths}"
        );
        assert!((1..=1_000).contains(&thousandths));
    }
}

/// Half a thousandth is added, and the rest cut off: a charge is at most half a thousandth from its
/// thousandths, whatever the doubles of the sum and the product are. 1 is the only one with 1,000.
#[test]
fn thousandths_are_the_nearest() {
    for (column, entry_ratio) in pairs() {
        let (charge, thousandths) = (
            unrounded(column, entry_ratio),
            thousandths(column, entry_ratio),
        );
        let off = charge - f64::from(thousandths) / 1_000.0;
        assert!(
            off.abs() <= 0.000_500_000_000_1,
            ".{column} at {entry_ratio}: {charge} and {thousandths}"
        );
        assert_eq!(thousandths == 1_000, entry_ratio == 0);
    }
}

/// The thousandths of each column at 5.00, the least, and at 0.01, the greatest below 1,000.
#[test]
fn ends_of_the_columns() {
    let expected = [
        (36, 27, 990),
        (37, 30, 990),
        (38, 33, 990),
        (39, 36, 990),
        (40, 40, 990),
        (41, 44, 990),
        (42, 48, 990),
        (43, 53, 990),
        (44, 58, 990),
        (45, 64, 990),
        (46, 69, 990),
        (47, 75, 990),
        (48, 81, 990),
        (49, 88, 990),
        (50, 96, 990),
        (51, 104, 990),
        (52, 112, 990),
    ];
    let given: Vec<(u32, u32, u32)> = COLUMNS
        .map(|column| (column, thousandths(column, 500), thousandths(column, 1)))
        .collect();
    assert_eq!(given, expected);
}
