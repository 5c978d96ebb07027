//! Writes the example files: `example-groups [FOLDER]`, without FOLDER into examples/.
//!
//! Each group is written by `retro_write`. A file that Write would not make is one of those with
//! its bytes damaged. What the rater must say to each file is not written here, but by `expected`,
//! which asks the second rater.

use retro_tests::calls;
use retro_tests::generator::{
    first_bits, set, Random, CONVERSION, EDITION, HEADER, MAXIMUM_MARK, MINIMUM_MARK, RISKS,
    STANDARD_PREMIUM, TAX,
};
use retro_tests::samples::{
    crossed_marks, four_risks, one_claim_of_one, scaffold, ten_risks, two_risks_of_ten, Sample,
};
use retro_tests::second_rater::{Header, LARGEST_FILE};
use std::path::PathBuf;
use std::{env, fs, io};

fn main() -> io::Result<()> {
    let folder = env::args_os()
        .nth(1)
        .map_or_else(retro_tests::examples, PathBuf::from);
    fs::create_dir_all(&folder)?;
    for (name, file) in rated().into_iter().chain(refused()) {
        fs::write(folder.join(name).with_extension("group"), file)?;
    }
    Ok(())
}

/// The file of a group, by the exported Write.
fn written(sample: &Sample) -> Vec<u8> {
    calls::written(&sample.values(), LARGEST_FILE)
        .unwrap_or_else(|answer| panic!("Write refused the example with {answer}"))
}

/// Files that are rated.
fn rated() -> Vec<(&'static str, Vec<u8>)> {
    vec![
        ("four-risks", written(&four_risks())),
        ("ten-risks", written(&ten_risks())),
        ("entry-ratio", written(&entry_ratio())),
        ("no-limit", written(&no_limit())),
        ("largest", written(&largest())),
        ("largest-edition-2", written(&largest_of_edition_2())),
        ("scaffold", written(&scaffold())),
    ]
}

/// A file for each question that can be the first No of a file.
fn refused() -> Vec<(&'static str, Vec<u8>)> {
    vec![
        ("refused-01", damaged(|file| file.truncate(HEADER - 1))),
        ("refused-02", damaged(|file| set(file, EDITION, 3))),
        ("refused-03", damaged(|file| set(file, STANDARD_PREMIUM, 0))),
        ("refused-04", damaged(|file| set(file, CONVERSION, 999))),
        ("refused-05", damaged(|file| set(file, TAX, 9_999))),
        ("refused-06", damaged(|file| set(file, MAXIMUM_MARK, 6_001))),
        ("refused-18", marks_crossed()),
        ("refused-07", damaged(no_risks)),
        ("refused-08", damaged(|file| file.push(0))),
        ("refused-09", fill_bit_set()),
        ("refused-19", first_claim_joined()),
        ("refused-10", written(&no_losses())),
        ("refused-12", written(&two_risks_of_ten(2_000))),
    ]
}

/// The four-risk file with its bytes changed.
fn damaged(change: impl Fn(&mut Vec<u8>)) -> Vec<u8> {
    let mut file = written(&four_risks());
    change(&mut file);
    file
}

/// Document 02's marks 0.900 and 0.950 on P 1: a file whose minimum mark is at the maximum, and is
/// then set above it.
fn marks_crossed() -> Vec<u8> {
    let crossed = crossed_marks(1);
    let Header {
        maximum_mark,
        minimum_mark,
        ..
    } = crossed.header;
    let mut file = written(&crossed.with_marks(maximum_mark, maximum_mark));
    set(&mut file, MINIMUM_MARK, minimum_mark);
    file
}

/// The header alone, which says that there are no risks.
fn no_risks(file: &mut Vec<u8>) {
    file.truncate(HEADER);
    set(file, RISKS, 0);
}

/// The three-risk file of document 01, which has fill bits, with the last of them set.
fn fill_bit_set() -> Vec<u8> {
    let mut file = written(&one_claim_of_one(3));
    *file.last_mut().expect("a file has bytes") |= 1;
    file
}

/// The scaffold's file with the bit of the last risk's first claim set.
fn first_claim_joined() -> Vec<u8> {
    let mut file = written(&scaffold());
    let bits = first_bits(&file);
    set(&mut file, bits[bits.len() - 1], 1);
    file
}

/// The four-risk group with all claims 0.
fn no_losses() -> Sample {
    let mut sample = four_risks();
    for claim in sample.risks.iter_mut().flatten() {
        *claim = 0;
    }
    sample
}

/// Six risks with entry ratio marks 1.500 and 0.400 and a loss limit.
fn entry_ratio() -> Sample {
    Sample {
        header: Header {
            loss_limit: 25_000,
            standard_premium: 60_000,
            expense: 14_500,
            conversion: 1_125,
            tax: 10_350,
            mark_kind: 1,
            maximum_mark: 1_500,
            minimum_mark: 400,
        },
        risks: vec![
            vec![12_400, 3_150, 870],
            vec![],
            vec![48_000, 9_900],
            vec![25_000, 1_200, 640, 310],
            vec![7_775],
            vec![31_500, 26_250, 18_000],
        ],
        joined: None,
    }
}

/// Five risks without a loss limit, with loss ratio marks 0.800 and 0.150.
fn no_limit() -> Sample {
    Sample {
        header: Header {
            loss_limit: 0,
            standard_premium: 125_000,
            expense: 31_250,
            conversion: 1_200,
            tax: 10_400,
            mark_kind: 0,
            maximum_mark: 800,
            minimum_mark: 150,
        },
        risks: vec![
            vec![64_000, 2_500],
            vec![1_980, 410],
            vec![230_000],
            vec![],
            vec![18_600, 22_300, 9_450],
        ],
        joined: None,
    }
}

/// 255 risks of 63 claims, small risks and large ones, with a loss limit and entry ratio marks: the
/// largest file of edition 1.
fn largest() -> Sample {
    let mut random = Random::new(255);
    let mut risks = Vec::new();
    for risk in 0..255 {
        let largest_claim = 20_000 + 4_000 * risk;
        risks.push((0..63).map(|_| random.between(0, largest_claim)).collect());
    }
    Sample {
        header: Header {
            loss_limit: 750_000,
            standard_premium: 4_000_000,
            expense: 1_000_000,
            conversion: 1_050,
            tax: 10_275,
            mark_kind: 1,
            maximum_mark: 1_600,
            minimum_mark: 250,
        },
        risks,
        joined: None,
    }
}

/// The same claims in edition 2, about a quarter of them of the accident of the claim before: the
/// largest file of all.
fn largest_of_edition_2() -> Sample {
    let mut random = Random::new(42_378);
    let mut bit = |claim| u8::from(claim > 0 && random.one_in(4));
    let mut of_risk = || (0..63).map(&mut bit).collect();
    Sample {
        joined: Some((0..255).map(|_| of_risk()).collect()),
        ..largest()
    }
}
