//! The program `once` takes the name of each call, with sizes, and names a mistake in its arguments.
//! Which call it makes shows in the count alone: of another function `--toggle-collect` counts
//! nothing.

use retro_tests::desk::{self, Joined};
use retro_tests::plans::{self, Books};
use retro_tests::samples::AMPLE;
use retro_tests::second_rater::{self, LARGEST_FILE, MOST_CLAIMS_PER_RISK, MOST_RISKS};
use std::process::{Command, Output};

fn once(arguments: &[&str]) -> Output {
    let mut once = Command::new(env!("CARGO_BIN_EXE_once"));
    once.args(arguments).output().unwrap()
}

#[test]
fn each_call() {
    for call in [
        "rate",
        "table",
        "read",
        "write",
        "guaranteed",
        "plan",
        "plan-without-trials",
        "tuned-rater",
        "tuned-rater-with-vectors",
        "tuned-reader",
        "tuned-reader-with-vectors",
        "tuned-writer",
        "tuned-writer-with-vectors",
    ] {
        for sizes in [&[][..], &["16"], &["1", "1"], &["255", "63"]] {
            let output = once(&[&[call], sizes].concat());
            assert!(output.status.success(), "{call} {sizes:?}: {output:?}");
            assert!(output.stdout.is_empty() && output.stderr.is_empty());
        }
    }
}

#[test]
fn each_call_in_edition_2() {
    for call in [
        "rate",
        "table",
        "read",
        "write",
        "guaranteed",
        "plan",
        "plan-without-trials",
    ] {
        for joined in [
            "none-joined",
            "twentieth-joined",
            "quarter-joined",
            "half-joined",
        ] {
            for sizes in [&[][..], &["16"], &["1", "1"], &["255", "63"]] {
                let output = once(&[&[call, joined], sizes].concat());
                assert!(
                    output.status.success(),
                    "{call} {joined} {sizes:?}: {output:?}"
                );
                assert!(output.stdout.is_empty() && output.stderr.is_empty());
            }
        }
    }
}

#[test]
fn wrong_usage() {
    for (arguments, mistake) in [
        (&[][..], "no call is named\n"),
        (&["rater"], "rater is no call\n"),
        (&["rate", "0"], "0 is not a number of risks from 1 to 255\n"),
        (
            &["rate", "256"],
            "256 is not a number of risks from 1 to 255\n",
        ),
        (&["rate", "x"], "x is not a number of risks from 1 to 255\n"),
        (
            &["rate", "16", "0"],
            "0 is not a number of claims from 1 to 63\n",
        ),
        (
            &["rate", "16", "64"],
            "64 is not a number of claims from 1 to 63\n",
        ),
        (&["rate", "16", "63", "1"], "1 is an argument too many\n"),
        (
            &["rate", "joined"],
            "joined is not a number of risks from 1 to 255\n",
        ),
        (
            &["rate", "16", "half-joined"],
            "half-joined is not a number of claims from 1 to 63\n",
        ),
        (
            &["rate", "half-joined", "0"],
            "0 is not a number of risks from 1 to 255\n",
        ),
        (
            &["rate", "half-joined", "16", "63", "1"],
            "1 is an argument too many\n",
        ),
        (
            &["tuned-rater", "none-joined"],
            "tuned-rater takes edition 1 alone\n",
        ),
        (
            &["tuned-reader-with-vectors", "half-joined", "16"],
            "tuned-reader-with-vectors takes edition 1 alone\n",
        ),
    ] {
        let output = once(arguments);
        assert_eq!(output.status.code(), Some(2), "{arguments:?}");
        assert!(output.stdout.is_empty());
        let said = String::from_utf8(output.stderr).unwrap();
        let usage = "usage: once CALL [JOINED] [RISKS [CLAIMS]], where CALL is rate | table | ";
        assert!(said.starts_with(&format!("{mistake}{usage}")), "{said}");
    }
}

/// Groups that can be asked for are rated, and have a plan: of some numbers of risks, with each
/// number of claims.
#[test]
fn groups_are_rated() {
    for risks in [1, 2, 3, 16, 255] {
        for claims in 1..=MOST_CLAIMS_PER_RISK {
            let of_edition_2 = [
                Joined::None,
                Joined::AboutATwentieth,
                Joined::AboutAQuarter,
                Joined::AboutHalf,
            ]
            .map(|joined| desk::group_of_edition_2(risks, claims, joined));
            for sample in [desk::group(risks, claims)].iter().chain(&of_edition_2) {
                let file = sample.file();
                let rated = second_rater::rate(&file, AMPLE);
                assert!(rated.is_ok(), "{risks} risks of {claims} claims: {rated:?}");
                let (maximum, minimum) = desk::bounds(&file);
                let plan = plans::plan(&file, maximum, minimum, 20);
                assert!(plan.is_ok(), "{risks} risks of {claims} claims: {plan:?}");
            }
        }
    }
}

/// The largest groups have the same dollars, and about as many joined claims as their names say.
#[test]
fn largest_groups_of_either_edition() {
    let most = (MOST_RISKS, MOST_CLAIMS_PER_RISK);
    let of_edition_1 = desk::group(most.0, most.1);
    for (joined, least, greatest) in [
        (Joined::None, 0, 0),
        (Joined::AboutATwentieth, 700, 880),
        (Joined::AboutAQuarter, 3_700, 4_300),
        (Joined::AboutHalf, 7_600, 8_300),
    ] {
        let sample = desk::group_of_edition_2(most.0, most.1, joined);
        assert_eq!(sample.file().len(), LARGEST_FILE);
        assert_eq!(sample.claims(), of_edition_1.claims());
        assert_eq!(sample.header, of_edition_1.header);
        let set = sample.joined().iter().filter(|&&bit| bit == 1).count();
        assert!((least..=greatest).contains(&set), "{joined:?}: {set}");
    }
}

/// The bounds of the largest groups hold some premiums, from below and from above, and others not.
#[test]
fn bounds_of_the_largest_groups() {
    let most = (MOST_RISKS, MOST_CLAIMS_PER_RISK);
    let quarter = desk::group_of_edition_2(most.0, most.1, Joined::AboutAQuarter);
    for sample in [
        desk::group(16, most.1),
        desk::group(most.0, most.1),
        quarter,
    ] {
        let file = sample.file();
        let (maximum, minimum) = desk::bounds(&file);
        let books = Books::of(&file).unwrap();
        let plan = books.plan(maximum, minimum, 20).unwrap();
        assert!(plan.best > 0);
        let premiums: Vec<u128> = books.premiums(plan.best, maximum, minimum).collect();
        let at = |bound: u32| {
            let bound = u128::from(bound) * books.dollar();
            premiums.iter().filter(|&&premium| premium == bound).count()
        };
        let (above, below) = (at(maximum), at(minimum));
        assert!(above > 0 && below > 0 && above + below < premiums.len());
    }
}
