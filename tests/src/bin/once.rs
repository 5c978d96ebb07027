//! Makes one call on a group of the benchmark, so that its instructions can be counted:
//!
//!     valgrind --tool=callgrind --toggle-collect=retro_rate cargo-target/release/once rate
//!
//! `once CALL [JOINED] [RISKS [CLAIMS]]`: RISKS risks of CLAIMS claims each; where they are not
//! given, 255 risks of 63 claims, the largest files of `bench`. With JOINED the same claims in
//! edition 2, of which none, about a twentieth, about a quarter or about half belong to the
//! accident of the claim before. Exit status: 0; 2 for wrong usage.
//!
//! The tuned peers are compiled for this machine. Those with vectors may have instructions that
//! valgrind does not know, such as those of AVX-512; `objdump -d` shows their loops.

use retro_tests::desk::{Call, Case, Desk, Joined};
use retro_tests::peers::Form::{ClaimByClaim, WithVectors};
use retro_tests::second_rater::{MOST_CLAIMS_PER_RISK, MOST_RISKS};
use std::env;
use std::process::ExitCode;

/// The calls by the names that the arguments have for them.
const CALLS: [(&str, Call); 13] = [
    ("rate", Call::Rate),
    ("table", Call::Table),
    ("read", Call::Read),
    ("write", Call::Write),
    ("guaranteed", Call::Guaranteed),
    ("plan", Call::Plan),
    ("plan-without-trials", Call::PlanWithoutTrials),
    ("tuned-rater", Call::TunedRater(ClaimByClaim)),
    ("tuned-rater-with-vectors", Call::TunedRater(WithVectors)),
    ("tuned-reader", Call::TunedReader(ClaimByClaim)),
    ("tuned-reader-with-vectors", Call::TunedReader(WithVectors)),
    ("tuned-writer", Call::TunedWriter(ClaimByClaim)),
    ("tuned-writer-with-vectors", Call::TunedWriter(WithVectors)),
];

/// The groups in edition 2 by the names that the arguments have for them.
const JOINED: [(&str, Joined); 4] = [
    ("none-joined", Joined::None),
    ("twentieth-joined", Joined::AboutATwentieth),
    ("quarter-joined", Joined::AboutAQuarter),
    ("half-joined", Joined::AboutHalf),
];

fn main() -> ExitCode {
    let arguments: Vec<String> = env::args().skip(1).collect();
    match asked(&arguments) {
        Ok((call, case)) => {
            Desk::new().call(call, &case);
            ExitCode::SUCCESS
        }
        Err(mistake) => {
            let names = CALLS.map(|(name, _)| name).join(" | ");
            let joined = JOINED.map(|(name, _)| name).join(" | ");
            eprintln!("{mistake}");
            eprintln!("usage: once CALL [JOINED] [RISKS [CLAIMS]], where CALL is {names}");
            eprintln!("and JOINED, for edition 2, is {joined}");
            ExitCode::from(2)
        }
    }
}

/// The call and the group that the arguments ask for.
fn asked(arguments: &[String]) -> Result<(Call, Case), String> {
    let (name, rest) = arguments.split_first().ok_or("no call is named")?;
    let known = CALLS.iter().find(|(known, _)| known == name);
    let &(_, call) = known.ok_or_else(|| format!("{name} is no call"))?;
    let joined = rest.first().and_then(|word| {
        let known = JOINED.iter().find(|(known, _)| known == word);
        known.map(|&(_, joined)| joined)
    });
    if joined.is_some() && call.is_of_a_peer() {
        return Err(format!("{name} takes edition 1 alone"));
    }
    let numbers = &rest[usize::from(joined.is_some())..];
    if let Some(more) = numbers.get(2) {
        return Err(format!("{more} is an argument too many"));
    }
    let number = |k: usize, what: &str, most: usize| match numbers.get(k) {
        None => Ok(most),
        Some(word) => {
            let number = word
                .parse()
                .ok()
                .filter(|number| (1..=most).contains(number));
            number.ok_or_else(|| format!("{word} is not a number of {what} from 1 to {most}"))
        }
    };
    let risks = number(0, "risks", MOST_RISKS)?;
    let claims = number(1, "claims", MOST_CLAIMS_PER_RISK)?;
    let case = match joined {
        None => Case::new(risks, claims),
        Some(joined) => Case::of_edition_2(risks, claims, joined),
    };
    Ok((call, case))
}
