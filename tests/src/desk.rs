//! The desk of `bench` and `once`: groups to call on, the buffers that all calls use, and the calls
//! by name.

use crate::calls::{self, Numbers};
use crate::generator::Random;
use crate::peers::{self, AcceptedFile, AcceptedGroup, Form, Premiums, Written};
use crate::plans::{self, Books, LARGEST_BASIC, TRIALS_THAT_FINISH};
use crate::samples::{stock, Sample, Values};
use crate::second_rater::{self, Header, LARGEST_FILE, MOST_RISKS};
use crate::straightforward;
use std::fmt::Debug;
use std::hint::black_box;

/// What can be called.
#[derive(Clone, Copy, Debug, PartialEq, Eq)]
pub enum Call {
    Rate,
    TunedRater(Form),
    StraightforwardRater,
    SecondRater,
    Table,
    Read,
    TunedReader(Form),
    Write,
    TunedWriter(Form),
    Guaranteed,
    SecondRatersGuaranteed,
    Plan,
    PlanWithoutTrials,
    SecondPlan,
}

impl Call {
    pub fn name(self) -> &'static str {
        match self {
            Call::Rate => "Rate",
            Call::TunedRater(Form::ClaimByClaim) => "tuned rater",
            Call::TunedRater(Form::WithVectors) => "tuned rater with vectors",
            Call::StraightforwardRater => "straightforward rater",
            Call::SecondRater => "second rater",
            Call::Table => "Table",
            Call::Read => "Read",
            Call::TunedReader(Form::ClaimByClaim) => "tuned reader",
            Call::TunedReader(Form::WithVectors) => "tuned reader with vectors",
            Call::Write => "Write",
            Call::TunedWriter(Form::ClaimByClaim) => "tuned writer",
            Call::TunedWriter(Form::WithVectors) => "tuned writer with vectors",
            Call::Guaranteed => "Guaranteed",
            Call::SecondRatersGuaranteed => "second rater's Guaranteed",
            Call::Plan => "Plan",
            Call::PlanWithoutTrials => "Plan without trials",
            Call::SecondPlan => "second computation of Plan",
        }
    }

    /// Whether the call is of a peer, which takes edition 1 alone.
    pub fn is_of_a_peer(self) -> bool {
        matches!(
            self,
            Call::TunedRater(_) | Call::TunedReader(_) | Call::TunedWriter(_)
        )
    }
}

/// How many claims of a group in edition 2 belong to the accident of the claim before.
#[derive(Clone, Copy, Debug, PartialEq, Eq)]
pub enum Joined {
    None,
    AboutATwentieth,
    AboutAQuarter,
    AboutHalf,
}

/// A group of so many risks of so many claims each, with a loss limit and entry ratio marks.
pub fn group(risks: usize, claims: usize) -> Sample {
    let mut random = Random::new(1_965);
    let mut claim = || random.between(0, (1 << 20) - 1);
    Sample {
        header: Header {
            loss_limit: 500_000,
            standard_premium: 4_000_000,
            expense: 1_000_000,
            conversion: 1_025,
            tax: 10_500,
            mark_kind: 1,
            maximum_mark: 1_100,
            minimum_mark: 900,
        },
        risks: (0..risks)
            .map(|_| (0..claims).map(|_| claim()).collect())
            .collect(),
        joined: None,
    }
}

/// The same claims in edition 2, of which these are joined, at random.
pub fn group_of_edition_2(risks: usize, claims: usize, joined: Joined) -> Sample {
    let mut random = Random::new(4);
    let mut joins = |claim: usize| match joined {
        _ if claim == 0 => false,
        Joined::None => false,
        Joined::AboutATwentieth => random.one_in(20),
        Joined::AboutAQuarter => random.one_in(4),
        Joined::AboutHalf => random.one_in(2),
    };
    let mut of_risk = || (0..claims).map(|claim| u8::from(joins(claim))).collect();
    Sample {
        joined: Some((0..risks).map(|_| of_risk()).collect()),
        ..group(risks, claims)
    }
}

/// A group as it is handed to the calls: its file, its values for Write, and a maximum and a minimum
/// premium for Plan.
pub struct Case {
    file: Vec<u8>,
    values: Values,
    bounds: (u32, u32),
    /// The same for the peers, in edition 1.
    for_peers: Option<(AcceptedFile, AcceptedGroup)>,
}

impl Case {
    /// The group of `group`, which must be accepted.
    pub fn new(risks: usize, claims: usize) -> Case {
        let sample = group(risks, claims);
        let file = sample.file();
        let accepted = AcceptedGroup::new(sample.header, &sample.counts(), &sample.claims());
        Case {
            values: sample.values(),
            bounds: bounds(&file),
            for_peers: Some((AcceptedFile::new(&file), accepted)),
            file,
        }
    }

    /// The group of `group_of_edition_2`, which no peer takes.
    pub fn of_edition_2(risks: usize, claims: usize, joined: Joined) -> Case {
        let sample = group_of_edition_2(risks, claims, joined);
        let file = sample.file();
        Case {
            values: sample.values(),
            bounds: bounds(&file),
            for_peers: None,
            file,
        }
    }

    /// The group file.
    pub fn file(&self) -> &[u8] {
        &self.file
    }

    /// The file and the values for a peer.
    fn for_peers(&self) -> &(AcceptedFile, AcceptedGroup) {
        self.for_peers.as_ref().expect("a peer takes edition 1")
    }
}

/// A maximum and a minimum premium of a group, a 25th above and below the mean that reaches the
/// total, so that of many risks some are held by them and some are not. No maximum is in effect
/// where with it the total is out of reach.
pub fn bounds(file: &[u8]) -> (u32, u32) {
    let books = Books::of(file).expect("an accepted file");
    let mean = books.target() / (books.dollar() * books.risks);
    let mean = u32::try_from(mean).expect("a premium has 32 bits");
    let (maximum, minimum) = (mean + mean / 25, mean - mean / 25);
    match books.reaches(LARGEST_BASIC, maximum, minimum) {
        true => (maximum, minimum),
        false => (u32::MAX, minimum),
    }
}

/// The buffers that every call uses. Each has room for the largest group.
pub struct Desk {
    premiums: Box<Premiums>,
    differences: Vec<i64>,
    counts: Box<peers::Counts>,
    claims: Box<peers::Claims>,
    joined: Box<peers::Joined>,
    file: Box<Written>,
}

impl Default for Desk {
    fn default() -> Desk {
        Desk::new()
    }
}

impl Desk {
    pub fn new() -> Desk {
        Desk {
            premiums: zeros(),
            differences: vec![0; MOST_RISKS],
            counts: zeros(),
            claims: zeros(),
            joined: zeros(),
            file: zeros(),
        }
    }

    /// Makes the call once; it must be accepted.
    pub fn call(&mut self, call: Call, case: &Case) {
        let accepted = match call {
            Call::Rate => self.rate(case),
            Call::TunedRater(form) => {
                let premiums = black_box(&mut *self.premiums);
                let (file, _) = case.for_peers();
                black_box(peers::rate(form, black_box(file), premiums));
                true
            }
            Call::StraightforwardRater => {
                let premiums = black_box(&mut self.premiums[..]);
                let rated = straightforward::rate(black_box(case.file()), premiums);
                black_box(rated).is_ok()
            }
            Call::SecondRater => {
                let rated = second_rater::rate(black_box(case.file()), self.premiums.len());
                black_box(rated).is_ok()
            }
            Call::Table => {
                let (mut charge, mut savings) = (0, 0);
                let file = black_box(case.file());
                let answer = calls::table(file, black_box(120), &mut charge, &mut savings);
                black_box((charge, savings));
                answer == 0
            }
            Call::Read => {
                let counts = black_box(&mut self.counts[..]);
                let claims = black_box(&mut self.claims[..]);
                let joined = black_box(&mut self.joined[..]);
                let group = calls::read(black_box(case.file()), counts, claims, joined);
                black_box(group).refused == 0
            }
            Call::TunedReader(form) => {
                let counts = black_box(&mut *self.counts);
                let claims = black_box(&mut *self.claims);
                let joined = black_box(&mut *self.joined);
                let (file, _) = case.for_peers();
                black_box(peers::read(form, black_box(file), counts, claims, joined));
                true
            }
            Call::Write => {
                let values = black_box(&case.values);
                let mut length = 0;
                let answer = calls::write(
                    values.edition,
                    values.header.into(),
                    &values.counts,
                    &values.claims,
                    &values.joined,
                    black_box(&mut self.file[..LARGEST_FILE]),
                    &mut length,
                );
                black_box(length);
                answer == 0
            }
            Call::TunedWriter(form) => {
                let file = black_box(&mut *self.file);
                let (_, values) = case.for_peers();
                black_box(peers::write(form, black_box(values), file));
                true
            }
            Call::Guaranteed => self.guaranteed(case),
            Call::SecondRatersGuaranteed => {
                let (file, schedule) = (black_box(case.file()), black_box(stock()));
                let rooms = (self.premiums.len(), self.differences.len());
                let given = second_rater::guaranteed(file, &schedule, rooms.0, rooms.1);
                black_box(given).is_ok()
            }
            Call::Plan => plan(case, TRIALS_THAT_FINISH),
            Call::PlanWithoutTrials => plan(case, 0),
            Call::SecondPlan => {
                let (maximum, minimum) = black_box(case.bounds);
                let (file, trials) = (black_box(case.file()), black_box(TRIALS_THAT_FINISH));
                black_box(plans::plan(file, maximum, minimum, trials)).is_ok()
            }
        };
        assert!(accepted);
    }

    /// Rate by the exported call.
    fn rate(&mut self, case: &Case) -> bool {
        let (mut risks, mut basic, mut excess, mut billed) = (0, 0, 0, 0);
        let answer = calls::rate(
            black_box(case.file()),
            black_box(&mut self.premiums[..]),
            &mut risks,
            &mut basic,
            &mut excess,
            &mut billed,
        );
        black_box((risks, basic, excess, billed));
        answer == 0
    }

    /// Guaranteed under the stock schedule by the exported call.
    fn guaranteed(&mut self, case: &Case) -> bool {
        let mut numbers = Numbers::default();
        let answer = calls::guaranteed(
            black_box(case.file()),
            black_box(stock()).into(),
            black_box(&mut self.premiums[..]),
            black_box(&mut self.differences),
            &mut numbers.lend(),
        );
        black_box(numbers);
        answer == 0
    }
}

/// Plan with so many trials by the exported call.
fn plan(case: &Case, trials: u32) -> bool {
    let (mut made, mut best, mut short_of) = (0, 0, 0);
    let (maximum, minimum) = black_box(case.bounds);
    let answer = calls::plan(
        black_box(case.file()),
        maximum,
        minimum,
        black_box(trials),
        &mut made,
        &mut best,
        &mut short_of,
    );
    black_box((made, best, short_of));
    answer == 0
}

/// So many zeros, outside the stack.
fn zeros<T: Clone + Debug + Default, const N: usize>() -> Box<[T; N]> {
    vec![T::default(); N].try_into().expect("N numbers")
}
