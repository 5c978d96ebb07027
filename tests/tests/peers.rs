//! The benchmark's peers give what the second rater gives on files of edition 1, which alone they
//! take, so that the times are of the same work, and touch no byte that they may not. All of it
//! holds in both forms.

use retro_tests::calls::Group;
use retro_tests::generator::{bits, get, Random, EDITION};
use retro_tests::guard::{Guarded, Place, PLACES};
use retro_tests::peers::{self, raw, AcceptedFile, AcceptedGroup, Form, FORMS, SPARE};
use retro_tests::samples::{
    crossed_marks, four_risks, largest, one_claim_of_one, rated_groups, rated_groups_of_edition_2,
    Sample, AMPLE,
};
use retro_tests::second_rater::{self, Header, LARGEST_FILE, MOST_CLAIMS_PER_RISK, MOST_RISKS};
use retro_tests::straightforward::Rated;
use retro_tests::{desk, examples, refused_example, QUESTIONS_OF_A_FILE};
use std::panic::{catch_unwind, UnwindSafe};
use std::{fmt, fs};

/// The largest claim.
const LARGEST: u32 = (1 << 20) - 1;
/// What the bytes of a buffer hold before a call, and those of a claim.
const PRESET: u8 = 0xa5;
const PRESET_CLAIM: u32 = 0xa5a5_a5a5;
/// What the spare bytes after a file hold: no peer's result depends on them.
const SPARE_BYTES: [u8; 2] = [0, 0xff];

/// The numbers that the second rater gives, in the widths of the peers.
fn numbers(rated: &second_rater::Rated) -> Rated {
    Rated {
        risks: rated.risks,
        basic: rated.basic.try_into().unwrap(),
        excess: rated.excess.try_into().unwrap(),
        billed: rated.billed.try_into().unwrap(),
    }
}

/// The bytes of the premiums that the second rater gives.
fn premium_bytes(rated: &second_rater::Rated) -> Vec<u8> {
    let premiums = rated.premiums.iter();
    let four = premiums.map(|&premium| u32::try_from(premium).unwrap().to_be_bytes());
    four.collect::<Vec<_>>().concat()
}

/// What Read answers to the file of this group.
fn answer(group: &second_rater::Group) -> Group {
    let n = group.counts.len() as u32;
    Group::given(group.edition, n, group.header.into())
}

/// A peer's form and the file that it is called for.
type Called<'a> = (Form, &'a [u8]);

/// Ends the test where a part differs between a peer and the second rater.
fn same<T: PartialEq + fmt::Debug>(given: T, expected: T, part: &str, (form, file): Called) {
    assert!(
        given == expected,
        "{part}: the peer {form:?} gives {given:?}, the second rater {expected:?}; \
         file {file:02x?}"
    );
}

/// Each form, with its memory at each place.
fn forms_at_places() -> impl Iterator<Item = (Form, Place)> {
    let at_places = |form| PLACES.map(|place| (form, place));
    FORMS.into_iter().flat_map(at_places)
}

/// Memory for the peers between unreadable pages, of which each call is lent exactly what it may
/// touch: once against the page before it, once against the page after it.
struct Held {
    file: Guarded<u8>,
    premiums: Guarded<u8>,
    counts: Guarded<u8>,
    claims: Guarded<u32>,
    joined: Guarded<u8>,
}

impl Held {
    fn new() -> Held {
        Held {
            file: Guarded::new(LARGEST_FILE + SPARE),
            premiums: Guarded::new(4 * MOST_RISKS),
            counts: Guarded::new(MOST_RISKS),
            claims: Guarded::new(MOST_RISKS * MOST_CLAIMS_PER_RISK),
            joined: Guarded::new(MOST_RISKS * MOST_CLAIMS_PER_RISK),
        }
    }

    /// The rater on a file that Rate accepts.
    fn rate(&mut self, file: &[u8], rated: &second_rater::Rated) {
        for (form, place) in forms_at_places() {
            let called = (form, file);
            for spare in SPARE_BYTES {
                let bytes = [file, &[spare; SPARE]].concat();
                let lent = self.file.copy(&bytes, place);
                let premiums = self.premiums.slice(4 * rated.risks as usize, place);
                premiums.fill(PRESET);
                // SAFETY: the second rater accepts the file, which has its spare bytes, and the
                // premiums have four bytes for each risk.
                let given = unsafe { raw::rate(form)(lent.as_ptr(), premiums.as_mut_ptr()) };
                same(given, numbers(rated), "n, M, Q and sum billed", called);
                same(&*premiums, &premium_bytes(rated)[..], "premiums", called);
                same(&*lent, &bytes[..], "file after the call", called);
            }
        }
    }

    /// The reader on a file that Read accepts.
    fn read(&mut self, file: &[u8], group: &second_rater::Group) {
        for (form, place) in forms_at_places() {
            let called = (form, file);
            for spare in SPARE_BYTES {
                let bytes = [file, &[spare; SPARE]].concat();
                let lent = self.file.copy(&bytes, place);
                let counts = self.counts.slice(group.counts.len(), place);
                let claims = self.claims.slice(group.claims.len(), place);
                let joined = self.joined.slice(group.joined.len(), place);
                counts.fill(PRESET);
                claims.fill(PRESET_CLAIM);
                joined.fill(PRESET);
                // SAFETY: the second rater reads the file, which has its spare bytes, into as many
                // counts, claims and bits.
                let given = unsafe {
                    raw::read(form)(
                        lent.as_ptr(),
                        counts.as_mut_ptr(),
                        claims.as_mut_ptr(),
                        joined.as_mut_ptr(),
                    )
                };
                same(given, answer(group), "header", called);
                same(&*counts, &group.counts[..], "counts", called);
                same(&*claims, &group.claims[..], "claims", called);
                same(&*joined, &group.joined[..], "bits", called);
                same(&*lent, &bytes[..], "file after the call", called);
            }
        }
    }

    /// The writer on values that Write accepts, with the file that it must make of them.
    fn write(&mut self, header: &Header, counts: &[u8], claims: &[u32], file: &[u8]) {
        for (form, place) in forms_at_places() {
            let called = (form, file);
            let lent_counts = self.counts.copy(counts, place);
            let lent_claims = self.claims.copy(claims, place);
            let written = self.file.slice(file.len() + SPARE, place);
            written.fill(PRESET);
            // SAFETY: the second rater writes these values, and the buffer has room for their file
            // and the spare bytes.
            let length = unsafe {
                raw::write(form)(
                    (*header).into(),
                    lent_counts.as_ptr(),
                    counts.len(),
                    lent_claims.as_ptr(),
                    written.as_mut_ptr(),
                )
            };
            let (made, spare) = written.split_at(file.len());
            same(length, file.len(), "length", called);
            same(made, file, "bytes", called);
            let zero_or_kept = |&byte: &u8| byte == 0 || byte == PRESET;
            assert!(spare.iter().all(zero_or_kept), "{form:?}, spare {spare:?}");
            same(&*lent_counts, counts, "counts after the call", called);
            same(&*lent_claims, claims, "claims after the call", called);
        }
    }

    /// All three on a file that Rate accepts and on its values. Gives what the second rater gives.
    fn all(&mut self, file: &[u8]) -> (second_rater::Group, second_rater::Rated) {
        let rated = second_rater::rate(file, AMPLE).expect("a file that is rated");
        let group = second_rater::read(file, AMPLE, AMPLE, AMPLE).expect("a file that is rated");
        self.rate(file, &rated);
        self.read(file, &group);
        self.write(&group.header, &group.counts, &group.claims, file);
        (group, rated)
    }
}

/// A buffer of so many entries that begins with these and goes on with the preset.
fn then_preset<T: Copy>(entries: &[T], preset: T, len: usize) -> Vec<T> {
    let mut buffer = entries.to_vec();
    buffer.resize(len, preset);
    buffer
}

/// All three as the benchmark calls them, with buffers for the largest group.
fn as_in_the_benchmark(form: Form, sample: &Sample) {
    let file = sample.file();
    let called = (form, &file[..]);
    let (mut counts, mut claims) = ([PRESET; MOST_RISKS], [PRESET_CLAIM; 16_065]);
    let mut joined = [PRESET; 16_065];
    let (mut premiums, mut written) = ([PRESET; 1_020], [PRESET; LARGEST_FILE + SPARE]);

    let accepted = AcceptedFile::new(&file);
    assert!(accepted.file() == file);
    let rated = second_rater::rate(&file, AMPLE).unwrap();
    let given = peers::rate(form, &accepted, &mut premiums);
    same(given, numbers(&rated), "n, M, Q and sum billed", called);
    let expected = then_preset(&premium_bytes(&rated), PRESET, premiums.len());
    same(&premiums[..], &expected[..], "premiums", called);

    let group = second_rater::read(&file, AMPLE, AMPLE, AMPLE).unwrap();
    let given = peers::read(form, &accepted, &mut counts, &mut claims, &mut joined);
    same(given, answer(&group), "header", called);
    let expected = then_preset(&group.counts, PRESET, counts.len());
    same(&counts[..], &expected[..], "counts", called);
    let expected = then_preset(&group.claims, PRESET_CLAIM, claims.len());
    same(&claims[..], &expected[..], "claims", called);
    let expected = then_preset(&group.joined, PRESET, joined.len());
    same(&joined[..], &expected[..], "bits", called);

    let values = AcceptedGroup::new(sample.header, &sample.counts(), &sample.claims());
    let length = peers::write(form, &values, &mut written);
    same(length, file.len(), "length", called);
    same(&written[..length], &file[..], "bytes", called);
    let after = &written[length + SPARE..];
    let kept = |&byte: &u8| byte == PRESET;
    assert!(after.iter().all(kept), "{form:?}: {after:?}");
}

/// A kind of file that must occur among the generated ones.
type Kind = (
    &'static str,
    fn(&second_rater::Group, &second_rater::Rated) -> bool,
);

const KINDS: [Kind; 22] = [
    ("loss ratios, no limit", |group, _| {
        marks(group) == (0, false)
    }),
    ("loss ratios, a limit", |group, _| marks(group) == (0, true)),
    ("entry ratios, no limit", |group, _| {
        marks(group) == (1, false)
    }),
    ("entry ratios, a limit", |group, _| {
        marks(group) == (1, true)
    }),
    ("a claim cut by the limit", |_, rated| rated.excess > 0),
    ("a risk raised to the minimum", |_, rated| {
        rated.lines.iter().any(|line| line.ratable > line.limited)
    }),
    ("a risk cut to the maximum", |_, rated| {
        rated.lines.iter().any(|line| line.ratable < line.limited)
    }),
    ("M is 0", |_, rated| rated.basic == 0),
    ("one risk", |group, _| group.counts.len() == 1),
    ("255 risks", |group, _| group.counts.len() == 255),
    ("a first risk without claims", |group, _| {
        group.counts.first() == Some(&0)
    }),
    ("a last risk without claims", |group, _| {
        group.counts.last() == Some(&0)
    }),
    ("an odd count", |group, _| {
        group.counts.iter().any(|count| count % 2 == 1)
    }),
    ("an even count", |group, _| {
        group
            .counts
            .iter()
            .any(|&count| count > 0 && count % 2 == 0)
    }),
    ("an odd last count", |group, _| {
        group.counts.last().is_some_and(|count| count % 2 == 1)
    }),
    ("63 claims", |group, _| group.counts.contains(&63)),
    ("a claim of 0", |group, _| group.claims.contains(&0)),
    ("a claim of 1,048,575", |group, _| {
        group.claims.contains(&LARGEST)
    }),
    ("no fill bits", |group, _| fill_bits(group) == 0),
    ("2 fill bits", |group, _| fill_bits(group) == 2),
    ("4 fill bits", |group, _| fill_bits(group) == 4),
    ("6 fill bits", |group, _| fill_bits(group) == 6),
];

/// The mark kind, and whether there is a loss limit.
fn marks(group: &second_rater::Group) -> (u32, bool) {
    (group.header.mark_kind, group.header.loss_limit > 0)
}

/// The bits that fill the last byte of a group's file.
fn fill_bits(group: &second_rater::Group) -> usize {
    let end = bits(group.edition, group.counts.len(), group.claims.len());
    end.next_multiple_of(8) - end
}

#[test]
fn generated_files() {
    let mut held = Held::new();
    let mut random = Random::new(1_967);
    let mut seen = [0; KINDS.len()];
    let (mut rated_files, mut only_read) = (0, 0);
    for _ in 0..24_000 {
        let file = random.file();
        if get(&file, EDITION) != 1 {
            continue;
        }
        if second_rater::rate(&file, AMPLE).is_ok() {
            let (group, rated) = held.all(&file);
            rated_files += 1;
            for (seen, (_, is_of)) in seen.iter_mut().zip(KINDS) {
                *seen += u32::from(is_of(&group, &rated));
            }
        } else if let Ok(group) = second_rater::read(&file, AMPLE, AMPLE, AMPLE) {
            held.read(&file, &group);
            only_read += 1;
        }
    }
    println!("{rated_files} files are rated, {only_read} others are read");
    for (seen, (name, _)) in seen.iter().zip(KINDS) {
        println!("{seen:>5} {name}");
        assert!(*seen >= 50, "{name}: {seen} files");
    }
    assert!(rated_files >= 2_000, "{rated_files} files are rated");
    assert!(only_read >= 200, "{only_read} files are read and not rated");
}

#[test]
fn generated_values() {
    let mut held = Held::new();
    let mut random = Random::new(1_968);
    let (mut written, mut not_rated) = (0, 0);
    for _ in 0..16_000 {
        let values = random.values();
        if values.edition != 1 {
            continue;
        }
        if let Ok(file) = values.written(AMPLE) {
            held.write(&values.header, &values.counts, &values.claims, &file);
            written += 1;
            not_rated += u32::from(second_rater::rate(&file, AMPLE).is_err());
        }
    }
    println!("{written} files are written, of which {not_rated} are not rated");
    assert!(written >= 1_000, "{written} files are written");
    assert!(not_rated >= 100, "{not_rated} files are not rated");
}

/// The folder's files of edition 1 that Rate accepts.
#[test]
fn examples_that_are_rated() {
    let mut held = Held::new();
    let mut rated = 0;
    for entry in fs::read_dir(examples()).unwrap() {
        let path = entry.unwrap().path();
        if path
            .extension()
            .is_some_and(|extension| extension == "group")
        {
            let file = fs::read(path).unwrap();
            if get(&file, EDITION) == 1 && second_rater::rate(&file, AMPLE).is_ok() {
                held.all(&file);
                rated += 1;
            }
        }
    }
    assert_eq!(rated, 5);
}

/// The papers' groups and the largest, and the two of the benchmark with their buffers.
#[test]
fn known_groups() {
    let mut held = Held::new();
    let of_the_benchmark = [16, 255].map(|risks| desk::group(risks, MOST_CLAIMS_PER_RISK));
    let mut lengths = Vec::new();
    for sample in rated_groups().iter().chain(&of_the_benchmark) {
        let file = sample.file();
        held.all(&file);
        for form in FORMS {
            as_in_the_benchmark(form, sample);
        }
        lengths.push(file.len());
    }
    assert_eq!(lengths, [34, 49, 21, 20, 23, 40_370, 2_548, 40_370]);
}

/// A risk of each number of claims, after 0 to 3 risks without claims, so that its claims begin at
/// each bit of a byte that they can begin at, and before one more.
#[test]
fn each_count_at_each_bit() {
    let mut held = Held::new();
    let mut random = Random::new(1_969);
    for count in 0..=MOST_CLAIMS_PER_RISK {
        for before in 0..4 {
            let mut sample = four_risks();
            sample.risks = vec![vec![]; before];
            let claims = (0..count).map(|_| random.between(0, LARGEST));
            sample.risks.push(claims.collect());
            sample.risks.push(vec![LARGEST]);
            sample.header.expense = LARGEST;
            sample.header.conversion = 1_000;
            sample.header.maximum_mark = 6_000;
            held.all(&sample.file());
        }
    }
}

#[test]
fn each_number_of_risks() {
    let mut held = Held::new();
    for n in 1..=MOST_RISKS {
        let (group, _) = held.all(&one_claim_of_one(n).file());
        assert_eq!(group.counts.len(), n);
    }
}

/// A peer is not lent what it cannot take: the message of the panic names the question.
fn not_taken<T>(taken: impl FnOnce() -> T + UnwindSafe, question: u32) {
    let message = message_of(taken);
    assert!(
        message.ends_with(&format!("refused {question}")),
        "{message}"
    );
}

/// The message of a panic.
fn message_of<T>(panics: impl FnOnce() -> T + UnwindSafe) -> String {
    let Err(panic) = catch_unwind(|| drop(panics())) else {
        panic!("what no peer can take is taken");
    };
    panic.downcast_ref::<String>().unwrap().clone()
}

#[test]
fn refused_files_are_not_taken() {
    for question in QUESTIONS_OF_A_FILE {
        let file = fs::read(refused_example(question)).unwrap();
        not_taken(|| AcceptedFile::new(&file), question);
    }
}

#[test]
fn files_of_edition_2_are_not_taken() {
    for sample in rated_groups_of_edition_2() {
        let file = sample.file();
        let message = message_of(|| AcceptedFile::new(&file));
        assert!(
            message.contains("no file for a peer: edition 2"),
            "{message}"
        );
    }
}

#[test]
fn refused_values_are_not_taken() {
    let header = four_risks().header;
    let crossed = crossed_marks(1).header;
    not_taken(|| AcceptedGroup::new(crossed, &[1], &[10]), 18);
    not_taken(|| AcceptedGroup::new(header, &[], &[]), 7);
    not_taken(|| AcceptedGroup::new(header, &[0; 256], &[]), 15);
    not_taken(|| AcceptedGroup::new(header, &[64], &[1; 64]), 15);
    not_taken(|| AcceptedGroup::new(header, &[1], &[LARGEST + 1]), 15);
    not_taken(|| AcceptedGroup::new(header, &[2], &[1]), 15);
    not_taken(|| AcceptedGroup::new(header, &[1], &[1, 1]), 15);
    let sample = largest();
    AcceptedGroup::new(sample.header, &sample.counts(), &sample.claims());
}
