//! The comparison: the exported calls against the second rater on generated and damaged files,
//! values and schedules, every number and every byte, everything lent lying against unreadable
//! pages.
//!
//! The gate runs 400,000 files for the calls of document 01, and 240,000 files with schedules for
//! Guaranteed, from a fixed seed, about half of them in either edition. A longer run, with another
//! seed:
//!
//!     RETRO_FILES=5000000 RETRO_SEED=7 cargo test --offline --release --test compare -- generated

use retro_tests::calls::{self, raw, Group, Numbers};
use retro_tests::comparison::{about_half_in_either_edition, compare_in_threads, say, setting};
use retro_tests::generator::{
    first_bits, risks_in, set, Random, EDITION, MINIMUM_MARK, STANDARD_PREMIUM,
};
use retro_tests::guard::Sparse;
use retro_tests::held_calls::{Call, HeldCalls, CALLS, TAKEN_OUT};
use retro_tests::samples::{
    accidents_cut, crossed_marks, four_risks, largest, largest_of_edition_2, one_claim_of_one,
    scaffold, schedule, stock, ten_risks, two_risks_of_ten, Sample, Values,
};
use retro_tests::second_rater::{self, Header, Layer};
use std::ptr;
use std::sync::atomic::{AtomicU64, Ordering};
use std::time::Instant;

/// Files in the gate.
const FILES: u64 = 400_000;
/// Files with schedules in the gate.
const QUOTES: u64 = 240_000;
/// The seed in the gate.
const SEED: u64 = 1_965;
/// How often each answer of each call must occur at least.
const LEAST: u64 = 100;
/// How often each answer of Guaranteed must occur at least, and a discount at an exact half.
const LEAST_OF_QUOTES: u64 = 500;

#[test]
fn generated_files() {
    let files = setting("RETRO_FILES", FILES);
    let seed = setting("RETRO_SEED", SEED);
    say(&format!("comparison: {files} files, seed {seed}"));
    let start = Instant::now();
    let cut = AtomicU64::new(0);
    let counts = compare_in_threads(files, seed, |held_calls, random| {
        let file = random.file();
        if compare_file(held_calls, random, &file) && cut_by_accident(&file) {
            cut.fetch_add(1, Ordering::Relaxed);
        }
        compare_values(held_calls, random);
    });
    let cut = cut.into_inner();
    say(&counts.lines(&CALLS));
    say(&format!(
        "comparison: no difference, {cut} rated files with an A that the bits change, {:.1} s",
        start.elapsed().as_secs_f64()
    ));
    assert!(
        cut >= LEAST,
        "{cut} rated files with an A that the bits change"
    );
    let rare = counts.rarer_than(LEAST, &CALLS);
    assert!(rare.is_empty(), "fewer than {LEAST} times: {rare:?}");
    assert_eq!(counts.of_any_call(TAKEN_OUT), 0);
    for call in CALLS {
        about_half_in_either_edition(&counts, call);
    }
}

#[test]
fn generated_schedules() {
    let files = setting("RETRO_FILES", QUOTES);
    let seed = setting("RETRO_SEED", SEED);
    say(&format!(
        "comparison: {files} files with schedules, seed {seed}"
    ));
    let start = Instant::now();
    let halves = AtomicU64::new(0);
    let counts = compare_in_threads(files, seed, |held_calls, random| {
        let quote = random.quote();
        let rooms = (quote.premiums_room, quote.differences_room);
        let answer = held_calls.guaranteed(&quote.file, &quote.schedule, rooms.0, rooms.1);
        if answer == 0 && quote.thousandths() % 1_000 == 500 {
            halves.fetch_add(1, Ordering::Relaxed);
        }
    });
    let halves = halves.into_inner();
    say(&counts.lines(&[Call::Guaranteed]));
    say(&format!(
        "comparison: no difference, {halves} discounts at an exact half, {:.1} s",
        start.elapsed().as_secs_f64()
    ));
    let rare = counts.rarer_than(LEAST_OF_QUOTES, &[Call::Guaranteed]);
    assert!(
        rare.is_empty(),
        "fewer than {LEAST_OF_QUOTES} times: {rare:?}"
    );
    assert_eq!(counts.of_any_call(TAKEN_OUT), 0);
    assert!(halves >= LEAST_OF_QUOTES, "{halves} exact halves");
    about_half_in_either_edition(&counts, Call::Guaranteed);
}

/// Rate, Table and Read of a file, and Write of what Read gives. Gives whether Rate accepted it.
fn compare_file(held_calls: &mut HeldCalls, random: &mut Random, file: &[u8]) -> bool {
    let (risks, claims) = sizes(file);
    let rated = held_calls.rate(file, random.room(4 * risks)) == 0;
    held_calls.table(file, random.entry_ratio());
    let counts_room = random.room(risks);
    let claims_room = random.room(claims);
    let joined_room = random.room(claims);
    if held_calls.read(file, counts_room, claims_room, joined_room) == 0 {
        held_calls.write_back(file);
    }
    rated
}

/// Whether the limit leaves another sum of the accidents than of the single claims.
fn cut_by_accident(file: &[u8]) -> bool {
    let Ok(group) = second_rater::read(file, usize::MAX, usize::MAX, usize::MAX) else {
        return false;
    };
    let sample = Sample::of(&group);
    let limit = u64::from(sample.header.loss_limit);
    let limited = |sums: Vec<u64>| sums.iter().map(|&sum| sum.min(limit)).sum::<u64>();
    let claims = sample.claims().iter().copied().map(u64::from).collect();
    limit > 0 && limited(sample.accidents().concat()) != limited(claims)
}

/// Write of values that may be sound or not, and Read of what Write gives.
fn compare_values(held_calls: &mut HeldCalls, random: &mut Random) {
    let values = random.values();
    let room = random.room(values.length());
    if held_calls.write(&values, room) == 0 {
        held_calls.read_back(&values);
    }
}

/// The number of risks and of claims that a file has by its bytes, whatever the questions say to
/// it.
fn sizes(file: &[u8]) -> (usize, usize) {
    let risks = risks_in(file);
    (risks.len(), risks.iter().map(|risk| risk.claims).sum())
}

/// Known groups of either edition, of which some fall at questions 10 and 12.
fn known() -> Vec<Sample> {
    let mut no_losses = four_risks();
    no_losses.risks = vec![vec![0], vec![], vec![0, 0], vec![]];
    let mut no_claims = one_claim_of_one(22);
    no_claims.risks = vec![vec![]; 22];
    vec![
        four_risks(),
        ten_risks(),
        one_claim_of_one(1),
        one_claim_of_one(2),
        one_claim_of_one(3),
        one_claim_of_one(255),
        two_risks_of_ten(1_000),
        two_risks_of_ten(2_000),
        scaffold(),
        accidents_cut(),
        four_risks().in_edition_2(&[]),
        one_claim_of_one(3).in_edition_2(&[]),
        one_claim_of_one(255).in_edition_2(&[]),
        two_risks_of_ten(2_000).in_edition_2(&[]),
        no_losses.in_edition_2(&[(2, 1)]),
        no_claims.in_edition_2(&[]),
        no_losses,
        no_claims,
    ]
}

/// Known groups that fall at question 18: the examples of job 2 of document 02, and entry ratio
/// marks a thousandth apart.
fn crossed() -> Vec<Sample> {
    vec![
        crossed_marks(1),
        crossed_marks(1_000),
        one_claim_of_one(3).with_marks(999, 1_000),
        scaffold().with_marks(899, 900),
    ]
}

/// Files that fall at question 19, by the first, a middle and the last risk, and by all of them.
fn joined_first() -> Vec<Vec<u8>> {
    let file = accidents_cut().file();
    let bits = first_bits(&file);
    let chosen = [&bits[..1], &bits[1..2], &bits[3..], &bits];
    let joined = chosen.map(|chosen| {
        let mut file = file.clone();
        for &bit in chosen {
            set(&mut file, bit, 1);
        }
        file
    });
    joined.to_vec()
}

/// The files of the known groups, each with the question that it fails where its length is wrong:
/// 8, or 18 before it.
fn known_files() -> Vec<(Vec<u8>, u32)> {
    let sound = known().into_iter().map(|sample| (sample.file(), 8));
    let crossed = crossed().into_iter();
    let crossed = crossed.map(|sample| (sample.file_of_any_marks(), 18));
    let joined = joined_first().into_iter().map(|file| (file, 8));
    sound.chain(crossed).chain(joined).collect()
}

/// Rate, Guaranteed, Table, Plan and Read of a file with room enough. Gives Read's answer.
fn all_calls(held_calls: &mut HeldCalls, file: &[u8]) -> u32 {
    let most = second_rater::MOST_RISKS;
    held_calls.rate(file, 4 * most);
    held_calls.guaranteed(file, &stock(), 4 * most, most);
    held_calls.table(file, 100);
    held_calls.plan(file, 10_000, 5_000, 20);
    held_calls.read(file, most, 1_000, 1_000)
}

#[test]
fn each_prefix() {
    let mut held_calls = HeldCalls::new();
    for (file, question) in known_files() {
        for len in 0..file.len() {
            let answer = all_calls(&mut held_calls, &file[..len]);
            assert_eq!(answer, if len < 16 { 1 } else { question });
        }
    }
    // the largest files at each length around their header and their end, and at others between
    for file in [largest().file(), largest_of_edition_2().file()] {
        for len in (0..40)
            .chain((40..file.len()).step_by(997))
            .chain(file.len() - 20..file.len())
        {
            let answer = all_calls(&mut held_calls, &file[..len]);
            assert_eq!(answer, if len < 16 { 1 } else { 8 });
        }
    }
}

#[test]
fn each_bit() {
    let mut held_calls = HeldCalls::new();
    for (mut file, _) in known_files() {
        for bit in 0..8 * file.len() {
            file[bit / 8] ^= 0x80 >> (bit % 8);
            if all_calls(&mut held_calls, &file) == 0 {
                held_calls.write_back(&file);
            }
            file[bit / 8] ^= 0x80 >> (bit % 8);
        }
    }
}

#[test]
fn bytes_added() {
    let mut held_calls = HeldCalls::new();
    for (file, question) in known_files() {
        for added in [0, 1, 0x80, 0xff] {
            let mut file = file.clone();
            for _ in 0..40 {
                file.push(added);
                assert_eq!(all_calls(&mut held_calls, &file), question);
            }
        }
    }
}

#[test]
fn each_length_of_the_premiums() {
    let mut held_calls = HeldCalls::new();
    for n in [1, 2, 3, 4, 63, 64, 128, 254, 255] {
        let file = one_claim_of_one(n).file();
        for room in 0..=4 * n + 9 {
            let answer = held_calls.rate(&file, room);
            assert_eq!(answer, if room < 4 * n { 13 } else { 0 });
        }
    }
}

#[test]
fn each_length_of_premiums_and_differences() {
    let mut held_calls = HeldCalls::new();
    for n in [1, 2, 3, 4] {
        let file = one_claim_of_one(n).file();
        for premiums_room in 0..=4 * n + 9 {
            for differences_room in 0..=n + 9 {
                let answer =
                    held_calls.guaranteed(&file, &stock(), premiums_room, differences_room);
                let enough = premiums_room >= 4 * n && differences_room >= n;
                assert_eq!(answer, if enough { 0 } else { 13 });
            }
        }
    }
    for n in [63, 64, 128, 254, 255] {
        let file = one_claim_of_one(n).file();
        for room in 0..=4 * n + 9 {
            let answer = held_calls.guaranteed(&file, &stock(), room, n);
            assert_eq!(answer, if room < 4 * n { 13 } else { 0 });
            let answer = held_calls.guaranteed(&file, &stock(), 4 * n, room);
            assert_eq!(answer, if room < n { 13 } else { 0 });
        }
    }
}

#[test]
fn each_rate_and_width() {
    let mut held_calls = HeldCalls::new();
    let file = four_risks().file();
    for row in 0..4 {
        for power in 0..32 {
            for value in [
                (1 << power) - 1,
                1 << power,
                (1 << power) + 1,
                !(1 << power),
            ] {
                let mut layers = stock();
                layers[row].rate = value;
                let answer = held_calls.guaranteed(&file, &layers, 16, 4);
                assert_eq!(answer, if value > 1_000 { 16 } else { 0 });
                let mut layers = stock();
                layers[row].width = value;
                let answer = held_calls.guaranteed(&file, &layers, 16, 4);
                assert_eq!(answer, if value == 0 && row < 3 { 17 } else { 0 });
            }
        }
        for rate in 0..=1_100 {
            let mut layers = stock();
            layers[row].rate = rate;
            let answer = held_calls.guaranteed(&file, &layers, 16, 4);
            assert_eq!(answer, if rate > 1_000 { 16 } else { 0 });
        }
    }
}

#[test]
fn each_standard_premium_around_the_ends_of_layers() {
    // Entry ratio marks: the standard premium changes no premium, and each is accepted.
    let mut held_calls = HeldCalls::new();
    let mut file = one_claim_of_one(2).file();
    let mut compare = |layers: &[Layer; 4], standard_premium: u32| {
        set(&mut file, STANDARD_PREMIUM, standard_premium);
        assert_eq!(held_calls.guaranteed(&file, layers, 8, 2), 0);
    };
    let layers = schedule([(7, 125), (11, 375), (13, 250), (0, 500)]);
    for standard_premium in 1..=99 {
        compare(&layers, standard_premium);
    }
    for end in [5_000, 100_000, 500_000, 4_194_283] {
        for standard_premium in end - 20..=end + 20 {
            compare(&stock(), standard_premium);
        }
    }
}

#[test]
fn each_length_of_counts_claims_and_bits() {
    let mut held_calls = HeldCalls::new();
    for sample in [four_risks(), four_risks().in_edition_2(&[(1, 1), (3, 2)])] {
        let file = sample.file();
        for counts_room in 0..=7 {
            for (claims_room, joined_room) in (0..10).flat_map(|k| (0..10).map(move |j| (k, j))) {
                let answer = held_calls.read(&file, counts_room, claims_room, joined_room);
                let enough = counts_room >= 4 && claims_room >= 6 && joined_room >= 6;
                assert_eq!(answer, if enough { 0 } else { 13 });
            }
        }
    }
    for sample in [largest(), largest_of_edition_2()] {
        let file = sample.file();
        for counts_room in [254, 255, 256] {
            for claims_room in [16_064, 16_065, 16_066] {
                for joined_room in [16_064, 16_065, 16_066] {
                    let answer = held_calls.read(&file, counts_room, claims_room, joined_room);
                    let enough = counts_room >= 255 && claims_room.min(joined_room) >= 16_065;
                    assert_eq!(answer, if enough { 0 } else { 13 });
                }
            }
        }
    }
}

#[test]
fn each_length_of_the_written_file() {
    let mut held_calls = HeldCalls::new();
    for sample in known() {
        let values = sample.values();
        let length = sample.file().len();
        for room in 0..=length + 9 {
            let answer = held_calls.write(&values, room);
            assert_eq!(answer, if room < length { 13 } else { 0 });
        }
    }
    for sample in crossed() {
        for room in 0..=40 {
            assert_eq!(held_calls.write(&sample.values(), room), 18);
        }
    }
}

#[test]
fn each_length_of_the_bits_written() {
    let mut held_calls = HeldCalls::new();
    for sample in known() {
        let mut values = sample.values();
        let length = sample.file().len();
        for len in 0..=values.claims.len() + 9 {
            values.joined = sample.joined();
            values.joined.resize(len, 0);
            let answer = held_calls.write(&values, length);
            assert_eq!(answer, if len == values.claims.len() { 0 } else { 15 });
        }
    }
}

#[test]
fn each_entry_ratio() {
    let mut held_calls = HeldCalls::new();
    for sample in [
        four_risks(),
        ten_risks(),
        one_claim_of_one(3),
        accidents_cut(),
    ] {
        let file = sample.file();
        for entry_ratio in 0..=1_300 {
            let answer = held_calls.table(&file, entry_ratio);
            assert_eq!(answer, if entry_ratio > 600 { 14 } else { 0 });
        }
    }
}

/// A header with one of its values changed, by the value's place in the header.
fn with_value(header: &Header, place: usize, value: u32) -> Header {
    let mut changed = *header;
    *match place {
        0 => &mut changed.loss_limit,
        1 => &mut changed.standard_premium,
        2 => &mut changed.expense,
        3 => &mut changed.conversion,
        4 => &mut changed.tax,
        5 => &mut changed.mark_kind,
        6 => &mut changed.maximum_mark,
        _ => &mut changed.minimum_mark,
    } = value;
    changed
}

#[test]
fn write_of_each_header_value() {
    let mut held_calls = HeldCalls::new();
    for sample in [four_risks(), four_risks().in_edition_2(&[(1, 1)])] {
        let length = sample.file().len();
        for place in 0..8 {
            let values = |value: u32| Values {
                header: with_value(&sample.header, place, value),
                ..sample.values()
            };
            for power in 0..32 {
                for value in [
                    (1 << power) - 1,
                    1 << power,
                    (1 << power) + 1,
                    u32::MAX - (1 << power),
                ] {
                    held_calls.write(&values(value), length);
                    held_calls.write(&values(value), length - 1);
                }
            }
            for value in [
                999, 1_000, 2_000, 2_001, 6_000, 6_001, 9_999, 10_000, 20_000, 20_001,
            ] {
                held_calls.write(&values(value), length);
            }
        }
    }
    for answer in [0, 3, 4, 5, 6, 18, 15, 13] {
        for edition in [1, 2] {
            let times = held_calls.given.of_edition(edition, Call::Write, answer);
            assert!(times > 0, "{answer} in edition {edition}");
        }
    }
}

#[test]
fn write_of_each_edition() {
    let mut held_calls = HeldCalls::new();
    for sample in [four_risks(), scaffold()] {
        let mut values = sample.values();
        // a sound length for edition 1 and for edition 2
        for power in 0..32 {
            for edition in [
                (1 << power) - 1,
                1 << power,
                (1 << power) + 1,
                (1 << power) + 2,
                u32::MAX - (1 << power),
            ] {
                values.edition = edition;
                let answer = held_calls.write(&values, 100);
                let joined = values.joined.contains(&1);
                let sound = match edition {
                    1 if joined => 15,
                    1 | 2 => 0,
                    _ => 2,
                };
                assert_eq!(answer, sound, "{edition}");
            }
        }
    }
}

#[test]
fn write_of_each_bit() {
    let mut held_calls = HeldCalls::new();
    for edition in [1, 2] {
        for place in 0..6 {
            for entry in 0..=255 {
                let mut values = four_risks().values();
                values.edition = edition;
                values.joined[place] = entry;
                let answer = held_calls.write(&values, 40);
                // the first claims are those of the second, the third and the fourth risk
                let expected = match (edition, entry) {
                    (_, 0) => 0,
                    (2, 1) if matches!(place, 0 | 2 | 3) => 19,
                    (2, 1) => 0,
                    _ => 15,
                };
                assert_eq!(answer, expected, "{entry} at {place} in edition {edition}");
            }
        }
    }
}

#[test]
fn write_of_numbers_that_wrap() {
    // Counts and claims so many that their number in 8 or 16 bits is a sound one.
    let mut held_calls = HeldCalls::new();
    let header = four_risks().header;
    for edition in [1, 2] {
        let mut write = |counts: &[u8], claims: &[u32], room: usize| {
            let values = Values {
                edition,
                ..Values::of_edition_1(&header, counts, claims)
            };
            held_calls.write(&values, room)
        };
        for more in [256, 512, 65_536] {
            let mut counts = vec![0; 4 + more];
            assert_eq!(write(&counts, &[], 34), 15);
            counts.truncate(4);
            counts[0] = 2;
            assert_eq!(write(&counts, &vec![7; 2 + more], 34), 15);
        }
        // Counts that add to the number of claims only in 8 or 16 bits, or with the bits above a
        // count's six dropped.
        for counts in [
            [64, 64, 64, 66],
            [130, 0, 0, 0],
            [66, 0, 0, 0],
            [2, 192, 0, 64],
        ] {
            assert_eq!(write(&counts, &[7, 7], 34), 15);
        }
        // 255 risks of 255 claims each: 65,025 claims
        assert_eq!(write(&[255; 255], &vec![1; 65_025], 1 << 17), 15);
    }
    // Bits so many that their number in 8 or 16 bits is that of the claims.
    for edition in [1, 2] {
        for more in [256, 512, 65_536] {
            let mut values = four_risks().values();
            values.edition = edition;
            values.joined.resize(6 + more, 0);
            assert_eq!(held_calls.write(&values, 40), 15);
        }
    }
}

#[test]
fn write_of_each_claim_and_count() {
    let mut held_calls = HeldCalls::new();
    let header = four_risks().header;
    for edition in [1, 2] {
        let mut write = |counts: &[u8], claims: &[u32], room: usize| {
            let values = Values {
                edition,
                ..Values::of_edition_1(&header, counts, claims)
            };
            held_calls.write(&values, room)
        };
        for power in 0..32 {
            for claim in [(1 << power) - 1, 1 << power, (1 << power) + 1] {
                let answer = write(&[1, 1], &[5, claim], 23);
                assert_eq!(answer, if claim < 1 << 20 { 0 } else { 15 });
            }
        }
        for count in 0..=255u8 {
            let claims = vec![9; usize::from(count)];
            let answer = write(&[count], &claims, 200);
            assert_eq!(answer, if count < 64 { 0 } else { 15 });
        }
    }
}

/// Rate, Table, Plan and Read with a null pointer for each slice whose count is 0.
fn null_where_empty(file: &[u8], counts_room: usize, claims_room: usize, joined_room: usize) {
    let lent = pointer(file);
    let (mut risks, mut basic, mut excess, mut billed) = (1, 2, 3, 4);
    // SAFETY: each pointer is good for its count; a null pointer has count 0.
    let rated = unsafe {
        let no_bytes = ptr::null_mut();
        raw::retro_rate(
            lent,
            file.len(),
            no_bytes,
            0,
            &mut risks,
            &mut basic,
            &mut excess,
            &mut billed,
        )
    };
    assert_eq!(Some(rated), second_rater::rate(file, 0).err());
    assert_eq!((risks, basic, excess, billed), (1, 2, 3, 4));

    if file.is_empty() {
        let (mut charge, mut savings) = (5, 6);
        // SAFETY: as above.
        let tabled = unsafe { raw::retro_table(lent, 0, 100, &mut charge, &mut savings) };
        assert_eq!((tabled, charge, savings), (1, 5, 6));

        let (mut made, mut best, mut short_of) = (7, 8, 9);
        // SAFETY: as above.
        let planned =
            unsafe { raw::retro_plan(lent, 0, 9, 1, 20, &mut made, &mut best, &mut short_of) };
        assert_eq!((planned, made, best, short_of), (1, 7, 8, 9));
    }

    let mut counts = vec![7; counts_room];
    let mut claims = vec![8; claims_room];
    let mut joined = vec![9; joined_room];
    // SAFETY: as above.
    let given = unsafe {
        raw::retro_read(
            lent,
            file.len(),
            mutable(&mut counts),
            counts_room,
            mutable(&mut claims),
            claims_room,
            mutable(&mut joined),
            joined_room,
        )
    };
    match second_rater::read(file, counts_room, claims_room, joined_room) {
        Err(question) => {
            assert_eq!(given, Group::refused(question));
            assert!(counts.iter().all(|&count| count == 7));
            assert!(claims.iter().all(|&claim| claim == 8));
            assert!(joined.iter().all(|&bit| bit == 9));
        }
        Ok(group) => {
            let n = group.counts.len();
            let expected = Group::given(group.edition, n as u32, group.header.into());
            assert_eq!(given, expected);
            assert_eq!(counts[..n], group.counts);
            assert_eq!(claims[..group.claims.len()], group.claims);
            assert_eq!(joined[..group.joined.len()], group.joined);
        }
    }
}

/// The pointer to a slice, null where the slice is empty.
fn pointer<T>(slice: &[T]) -> *const T {
    if slice.is_empty() {
        ptr::null()
    } else {
        slice.as_ptr()
    }
}

/// The same for a slice that is written.
fn mutable<T>(slice: &mut [T]) -> *mut T {
    if slice.is_empty() {
        ptr::null_mut()
    } else {
        slice.as_mut_ptr()
    }
}

#[test]
fn null_pointers_where_the_count_is_0() {
    null_where_empty(&[], 0, 0, 0);
    null_where_empty(&[], 4, 6, 6);
    for (file, _) in known_files() {
        for counts_room in [0, 300] {
            for (claims_room, joined_room) in [(0, 0), (0, 300), (300, 0), (300, 300)] {
                null_where_empty(&file, counts_room, claims_room, joined_room);
            }
        }
    }
    // Risks without claims are read into no claims and no bits.
    let mut sample = one_claim_of_one(3);
    sample.risks = vec![vec![]; 3];
    for sample in [sample.in_edition_2(&[]), sample] {
        assert!(second_rater::read(&sample.file(), 3, 0, 0).is_ok());
        null_where_empty(&sample.file(), 3, 0, 0);
    }
}

#[test]
fn guaranteed_with_null_pointers_where_the_count_is_0() {
    let before = Numbers {
        risks: 1,
        basic: 2,
        excess: 3,
        billed: 4,
        discount: 5,
        guaranteed: 6,
        difference: 7,
    };
    let files = known_files().into_iter().map(|(file, _)| file);
    for file in files.chain([vec![]]) {
        for (premiums_room, differences_room) in [(0, 0), (0, 300), (1_020, 0), (1_020, 300)] {
            let mut premiums = vec![8; premiums_room];
            let mut differences = vec![-9; differences_room];
            let mut numbers = before;
            // SAFETY: each pointer is good for its count; a null pointer has count 0.
            let answer = unsafe {
                raw::retro_guaranteed(
                    pointer(&file),
                    file.len(),
                    stock().into(),
                    mutable(&mut premiums),
                    premiums_room,
                    mutable(&mut differences),
                    differences_room,
                    &mut numbers.risks,
                    &mut numbers.basic,
                    &mut numbers.excess,
                    &mut numbers.billed,
                    &mut numbers.discount,
                    &mut numbers.guaranteed,
                    &mut numbers.difference,
                )
            };
            let given = second_rater::guaranteed(&file, &stock(), premiums_room, differences_room);
            assert_eq!(answer, given.err().unwrap_or(0));
            if answer != 0 {
                assert_eq!(numbers, before);
                assert!(premiums.iter().all(|&byte| byte == 8));
                assert!(differences.iter().all(|&difference| difference == -9));
            }
        }
    }
}

/// Write with a null pointer for each slice whose count is 0.
fn write_null_where_empty(values: &Values, room: usize) {
    let Values {
        edition,
        header,
        counts,
        claims,
        joined,
    } = values;
    let mut file = vec![0xee; room];
    let mut length = 77;
    // SAFETY: each pointer is good for its count; a null pointer has count 0.
    let answer = unsafe {
        raw::retro_write(
            *edition,
            (*header).into(),
            pointer(counts),
            counts.len(),
            pointer(claims),
            claims.len(),
            pointer(joined),
            joined.len(),
            mutable(&mut file),
            room,
            &mut length,
        )
    };
    let mut expected = vec![0xee; room];
    match values.written(room) {
        Err(question) => assert_eq!((answer, length), (question, 77)),
        Ok(bytes) => {
            assert_eq!((answer, length), (0, bytes.len()));
            expected[..bytes.len()].copy_from_slice(&bytes);
        }
    }
    assert_eq!(file, expected);
}

#[test]
fn write_with_null_pointers_where_the_count_is_0() {
    for header in [four_risks().header, crossed_marks(1).header] {
        for edition in [1, 2, 3] {
            let values = |counts: &[u8], claims: &[u32]| Values {
                edition,
                ..Values::of_edition_1(&header, counts, claims)
            };
            write_null_where_empty(&values(&[], &[]), 0);
            write_null_where_empty(&values(&[], &[]), 40);
            write_null_where_empty(&values(&[0, 0], &[]), 0);
            write_null_where_empty(&values(&[0, 0], &[]), 40);
            write_null_where_empty(&values(&[1, 0], &[]), 40);
            write_null_where_empty(&values(&[1, 0], &[9]), 0);
            // no bits beside a claim, and a bit beside no claims
            let mut no_bits = values(&[1, 0], &[9]);
            no_bits.joined.clear();
            write_null_where_empty(&no_bits, 40);
            let mut a_bit = values(&[0, 0], &[]);
            a_bit.joined.push(0);
            write_null_where_empty(&a_bit, 40);
        }
    }
}

#[test]
fn files_as_long_as_the_address_space_has_room_for() {
    // The answers are those of documents 01 and 02: no question before 8 is about the length,
    // beyond 16 bytes.
    for power in [20, 29, 32, 35, 44] {
        let mut memory = Sparse::new(1 << power);
        let file = memory.bytes();
        let all = |file: &[u8], answer: u32| {
            let mut premiums = [0; 16];
            let (mut n, mut m, mut q, mut sum, mut charge, mut savings) = (0, 0, 0, 0, 0, 0);
            let rated = calls::rate(file, &mut premiums, &mut n, &mut m, &mut q, &mut sum);
            let tabled = calls::table(file, 100, &mut charge, &mut savings);
            let group = calls::read(file, &mut [0; 4], &mut [0; 6], &mut [0; 6]);
            assert_eq!((rated, tabled, group.refused), (answer, answer, answer));
            let mut numbers = Numbers::default();
            let (layers, lent) = (stock().into(), &mut numbers.lend());
            let given = calls::guaranteed(file, layers, &mut premiums, &mut [0; 4], lent);
            assert_eq!((given, numbers), (answer, Numbers::default()));
            let (mut made, mut best, mut short_of) = (7, 8, 9);
            let planned = calls::plan(file, 9, 1, 20, &mut made, &mut best, &mut short_of);
            assert_eq!((planned, made, best, short_of), (answer, 7, 8, 9));
        };
        all(file, 2);
        file[..34].copy_from_slice(&four_risks().file());
        all(file, 8);
        set(file, EDITION, 2);
        all(file, 8);
        // a thousandth above the maximum mark
        set(file, MINIMUM_MARK, 901);
        all(file, 18);
        set(file, STANDARD_PREMIUM, 0);
        all(file, 3);
    }
}

#[test]
fn buffers_as_long_as_the_address_space_has_room_for() {
    let file = four_risks().file();
    let mut memory = Sparse::new(1 << 44);
    let premiums = memory.bytes();
    let (mut n, mut m, mut q, mut sum) = (0, 0, 0, 0);
    let answer = calls::rate(&file, premiums, &mut n, &mut m, &mut q, &mut sum);
    assert_eq!((answer, n, m, q, sum), (0, 4, 6_700_000, 3_300_000, 33_600));
    assert_eq!(premiums[..4], 4_935u32.to_be_bytes());

    let mut more_memory = Sparse::new(1 << 44);
    let differences = more_memory.numbers();
    let mut numbers = Numbers::default();
    let lent = &mut numbers.lend();
    let answer = calls::guaranteed(&file, stock().into(), premiums, differences, lent);
    assert_eq!((answer, numbers.difference), (0, -4_220));
    assert_eq!(differences[..5], [-4_520, -2_210, -1_055, 3_565, 0]);

    let joined = memory.bytes();
    joined[..8].fill(0xaa);
    let group = calls::read(&file, &mut [0; 4], &mut [0; 6], joined);
    assert_eq!((group.refused, group.edition), (0, 1));
    assert_eq!(joined[..8], [0, 0, 0, 0, 0, 0, 0xaa, 0xaa]);

    let values = four_risks().values();
    let written = memory.bytes();
    let mut length = 0;
    let answer = calls::write(
        values.edition,
        values.header.into(),
        &values.counts,
        &values.claims,
        &values.joined,
        written,
        &mut length,
    );
    assert_eq!((answer, length), (0, 34));
    assert_eq!(written[..34], file);
}
