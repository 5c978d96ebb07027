//! Two claims, one accident, job 4 of document 02, through the exported calls: edition 2, the limit
//! on an accident's sum, question 19, and the bits that Read gives and Write takes. Expected
//! answers are typed here; every number and every byte beside them, also after a refusal, is held
//! to the second rater. Where results are typed too, they are worked out beside the test.

use retro_tests::calls::{self, rated, tabled, Group, Numbers, Rated};
use retro_tests::generator::{
    first_bits, get, risks_in, set, with, Field, Random, CONVERSION, EDITION, HEADER, MAXIMUM_MARK,
    MINIMUM_MARK, RISKS, SPARE, STANDARD_PREMIUM, TAX,
};
use retro_tests::held_calls::{Call, HeldCalls, BYTES, ENTRIES};
use retro_tests::samples::{
    accidents_cut, four_risks, largest, largest_of_edition_2, one_claim_of_one, scaffold, stock,
    ten_risks, two_risks_of_ten, Sample, Values, FOUR_RISKS_FILE_OF_EDITION_2, SCAFFOLD_FILE,
};
use retro_tests::second_rater::LARGEST_FILE;

/// The largest claim.
const LARGEST: u32 = (1 << 20) - 1;
/// What a bit of a buffer holds before a call.
const PRESET: u8 = 0xaa;

/// The editions of a file that are refused with 2.
fn other_editions() -> impl Iterator<Item = u32> {
    (0..16).filter(|edition| ![1, 2].contains(edition))
}

/// The file of a group, by Write.
fn written(sample: &Sample) -> Vec<u8> {
    calls::written(&sample.values(), LARGEST_FILE).unwrap()
}

/// What Rate gives on a group, with a buffer that is just enough.
fn rated_group(sample: &Sample) -> Rated {
    rated(&written(sample), 4 * sample.risks.len()).unwrap()
}

/// One risk with these claims, of which those are joined, and the header of the four-risk group.
fn one_risk_of(claims: &[u32], joined: &[usize]) -> Sample {
    let sample = Sample {
        risks: vec![claims.to_vec()],
        ..four_risks()
    };
    let joined: Vec<(usize, usize)> = joined.iter().map(|&claim| (0, claim)).collect();
    sample.in_edition_2(&joined)
}

/// A of one risk, which is L less what Q says is cut off: c is 1.000.
fn limited(claims: &[u32], joined: &[usize]) -> u64 {
    let mut sample = one_risk_of(claims, joined);
    sample.header.conversion = 1_000;
    let losses: u64 = claims.iter().copied().map(u64::from).sum();
    let (_, _, excess, _) = rated_group(&sample).numbers;
    losses - excess / 1_000
}

// ---- the figures

#[test]
fn the_limit_applies_to_an_accidents_sum() {
    assert_eq!(limited(&[3_000, 4_000], &[1]), 5_000);
    assert_eq!(limited(&[3_000, 4_000], &[]), 7_000);
    assert_eq!(limited(&[3_000, 4_000, 1_000], &[1]), 6_000);
    assert_eq!(limited(&[1_000, 4_000, 3_000], &[1]), 8_000);
}

#[test]
fn one_accident_rated_to_the_bill() {
    // M is 1,000 × 2,000 − 100 × 7,000, K is 5,000, and Q is 1,100 times the 2,000 cut off:
    // 1.05 × (1,300 + 2,200 + 1.1 × 5,000)
    let one = rated_group(&one_risk_of(&[3_000, 4_000], &[1]));
    assert_eq!(one.numbers, (1, 1_300_000, 2_200_000, 9_450));
    assert_eq!(one.premiums, [9_450]);
    // 1.05 × (1,300 + 1.1 × 7,000)
    let two = rated_group(&one_risk_of(&[3_000, 4_000], &[]));
    assert_eq!(two.numbers, (1, 1_300_000, 0, 9_450));
    assert_eq!(two.premiums, [9_450]);
}

#[test]
fn four_groupings_of_claims_in_one_group() {
    // L 7,000, 7,000, 8,000 and 8,000; A and K 5,000, 7,000, 6,000 and 8,000. M is 8,000,000 − 100
    // × 30,000, Q is 1,100 × 4,000, and a premium is 1.05 × (2,350 + 1.1 × K), each an exact half.
    let rated = rated_group(&accidents_cut());
    assert_eq!(rated.numbers, (4, 5_000_000, 4_400_000, 39_902));
    assert_eq!(rated.premiums, [8_243, 10_553, 9_398, 11_708]);
    // The same claims in edition 1: A is L, and Q is 0.
    let claims = Sample {
        joined: None,
        ..accidents_cut()
    };
    let (_, _, excess, _) = rated_group(&claims).numbers;
    assert_eq!(excess, 0);
}

#[test]
fn the_scaffold() {
    let file = written(&scaffold());
    assert_eq!(file, SCAFFOLD_FILE);
    let rated = rated(&file, 12).unwrap();
    assert_eq!(rated.numbers, (3, 2_300_000, 2_200_000, 22_050));
    assert_eq!(rated.premiums, [7_350, 3_885, 10_815]);

    let (mut counts, mut claims, mut joined) = ([PRESET; 5], [9; 7], [PRESET; 7]);
    let group = calls::read(&file, &mut counts, &mut claims, &mut joined);
    assert_eq!(group, Group::given(2, 3, scaffold().header.into()));
    assert_eq!(counts, [2, 0, 3, PRESET, PRESET]);
    assert_eq!(claims, [3_000, 4_000, 1_000, 4_000, 3_000, 9, 9]);
    assert_eq!(joined, [0, 1, 0, 1, 0, PRESET, PRESET]);
}

#[test]
fn four_risks_in_edition_2_with_no_bit_set() {
    let (of_1, of_2) = (four_risks(), four_risks().in_edition_2(&[]));
    let file = written(&of_2);
    assert_eq!(file, FOUR_RISKS_FILE_OF_EDITION_2);
    let rated = rated_group(&of_2);
    assert_eq!(rated.numbers, (4, 6_700_000, 3_300_000, 33_600));
    assert_eq!(rated.premiums, [4_935, 7_245, 8_400, 13_020]);
    assert_eq!(rated, rated_group(&of_1));
    for (entry_ratio, given) in [
        (0, (1_000, 0)),
        (100, (321, 321)),
        (200, (71, 1_071)),
        (300, (0, 2_000)),
    ] {
        assert_eq!(tabled(&file, entry_ratio), Ok(given));
    }
    let mut numbers = Numbers::default();
    let (mut premiums, mut differences) = ([0; 16], [0; 4]);
    let (layers, lent) = (stock().into(), &mut numbers.lend());
    let answer = calls::guaranteed(&file, layers, &mut premiums, &mut differences, lent);
    assert_eq!((answer, numbers.difference), (0, -4_220));
    assert_eq!(differences, [-4_520, -2_210, -1_055, 3_565]);
}

#[test]
fn an_accident_at_and_beside_the_limit() {
    assert_eq!(limited(&[2_000, 2_999], &[1]), 4_999);
    assert_eq!(limited(&[2_000, 3_000], &[1]), 5_000);
    assert_eq!(limited(&[2_000, 3_001], &[1]), 5_000);
    assert_eq!(limited(&[7_000, 1], &[1]), 5_000);
    assert_eq!(limited(&[1, 7_000], &[1]), 5_000);
    assert_eq!(limited(&[7_000, 7_000], &[1]), 5_000);
    assert_eq!(limited(&[5_000, 5_000], &[1]), 5_000);
    assert_eq!(limited(&[5_000, 5_000], &[]), 10_000);
}

#[test]
fn an_accident_is_cut_once_it_is_whole() {
    // The sums so far are 3,000, 4,000 and 8,000.
    assert_eq!(limited(&[3_000, 1_000, 4_000], &[1, 2]), 5_000);
    assert_eq!(limited(&[4_999, 0, 2], &[1]), 5_001);
    assert_eq!(limited(&[4_000; 4], &[1, 3]), 10_000);
    assert_eq!(limited(&[4_000; 4], &[2]), 13_000);
    assert_eq!(limited(&[4_000; 5], &[1, 2, 4]), 10_000);
}

#[test]
fn accidents_of_each_number_of_claims() {
    // One accident of the first claims, and each of the others by itself.
    for count in 1..=63usize {
        for joined in 1..=count {
            let claims = vec![3_000; count];
            let together: Vec<usize> = (1..joined).collect();
            let first = (3_000 * joined as u64).min(5_000);
            let others = 3_000 * (count - joined) as u64;
            assert_eq!(limited(&claims, &together), first + others);
        }
        // The last claims in one accident.
        let together: Vec<usize> = (1..count).rev().take(3).collect();
        let claims = vec![2_000; count];
        let alone = count.saturating_sub(4).max(usize::from(count == 1)) as u64;
        let last = (2_000 * (count as u64 - alone)).min(5_000);
        assert_eq!(limited(&claims, &together), 2_000 * alone + last);
    }
}

#[test]
fn an_accident_of_0_dollars() {
    assert_eq!(limited(&[0, 0, 4_000], &[1]), 4_000);
    assert_eq!(limited(&[0, 4_000, 0], &[1]), 4_000);
    assert_eq!(limited(&[0, 6_000, 0, 0, 6_000], &[1, 3, 4]), 10_000);
    let mut held_calls = HeldCalls::new();
    let file = one_risk_of(&[0, 0, 0], &[1]).file();
    assert_eq!(held_calls.rate(&file, 4), 10);
    assert_eq!(held_calls.table(&file, 100), 10);
    assert_eq!(held_calls.read(&file, 1, 3, 3), 0);
}

#[test]
fn an_accident_ends_with_its_risk() {
    // Each risk has an A of 4,000 or a dollar more; in one accident over two risks it would be cut.
    let claims = Sample {
        risks: vec![vec![1, 4_000], vec![4_000], vec![], vec![4_000, 1]],
        ..four_risks()
    };
    let rated = rated_group(&claims.in_edition_2(&[(0, 1), (3, 1)]));
    let (_, _, excess, _) = rated.numbers;
    assert_eq!(excess, 0);
    assert_eq!(rated.premiums[0], rated.premiums[3]);
}

#[test]
fn without_a_limit_the_bits_change_nothing() {
    let mut sample = accidents_cut();
    sample.header.loss_limit = 0;
    let given = rated_group(&sample);
    assert_eq!(given.numbers.2, 0);
    assert_eq!(given, rated_group(&sample.in_edition_2(&[])));
    assert_ne!(given, rated_group(&accidents_cut()));
}

#[test]
fn the_largest_accident() {
    let all: Vec<usize> = (1..63).collect();
    let mut sample = one_risk_of(&[LARGEST; 63], &all);
    sample.header.expense = LARGEST;
    sample.header.conversion = 1_000;
    for (limit, kept) in [
        (0, 66_060_225),
        (LARGEST, 1_048_575),
        (LARGEST - 1, 1_048_574),
        (1, 1),
    ] {
        sample.header.loss_limit = limit;
        let (_, _, excess, _) = rated_group(&sample).numbers;
        assert_eq!(excess, 1_000 * (66_060_225 - kept));
    }
}

// ---- the largest file

#[test]
fn the_largest_file_is_written_read_back_and_rated() {
    let sample = largest_of_edition_2();
    let file = written(&sample);
    assert_eq!(file.len(), 42_378);

    let (mut counts, mut claims) = ([0; 255], vec![0; 16_065]);
    let mut joined = vec![PRESET; 16_065];
    let group = calls::read(&file, &mut counts, &mut claims, &mut joined);
    assert_eq!(group, Group::given(2, 255, sample.header.into()));
    assert_eq!(counts, [63; 255]);
    assert_eq!(claims, sample.claims());
    assert_eq!(joined, sample.joined());

    // 32 accidents a risk are cut to one claim each. Marks of 0 leave no ratable losses, so each
    // premium is 2 × (e + L), with L = 63 × 1,048,575 and e 1,048,575. M is 1,000 × n × e − 1,000 ×
    // SL + 2,000 × SA = 255,000 × 2 × 1,048,575, and Q is 2,000 × 255 × 31 × 1,048,575.
    let rated = rated(&file, 1_020).unwrap();
    assert_eq!(rated.premiums, [134_217_600; 255]);
    let numbers = (255, 534_773_250_000, 16_577_970_750_000, 34_225_488_000);
    assert_eq!(rated.numbers, numbers);
}

#[test]
fn largest_files_there_and_back() {
    // Claims that differ, with none of them joined, all but the first, and every other one.
    let mut held_calls = HeldCalls::new();
    let mut claims = largest();
    claims.header.conversion = 1_000;
    for (k, claim) in claims.risks.iter_mut().flatten().enumerate() {
        *claim -= k as u32 * 61;
    }
    let kinds: [fn(usize) -> u8; 4] = [
        |_| 0,
        |claim| u8::from(claim > 0),
        |claim| (claim % 2) as u8,
        |claim| u8::from(claim > 0 && claim % 2 == 0),
    ];
    for limit in [0, 500_000] {
        claims.header.loss_limit = limit;
        for kind in kinds {
            let sample = Sample {
                joined: Some(vec![(0..63).map(kind).collect(); 255]),
                ..claims.clone()
            };
            let (file, values) = (sample.file(), sample.values());
            assert_eq!(file.len(), 42_378);
            assert_eq!(held_calls.write(&values, 42_378), 0);
            assert_eq!(held_calls.write(&values, 42_377), 13);
            assert_eq!(held_calls.read(&file, 255, 16_065, 16_065), 0);
            held_calls.write_back(&file);
            held_calls.read_back(&values);
            assert_eq!(held_calls.rate(&file, 1_020), 0);
            assert_eq!(held_calls.guaranteed(&file, &stock(), 1_020, 255), 0);
            assert_eq!(held_calls.table(&file, 100), 0);
        }
    }
}

#[test]
fn a_byte_more_than_the_largest_file() {
    let mut held_calls = HeldCalls::new();
    let mut file = largest_of_edition_2().file();
    for added in [0, 1, 0xff] {
        file.truncate(42_378);
        file.push(added);
        held_calls.all_give(&file, 8);
    }
}

// ---- each prefix and each bit of a three-risk file

#[test]
fn each_prefix_of_the_scaffold() {
    let mut held_calls = HeldCalls::new();
    for length in 0..32 {
        let question = if length < 16 { 1 } else { 8 };
        held_calls.all_give(&SCAFFOLD_FILE[..length], question);
    }
}

/// What Read answers to the scaffold's file with this bit turned, where a field decides it.
fn with_a_bit_turned(bit: usize) -> Option<u32> {
    let of = |field: Field| (field.at..field.at + field.width).contains(&bit);
    if of(EDITION) || of(SPARE) {
        // no bit turned makes 2 a 1
        return Some(2);
    }
    if bit < 8 * HEADER {
        return None;
    }
    let mut end = 0;
    for risk in risks_in(&SCAFFOLD_FILE) {
        end = risk.at + 21 * risk.claims;
        if (risk.at..end).contains(&bit) {
            // a first claim's bit, or another one or a claim's
            return Some(if bit == risk.at { 19 } else { 0 });
        }
    }
    // a count's, or one that fills the last byte
    (bit >= end).then_some(9)
}

#[test]
fn each_bit_of_the_scaffold() {
    let mut held_calls = HeldCalls::new();
    let mut decided = 0;
    for bit in 0..8 * SCAFFOLD_FILE.len() {
        let mut file = SCAFFOLD_FILE;
        file[bit / 8] ^= 0x80 >> (bit % 8);
        held_calls.rate(&file, BYTES);
        held_calls.guaranteed(&file, &stock(), BYTES, ENTRIES);
        held_calls.table(&file, 100);
        let answer = held_calls.read(&file, ENTRIES, ENTRIES, ENTRIES);
        if answer == 0 {
            held_calls.write_back(&file);
        }
        if let Some(question) = with_a_bit_turned(bit) {
            assert_eq!(answer, question, "bit {bit}");
            decided += 1;
        }
    }
    // of the header, of five claims with their bits, and of the last byte
    assert_eq!(decided, 5 + 5 * 21 + 5);
    // 19 once more: with a first count of 0 the third is 5, and the bit after it is set
    for (answer, times) in [(2, 5), (19, 3), (9, 5)] {
        for call in [Call::Rate, Call::Guaranteed, Call::Table, Call::Read] {
            assert_eq!(held_calls.given.of(call, answer), times, "{call:?}");
        }
    }
}

#[test]
fn each_two_bits_after_the_header_of_the_scaffold() {
    let mut held_calls = HeldCalls::new();
    let bits = 8 * HEADER..8 * SCAFFOLD_FILE.len();
    for one in bits.clone() {
        for other in one + 1..bits.end {
            let mut file = SCAFFOLD_FILE;
            file[one / 8] ^= 0x80 >> (one % 8);
            file[other / 8] ^= 0x80 >> (other % 8);
            held_calls.rate(&file, 12);
            held_calls.read(&file, 3, 5, 5);
        }
    }
    for answer in [0, 8, 9, 19] {
        assert!(held_calls.given.of(Call::Rate, answer) > 0, "{answer}");
        assert!(held_calls.given.of(Call::Read, answer) > 0, "{answer}");
    }
}

// ---- the editions

#[test]
fn other_editions_in_a_file_give_2() {
    let mut held_calls = HeldCalls::new();
    for sample in [four_risks(), scaffold(), accidents_cut()] {
        let file = sample.file();
        for edition in other_editions() {
            let other = with(&file, EDITION, edition);
            held_calls.all_give(&other, 2);
            // with 3, with 8 and with 1
            held_calls.all_give(&with(&other, STANDARD_PREMIUM, 0), 2);
            held_calls.all_give(&other[..20], 2);
            held_calls.all_give(&other[..15], 1);
        }
        held_calls.all_give(&with(&file, SPARE, 1), 2);
    }
}

#[test]
fn other_editions_in_write_give_2() {
    let mut held_calls = HeldCalls::new();
    let large = [
        16,
        17,
        18,
        19,
        32,
        33,
        34,
        255,
        256,
        257,
        258,
        65_535,
        65_537,
        65_538,
        (1 << 31) + 1,
        (1 << 31) + 2,
        u32::MAX - 1,
        u32::MAX,
    ];
    for edition in other_editions().chain(large) {
        for sample in [four_risks(), scaffold()] {
            let mut values = sample.values();
            values.edition = edition;
            held_calls.write_gives(&values, 2);
            // with each later question
            let mut other = values.clone();
            other.header.standard_premium = 0;
            held_calls.write_gives(&other, 2);
            let mut other = values.clone();
            other.header.conversion = 999;
            held_calls.write_gives(&other, 2);
            let mut other = values.clone();
            other.header.tax = 20_001;
            held_calls.write_gives(&other, 2);
            let mut other = values.clone();
            other.header.maximum_mark = 6_001;
            held_calls.write_gives(&other, 2);
            let mut other = values.clone();
            other.header.maximum_mark = other.header.minimum_mark - 1;
            held_calls.write_gives(&other, 2);
            let mut other = values.clone();
            other.counts.clear();
            held_calls.write_gives(&other, 2);
            let mut other = values.clone();
            other.joined.pop();
            held_calls.write_gives(&other, 2);
            let mut other = values.clone();
            other.joined[0] = 1;
            held_calls.write_gives(&other, 2);
            other.joined[0] = 2;
            held_calls.write_gives(&other, 2);
        }
    }
}

#[test]
fn both_editions_there_and_back() {
    let mut held_calls = HeldCalls::new();
    let claims = [four_risks(), ten_risks(), one_claim_of_one(3), largest()];
    let unjoined = claims.each_ref().map(|sample| sample.in_edition_2(&[]));
    let joined = [scaffold(), accidents_cut(), largest_of_edition_2()];
    for sample in claims.iter().chain(&unjoined).chain(&joined) {
        let (file, values) = (sample.file(), sample.values());
        assert_eq!(held_calls.write(&values, file.len()), 0);
        let (risks, most) = (values.counts.len(), values.claims.len());
        assert_eq!(held_calls.read(&file, risks, most, most), 0);
        held_calls.write_back(&file);
        held_calls.read_back(&values);
    }
    // One group has a file of its own in each edition.
    for (of_1, of_2) in claims.iter().zip(&unjoined) {
        assert_ne!(written(of_1), written(of_2));
    }
}

#[test]
fn the_edition_is_given_with_the_header_and_not_with_a_refusal() {
    for (sample, edition) in [(four_risks(), 1), (four_risks().in_edition_2(&[]), 2)] {
        let file = sample.file();
        let (mut counts, mut claims, mut joined) = ([0; 4], [0; 6], [PRESET; 6]);
        let group = calls::read(&file, &mut counts, &mut claims, &mut joined);
        assert_eq!((group.refused, group.edition), (0, edition));
        let group = calls::read(&file, &mut counts, &mut claims, &mut joined[..5]);
        assert_eq!(group, Group::refused(13));
        let group = calls::read(&file[..20], &mut counts, &mut claims, &mut joined);
        assert_eq!(group, Group::refused(8));
    }
}

// ---- the third buffer

#[test]
fn the_bits_of_edition_1_are_all_0() {
    for sample in [four_risks(), ten_risks(), one_claim_of_one(255), largest()] {
        let file = sample.file();
        let most = sample.claims().len();
        for preset in [PRESET, 1, 0xff, 0] {
            let (mut counts, mut claims) = ([0; 255], vec![0; most]);
            let mut joined = vec![preset; most + 3];
            let group = calls::read(&file, &mut counts, &mut claims, &mut joined);
            assert_eq!((group.refused, group.edition), (0, 1));
            assert!(joined[..most].iter().all(|&bit| bit == 0));
            assert_eq!(joined[most..], [preset; 3]);
        }
    }
}

#[test]
fn the_bits_of_edition_2_and_no_more() {
    for sample in [scaffold(), accidents_cut(), largest_of_edition_2()] {
        let file = sample.file();
        let most = sample.claims().len();
        for preset in [PRESET, 1, 0xff, 0] {
            let (mut counts, mut claims) = ([0; 255], vec![0; most]);
            let mut joined = vec![preset; most + 3];
            let group = calls::read(&file, &mut counts, &mut claims, &mut joined);
            assert_eq!((group.refused, group.edition), (0, 2));
            assert_eq!(joined[..most], sample.joined());
            assert_eq!(joined[most..], [preset; 3]);
        }
    }
}

#[test]
fn a_third_buffer_that_is_too_short_gives_13() {
    for sample in [
        four_risks(),
        four_risks().in_edition_2(&[(1, 1), (3, 1)]),
        largest(),
        largest_of_edition_2(),
    ] {
        let file = sample.file();
        let most = sample.claims().len();
        for room in [most - 1, most / 2, 0] {
            let (mut counts, mut claims) = ([PRESET; 255], vec![0x0dd; most]);
            let mut joined = vec![PRESET; room];
            let group = calls::read(&file, &mut counts, &mut claims, &mut joined);
            assert_eq!(group, Group::refused(13));
            assert_eq!(counts, [PRESET; 255]);
            assert!(claims.iter().all(|&claim| claim == 0x0dd));
            assert!(joined.iter().all(|&bit| bit == PRESET));
        }
        // Its own room is none of the counts or of the claims.
        let mut held_calls = HeldCalls::new();
        let risks = sample.risks.len();
        assert_eq!(held_calls.read(&file, risks, most, most), 0);
        assert_eq!(held_calls.read(&file, risks, most - 1, most), 13);
        assert_eq!(held_calls.read(&file, risks - 1, most, most), 13);
        assert_eq!(held_calls.read(&file, risks, most, most - 1), 13);
        assert_eq!(held_calls.read(&file, risks + 9, most + 9, most - 1), 13);
    }
}

// ---- question 15 of the bits

#[test]
fn a_list_not_as_long_as_the_claims_gives_15() {
    let mut held_calls = HeldCalls::new();
    for sample in [
        four_risks(),
        four_risks().in_edition_2(&[(1, 1)]),
        scaffold(),
    ] {
        let most = sample.claims().len();
        let lengths = [0, 1, most - 1, most + 1, most + 2, 63, 255, 256 + most];
        for length in lengths {
            let mut values = sample.values();
            values.joined.resize(length, 0);
            held_calls.write_gives(&values, 15);
        }
        assert_eq!(held_calls.write(&sample.values(), 40), 0);
    }
    // A list for no claims is empty.
    for edition in [1, 2] {
        let mut values = Values {
            edition,
            ..Values::of_edition_1(&four_risks().header, &[0, 0], &[])
        };
        assert_eq!(held_calls.write(&values, 40), 0);
        for length in [1, 2, 256] {
            values.joined = vec![0; length];
            held_calls.write_gives(&values, 15);
        }
    }
}

#[test]
fn an_entry_above_1_gives_15() {
    let mut held_calls = HeldCalls::new();
    for sample in [four_risks(), four_risks().in_edition_2(&[(1, 1), (3, 2)])] {
        for place in 0..6 {
            for entry in [2, 3, 4, 127, 128, 129, 254, 255] {
                let mut values = sample.values();
                values.joined[place] = entry;
                held_calls.write_gives(&values, 15);
            }
        }
    }
}

#[test]
fn a_1_with_edition_1_gives_15() {
    let mut held_calls = HeldCalls::new();
    for place in 0..6 {
        let mut values = four_risks().values();
        values.joined[place] = 1;
        held_calls.write_gives(&values, 15);
    }
    let mut values = scaffold().values();
    values.edition = 1;
    held_calls.write_gives(&values, 15);
    // The last of 16,065 bits alone.
    let mut values = largest().values();
    values.joined[16_064] = 1;
    assert_eq!(held_calls.write(&values, LARGEST_FILE), 15);
    values.edition = 2;
    assert_eq!(held_calls.write(&values, LARGEST_FILE), 0);
    values.joined[16_064] = 2;
    assert_eq!(held_calls.write(&values, LARGEST_FILE), 15);
}

// ---- question 19

/// A file of edition 2 with the bits of these first claims set.
fn with_first_bits(sample: &Sample, chosen: &[usize]) -> Vec<u8> {
    let mut file = sample.file();
    let bits = first_bits(&file);
    for &k in chosen {
        set(&mut file, bits[k], 1);
    }
    file
}

#[test]
fn a_first_claim_with_its_bit_set_gives_19() {
    let mut held_calls = HeldCalls::new();
    for sample in [accidents_cut(), accidents_cut().in_edition_2(&[])] {
        // of the first, of each middle and of the last risk, and of several
        for chosen in [&[0][..], &[1], &[2], &[3], &[0, 3], &[1, 2], &[0, 1, 2, 3]] {
            held_calls.all_give(&with_first_bits(&sample, chosen), 19);
        }
        held_calls.write_back(&sample.file());
    }
    // The risk between has no claims.
    held_calls.all_give(&with_first_bits(&scaffold(), &[0]), 19);
    held_calls.all_give(&with_first_bits(&scaffold(), &[1]), 19);
    // A risk of one claim, and of 63, whose others are joined too.
    held_calls.all_give(&with_first_bits(&one_risk_of(&[7], &[]), &[0]), 19);
    let all: Vec<usize> = (1..63).collect();
    let whole = one_risk_of(&[7; 63], &all);
    held_calls.all_give(&with_first_bits(&whole, &[0]), 19);
}

#[test]
fn each_of_255_first_claims_gives_19() {
    let mut held_calls = HeldCalls::new();
    let mut sample = one_claim_of_one(255);
    sample.risks = vec![vec![1, 2]; 255];
    let sample = sample.in_edition_2(&[(0, 1), (100, 1), (254, 1)]);
    for risk in 0..255 {
        let file = with_first_bits(&sample, &[risk]);
        assert_eq!(held_calls.rate(&file, BYTES), 19);
        assert_eq!(held_calls.guaranteed(&file, &stock(), BYTES, 255), 19);
        assert_eq!(held_calls.table(&file, 100), 19);
        assert_eq!(held_calls.read(&file, 255, 510, 510), 19);
        let mut values = sample.values();
        values.joined[2 * risk] = 1;
        assert_eq!(held_calls.write(&values, LARGEST_FILE), 19);
    }
}

#[test]
fn edition_1_has_no_first_bits() {
    // The bits of edition 2 are other claims' in edition 1, of another length.
    let mut held_calls = HeldCalls::new();
    let file = with_first_bits(&scaffold(), &[0, 1]);
    held_calls.all_give(&with(&file, EDITION, 1), 8);
    // Claims whose first bit is set are no joined ones.
    let mut sample = one_claim_of_one(3);
    sample.risks = vec![vec![LARGEST; 2]; 3];
    assert_eq!(held_calls.rate(&sample.file(), 12), 0);
    assert_eq!(held_calls.read(&sample.file(), 3, 6, 6), 0);
}

#[test]
fn a_first_claim_in_write_gives_19() {
    let mut held_calls = HeldCalls::new();
    // the first claims of four risks are at 0, 2, 4 and 7
    for chosen in [&[0][..], &[2], &[4], &[7], &[0, 7], &[2, 4], &[0, 2, 4, 7]] {
        for sample in [accidents_cut(), accidents_cut().in_edition_2(&[])] {
            let mut values = sample.values();
            for &place in chosen {
                values.joined[place] = 1;
            }
            // before 13
            held_calls.write_gives(&values, 19);
        }
    }
    // No other place is a first claim's.
    for place in [1, 3, 5, 6, 8, 9] {
        let mut values = accidents_cut().in_edition_2(&[]).values();
        values.joined[place] = 1;
        assert_eq!(held_calls.write(&values, 46), 0);
        assert_eq!(held_calls.write(&values, 45), 13);
    }
    // The first claim after risks without claims.
    let values = |joined: &[u8]| Values {
        edition: 2,
        joined: joined.to_vec(),
        ..Values::of_edition_1(&four_risks().header, &[0, 0, 2, 0, 1], &[5, 6, 7])
    };
    held_calls.write_gives(&values(&[1, 0, 0]), 19);
    held_calls.write_gives(&values(&[0, 0, 1]), 19);
    assert_eq!(held_calls.write(&values(&[0, 1, 0]), 40), 0);
}

// ---- two faults

#[test]
fn first_claims_joined_with_1_to_9_and_18_give_the_other() {
    let mut held_calls = HeldCalls::new();
    for sample in [scaffold(), accidents_cut()] {
        let last = first_bits(&sample.file()).len() - 1;
        for chosen in [0, last] {
            let file = with_first_bits(&sample, &[chosen]);
            held_calls.all_give(&file[..15], 1);
            for edition in other_editions() {
                held_calls.all_give(&with(&file, EDITION, edition), 2);
            }
            held_calls.all_give(&with(&file, SPARE, 1), 2);
            held_calls.all_give(&with(&file, STANDARD_PREMIUM, 0), 3);
            held_calls.all_give(&with(&file, CONVERSION, 999), 4);
            held_calls.all_give(&with(&file, TAX, 20_001), 5);
            held_calls.all_give(&with(&file, MAXIMUM_MARK, 6_001), 6);
            held_calls.all_give(&with(&file, MINIMUM_MARK, 901), 18);
            held_calls.all_give(&with(&file, RISKS, 0), 7);
            // a byte less, bytes more
            held_calls.all_give(&file[..file.len() - 1], 8);
            for added in [0, 1, 0xff] {
                let mut longer = file.clone();
                longer.push(added);
                held_calls.all_give(&longer, 8);
                longer.resize(50_000, added);
                held_calls.all_give(&longer, 8);
            }
            // each fill bit alone, and all of them; the files have five and six
            let fill = 8 * file.len() - (128 + 6 * sample.risks.len() + 21 * sample.claims().len());
            for bits in (0..fill).map(|bit| 1 << bit).chain([(1 << fill) - 1]) {
                let mut filled = file.clone();
                *filled.last_mut().unwrap() |= bits;
                held_calls.all_give(&filled, 9);
            }
        }
    }
}

#[test]
fn first_claims_joined_with_10_12_and_later_give_19() {
    // all_give has 13, 14, 16, 17, 22 and 23 as well
    let mut held_calls = HeldCalls::new();
    let no_losses = Sample {
        risks: vec![vec![0], vec![], vec![0, 0]],
        ..four_risks()
    };
    let no_losses = no_losses.in_edition_2(&[(2, 1)]);
    assert_eq!(held_calls.rate(&no_losses.file(), 12), 10);
    let negative = two_risks_of_ten(2_000).in_edition_2(&[]);
    assert_eq!(held_calls.rate(&negative.file(), 8), 12);
    for sample in [no_losses, negative] {
        held_calls.all_give(&with_first_bits(&sample, &[0]), 19);
        held_calls.all_give(&with_first_bits(&sample, &[1]), 19);
    }
}

/// Values that fail 19, and another question too.
fn joined_first(change: impl Fn(&mut Values)) -> Values {
    let mut values = scaffold().values();
    values.joined[0] = 1;
    change(&mut values);
    values
}

#[test]
fn write_of_first_claims_joined_with_another_fault() {
    let mut held_calls = HeldCalls::new();
    let mut gives = |question: u32, change: &dyn Fn(&mut Values)| {
        held_calls.write_gives(&joined_first(change), question);
    };
    gives(19, &|_| {});
    gives(2, &|values| values.edition = 3);
    gives(3, &|values| values.header.standard_premium = 0);
    gives(4, &|values| values.header.conversion = 2_001);
    gives(5, &|values| values.header.tax = 9_999);
    gives(6, &|values| values.header.minimum_mark = 6_001);
    gives(18, &|values| values.header.minimum_mark = 901);
    gives(7, &|values| values.counts.clear());
    // 15, of the values and of the bits
    gives(15, &|values| values.header.loss_limit = 1 << 20);
    gives(15, &|values| values.header.mark_kind = 2);
    gives(15, &|values| values.counts[1] = 1);
    gives(15, &|values| values.counts[0] = 64);
    gives(15, &|values| values.counts.resize(256, 0));
    gives(15, &|values| values.claims[4] = 1 << 20);
    gives(15, &|values| values.claims.push(1));
    gives(15, &|values| values.joined.push(0));
    gives(15, &|values| values.joined.truncate(4));
    gives(15, &|values| values.joined[4] = 2);
    gives(15, &|values| values.joined[0] = 3);
    gives(15, &|values| values.edition = 1);
}

#[test]
fn write_of_bits_that_fail_15_with_another_fault() {
    let mut held_calls = HeldCalls::new();
    let spoilings: [fn(&mut Values); 4] = [
        |values| values.joined.push(0),
        |values| values.joined.truncate(4),
        |values| values.joined[2] = 2,
        |values| values.edition = 1,
    ];
    for spoil in spoilings {
        let mut gives = |question: u32, change: &dyn Fn(&mut Values)| {
            let mut values = scaffold().values();
            spoil(&mut values);
            change(&mut values);
            held_calls.write_gives(&values, question);
        };
        gives(15, &|_| {});
        gives(2, &|values| values.edition = 0);
        gives(3, &|values| values.header.standard_premium = 0);
        gives(4, &|values| values.header.conversion = 999);
        gives(5, &|values| values.header.tax = 20_001);
        gives(6, &|values| values.header.maximum_mark = 6_001);
        gives(18, &|values| values.header.maximum_mark = 199);
        gives(7, &|values| values.counts.clear());
        gives(15, &|values| values.claims[0] = u32::MAX);
    }
}

#[test]
fn write_asks_its_questions_in_order() {
    // Every value is wrong at first; each one put right uncovers the next.
    let mut held_calls = HeldCalls::new();
    let good = scaffold().values();
    let mut bad = good.clone();
    bad.edition = 18;
    bad.header.standard_premium = 0;
    bad.header.conversion = 999;
    bad.header.tax = 9_999;
    bad.header.maximum_mark = 6_001;
    bad.header.minimum_mark = 6_002;
    bad.counts.clear();
    bad.joined = vec![1, 1, 0, 1, 2];
    held_calls.write_gives(&bad, 2);
    bad.edition = 2;
    held_calls.write_gives(&bad, 3);
    bad.header.standard_premium = good.header.standard_premium;
    held_calls.write_gives(&bad, 4);
    bad.header.conversion = good.header.conversion;
    held_calls.write_gives(&bad, 5);
    bad.header.tax = good.header.tax;
    held_calls.write_gives(&bad, 6);
    bad.header.maximum_mark = 0;
    bad.header.minimum_mark = 1;
    held_calls.write_gives(&bad, 18);
    bad.header = good.header;
    held_calls.write_gives(&bad, 7);
    bad.counts = good.counts.clone();
    held_calls.write_gives(&bad, 15);
    bad.joined[4] = 0;
    held_calls.write_gives(&bad, 19);
    bad.joined[0] = 0;
    assert_eq!(bad, good);
    assert_eq!(held_calls.write(&bad, 31), 13);
    assert_eq!(held_calls.write(&bad, 32), 0);
}

// ---- generated groups

#[test]
fn edition_2_with_no_bit_set_is_rated_as_edition_1() {
    let mut random = Random::new(0x5eed_0411);
    let mut accepted = 0;
    for _ in 0..2_000 {
        let claims = Sample {
            joined: None,
            ..random.group()
        };
        let unjoined = claims.in_edition_2(&[]);
        let given = rated(&written(&claims), BYTES);
        assert_eq!(rated(&written(&unjoined), BYTES), given);
        accepted += u32::from(given.is_ok());
    }
    assert!(accepted > 500, "{accepted}");
}

#[test]
fn an_accident_is_rated_as_one_claim_of_its_sum() {
    let mut random = Random::new(0x5eed_0412);
    let (mut accepted, mut cut) = (0, 0);
    for _ in 0..5_000 {
        let mut sample = random.group();
        // a sixty-fourth of all dollars, so that each sum can be a claim
        for claim in sample.risks.iter_mut().flatten() {
            *claim /= 64;
        }
        sample.header.loss_limit = sample.header.loss_limit.div_ceil(64);
        if !sample.joined().contains(&1) {
            continue;
        }
        let claim = |&sum: &u64| u32::try_from(sum).unwrap();
        let accidents = sample.accidents();
        let as_claims = Sample {
            header: sample.header,
            risks: accidents
                .iter()
                .map(|risk| risk.iter().map(claim).collect())
                .collect(),
            joined: None,
        };
        let given = rated(&written(&sample), BYTES);
        assert_eq!(rated(&written(&as_claims), BYTES), given, "{sample:?}");
        if let Ok(given) = given {
            accepted += 1;
            let apart = rated(&written(&sample.in_edition_2(&[])), BYTES);
            cut += u32::from(apart != Ok(given));
        }
    }
    assert!(accepted > 500 && cut > 200, "{accepted} and {cut}");
}

#[test]
fn each_grouping_of_six_claims() {
    // All 32 groupings, at limits around their sums: A is summed here in another way, by the place
    // of the next claim that opens an accident.
    let claims = [1_000u32, 0, 2_500, 4_000, 1, 2_499];
    for bits in 0..32usize {
        let joined: Vec<usize> = (1..6)
            .filter(|&claim| bits >> (claim - 1) & 1 == 1)
            .collect();
        for limit in [
            1, 999, 1_000, 2_499, 2_500, 2_501, 4_001, 6_499, 6_500, 10_000, 0,
        ] {
            let mut sample = one_risk_of(&claims, &joined);
            sample.header.loss_limit = limit;
            sample.header.conversion = 1_000;
            let mut kept = 0;
            let mut first = 0;
            while first < 6 {
                let next = (first + 1..6).find(|claim| !joined.contains(claim));
                let next = next.unwrap_or(6);
                let sum: u32 = claims[first..next].iter().sum();
                kept += if limit == 0 { sum } else { sum.min(limit) };
                first = next;
            }
            let (_, _, excess, _) = rated_group(&sample).numbers;
            assert_eq!(
                excess,
                1_000 * u64::from(10_000 - kept),
                "{joined:?} {limit}"
            );
        }
    }
}

#[test]
fn read_gives_what_stands_in_the_file() {
    // By the places of the bits, for generated files of edition 2.
    let mut random = Random::new(0x5eed_0413);
    let mut read = 0;
    for _ in 0..3_000 {
        let file = random.file();
        let (mut counts, mut claims) = ([0; 255], vec![0; 16_065]);
        let mut joined = vec![PRESET; 16_065];
        let group = calls::read(&file, &mut counts, &mut claims, &mut joined);
        if group.refused != 0 || group.edition != 2 {
            continue;
        }
        read += 1;
        let mut k = 0;
        for risk in risks_in(&file) {
            for claim in 0..risk.claims {
                let at = risk.at + 21 * claim;
                assert_eq!(u32::from(joined[k]), get(&file, Field { at, width: 1 }));
                let dollars = Field {
                    at: at + 1,
                    width: 20,
                };
                assert_eq!(claims[k], get(&file, dollars));
                k += 1;
            }
        }
        assert!(joined[k..].iter().all(|&bit| bit == PRESET));
    }
    assert!(read > 400, "{read}");
}
