//! Two claims, one accident: the figures of document 02's job 4, its questions
//! and their order, and generated groups of edition 2.

use retro_tests::generator::{first_bits, set, Random, EDITION};
use retro_tests::samples::{
    accidents_cut, four_risks, largest_of_edition_2, one_claim_of_one, scaffold, stock,
    two_risks_of_ten, Sample, Values, AMPLE, FOUR_RISKS_FILE_OF_EDITION_2, FOUR_RISKS_PRINTED,
    SCAFFOLD_FILE, SCAFFOLD_PRINTED,
};
use retro_tests::second_rater::{guaranteed, print_rated, rate, read, table};

/// The largest claim.
const LARGEST: u32 = (1 << 20) - 1;

/// The four-risk header over one risk with these claims, of which those are
/// joined.
fn one_risk_of(claims: &[u32], joined: &[usize]) -> Sample {
    let sample = Sample {
        risks: vec![claims.to_vec()],
        ..four_risks()
    };
    let joined: Vec<(usize, usize)> = joined.iter().map(|&claim| (0, claim)).collect();
    sample.in_edition_2(&joined)
}

/// A of each risk.
fn limited(sample: &Sample) -> Vec<u128> {
    let rated = rate(&sample.file(), AMPLE).unwrap();
    rated.lines.iter().map(|line| line.limited).collect()
}

/// A of one risk.
fn limited_of(claims: &[u32], joined: &[usize]) -> u128 {
    limited(&one_risk_of(claims, joined))[0]
}

/// A file of edition 2 with the bit of this first claim set.
fn with_first_bit(sample: &Sample, k: usize) -> Vec<u8> {
    let mut file = sample.file();
    let bits = first_bits(&file);
    set(&mut file, bits[k], 1);
    file
}

/// The same number from the four calls on a file.
fn all_refuse(file: &[u8], k: u32) {
    assert_eq!(rate(file, AMPLE), Err(k));
    assert_eq!(guaranteed(file, &stock(), AMPLE, AMPLE), Err(k));
    assert_eq!(table(file, 100), Err(k));
    assert_eq!(read(file, AMPLE, AMPLE, AMPLE), Err(k));
}

// ---------------------------------------------------------------------------
// Worked figures
// ---------------------------------------------------------------------------

#[test]
fn limit_applies_to_the_sum_of_an_accident() {
    assert_eq!(limited_of(&[3_000, 4_000], &[1]), 5_000);
    assert_eq!(limited_of(&[3_000, 4_000], &[]), 7_000);
    assert_eq!(limited_of(&[3_000, 4_000, 1_000], &[1]), 6_000);
    assert_eq!(limited_of(&[1_000, 4_000, 3_000], &[1]), 8_000);
    assert_eq!(limited(&accidents_cut()), [5_000, 7_000, 6_000, 8_000]);
}

#[test]
fn one_accident_is_rated_to_the_bill() {
    // M is 1,000 × 2,000 − 100 × 7,000. K is 5,000, and Q is 1,100 times the
    // 2,000 cut off. Billed is 1.05 × (2,000 + 7,000), as always with one risk.
    let rated = rate(&one_risk_of(&[3_000, 4_000], &[1]).file(), 4).unwrap();
    assert_eq!(
        print_rated(&rated),
        "group 1 1300000 2200000 9450\n1 7000 5000 5000 9450\n"
    );
    // In two accidents nothing is cut off.
    let rated = rate(&one_risk_of(&[3_000, 4_000], &[]).file(), 4).unwrap();
    assert_eq!(
        print_rated(&rated),
        "group 1 1300000 0 9450\n1 7000 7000 7000 9450\n"
    );
    // In edition 1 each claim is its own accident.
    let sample = Sample {
        joined: None,
        ..one_risk_of(&[3_000, 4_000], &[])
    };
    assert_eq!(rate(&sample.file(), 4), Ok(rated));
}

#[test]
fn scaffold_is_printed() {
    let rated = rate(&scaffold().file(), 12).unwrap();
    assert_eq!(print_rated(&rated), SCAFFOLD_PRINTED);
    // 1.05 × (3 × 2,000 + 15,000): what the limit cuts off is in the total.
    let losses: u128 = rated.lines.iter().map(|line| line.total).sum();
    assert_eq!(losses, 15_000);
    assert_eq!(105 * (3 * 2_000 + losses), rated.billed * 100);
}

#[test]
fn scaffold_in_bytes() {
    let file = scaffold().file();
    assert_eq!(file, SCAFFOLD_FILE);
    // 128 + 3 × 6 + 5 × 21 bits leave five of the last byte.
    assert_eq!(file.len() * 8 - (128 + 3 * 6 + 5 * 21), 5);
    let group = read(&file, 3, 5, 5).unwrap();
    assert_eq!(group.edition, 2);
    assert_eq!(group.counts, [2, 0, 3]);
    assert_eq!(group.claims, [3_000, 4_000, 1_000, 4_000, 3_000]);
    assert_eq!(group.joined, [0, 1, 0, 1, 0]);
}

#[test]
fn four_risks_in_edition_2_are_rated_as_in_edition_1() {
    let sample = four_risks().in_edition_2(&[]);
    let file = sample.file();
    assert_eq!(file, FOUR_RISKS_FILE_OF_EDITION_2);
    let rated = rate(&file, 16).unwrap();
    assert_eq!(print_rated(&rated), FOUR_RISKS_PRINTED);
    assert_eq!(rated, rate(&four_risks().file(), 16).unwrap());
    for r in (0..=600).step_by(50) {
        assert_eq!(table(&file, r), table(&four_risks().file(), r));
    }
    let read = |file: &[u8]| read(file, AMPLE, AMPLE, AMPLE).unwrap();
    let (of_1, of_2) = (read(&four_risks().file()), read(&file));
    assert_eq!((of_1.edition, of_2.edition), (1, 2));
    assert_eq!(of_1.header, of_2.header);
    assert_eq!(of_1.claims, of_2.claims);
    assert_eq!(of_1.joined, [0; 6]);
    assert_eq!(of_2.joined, [0; 6]);
}

#[test]
fn accident_at_and_beside_the_limit() {
    assert_eq!(limited_of(&[2_000, 2_999], &[1]), 4_999);
    assert_eq!(limited_of(&[2_000, 3_000], &[1]), 5_000);
    assert_eq!(limited_of(&[2_000, 3_001], &[1]), 5_000);
    // One claim alone has more than the limit, before or after the other.
    assert_eq!(limited_of(&[7_000, 1], &[1]), 5_000);
    assert_eq!(limited_of(&[1, 7_000], &[1]), 5_000);
    assert_eq!(limited_of(&[7_000, 7_000], &[1]), 5_000);
}

#[test]
fn accident_is_cut_once_it_is_whole() {
    // The sums so far are 3,000, 4,000 and 8,000; the last alone is cut.
    assert_eq!(limited_of(&[3_000, 1_000, 4_000], &[1, 2]), 5_000);
    // A new accident begins with nothing of the one before.
    assert_eq!(limited_of(&[4_999, 0, 2], &[1]), 5_001);
    assert_eq!(limited_of(&[4_000, 4_000, 4_000, 4_000], &[1, 3]), 10_000);
    assert_eq!(limited_of(&[4_000, 4_000, 4_000, 4_000], &[2]), 13_000);
    // All claims of a risk in one accident, and each in its own.
    assert_eq!(limited_of(&[100; 63], &(1..63).collect::<Vec<_>>()), 5_000);
    assert_eq!(limited_of(&[100; 63], &[]), 6_300);
    let pairs: Vec<usize> = (1..63).step_by(2).collect();
    assert_eq!(limited_of(&[3_000; 63], &pairs), 31 * 5_000 + 3_000);
}

#[test]
fn accident_of_0_dollars() {
    assert_eq!(limited_of(&[0, 0, 4_000], &[1]), 4_000);
    assert_eq!(limited_of(&[0, 4_000, 0], &[1]), 4_000);
    assert_eq!(limited_of(&[0, 6_000, 0, 0, 6_000], &[1, 3, 4]), 10_000);
    // No losses at all are asked for by 10 and not before.
    let file = one_risk_of(&[0, 0, 0], &[1]).file();
    assert_eq!(rate(&file, AMPLE), Err(10));
    assert_eq!(table(&file, 100), Err(10));
    assert!(read(&file, AMPLE, AMPLE, AMPLE).is_ok());
}

#[test]
fn accident_does_not_cross_risks() {
    let sample = Sample {
        risks: vec![vec![1, 4_000], vec![4_000], vec![], vec![4_000, 1]],
        ..four_risks()
    };
    let sample = sample.in_edition_2(&[(0, 1), (3, 1)]);
    assert_eq!(limited(&sample), [4_001, 4_000, 0, 4_001]);
}

#[test]
fn without_a_limit_the_bits_change_nothing() {
    let mut sample = accidents_cut();
    sample.header.loss_limit = 0;
    let rated = rate(&sample.file(), AMPLE).unwrap();
    assert_eq!(rated.excess, 0);
    assert!(rated.lines.iter().all(|line| line.limited == line.total));
    assert_eq!(Ok(rated), rate(&sample.in_edition_2(&[]).file(), AMPLE));
}

#[test]
fn largest_accident() {
    // 63 × 1,048,575 is 66,060,225. Without a limit it is all counted.
    let mut sample = one_risk_of(&[LARGEST; 63], &(1..63).collect::<Vec<_>>());
    sample.header.expense = LARGEST;
    sample.header.conversion = 1_000;
    sample.header.loss_limit = 0;
    assert_eq!(limited(&sample), [66_060_225]);
    sample.header.loss_limit = LARGEST;
    assert_eq!(limited(&sample), [1_048_575]);
}

#[test]
fn largest_file_of_edition_2_is_rated() {
    let file = largest_of_edition_2().file();
    assert_eq!(file.len(), 42_378);
    let rated = rate(&file, 4 * 255).unwrap();
    // 32 accidents are cut to one claim each, and 31 claims are cut off. Marks
    // of 0 leave no ratable losses: every premium is 2 × (e + L).
    for line in &rated.lines {
        assert_eq!(line.total, 63 * 1_048_575);
        assert_eq!(line.limited, 32 * 1_048_575);
        assert_eq!(line.ratable, 0);
        assert_eq!(line.premium, 2 * 64 * 1_048_575);
    }
    // 1,000 × n × e − 1,000 × SL + 2,000 × SA, and 2,000 × (SL − SA).
    assert_eq!(rated.basic, 255_000 * 2 * 1_048_575);
    assert_eq!(rated.excess, 255_000 * 62 * 1_048_575);
}

// ---------------------------------------------------------------------------
// Question 19
// ---------------------------------------------------------------------------

#[test]
fn first_claim_with_its_bit_set_gives_19() {
    for k in 0..4 {
        all_refuse(&with_first_bit(&accidents_cut(), k), 19);
        all_refuse(&with_first_bit(&accidents_cut().in_edition_2(&[]), k), 19);
    }
    // The risk between has no claims, and with it no first one.
    for k in 0..2 {
        all_refuse(&with_first_bit(&scaffold(), k), 19);
    }
    // A second claim's bit is none of a first one.
    assert!(rate(&scaffold().in_edition_2(&[]).file(), AMPLE).is_ok());
}

#[test]
fn first_claim_is_asked_after_9_and_before_10() {
    // 8: a byte more, a byte less.
    let mut file = with_first_bit(&scaffold(), 0);
    file.push(0);
    all_refuse(&file, 8);
    file.truncate(31);
    all_refuse(&file, 8);
    // 9: each of the five fill bits.
    for fill in [1, 2, 4, 8, 16] {
        let mut file = with_first_bit(&scaffold(), 1);
        file[31] |= fill;
        all_refuse(&file, 9);
    }
    // 10.
    let no_losses = one_risk_of(&[0, 0], &[1]);
    assert_eq!(rate(&no_losses.file(), AMPLE), Err(10));
    all_refuse(&with_first_bit(&no_losses, 0), 19);
    // 12.
    let negative = two_risks_of_ten(2_000).in_edition_2(&[]);
    assert_eq!(rate(&negative.file(), AMPLE), Err(12));
    all_refuse(&with_first_bit(&negative, 1), 19);
    // 13, 14, 16 and 17.
    let file = with_first_bit(&scaffold(), 0);
    assert_eq!(rate(&file, 0), Err(19));
    assert_eq!(table(&file, 601), Err(19));
    assert_eq!(read(&file, 0, 0, 0), Err(19));
    for row in 0..3 {
        let mut layers = stock();
        layers[row].rate = 1_001;
        layers[row].width = 0;
        assert_eq!(guaranteed(&file, &layers, 0, 0), Err(19));
    }
}

#[test]
fn first_claims_of_edition_1_have_no_bit() {
    // The same bits are read as other claims, of another length.
    let mut file = with_first_bit(&scaffold(), 0);
    set(&mut file, EDITION, 1);
    all_refuse(&file, 8);
    // The largest claims have their first bit set, and are no joined ones.
    let mut sample = one_claim_of_one(3);
    sample.risks = vec![vec![LARGEST; 2]; 3];
    assert!(rate(&sample.file(), AMPLE).is_ok());
}

// ---------------------------------------------------------------------------
// Write
// ---------------------------------------------------------------------------

/// The scaffold's values in this edition with these bits.
fn values(edition: u32, joined: &[u8]) -> Values {
    Values {
        edition,
        joined: joined.to_vec(),
        ..scaffold().values()
    }
}

#[test]
fn write_of_another_edition_gives_2() {
    let editions = [
        0,
        3,
        4,
        15,
        16,
        17,
        18,
        33,
        257,
        258,
        65_537,
        1 << 31,
        u32::MAX,
    ];
    for edition in editions.into_iter().chain(3..=15) {
        assert_eq!(values(edition, &[0, 1, 0, 1, 0]).written(AMPLE), Err(2));
        // With a No to each later question as well.
        let mut wrong = values(edition, &[1, 2]);
        wrong.header.standard_premium = 0;
        assert_eq!(wrong.written(0), Err(2));
        wrong.counts.clear();
        assert_eq!(wrong.written(0), Err(2));
    }
}

#[test]
fn write_of_other_bits_gives_15() {
    for edition in [1, 2] {
        // Not as long as the claims.
        assert_eq!(values(edition, &[0; 4]).written(AMPLE), Err(15));
        assert_eq!(values(edition, &[0; 6]).written(AMPLE), Err(15));
        assert_eq!(values(edition, &[]).written(AMPLE), Err(15));
        // An entry above 1, wherever it stands.
        for k in 0..5 {
            for above in [2, 3, 128, 254, 255] {
                let mut joined = [0; 5];
                joined[k] = above;
                assert_eq!(values(edition, &joined).written(AMPLE), Err(15));
            }
        }
        assert!(values(edition, &[0; 5]).written(AMPLE).is_ok());
    }
    // A 1 with edition 1, also where it is a first claim's.
    for k in 0..5 {
        let mut joined = [0; 5];
        joined[k] = 1;
        assert_eq!(values(1, &joined).written(AMPLE), Err(15));
    }
    // No claims have no bits.
    let mut none = values(2, &[]);
    none.counts = vec![0, 0];
    none.claims.clear();
    assert!(none.written(AMPLE).is_ok());
    none.joined.push(0);
    assert_eq!(none.written(AMPLE), Err(15));
}

#[test]
fn write_of_a_first_claim_with_its_bit_set_gives_19() {
    for joined in [[1, 0, 0, 0, 0], [0, 0, 1, 0, 0], [1, 1, 1, 1, 1]] {
        assert_eq!(values(2, &joined).written(AMPLE), Err(19));
        // Before 13.
        assert_eq!(values(2, &joined).written(0), Err(19));
    }
    // After 15: an entry above 1, a claim that does not fit, counts that do not
    // add to the number of claims.
    assert_eq!(values(2, &[1, 0, 0, 0, 2]).written(AMPLE), Err(15));
    assert_eq!(values(2, &[1, 0, 0, 0]).written(AMPLE), Err(15));
    let mut wrong = values(2, &[1, 0, 0, 0, 0]);
    wrong.claims[4] = 1 << 20;
    assert_eq!(wrong.written(AMPLE), Err(15));
    let mut wrong = values(2, &[1, 0, 0, 0, 0]);
    wrong.counts[1] = 1;
    assert_eq!(wrong.written(AMPLE), Err(15));
    // A first bit is the first after the claims of the risks before.
    assert!(values(2, &[0, 1, 0, 1, 1]).written(32).is_ok());
    assert_eq!(values(2, &[0, 1, 0, 1, 1]).written(31), Err(13));
}

#[test]
fn write_asks_2_then_3_to_6_then_18_then_7_then_15_then_19_then_13() {
    // Every value is wrong at first; each one put right uncovers the next.
    let good = values(2, &[0, 1, 0, 1, 0]);
    let mut bad = values(3, &[1, 1, 0, 1, 2]);
    bad.header.standard_premium = 0;
    bad.header.conversion = 999;
    bad.header.tax = 9_999;
    bad.header.maximum_mark = 6_001;
    bad.header.minimum_mark = 6_002;
    bad.counts.clear();
    assert_eq!(bad.written(0), Err(2));
    bad.edition = 2;
    assert_eq!(bad.written(0), Err(3));
    bad.header.standard_premium = good.header.standard_premium;
    assert_eq!(bad.written(0), Err(4));
    bad.header.conversion = good.header.conversion;
    assert_eq!(bad.written(0), Err(5));
    bad.header.tax = good.header.tax;
    assert_eq!(bad.written(0), Err(6));
    bad.header.maximum_mark = 0;
    bad.header.minimum_mark = 1;
    assert_eq!(bad.written(0), Err(18));
    bad.header = good.header;
    assert_eq!(bad.written(0), Err(7));
    bad.counts = good.counts.clone();
    assert_eq!(bad.written(0), Err(15));
    bad.joined[4] = 0;
    assert_eq!(bad.written(0), Err(19));
    bad.joined[0] = 0;
    assert_eq!(bad.written(0), Err(13));
    assert_eq!(bad, good);
    assert_eq!(bad.written(32).unwrap(), SCAFFOLD_FILE);
}

// ---------------------------------------------------------------------------
// Generated groups
// ---------------------------------------------------------------------------

/// The same group with claims and limit a sixty-fourth, so that the sum of each
/// accident can be a claim.
fn smaller(mut sample: Sample) -> Sample {
    for claim in sample.risks.iter_mut().flatten() {
        *claim /= 64;
    }
    sample.header.loss_limit = sample.header.loss_limit.div_ceil(64);
    sample
}

#[test]
fn accidents_are_rated_as_claims_of_their_sums() {
    let mut random = Random::new(0x5eed_0401);
    let (mut rated, mut cut, mut refused) = (0, 0, 0);
    for _ in 0..5_000 {
        let sample = smaller(random.group());
        if !sample.joined().contains(&1) {
            continue;
        }
        let claim = |&sum: &u64| u32::try_from(sum).unwrap();
        let accidents = sample.accidents();
        let as_claims = Sample {
            header: sample.header,
            risks: accidents
                .iter()
                .map(|risk| risk.iter().map(claim).collect())
                .collect(),
            joined: None,
        };
        let given = rate(&sample.file(), AMPLE);
        assert_eq!(given, rate(&as_claims.file(), AMPLE));
        assert_eq!(table(&sample.file(), 100), table(&as_claims.file(), 100));
        match given {
            Ok(given) => {
                rated += 1;
                cut += u32::from(given.excess > 0);
            }
            Err(_) => refused += 1,
        }
    }
    assert!(
        rated > 400 && cut > 200 && refused > 200,
        "{rated}, {cut}, {refused}"
    );
}

#[test]
fn no_bits_are_rated_as_edition_1() {
    let mut random = Random::new(0x5eed_0402);
    let mut rated = 0;
    for _ in 0..1_500 {
        let sample = random.group();
        let of_1 = Sample {
            joined: None,
            ..sample.clone()
        };
        let of_2 = sample.in_edition_2(&[]);
        let given = rate(&of_1.file(), AMPLE);
        rated += u32::from(given.is_ok());
        assert_eq!(rate(&of_2.file(), AMPLE), given);
        assert_eq!(table(&of_2.file(), 100), table(&of_1.file(), 100));
    }
    assert!(rated > 400, "{rated}");
}
