//! Worked figures of documents 01 and 02 that stand in no other test, through the exported calls:
//! Table at its last entry ratio, a claim of 0, files of two and of ten risks in bytes, and claims
//! of 3,000 and 4,000 of one risk, rated in two accidents and in one. The values are worked out
//! beside them from the papers' steps and widths.

use retro_tests::calls::{self, rated, tabled, written, Group};
use retro_tests::samples::{four_risks, one_claim_of_one, ten_risks, two_risks_of_ten, Sample};
use retro_tests::second_rater::Header;

// ---- Table

#[test]
fn the_last_entry_ratio_is_600() {
    // "an entry ratio r in hundredths, 0 to 600"
    let file = four_risks().file();
    // SA is 21,000, and no A is above 6 × 5,250. All four lack 4 × 31,500 − 21,000, which is five
    // times SA.
    assert_eq!(tabled(&file, 600), Ok((0, 5_000)));
    // "Is r at most 600?"; paper.rs has 601
    assert_eq!(tabled(&file, 4_294_967_295), Err(14));
}

// ---- the file

#[test]
fn a_claim_of_0_is_written_and_leaves_nothing_to_rate() {
    // "A claim may be 0": the three-risk group with its one claim 0 is as long as with a claim of 1,
    // 128 + 3 × 6 + 20 bits.
    let mut sample = one_claim_of_one(3);
    sample.risks[0] = vec![0];
    let file = written(&sample.values(), 21).unwrap();
    assert_eq!(file.len(), 21);
    // "all claims 0 gives 10"
    assert_eq!(rated(&file, 12), Err(10));
}

#[test]
fn zero_bits_fill_the_last_byte() {
    // "Zero bits fill the last byte": 128 + 10 × 26 bits are 48 bytes and a half, of which the last
    // claim has the last 20 bits; 11,000 is 0x02af8.
    let file = written(&ten_risks().values(), 49).unwrap();
    assert_eq!(file.len(), 49);
    assert_eq!(file[46..], [0x02, 0xaf, 0x80]);
}

#[test]
fn two_risks_of_10_in_bytes() {
    // "Two risks of 10", with c 1.000. "Fields lie one after another, most significant bit first,
    // without gaps": 128 + 2 × 26 bits, and four that fill the last byte.
    let values = two_risks_of_ten(1_000).values();
    let file = [
        0x10, 0x00, 0x00, // edition 1, no limit
        0x00, 0x00, 0x04, 0x00, 0x00, 0x1f, 0x42, 0x71, 0x0d, 0xdc, 0x00, 0x00,
        0x04, // P to spare
        0x04, 0x00, 0x02, // 1 claim: 10, of which the last two bits follow
        0x81, 0x00, 0x00, 0xa0, // 1 claim: 10; four fill bits
    ];
    assert_eq!(written(&values, 23), Ok(file.to_vec()));
    // "Is each lent buffer long enough?"
    assert_eq!(written(&values, 22), Err(13));
}

// ---- two claims, one accident

/// "A risk with 3,000 and 4,000 .. and limit 5,000", and a risk without claims. The header is that
/// of the four-risk group with T 1.0000.
fn two_risks(joined: &[(usize, usize)]) -> Sample {
    let claims = Sample {
        header: Header {
            tax: 10_000,
            ..four_risks().header
        },
        risks: vec![vec![3_000, 4_000], vec![]],
        joined: None,
    };
    claims.in_edition_2(joined)
}

/// The file of the two risks with one accident: 128 bits of header, then 6 bits for each count and
/// 21 for each claim, of which the first is its bit.
const ONE_ACCIDENT: [u8; 23] = [
    0x20, 0x13, 0x88, // edition 2, loss limit 5,000
    0x00, 0x9c, 0x40, 0x01, 0xf4, 0x22, 0x62, 0x71, 0x00, 0xe1, 0x01, 0x90,
    0x04, // P to spare
    0x08, 0x01, 0x77, 0x10, 0x0f, 0xa0, // 2 claims: 0 and 3,000, 1 and 4,000
    0x00, // no claims; two fill bits
];

#[test]
fn two_accidents_are_limited_each_by_itself() {
    let file = written(&two_risks(&[]).values(), 23).unwrap();
    assert_eq!(file.len(), 23);
    // Neither claim is above the limit: A is 7,000 and 0, K 7,000 and 2,000. M is 1,000 × 2 × 2,000
    // − 100 × 7,000 − 1,100 × 2,000, Q is 0, and a premium is 550 + 1.1 × K.
    let rated = rated(&file, 8).unwrap();
    assert_eq!(rated.numbers, (2, 1_100_000, 0, 11_000));
    assert_eq!(rated.premiums, [8_250, 2_750]);
}

#[test]
fn one_accident_is_limited_as_a_sum_and_its_excess_is_shared() {
    assert_eq!(
        written(&two_risks(&[(0, 1)]).values(), 23),
        Ok(ONE_ACCIDENT.to_vec())
    );
    // ".. in one accident and limit 5,000 counts 5,000": K is 5,000 and 2,000. M is the same, Q is
    // 1,100 × 2,000, and a premium is 550 + 1,100 + 1.1 × K.
    let rated = rated(&ONE_ACCIDENT, 8).unwrap();
    // "The total of the premiums still includes what the accident limit cuts off": 4,000 of expenses
    // and 7,000 of losses, as with two accidents
    assert_eq!(rated.numbers, (2, 1_100_000, 2_200_000, 11_000));
    assert_eq!(rated.premiums, [7_150, 3_850]);
}

#[test]
fn one_accident_is_read_back_with_its_bits() {
    // "Read fills a third buffer with the bits"
    let (mut counts, mut claims, mut joined) = ([9; 2], [9; 2], [9; 2]);
    let group = calls::read(&ONE_ACCIDENT, &mut counts, &mut claims, &mut joined);
    let header = calls::Header {
        loss_limit: 5_000,
        standard_premium: 10_000,
        expense: 2_000,
        conversion: 1_100,
        tax: 10_000,
        mark_kind: 0,
        maximum_mark: 900,
        minimum_mark: 200,
    };
    assert_eq!(group, Group::given(2, 2, header));
    assert_eq!(counts, [2, 0]);
    assert_eq!(claims, [3_000, 4_000]);
    assert_eq!(joined, [0, 1]);
}
