//! Document 01's cases, as job 2 of document 02 leaves them, and source document 001's ten risks
//! through the exported calls. Expected values are typed from the papers; where a paper gives none,
//! the second rater does, and the test says so.

use retro_tests::calls::{self, rated, tabled, Group, Header, Numbers, Rated};
use retro_tests::held_calls::HeldCalls;
use retro_tests::samples::{
    crossed_marks, four_risks, largest, one_claim_of_one, stock, ten_risks, two_risks_of_ten,
    Sample,
};

/// Document 01's four-risk group, field by field: 128 bits of header, then 6 bits for each count
/// and 20 for each claim.
const FOUR_RISKS: [u8; 34] = [
    0x10, 0x13, 0x88, // edition 1, loss limit 5,000
    0x00, 0x9c, 0x40, 0x01, 0xf4, 0x22, 0x62, 0x90, 0x40, 0xe1, 0x01, 0x90,
    0x08, // P to spare
    0x00, // no claims; the first two bits of the next count
    0x20, 0x0b, 0xb8, 0x00, 0x3e, 0x80, // 2 claims: 3,000 and 1,000
    0x40, 0x6d, 0x60, // 1 claim: 7,000
    0x30, 0x13, 0x88, 0x01, 0x77, 0x00, 0x07, 0xd0, // 3 claims: 5,000, 6,000 and 2,000
];

/// Rate of a group, with a buffer that is just enough.
fn rate_group(sample: &Sample) -> Result<Rated, u32> {
    rated(&write(sample), 4 * sample.risks.len())
}

/// Read's answer where the buffers are large.
fn read(file: &[u8]) -> u32 {
    let (mut claims, mut joined) = (vec![0; 16_065], vec![0; 16_065]);
    calls::read(file, &mut [0; 255], &mut claims, &mut joined).refused
}

/// Guaranteed's refusal under the stock schedule, where the buffers are large; all keep their
/// contents.
fn guaranteed_refuses(file: &[u8]) -> u32 {
    let (mut premiums, mut differences) = ([0xee; 1_020], [9; 255]);
    let (schedule, mut numbers) = (stock().into(), Numbers::default());
    let lent = &mut numbers.lend();
    let answer = calls::guaranteed(file, schedule, &mut premiums, &mut differences, lent);
    assert_eq!((premiums, differences), ([0xee; 1_020], [9; 255]));
    assert_eq!(numbers, Numbers::default());
    answer
}

/// Plan's refusal without bounds in effect; the lent numbers keep their contents.
fn plan_refuses(file: &[u8]) -> u32 {
    let (mut made, mut best, mut short_of) = (7, 8, 9);
    let answer = calls::plan(file, u32::MAX, 0, 20, &mut made, &mut best, &mut short_of);
    assert_eq!((made, best, short_of), (7, 8, 9));
    answer
}

/// The file of a group, by Write.
fn write(sample: &Sample) -> Vec<u8> {
    calls::written(&sample.values(), 40_370).unwrap()
}

/// The same refusal from the five calls on a file.
fn all_refuse(file: &[u8], question: u32) {
    assert_eq!(rated(file, 1_020), Err(question));
    assert_eq!(tabled(file, 100), Err(question));
    assert_eq!(read(file), question);
    assert_eq!(guaranteed_refuses(file), question);
    assert_eq!(plan_refuses(file), question);
}

// ---- the four-risk group

#[test]
fn four_risks_in_bytes() {
    assert_eq!(write(&four_risks()), FOUR_RISKS);
}

#[test]
fn four_risks_rated() {
    let rated = rated(&FOUR_RISKS, 16).unwrap();
    assert_eq!(rated.numbers, (4, 6_700_000, 3_300_000, 33_600));
    assert_eq!(rated.premiums, [4_935, 7_245, 8_400, 13_020]);
}

#[test]
fn premiums_have_their_most_significant_byte_first() {
    let mut buffer = [0; 16];
    let (mut n, mut basic, mut excess, mut billed) = (0, 0, 0, 0);
    calls::rate(
        &FOUR_RISKS,
        &mut buffer,
        &mut n,
        &mut basic,
        &mut excess,
        &mut billed,
    );
    // 4,935 is 0x1347, 7,245 is 0x1c4d, 8,400 is 0x20d0 and 13,020 is 0x32dc
    assert_eq!(
        buffer,
        [0, 0, 0x13, 0x47, 0, 0, 0x1c, 0x4d, 0, 0, 0x20, 0xd0, 0, 0, 0x32, 0xdc]
    );
}

#[test]
fn four_risks_tabled() {
    assert_eq!(tabled(&FOUR_RISKS, 0), Ok((1_000, 0)));
    assert_eq!(tabled(&FOUR_RISKS, 100), Ok((321, 321)));
    assert_eq!(tabled(&FOUR_RISKS, 200), Ok((71, 1_071)));
    assert_eq!(tabled(&FOUR_RISKS, 300), Ok((0, 2_000)));
}

#[test]
fn four_risks_read() {
    let mut counts = [0xee; 6];
    let mut claims = [0xeeee_eeee; 8];
    let mut joined = [0xee; 8];
    let group = calls::read(&FOUR_RISKS, &mut counts, &mut claims, &mut joined);
    let header = Header {
        loss_limit: 5_000,
        standard_premium: 10_000,
        expense: 2_000,
        conversion: 1_100,
        tax: 10_500,
        mark_kind: 0,
        maximum_mark: 900,
        minimum_mark: 200,
    };
    assert_eq!(group, Group::given(1, 4, header));
    assert_eq!(counts, [0, 2, 1, 3, 0xee, 0xee]);
    assert_eq!(claims[..6], [3_000, 1_000, 7_000, 5_000, 6_000, 2_000]);
    assert_eq!(claims[6..], [0xeeee_eeee; 2]);
    assert_eq!(joined, [0, 0, 0, 0, 0, 0, 0xee, 0xee]);
}

#[test]
fn each_prefix_of_the_four_risks() {
    for length in 0..34 {
        all_refuse(&FOUR_RISKS[..length], if length < 16 { 1 } else { 8 });
    }
}

// ---- the proved cases

#[test]
fn three_risks_of_one_third() {
    for with_claim in 0..3 {
        let mut sample = one_claim_of_one(3);
        sample.risks.rotate_right(with_claim);
        let rated = rate_group(&sample).unwrap();
        assert_eq!(rated.numbers, (3, 1_000, 0, 0));
        assert_eq!(rated.premiums, [0, 0, 0]);
    }
}

#[test]
fn two_risks_of_one_half() {
    let rated = rate_group(&one_claim_of_one(2)).unwrap();
    assert_eq!(rated.numbers, (2, 1_000, 0, 2));
    assert_eq!(rated.premiums, [1, 1]);
}

#[test]
fn two_risks_of_10() {
    assert_eq!(rate_group(&two_risks_of_ten(2_000)), Err(12));
    let rated = rate_group(&two_risks_of_ten(1_000)).unwrap();
    assert_eq!(rated.numbers, (2, 0, 0, 20));
    assert_eq!(rated.premiums, [10, 10]);
}

#[test]
fn a_minimum_mark_above_the_maximum_gives_18() {
    // Document 01 rated P 1, where both marks are 0 dollars, and refused P 1,000 with 11.
    for standard_premium in [1, 1_000] {
        let sample = crossed_marks(standard_premium);
        all_refuse(&sample.file_of_any_marks(), 18);
        assert_eq!(calls::written(&sample.values(), 40_370), Err(18));
    }
}

#[test]
fn claims_at_and_above_the_limit_count_the_same() {
    // One claim a risk and marks that cut nothing: equal A gives equal premiums.
    let mut sample = four_risks();
    sample.header.maximum_mark = 6_000;
    sample.header.minimum_mark = 0;
    sample.risks = vec![vec![5_000], vec![5_001], vec![4_999]];
    let rated = rate_group(&sample).unwrap();
    assert_eq!(rated.premiums[0], rated.premiums[1]);
    assert!(rated.premiums[2] < rated.premiums[0]);
    // Q is c × (SL − SA): of the three claims only the second has a dollar above the limit.
    assert_eq!(rated.numbers.2, 1_100);
}

// ---- by program only

#[test]
fn fifteen_bytes_give_1() {
    all_refuse(&FOUR_RISKS[..15], 1);
}

#[test]
fn an_added_byte_gives_8() {
    for added in 0..=255 {
        let mut file = FOUR_RISKS.to_vec();
        file.push(added);
        all_refuse(&file, 8);
    }
}

#[test]
fn a_set_fill_bit_of_the_three_risk_file_gives_9() {
    // 128 + 3 × 6 + 20 bits leave two of the last byte.
    let file = write(&one_claim_of_one(3));
    assert_eq!(file.len(), 21);
    for fill in 1..=3 {
        let mut file = file.clone();
        file[20] |= fill;
        all_refuse(&file, 9);
    }
}

#[test]
fn all_claims_0_gives_10() {
    let mut sample = four_risks();
    sample.risks = vec![vec![], vec![0, 0], vec![0], vec![0, 0, 0]];
    let file = write(&sample);
    assert_eq!(rated(&file, 16), Err(10));
    assert_eq!(tabled(&file, 100), Err(10));
    assert_eq!(read(&file), 0);
}

#[test]
fn fifteen_output_bytes_give_13() {
    assert_eq!(rated(&FOUR_RISKS, 15), Err(13));
    assert_eq!(rated(&FOUR_RISKS, 0), Err(13));
    assert!(rated(&FOUR_RISKS, 16).is_ok());
    assert!(rated(&FOUR_RISKS, 17).is_ok());
}

#[test]
fn each_bit_of_the_three_risk_file_as_the_second_rater_says() {
    let mut held_calls = HeldCalls::new();
    let mut file = write(&one_claim_of_one(3));
    for bit in 0..8 * file.len() {
        file[bit / 8] ^= 0x80 >> (bit % 8);
        held_calls.rate(&file, 1_020);
        held_calls.table(&file, 100);
        held_calls.read(&file, 255, 1_000, 1_000);
        file[bit / 8] ^= 0x80 >> (bit % 8);
    }
}

// ---- the four ways to rate wrongly

#[test]
fn each_claim_is_limited_and_not_the_sum() {
    // With A 5,000 the fourth risk would have K 5,000 and the third risk's premium.
    let rated = rated(&FOUR_RISKS, 16).unwrap();
    assert_eq!(rated.premiums[2..], [8_400, 13_020]);
}

#[test]
fn the_basic_is_not_rounded_before_the_premiums() {
    // 1.5 × one third is an exact half and billed 1; from a basic of 0 dollars it would be billed
    // 0.
    let mut sample = one_claim_of_one(3);
    sample.header.tax = 15_000;
    assert_eq!(rate_group(&sample).unwrap().premiums, [1, 1, 1]);
}

#[test]
fn the_entry_ratio_is_on_limited_losses() {
    // Limit 10, claims 30 and 30 of one of two risks: A is 20 and 0, LG 1.000 × 20 ÷ 2 = 10. On SL
    // it would be 30.
    let mut sample = one_claim_of_one(2);
    sample.header.loss_limit = 10;
    sample.risks = vec![vec![30, 30], vec![]];
    let rated = rate_group(&sample).unwrap();
    // M = 1,000 × 10, Q = 1,000 × 40; 25 for each risk, and K 10 for the first
    assert_eq!(rated.numbers, (2, 10_000, 40_000, 60));
    assert_eq!(rated.premiums, [35, 25]);
}

#[test]
fn savings_less_charge_is_kept_by_rounding() {
    for file in [FOUR_RISKS.to_vec(), write(&ten_risks())] {
        for entry_ratio in 0..=600 {
            let (charge, savings) = tabled(&file, entry_ratio).unwrap();
            assert_eq!(savings + 1_000, charge + 10 * entry_ratio);
        }
        assert_eq!(tabled(&file, 601), Err(14));
    }
}

// ---- source document 001

#[test]
fn ten_risks_of_document_001() {
    let file = write(&ten_risks());
    let rated = rated(&file, 40).unwrap();
    assert_eq!(rated.numbers, (10, 20_400_000, 0, 95_800));
    assert_eq!(
        rated.premiums,
        [4_640, 4_640, 7_240, 9_840, 9_840, 9_840, 9_840, 12_440, 13_740, 13_740]
    );
    assert_eq!(tabled(&file, 50), Ok((550, 50)));
    assert_eq!(tabled(&file, 100), Ok((183, 183)));
    assert_eq!(tabled(&file, 150), Ok((50, 550)));
    assert_eq!(tabled(&file, 200), Ok((0, 1_000)));
}

// ---- the largest file

#[test]
fn the_largest_file_of_edition_1_is_written_and_read_back() {
    let mut sample = largest();
    for (k, claim) in sample.risks.iter_mut().flatten().enumerate() {
        *claim -= k as u32 * 61;
    }
    let file = write(&sample);
    assert_eq!(file.len(), 40_370);

    let mut counts = [0; 255];
    let mut claims = vec![0; 16_065];
    let mut joined = vec![0xee; 16_065];
    let group = calls::read(&file, &mut counts, &mut claims, &mut joined);
    assert_eq!(group, Group::given(1, 255, sample.header.into()));
    assert_eq!(counts, [63; 255]);
    assert_eq!(claims, sample.claims());
    assert_eq!(joined, [0; 16_065]);

    let mut again = vec![0; 40_370];
    let mut length = 0;
    let answer = calls::write(
        group.edition,
        group.header(),
        &counts,
        &claims,
        &joined,
        &mut again,
        &mut length,
    );
    assert_eq!((answer, length), (0, 40_370));
    assert_eq!(again, file);
}

#[test]
fn the_largest_premiums() {
    // Marks of 0 leave no ratable losses: each premium is 2 × (e + L), with L = 63 × 1,048,575 and
    // e 1,048,575.
    let rated = rate_group(&largest()).unwrap();
    assert_eq!(rated.premiums, [134_217_600; 255]);
    // M = 1,000 × n × e − 1,000 × SL + 2,000 × SL = 1,000 × (n × e + SL) = 1,000 × 255 × 64 ×
    // 1,048,575
    assert_eq!(
        rated.numbers,
        (255, 17_112_744_000_000, 0, 255 * 134_217_600)
    );
}
