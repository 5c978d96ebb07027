//! The worked figures: the four-risk group, the proved cases, the four ways to
//! rate wrongly, and a further group of ten risks.

use retro_tests::generator::Random;
use retro_tests::samples::{
    crossed_marks, four_risks, largest, one_claim_of_one, stock, ten_risks, two_risks_of_ten,
    Sample, AMPLE, FOUR_RISKS_PRINTED,
};
use retro_tests::second_rater::{guaranteed, print_rated, rate, read, table, Header, Line};

fn billed(sample: &Sample) -> Vec<u128> {
    rate(&sample.file(), AMPLE).unwrap().premiums
}

#[test]
fn four_risks_are_printed_byte_for_byte() {
    let rated = rate(&four_risks().file(), 16).unwrap();
    assert_eq!(print_rated(&rated), FOUR_RISKS_PRINTED);
}

#[test]
fn four_risks_as_numbers() {
    let rated = rate(&four_risks().file(), 16).unwrap();
    assert_eq!(rated.risks, 4);
    assert_eq!(rated.basic, 6_700_000);
    assert_eq!(rated.excess, 3_300_000);
    assert_eq!(rated.billed, 33_600);
    assert_eq!(rated.premiums, [4_935, 7_245, 8_400, 13_020]);
    assert_eq!(
        rated.lines[3],
        Line {
            total: 13_000,
            limited: 12_000,
            ratable: 9_000,
            premium: 13_020
        }
    );
    // 1.05 × (8,000 + 24,000): taxes on the expense provisions and all losses.
    let losses: u128 = rated.lines.iter().map(|line| line.total).sum();
    assert_eq!(losses, 24_000);
    assert_eq!(105 * (4 * 2_000 + losses), rated.billed * 100);
}

#[test]
fn four_risks_in_bytes() {
    let file = four_risks().file();
    assert_eq!(
        file,
        [
            0x10, 0x13, 0x88, 0x00, 0x9c, 0x40, 0x01, 0xf4, 0x22, 0x62, 0x90, 0x40, 0xe1, 0x01,
            0x90, 0x08, 0x00, 0x20, 0x0b, 0xb8, 0x00, 0x3e, 0x80, 0x40, 0x6d, 0x60, 0x30, 0x13,
            0x88, 0x01, 0x77, 0x00, 0x07, 0xd0
        ]
    );
    // 128 + 4 × 6 + 6 × 20 bits fill 34 bytes, so there is no fill bit.
    assert_eq!(file.len() * 8, 128 + 4 * 6 + 6 * 20);
}

#[test]
fn table_of_the_four_risks() {
    let file = four_risks().file();
    assert_eq!(table(&file, 0), Ok((1_000, 0)));
    assert_eq!(table(&file, 100), Ok((321, 321)));
    assert_eq!(table(&file, 200), Ok((71, 1_071)));
    assert_eq!(table(&file, 300), Ok((0, 2_000)));
}

#[test]
fn three_risks_of_one_third() {
    for with_claim in 0..3 {
        let mut sample = one_claim_of_one(3);
        sample.risks = vec![vec![]; 3];
        sample.risks[with_claim].push(1);
        let rated = rate(&sample.file(), 12).unwrap();
        // LG is 0: even the risk with the claim has no ratable losses.
        assert!(rated.lines.iter().all(|line| line.ratable == 0));
        assert_eq!(rated.basic, 1_000);
        assert_eq!(rated.excess, 0);
        assert_eq!(rated.premiums, [0, 0, 0]);
        assert_eq!(rated.billed, 0);
    }
}

#[test]
fn three_risks_in_bytes() {
    assert_eq!(
        one_claim_of_one(3).file(),
        [
            0x10, 0x00, 0x00, 0x00, 0x00, 0x04, 0x00, 0x00, 0x1f, 0x42, 0x71, 0x08, 0xfa, 0x00,
            0x00, 0x06, 0x04, 0x00, 0x00, 0x40, 0x00
        ]
    );
}

#[test]
fn two_risks_of_one_half_are_rounded_upward() {
    let rated = rate(&one_claim_of_one(2).file(), 8).unwrap();
    assert!(rated.lines.iter().all(|line| line.ratable == 0));
    assert_eq!(rated.basic, 1_000);
    assert_eq!(rated.premiums, [1, 1]);
    // The exact total is 1 dollar, in ten-millionths × n.
    assert_eq!(2 * 10_000 * rated.basic, 10_000_000 * 2);
}

#[test]
fn two_risks_of_ten_with_both_conversion_factors() {
    assert_eq!(rate(&two_risks_of_ten(2_000).file(), AMPLE), Err(12));
    let rated = rate(&two_risks_of_ten(1_000).file(), AMPLE).unwrap();
    assert_eq!(rated.basic, 0);
    assert_eq!(rated.premiums, [10, 10]);
}

#[test]
fn crossed_marks_are_refused_whatever_their_dollars() {
    // 0 and 0 dollars of P 1, 900 and 950 of P 1,000.
    for standard_premium in [1, 1_000] {
        let sample = crossed_marks(standard_premium);
        let file = sample.file_of_any_marks();
        assert_eq!(rate(&file, AMPLE), Err(18));
        assert_eq!(table(&file, 100), Err(18));
        assert_eq!(read(&file, AMPLE, AMPLE, AMPLE), Err(18));
        assert_eq!(guaranteed(&file, &stock(), AMPLE, AMPLE), Err(18));
        assert_eq!(sample.values().written(AMPLE), Err(18));
    }
    // With equal marks the P 1 group is rated as document 01 had it.
    let rated = rate(&crossed_marks(1).with_marks(900, 900).file(), AMPLE).unwrap();
    assert_eq!(rated.lines[0].ratable, 0);
    assert_eq!(rated.premiums, [10]);
}

#[test]
fn claims_at_and_above_the_limit_count_the_limit() {
    // Only limit and claims are given; P 10,000, e 2,000, c 1.000, T 1.0000
    // and loss ratio marks 6.000 and 0 are chosen here.
    let sample = Sample {
        header: Header {
            conversion: 1_000,
            tax: 10_000,
            maximum_mark: 6_000,
            minimum_mark: 0,
            ..four_risks().header
        },
        risks: vec![vec![5_000], vec![5_001], vec![5_000, 5_001], vec![4_999]],
        joined: None,
    };
    let rated = rate(&sample.file(), AMPLE).unwrap();
    let limited: Vec<u128> = rated.lines.iter().map(|line| line.limited).collect();
    assert_eq!(limited, [5_000, 5_000, 10_000, 4_999]);
}

#[test]
fn ten_risks_with_a_conversion_factor() {
    let file = ten_risks().file();
    let rated = rate(&file, 40).unwrap();
    assert_eq!(rated.basic, 20_400_000);
    assert_eq!(rated.excess, 0);
    assert_eq!(
        rated.premiums,
        [4_640, 4_640, 7_240, 9_840, 9_840, 9_840, 9_840, 12_440, 13_740, 13_740]
    );
    assert_eq!(rated.billed, 95_800);
    assert_eq!(table(&file, 50), Ok((550, 50)));
    assert_eq!(table(&file, 100), Ok((183, 183)));
    assert_eq!(table(&file, 150), Ok((50, 550)));
    assert_eq!(table(&file, 200), Ok((0, 1_000)));
}

#[test]
fn largest_group_is_rated() {
    let file = largest().file();
    assert_eq!(file.len(), 40_370);
    let rated = rate(&file, 4 * 255).unwrap();
    // Marks of 0 leave no ratable losses: every premium is 2 × (e + L).
    let losses = 63 * ((1 << 20) - 1);
    let premium = 2 * ((1 << 20) - 1 + losses);
    assert_eq!(rated.premiums, vec![premium; 255]);
    assert_eq!(rated.billed, 255 * premium);
    assert_eq!(table(&file, 100), Ok((0, 0)));
    assert_eq!(table(&file, 600), Ok((0, 5_000)));
}

#[test]
fn each_claim_is_limited_not_the_sum() {
    let rated = rate(&four_risks().file(), AMPLE).unwrap();
    assert_eq!(rated.lines[3].limited, 12_000);
}

#[test]
fn basic_is_not_rounded_before_the_premiums() {
    // Rounded to dollars per risk, a basic of one third would be 0 and the
    // exact total 0. Kept exact, the total is 1.
    let rated = rate(&one_claim_of_one(3).file(), AMPLE).unwrap();
    assert_eq!(3 * 10_000 * rated.basic, 10_000_000 * 3);
    // 1.5 × one third is an exact half and billed 1; from a basic of 0 it
    // would be billed 0.
    let mut sample = one_claim_of_one(3);
    sample.header.tax = 15_000;
    assert_eq!(billed(&sample), [1, 1, 1]);
}

#[test]
fn entry_ratio_is_on_limited_losses() {
    // SA 20 and SL 60: LG is 10. On SL it would be 30 and cut nothing.
    let sample = Sample {
        header: Header {
            loss_limit: 10,
            ..one_claim_of_one(2).header
        },
        risks: vec![vec![30, 30], vec![]],
        joined: None,
    };
    let file = sample.file();
    let rated = rate(&file, AMPLE).unwrap();
    assert_eq!(rated.lines[0].ratable, 10);
    assert_eq!(rated.basic, 10_000);
    assert_eq!(rated.excess, 40_000);
    assert_eq!(rated.premiums, [35, 25]);
    assert_eq!(table(&file, 100), Ok((500, 500)));
}

#[test]
fn savings_less_charge_is_kept_by_rounding() {
    let mut random = Random::new(0x5eed_0001);
    let mut tables = 0;
    let mut samples = vec![four_risks(), ten_risks(), one_claim_of_one(3)];
    for _ in 0..150 {
        samples.push(random.group());
    }
    for sample in samples {
        let file = sample.file();
        for r in (0..=600).step_by(7) {
            if let Ok((charge, savings)) = table(&file, r) {
                assert_eq!(savings as i128 - charge as i128, 10 * i128::from(r) - 1_000);
                tables += 1;
            }
        }
    }
    assert!(tables > 5_000, "only {tables} tables");
}
