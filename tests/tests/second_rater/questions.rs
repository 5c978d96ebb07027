//! The questions: each one alone, the order between them, and files of any
//! length.

use retro_tests::generator::{
    set, Field, Random, CONVERSION, EDITION, LOSS_LIMIT, MARK_KIND, MAXIMUM_MARK, MINIMUM_MARK,
    RISKS, SPARE, STANDARD_PREMIUM, TAX,
};
use retro_tests::samples::{four_risks, one_claim_of_one, two_risks_of_ten, Sample, Values, AMPLE};
use retro_tests::second_rater::{rate, read, table, Header};

/// The same number from the three calls on a file.
fn all_refuse(file: &[u8], k: u32) {
    assert_eq!(rate(file, AMPLE), Err(k));
    assert_eq!(table(file, 100), Err(k));
    assert_eq!(read(file, AMPLE, AMPLE, AMPLE), Err(k));
}

fn write_sample(sample: &Sample, room: usize) -> Result<Vec<u8>, u32> {
    sample.values().written(room)
}

/// Write in edition 1, with a 0 for each claim.
fn write(header: &Header, counts: &[u8], claims: &[u32], room: usize) -> Result<Vec<u8>, u32> {
    Values::of_edition_1(header, counts, claims).written(room)
}

#[test]
fn fifteen_bytes_give_1() {
    let file = four_risks().file();
    all_refuse(&file[..15], 1);
    all_refuse(&[], 1);
    all_refuse(&[0xff; 15], 1);
}

#[test]
fn edition_and_spare_bit_give_2() {
    for sample in [four_risks(), four_risks().in_edition_2(&[(1, 1)])] {
        let mut file = sample.file();
        for edition in (0..=15).filter(|edition| ![1, 2].contains(edition)) {
            set(&mut file, EDITION, edition);
            all_refuse(&file, 2);
        }
        let mut file = sample.file();
        set(&mut file, SPARE, 1);
        all_refuse(&file, 2);
    }
}

#[test]
fn standard_premium_gives_3() {
    let mut file = four_risks().file();
    set(&mut file, STANDARD_PREMIUM, 0);
    all_refuse(&file, 3);
}

#[test]
fn conversion_factor_gives_4() {
    for conversion in [0, 999, 2_001, 2_047] {
        let mut file = four_risks().file();
        set(&mut file, CONVERSION, conversion);
        all_refuse(&file, 4);
    }
    for conversion in [1_000, 2_000] {
        let mut file = four_risks().file();
        set(&mut file, CONVERSION, conversion);
        assert!(read(&file, AMPLE, AMPLE, AMPLE).is_ok());
    }
}

#[test]
fn tax_multiplier_gives_5() {
    for tax in [0, 9_999, 20_001, 32_767] {
        let mut file = four_risks().file();
        set(&mut file, TAX, tax);
        all_refuse(&file, 5);
    }
    for tax in [10_000, 20_000] {
        let mut file = four_risks().file();
        set(&mut file, TAX, tax);
        assert!(rate(&file, AMPLE).is_ok());
    }
}

#[test]
fn marks_give_6() {
    for mark in [6_001, 8_191] {
        for field in [MAXIMUM_MARK, MINIMUM_MARK] {
            let mut file = four_risks().file();
            set(&mut file, field, mark);
            all_refuse(&file, 6);
        }
    }
    let mut file = four_risks().file();
    set(&mut file, MAXIMUM_MARK, 6_000);
    set(&mut file, MINIMUM_MARK, 6_000);
    assert!(read(&file, AMPLE, AMPLE, AMPLE).is_ok());
}

#[test]
fn minimum_mark_above_maximum_mark_gives_18() {
    // Of either kind, on a premium of which each mark below 1.000 is 0 dollars
    // and on one of which a thousandth is ten dollars.
    for (standard_premium, mark_kind) in [(1, 0), (1, 1), (10_000, 0), (10_000, 1)] {
        let mut file = four_risks().file();
        set(&mut file, STANDARD_PREMIUM, standard_premium);
        set(&mut file, MARK_KIND, mark_kind);
        for (maximum_mark, minimum_mark, passes) in [
            (0, 0, true),
            (0, 1, false),
            (1, 0, true),
            (899, 900, false),
            (900, 900, true),
            (901, 900, true),
            (0, 6_000, false),
            (5_999, 6_000, false),
            (6_000, 6_000, true),
            (6_000, 5_999, true),
            (6_000, 0, true),
        ] {
            set(&mut file, MAXIMUM_MARK, maximum_mark);
            set(&mut file, MINIMUM_MARK, minimum_mark);
            if passes {
                assert!(read(&file, AMPLE, AMPLE, AMPLE).is_ok());
                assert_eq!(table(&file, 100), Ok((321, 321)));
                assert!(matches!(rate(&file, AMPLE), Ok(_) | Err(12)));
            } else {
                all_refuse(&file, 18);
            }
        }
    }
}

#[test]
fn write_of_a_minimum_mark_above_the_maximum_mark_gives_18() {
    let sample = four_risks();
    for (maximum_mark, minimum_mark) in [(899, 900), (0, 1), (5_999, 6_000), (0, 6_000)] {
        for mark_kind in [0, 1] {
            let mut crossed = sample.with_marks(maximum_mark, minimum_mark);
            crossed.header.mark_kind = mark_kind;
            assert_eq!(write_sample(&crossed, AMPLE), Err(18));
            let mut exchanged = sample.with_marks(minimum_mark, maximum_mark);
            exchanged.header.mark_kind = mark_kind;
            assert!(write_sample(&exchanged, AMPLE).is_ok());
            let mut equal = sample.with_marks(minimum_mark, minimum_mark);
            equal.header.mark_kind = mark_kind;
            assert!(write_sample(&equal, AMPLE).is_ok());
        }
    }
}

#[test]
fn no_risks_give_7() {
    let mut file = four_risks().file();
    set(&mut file, RISKS, 0);
    all_refuse(&file, 7);
    all_refuse(&file[..16], 7);
}

#[test]
fn wrong_length_gives_8() {
    let file = four_risks().file();
    let mut longer = file.clone();
    longer.push(0);
    all_refuse(&longer, 8);
    longer[34] = 1;
    all_refuse(&longer, 8);
    for length in 16..file.len() {
        all_refuse(&file[..length], 8);
    }
    let mut file = one_claim_of_one(3).file();
    file.push(0);
    all_refuse(&file, 8);
}

#[test]
fn number_of_risks_decides_the_length() {
    // With 5 risks the fifth count lies past the end; with 3 a claim follows.
    for n in [1, 2, 3, 5, 255] {
        let mut file = four_risks().file();
        set(&mut file, RISKS, n);
        all_refuse(&file, 8);
    }
}

#[test]
fn count_that_straddles_the_end_gives_8() {
    // 22 risks without claims take 128 + 132 bits, 33 bytes. In 32 bytes the
    // last count has 2 of its bits before the end and 4 after it.
    let mut sample = one_claim_of_one(22);
    sample.risks = vec![vec![]; 22];
    let file = sample.file();
    assert_eq!(file.len(), 33);
    all_refuse(&file[..32], 8);
    assert_eq!(rate(&file, AMPLE), Err(10));
}

#[test]
fn fill_bits_give_9() {
    for bit in [1, 2, 3] {
        let mut file = one_claim_of_one(3).file();
        *file.last_mut().unwrap() |= bit;
        all_refuse(&file, 9);
    }
    // The four-risk file has no fill bit: its last bit is the last claim's.
    let mut file = four_risks().file();
    *file.last_mut().unwrap() |= 1;
    let group = read(&file, AMPLE, AMPLE, AMPLE).unwrap();
    assert_eq!(group.claims.last(), Some(&2_001));
}

#[test]
fn no_losses_give_10() {
    let mut sample = four_risks();
    for claims in &mut sample.risks {
        for claim in claims {
            *claim = 0;
        }
    }
    let file = sample.file();
    assert_eq!(rate(&file, AMPLE), Err(10));
    assert_eq!(table(&file, 100), Err(10));
    assert!(read(&file, AMPLE, AMPLE, AMPLE).is_ok());
}

#[test]
fn negative_basic_gives_12_in_rate_alone() {
    let file = two_risks_of_ten(2_000).file();
    assert_eq!(rate(&file, AMPLE), Err(12));
    assert_eq!(table(&file, 50), Ok((500, 0)));
    assert!(read(&file, AMPLE, AMPLE, AMPLE).is_ok());
}

#[test]
fn basic_one_thousandth_below_0_is_refused() {
    // One risk of 10 without limit: M = 1,000 × e − (c − 1,000) × 10 with
    // marks that cut nothing. c 1.100 and e 1 give exactly 0.
    let mut sample = two_risks_of_ten(1_100);
    sample.risks = vec![vec![10]];
    sample.header.expense = 1;
    assert_eq!(rate(&sample.file(), AMPLE).unwrap().basic, 0);
    // One claim of 1 and c 1.001 give −1.
    sample.risks = vec![vec![1]];
    sample.header.expense = 0;
    sample.header.conversion = 1_001;
    assert_eq!(rate(&sample.file(), AMPLE), Err(12));
}

#[test]
fn short_buffers_give_13() {
    let sample = four_risks();
    let file = sample.file();
    assert_eq!(rate(&file, 15), Err(13));
    assert_eq!(rate(&file, 0), Err(13));
    assert!(rate(&file, 16).is_ok());

    // Edition 1 too asks for the room of the bits.
    for file in [&file, &sample.in_edition_2(&[]).file()] {
        assert_eq!(read(file, 3, 6, 6), Err(13));
        assert_eq!(read(file, 4, 5, 6), Err(13));
        assert_eq!(read(file, 4, 6, 5), Err(13));
        assert_eq!(read(file, 4, 6, 0), Err(13));
        assert_eq!(read(file, 0, 0, 0), Err(13));
        assert!(read(file, 4, 6, 6).is_ok());
    }

    assert_eq!(write_sample(&sample, 33), Err(13));
    assert_eq!(write_sample(&sample, 0), Err(13));
    assert_eq!(write_sample(&sample, 34), Ok(file));
}

#[test]
fn entry_ratio_above_600_gives_14() {
    let file = four_risks().file();
    assert!(table(&file, 600).is_ok());
    assert_eq!(table(&file, 601), Err(14));
    assert_eq!(table(&file, u32::MAX), Err(14));
}

#[test]
fn values_past_their_widths_give_15() {
    let good = four_risks();
    let header = good.header;
    let wide = [
        Header {
            loss_limit: 1 << 20,
            ..header
        },
        Header {
            loss_limit: u32::MAX,
            ..header
        },
        Header {
            standard_premium: 1 << 22,
            ..header
        },
        Header {
            expense: 1 << 20,
            ..header
        },
        Header {
            mark_kind: 2,
            ..header
        },
        Header {
            mark_kind: u32::MAX,
            ..header
        },
    ];
    for header in wide {
        assert_eq!(
            write(&header, &good.counts(), &good.claims(), AMPLE),
            Err(15)
        );
        assert_eq!(write(&header, &good.counts(), &good.claims(), 0), Err(15));
    }

    assert_eq!(write(&header, &[1], &[1 << 20], AMPLE), Err(15));
    assert_eq!(write(&header, &[1], &[u32::MAX], AMPLE), Err(15));
    assert!(write(&header, &[1], &[(1 << 20) - 1], AMPLE).is_ok());

    assert_eq!(write(&header, &[64], &[1; 64], AMPLE), Err(15));
    assert_eq!(write(&header, &[255], &[1; 255], AMPLE), Err(15));
    assert!(write(&header, &[63], &[1; 63], AMPLE).is_ok());

    assert_eq!(write(&header, &[0; 256], &[], AMPLE), Err(15));
    assert_eq!(write(&header, &[0; 512], &[], AMPLE), Err(15));
    assert!(write(&header, &[0; 255], &[], AMPLE).is_ok());

    assert_eq!(write(&header, &[1, 1], &[1], AMPLE), Err(15));
    assert_eq!(write(&header, &[1, 1], &[1, 1, 1], AMPLE), Err(15));
    assert_eq!(write(&header, &[0], &[1], AMPLE), Err(15));
    assert_eq!(write(&header, &[1], &[], AMPLE), Err(15));
}

#[test]
fn write_asks_3_to_6_then_18_then_7_before_15() {
    let header = four_risks().header;
    // Every value is wrong at first; each one put right uncovers the next.
    let mut bad = Header {
        loss_limit: 1 << 20,
        standard_premium: 0,
        expense: 0,
        conversion: u32::MAX,
        tax: u32::MAX,
        mark_kind: 2,
        maximum_mark: u32::MAX,
        minimum_mark: u32::MAX,
    };
    let ask = |header: &Header, counts: &[u8]| write(header, counts, &[7], 0);
    assert_eq!(ask(&bad, &[]), Err(3));
    bad.standard_premium = 1 << 22;
    assert_eq!(ask(&bad, &[]), Err(4));
    bad.conversion = header.conversion;
    assert_eq!(ask(&bad, &[]), Err(5));
    bad.tax = header.tax;
    assert_eq!(ask(&bad, &[]), Err(6));
    bad.maximum_mark = 5_999;
    assert_eq!(ask(&bad, &[]), Err(6));
    bad.minimum_mark = 6_000;
    assert_eq!(ask(&bad, &[]), Err(18));
    assert_eq!(ask(&bad, &[1]), Err(18));
    bad.maximum_mark = 6_000;
    assert_eq!(ask(&bad, &[]), Err(7));
    assert_eq!(ask(&bad, &[1]), Err(15));
    bad.loss_limit = 0;
    bad.standard_premium = 1;
    bad.mark_kind = 1;
    assert_eq!(ask(&bad, &[1]), Err(13));
    assert!(write(&bad, &[1], &[7], AMPLE).is_ok());
}

#[test]
fn write_does_not_ask_10_or_12() {
    let header = four_risks().header;
    assert!(write(&header, &[0], &[], AMPLE).is_ok());
    assert!(write(&two_risks_of_ten(2_000).header, &[1, 1], &[10, 10], AMPLE).is_ok());
}

#[test]
fn first_no_of_a_file_is_the_result() {
    // A file that fails 2 to 9 and 18 at once; each field put right uncovers the
    // next.
    let mut file = one_claim_of_one(3).file();
    let good = file.clone();
    let good_fields = |file: &mut Vec<u8>, field: Field| {
        for k in field.at..field.at + field.width {
            let mask = 0x80 >> (k % 8);
            file[k / 8] = (file[k / 8] & !mask) | (good[k / 8] & mask);
        }
    };
    set(&mut file, EDITION, 0);
    set(&mut file, STANDARD_PREMIUM, 0);
    set(&mut file, CONVERSION, 0);
    set(&mut file, TAX, 0);
    set(&mut file, MAXIMUM_MARK, 8_190);
    set(&mut file, MINIMUM_MARK, 8_191);
    set(&mut file, RISKS, 0);
    let last = file.len() - 1;
    file[last] |= 1;
    file.push(1);
    all_refuse(&file[..15], 1);
    all_refuse(&file, 2);
    good_fields(&mut file, EDITION);
    all_refuse(&file, 3);
    good_fields(&mut file, STANDARD_PREMIUM);
    all_refuse(&file, 4);
    good_fields(&mut file, CONVERSION);
    all_refuse(&file, 5);
    good_fields(&mut file, TAX);
    all_refuse(&file, 6);
    good_fields(&mut file, MAXIMUM_MARK);
    all_refuse(&file, 6);
    set(&mut file, MINIMUM_MARK, 1_001);
    all_refuse(&file, 18);
    good_fields(&mut file, MINIMUM_MARK);
    all_refuse(&file, 7);
    good_fields(&mut file, RISKS);
    all_refuse(&file, 8);
    file.pop();
    all_refuse(&file, 9);
    file[last] &= 0xfe;
    assert_eq!(file, good);
}

#[test]
fn rate_asks_10_12_and_13_in_order() {
    // No losses, a negative basic, and no space.
    let mut sample = four_risks();
    sample.header.maximum_mark = 6_000;
    sample.header.expense = 0;
    let with_losses = sample.clone();
    sample.risks = vec![vec![0]; 4];
    assert_eq!(rate(&sample.file(), 0), Err(10));
    assert_eq!(table(&sample.file(), 601), Err(10));
    sample = with_losses;
    assert_eq!(rate(&sample.file(), 0), Err(12));
    sample.header.expense = 2_000;
    assert_eq!(rate(&sample.file(), 0), Err(13));
}

#[test]
fn read_asks_9_before_13() {
    let mut file = one_claim_of_one(3).file();
    assert_eq!(read(&file, 0, 0, 0), Err(13));
    *file.last_mut().unwrap() |= 1;
    assert_eq!(read(&file, 0, 0, 0), Err(9));
}

#[test]
fn loss_limit_of_0_is_no_limit() {
    let mut limited = four_risks();
    limited.header.loss_limit = (1 << 20) - 1;
    let mut file = limited.file();
    let all_but_limit = rate(&file, AMPLE).unwrap();
    set(&mut file, LOSS_LIMIT, 0);
    assert_eq!(rate(&file, AMPLE).unwrap(), all_but_limit);
}

#[test]
fn long_files_are_handled() {
    let megabytes = vec![0u8; 4 << 20];
    all_refuse(&megabytes, 2);
    let mut file = four_risks().file();
    file.resize(4 << 20, 0xff);
    all_refuse(&file, 8);
}

/// Questions 1 to 9, 18 and 19 have the same answer in the three calls on a
/// file. Gives whether the file passes them.
fn passes_1_to_9_18_and_19(file: &[u8]) -> bool {
    let rated = rate(file, AMPLE);
    let tabled = table(file, 100);
    match read(file, AMPLE, AMPLE, AMPLE) {
        Err(k) => {
            assert!((1..=9).contains(&k) || k == 18 || k == 19);
            assert_eq!(rated, Err(k));
            assert_eq!(tabled, Err(k));
            false
        }
        Ok(_) => {
            assert!(!matches!(rated, Err(k) if k != 10 && k != 12));
            assert!(!matches!(tabled, Err(k) if k != 10));
            assert_eq!(rated == Err(10), tabled == Err(10));
            true
        }
    }
}

#[test]
fn any_bytes_are_handled() {
    let mut random = Random::new(0x5eed_0002);
    let samples = [four_risks(), four_risks().in_edition_2(&[])];
    let headers = samples.map(|sample| sample.file()[..16].to_vec());
    for _ in 0..10_000 {
        // Random bytes of any length, half of them under a good header of either
        // edition.
        let length = random.between(0, 80) as usize;
        let mut file: Vec<u8> = (0..length).map(|_| random.word() as u8).collect();
        if random.between(0, 1) == 0 {
            let header = &headers[random.within(0, 1)];
            for (byte, &good) in file.iter_mut().zip(header) {
                *byte = good;
            }
        }
        passes_1_to_9_18_and_19(&file);
    }
}

#[test]
fn files_with_one_bit_turned_are_handled() {
    let mut random = Random::new(0x5eed_0007);
    let mut passed = 0;
    let mut refused = 0;
    for _ in 0..2_000 {
        let mut file = random.group().file();
        let bit = random.between(0, 8 * file.len() as u32 - 1) as usize;
        file[bit / 8] ^= 0x80 >> (bit % 8);
        if passes_1_to_9_18_and_19(&file) {
            passed += 1;
        } else {
            refused += 1;
        }
    }
    assert!(passed > 200 && refused > 200, "{passed} and {refused}");
}
