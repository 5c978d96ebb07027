//! Question 18, job 2 of document 02, through the exported calls: which marks pass, where it stands
//! among the other questions, by inputs with two faults, and that what is accepted is rated as
//! before. Expected answers are typed here; every number and every byte beside them, also after a
//! refusal, is held to the second rater. Where results are typed too, they are held to those
//! alone.

use retro_tests::calls::{self, Rated};
use retro_tests::generator::{
    set, with, Random, CONVERSION, EDITION, HEADER, MAXIMUM_MARK, MINIMUM_MARK, RISKS, SPARE,
    STANDARD_PREMIUM, TAX,
};
use retro_tests::held_calls::{Call, HeldCalls, BYTES, ENTRIES};
use retro_tests::samples::{
    bounds, crossed_marks, four_risks, one_claim_of_one, one_risk, scaffold, schedules, stock,
    ten_risks, two_risks_of_ten, Sample, Values,
};
use retro_tests::second_rater::Header;

/// A group with these marks of this kind.
fn with_marks(sample: &Sample, kind: u32, maximum: u32, minimum: u32) -> Sample {
    let mut sample = sample.with_marks(maximum, minimum);
    sample.header.mark_kind = kind;
    sample
}

/// Write of a group with room enough.
fn write(held_calls: &mut HeldCalls, sample: &Sample) -> u32 {
    held_calls.write(&sample.values(), 1 << 11)
}

/// The answers of Rate, Guaranteed, Table, Read and Write to a group, with room enough and a sound
/// schedule.
fn answers(held_calls: &mut HeldCalls, sample: &Sample) -> [u32; 5] {
    let file = sample.file_of_any_marks();
    [
        held_calls.rate(&file, BYTES),
        held_calls.guaranteed(&file, &stock(), BYTES, ENTRIES),
        held_calls.table(&file, 100),
        held_calls.read(&file, ENTRIES, ENTRIES, ENTRIES),
        write(held_calls, sample),
    ]
}

// ---- which marks pass

/// A group that is rated with all marks in order: with loss ratio marks the one risk has more than
/// 6 × 4,194,303 dollars, with entry ratio marks e is more than five times the mean loss.
fn rated_with_all_marks(kind: u32, standard_premium: u32) -> Sample {
    let mut sample = one_risk(standard_premium);
    if kind == 0 {
        sample.risks = vec![vec![1_048_575; 63]];
    } else {
        sample.risks = vec![vec![10, 700], vec![], vec![2_500]];
        sample.header.expense = 1_048_575;
    }
    sample
}

#[test]
fn equal_marks_pass_and_a_thousandth_above_is_refused() {
    let mut held_calls = HeldCalls::new();
    for kind in [0, 1] {
        for standard_premium in [1, 2, 999, 1_000, 10_000, 4_194_303] {
            let sample = rated_with_all_marks(kind, standard_premium);
            for mark in [
                0, 1, 2, 255, 256, 499, 500, 899, 900, 999, 1_000, 1_001, 4_095, 4_096, 5_998,
                5_999, 6_000,
            ] {
                let equal = with_marks(&sample, kind, mark, mark);
                assert_eq!(answers(&mut held_calls, &equal), [0; 5], "{equal:?}");
                if mark == 6_000 {
                    continue;
                }
                let above = with_marks(&sample, kind, mark, mark + 1);
                assert_eq!(answers(&mut held_calls, &above), [18; 5], "{above:?}");
                let below = with_marks(&sample, kind, mark + 1, mark);
                assert_eq!(answers(&mut held_calls, &below), [0; 5], "{below:?}");
            }
        }
    }
}

#[test]
fn marks_at_the_ends() {
    let mut held_calls = HeldCalls::new();
    for kind in [0, 1] {
        for standard_premium in [1, 10_000, 4_194_303] {
            let sample = rated_with_all_marks(kind, standard_premium);
            for (maximum, minimum, answer) in [
                (0, 0, 0),
                (0, 1, 18),
                (1, 0, 0),
                (0, 5_999, 18),
                (0, 6_000, 18),
                (1, 6_000, 18),
                (6_000, 0, 0),
                (6_000, 1, 0),
                (5_999, 6_000, 18),
                (6_000, 5_999, 0),
                (6_000, 6_000, 0),
            ] {
                let sample = with_marks(&sample, kind, maximum, minimum);
                assert_eq!(answers(&mut held_calls, &sample), [answer; 5], "{sample:?}");
            }
        }
    }
}

#[test]
fn marks_are_compared_as_written_and_not_in_dollars() {
    let mut held_calls = HeldCalls::new();
    for (standard_premium, maximum, minimum) in [
        // 0, 1, 0 and 5 dollars of P 1, 9 of P 10 and 90 of P 100
        (1, 900, 950),
        (1, 1_900, 1_950),
        (1, 0, 999),
        (1, 5_000, 5_999),
        (10, 900, 901),
        (100, 900, 901),
        // a dollar apart, and thousands
        (1_000, 900, 901),
        (4_194_303, 900, 901),
    ] {
        let sample = rated_with_all_marks(0, standard_premium);
        let crossed = with_marks(&sample, 0, maximum, minimum);
        assert_eq!(answers(&mut held_calls, &crossed), [18; 5], "{crossed:?}");
    }
    // A mean loss of one third of a dollar: entry ratio marks below 3.000 are 0 dollars.
    for (maximum, minimum) in [(0, 1), (999, 1_000), (0, 2_999), (2_998, 2_999)] {
        let crossed = with_marks(&one_claim_of_one(3), 1, maximum, minimum);
        assert_eq!(answers(&mut held_calls, &crossed), [18; 5], "{crossed:?}");
    }
    // A mean loss of 1,048,575, of which a thousandth is 1,048 dollars.
    let mut sample = one_risk(1);
    sample.risks = vec![vec![1_048_575]];
    for (maximum, minimum) in [(0, 1), (999, 1_000), (5_999, 6_000)] {
        let crossed = with_marks(&sample, 1, maximum, minimum);
        assert_eq!(answers(&mut held_calls, &crossed), [18; 5], "{crossed:?}");
    }
}

#[test]
fn example_of_document_02() {
    let mut held_calls = HeldCalls::new();
    for standard_premium in [1, 1_000] {
        let sample = crossed_marks(standard_premium);
        assert_eq!(answers(&mut held_calls, &sample), [18; 5]);
    }
    // The typing slip put right, P 1 is rated: LG and LH are 0, M is 1,000 × 10.
    for (maximum, minimum) in [(950, 900), (900, 900), (950, 950)] {
        let sample = crossed_marks(1).with_marks(maximum, minimum);
        assert_eq!(answers(&mut held_calls, &sample), [0; 5]);
        assert_eq!(rated(&sample.file()), ((1, 10_000, 0, 10), vec![10]));
    }
}

// ---- 18 among the questions of a file

/// Groups whose minimum mark is above the maximum mark: of either kind, with marks of the same
/// dollars and with marks whose dollars are crossed too.
fn crossed_groups() -> Vec<Sample> {
    let four_risks_on_1 = Sample {
        header: Header {
            standard_premium: 1,
            ..four_risks().header
        },
        ..four_risks()
    };
    vec![
        crossed_marks(1),
        crossed_marks(1_000),
        with_marks(&four_risks_on_1, 0, 200, 900),
        with_marks(&four_risks(), 0, 200, 900),
        with_marks(&four_risks(), 0, 899, 900),
        with_marks(&four_risks(), 0, 0, 6_000),
        with_marks(&four_risks(), 1, 200, 900),
        with_marks(&four_risks(), 1, 5_999, 6_000),
        with_marks(&one_claim_of_one(3), 1, 999, 1_000),
        with_marks(&one_claim_of_one(3), 1, 0, 1),
        with_marks(&one_claim_of_one(3), 0, 0, 6_000),
        with_marks(&two_risks_of_ten(1_000), 1, 1_000, 1_001),
        with_marks(&scaffold(), 0, 200, 900),
        with_marks(&scaffold(), 1, 899, 900),
    ]
}

#[test]
fn crossed_marks_with_13_14_16_17_22_and_23_give_18() {
    let mut held_calls = HeldCalls::new();
    for sample in crossed_groups() {
        held_calls.all_give(&sample.file_of_any_marks(), 18);
    }
    // The buffers, entry ratios, schedules and bounds are such that a sound file fails each of these.
    let file = four_risks().file();
    assert_eq!(held_calls.rate(&file, 3), 13);
    assert_eq!(held_calls.table(&file, 601), 14);
    assert_eq!(held_calls.read(&file, 0, ENTRIES, ENTRIES), 13);
    assert_eq!(held_calls.read(&file, ENTRIES, 0, ENTRIES), 13);
    assert_eq!(held_calls.read(&file, ENTRIES, ENTRIES, 0), 13);
    let answers = schedules().map(|layers| held_calls.guaranteed(&file, &layers, BYTES, ENTRIES));
    assert_eq!(answers, [0, 16, 16, 17, 16]);
    assert_eq!(held_calls.guaranteed(&file, &stock(), 3, ENTRIES), 13);
    assert_eq!(held_calls.guaranteed(&file, &stock(), BYTES, 0), 13);
    let answers = bounds().map(|(maximum, minimum)| held_calls.plan(&file, maximum, minimum, 20));
    assert_eq!(answers, [0, 23, 22, 22, 22]);
}

#[test]
fn crossed_marks_with_1_to_5_give_the_other() {
    let mut held_calls = HeldCalls::new();
    for sample in crossed_groups() {
        let file = sample.file_of_any_marks();
        // 15 bytes have both marks, of which the last bit is the file's 119th
        held_calls.all_give(&file[..15], 1);
        for edition in [0, 3, 15] {
            held_calls.all_give(&with(&file, EDITION, edition), 2);
        }
        held_calls.all_give(&with(&file, SPARE, 1), 2);
        held_calls.all_give(&with(&file, STANDARD_PREMIUM, 0), 3);
        for conversion in [0, 999, 2_001, 2_047] {
            held_calls.all_give(&with(&file, CONVERSION, conversion), 4);
        }
        for tax in [0, 9_999, 20_001, 32_767] {
            held_calls.all_give(&with(&file, TAX, tax), 5);
        }
    }
}

#[test]
fn crossed_marks_above_6_000_give_6() {
    let mut held_calls = HeldCalls::new();
    for sample in crossed_groups() {
        let file = sample.file_of_any_marks();
        for (maximum, minimum) in [
            (0, 6_001),
            (900, 6_001),
            (5_999, 8_191),
            (6_000, 6_001),
            (6_000, 8_191),
            // both above
            (6_001, 6_002),
            (6_001, 8_191),
            (8_190, 8_191),
        ] {
            let marks = with(&with(&file, MAXIMUM_MARK, maximum), MINIMUM_MARK, minimum);
            held_calls.all_give(&marks, 6);
            // exchanged they are in order, and 6 is the only fault
            let marks = with(&with(&file, MAXIMUM_MARK, minimum), MINIMUM_MARK, maximum);
            held_calls.all_give(&marks, 6);
        }
    }
}

#[test]
fn crossed_marks_with_7_and_8_give_18() {
    let mut held_calls = HeldCalls::new();
    for sample in crossed_groups() {
        let file = sample.file_of_any_marks();
        // no risks: a header alone, and with bytes after it, of which 8 would ask
        held_calls.all_give(&with(&file[..HEADER], RISKS, 0), 18);
        held_calls.all_give(&with(&file, RISKS, 0), 18);
        // another number of risks
        held_calls.all_give(&with(&file, RISKS, 255), 18);
        // a byte less, none after the header, and bytes more
        held_calls.all_give(&file[..file.len() - 1], 18);
        held_calls.all_give(&file[..HEADER], 18);
        for added in [0, 1, 0xff] {
            let mut longer = file.clone();
            longer.push(added);
            held_calls.all_give(&longer, 18);
            longer.resize(50_000, added);
            held_calls.all_give(&longer, 18);
        }
    }
}

#[test]
fn crossed_marks_with_9_give_18() {
    let mut held_calls = HeldCalls::new();
    for (kind, maximum, minimum) in [(0, 999, 1_000), (0, 0, 6_000), (1, 999, 1_000), (1, 0, 1)] {
        // 128 + 3 × 6 + 20 bits leave two of the last byte.
        let sound = one_claim_of_one(3).file();
        let crossed = with_marks(&one_claim_of_one(3), kind, maximum, minimum).file_of_any_marks();
        for fill in 1..=3 {
            let mut file = crossed.clone();
            *file.last_mut().unwrap() |= fill;
            held_calls.all_give(&file, 18);
            let mut file = sound.clone();
            *file.last_mut().unwrap() |= fill;
            held_calls.all_give(&file, 9);
        }
    }
}

#[test]
fn crossed_marks_with_10_give_18() {
    let mut held_calls = HeldCalls::new();
    for (kind, maximum, minimum) in [(0, 899, 900), (0, 0, 6_000), (1, 899, 900), (1, 0, 6_000)] {
        for risks in [vec![vec![]; 4], vec![vec![0], vec![], vec![0, 0], vec![]]] {
            let no_losses = Sample {
                risks,
                ..four_risks()
            };
            let crossed = with_marks(&no_losses, kind, maximum, minimum);
            held_calls.all_give(&crossed.file_of_any_marks(), 18);
            let exchanged = with_marks(&no_losses, kind, minimum, maximum);
            // Read and Write do not ask 10.
            let answer = [10, 10, 10, 0, 0];
            assert_eq!(answers(&mut held_calls, &exchanged), answer);
        }
    }
}

#[test]
fn crossed_marks_that_document_01_refused_11_give_18() {
    // LH above LG in dollars: 2,000 and 1,990 of P 10,000; 1,050 and 1,044 of the mean loss of
    // 5,250. Table, Read and Write did not ask 11.
    let mut held_calls = HeldCalls::new();
    for kind in [0, 1] {
        let crossed = with_marks(&four_risks(), kind, 199, 200);
        held_calls.all_give(&crossed.file_of_any_marks(), 18);
        assert_eq!(write(&mut held_calls, &crossed), 18);
        let equal = with_marks(&four_risks(), kind, 200, 200);
        assert_eq!(answers(&mut held_calls, &equal), [0; 5]);
    }
}

#[test]
fn crossed_marks_with_12_give_18() {
    // Two risks of 10, e 0 and c 2.000. 5.998 and 5.999 are 59 dollars of P 10 and of a mean loss
    // of 10, so M is −1,000 × 20 − 2,000 × 98 whatever their order.
    let mut held_calls = HeldCalls::new();
    for kind in [0, 1] {
        let mut negative = two_risks_of_ten(2_000);
        negative.header.standard_premium = 10;
        let crossed = with_marks(&negative, kind, 5_998, 5_999);
        held_calls.all_give(&crossed.file_of_any_marks(), 18);
        let exchanged = with_marks(&negative, kind, 5_999, 5_998);
        // Table, Read and Write do not ask 12.
        let answer = [12, 12, 0, 0, 0];
        assert_eq!(answers(&mut held_calls, &exchanged), answer);
        // crossed in dollars too
        let crossed = with_marks(&negative, kind, 0, 6_000);
        held_calls.all_give(&crossed.file_of_any_marks(), 18);
    }
}

#[test]
fn crossed_marks_with_all_later_faults_give_18() {
    // No risks and bytes after the header; then risks without losses in a wrong length.
    let mut held_calls = HeldCalls::new();
    for sample in crossed_groups() {
        let mut file = sample.file_of_any_marks();
        file.push(1);
        held_calls.all_give(&with(&file, RISKS, 0), 18);
        file.truncate(HEADER);
        file.extend([0, 0, 0, 0, 1]);
        held_calls.all_give(&file, 18);
        // and all earlier faults before it
        for (field, value, question) in [
            (MINIMUM_MARK, 8_191, 6),
            (TAX, 0, 5),
            (CONVERSION, 0, 4),
            (STANDARD_PREMIUM, 0, 3),
            (EDITION, 0, 2),
        ] {
            set(&mut file, field, value);
            held_calls.all_give(&file, question);
        }
        held_calls.all_give(&file[..15], 1);
    }
}

// ---- 18 among the questions of Write

/// Write gives this question with room enough and without.
fn write_gives(
    held_calls: &mut HeldCalls,
    header: &Header,
    counts: &[u8],
    claims: &[u32],
    question: u32,
) {
    let values = Values::of_edition_1(header, counts, claims);
    held_calls.write_gives(&values, question);
}

/// Headers with the minimum mark above the maximum mark.
fn crossed_headers() -> Vec<Header> {
    let groups = crossed_groups().into_iter();
    groups.map(|sample| sample.header).collect()
}

/// Header values that fail 15 by their width, each in an otherwise unchanged header.
fn past_their_widths(header: Header) -> Vec<Header> {
    let mut headers = Vec::new();
    for value in [1 << 20, u32::MAX] {
        headers.push(Header {
            loss_limit: value,
            ..header
        });
        headers.push(Header {
            expense: value,
            ..header
        });
    }
    for standard_premium in [1 << 22, u32::MAX] {
        headers.push(Header {
            standard_premium,
            ..header
        });
    }
    for mark_kind in [2, 3, u32::MAX] {
        headers.push(Header {
            mark_kind,
            ..header
        });
    }
    headers
}

#[test]
fn write_of_crossed_marks_gives_18() {
    let mut held_calls = HeldCalls::new();
    for header in crossed_headers() {
        let exchanged = Header {
            maximum_mark: header.minimum_mark,
            minimum_mark: header.maximum_mark,
            ..header
        };
        let equal = Header {
            minimum_mark: header.maximum_mark,
            ..header
        };
        for (counts, claims) in [(&[0][..], &[][..]), (&[2, 0, 1], &[5, 0, 1_048_575])] {
            // 13 as well where the room is not enough
            write_gives(&mut held_calls, &header, counts, claims, 18);
            for header in [exchanged, equal] {
                let values = Values::of_edition_1(&header, counts, claims);
                assert_eq!(held_calls.write(&values, 40), 0);
                assert_eq!(held_calls.write(&values, 16), 13);
            }
        }
    }
}

#[test]
fn write_of_crossed_marks_with_3_to_6_gives_the_other() {
    let mut held_calls = HeldCalls::new();
    for header in crossed_headers() {
        let mut gives = |header: Header, question: u32| {
            write_gives(&mut held_calls, &header, &[1, 0], &[9], question);
            // with 7, and with 15, too
            write_gives(&mut held_calls, &header, &[], &[], question);
            write_gives(&mut held_calls, &header, &[64], &[9], question);
        };
        gives(
            Header {
                standard_premium: 0,
                ..header
            },
            3,
        );
        for conversion in [0, 999, 2_001, 2_048, u32::MAX] {
            gives(
                Header {
                    conversion,
                    ..header
                },
                4,
            );
        }
        for tax in [0, 9_999, 20_001, 32_768, u32::MAX] {
            gives(Header { tax, ..header }, 5);
        }
        for (maximum_mark, minimum_mark) in [
            (0, 6_001),
            (6_000, 6_001),
            (900, u32::MAX),
            (6_001, 6_002),
            (8_191, 8_192),
            (8_192, u32::MAX),
            // in order
            (6_001, 6_000),
            (u32::MAX, u32::MAX),
        ] {
            let header = Header {
                maximum_mark,
                minimum_mark,
                ..header
            };
            gives(header, 6);
        }
    }
}

#[test]
fn write_of_crossed_marks_and_no_counts_gives_18() {
    let mut held_calls = HeldCalls::new();
    for header in crossed_headers() {
        write_gives(&mut held_calls, &header, &[], &[], 18);
        // claims without counts fail 15 too
        write_gives(&mut held_calls, &header, &[], &[7], 18);
    }
    write_gives(&mut held_calls, &four_risks().header, &[], &[], 7);
}

#[test]
fn write_of_crossed_marks_with_15_gives_18() {
    let mut held_calls = HeldCalls::new();
    let values: [(&[u8], &[u32]); 9] = [
        // a count that does not fit
        (&[64], &[1; 64]),
        (&[255, 0], &[1; 255]),
        // a claim that does not fit
        (&[1], &[1_048_576]),
        (&[1, 1], &[5, u32::MAX]),
        // counts that do not add to the number of claims
        (&[1, 1], &[1]),
        (&[1], &[]),
        (&[0], &[1]),
        // more than 255 risks
        (&[0; 256], &[]),
        (&[0; 512], &[]),
    ];
    let sound = four_risks().header;
    for (counts, claims) in values {
        write_gives(&mut held_calls, &sound, counts, claims, 15);
        for header in crossed_headers() {
            write_gives(&mut held_calls, &header, counts, claims, 18);
        }
    }
    for header in past_their_widths(sound) {
        write_gives(&mut held_calls, &header, &[1, 0], &[9], 15);
    }
    for header in crossed_headers().into_iter().flat_map(past_their_widths) {
        write_gives(&mut held_calls, &header, &[1, 0], &[9], 18);
        write_gives(&mut held_calls, &header, &[], &[9], 18);
    }
}

// ---- what is accepted

/// What Rate gives on a file that it accepts.
fn rated(file: &[u8]) -> ((u32, u64, u64, u64), Vec<u32>) {
    let Rated { numbers, premiums } = calls::rated(file, BYTES).unwrap();
    (numbers, premiums)
}

#[test]
fn marks_in_order_are_rated_as_before() {
    let four_risks_rated = (
        (4, 6_700_000, 3_300_000, 33_600),
        vec![4_935, 7_245, 8_400, 13_020],
    );
    assert_eq!(rated(&four_risks().file()), four_risks_rated);
    // Equal marks 0.500: LG and LH are 5,000, SX 7,000 and SS 6,000, so M is 8,000,000 − 2,400,000
    // + 1,100,000; each K is 5,000, and each premium a fourth of 33,600.
    let equal = four_risks().with_marks(500, 500);
    assert_eq!(
        rated(&equal.file()),
        ((4, 6_700_000, 3_300_000, 33_600), vec![8_400; 4])
    );
    // Entry ratio marks 1.000 of a mean loss of 5,250: SX 6,750 and SS 6,750, so M is 5,600,000;
    // each K is 5,250, and the premiums are the same.
    let equal = with_marks(&four_risks(), 1, 1_000, 1_000);
    assert_eq!(
        rated(&equal.file()),
        ((4, 5_600_000, 3_300_000, 33_600), vec![8_400; 4])
    );
    // The ten risks of document 001.
    let ((_, basic, _, billed), premiums) = rated(&ten_risks().file());
    assert_eq!((basic, billed), (20_400_000, 95_800));
    assert_eq!(
        premiums,
        [4_640, 4_640, 7_240, 9_840, 9_840, 9_840, 9_840, 12_440, 13_740, 13_740]
    );
    // Table does not use the marks.
    for (maximum, minimum) in [(0, 0), (900, 200), (900, 900), (6_000, 0), (6_000, 6_000)] {
        let file = four_risks().with_marks(maximum, minimum).file();
        let (mut charge, mut savings) = (0, 0);
        assert_eq!(calls::table(&file, 100, &mut charge, &mut savings), 0);
        assert_eq!((charge, savings), (321, 321));
    }
}

/// Marks at corners and between them.
const MARKS: [u32; 26] = [
    0, 1, 2, 127, 199, 200, 201, 500, 511, 512, 899, 900, 901, 950, 999, 1_000, 1_001, 1_999,
    2_000, 3_333, 4_095, 4_096, 5_000, 5_998, 5_999, 6_000,
];

#[test]
fn each_pair_of_marks_of_either_kind() {
    let mut held_calls = HeldCalls::new();
    let mut groups = vec![four_risks(), one_claim_of_one(3), two_risks_of_ten(1_500)];
    for standard_premium in [1, 1_000] {
        let mut sample = four_risks();
        sample.header.standard_premium = standard_premium;
        groups.push(sample);
    }
    for sample in &groups {
        for (kind, maximum) in [0, 1]
            .into_iter()
            .flat_map(|kind| MARKS.map(|mark| (kind, mark)))
        {
            for minimum in MARKS {
                let sample = with_marks(sample, kind, maximum, minimum);
                let answers = answers(&mut held_calls, &sample);
                let crossed = minimum > maximum;
                assert_eq!(
                    answers.map(|answer| answer == 18),
                    [crossed; 5],
                    "{sample:?}"
                );
                if !crossed {
                    held_calls.write_back(&sample.file());
                }
            }
        }
    }
    // 26 × 25 ÷ 2 pairs are crossed, of each kind in each group.
    let crossed = 325 * 2 * groups.len() as u64;
    for call in [
        Call::Rate,
        Call::Guaranteed,
        Call::Table,
        Call::Read,
        Call::Write,
    ] {
        assert_eq!(held_calls.given.of(call, 18), crossed, "{call:?}");
    }
}

#[test]
fn generated_groups_with_their_marks_exchanged() {
    let mut held_calls = HeldCalls::new();
    let mut random = Random::new(2_018);
    let mut apart = [0; 2];
    for _ in 0..4_000 {
        let sample = random.group();
        let most = sample.claims().len();
        let Header {
            mark_kind,
            maximum_mark,
            minimum_mark,
            ..
        } = sample.header;
        let exchanged = sample.with_marks(minimum_mark, maximum_mark);
        let file = exchanged.file_of_any_marks();
        let answers = [
            held_calls.rate(&file, BYTES),
            held_calls.guaranteed(&file, &stock(), BYTES, ENTRIES),
            held_calls.table(&file, 100),
            held_calls.read(&file, 255, most, most),
            held_calls.write(&exchanged.values(), file.len()),
        ];
        let crossed = maximum_mark > minimum_mark;
        assert_eq!(answers.map(|answer| answer == 18), [crossed; 5]);
        apart[mark_kind as usize] += u32::from(crossed);
    }
    assert!(apart.iter().all(|&times| times > 1_000), "{apart:?}");
}
