//! Guaranteed cost beside the retro premium, job 1 of document 02, through the exported call: its
//! figures, its questions and their order, and what Rate gives beside it. Expected values are typed
//! from the papers or worked out beside the test.

use retro_tests::calls::{self, Numbers};
use retro_tests::generator::Random;
use retro_tests::held_calls::Call;
use retro_tests::samples::{
    four_risks, largest, one_claim_of_one, one_risk, schedule, stock, ten_risks, two_risks_of_ten,
};
use retro_tests::second_rater::Layer;
use retro_tests::{examples, refused_example, QUESTIONS_OF_A_FILE};
use std::fs;

// What everything lent holds before a call.
const BYTE: u8 = 0xee;
const ENTRY: i64 = 0x0bad_cafe_0bad_cafe;
const BEFORE: Numbers = Numbers {
    risks: 91,
    basic: 92,
    excess: 93,
    billed: 94,
    discount: 95,
    guaranteed: 96,
    difference: -97,
};

/// What Guaranteed gives.
#[derive(Debug, PartialEq)]
struct Given {
    numbers: Numbers,
    premiums: Vec<u32>,
    differences: Vec<i64>,
}

/// Guaranteed with buffers of so many bytes and so many differences. A refusal leaves everything
/// as it was; else what lies after the premiums and after the differences keeps its contents.
fn guaranteed(
    file: &[u8],
    layers: [Layer; 4],
    premiums_room: usize,
    differences_room: usize,
) -> Result<Given, u32> {
    let mut premiums = vec![BYTE; premiums_room];
    let mut differences = vec![ENTRY; differences_room];
    let mut numbers = BEFORE;
    let lent = &mut numbers.lend();
    let answer = calls::guaranteed(file, layers.into(), &mut premiums, &mut differences, lent);
    let filled = match answer {
        0 => numbers.risks as usize,
        _ => 0,
    };
    assert!(premiums[4 * filled..].iter().all(|&byte| byte == BYTE));
    assert!(differences[filled..].iter().all(|&entry| entry == ENTRY));
    if answer != 0 {
        assert_eq!(numbers, BEFORE);
        return Err(answer);
    }
    differences.truncate(filled);
    Ok(Given {
        numbers,
        premiums: calls::premiums_in(&premiums[..4 * filled]),
        differences,
    })
}

/// Guaranteed with more than enough room.
fn with_room(file: &[u8], layers: [Layer; 4]) -> Result<Given, u32> {
    guaranteed(file, layers, 1_029, 264)
}

/// The discount on a standard premium, of which guaranteed cost is the rest.
fn discount_on(standard_premium: u32, layers: [Layer; 4]) -> u32 {
    let given = guaranteed(&one_risk(standard_premium).file(), layers, 4, 1).unwrap();
    let Numbers {
        discount,
        guaranteed,
        ..
    } = given.numbers;
    assert_eq!(guaranteed, standard_premium - discount);
    // 1 dollar is billed.
    assert_eq!(given.differences, [1 - i64::from(guaranteed)]);
    assert_eq!(given.numbers.difference, 1 - i64::from(guaranteed));
    discount
}

/// A schedule with one rate changed.
fn with_rate(mut layers: [Layer; 4], row: usize, rate: u32) -> [Layer; 4] {
    layers[row].rate = rate;
    layers
}

/// A schedule with one width changed.
fn with_width(mut layers: [Layer; 4], row: usize, width: u32) -> [Layer; 4] {
    layers[row].width = width;
    layers
}

// ---- the figures

#[test]
fn the_stock_schedule_on_125_000() {
    let given = with_room(&one_risk(125_000).file(), stock()).unwrap();
    assert_eq!(given.numbers.discount, 13_505);
    assert_eq!(given.numbers.guaranteed, 111_495);
}

#[test]
fn four_risks_under_the_stock_schedule() {
    // 5,000 × 0.109 = 545
    let given = guaranteed(&four_risks().file(), stock(), 16, 4).unwrap();
    assert_eq!(
        given.numbers,
        Numbers {
            risks: 4,
            basic: 6_700_000,
            excess: 3_300_000,
            billed: 33_600,
            discount: 545,
            guaranteed: 9_455,
            difference: -4_220,
        }
    );
    assert_eq!(given.premiums, [4_935, 7_245, 8_400, 13_020]);
    assert_eq!(given.differences, [-4_520, -2_210, -1_055, 3_565]);
    // Longer buffers give the same and keep what lies after.
    assert_eq!(with_room(&four_risks().file(), stock()), Ok(given));
}

#[test]
fn ten_risks_without_discount() {
    // Premiums before taxes of document 001, each less the standard premium of 10,000; 95,800 less
    // 100,000 in all.
    let none = stock().map(|layer| Layer { rate: 0, ..layer });
    let given = guaranteed(&ten_risks().file(), none, 40, 10).unwrap();
    assert_eq!(
        given.differences,
        [-5_360, -5_360, -2_760, -160, -160, -160, -160, 2_440, 3_740, 3_740]
    );
    assert_eq!(
        (given.numbers.discount, given.numbers.guaranteed),
        (0, 10_000)
    );
    assert_eq!(given.numbers.difference, -4_200);
}

#[test]
fn the_discount_is_rounded_once() {
    // 0.250 + 0.250 is an exact half; each layer's own nearest dollar is 0.
    assert_eq!(
        discount_on(2, schedule([(1, 250), (1, 250), (1, 0), (0, 0)])),
        1
    );
    // 0.500 + 0.500 is 1; each layer's own nearest dollar is 1.
    assert_eq!(
        discount_on(2, schedule([(1, 500), (1, 500), (1, 0), (0, 0)])),
        1
    );
    // 0.499 four times is 1.996.
    assert_eq!(
        discount_on(4, schedule([(1, 499), (1, 499), (1, 499), (0, 499)])),
        2
    );
}

#[test]
fn an_exact_half_is_rounded_upward() {
    let all_in_the_first = |rate| schedule([(u32::MAX, rate), (1, 0), (1, 0), (0, 0)]);
    // 0.499, 0.500 and 0.501; 1.500; 2.500, of which the even dollar is 2; 2,097,151.500
    assert_eq!(discount_on(1, all_in_the_first(499)), 0);
    assert_eq!(discount_on(1, all_in_the_first(500)), 1);
    assert_eq!(discount_on(1, all_in_the_first(501)), 1);
    assert_eq!(discount_on(3, all_in_the_first(500)), 2);
    assert_eq!(discount_on(5, all_in_the_first(500)), 3);
    assert_eq!(discount_on(4_194_303, all_in_the_first(500)), 2_097_152);
    // Guaranteed cost is not rounded again: 1 less 1, not the nearest dollar to 0.500.
    let given = with_room(&one_risk(1).file(), all_in_the_first(500)).unwrap();
    assert_eq!(given.numbers.guaranteed, 0);
}

#[test]
fn each_layer_has_its_own_dollars() {
    // P 10,000 has 1,000, 2,000, 3,000 and 4,000 dollars in the layers.
    let widths = schedule([(1_000, 0), (2_000, 0), (3_000, 0), (7, 0)]);
    for (row, discount) in [70, 140, 210, 280].into_iter().enumerate() {
        assert_eq!(discount_on(10_000, with_rate(widths, row, 70)), discount);
    }
    // 10 + 40 + 90 + 160
    let layers = schedule([(1_000, 10), (2_000, 20), (3_000, 30), (7, 40)]);
    assert_eq!(discount_on(10_000, layers), 300);
}

#[test]
fn the_ends_of_the_layers() {
    // 0.109 a dollar after 5,000, 0.126 after 100,000, where the discount is 10,355, and 0.144
    // after 500,000, where it is 60,755
    for (standard_premium, discount) in [
        (1, 0),
        (5_000, 0),
        (5_004, 0),
        (5_005, 1),
        (99_999, 10_355),
        (100_000, 10_355),
        (100_003, 10_355),
        (100_004, 10_356),
        (500_000, 60_755),
        (500_003, 60_755),
        (500_004, 60_756),
        // 60,755 + 531,979.632
        (4_194_303, 592_735),
    ] {
        assert_eq!(discount_on(standard_premium, stock()), discount);
    }
}

#[test]
fn the_widest_layers() {
    // All of P lies in the first layer: 4,194,303 × 0.007 = 29,360.121
    let widest = schedule([
        (u32::MAX, 7),
        (u32::MAX, 1_000),
        (u32::MAX, 1_000),
        (u32::MAX, 1_000),
    ]);
    assert_eq!(discount_on(4_194_303, widest), 29_360);
    // The first two widths add to 2 to the power 32: 4,194,302 dollars at 0.100 in the second.
    let layers = schedule([(1, 0), (u32::MAX, 100), (u32::MAX, 1_000), (0, 1_000)]);
    assert_eq!(discount_on(4_194_303, layers), 419_430);
    // The first three add to one more: 1 + 0.500 + 1,000 × 0.010 = 11.500
    let layers = schedule([(1, 1_000), (1, 500), (u32::MAX, 10), (0, 1_000)]);
    assert_eq!(discount_on(1_002, layers), 12);
}

#[test]
fn the_last_width_is_not_looked_at() {
    for standard_premium in [1, 5_000, 125_000, 500_000, 500_001, 4_194_303] {
        let file = one_risk(standard_premium).file();
        let given = with_room(&file, with_width(stock(), 3, 0));
        assert!(given.is_ok());
        for width in [1, 2, 500_000, 1 << 31, u32::MAX] {
            assert_eq!(with_room(&file, with_width(stock(), 3, width)), given);
        }
    }
}

#[test]
fn the_largest_group() {
    // All of P is discount, and each premium is 2 × 64 × 1,048,575.
    let all = stock().map(|layer| Layer {
        rate: 1_000,
        ..layer
    });
    let given = guaranteed(&largest().file(), all, 1_020, 255).unwrap();
    assert_eq!(given.numbers.discount, 4_194_303);
    assert_eq!(given.numbers.guaranteed, 0);
    assert_eq!(given.differences, [134_217_600; 255]);
    assert_eq!(given.numbers.difference, 34_225_488_000);
}

#[test]
fn a_larger_difference() {
    // All losses of ten risks are one risk's, 63 × 1,048,575. The other premiums are the basic
    // premium alone, and guaranteed cost is 0.
    let all = stock().map(|layer| Layer {
        rate: 1_000,
        ..layer
    });
    let mut sample = largest();
    sample.header.loss_limit = 0;
    sample.header.conversion = 1_931;
    sample.header.mark_kind = 1;
    sample.header.maximum_mark = 6_000;
    sample.header.minimum_mark = 0;
    sample.risks = vec![vec![]; 10];
    sample.risks[0] = vec![1_048_575; 63];
    let given = guaranteed(&sample.file(), all, 40, 10).unwrap();
    assert_eq!(given.numbers.guaranteed, 0);
    assert_eq!(given.differences[0], 153_076_473);
    assert_eq!(
        given.differences.iter().sum::<i64>(),
        given.numbers.difference
    );
}

#[test]
fn the_least_differences() {
    // Nothing is billed, and there is no discount.
    let none = stock().map(|layer| Layer { rate: 0, ..layer });
    let mut sample = one_claim_of_one(255);
    sample.header.standard_premium = 4_194_303;
    let given = guaranteed(&sample.file(), none, 1_020, 255).unwrap();
    assert_eq!(given.premiums, [0; 255]);
    assert_eq!(given.numbers.guaranteed, 4_194_303);
    assert_eq!(given.differences, [-4_194_303; 255]);
    assert_eq!(given.numbers.difference, -1_069_547_265);
}

// ---- the questions

/// Schedules with a rate above 1,000 in each row, sound else.
fn refused_16() -> Vec<[Layer; 4]> {
    let rates = [1_001, 1_024, 65_536, 1 << 31, u32::MAX];
    (0..4)
        .flat_map(|row| rates.map(|rate| with_rate(stock(), row, rate)))
        .collect()
}

/// Schedules with a width of 0 in each of the first three rows, sound else.
fn refused_17() -> Vec<[Layer; 4]> {
    (0..3)
        .flat_map(|row| {
            [0, 1, u32::MAX].map(|last| with_width(with_width(stock(), row, 0), 3, last))
        })
        .collect()
}

#[test]
fn a_rate_above_1_000_gives_16() {
    let file = four_risks().file();
    for layers in refused_16() {
        assert_eq!(with_room(&file, layers), Err(16));
    }
    for row in 0..4 {
        assert!(with_room(&file, with_rate(stock(), row, 1_000)).is_ok());
    }
    // Layers that P does not reach are asked too, and so is a discount that is not above P: 1.001
    // is nearest 1.
    assert_eq!(
        with_room(&one_risk(1).file(), with_rate(stock(), 3, 1_001)),
        Err(16)
    );
    let layers = schedule([(1, 1_001), (1, 0), (1, 0), (0, 0)]);
    assert_eq!(with_room(&one_risk(1).file(), layers), Err(16));
}

#[test]
fn one_of_the_first_three_widths_0_gives_17() {
    let file = four_risks().file();
    for layers in refused_17() {
        assert_eq!(with_room(&file, layers), Err(17));
    }
    assert_eq!(with_room(&file, schedule([(0, 0); 4])), Err(17));
    for row in 0..3 {
        assert!(with_room(&file, with_width(stock(), row, 1)).is_ok());
    }
    // Layers that P does not reach are asked too.
    let layers = schedule([(1, 0), (1, 0), (0, 0), (1, 0)]);
    assert_eq!(with_room(&one_risk(1).file(), layers), Err(17));
}

#[test]
fn either_buffer_too_short_gives_13() {
    let file = four_risks().file();
    for (premiums_room, differences_room, enough) in [
        (16, 4, true),
        (17, 4, true),
        (16, 5, true),
        (15, 4, false),
        (0, 4, false),
        (16, 3, false),
        (16, 0, false),
        (15, 3, false),
        (0, 0, false),
        // The length of one is none of the other.
        (4, 16, false),
        (15, 264, false),
        (1_029, 3, false),
    ] {
        let given = guaranteed(&file, stock(), premiums_room, differences_room);
        assert_eq!(given.is_ok(), enough);
        assert!(enough || given == Err(13));
    }
    let file = largest().file();
    assert_eq!(guaranteed(&file, stock(), 1_019, 255), Err(13));
    assert_eq!(guaranteed(&file, stock(), 1_020, 254), Err(13));
    assert!(guaranteed(&file, stock(), 1_020, 255).is_ok());
}

#[test]
fn questions_12_and_13_before_16_and_17() {
    let negative = two_risks_of_ten(2_000).file();
    let file = four_risks().file();
    for layers in [refused_16(), refused_17(), vec![stock()]].concat() {
        for (premiums_room, differences_room) in [(8, 2), (7, 2), (8, 1), (0, 0)] {
            let given = guaranteed(&negative, layers, premiums_room, differences_room);
            assert_eq!(given, Err(12));
        }
        // of the premiums alone, of the differences alone, and of both
        for (premiums_room, differences_room) in [(15, 4), (16, 3), (15, 3)] {
            let given = guaranteed(&file, layers, premiums_room, differences_room);
            assert_eq!(given, Err(13));
        }
    }
}

#[test]
fn question_16_before_17() {
    let file = four_risks().file();
    for rate_row in 0..4 {
        for width_row in 0..3 {
            let layers = with_width(stock(), width_row, 0);
            assert_eq!(
                with_room(&file, with_rate(layers, rate_row, 1_001)),
                Err(16)
            );
            assert_eq!(
                with_room(&file, with_rate(layers, rate_row, 1_000)),
                Err(17)
            );
        }
    }
}

#[test]
fn nothing_is_stored_before_17_has_passed() {
    // The file is rated and both buffers are just enough: the last question alone is answered No.
    let file = four_risks().file();
    for row in 0..3 {
        let layers = with_width(stock(), row, 0).into();
        let (mut premiums, mut differences, mut numbers) = ([BYTE; 16], [ENTRY; 4], BEFORE);
        let lent = &mut numbers.lend();
        let answer = calls::guaranteed(&file, layers, &mut premiums, &mut differences, lent);
        assert_eq!(answer, 17);
        assert_eq!(premiums, [BYTE; 16]);
        assert_eq!(differences, [ENTRY; 4]);
        assert_eq!(numbers, BEFORE);
    }
}

#[test]
fn fifteen_bytes_give_1_whatever_the_schedule() {
    let file = four_risks().file();
    for layers in [refused_16(), refused_17(), vec![stock()]].concat() {
        assert_eq!(with_room(&file[..15], layers), Err(1));
        assert_eq!(guaranteed(&file[..15], layers, 0, 0), Err(1));
        assert_eq!(with_room(&[], layers), Err(1));
    }
}

#[test]
fn each_file_that_rate_refuses_keeps_its_number() {
    for question in QUESTIONS_OF_A_FILE {
        let file = fs::read(refused_example(question)).unwrap();
        for layers in [refused_16(), refused_17(), vec![stock()]].concat() {
            assert_eq!(with_room(&file, layers), Err(question));
            assert_eq!(guaranteed(&file, layers, 0, 0), Err(question));
        }
    }
}

// ---- what Rate gives

/// Holds Guaranteed to Rate on one file with the same buffer for the premiums: Rate's refusal, or
/// its numbers and its bytes. Gives the answer.
fn compare_with_rate(file: &[u8], premiums_room: usize) -> u32 {
    let mut rated = Numbers::default();
    let mut rated_premiums = vec![BYTE; premiums_room];
    let lent = rated.lend();
    let answer = calls::rate(
        file,
        &mut rated_premiums,
        lent.risks,
        lent.basic,
        lent.excess,
        lent.billed,
    );
    let mut numbers = Numbers::default();
    let mut premiums = vec![BYTE; premiums_room];
    let (layers, lent) = (stock().into(), &mut numbers.lend());
    let given = calls::guaranteed(file, layers, &mut premiums, &mut [ENTRY; 255], lent);
    assert_eq!(given, answer);
    assert_eq!(premiums, rated_premiums);
    let of_rate = Numbers {
        discount: 0,
        guaranteed: 0,
        difference: 0,
        ..numbers
    };
    assert_eq!(of_rate, rated);
    answer
}

#[test]
fn the_rest_is_what_rate_gives() {
    for entry in fs::read_dir(examples()).unwrap() {
        let path = entry.unwrap().path();
        if path
            .extension()
            .is_some_and(|extension| extension == "group")
        {
            compare_with_rate(&fs::read(path).unwrap(), 1_020);
        }
    }
    let mut random = Random::new(1_986);
    let mut given = [0; 20];
    for _ in 0..20_000 {
        let quote = random.quote();
        given[compare_with_rate(&quote.file, quote.premiums_room) as usize] += 1;
    }
    for &answer in Call::Rate.answers() {
        assert!(given[answer as usize] >= 20, "{answer}: {given:?}");
    }
}
