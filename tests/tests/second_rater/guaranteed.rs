//! Guaranteed cost beside the retro premium: the worked figures of document
//! 02's job 1, its questions and their order, and generated schedules.

use retro_tests::generator::{
    first_bits, set, Random, CONVERSION, EDITION, MINIMUM_MARK, RISKS, STANDARD_PREMIUM, TAX,
};
use retro_tests::samples::{
    crossed_marks, four_risks, largest, one_claim_of_one, one_risk, rated_groups,
    rated_groups_of_edition_2, scaffold, schedule, stock, ten_risks, two_risks_of_ten, AMPLE,
};
use retro_tests::second_rater::{guaranteed, rate, Guaranteed, Layer};

/// The largest standard premium.
const LARGEST_PREMIUM: u32 = (1 << 22) - 1;

/// The discount on P. Guaranteed cost is the rest of P.
fn discount_on(standard_premium: u32, schedule: &[Layer; 4]) -> u128 {
    let given = guaranteed(&one_risk(standard_premium).file(), schedule, 4, 1).unwrap();
    assert_eq!(
        given.discount + given.guaranteed,
        u128::from(standard_premium)
    );
    given.discount
}

/// The call with enough room in both buffers.
fn with_ample_room(file: &[u8], schedule: &[Layer; 4]) -> Result<Guaranteed, u32> {
    guaranteed(file, schedule, AMPLE, AMPLE)
}

// ---------------------------------------------------------------------------
// Worked figures
// ---------------------------------------------------------------------------

#[test]
fn stock_schedule_on_125_000() {
    // 5,000 × 0 + 95,000 × 0.109 + 25,000 × 0.126 = 10,355 + 3,150.
    let given = guaranteed(&one_risk(125_000).file(), &stock(), 4, 1).unwrap();
    assert_eq!(given.discount, 13_505);
    assert_eq!(given.guaranteed, 111_495);
    assert_eq!(given.rated.premiums, [1]);
    assert_eq!(given.differences, [-111_494]);
    assert_eq!(given.difference, -111_494);

    // The same P in a group of ten with loss ratio marks 0.080 and 0.008: LG is
    // 10,000, LH 1,000, SX 1,000, SS 0 and M 35,800,000 − 300 × 60,000 +
    // 1,300 × 1,000 = 19,100,000, so each premium is 1,910 + 1.3 × K.
    let mut sample = ten_risks();
    sample.header.standard_premium = 125_000;
    sample.header.maximum_mark = 80;
    sample.header.minimum_mark = 8;
    let given = guaranteed(&sample.file(), &stock(), 40, 10).unwrap();
    assert_eq!(given.discount, 13_505);
    assert_eq!(given.guaranteed, 111_495);
    assert_eq!(
        given.rated.premiums,
        [3_210, 4_510, 7_110, 9_710, 9_710, 9_710, 9_710, 12_310, 14_910, 14_910]
    );
    assert_eq!(
        given.differences,
        [
            -108_285, -106_985, -104_385, -101_785, -101_785, -101_785, -101_785, -99_185, -96_585,
            -96_585
        ]
    );
    // 95,800 − 1,114,950.
    assert_eq!(given.difference, -1_019_150);
}

#[test]
fn stock_schedule_at_the_ends_of_its_layers() {
    // Up to 5,000 nothing; then 0.109 a dollar, which is 0.436 for four
    // dollars and 0.545 for five.
    for (standard_premium, discount) in [(1, 0), (4_999, 0), (5_000, 0), (5_001, 0)] {
        assert_eq!(discount_on(standard_premium, &stock()), discount);
    }
    assert_eq!(discount_on(5_004, &stock()), 0);
    assert_eq!(discount_on(5_005, &stock()), 1);
    // 94,999 × 0.109 = 10,354.891; 95,000 × 0.109 = 10,355.
    assert_eq!(discount_on(99_999, &stock()), 10_355);
    assert_eq!(discount_on(100_000, &stock()), 10_355);
    // Then 0.126 a dollar: 0.378 for three dollars, 0.504 for four.
    assert_eq!(discount_on(100_003, &stock()), 10_355);
    assert_eq!(discount_on(100_004, &stock()), 10_356);
    // 10,355 + 400,000 × 0.126 = 10,355 + 50,400.
    assert_eq!(discount_on(500_000, &stock()), 60_755);
    // Then 0.144 a dollar: 0.432 for three dollars, 0.576 for four.
    assert_eq!(discount_on(500_003, &stock()), 60_755);
    assert_eq!(discount_on(500_004, &stock()), 60_756);
    // 60,755 + 3,694,303 × 0.144 = 60,755 + 531,979.632.
    assert_eq!(discount_on(LARGEST_PREMIUM, &stock()), 592_735);
}

#[test]
fn four_risks_under_the_stock_schedule() {
    let file = four_risks().file();
    let given = guaranteed(&file, &stock(), 16, 4).unwrap();
    // P 10,000: 5,000 × 0 + 5,000 × 0.109 = 545.
    assert_eq!(given.discount, 545);
    assert_eq!(given.guaranteed, 9_455);
    // 4,935 − 9,455, 7,245 − 9,455, 8,400 − 9,455 and 13,020 − 9,455.
    assert_eq!(given.rated.premiums, [4_935, 7_245, 8_400, 13_020]);
    assert_eq!(given.differences, [-4_520, -2_210, -1_055, 3_565]);
    // −4,520 − 2,210 − 1,055 + 3,565; also 33,600 − 4 × 9,455.
    assert_eq!(given.difference, -4_220);
    assert_eq!(given.rated, rate(&file, 16).unwrap());
}

#[test]
fn four_risks_without_discount_and_with_all_of_it() {
    let file = four_risks().file();
    let none = schedule([(5_000, 0), (95_000, 0), (400_000, 0), (0, 0)]);
    let given = with_ample_room(&file, &none).unwrap();
    assert_eq!(given.discount, 0);
    assert_eq!(given.guaranteed, 10_000);
    assert_eq!(given.differences, [-5_065, -2_755, -1_600, 3_020]);
    assert_eq!(given.difference, -6_400);

    let all = schedule([(1, 1_000), (1, 1_000), (1, 1_000), (0, 1_000)]);
    let given = with_ample_room(&file, &all).unwrap();
    assert_eq!(given.discount, 10_000);
    assert_eq!(given.guaranteed, 0);
    assert_eq!(given.differences, [4_935, 7_245, 8_400, 13_020]);
    assert_eq!(given.difference, 33_600);
}

#[test]
fn each_layer_has_its_own_rate() {
    // P 10,000 has 1,000, 2,000, 3,000 and 4,000 in the four layers.
    let rows = [1_000, 2_000, 3_000, 4_000];
    for k in 0..4 {
        let mut layers = rows.map(|width| Layer { width, rate: 0 });
        layers[k].rate = 70;
        // 0.070 of 1,000, 2,000, 3,000 or 4,000.
        assert_eq!(discount_on(10_000, &layers), [70, 140, 210, 280][k]);
    }
    // 10 + 40 + 90 + 160.
    let layers = schedule([(1_000, 10), (2_000, 20), (3_000, 30), (4_000, 40)]);
    assert_eq!(discount_on(10_000, &layers), 300);
    // The rows the other way: 4,000 × 0.040 + 3,000 × 0.030 + 2,000 × 0.020
    // and 1,000 × 0.010 give the same; with the rates kept in place they give
    // 40 + 60 + 60 + 40.
    let layers = schedule([(4_000, 40), (3_000, 30), (2_000, 20), (1_000, 10)]);
    assert_eq!(discount_on(10_000, &layers), 300);
    let layers = schedule([(4_000, 10), (3_000, 20), (2_000, 30), (1_000, 40)]);
    assert_eq!(discount_on(10_000, &layers), 200);
}

#[test]
fn discount_is_rounded_once() {
    // 0.25 + 0.25 is an exact half. Rounded in each layer it would be 0.
    let quarters = schedule([(1, 250), (1, 250), (1, 0), (0, 0)]);
    assert_eq!(discount_on(2, &quarters), 1);
    // 0.5 + 0.5 is 1. Rounded in each layer it would be 2.
    let halves = schedule([(1, 500), (1, 500), (1, 0), (0, 0)]);
    assert_eq!(discount_on(2, &halves), 1);
    // 4 × 0.499 = 1.996. Rounded in each layer it would be 0.
    let below = schedule([(1, 499), (1, 499), (1, 499), (0, 499)]);
    assert_eq!(discount_on(4, &below), 2);
    // 4 × 0.125 is an exact half; 3 × 0.125 is 0.375.
    let eighths = schedule([(1, 125), (1, 125), (1, 125), (0, 125)]);
    assert_eq!(discount_on(4, &eighths), 1);
    assert_eq!(discount_on(3, &eighths), 0);
}

#[test]
fn exact_halves_are_rounded_upward() {
    for (standard_premium, rate, discount) in [
        (1, 499, 0),
        (1, 500, 1),
        (1, 501, 1),
        (3, 500, 2),
        // 2.5: to the even dollar it would be 2.
        (5, 500, 3),
        (20, 125, 3),
        (2_500, 1, 3),
        (499, 1, 0),
        (500, 1, 1),
        (501, 1, 1),
        (1_499, 1, 1),
        (1_500, 1, 2),
        // 2,097,151.5.
        (LARGEST_PREMIUM, 500, 2_097_152),
    ] {
        let first = schedule([(u32::MAX, rate), (1, 0), (1, 0), (0, 0)]);
        assert_eq!(discount_on(standard_premium, &first), discount);
        // The same rate in every layer.
        let every = schedule([(1, rate), (1, rate), (1, rate), (0, rate)]);
        assert_eq!(discount_on(standard_premium, &every), discount);
    }
    // Guaranteed cost is P less the rounded discount: 1 − 1, not 0.5 rounded.
    let half = schedule([(1, 500), (1, 0), (1, 0), (0, 0)]);
    let given = with_ample_room(&one_risk(1).file(), &half).unwrap();
    assert_eq!(given.guaranteed, 0);
    assert_eq!(given.differences, [1]);
}

#[test]
fn widest_layers() {
    let widest = u32::MAX;
    assert_eq!(widest, 4_294_967_295);
    // All of P is in the first layer: 4,194,303 × 0.007 = 29,360.121.
    let layers = schedule([(widest, 7), (widest, 1_000), (widest, 1_000), (widest, 999)]);
    assert_eq!(discount_on(LARGEST_PREMIUM, &layers), 29_360);
    let layers = schedule([
        (widest, 0),
        (widest, 1_000),
        (widest, 1_000),
        (widest, 1_000),
    ]);
    assert_eq!(discount_on(LARGEST_PREMIUM, &layers), 0);
    let layers = schedule([(widest, 1_000); 4]);
    assert_eq!(
        discount_on(LARGEST_PREMIUM, &layers),
        u128::from(LARGEST_PREMIUM)
    );

    // The first two widths add to 4,294,967,296, one past 32 bits. In the
    // second layer are 4,194,302 dollars at 0.100: 419,430.2.
    let layers = schedule([(1, 0), (widest, 100), (widest, 1_000), (0, 1_000)]);
    assert_eq!(discount_on(LARGEST_PREMIUM, &layers), 419_430);
    let layers = schedule([(widest, 100), (1, 1_000), (1, 1_000), (0, 1_000)]);
    assert_eq!(discount_on(1_000, &layers), 100);
    // The first three add to 4,294,967,297: 1 + 0.5 + 1,000 × 0.010 = 11.5.
    let layers = schedule([(1, 1_000), (1, 500), (widest, 10), (0, 1_000)]);
    assert_eq!(discount_on(1_002, &layers), 12);
}

#[test]
fn width_of_the_last_row_is_not_looked_at() {
    for standard_premium in [1, 5_000, 125_000, 500_000, 500_001, LARGEST_PREMIUM] {
        let file = one_risk(standard_premium).file();
        let given = with_ample_room(&file, &stock());
        assert!(given.is_ok());
        for width in [1, 2, 144, 1_001, 500_000, 1 << 31, u32::MAX] {
            let mut layers = stock();
            layers[3].width = width;
            assert_eq!(with_ample_room(&file, &layers), given);
        }
    }
}

#[test]
fn largest_group_against_both_ends_of_guaranteed_cost() {
    // Every premium is 2 × 64 × 1,048,575 = 134,217,600.
    let file = largest().file();
    let all = schedule([(1, 1_000), (1, 1_000), (1, 1_000), (0, 1_000)]);
    let given = guaranteed(&file, &all, 4 * 255, 255).unwrap();
    assert_eq!(given.discount, u128::from(LARGEST_PREMIUM));
    assert_eq!(given.guaranteed, 0);
    assert_eq!(given.differences, vec![134_217_600; 255]);
    // 255 × 134,217,600, past 32 bits.
    assert_eq!(given.difference, 34_225_488_000);

    // Nothing billed and no discount: each difference is −4,194,303.
    let mut sample = one_claim_of_one(255);
    sample.header.standard_premium = LARGEST_PREMIUM;
    let none = schedule([(1, 0), (1, 0), (1, 0), (0, 0)]);
    let given = guaranteed(&sample.file(), &none, 4 * 255, 255).unwrap();
    assert_eq!(given.rated.billed, 0);
    assert_eq!(given.guaranteed, u128::from(LARGEST_PREMIUM));
    assert_eq!(given.differences, vec![-4_194_303; 255]);
    // 255 × 4,194,303.
    assert_eq!(given.difference, -1_069_547_265);
}

// ---------------------------------------------------------------------------
// The questions
// ---------------------------------------------------------------------------

/// Schedules with one rate of 1,001 or more, in each of the four rows.
fn schedules_refused_16() -> Vec<[Layer; 4]> {
    let mut schedules = Vec::new();
    for k in 0..4 {
        for rate in [1_001, 1_024, 65_536, 1 << 31, u32::MAX] {
            let mut layers = stock();
            layers[k].rate = rate;
            schedules.push(layers);
        }
    }
    schedules
}

/// Schedules with one width of 0, in each of the first three rows.
fn schedules_refused_17() -> Vec<[Layer; 4]> {
    let mut schedules = Vec::new();
    for k in 0..3 {
        for last in [0, 1, u32::MAX] {
            let mut layers = stock();
            layers[k].width = 0;
            layers[3].width = last;
            schedules.push(layers);
        }
    }
    schedules
}

/// Files that Rate refuses whatever the buffer, with their numbers.
fn files_refused_by_rate() -> Vec<(u32, Vec<u8>)> {
    let four = four_risks().file();
    let with = |field, value| {
        let mut file = four.clone();
        set(&mut file, field, value);
        file
    };
    let mut longer = four.clone();
    longer.push(0);
    let mut filled = one_claim_of_one(3).file();
    *filled.last_mut().unwrap() |= 1;
    let mut joined = scaffold().file();
    let bits = first_bits(&joined);
    set(&mut joined, bits[0], 1);
    let mut no_losses = four_risks();
    no_losses.risks = vec![vec![0]; 4];
    vec![
        (1, four[..15].to_vec()),
        (2, with(EDITION, 3)),
        (3, with(STANDARD_PREMIUM, 0)),
        (4, with(CONVERSION, 999)),
        (5, with(TAX, 9_999)),
        (6, with(MINIMUM_MARK, 6_001)),
        (18, with(MINIMUM_MARK, 901)),
        (18, crossed_marks(1).file_of_any_marks()),
        (18, crossed_marks(1_000).file_of_any_marks()),
        (7, with(RISKS, 0)),
        (8, longer),
        (9, filled),
        (19, joined),
        (10, no_losses.file()),
        (12, two_risks_of_ten(2_000).file()),
    ]
}

#[test]
fn either_short_buffer_gives_13() {
    let file = four_risks().file();
    assert_eq!(guaranteed(&file, &stock(), 15, 4), Err(13));
    assert_eq!(guaranteed(&file, &stock(), 16, 3), Err(13));
    assert_eq!(guaranteed(&file, &stock(), 0, AMPLE), Err(13));
    assert_eq!(guaranteed(&file, &stock(), AMPLE, 0), Err(13));
    assert_eq!(guaranteed(&file, &stock(), 0, 0), Err(13));
    assert!(guaranteed(&file, &stock(), 16, 4).is_ok());
    // The room of one buffer is no room of the other.
    assert_eq!(guaranteed(&file, &stock(), 4, 16), Err(13));

    let file = largest().file();
    assert_eq!(guaranteed(&file, &stock(), 1_019, 255), Err(13));
    assert_eq!(guaranteed(&file, &stock(), 1_020, 254), Err(13));
    assert!(guaranteed(&file, &stock(), 1_020, 255).is_ok());
}

#[test]
fn more_room_changes_nothing() {
    let file = four_risks().file();
    let given = guaranteed(&file, &stock(), 16, 4).unwrap();
    assert_eq!(given.differences.len(), 4);
    assert_eq!(guaranteed(&file, &stock(), 17, 4).unwrap(), given);
    assert_eq!(guaranteed(&file, &stock(), 16, 5).unwrap(), given);
    assert_eq!(
        guaranteed(&file, &stock(), usize::MAX, usize::MAX).unwrap(),
        given
    );
}

#[test]
fn rate_above_1_000_gives_16() {
    let file = four_risks().file();
    for layers in schedules_refused_16() {
        assert_eq!(guaranteed(&file, &layers, 16, 4), Err(16));
    }
    // A rate of 1,000 passes in each row and in all of them.
    for k in 0..4 {
        let mut layers = stock();
        layers[k].rate = 1_000;
        assert!(guaranteed(&file, &layers, 16, 4).is_ok());
    }
    let all = stock().map(|layer| Layer {
        rate: 1_000,
        ..layer
    });
    assert!(guaranteed(&file, &all, 16, 4).is_ok());
    // It is asked of layers that P does not reach: P 10,000 ends in the second.
    let mut layers = stock();
    layers[3].rate = 1_001;
    assert_eq!(with_ample_room(&file, &layers), Err(16));
    // And where the discount would still be no more than P: 1.001 is nearest 1.
    let above = schedule([(1, 1_001), (1, 0), (1, 0), (0, 0)]);
    assert_eq!(with_ample_room(&one_risk(1).file(), &above), Err(16));
}

#[test]
fn width_of_0_in_the_first_three_gives_17() {
    let file = four_risks().file();
    for layers in schedules_refused_17() {
        assert_eq!(guaranteed(&file, &layers, 16, 4), Err(17));
    }
    // All three of them.
    let layers = schedule([(0, 0), (0, 109), (0, 126), (1, 144)]);
    assert_eq!(guaranteed(&file, &layers, 16, 4), Err(17));
    // It is asked of layers that P does not reach: P 1 ends in the first.
    let layers = schedule([(1, 0), (1, 0), (0, 0), (1, 0)]);
    assert_eq!(with_ample_room(&one_risk(1).file(), &layers), Err(17));
    // A width of 1 passes in each, and one of 0 in the last row.
    let layers = schedule([(1, 0), (1, 109), (1, 126), (0, 144)]);
    assert!(guaranteed(&file, &layers, 16, 4).is_ok());
}

#[test]
fn files_refused_by_rate_keep_their_number() {
    let mut schedules = vec![stock()];
    schedules.extend(schedules_refused_16());
    schedules.extend(schedules_refused_17());
    // A rate and a width at once.
    schedules.push(schedule([(0, 0), (1, 0), (1, 0), (0, 1_001)]));
    for (k, file) in files_refused_by_rate() {
        assert_eq!(rate(&file, AMPLE), Err(k));
        for layers in &schedules {
            assert_eq!(guaranteed(&file, layers, AMPLE, AMPLE), Err(k));
            assert_eq!(guaranteed(&file, layers, 0, AMPLE), Err(k));
            assert_eq!(guaranteed(&file, layers, AMPLE, 0), Err(k));
            assert_eq!(guaranteed(&file, layers, 0, 0), Err(k));
        }
    }
}

#[test]
fn negative_basic_is_asked_before_13_16_and_17() {
    let file = two_risks_of_ten(2_000).file();
    assert_eq!(guaranteed(&file, &stock(), 8, 2), Err(12));
    // With 13, of either buffer.
    assert_eq!(guaranteed(&file, &stock(), 7, 2), Err(12));
    assert_eq!(guaranteed(&file, &stock(), 8, 1), Err(12));
    // With 16.
    for layers in schedules_refused_16() {
        assert_eq!(guaranteed(&file, &layers, 8, 2), Err(12));
    }
    // With 17.
    for layers in schedules_refused_17() {
        assert_eq!(guaranteed(&file, &layers, 8, 2), Err(12));
    }
}

#[test]
fn buffers_are_asked_before_16_and_17() {
    let file = four_risks().file();
    for layers in [schedules_refused_16(), schedules_refused_17()].concat() {
        assert_eq!(guaranteed(&file, &layers, 15, 4), Err(13));
        assert_eq!(guaranteed(&file, &layers, 16, 3), Err(13));
        assert_eq!(guaranteed(&file, &layers, 15, 3), Err(13));
    }
}

#[test]
fn rates_are_asked_before_widths() {
    let file = four_risks().file();
    for with_rate in 0..4 {
        for with_width in 0..3 {
            let mut layers = stock();
            layers[with_rate].rate = 1_001;
            layers[with_width].width = 0;
            assert_eq!(guaranteed(&file, &layers, 16, 4), Err(16));
            layers[with_rate].rate = 1_000;
            assert_eq!(guaranteed(&file, &layers, 16, 4), Err(17));
        }
    }
}

// ---------------------------------------------------------------------------
// Generated schedules, premiums and groups
// ---------------------------------------------------------------------------

/// A schedule that passes questions 16 and 17, with widths of this many bits at
/// most. One in four has only rates of whole eighths, for more exact halves.
fn any_schedule(random: &mut Random, width: u32) -> [Layer; 4] {
    let eighths = random.one_in(4);
    let mut layers = schedule([(0, 0); 4]);
    for layer in &mut layers {
        layer.width = match random.between(0, 3) {
            0 => random.one_of(&[1, 1, 2, u32::MAX >> (32 - width)]),
            _ => random.of_any_size(width).max(1),
        };
        layer.rate = match random.between(0, 3) {
            _ if eighths => 125 * random.between(0, 8),
            0 => random.one_of(&[0, 1, 125, 250, 499, 500, 501, 999, 1_000]),
            _ => random.between(0, 1_000),
        };
    }
    if random.one_in(2) {
        layers[3].width = 0;
    }
    layers
}

/// A standard premium of any size up to `most`, or one at or beside the end of
/// one of the first three layers.
fn any_premium(random: &mut Random, layers: &[Layer; 4], most: u32) -> u32 {
    if random.one_in(2) {
        return random.between(1, most);
    }
    let last = random.within(0, 2);
    let end: u64 = layers[..=last]
        .iter()
        .map(|layer| u64::from(layer.width))
        .sum();
    let beside = end + random.one_of(&[0, 1, 2]) - 1;
    beside.clamp(1, u64::from(most)) as u32
}

/// The row of the layer in which the dollar after `below` others lies.
fn row_of_dollar(layers: &[Layer; 4], below: u64) -> usize {
    let mut end = 0;
    for (k, layer) in layers[..3].iter().enumerate() {
        end += u64::from(layer.width);
        if below < end {
            return k;
        }
    }
    3
}

#[test]
fn discount_is_never_above_the_premium() {
    let mut random = Random::new(0x5eed_0201);
    let mut ends_in = [0; 4];
    for _ in 0..6_000 {
        let width = random.one_of(&[8, 16, 20, 22, 32]);
        let layers = any_schedule(&mut random, width);
        let standard_premium = any_premium(&mut random, &layers, LARGEST_PREMIUM);
        ends_in[row_of_dollar(&layers, u64::from(standard_premium) - 1)] += 1;

        let discount = discount_on(standard_premium, &layers);
        let premium = u128::from(standard_premium);
        assert!(discount <= premium);
        // Within half a dollar, it lies between P at the least and at the
        // greatest of the rates.
        let rates = layers.map(|layer| u128::from(layer.rate));
        assert!(1_000 * discount + 500 >= premium * rates.iter().min().unwrap());
        assert!(1_000 * discount <= premium * rates.iter().max().unwrap() + 500);
    }
    // P ends in every layer often enough.
    assert!(ends_in.iter().all(|&times| times > 300), "{ends_in:?}");
}

#[test]
fn discount_is_that_of_every_dollar() {
    let mut random = Random::new(0x5eed_0202);
    let mut halves = 0;
    let mut ends_in = [0; 4];
    for _ in 0..3_000 {
        let layers = any_schedule(&mut random, 9);
        let standard_premium = any_premium(&mut random, &layers, 1_600);
        ends_in[row_of_dollar(&layers, u64::from(standard_premium) - 1)] += 1;

        // Every dollar of P at the rate of its layer, in thousandths.
        let mut thousandths = 0i128;
        for below in 0..u64::from(standard_premium) {
            thousandths += i128::from(layers[row_of_dollar(&layers, below)].rate);
        }
        let rest = thousandths - 1_000 * discount_on(standard_premium, &layers) as i128;
        assert!((-500..500).contains(&rest));
        if rest == -500 {
            halves += 1;
        }
    }
    assert!(halves > 50, "only {halves} exact halves");
    assert!(ends_in.iter().all(|&times| times > 200), "{ends_in:?}");
}

#[test]
fn differences_add_to_billed_less_guaranteed_costs() {
    let mut random = Random::new(0x5eed_0203);
    let mut accepted = 0;
    let mut signs = [0; 3];
    for _ in 0..2_000 {
        let sample = random.group();
        let file = sample.file();
        let layers = any_schedule(&mut random, 22);
        let n = sample.risks.len();
        let Ok(given) = guaranteed(&file, &layers, 4 * n, n) else {
            continue;
        };
        accepted += 1;

        assert_eq!(
            given.discount + given.guaranteed,
            u128::from(sample.header.standard_premium)
        );
        assert_eq!(given.differences.len(), n);
        for (difference, premium) in given.differences.iter().zip(&given.rated.premiums) {
            assert_eq!(difference + given.guaranteed as i128, *premium as i128);
            signs[(difference.signum() + 1) as usize] += 1;
        }
        assert_eq!(
            given.difference,
            given.rated.billed as i128 - n as i128 * given.guaranteed as i128
        );
    }
    assert!(accepted > 400, "only {accepted} accepted");
    // Negative and positive differences, and some of 0.
    assert!(signs[0] > 1_000 && signs[1] > 0 && signs[2] > 1_000);
}

#[test]
fn rated_is_what_rate_gives() {
    for sample in rated_groups()
        .into_iter()
        .chain(rated_groups_of_edition_2())
    {
        let file = sample.file();
        let given = with_ample_room(&file, &stock()).unwrap();
        assert_eq!(Ok(given.rated), rate(&file, AMPLE));
    }

    // Sound and damaged files: the results are Rate's, and so is a refusal.
    let mut random = Random::new(0x5eed_0204);
    let mut accepted = 0;
    let mut refused = 0;
    for _ in 0..1_500 {
        let file = random.file();
        let layers = any_schedule(&mut random, 32);
        let given = with_ample_room(&file, &layers);
        match &given {
            Ok(_) => accepted += 1,
            Err(_) => refused += 1,
        }
        assert_eq!(given.map(|given| given.rated), rate(&file, AMPLE));
    }
    assert!(accepted > 150 && refused > 150, "{accepted} and {refused}");
}

#[test]
fn first_no_of_generated_calls() {
    let mut random = Random::new(0x5eed_0205);
    let mut results = [0; 20];
    for _ in 0..2_500 {
        let file = random.file();
        let mut layers = any_schedule(&mut random, 32);
        let bad_rate = random.one_in(3);
        if bad_rate {
            let k = random.within(0, 3);
            layers[k].rate = random.one_of(&[1_001, 2_000, u32::MAX]);
        }
        let bad_width = random.one_in(3);
        if bad_width {
            let k = random.within(0, 2);
            layers[k].width = 0;
        }
        let rated = rate(&file, AMPLE);
        let n = rated.as_ref().map_or(1, |rated| rated.risks as usize);
        let short_premiums = random.one_in(6);
        let short_differences = random.one_in(6);
        let premiums_room = 4 * n - usize::from(short_premiums);
        let differences_room = n - usize::from(short_differences);

        let expected = match rated {
            Err(k) => k,
            Ok(_) if short_premiums || short_differences => 13,
            Ok(_) if bad_rate => 16,
            Ok(_) if bad_width => 17,
            Ok(_) => 0,
        };
        let given = guaranteed(&file, &layers, premiums_room, differences_room);
        assert_eq!(given.err().unwrap_or(0), expected);
        results[expected as usize] += 1;
    }
    // Each result that the schedule and the buffers decide on, and 12, 18 and 19, which come before
    // them.
    for k in [0, 12, 13, 16, 17, 18, 19] {
        assert!(results[k] > 30, "{k} only {} times", results[k]);
    }
    // Those that are not asked, and 11, which no call asks.
    assert_eq!(results[11] + results[14] + results[15], 0);
}
