//! The charges that source document 003 prints for columns .36 to .52, held to `charges_1965`.
//! Every list of differences is compared with the list expected; where a number of the scan cannot
//! be read, it is listed by its place and not counted.
//!
//! What the document says of charges of these columns:
//! - the text: the number of a column, and that a charge is never below 1 − r, never less than that
//!   of the next column and never bends downward;
//! - Exhibits F and G: the two old premium groups between which .43 lies;
//! - Exhibits H and Q: how far Equation (3) goes;
//! - Exhibit I: the straight lines from 5.01 on, which begin where Equation (3) ends;
//! - Exhibit O: differences between adjacent columns, which lead from the charges of Exhibits M and
//!   N down to columns .52 to .49;
//! - Exhibit P: the program, whose rounding is that of document 02.
//!
//! Exhibit M itself ends with .54 and Exhibit N with .57. Exhibits A, C and E have old premium groups
//! alone, J and the appendices other columns, B, K and L no charges; of D, R and S the scan has no
//! numbers.

// Taken in by its path, so that its own tests run here: the library is built without tests.
#[path = "../src/charges_1965.rs"]
mod charges_1965;

use charges_1965::{charge, exact, pairs, COLUMNS, ENTRY_RATIOS};

/// The whole thousandths of a charge.
fn thousandths(column: u32, entry_ratio: u32) -> u32 {
    charge(column, entry_ratio).unwrap().thousandths
}

/// The unrounded charge.
fn unrounded(column: u32, entry_ratio: u32) -> f64 {
    charge(column, entry_ratio).unwrap().charge
}

// ---- the text

/// "the premium group number identified the first two digits of the charge at an entry ratio of
/// 1.00", and the charges there are "spaced at intervals of .010".
#[test]
fn charges_at_one() {
    let printed: Vec<u32> = COLUMNS.map(|column| 10 * column).collect();
    let computed: Vec<u32> = COLUMNS.map(|column| thousandths(column, 100)).collect();
    assert_eq!(computed, printed);

    // Differences: the sentence is about charges of three decimals. Coefficients of seven decimals
    // leave some quotients a few hundred-millionths below the column, so that their first two
    // digits are those of the column below. None is off by a ten-millionth.
    let mut below = Vec::new();
    for column in COLUMNS {
        let (num, den) = exact(column, 100);
        let off = 100 * num - i128::from(column) * den;
        assert!(off.abs() * 100_000 < den);
        if off < 0 {
            below.push(column);
        }
    }
    assert_eq!(below, [36, 41, 43, 45, 47]);
}

/// (C16): the charge at an entry ratio of 0 is 1.
#[test]
fn charges_at_nought() {
    for column in COLUMNS {
        assert_eq!((unrounded(column, 0), thousandths(column, 0)), (1.0, 1_000));
    }
}

/// "In order to test the requirement that the charges at a common entry ratio should decrease as the
/// expected loss increases .. A quick examination of this run showed that there were no negative
/// figures". The expected loss increases from .52 to .36.
#[test]
fn charges_across_columns() {
    let mut negative = Vec::new();
    for (column, entry_ratio) in pairs().filter(|&(column, _)| column > *COLUMNS.start()) {
        if thousandths(column, entry_ratio) < thousandths(column - 1, entry_ratio) {
            negative.push((column, entry_ratio));
        }
    }
    assert_eq!(negative, []);
}

/// "One of the critical tests was to make certain that the charges produced did not imply the
/// existence of negative frequencies", which are second differences down the column. The least is
/// more than a ten-millionth, so far from 0 that the rounding of doubles has no part in its sign.
#[test]
fn charges_down_a_column() {
    let mut negative = Vec::new();
    for column in COLUMNS {
        for entry_ratio in 1..*ENTRY_RATIOS.end() {
            let before = unrounded(column, entry_ratio - 1) - unrounded(column, entry_ratio);
            let after = unrounded(column, entry_ratio) - unrounded(column, entry_ratio + 1);
            if before - after < 0.000_000_1 {
                negative.push((column, entry_ratio));
            }
        }
    }
    assert_eq!(negative, []);
}

// ---- Exhibits F and G: the old premium groups beside .43

/// Exhibit F, the coefficients of Old Premium Groups 10 and 11.
const GROUP_10: [f64; 7] = [
    0.33887170,
    -0.16700810,
    0.15762138,
    -0.042426274,
    0.0011206270,
    0.0011646563,
    -0.00012901262,
];
const GROUP_11: [f64; 7] = [
    0.44044010,
    -0.22436769,
    0.20788815,
    -0.058737127,
    0.0032547560,
    0.0011371418,
    -0.00014028810,
];

/// Exhibit G, the "Interpolating Proportion" of each.
const PROPORTIONS: [f64; 2] = [0.5468932, 0.4531068];

/// Exhibit F: r in hundredths and the "Fitted Equation (3) Value" of Old Premium Groups 10 and 11 in
/// ten-thousandths. The scan has ". 8248", ". 5044" and ". 8223" with a space after the point.
const EXHIBIT_F: [(u32, u32, u32); 25] = [
    (20, 8248, 8223),
    (40, 6910, 6845),
    (60, 5872, 5772),
    (80, 5044, 4916),
    (100, 4368, 4220),
    (120, 3806, 3643),
    (140, 3331, 3160),
    (160, 2927, 2752),
    (180, 2583, 2406),
    (200, 2288, 2114),
    (220, 2035, 1865),
    (240, 1818, 1654),
    (260, 1631, 1475),
    (280, 1470, 1321),
    (300, 1331, 1189),
    (320, 1208, 1074),
    (340, 1101, 974),
    (360, 1005, 887),
    (380, 920, 809),
    (400, 843, 739),
    (420, 774, 677),
    (440, 712, 622),
    (460, 657, 573),
    (480, 609, 530),
    (500, 567, 494),
];

/// Equation (3) with any coefficients.
fn equation_3([b2, b3, b4, b5, b6, b7, b8]: [f64; 7], r: f64) -> f64 {
    1.0 / (1.0 + r + r * r * (b2 + r * (b3 + r * (b4 + r * (b5 + r * (b6 + r * (b7 + r * b8)))))))
}

/// A charge in ten-thousandths, to the nearest.
fn four_decimals(charge: f64) -> u32 {
    (charge * 10_000.0).round() as u32
}

/// The weighted harmonic mean of two charges, by the proportions of Exhibit G.
fn harmonic_mean(ten: f64, eleven: f64) -> f64 {
    1.0 / (PROPORTIONS[0] / ten + PROPORTIONS[1] / eleven)
}

/// The formula and the printed coefficients give all fifty fitted values of Exhibit F.
#[test]
fn fitted_values_of_the_old_groups() {
    let mut differences = Vec::new();
    for (entry_ratio, ten, eleven) in EXHIBIT_F {
        let r = f64::from(entry_ratio) / 100.0;
        for (group, printed) in [(GROUP_10, ten), (GROUP_11, eleven)] {
            let computed = four_decimals(equation_3(group, r));
            if computed != printed {
                differences.push((entry_ratio, printed, computed));
            }
        }
    }
    assert_eq!(differences, []);
}

/// Exhibit G prints .430 and 2.3255814 for .43 at 1.00, and for Old Premium Groups 10 and 11 charges
/// of .4368310 and .4220344 with reciprocals of 2.2892150 and 2.3694751.
#[test]
fn exhibit_g() {
    assert_eq!(thousandths(43, 100), 430);
    assert_eq!(exact(43, 100).1, 23_255_814 * 10_i128.pow(16));
    let seven_decimals = |number: f64| (number * 10_000_000.0).round() as u32;
    for (group, printed, reciprocal) in [
        (GROUP_10, 4_368_310, 22_892_150),
        // Difference: printed 2.3694751. The coefficients as printed add up to 0.36947504, so a
        // last digit of 0 was to be expected; the computer worked "with eight significant digits".
        (GROUP_11, 4_220_344, 23_694_750),
    ] {
        assert_eq!(seven_decimals(equation_3(group, 1.0)), printed);
        assert_eq!(seven_decimals(2.0 + group.iter().sum::<f64>()), reciprocal);
    }
}

/// The coefficients of .43 are the weighted means of those of the old groups, so 1 ÷ charge is the
/// weighted mean of theirs. Exhibit F prints theirs to four decimals: each is off by 0.00005 at most,
/// and the mean rises with both. The coefficients of .43 are rounded to seven decimals, which moves
/// 1 ÷ charge by at most 0.00000005 × (r² + .. + r⁸).
#[test]
fn charges_of_43_lie_between_the_old_groups() {
    let mut differences = Vec::new();
    for (entry_ratio, ten, eleven) in EXHIBIT_F {
        let (ten, eleven) = (f64::from(ten) / 10_000.0, f64::from(eleven) / 10_000.0);
        let charge = unrounded(43, entry_ratio);
        let r = f64::from(entry_ratio) / 100.0;
        let moved: f64 = (2..=8).map(|power| 0.000_000_05 * r.powi(power)).sum();
        let least = 1.0 / harmonic_mean(ten + 0.000_05, eleven + 0.000_05) - moved;
        let most = 1.0 / harmonic_mean(ten - 0.000_05, eleven - 0.000_05) + moved;
        assert!((least..=most).contains(&(1.0 / charge)), "{entry_ratio}");
        let millionths = ((harmonic_mean(ten, eleven) - charge) * 1_000_000.0).round() as i32;
        differences.push((entry_ratio, millionths));
    }
    // What the mean of the printed values has above the charge, in millionths: the rounding of
    // Exhibit F, and from 3.00 on that of the coefficients.
    let expected = [
        (20, 27),
        (40, -26),
        (60, 48),
        (80, -23),
        (100, -33),
        (120, -8),
        (140, 7),
        (160, -2),
        (180, 10),
        (200, 46),
        (220, -3),
        (240, -14),
        (260, -5),
        (280, -18),
        (300, 32),
        (320, -35),
        (340, -9),
        (360, 13),
        (380, 26),
        (400, -19),
        (420, -14),
        (440, 4),
        (460, 18),
        (480, 26),
        (500, 7),
    ];
    assert_eq!(differences, expected);
}

/// The same to four decimals. Six of the 25 differ by one in the last place, the rounding of two
/// printed values and that of the charge having come together.
#[test]
fn charges_of_43_to_four_decimals() {
    let mut differences = Vec::new();
    for (entry_ratio, ten, eleven) in EXHIBIT_F {
        let mean = harmonic_mean(f64::from(ten) / 10_000.0, f64::from(eleven) / 10_000.0);
        let (printed, computed) = (
            four_decimals(mean),
            four_decimals(unrounded(43, entry_ratio)),
        );
        if printed != computed {
            differences.push((entry_ratio, printed, computed));
        }
    }
    let expected = [
        (20, 8237, 8236),
        (40, 6880, 6881),
        (200, 2206, 2205),
        (300, 1263, 1262),
        (320, 1143, 1144),
        (400, 792, 793),
    ];
    assert_eq!(differences, expected);
}

// ---- Exhibits H and Q: where Equation (3) ends

/// The "Maximum Usable r" of each of these columns is 5.00 in Exhibit H, and in Exhibit Q
/// Equation (3) goes from .00 to 5.00 for .53 to .21.
#[test]
fn largest_entry_ratio() {
    for column in COLUMNS {
        assert!(charge(column, 500).is_ok());
        assert_eq!(charge(column, 501), Err(21));
    }
}

// ---- Exhibit I: beyond 5.00

/// Exhibit I: the column, the last r of the range that begins with 5.01, and c in ten-thousandths. m
/// is .05 in each. For .39 the scan has 5.70 as the last r, which is not counted: the other ranges
/// end where c − m × r is .0002, and that of .39 would end with .0012; at 5.72 it is .0002.
const EXHIBIT_I: [(u32, u32, u32); 17] = [
    (52, 725, 3627),
    (51, 709, 3547),
    (50, 691, 3457),
    (49, 676, 3382),
    (48, 662, 3312),
    (47, 650, 3252),
    (46, 638, 3192),
    (45, 626, 3132),
    (44, 615, 3077),
    (43, 605, 3027),
    (42, 596, 2982),
    (41, 588, 2942),
    (40, 579, 2897),
    (39, 570, 2862),
    (38, 565, 2827),
    (37, 559, 2797),
    (36, 554, 2772),
];

/// Equation (4), c − m × r, in ten-thousandths.
fn equation_4(c: u32, entry_ratio: u32) -> u32 {
    c - 5 * entry_ratio
}

#[test]
fn ranges_of_exhibit_i() {
    let mut others = Vec::new();
    for (column, last, c) in EXHIBIT_I {
        if equation_4(c, last) != 2 {
            others.push((column, last, equation_4(c, last)));
        }
    }
    assert_eq!(others, [(39, 570, 12)]);
}

/// Equation (4) takes over at 5.01. In whole thousandths, by the rounding of Exhibit P, its first
/// charge is that of Equation (3) at 5.00 or one less. Unrounded, the line taken back to 5.00 misses
/// the quotient by less than a thousandth: c goes by steps of .0005, as each range ends with .0002,
/// and was "dealt with rather arbitrarily".
#[test]
fn exhibit_i_joins_equation_3() {
    let mut joints = Vec::new();
    for (column, _, c) in EXHIBIT_I {
        let (num, den) = exact(column, 500);
        let millionths = (2_000_000 * num + den) / (2 * den);
        let missed = millionths - 100 * i128::from(equation_4(c, 500));
        let first = (equation_4(c, 501) + 5) / 10;
        joints.push((column, thousandths(column, 500), first, missed));
    }
    // the column, Equation (3) at 5.00 and Equation (4) at 5.01 in thousandths, and what the
    // quotient at 5.00 has above the line there in millionths
    let expected = [
        (52, 112, 112, -227),
        // the one column whose line at 5.01, .1042, is above the unrounded charge at 5.00,
        // .103751: a line falls by 500 millionths to 5.01
        (51, 104, 104, -949),
        (50, 96, 95, 141),
        (49, 88, 88, 56),
        (48, 81, 81, 270),
        (47, 75, 75, -64),
        (46, 69, 69, -112),
        (45, 64, 63, 340),
        (44, 58, 57, 577),
        (43, 53, 52, 435),
        (42, 48, 48, 211),
        (41, 44, 44, -300),
        (40, 40, 39, 82),
        (39, 36, 36, -145),
        (38, 33, 32, -74),
        (37, 30, 29, -48),
        (36, 27, 27, -85),
    ];
    assert_eq!(joints, expected);
}

// ---- Exhibits M, N and O: from column to column

/// Exhibit M: the charges of .64 to .54 in thousandths at .01 to .16. Readings of the scan that are
/// corrected: °0.990 (.54 at .01), 0-981 (.57 at .02), U.944 and Ö.939 (.64 and .57 at .07) and
/// 0-918 (.63 at .11) are 0.990, 0.981, 0.944, 0.939 and 0.918, as the savings beneath them say; the
/// line headed 0.00 is that of 0.06, by its place and its savings; 0.688 (.61 at .16) is 0.888, as
/// Exhibit N prints a fall of 5 from 0.893 there.
const EXHIBIT_M: [(u32, [u32; 11]); 16] = [
    (1, [990; 11]),
    (2, [981; 11]),
    (3, [973, 973, 972, 972, 972, 972, 972, 972, 972, 972, 971]),
    (4, [965, 965, 964, 964, 964, 964, 963, 963, 963, 963, 963]),
    (5, [957, 957, 957, 956, 956, 955, 955, 955, 954, 954, 954]),
    (6, [950, 950, 949, 949, 948, 948, 947, 947, 946, 946, 946]),
    (7, [944, 943, 942, 941, 941, 940, 940, 939, 938, 938, 937]),
    (8, [937, 936, 935, 935, 934, 933, 932, 931, 931, 930, 929]),
    (9, [931, 930, 929, 928, 927, 926, 925, 924, 923, 923, 922]),
    (10, [926, 924, 923, 922, 920, 919, 918, 917, 916, 915, 914]),
    (11, [920, 918, 917, 915, 914, 913, 911, 910, 909, 908, 907]),
    (12, [915, 913, 911, 910, 908, 906, 905, 903, 902, 901, 900]),
    (13, [910, 908, 906, 904, 902, 900, 899, 897, 896, 894, 893]),
    (14, [905, 903, 901, 898, 896, 894, 893, 891, 889, 887, 886]),
    (15, [901, 898, 896, 893, 891, 889, 887, 884, 883, 881, 879]),
    (16, [896, 893, 891, 888, 885, 883, 881, 878, 877, 875, 873]),
];

/// Exhibit N: the first differences D1 of .64 to .57 from .16 on, what the charge falls to the next
/// hundredth, in thousandths. The scan runs D1 together with a negative second difference, as "51."
/// for 5. −1.; each D1 is the one before it less the second difference.
const EXHIBIT_N: [(u32, [u32; 8]); 15] = [
    (16, [4, 4, 5, 5, 5, 5, 6, 5]),
    (17, [4, 5, 5, 5, 5, 6, 6, 6]),
    (18, [4, 4, 4, 5, 5, 5, 5, 6]),
    (19, [4, 4, 5, 4, 5, 5, 5, 5]),
    (20, [4, 4, 4, 5, 5, 5, 5, 6]),
    (21, [4, 4, 4, 4, 4, 5, 6, 5]),
    (22, [3, 4, 4, 5, 5, 5, 5, 5]),
    (23, [4, 4, 4, 4, 4, 5, 5, 6]),
    (24, [3, 4, 4, 4, 5, 4, 4, 5]),
    (25, [4, 3, 4, 4, 4, 5, 5, 5]),
    (26, [3, 4, 4, 5, 4, 4, 5, 4]),
    (27, [4, 4, 4, 4, 5, 5, 5, 5]),
    (28, [3, 3, 4, 4, 4, 4, 4, 5]),
    (29, [3, 4, 4, 4, 4, 5, 5, 5]),
    (30, [3, 3, 3, 3, 4, 4, 4, 4]),
];

/// Exhibit O, "Cross column first differences" in thousandths: at each r, in fifteen columns headed
/// 64 to 50, what a charge has above that of the next column. The last is .50 less .49. The scan has
/// lost the order within a line, which begins anywhere, so a line is fifteen numbers without places.
/// Of the line of .31 seven numbers stand before its r. The points after the numbers are left out,
/// and the two signs at the end of .17 are put together.
const EXHIBIT_O: [(u32, &str); 31] = [
    (1, "0 0 0 0 0 0 0 0 0 0 0 0 0 Q 0"),
    (2, "0 0 \u{665} 0 0 \u{665} 0 0 \u{665} 0 0 1 0 0 0"),
    (3, "U 0 0 0 0 L 0 Q 0 0 1 0 \u{665} 0 \u{665}"),
    (4, "0 \u{665} 0 0 0 0 0 0 0 1 0 \u{665} 0 1 1"),
    (5, "0 0 0 1 \u{665} 0 0 1 \u{665} 0 0 1 0 1 \u{6f5}"),
    (6, "1 \u{665} 1 0 1 G 0 1 0 0 0 0 1 0 1"),
    (7, "0 1 1 0 1 1 1 0 1 0 1 1 \u{6f1} \u{168} 0"),
    (8, "1 1 0 1 1 1 1 \u{665} 1 1 0 1 \u{665} 1 1"),
    (9, "1 0 1 1 1 0 1 1 1 1 1 1 1 1 1"),
    (10, "2 0 1 1 2 l 1 1 1 1 1 1 1 \u{6f1} 1"),
    (11, "1 2 1 1 2 1 1 1 1 1 1 1 1 1 2"),
    (12, "2 2 2 2 2 1 1 2 1 1 1 1 1 1 1"),
    (13, "2 2 2 2 2 2 1 2 1 2 1 2 1 1 1"),
    (14, "2 2 2 2 2 1 2 2 \u{17b} 3 2 1 2 1 1"),
    (15, "2 2 2 2 2 1 2 \u{437} 2 2 2 3 1 1 \u{437}"),
    (16, "3 2 3 2 2 3 1 2 2 2 2 2 2 1 3"),
    (17, "2 2 2 2 2 2 2 2 3 \u{664} 3 3 3 2 \u{660}\u{62f}"),
    (18, "\u{664} 3 3 \u{437} 2 2 3 2 2 3 2 2 2 4 \u{437}"),
    (19, "\u{437} 3 2 3 2 3 3 \u{437} 3 2 2 2 4 4 \u{437}"),
    (20, "3 4 3 3 3 3 3 2 \u{437} 3 2 2 3 4 4"),
    (21, "3 \u{437} 2 3 3 3 3 2 3 4 4 3 4 4 4"),
    (22, "3 3 3 3 \u{437} 3 3 3 2 4 4 4 4 4 4"),
    (23, "3 3 3 3 5 5 3 4 3 \u{437} 3 4 4 4 4"),
    (24, "5 5 5 3 3 3 3 3 3 3 4 4 4 4 4"),
    (25, "5 3 4 3 4 \u{437} 3 4 3 4 5 4 4 5 \u{665}"),
    (26, "5 5 5 5 5 4 5 3 4 4 \u{437} 4 \u{437} 4 3"),
    (27, "5 5 5 3 \u{665} 4 4 4 4 \u{437} 4 6 4 4 4"),
    (28, "5 5 5 5 3 4 3 \u{665} 5 4 4 4 4 4 6"),
    (29, "5 5 5 5 5 4 4 4 3 4 4 4 6 0 6"),
    (30, "7 5 5 5 4 4 5 4 4 5 4 3 \u{665} 6 6"),
    (31, "5 6 6 6 5 5 4 7 6 5 5 4 4 4 4"),
];

/// Lines of Exhibit O that are not counted: r, the numbers that cannot be read, and what the charges
/// leave for them together.
///
/// - .08, .25, .27, .28, .30: an Arabic five, which has the form of a ring. The ring may be a nought
///   or a six.
/// - .17, .18: an Arabic four, which has the form of a 3 turned round; and in .17 an Arabic letter
///   with a point before it.
/// - .29: a nought in a line that has 3 to 6 elsewhere, as the lines about it have.
///
/// In each the charges leave what the form suggests: noughts, threes and sixes.
const NOT_COUNTED: [(u32, usize, u32); 8] = [
    (8, 2, 0),
    (17, 2, 6),
    (18, 1, 3),
    (25, 1, 6),
    (27, 1, 6),
    (28, 1, 6),
    (29, 1, 6),
    (30, 1, 6),
];

/// A number of Exhibit O, None if it cannot be read. Letters and digits of other scripts stand for
/// the digit whose form they have; a ring is a nought as far as .06, where no other round digit is
/// possible.
fn read(entry_ratio: u32, word: &str) -> Option<u32> {
    match word {
        "0" if entry_ratio == 29 => None,
        "0" | "Q" | "U" | "G" | "\u{168}" => Some(0),
        "\u{665}" | "\u{6f5}" if entry_ratio <= 6 => Some(0),
        "1" | "L" | "l" | "\u{6f1}" => Some(1),
        "2" | "\u{17b}" => Some(2),
        "3" | "\u{437}" => Some(3),
        "4" | "5" | "6" | "7" => word.parse().ok(),
        _ => None,
    }
}

/// The charges of adjacent columns from .64 on that are printed at an r: to .16 those of Exhibit M,
/// from .17 on those of Exhibit M at .16 less the falls of Exhibit N.
fn printed_from_64(entry_ratio: u32) -> Vec<u32> {
    let (_, at_the_end) = EXHIBIT_M[15];
    for (r, charges) in EXHIBIT_M {
        if r == entry_ratio {
            return charges.to_vec();
        }
    }
    let mut charges = at_the_end[..8].to_vec();
    for (_, falls) in EXHIBIT_N.iter().filter(|&&(r, _)| r < entry_ratio) {
        for (charge, fall) in charges.iter_mut().zip(falls) {
            *charge -= fall;
        }
    }
    charges
}

/// What each charge has above the next.
fn cross_differences(charges: &[u32]) -> Vec<u32> {
    charges.windows(2).map(|pair| pair[0] - pair[1]).collect()
}

/// A list of numbers without some of its numbers, None if it lacks one of them.
fn without(mut list: Vec<u32>, taken: &[u32]) -> Option<Vec<u32>> {
    for number in taken {
        let place = list.iter().position(|listed| listed == number)?;
        list.remove(place);
    }
    Some(list)
}

/// As far as .06 a ring in Exhibit O is a nought: with a 5 or a 6 in place of one of them, the
/// charge of .49 would be below 1 − r, and its saving negative: "can never be negative".
#[test]
fn rings_are_noughts() {
    for (r, line) in EXHIBIT_O.iter().filter(|&&(r, _)| r <= 6) {
        let sum: u32 = line.split(' ').map(|word| read(*r, word).unwrap()).sum();
        let of_49 = printed_from_64(*r)[0] - sum;
        let rings = line.matches(['\u{665}', '\u{6f5}']).count();
        assert_eq!(rings, [0, 0, 3, 2, 2, 3, 1][*r as usize]);
        assert!(rings == 0 || of_49 - 5 < 1_000 - 10 * r);
    }
}

/// The sum of a line of Exhibit O leads from .64 to .49, in whatever order its numbers are.
#[test]
fn exhibit_o_leads_to_49() {
    let (mut differences, mut not_counted) = (Vec::new(), Vec::new());
    for (r, line) in EXHIBIT_O {
        let words: Vec<Option<u32>> = line.split(' ').map(|word| read(r, word)).collect();
        assert_eq!(words.len(), 15);
        let sum: u32 = words.iter().flatten().sum();
        let printed = printed_from_64(r)[0] - sum;
        let unread = words.iter().filter(|word| word.is_none()).count();
        if unread > 0 {
            not_counted.push((r, unread, printed - thousandths(49, r)));
        } else if printed != thousandths(49, r) {
            differences.push((r, printed, thousandths(49, r)));
        }
    }
    assert_eq!(differences, []);
    assert_eq!(not_counted, NOT_COUNTED);
}

/// Of a line's fifteen numbers those between the columns of Exhibits M and N are known. Among the
/// others are those from .52 to .51, .50 and .49, and what is left leads down to .52.
#[test]
fn exhibit_o_has_the_columns_from_52_on() {
    let mut differences = Vec::new();
    for (r, line) in EXHIBIT_O {
        let words = line.split(' ').map(|word| read(r, word));
        let Some(numbers) = words.collect::<Option<Vec<u32>>>() else {
            continue;
        };
        let from_64 = printed_from_64(r);
        let from_52: Vec<u32> = (49..=52)
            .rev()
            .map(|column| thousandths(column, r))
            .collect();
        let left = without(numbers, &cross_differences(&from_64))
            .and_then(|others| without(others, &cross_differences(&from_52)));
        let led_to = left.map(|left| from_64[from_64.len() - 1] - left.iter().sum::<u32>());
        if led_to != Some(from_52[0]) {
            differences.push((r, led_to, from_52));
        }
    }
    assert_eq!(differences, []);
}

// ---- Exhibit P: the program

/// Exhibit P in doubles: CH by its first statement, then
/// CHRND=(AINT((CH+.0005)*1000.))*1.E-3, IF(R+CHRND-1.)20,21,21 and 20 CHRND=1.-R.
/// Differences: none. Nowhere is statement 20 reached: no saving is negative.
#[test]
fn rounding_of_exhibit_p() {
    let (mut differences, mut at_20) = (Vec::new(), Vec::new());
    for (column, entry_ratio) in pairs() {
        let r = f64::from(entry_ratio) / 100.0;
        let ch = unrounded(column, entry_ratio);
        let mut chrnd = ((ch + 0.0005) * 1_000.0).trunc() * 0.001;
        if r + chrnd - 1.0 < 0.0 {
            at_20.push((column, entry_ratio));
            chrnd = 1.0 - r;
        }
        if (chrnd * 1_000.0).round() as u32 != thousandths(column, entry_ratio) {
            differences.push((column, entry_ratio, chrnd));
        }
    }
    assert_eq!(differences, []);
    assert_eq!(at_20, []);
}

/// "If the saving was negative, zero was substituted for the calculated value and the charge was set
/// equal to one minus the entry ratio." The saving is charge + r − 1, (C23).
#[test]
fn no_saving_is_negative() {
    for (column, entry_ratio) in pairs() {
        let (num, den) = exact(column, entry_ratio);
        assert!(100 * num >= (100 - i128::from(entry_ratio)) * den);
    }
}
