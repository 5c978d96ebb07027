//! The charges of the 1965 table a second time: job 5 of document 02, with the
//! formula and the "matrix of coefficients" of source document 003.
//!
//! It serves as the outside figure against which a production call is compared.
//! To share no mistake with such a call it goes a deliberately different way: the
//! coefficients stay the decimal texts of the page and are read digit by digit at
//! each call, a column is found by its heading, and the thousandths by trying all
//! of them. Beside the double stands the exact quotient in whole numbers of 128
//! bits; where a double is held to it, the double is taken apart into the binary
//! fraction that it is, and the products have as many bits as they need. Speed
//! and memory are of no concern.
//!
//! Column and entry ratio are given in hundredths. A call answers `Err(20)` or
//! `Err(21)` where document 02 has that error.

#![forbid(unsafe_code)]

use std::cmp::Ordering;
use std::ops::RangeInclusive;

/// "Carry columns .36 to .52".
pub const COLUMNS: RangeInclusive<u32> = 36..=52;
/// What is not "an entry ratio above 5.00", which Exhibit H calls the "Maximum
/// Usable r" of each of these columns.
pub const ENTRY_RATIOS: RangeInclusive<u32> = 0..=500;

/// Three columns at five entry ratios: column, entry ratio, thousandths, and the double by its bits.
pub const FIFTEEN: [(u32, u32, u32, u64); 15] = [
    (36, 0, 1_000, 0x3ff0_0000_0000_0000),
    (36, 50, 593, 0x3fe2_fd37_2565_d4a1),
    (36, 100, 360, 0x3fd7_0a3d_5fa1_c62e),
    (36, 200, 148, 0x3fc2_e880_2ee0_99b1),
    (36, 500, 27, 0x3f9b_c3fe_663d_ef2a),
    (44, 0, 1_000, 0x3ff0_0000_0000_0000),
    (44, 50, 638, 0x3fe4_6910_d877_b7c6),
    (44, 100, 440, 0x3fdc_28f5_d1ad_a41b),
    (44, 200, 232, 0x3fcd_bff4_5003_b341),
    (44, 500, 58, 0x3fad_d66e_e611_f8ed),
    (52, 0, 1_000, 0x3ff0_0000_0000_0000),
    (52, 50, 687, 0x3fe5_fbcb_894c_833a),
    (52, 100, 520, 0x3fe0_a3d7_0d97_0f20),
    (52, 200, 334, 0x3fd5_5e6d_c7ff_f9b1),
    (52, 500, 112, 0x3fbc_cb09_fcbc_ad4b),
];

/// Exhibit H: "Premium Group", then b2 to b8, a line for a line of the page.
///
/// One text of the scan is corrected: b3 of .36 is "0,1534788" there, with a
/// comma for the point. The other 118 are as the scan has them. Each row keeps
/// the row-sum rule, which a wrong digit breaks unless it is a last digit and off
/// by 3 at most. Exhibit G prints the row of .43 again and how it was computed.
/// Exhibit I, where the charges go on beyond 5.00, weighs the coefficients of a
/// row quite otherwise than their sum does, and meets all seventeen rows at 5.00 to
/// within a thousandth (in tests/printed_charges.rs).
///
/// That wrong digits do occur, columns show which are not carried: .63 is off by
/// 500,000 ten-millionths, .59 by 4,000,000, .53 by 5,000 and .30 by 3.3.
pub const MATRIX: [&str; 17] = [
    ".52 -0.4911550 1.0191766 -1.0283315 0.5666651 -0.1663803 0.0245276 -0.0014256",
    ".51 -0.3651269 0.7926783 -0.7988756 0.4460618 -0.1325207 0.0197223 -0.0011549",
    ".50 -0.2502708 0.5970000 -0.5988208 0.3401507 -0.1025966 0.0154505 -0.0009130",
    ".49 -0.1339706 0.4013138 -0.3983194 0.2338214 -0.0725095 0.0111496 -0.0006690",
    ".48 -0.0330425 0.2511240 -0.2463034 0.1543364 -0.0502972 0.0080085 -0.0004926",
    ".47 0.0688215 0.1034968 -0.0973794 0.0767784 -0.0286993 0.0049637 -0.0003220",
    ".46 0.1540083 0.0062860 -0.0037170 0.0308102 -0.0165737 0.0033337 -0.0002345",
    ".45 0.2380330 -0.0828200 0.0811232 -0.0097579 -0.0061649 0.0019723 -0.0001634",
    ".44 0.3140541 -0.1462885 0.1387943 -0.0343862 -0.0006725 0.0013635 -0.0001375",
    ".43 0.3848930 -0.1929981 0.1803976 -0.0498168 0.0020876 0.0011522 -0.0001341",
    ".42 0.4520075 -0.2252639 0.2077841 -0.0572532 0.0025717 0.0012534 -0.0001473",
    ".41 0.5105354 -0.2297982 0.2072574 -0.0497446 -0.0008845 0.0018417 -0.0001828",
    ".40 0.5578036 -0.1952433 0.1636623 -0.0183729 -0.0108692 0.0032798 -0.0002603",
    ".39 0.6000823 -0.1393633 0.0963798 0.0270763 -0.0250111 0.0053088 -0.0003703",
    ".38 0.6373082 -0.0619243 0.0065091 0.0850057 -0.0426207 0.0078055 -0.0005046",
    ".37 0.6699527 0.0362174 -0.1052290 0.1558492 -0.0643880 0.0109835 -0.0006831",
    ".36 0.6988077 0.1534788 -0.2401878 0.2446196 -0.0935920 0.0156192 -0.0009676",
];

/// "Both the unrounded charge and its thousandths come back."
#[derive(Clone, Copy, Debug, PartialEq)]
pub struct Charge {
    /// The unrounded charge.
    pub charge: f64,
    /// Its whole thousandths.
    pub thousandths: u32,
}

/// All pairs of a column and an entry ratio that have a charge: 8,517.
pub fn pairs() -> impl Iterator<Item = (u32, u32)> {
    COLUMNS.flat_map(|column| ENTRY_RATIOS.map(move |entry_ratio| (column, entry_ratio)))
}

/// The charge of a column at an entry ratio. "Errors: 20 a column outside .36 to
/// .52, then 21 an entry ratio above 5.00."
pub fn charge(column: u32, entry_ratio: u32) -> Result<Charge, u32> {
    let row = row(column).ok_or(20_u32)?;
    if !ENTRY_RATIOS.contains(&entry_ratio) {
        return Err(21);
    }
    // "each coefficient divided by 10,000,000 and r's hundredths by 100"
    let [b2, b3, b4, b5, b6, b7, b8] = row.map(|b| f64::from(b) / 10_000_000.0);
    let r = f64::from(entry_ratio) / 100.0;
    // "in doubles in the order written"; Rust joins no product and sum into one
    let charge = 1.0
        / (1.0 + r + r * r * (b2 + r * (b3 + r * (b4 + r * (b5 + r * (b6 + r * (b7 + r * b8)))))));
    Ok(Charge {
        charge,
        thousandths: thousandths(charge, entry_ratio),
    })
}

/// "Its thousandths are the greatest whole number from 1 to 1,000 that is at most
/// (charge + 0.0005) × 1,000, also in doubles, or 0 if none is; if below 1 − r,
/// then 1 − r."
fn thousandths(charge: f64, entry_ratio: u32) -> u32 {
    let most = (charge + 0.0005) * 1_000.0;
    let mut greatest = 0;
    for whole in 1..=1_000_u32 {
        if f64::from(whole) <= most {
            greatest = whole;
        }
    }
    let greatest = i64::from(greatest);
    let one_less_r = 1_000 - 10 * i64::from(entry_ratio);
    let answer = if greatest < one_less_r {
        one_less_r
    } else {
        greatest
    };
    u32::try_from(answer).expect("it is not below 0")
}

/// The coefficients b2 to b8 of a column in ten-millionths, if the matrix has it.
pub fn row(column: u32) -> Option<[i32; 7]> {
    let heading = format!(".{column:02}");
    for line in MATRIX {
        let mut words = line.split(' ');
        if words.next() == Some(heading.as_str()) {
            let row: Vec<i32> = words.map(ten_millionths).collect();
            return Some(row.try_into().expect("a row has seven coefficients"));
        }
    }
    None
}

/// A decimal text of the page "as whole ten-millionths".
fn ten_millionths(text: &str) -> i32 {
    let size = text.trim_start_matches('-');
    let (whole, decimals) = size.split_once('.').expect("a text has a point");
    assert_eq!((whole.len(), decimals.len()), (1, 7), "{text}");
    let digits = whole.chars().chain(decimals.chars());
    let value = digits.fold(0, |value, digit| {
        10 * value + digit.to_digit(10).expect("a text has digits")
    });
    let value = i32::try_from(value).expect("a text has eight digits");
    match text.len() - size.len() {
        0 => value,
        1 => -value,
        _ => panic!("{text} has more than one sign"),
    }
}

// ---- the exact quotient

/// The exact quotient as numerator and denominator, both times
/// 10,000,000 × 100 to the eighth power, which makes all terms whole:
/// 1 ÷ (1 + r + b2 × r² + b3 × r³ + .. + b8 × r⁸).
///
/// # Panics
/// Where `charge` has an error.
pub fn exact(column: u32, entry_ratio: u32) -> (i128, i128) {
    let row = row(column).expect("the matrix has the column");
    assert!(ENTRY_RATIOS.contains(&entry_ratio), "{entry_ratio}");
    let one = 10_i128.pow(23);
    let h = i128::from(entry_ratio);
    let mut denominator = one + one / 100 * h;
    for (power, b) in (2..=8).zip(row) {
        denominator += i128::from(b) * h.pow(power) * 100_i128.pow(8 - power);
    }
    (one, denominator)
}

/// "The unrounded one lies within a millionth of the exact quotient":
/// |charge × Den − Num| × 1,000,000 ≤ Den, with the double as the binary fraction
/// that it is. An infinite charge and what is not a number do not.
pub fn within_a_millionth(charge: f64, column: u32, entry_ratio: u32) -> bool {
    within(charge, column, entry_ratio, 1_000_000)
}

/// The same for any unit fraction: |charge × Den − Num| × parts ≤ Den.
pub fn within(charge: f64, column: u32, entry_ratio: u32, parts: u128) -> bool {
    match distance(charge, column, entry_ratio) {
        None => false,
        Some((over, under)) => over.times(&Natural::new(parts)) <= under,
    }
}

/// The distance of a double from the exact quotient as a fraction,
/// |charge × Den − Num| over Den, both multiplied by the power of 2 that makes
/// them whole. None if the double is not finite.
fn distance(charge: f64, column: u32, entry_ratio: u32) -> Option<(Natural, Natural)> {
    let (negative, significand, exponent) = binary_fraction(charge)?;
    let (num, den) = exact(column, entry_ratio);
    let natural = |whole: i128| Natural::new(whole.try_into().expect("it is above 0"));
    let (num, den) = (natural(num), natural(den));
    let product = Natural::new(significand.into()).times(&den);
    let places = exponent.unsigned_abs();
    let (product, num, den) = if exponent < 0 {
        (product, num.doubled(places), den.doubled(places))
    } else {
        (product.doubled(places), num, den)
    };
    let over = if negative {
        product.plus(&num)
    } else {
        product.apart(&num)
    };
    Some((over, den))
}

/// A finite double as sign, significand and exponent: it is exactly
/// ± significand × 2 to the exponent.
fn binary_fraction(double: f64) -> Option<(bool, u64, i32)> {
    let bits = double.to_bits();
    let negative = bits >> 63 == 1;
    let fraction = bits & ((1 << 52) - 1);
    match i32::try_from((bits >> 52) & 0x7ff).expect("eleven bits") {
        0x7ff => None,
        0 => Some((negative, fraction, -1_074)),
        biased => Some((negative, fraction | 1 << 52, biased - 1_075)),
    }
}

/// A whole number of any length from 0 on: digits to the base 2³², the last one
/// first, without noughts in front.
#[derive(Clone, Debug, PartialEq, Eq)]
struct Natural(Vec<u32>);

impl Natural {
    fn new(mut whole: u128) -> Natural {
        let mut digits = Vec::new();
        while whole > 0 {
            digits.push(low(whole));
            whole >>= 32;
        }
        Natural(digits)
    }

    /// Takes off the noughts in front.
    fn trimmed(mut digits: Vec<u32>) -> Natural {
        while digits.last() == Some(&0) {
            digits.pop();
        }
        Natural(digits)
    }

    /// The digit at a place, 0 where it has none.
    fn digit(&self, place: usize) -> u128 {
        self.0.get(place).copied().unwrap_or(0).into()
    }

    fn times(&self, other: &Natural) -> Natural {
        let mut digits = vec![0; self.0.len() + other.0.len()];
        for (left, &digit) in self.0.iter().enumerate() {
            let mut carry = 0;
            for right in 0..=other.0.len() {
                let place = &mut digits[left + right];
                let sum = u128::from(digit) * other.digit(right) + u128::from(*place) + carry;
                *place = low(sum);
                carry = sum >> 32;
            }
            assert_eq!(carry, 0);
        }
        Natural::trimmed(digits)
    }

    fn plus(&self, other: &Natural) -> Natural {
        let mut digits = Vec::new();
        let mut carry = 0;
        for place in 0..=self.0.len().max(other.0.len()) {
            let sum = self.digit(place) + other.digit(place) + carry;
            digits.push(low(sum));
            carry = sum >> 32;
        }
        assert_eq!(carry, 0);
        Natural::trimmed(digits)
    }

    /// The greater of two numbers less the other.
    fn apart(&self, other: &Natural) -> Natural {
        let (greater, less) = if self < other {
            (other, self)
        } else {
            (self, other)
        };
        let mut digits = Vec::new();
        let mut borrowed = 0;
        for place in 0..greater.0.len() {
            let rest = (1 << 32) + greater.digit(place) - less.digit(place) - borrowed;
            digits.push(low(rest));
            borrowed = 1 - (rest >> 32);
        }
        assert_eq!(borrowed, 0);
        Natural::trimmed(digits)
    }

    /// The number doubled so many times.
    fn doubled(&self, times: u32) -> Natural {
        let mut digits = vec![0; (times / 32) as usize];
        digits.push(1 << (times % 32));
        self.times(&Natural(digits))
    }
}

/// The last digit to the base 2³².
fn low(whole: u128) -> u32 {
    (whole & 0xffff_ffff) as u32
}

impl Ord for Natural {
    fn cmp(&self, other: &Natural) -> Ordering {
        let by_length = self.0.len().cmp(&other.0.len());
        by_length.then_with(|| self.0.iter().rev().cmp(other.0.iter().rev()))
    }
}

impl PartialOrd for Natural {
    fn partial_cmp(&self, other: &Natural) -> Option<Ordering> {
        Some(self.cmp(other))
    }
}

#[cfg(test)]
mod tests {
    use super::*;

    /// The sum of a row in ten-millionths.
    fn sum(row: &[i32; 7]) -> i64 {
        row.iter().map(|&b| i64::from(b)).sum()
    }

    /// Column times what a row's sum has above 1 ÷ column − 2, in ten-millionths.
    fn off(column: u32, sum: i64) -> i64 {
        i64::from(column) * (sum + 20_000_000) - 1_000_000_000
    }

    /// "a row's sum is within 2 ten-millionths of 1 ÷ column − 2"
    fn keeps_the_rule(column: u32, sum: i64) -> bool {
        off(column, sum).abs() <= 2 * i64::from(column)
    }

    // ---- the matrix

    #[test]
    fn a_text_is_whole_ten_millionths() {
        assert_eq!(ten_millionths("0.6988077"), 6_988_077);
        assert_eq!(ten_millionths("-0.2401878"), -2_401_878);
        assert_eq!(ten_millionths("1.0191766"), 10_191_766);
        assert_eq!(ten_millionths("-0.0001341"), -1_341);
        assert_eq!(ten_millionths("0.0000000"), 0);
    }

    #[test]
    #[should_panic(expected = "a text has a point")]
    fn the_text_of_the_scan_with_a_comma_is_none() {
        ten_millionths("0,1534788");
    }

    #[test]
    fn columns_are_those_of_the_page() {
        let headings: Vec<&str> = MATRIX.map(|line| &line[..3]).to_vec();
        let columns: Vec<String> = COLUMNS.rev().map(|column| format!(".{column}")).collect();
        assert_eq!(headings, columns);
        assert_eq!(
            COLUMNS
                .map(|column| row(column).unwrap().len())
                .sum::<usize>(),
            119
        );
        assert_eq!(pairs().count(), 8_517);
    }

    #[test]
    fn row_sums() {
        for column in COLUMNS {
            let sum = sum(&row(column).unwrap());
            assert!(keeps_the_rule(column, sum), ".{column}: {sum}");
        }
    }

    /// The worst row is .48, which is 64 ÷ 48 or 1.3333.. ten-millionths short.
    #[test]
    fn worst_row_sum() {
        let mut offs: Vec<(u32, i64)> = COLUMNS
            .map(|column| (column, off(column, sum(&row(column).unwrap()))))
            .collect();
        offs.sort_by_key(|&(column, off)| -(off.abs() * 1_000_000 / i64::from(column)));
        assert_eq!(offs[..3], [(48, -64), (47, 59), (36, 44)]);
        assert_eq!(sum(&row(48).unwrap()) + 20_000_000, 20_833_332);
    }

    /// Each single digit of each text replaced by each other digit: what the rule
    /// lets pass are last digits, off by 3 at most.
    #[test]
    fn row_sums_find_a_wrong_digit() {
        let mut passed = Vec::new();
        for column in COLUMNS {
            let sum = sum(&row(column).unwrap());
            for size in row(column).unwrap().map(i32::abs) {
                for place in 0..8 {
                    let unit = 10_i64.pow(place);
                    let digit = i64::from(size) / unit % 10;
                    for other in (0..10).filter(|&other| other != digit) {
                        // a wrong digit moves a negative coefficient the other way
                        let change = (other - digit) * unit;
                        if keeps_the_rule(column, sum + change)
                            || keeps_the_rule(column, sum - change)
                        {
                            passed.push(change.abs());
                        }
                    }
                }
            }
        }
        assert_eq!(passed.iter().max(), Some(&3));
    }

    /// Exhibit G: "Harmonic interpolation was used", with the coefficients of Old
    /// Premium Groups 10 and 11 in hundred-thousand-millionths and the
    /// "Interpolating Proportion" of each in ten-millionths. Rounded to seven
    /// decimals they give the row of .43 to the last digit.
    #[test]
    fn row_of_43_by_interpolation() {
        const GROUP_10: [i64; 7] = [
            33_887_170_000,
            -16_700_810_000,
            15_762_138_000,
            -4_242_627_400,
            112_062_700,
            116_465_630,
            -12_901_262,
        ];
        const GROUP_11: [i64; 7] = [
            44_044_010_000,
            -22_436_769_000,
            20_788_815_000,
            -5_873_712_700,
            325_475_600,
            113_714_180,
            -14_028_810,
        ];
        let row = row(43).unwrap();
        for ((ten, eleven), b) in GROUP_10.into_iter().zip(GROUP_11).zip(row) {
            let interpolated = 5_468_932 * i128::from(ten) + 4_531_068 * i128::from(eleven);
            let unit = 10_i128.pow(11);
            assert_eq!((interpolated + unit / 2).div_euclid(unit), b.into());
        }
        // "2.0 (i.e., 1 + r) plus the sum of the coefficients": 2.3255814
        assert_eq!(20_000_000 + sum(&row), 23_255_814);
    }

    // ---- the call

    /// The thousandths and the double of three columns at five entry ratios.
    #[test]
    fn fifteen_charges() {
        for (column, entry_ratio, thousandths, bits) in FIFTEEN {
            let charge = charge(column, entry_ratio).unwrap();
            let found = (charge.thousandths, charge.charge.to_bits());
            assert_eq!(found, (thousandths, bits), ".{column} at {entry_ratio}");
        }
    }

    /// b2 + r × (b3 + .. + r × b8).
    fn nested(b: [f64; 7], r: f64) -> f64 {
        b.into_iter().rev().reduce(|sum, b| b + r * sum).unwrap()
    }

    /// b2 + b3 × r + .. + b8 × r⁶, a power after the other.
    fn by_powers(b: [f64; 7], r: f64) -> f64 {
        let (mut sum, mut power) = (b[0], 1.0);
        for b in &b[1..] {
            power *= r;
            sum += b * power;
        }
        sum
    }

    /// The same with a product and a sum rounded once.
    fn fused(b: [f64; 7], r: f64) -> f64 {
        b.into_iter()
            .rev()
            .reduce(|sum, b| r.mul_add(sum, b))
            .unwrap()
    }

    /// Two charges at which each of eight other ways to compute the formula gives
    /// another double.
    #[test]
    fn eight_other_ways_give_other_doubles() {
        for (column, entry_ratio, thousandths, bits) in [
            (50, 332, 176, 0x3fc6_8702_7cde_7b61),
            (51, 357, 172, 0x3fc5_f5cd_f127_b983),
        ] {
            let found = charge(column, entry_ratio).unwrap();
            let written = f64::from_bits(bits);
            assert_eq!((found.charge, found.thousandths), (written, thousandths));

            let whole = row(column).unwrap().map(f64::from);
            let b = whole.map(|b| b / 10_000_000.0);
            let h = f64::from(entry_ratio);
            let (r, s) = (h / 100.0, h * 0.01);
            let p = nested(b, r);
            assert_eq!(1.0 / (1.0 + r + r * r * p), written);
            for other in [
                1.0 / (1.0 + r + r * (r * p)),
                1.0 / (1.0 + (r + r * r * p)),
                1.0 / (1.0 + r * (1.0 + r * p)),
                1.0 / (1.0 + r + r * r * nested(whole.map(|b| b * 0.000_000_1), r)),
                1.0 / (1.0 + s + s * s * nested(b, s)),
                1.0 / (1.0 + r + r * r * (nested(whole, r) / 10_000_000.0)),
                1.0 / (1.0 + r + r * r * by_powers(b, r)),
                1.0 / (r * r).mul_add(fused(b, r), 1.0 + r),
            ] {
                assert_ne!(other, written);
            }
        }
    }

    #[test]
    fn at_nought_the_charge_is_one() {
        for column in COLUMNS {
            let charge = charge(column, 0).unwrap();
            assert_eq!((charge.charge, charge.thousandths), (1.0, 1_000));
        }
    }

    /// "At r 1.00 the thousandths equal ten times the column's hundredths."
    #[test]
    fn at_one_the_charge_is_the_column() {
        for column in COLUMNS {
            assert_eq!(charge(column, 100).unwrap().thousandths, 10 * column);
        }
    }

    #[test]
    fn thousandths_are_never_below_one_less_r() {
        for (column, entry_ratio) in pairs() {
            let thousandths = charge(column, entry_ratio).unwrap().thousandths;
            assert!(
                thousandths + 10 * entry_ratio >= 1_000,
                ".{column} at {entry_ratio}"
            );
            assert!(
                (1..=1_000).contains(&thousandths),
                ".{column} at {entry_ratio}"
            );
        }
    }

    /// What the words say of charges that no column has.
    #[test]
    fn thousandths_of_any_charge() {
        assert_eq!(thousandths(0.0, 500), 0);
        assert_eq!(thousandths(0.000_499_9, 500), 0);
        assert_eq!(thousandths(0.000_5, 500), 1);
        assert_eq!(thousandths(0.25, 100), 250);
        assert_eq!(thousandths(7.0, 100), 1_000);
        assert_eq!(thousandths(-1.0, 100), 0);
        assert_eq!(thousandths(f64::NAN, 100), 0);
        // "if below 1 − r, then 1 − r"
        assert_eq!(thousandths(0.25, 75), 250);
        assert_eq!(thousandths(0.25, 74), 260);
        assert_eq!(thousandths(0.0, 0), 1_000);
        assert_eq!(thousandths(0.0, 99), 10);
    }

    #[test]
    fn refusals() {
        for column in [0, 1, 3, 35, 53, 64, 100, 136, 360, 3_600, u32::MAX] {
            for entry_ratio in [0, 100, 500, 501, u32::MAX] {
                assert_eq!(
                    charge(column, entry_ratio),
                    Err(20),
                    "{column} at {entry_ratio}"
                );
            }
        }
        for column in COLUMNS {
            for entry_ratio in [501, 502, 600, 1_000, 1 << 31, u32::MAX - 1, u32::MAX] {
                assert_eq!(
                    charge(column, entry_ratio),
                    Err(21),
                    "{column} at {entry_ratio}"
                );
            }
            assert!(charge(column, 500).is_ok());
        }
    }

    // ---- the exact quotient

    #[test]
    fn exact_quotients() {
        let one = 10_i128.pow(23);
        for column in COLUMNS {
            assert_eq!(exact(column, 0), (one, one));
            let den = 10_i128.pow(16) * i128::from(sum(&row(column).unwrap()) + 20_000_000);
            assert_eq!(exact(column, 100), (one, den));
        }
        // .50 and .40 have the sums 0 and 0.5 exactly
        assert_eq!(exact(50, 100).1, 2 * one);
        assert_eq!(exact(40, 100).1, 25 * one / 10);
        // .43 at r 2.00: 3 + 4 × 0.3848930 − 8 × 0.1929981 + 16 × 0.1803976
        // − 32 × 0.0498168 + 64 × 0.0020876 + 128 × 0.0011522 − 256 × 0.0001341
        assert_eq!(exact(43, 200).1, 45_345_696 * 10_i128.pow(16));
    }

    #[test]
    fn every_charge_is_within_a_millionth() {
        for (column, entry_ratio) in pairs() {
            let charge = charge(column, entry_ratio).unwrap().charge;
            assert!(
                within_a_millionth(charge, column, entry_ratio),
                ".{column} at {entry_ratio}"
            );
        }
    }

    /// The largest distance is that of .51 at r 4.82, between 4.7322 and 4.7323
    /// parts of 10 to the fifteenth power.
    #[test]
    fn largest_distance() {
        let far = |(column, entry_ratio): (u32, u32)| {
            let charge = charge(column, entry_ratio).unwrap().charge;
            distance(charge, column, entry_ratio).unwrap()
        };
        let mut largest = (36, 0);
        for pair in pairs() {
            let ((over, under), (most_over, most_under)) = (far(pair), far(largest));
            if over.times(&most_under) > most_over.times(&under) {
                largest = pair;
            }
        }
        assert_eq!(largest, (51, 482));
        let (over, under) = far(largest);
        let over = over.times(&Natural::new(10_u128.pow(19)));
        assert!(over > under.times(&Natural::new(47_322)));
        assert!(over < under.times(&Natural::new(47_323)));
    }

    #[test]
    fn within_is_exact() {
        // at r 0 the quotient is 1, and 1 + 2^-20 is off by just that
        let near = 1.0 + 1.0 / 1_048_576.0;
        assert!(within(near, 44, 0, 1 << 20));
        assert!(!within(near, 44, 0, (1 << 20) + 1));
        assert!(within_a_millionth(near, 44, 0));
        // the doubles on both sides of 1 + a millionth and of 1 − a millionth
        assert!(within_a_millionth(
            f64::from_bits(0x3ff0_0001_0c6f_7a0b),
            44,
            0
        ));
        assert!(!within_a_millionth(
            f64::from_bits(0x3ff0_0001_0c6f_7a0c),
            44,
            0
        ));
        assert!(within_a_millionth(
            f64::from_bits(0x3fef_fffd_e721_0bea),
            44,
            0
        ));
        assert!(!within_a_millionth(
            f64::from_bits(0x3fef_fffd_e721_0be9),
            44,
            0
        ));
        // the last place of a double is seen
        assert!(within(1.0, 44, 0, u128::MAX));
        assert!(within(1.0 + f64::EPSILON, 44, 0, 1 << 52));
        assert!(!within(1.0 + f64::EPSILON, 44, 0, (1 << 52) + 1));
    }

    #[test]
    fn within_takes_any_double() {
        for outside in [
            0.0,
            -0.0,
            -1.0,
            0.5,
            2.0,
            f64::MAX,
            f64::MIN,
            f64::MIN_POSITIVE,
            f64::from_bits(1),
            f64::INFINITY,
            f64::NEG_INFINITY,
            f64::NAN,
        ] {
            for (column, entry_ratio) in [(36, 0), (44, 99), (52, 500)] {
                assert!(
                    !within_a_millionth(outside, column, entry_ratio),
                    "{outside}"
                );
            }
        }
        // 0 is off by all of the quotient, −1 at r 0 by 2
        assert!(within(0.0, 36, 0, 1) && !within(0.0, 36, 0, 2));
        assert!(!within(-1.0, 36, 0, 1));
    }

    #[test]
    fn binary_fractions() {
        assert_eq!(binary_fraction(1.0), Some((false, 1 << 52, -52)));
        assert_eq!(binary_fraction(-0.75), Some((true, 3 << 51, -53)));
        assert_eq!(binary_fraction(0.0), Some((false, 0, -1_074)));
        assert_eq!(binary_fraction(-0.0), Some((true, 0, -1_074)));
        assert_eq!(binary_fraction(f64::from_bits(1)), Some((false, 1, -1_074)));
        assert_eq!(
            binary_fraction(f64::MIN_POSITIVE),
            Some((false, 1 << 52, -1_074))
        );
        assert_eq!(binary_fraction(f64::MAX), Some((false, (1 << 53) - 1, 971)));
        assert_eq!(binary_fraction(f64::NAN), None);
        assert_eq!(binary_fraction(f64::NEG_INFINITY), None);
        for (column, entry_ratio) in pairs() {
            let charge = charge(column, entry_ratio).unwrap().charge;
            let (negative, significand, exponent) = binary_fraction(charge).unwrap();
            assert!(!negative && significand < 1 << 53);
            assert_eq!(significand as f64 * 2.0_f64.powi(exponent), charge);
        }
    }

    // ---- whole numbers of any length

    /// Numbers with all kinds of carries.
    fn wholes() -> Vec<u128> {
        let mut wholes = vec![0, 1, 2, 3, 10_u128.pow(23), u128::MAX, u128::MAX - 1];
        for bit in [31, 32, 33, 63, 64, 65, 95, 96, 97, 127] {
            wholes.extend([(1 << bit) - 1, 1 << bit, (1 << bit) + 1]);
        }
        wholes
    }

    #[test]
    fn naturals_of_128_bits() {
        for a in wholes() {
            for b in wholes() {
                let (x, y) = (Natural::new(a), Natural::new(b));
                assert_eq!(x.cmp(&y), a.cmp(&b));
                assert_eq!(x.apart(&y), Natural::new(a.abs_diff(b)));
                if let Some(sum) = a.checked_add(b) {
                    assert_eq!(x.plus(&y), Natural::new(sum));
                }
                if let Some(product) = a.checked_mul(b) {
                    assert_eq!(x.times(&y), Natural::new(product));
                }
            }
        }
    }

    #[test]
    fn naturals_beyond_128_bits() {
        let natural = |a: &u128| Natural::new(*a);
        for x in wholes().iter().map(natural) {
            for y in wholes().iter().map(natural) {
                assert_eq!(x.times(&y), y.times(&x));
                assert_eq!(x.plus(&y), y.plus(&x));
                assert_eq!(x.plus(&y).apart(&y), x);
                // (x + y)² − (x − y)² = 4 × x × y
                let (sum, difference) = (x.plus(&y), x.apart(&y));
                let squares = sum.times(&sum).apart(&difference.times(&difference));
                assert_eq!(squares, x.times(&y).doubled(2));
                // x × y < (x + 1) × y unless y is 0
                let more = x.plus(&Natural::new(1)).times(&y);
                assert_eq!(x.times(&y) < more, y != Natural::new(0));
                assert_eq!(more.apart(&x.times(&y)), y);
            }
        }
    }

    #[test]
    fn naturals_doubled() {
        let mut number = Natural::new(0x1_0000_0001_8000_0003);
        let first = number.clone();
        for times in 0..1_200 {
            assert_eq!(first.doubled(times), number);
            number = number.plus(&number);
        }
        assert_eq!(Natural::new(0).doubled(1_100), Natural::new(0));
        assert_eq!(Natural::new(5).doubled(64), Natural::new(5 << 64));
        // (2^128 − 1)² = 2^256 − 2^129 + 1
        let most = Natural::new(u128::MAX);
        let square = Natural::new(1).doubled(256).plus(&Natural::new(1));
        assert_eq!(
            most.times(&most),
            square.apart(&Natural::new(1).doubled(129))
        );
    }
}
