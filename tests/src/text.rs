//! The text of a group, from which `grouptext` makes a group file and to which it takes one apart.
//!
//! The first line may be `edition 1` or `edition 2`; without it the edition is 1. The next line has
//! the eight header values in file order. Then each risk has a line with its claims, or with `-`
//! alone where it has none. Values are whole numbers in decimal digits, of which the first is no 0 but
//! for the number 0, and the minimum mark is at most the maximum mark. In edition 2 a claim that belongs to the accident of the claim before it
//! has a `+` before its digits. A blank line is a mistake wherever it stands: it could be a risk
//! without claims, or nothing.
//!
//! A line ends with a newline or a carriage return and a newline. Spaces and tabs separate the fields
//! of a line, and nothing else does: not a no-break space, which may stand between thousands, nor a
//! comma, nor a byte order mark before the first line.

use crate::samples::Sample;
use crate::second_rater::{Header, MOST_CLAIMS_PER_RISK, MOST_RISKS};
use std::fmt;

/// What the line of the edition begins with.
const EDITION: &str = "edition";
/// What a line of a risk without claims has.
const NO_CLAIMS: &str = "-";
/// What a claim begins with that belongs to the accident of the claim before it.
const JOINED: char = '+';
/// What separates the fields of a line.
const SEPARATORS: [u8; 2] = [b' ', b'\t'];
const SEPARATE: &str = "only a space or a tab separates";

/// A value of the text: its name, what it is counted in, the least and the most that it may be.
struct Value {
    name: &'static str,
    unit: &'static str,
    least: u32,
    most: u32,
}

const fn value(name: &'static str, unit: &'static str, least: u32, most: u32) -> Value {
    Value {
        name,
        unit,
        least,
        most,
    }
}

/// The header values in file order, within what Write takes.
const HEADER: [Value; 8] = [
    value("loss limit", "dollars, 0 for no limit", 0, 1_048_575),
    value("standard premium", "dollars", 1, 4_194_303),
    value("expense provision", "dollars", 0, 1_048_575),
    value("loss conversion factor", "thousandths", 1_000, 2_000),
    value("tax multiplier", "ten-thousandths", 10_000, 20_000),
    value("mark kind", "0 loss ratios, 1 entry ratios", 0, 1),
    value("maximum mark", "thousandths", 0, 6_000),
    value("minimum mark", "thousandths", 0, 6_000),
];

/// Their names.
pub const HEADER_NAMES: [&str; HEADER.len()] = {
    let mut names = [""; HEADER.len()];
    let mut k = 0;
    while k < names.len() {
        names[k] = HEADER[k].name;
        k += 1;
    }
    names
};

/// The header values in the same order.
pub fn header_values(header: &Header) -> [u32; HEADER.len()] {
    [
        header.loss_limit,
        header.standard_premium,
        header.expense,
        header.conversion,
        header.tax,
        header.mark_kind,
        header.maximum_mark,
        header.minimum_mark,
    ]
}

const CLAIM: Value = value("claim", "dollars", 0, 1_048_575);

impl fmt::Display for Value {
    fn fmt(&self, f: &mut fmt::Formatter) -> fmt::Result {
        let Value {
            unit, least, most, ..
        } = self;
        write!(f, "a whole number from {least} to {most} ({unit})")
    }
}

impl Value {
    /// The number that a word has for this value in its digits, or why it has none. No number begins
    /// with a zero but 0: the 000 of 3 000 is no claim of its own.
    fn of(&self, word: &str, digits: &str) -> Result<u32, String> {
        if digits.len() > 1 && digits.starts_with('0') {
            return Err(format!(
                "{word} begins with a 0; thousands are not separated"
            ));
        }
        let all = digits.bytes().all(|byte| byte.is_ascii_digit());
        let number = digits.parse().ok().filter(|_| all);
        number
            .filter(|number| (self.least..=self.most).contains(number))
            .ok_or_else(|| format!("{word} is not {self}"))
    }
}

/// Why a text is not the text of a group: the line, counted from 1, the field there, and what it may
/// be.
#[derive(Clone, Debug, PartialEq, Eq)]
pub struct Mistake {
    pub line: usize,
    pub field: String,
    pub what: String,
}

impl fmt::Display for Mistake {
    fn fmt(&self, f: &mut fmt::Formatter) -> fmt::Result {
        write!(f, "line {}, {}: {}", self.line, self.field, self.what)
    }
}

fn mistake(line: usize, field: impl Into<String>, what: impl Into<String>) -> Mistake {
    Mistake {
        line,
        field: field.into(),
        what: what.into(),
    }
}

/// The text of a group.
pub fn print(sample: &Sample) -> String {
    let mut text = match sample.edition() {
        1 => String::new(),
        edition => format!("{EDITION} {edition}\n"),
    };
    let header = header_values(&sample.header);
    text.push_str(&print_line(header.map(|value| value.to_string()).to_vec()));
    let mut joined = sample.joined().into_iter();
    for claims in &sample.risks {
        let print_claim = |(claim, joined): (&u32, u8)| match joined {
            0 => claim.to_string(),
            _ => format!("{JOINED}{claim}"),
        };
        let words = claims.iter().zip(joined.by_ref()).map(print_claim);
        text.push_str(&print_line(words.collect()));
    }
    text
}

fn print_line(mut words: Vec<String>) -> String {
    if words.is_empty() {
        words.push(NO_CLAIMS.to_string());
    }
    words.join(" ") + "\n"
}

/// A line of a text: its number, counted from 1, and its fields.
struct Line<'a> {
    number: usize,
    fields: Vec<&'a str>,
}

impl<'a> Line<'a> {
    /// The line of these bytes, of which a newline is the end. Its fields have letters, digits, `.`,
    /// `-` and `+` alone.
    fn of(bytes: &'a [u8], number: usize) -> Result<Line<'a>, Mistake> {
        let line = bytes
            .strip_suffix(b"\n")
            .map_or(bytes, |line| line.strip_suffix(b"\r").unwrap_or(line));
        let parts = line.split(|byte| SEPARATORS.contains(byte));
        let mut fields = Vec::new();
        for field in parts.filter(|part| !part.is_empty()) {
            match foreign(field) {
                None => fields.push(std::str::from_utf8(field).expect("it is ASCII")),
                Some(what) => {
                    let field = format!("field {}", fields.len() + 1);
                    return Err(mistake(number, field, what));
                }
            }
        }
        Ok(Line { number, fields })
    }
}

/// The first character of a field that no field has, and why it is none: what looks like a separator
/// is not taken for one.
fn foreign(field: &[u8]) -> Option<String> {
    let of_a_field = |&c: &char| c.is_ascii_alphanumeric() || matches!(c, '.' | '-' | '+');
    for chunk in field.utf8_chunks() {
        if let Some(c) = chunk.valid().chars().find(|c| !of_a_field(c)) {
            let what = match c.is_alphanumeric() {
                true => "only 0 to 9 are digits",
                false => SEPARATE,
            };
            return Some(format!("{}: {what}", name_of(c)));
        }
        if let Some(byte) = chunk.invalid().first() {
            return Some(format!("byte {byte:02X}, which is no UTF-8: {SEPARATE}"));
        }
    }
    None
}

/// A character by its number, and by its name or as it looks.
fn name_of(c: char) -> String {
    let name = NAMES.iter().find(|&&(named, _)| named == c);
    let name = match name {
        Some(&(_, name)) => name.to_string(),
        None if c.is_ascii_graphic() || c.is_alphanumeric() => c.to_string(),
        None => String::new(),
    };
    format!("U+{:04X} {name}", u32::from(c))
        .trim_end()
        .to_string()
}

/// Names of characters that are not seen, or taken for another, or that stand between thousands.
const NAMES: [(char, &str); 39] = [
    ('\u{0}', "null"),
    ('\u{b}', "vertical tab"),
    ('\u{c}', "form feed"),
    ('\u{d}', "carriage return"),
    ('\'', "apostrophe"),
    (',', "comma"),
    (';', "semicolon"),
    ('_', "underscore"),
    ('\u{85}', "next line"),
    ('\u{a0}', "no-break space"),
    ('\u{ad}', "soft hyphen"),
    ('\u{66c}', "arabic thousands separator"),
    ('\u{1680}', "ogham space mark"),
    ('\u{2000}', "en quad"),
    ('\u{2001}', "em quad"),
    ('\u{2002}', "en space"),
    ('\u{2003}', "em space"),
    ('\u{2004}', "three-per-em space"),
    ('\u{2005}', "four-per-em space"),
    ('\u{2006}', "six-per-em space"),
    ('\u{2007}', "figure space"),
    ('\u{2008}', "punctuation space"),
    ('\u{2009}', "thin space"),
    ('\u{200a}', "hair space"),
    ('\u{200b}', "zero width space"),
    ('\u{200c}', "zero width non-joiner"),
    ('\u{200d}', "zero width joiner"),
    ('\u{2013}', "en dash"),
    ('\u{2014}', "em dash"),
    ('\u{2019}', "right single quotation mark"),
    ('\u{2028}', "line separator"),
    ('\u{2029}', "paragraph separator"),
    ('\u{202f}', "narrow no-break space"),
    ('\u{205f}', "medium mathematical space"),
    ('\u{2060}', "word joiner"),
    ('\u{2212}', "minus sign"),
    ('\u{3000}', "ideographic space"),
    ('\u{feff}', "byte order mark"),
    ('\u{ff0c}', "fullwidth comma"),
];

/// The group of a text, which Write then takes, or the first mistake in it.
pub fn parse(bytes: &[u8]) -> Result<Sample, Mistake> {
    let ended = bytes.split_inclusive(|&byte| byte == b'\n').zip(1..);
    let mut lines = ended.map(|(line, number)| Line::of(line, number));
    let mut line = lines.next().transpose()?;
    let (mut edition, mut number) = (1, 1);
    let of_edition = |line: &&Line| line.fields.first() == Some(&EDITION);
    if let Some(named) = line.as_ref().filter(of_edition) {
        edition = parse_edition(named)?;
        number += 1;
        line = lines.next().transpose()?;
    }
    let header = parse_header(&line.map_or(Vec::new(), |line| line.fields), number)?;
    let (mut risks, mut joined) = (Vec::new(), Vec::new());
    for line in lines {
        let (claims, bits) = parse_risk(&line?, risks.len() + 1, edition)?;
        risks.push(claims);
        joined.push(bits);
    }
    if risks.is_empty() {
        let what = format!("missing; a group has 1 to {MOST_RISKS} risks");
        return Err(mistake(number + 1, "risk 1", what));
    }
    Ok(Sample {
        header,
        risks,
        joined: (edition == 2).then_some(joined),
    })
}

/// The line of the edition.
fn parse_edition(line: &Line) -> Result<u32, Mistake> {
    match line.fields[..] {
        [EDITION, "1"] => Ok(1),
        [EDITION, "2"] => Ok(2),
        _ => {
            let what = format!("a line with {EDITION} 1 or {EDITION} 2 alone, or no such line");
            Err(mistake(line.number, EDITION, what))
        }
    }
}

/// The line of the header values, by its fields and its number.
fn parse_header(words: &[&str], number: usize) -> Result<Header, Mistake> {
    let mut numbers = [0; HEADER.len()];
    for (k, value) in HEADER.iter().enumerate() {
        let wrong = |what| mistake(number, value.name, what);
        let word = words.get(k);
        let word = word.ok_or_else(|| wrong(format!("missing; {value}")))?;
        numbers[k] = value.of(word, word).map_err(wrong)?;
    }
    if words.len() > HEADER.len() {
        let what = format!("{} values; the header has {}", words.len(), HEADER.len());
        return Err(mistake(number, "header", what));
    }
    let [loss_limit, standard_premium, expense, conversion, tax, mark_kind, maximum_mark, minimum_mark] =
        numbers;
    if minimum_mark > maximum_mark {
        let what =
            format!("{minimum_mark} is above the maximum mark of {maximum_mark} (thousandths)");
        return Err(mistake(number, "minimum mark", what));
    }
    Ok(Header {
        loss_limit,
        standard_premium,
        expense,
        conversion,
        tax,
        mark_kind,
        maximum_mark,
        minimum_mark,
    })
}

/// The claims in the line of a risk, and their bits. The risks are counted from 1.
fn parse_risk(line: &Line, risk: usize, edition: u32) -> Result<(Vec<u32>, Vec<u8>), Mistake> {
    let &Line { number, ref fields } = line;
    let wrong = |what| mistake(number, format!("risk {risk}"), what);
    if fields.is_empty() {
        return Err(wrong(format!(
            "a blank line; a risk without claims is a line with {NO_CLAIMS} alone"
        )));
    }
    if risk > MOST_RISKS {
        return Err(wrong(format!("a group has 1 to {MOST_RISKS} risks")));
    }
    let (mut claims, mut joined) = (Vec::new(), Vec::new());
    if fields[..] == [NO_CLAIMS] {
        return Ok((claims, joined));
    }
    if fields.len() > MOST_CLAIMS_PER_RISK {
        let claims = fields.len();
        return Err(wrong(format!(
            "{claims} claims; a risk has 0 to {MOST_CLAIMS_PER_RISK}"
        )));
    }
    for (k, word) in fields.iter().enumerate() {
        let wrong = |what| {
            let field = format!("{} {} of risk {risk}", CLAIM.name, k + 1);
            mistake(number, field, what)
        };
        let digits = word.strip_prefix(JOINED);
        if digits.is_some() && edition == 1 {
            return Err(wrong(format!("{word} is for {EDITION} 2")));
        }
        if digits.is_some() && k == 0 {
            return Err(wrong(format!("{word} has no claim before it in the risk")));
        }
        claims.push(CLAIM.of(word, digits.unwrap_or(word)).map_err(wrong)?);
        joined.push(u8::from(digits.is_some()));
    }
    Ok((claims, joined))
}
