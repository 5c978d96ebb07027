//! The text of a group: there and back, and each mistake by its line, field and limit.

use retro_tests::generator::Random;
use retro_tests::samples::{four_risks, scaffold, Sample, Values};
use retro_tests::second_rater;
use retro_tests::text::{parse, print};

const HEADER: &str = "5000 10000 2000 1100 10500 0 900 200";

/// What is said to a text with a mistake.
fn mistake(text: &str) -> String {
    parse(text.as_bytes()).unwrap_err().to_string()
}

#[test]
fn text_of_the_four_risks() {
    let text = format!("{HEADER}\n-\n3000 1000\n7000\n5000 6000 2000\n");
    assert_eq!(print(&four_risks()), text);
    assert_eq!(parse(text.as_bytes()), Ok(four_risks()));
}

#[test]
fn text_of_the_scaffold() {
    let text = format!("edition 2\n{HEADER}\n3000 +4000\n-\n1000 +4000 3000\n");
    assert_eq!(print(&scaffold()), text);
    assert_eq!(parse(text.as_bytes()), Ok(scaffold()));
    // The edition is 1 unless it is named, and may be named.
    let claims = format!("{HEADER}\n3000 4000\n-\n1000 4000 3000\n");
    let of_edition_1 = Sample {
        joined: None,
        ..scaffold()
    };
    assert_eq!(print(&of_edition_1), claims);
    assert_eq!(parse(claims.as_bytes()), Ok(of_edition_1.clone()));
    let named = format!("edition 1\n{claims}");
    assert_eq!(parse(named.as_bytes()), Ok(of_edition_1.clone()));
    // In edition 2 no claim need be joined.
    let unjoined = format!("edition 2\n{claims}");
    assert_eq!(
        parse(unjoined.as_bytes()),
        Ok(of_edition_1.in_edition_2(&[]))
    );
}

#[test]
fn edition_and_joined_claims_have_their_limits() {
    for line in [
        "edition",
        "edition 0",
        "edition 3",
        "edition 12",
        "edition 2 2",
        "edition +2",
    ] {
        assert_eq!(
            mistake(&format!("{line}\n{HEADER}\n7000\n")),
            "line 1, edition: a line with edition 1 or edition 2 alone, or no such line"
        );
    }
    // Another word, or the line in another place, is no edition.
    let said = mistake(&format!("Edition 2\n{HEADER}\n7000\n"));
    assert!(said.starts_with("line 1, loss limit: Edition is not "));
    let said = mistake(&format!("{HEADER}\nedition 2\n7000\n"));
    assert!(said.starts_with("line 2, claim 1 of risk 1: edition is not "));
    let said = mistake(&format!("edition 2\nedition 2\n{HEADER}\n7000\n"));
    assert!(said.starts_with("line 2, loss limit: edition is not "));

    // A joined claim is for edition 2, and is not a risk's first.
    for edition in ["", "edition 1\n"] {
        let line = if edition.is_empty() { 3 } else { 4 };
        assert_eq!(
            mistake(&format!("{edition}{HEADER}\n7\n5 +6\n")),
            format!("line {line}, claim 2 of risk 2: +6 is for edition 2")
        );
    }
    for claims in ["+3000", "+3000 4000", "+0 +0"] {
        let first = claims.split(' ').next().unwrap();
        assert_eq!(
            mistake(&format!("edition 2\n{HEADER}\n5 +6\n-\n{claims}\n")),
            format!("line 5, claim 1 of risk 3: {first} has no claim before it in the risk")
        );
    }
    let limit = "a whole number from 0 to 1048575 (dollars)";
    for word in ["+", "+1048576", "++5", "+-5", "5+", "+x"] {
        assert_eq!(
            mistake(&format!("edition 2\n{HEADER}\n5 {word}\n")),
            format!("line 3, claim 2 of risk 1: {word} is not {limit}")
        );
    }
    // The lines after that of the edition are counted with it.
    assert_eq!(
        mistake(&format!("edition 2\n{HEADER}\n7000\n\n")),
        "line 4, risk 2: a blank line; a risk without claims is a line with - alone"
    );
    assert_eq!(
        mistake(&format!("edition 2\n{HEADER}\n")),
        "line 3, risk 1: missing; a group has 1 to 255 risks"
    );
    let said = mistake("edition 2\n");
    assert!(said.starts_with("line 2, loss limit: missing; "), "{said}");
    let said = mistake("edition 2\n5000 10000 2000 1100 10500 0 900 950\n1\n");
    assert!(said.starts_with("line 2, minimum mark: 950 is above "));
}

#[test]
fn generated_groups_there_and_back() {
    let mut random = Random::new(1_930);
    let mut without_claims = 0;
    for _ in 0..2_000 {
        let sample = random.group();
        let text = print(&sample);
        assert_eq!(parse(text.as_bytes()).as_ref(), Ok(&sample));
        let group = second_rater::read(&sample.file(), 255, 16_065, 16_065).unwrap();
        assert_eq!(Sample::of(&group), sample);
        without_claims += sample.risks.iter().filter(|risk| risk.is_empty()).count();
    }
    assert!(without_claims > 1_000);
}

/// A text is taken if and only if Write takes its values.
#[test]
fn limits_are_those_of_write() {
    let mut random = Random::new(1_931);
    let mut taken = [0; 2];
    let mut joined_first = 0;
    for _ in 0..6_000 {
        let Values {
            edition,
            header,
            counts,
            claims,
            joined,
        } = random.values();
        let counted: usize = counts.iter().map(|&count| usize::from(count)).sum();
        let is_bit = |&bit: &u8| bit <= 1;
        let of_text = (1..=2).contains(&edition)
            && counted == claims.len()
            && joined.len() == claims.len()
            && joined.iter().all(is_bit)
            && (edition == 2 || !joined.contains(&1));
        if !of_text {
            // no text has another edition, other counts than its claims or other bits
            continue;
        }
        let sample = Sample::of(&second_rater::Group {
            edition,
            header,
            counts,
            claims,
            joined,
        });
        let written = sample.values().written(1 << 20);
        let parsed = parse(print(&sample).as_bytes());
        assert_eq!(parsed.is_ok(), written.is_ok(), "{parsed:?}");
        taken[edition as usize - 1] += usize::from(written.is_ok());
        joined_first += usize::from(written == Err(19));
    }
    let often = |times: &usize| (700..3_000).contains(times);
    assert!(taken.iter().all(often), "{taken:?}");
    assert!(joined_first > 50, "{joined_first}");
}

#[test]
fn each_header_value_has_its_limits() {
    // with the ends for marks, so that each mark beside them is in order
    let header = [5_000, 10_000, 2_000, 1_100, 10_500, 0, 6_000, 0];
    let limits = [
        ("loss limit", 0, 1_048_575, "dollars, 0 for no limit"),
        ("standard premium", 1, 4_194_303, "dollars"),
        ("expense provision", 0, 1_048_575, "dollars"),
        ("loss conversion factor", 1_000, 2_000, "thousandths"),
        ("tax multiplier", 10_000, 20_000, "ten-thousandths"),
        ("mark kind", 0, 1, "0 loss ratios, 1 entry ratios"),
        ("maximum mark", 0, 6_000, "thousandths"),
        ("minimum mark", 0, 6_000, "thousandths"),
    ];
    for (k, (name, least, most, unit)) in limits.into_iter().enumerate() {
        let with = |word: String| {
            let mut words = header.map(|value: u32| value.to_string());
            words[k] = word;
            format!("{}\n1\n", words.join(" "))
        };
        let limit = format!("a whole number from {least} to {most} ({unit})");
        for value in [least, most] {
            assert!(parse(with(value.to_string()).as_bytes()).is_ok());
        }
        for word in [
            (i64::from(least) - 1).to_string(),
            (most + 1).to_string(),
            "18446744073709551616".to_string(),
            format!("+{least}"),
            "1.05".to_string(),
            "-".to_string(),
            "x".to_string(),
        ] {
            let said = mistake(&with(word.clone()));
            assert_eq!(said, format!("line 1, {name}: {word} is not {limit}"));
        }
        let words = header.map(|value| value.to_string());
        let said = mistake(&format!("{}\n1\n", words[..k].join(" ")));
        assert_eq!(said, format!("line 1, {name}: missing; {limit}"));
    }
    assert_eq!(
        mistake(&format!("{HEADER} 4\n1\n")),
        "line 1, header: 9 values; the header has 8"
    );
    assert_eq!(
        mistake(""),
        "line 1, loss limit: missing; a whole number from 0 to 1048575 (dollars, 0 for no limit)"
    );
}

#[test]
fn minimum_mark_has_its_limit_in_the_maximum_mark() {
    let with = |kind: u32, maximum: u32, minimum: u32| {
        format!("5000 10000 2000 1100 10500 {kind} {maximum} {minimum}\n1\n")
    };
    for kind in [0, 1] {
        for (maximum, minimum) in [(0, 1), (900, 901), (900, 950), (5_999, 6_000), (0, 6_000)] {
            assert_eq!(
                mistake(&with(kind, maximum, minimum)),
                format!(
                    "line 1, minimum mark: {minimum} is above the maximum mark of {maximum} \
                     (thousandths)"
                )
            );
            for (maximum, minimum) in [(maximum, maximum), (minimum, minimum), (minimum, maximum)] {
                let sample = parse(with(kind, maximum, minimum).as_bytes()).unwrap();
                let header = sample.header;
                assert_eq!(
                    (header.maximum_mark, header.minimum_mark),
                    (maximum, minimum)
                );
                assert!(second_rater::read(&sample.file(), 1, 1, 1).is_ok());
            }
        }
    }
    // A mistake of one mark, or of the number of values, is named first.
    assert_eq!(
        mistake(&with(0, 900, 6_001)),
        "line 1, minimum mark: 6001 is not a whole number from 0 to 6000 (thousandths)"
    );
    assert_eq!(
        mistake("5000 10000 2000 1100 10500 0 900 950 4\n1\n"),
        "line 1, header: 9 values; the header has 8"
    );
    // It is named before a mistake of a later line.
    let said = mistake("5000 10000 2000 1100 10500 0 900 950\n\n");
    assert!(said.starts_with("line 1, minimum mark: "));
}

#[test]
fn blank_line_is_a_mistake_wherever_it_stands() {
    let said = |line| {
        let risk = line - 1;
        format!(
            "line {line}, risk {risk}: a blank line; a risk without claims is a line with - alone"
        )
    };
    assert_eq!(mistake(&format!("{HEADER}\n\n")), said(2));
    assert_eq!(mistake(&format!("{HEADER}\n\n7000\n")), said(2));
    assert_eq!(mistake(&format!("{HEADER}\n7000\n \n5\n")), said(3));
    assert_eq!(mistake(&format!("{HEADER}\n7000\n-\n\n")), said(4));
    assert!(mistake(&format!("\n{HEADER}\n7000\n")).starts_with("line 1, loss limit: missing"));
}

#[test]
fn claims_and_risks_have_their_limits() {
    let limit = "a whole number from 0 to 1048575 (dollars)";
    for word in ["1048576", "-1", "7000.50", "none"] {
        assert_eq!(
            mistake(&format!("{HEADER}\n-\n5 {word} 6\n")),
            format!("line 3, claim 2 of risk 2: {word} is not {limit}")
        );
    }
    assert_eq!(
        mistake(&format!("{HEADER}\n- 5\n")),
        format!("line 2, claim 1 of risk 1: - is not {limit}")
    );
    assert!(parse(format!("{HEADER}\n{}\n", ["1"; 63].join(" ")).as_bytes()).is_ok());
    assert_eq!(
        mistake(&format!("{HEADER}\n-\n{}\n", ["1"; 64].join(" "))),
        "line 3, risk 2: 64 claims; a risk has 0 to 63"
    );
    assert!(parse(format!("{HEADER}\n{}", "-\n".repeat(255)).as_bytes()).is_ok());
    assert_eq!(
        mistake(&format!("{HEADER}\n{}", "-\n".repeat(256))),
        "line 257, risk 256: a group has 1 to 255 risks"
    );
    assert_eq!(
        mistake(HEADER),
        "line 2, risk 1: missing; a group has 1 to 255 risks"
    );
}

/// What is said of a text with these bytes before it or, where there are words, in the place of the
/// space after them.
fn said_with(text: &str, words: &str, bytes: &[u8]) -> String {
    let (before, after) = match words {
        "" => ("", text),
        _ => text.split_once(&format!("{words} ")).unwrap(),
    };
    let text = [before.as_bytes(), words.as_bytes(), bytes, after.as_bytes()].concat();
    parse(&text).unwrap_err().to_string()
}

/// What may be taken for a separator and is none: in the place of a space, and before the first line.
#[test]
fn only_a_space_or_a_tab_separates() {
    let (four_risks, scaffold) = (print(&four_risks()), print(&scaffold()));
    for (character, name) in [
        ("\u{a0}", "U+00A0 no-break space"),
        ("\u{202f}", "U+202F narrow no-break space"),
        ("\u{2009}", "U+2009 thin space"),
        ("\u{3000}", "U+3000 ideographic space"),
        ("\u{feff}", "U+FEFF byte order mark"),
        ("\u{200b}", "U+200B zero width space"),
        ("\u{b}", "U+000B vertical tab"),
        ("\u{c}", "U+000C form feed"),
        ("\r", "U+000D carriage return"),
        ("\0", "U+0000 null"),
        ("\u{85}", "U+0085 next line"),
        ("\u{2028}", "U+2028 line separator"),
        (",", "U+002C comma"),
        ("'", "U+0027 apostrophe"),
        ("\u{2019}", "U+2019 right single quotation mark"),
        (";", "U+003B semicolon"),
        ("_", "U+005F underscore"),
        ("$", "U+0024 $"),
        ("\u{20ac}", "U+20AC"),
    ] {
        let why = format!("{name}: only a space or a tab separates");
        for (text, line) in [(&four_risks, 1), (&scaffold, 2)] {
            let said = |words: &str, with: &str| said_with(text, words, with.as_bytes());
            assert_eq!(said("", character), format!("line 1, field 1: {why}"));
            // between two fields, beside one, and alone between two
            let place = format!("line {line}, field 3: {why}");
            assert_eq!(said("2000", character), place);
            assert_eq!(said("2000", &format!("{character} ")), place);
            let place = format!("line {line}, field 4: {why}");
            assert_eq!(said("2000", &format!(" {character}")), place);
            assert_eq!(said("2000", &format!(" {character}\t")), place);
        }
    }
    // bytes that are no UTF-8: a no-break space, and the mark before a text, of other encodings
    for (bytes, name) in [(&b"\xa0"[..], "A0"), (b"\xff\xfe", "FF")] {
        let why = format!("byte {name}, which is no UTF-8: only a space or a tab separates");
        let said = |words| said_with(&four_risks, words, bytes);
        assert_eq!(said(""), format!("line 1, field 1: {why}"));
        assert_eq!(said("900"), format!("line 1, field 7: {why}"));
        assert_eq!(said("6000"), format!("line 5, field 2: {why}"));
    }
}

/// A no-break space between the thousands of claims: they are not counted as two claims each.
#[test]
fn separated_thousands_are_no_claims() {
    for character in ["\u{a0}", "\u{202f}", "\u{2009}", ",", "'", "\u{2019}"] {
        let text = format!("{HEADER}\n-\n3{character}000 1{character}000\n7{character}000\n");
        let said = mistake(&text);
        assert!(said.starts_with("line 3, field 1: U+"), "{said}");
        assert!(said.ends_with(": only a space or a tab separates"));
        let text = format!("{HEADER}\n-\n3000 1000 {character}\n");
        assert!(mistake(&text).starts_with("line 3, field 3: U+"));
        // alone in its line it is no blank line, and no risk
        let text = format!("{HEADER}\n-\n{character}\n");
        assert!(mistake(&text).starts_with("line 3, field 1: U+"));
    }
    assert_eq!(
        mistake(&format!("{HEADER}\n3000 7\u{663}5\n")),
        "line 2, field 2: U+0663 \u{663}: only 0 to 9 are digits"
    );
    assert_eq!(
        mistake(&format!("\u{ff11}{HEADER}\n1\n")),
        "line 1, field 1: U+FF11 \u{ff11}: only 0 to 9 are digits"
    );
    // a space leaves the 000, which is no claim, and no value of the header; 0 alone is one
    assert_eq!(
        mistake(&format!("{HEADER}\n-\n3 000 1 000\n")),
        "line 3, claim 2 of risk 2: 000 begins with a 0; thousands are not separated"
    );
    assert_eq!(
        mistake(&format!("{}\n1\n", HEADER.replacen("5000", "05000", 1))),
        "line 1, loss limit: 05000 begins with a 0; thousands are not separated"
    );
    let zeros = format!("{}\n0 0 1\n", HEADER.replacen("5000", "0", 1));
    assert!(parse(zeros.as_bytes()).is_ok());
    // the first such character is named, and a mistake of an earlier line before it
    let said = mistake(&format!("{HEADER}\n3000\u{a0}4,000\n"));
    assert!(said.starts_with("line 2, field 1: U+00A0 "), "{said}");
    let said = mistake(&format!("{HEADER}\n-1\n3\u{a0}000\n"));
    assert!(said.starts_with("line 2, claim 1 of risk 1: -1 is not "));
}

/// Lines end with a newline, or with a carriage return and a newline; a carriage return elsewhere is
/// a mistake, at the end of the text too.
#[test]
fn a_line_ends_with_a_newline() {
    let of_lines = |end: &str| format!("{HEADER}{end}-{end}3000 1000{end}7000{end}5000 6000 2000");
    for text in [
        of_lines("\n"),
        of_lines("\r\n"),
        of_lines("\n") + "\n",
        of_lines("\r\n") + "\r\n",
        of_lines("\n").replace(' ', "\t \t"),
        of_lines(" \r\n "),
    ] {
        assert_eq!(parse(text.as_bytes()), Ok(four_risks()), "{text:?}");
    }
    let carriage_return = "U+000D carriage return: only a space or a tab separates";
    for (text, place) in [
        (of_lines("\r"), "line 1, field 8"),
        (of_lines("\r\r\n"), "line 1, field 8"),
        (of_lines("\n\r"), "line 2, field 1"),
        (of_lines("\n") + "\r", "line 5, field 3"),
    ] {
        assert_eq!(mistake(&text), format!("{place}: {carriage_return}"));
    }
}

/// Of all characters the space, the tab and the ends of lines alone may stand between two numbers: no
/// other makes two claims of them, or one.
#[test]
fn no_other_character_is_taken() {
    let mut between = Vec::new();
    for character in '\0'..=char::MAX {
        let text = format!("{HEADER}\n3000{character}4000\n");
        match parse(text.as_bytes()) {
            Ok(sample) => between.push((character, sample.risks)),
            Err(mistake) => {
                let of_a_field = character.is_ascii_alphanumeric() || "+-.".contains(character);
                let name = format!("U+{:04X}", u32::from(character));
                assert_eq!(mistake.line, 2);
                assert_eq!(mistake.what.contains(&name), !of_a_field, "{mistake}");
            }
        }
    }
    let two = || vec![3_000, 4_000];
    assert_eq!(
        between,
        [
            ('\t', vec![two()]),
            ('\n', vec![vec![3_000], vec![4_000]]),
            (' ', vec![two()]),
        ]
    );
}
