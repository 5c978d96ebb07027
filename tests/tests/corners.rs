//! The generator reaches the corners that the comparison is about, each many times.

use retro_tests::generator::{
    bits, first_bits, get, set, Quote, Random, Terms, MARK_KIND, MAXIMUM_MARK, MINIMUM_MARK, RISKS,
    STANDARD_PREMIUM,
};
use retro_tests::plans::{search, Books};
use retro_tests::samples::{ranges, Sample, Values, AMPLE};
use retro_tests::second_rater::{self, Guaranteed};
use std::collections::BTreeMap;
use std::fmt::Debug;

/// The dollars of a mark.
fn dollars(sample: &Sample, mark: u32) -> u64 {
    let header = &sample.header;
    let mark = u64::from(mark);
    if header.mark_kind == 0 {
        return mark * u64::from(header.standard_premium) / 1_000;
    }
    let limit = match header.loss_limit {
        0 => u64::MAX,
        limit => limit.into(),
    };
    let accidents = sample.accidents().concat().into_iter();
    let limited: u64 = accidents.map(|accident| accident.min(limit)).sum();
    mark * limited / (1_000 * sample.risks.len() as u64)
}

/// The corners at which a group lies.
fn corners(sample: &Sample) -> Vec<&'static str> {
    let header = &sample.header;
    let n = sample.risks.len();
    let claims = sample.claims();
    let mut corners = Vec::new();
    let mut at = |corner: &'static str, holds: bool| {
        if holds {
            corners.push(corner);
        }
    };
    at("1 risk", n == 1);
    at("255 risks", n == 255);
    at(
        "a risk without claims",
        sample.risks.iter().any(Vec::is_empty),
    );
    at(
        "a risk of 63 claims",
        sample.risks.iter().any(|risk| risk.len() == 63),
    );
    at("a claim of 0", claims.contains(&0));
    at("a claim of 1,048,575", claims.contains(&1_048_575));
    at("no limit", header.loss_limit == 0);
    at("limit 1", header.loss_limit == 1);
    at(
        "a claim equal to the limit",
        header.loss_limit > 0 && claims.contains(&header.loss_limit),
    );
    at(
        "a claim a dollar above the limit",
        claims.contains(&(header.loss_limit + 1)),
    );
    at("P 1", header.standard_premium == 1);
    at("P 4,194,303", header.standard_premium == 4_194_303);
    at("e 0", header.expense == 0);
    at("e 1,048,575", header.expense == 1_048_575);
    at("c 1.000", header.conversion == 1_000);
    at("c 2.000", header.conversion == 2_000);
    at("T 1.0000", header.tax == 10_000);
    at("T 2.0000", header.tax == 20_000);
    at("loss ratio marks", header.mark_kind == 0);
    at("entry ratio marks", header.mark_kind == 1);
    at("maximum mark 6.000", header.maximum_mark == 6_000);
    at("minimum mark 0", header.minimum_mark == 0);
    let apart = header.maximum_mark - header.minimum_mark;
    let loss_ratios = header.mark_kind == 0;
    at("equal loss ratio marks", loss_ratios && apart == 0);
    at("equal entry ratio marks", !loss_ratios && apart == 0);
    at("equal marks of 0", header.maximum_mark == 0);
    at("equal marks of 6.000", header.minimum_mark == 6_000);
    at("marks a thousandth apart", apart == 1);
    at("marks of 6.000 and 0", apart == 6_000);
    let end = bits(sample.edition(), n, claims.len());
    at("no fill bits", end.is_multiple_of(8));
    match second_rater::rate(&sample.file(), AMPLE) {
        Err(10) => at("refused 10", true),
        Err(12) => at("refused 12", true),
        Err(question) => panic!("a sound group is refused {question}"),
        Ok(rated) => {
            let marks = [header.maximum_mark, header.minimum_mark];
            let [maximum, minimum] = marks.map(|mark| dollars(sample, mark));
            let equal_dollars = apart > 0 && maximum == minimum;
            at(
                "loss ratio marks of equal dollars",
                loss_ratios && equal_dollars,
            );
            at(
                "entry ratio marks of equal dollars",
                !loss_ratios && equal_dollars,
            );
            at("basic 0", rated.basic == 0);
            at(
                "basic below a dollar a risk",
                rated.basic < 1_000 * n as i128,
            );
            at(
                "a ratable loss cut",
                rated.lines.iter().any(|risk| risk.ratable < risk.limited),
            );
            at(
                "a ratable loss raised",
                rated.lines.iter().any(|risk| risk.ratable > risk.limited),
            );
            let amount = rated.basic as u128 + rated.excess;
            let divisor = 10_000_000 * n as u128;
            at(
                "a premium at an exact half",
                rated.lines.iter().any(|risk| {
                    let converted = n as u128 * u128::from(header.conversion) * risk.ratable;
                    u128::from(header.tax) * (amount + converted) % divisor == divisor / 2
                }),
            );
        }
    }
    corners
}

/// So many corners, and no others, are reached by so many draws from this seed, each at least 50
/// times.
fn each_is_reached<Corner: Ord + Debug>(
    corners: usize,
    seed: u64,
    draws: u32,
    drawn: impl Fn(&mut Random) -> Vec<Corner>,
) {
    let mut random = Random::new(seed);
    let mut reached: BTreeMap<Corner, u32> = BTreeMap::new();
    for _ in 0..draws {
        for corner in drawn(&mut random) {
            *reached.entry(corner).or_default() += 1;
        }
    }
    assert_eq!(reached.len(), corners, "{reached:#?}");
    assert!(reached.values().all(|&times| times >= 50), "{reached:#?}");
}

#[test]
fn each_corner_is_reached() {
    each_is_reached(38, 1_965, 20_000, |random| corners(&random.group()));
}

/// The corners at which the accidents of a group lie; those of one claim each are in `corners`.
fn corners_of_accidents(sample: &Sample) -> Vec<String> {
    let Some(joined) = &sample.joined else {
        return vec!["edition 1".to_string()];
    };
    let limit = u64::from(sample.header.loss_limit);
    let cuts = |sum: u64| limit > 0 && sum > limit;
    let mut corners = vec!["edition 2".to_string()];
    let mut at = |corner: &str, holds: bool| {
        if holds {
            corners.push(corner.to_string());
        }
    };
    let claims = sample.claims();
    let any_joined = sample.joined().contains(&1);
    at("no bit set beside claims", !any_joined && claims.len() > 1);
    at("joined claims, no limit", any_joined && limit == 0);
    at(
        "joined claims, 255 risks",
        any_joined && joined.len() == 255,
    );
    let end = bits(2, joined.len(), claims.len());
    let fill = end.next_multiple_of(8) - end;
    at(&format!("{fill} fill bits in edition 2"), true);

    let sums = sample.accidents();
    for (risk, joined) in joined.iter().enumerate() {
        let dollars = &sample.risks[risk];
        let after = sample.risks.get(risk + 1);
        let next = after.is_some_and(|claims| !claims.is_empty());
        at(
            "a joined claim at the end of a risk before another's claims",
            next && joined.last() == Some(&1),
        );
        at(
            "all claims of a risk in one accident",
            dollars.len() > 1 && sums[risk].len() == 1,
        );
        for pair in sums[risk].windows(2) {
            let pair = [cuts(pair[0]), cuts(pair[1])];
            at("an accident cut, then one not cut", pair == [true, false]);
            at("an accident not cut, then one cut", pair == [false, true]);
        }
        for (accident, &sum) in ranges(joined).into_iter().zip(&sums[risk]) {
            let dollars = &dollars[accident];
            match dollars.len() {
                1 => {
                    at("an accident of one claim", true);
                    continue;
                }
                2 | 3 => at(&format!("an accident of {} claims", dollars.len()), true),
                63 => at("an accident of 63 claims", true),
                10.. => at("an accident of 10 to 62 claims", true),
                _ => {}
            }
            at("an accident of claims of 0", sum == 0);
            at("a joined claim of 0", dollars[1..].contains(&0));
            at("a claim of 0, then a joined one", dollars[0] == 0);
            at("an accident at the limit", limit > 0 && sum == limit);
            at("an accident a dollar below the limit", sum + 1 == limit);
            at(
                "an accident a dollar above the limit",
                cuts(sum) && sum == limit + 1,
            );
            let below = dollars.iter().all(|&claim| u64::from(claim) < limit);
            at(
                "an accident cut of claims below the limit",
                cuts(sum) && below,
            );
            let above = dollars.iter().filter(|&&claim| cuts(claim.into())).count();
            at("an accident with one claim above the limit", above == 1);
            at("an accident with two claims above the limit", above == 2);
        }
    }

    let unjoined = sample.in_edition_2(&[]);
    let rated = |sample: &Sample| second_rater::rate(&sample.file(), AMPLE);
    match (rated(sample), rated(&unjoined)) {
        (Ok(given), Ok(otherwise)) => {
            at("M by the bits", given.basic != otherwise.basic);
            at("Q by the bits", given.excess != otherwise.excess);
            at("premiums by the bits", given.premiums != otherwise.premiums);
        }
        (Ok(_), Err(_)) => at("rated by the bits", true),
        (Err(_), Ok(_)) => at("refused by the bits", true),
        (Err(_), Err(_)) => {}
    }
    corners.sort();
    corners.dedup();
    corners
}

#[test]
fn each_corner_of_accidents_is_reached() {
    each_is_reached(36, 2_021, 30_000, |random| {
        corners_of_accidents(&random.group())
    });
}

/// Which of so many first claims are joined, by their places.
fn which(joined: &[usize], first_claims: usize) -> &'static str {
    match joined {
        [0] if first_claims == 1 => "the only one",
        [0] => "the first alone",
        [one] if one + 1 == first_claims => "the last alone",
        [_] => "one between alone",
        _ => "several",
    }
}

/// The corners at which a file with the bit of a first claim set lies, and its other faults with
/// those of a room for the premiums and of an entry ratio.
fn corners_of_first_bits(file: &[u8], room: usize, entry_ratio: u32) -> Vec<String> {
    let first = first_bits(file);
    let is_set = |&k: &usize| get(file, first[k]) == 1;
    let joined: Vec<usize> = (0..first.len()).filter(is_set).collect();
    if joined.is_empty() {
        return Vec::new();
    }
    let question = second_rater::read(file, AMPLE, AMPLE, AMPLE).unwrap_err();
    if question != 19 {
        return vec![format!("{question} and 19")];
    }

    let mut corners = vec![format!("19 of {}", which(&joined, first.len()))];
    let mut at = |corner: &str, holds: bool| {
        if holds {
            corners.push(corner.to_string());
        }
    };
    // the other faults are those that remain with these bits cleared
    let mut cleared = file.to_vec();
    for &bit in &first {
        set(&mut cleared, bit, 0);
    }
    match second_rater::rate(&cleared, AMPLE) {
        Ok(rated) => {
            let enough = room >= 4 * rated.risks as usize;
            at("19 alone", enough && entry_ratio <= 600);
            at("19 and 13", !enough);
            at("19 and 14", entry_ratio > 600);
        }
        Err(question) => at(&format!("19 and {question}"), true),
    }
    corners
}

#[test]
fn each_corner_of_first_bits_is_reached() {
    // eight of a question before 19, five of the risks, 19 alone, and four of a question after it
    each_is_reached(18, 2_022, 60_000, |random| {
        let file = random.file();
        let room = random.room(4 * get(&file, RISKS) as usize);
        corners_of_first_bits(&file, room, random.entry_ratio())
    });
}

/// The corners at which the edition and the bits of values for Write lie, and their other faults.
fn corners_of_bits(values: &Values, room: usize) -> Vec<String> {
    let Values {
        edition,
        counts,
        claims,
        joined,
        ..
    } = values;
    let mut corners = Vec::new();
    let mut at = |corner: &str, holds: bool| {
        if holds {
            corners.push(corner.to_string());
        }
    };
    // a sound edition in place of another one
    let sound = Values {
        edition: if joined.contains(&1) { 2 } else { 1 },
        ..values.clone()
    };
    if !(1..=2).contains(edition) {
        at("edition 0", *edition == 0);
        at("edition 3 to 15", (3..16).contains(edition));
        let in_its_bits = matches!(edition % 16, 1 | 2);
        at("an edition with 1 or 2 in its last four bits", in_its_bits);
        match sound.written(room) {
            Ok(_) => at("2 alone", true),
            Err(question) => at(&format!("2 and {question}"), true),
        }
        return corners;
    }

    let mut first = 0;
    let mut first_claims = Vec::new();
    for &count in counts {
        if count > 0 && first < joined.len() {
            first_claims.push(first);
        }
        first += usize::from(count);
    }
    let is_set = |&k: &usize| joined[first_claims[k]] == 1;
    let joined_first: Vec<usize> = (0..first_claims.len()).filter(is_set).collect();
    match values.written(AMPLE) {
        Err(15) => {
            let without_bits = Values {
                joined: vec![0; claims.len()],
                ..values.clone()
            };
            if without_bits.written(AMPLE).is_err() {
                at("15 of other values and 19", !joined_first.is_empty());
                return corners;
            }
            let enough = room >= values.length();
            at("15 of the bits alone", enough);
            at("15 of the bits and 13", !enough);
            let with_19 = !joined_first.is_empty() && *edition == 2;
            at("15 of the bits and 19", with_19);
            let above_1 = joined.iter().any(|&bit| bit > 1);
            at(
                &format!("fewer bits in edition {edition}"),
                joined.len() < claims.len(),
            );
            at(
                &format!("more bits in edition {edition}"),
                joined.len() > claims.len(),
            );
            at(&format!("a bit above 1 in edition {edition}"), above_1);
            at("a bit of edition 1", *edition == 1 && joined.contains(&1));
        }
        Err(19) => {
            let risks = which(&joined_first, first_claims.len());
            at(&format!("19 of {risks}"), true);
            let enough = room >= values.length();
            at("19 alone", enough);
            at("19 and 13", !enough);
        }
        Err(question) => {
            let above_1 = joined.iter().any(|&bit| bit > 1);
            let length = joined.len() != claims.len();
            at(&format!("{question} and 15 of the bits"), above_1 || length);
            let of_2 = *edition == 2 && !joined_first.is_empty();
            at(&format!("{question} and 19"), of_2);
        }
        Ok(_) => {
            at(&format!("sound in edition {edition}"), true);
            at(&format!("13 in edition {edition}"), room < values.length());
        }
    }
    corners
}

#[test]
fn each_corner_of_bits_is_reached() {
    // three of another edition, ten of 2 with its other faults, eleven of a question before 15,
    // seven of the bits, four of 15 with its other faults, seven of 19, and four of what is sound
    each_is_reached(46, 2_023, 100_000, |random| {
        let values = random.values();
        let room = random.room(values.length());
        corners_of_bits(&values, room)
    });
}

/// The corner of crossed marks with a fault of a question that is asked before 18.
fn before_18(question: u32, maximum_mark: u32) -> String {
    match question {
        6 if maximum_mark > 6_000 => "6 and 18, both marks above".to_string(),
        _ => format!("{question} and 18"),
    }
}

/// The corners at which a minimum mark above the maximum mark lies, and the other faults of the
/// file and of an entry ratio beside it.
fn corners_of_file(file: &[u8], entry_ratio: u32) -> Vec<String> {
    let (maximum_mark, minimum_mark) = (get(file, MAXIMUM_MARK), get(file, MINIMUM_MARK));
    if minimum_mark <= maximum_mark {
        return Vec::new();
    }
    let question = second_rater::read(file, AMPLE, AMPLE, AMPLE).unwrap_err();
    if question != 18 {
        return vec![before_18(question, maximum_mark)];
    }

    let kind = ["loss ratio", "entry ratio"][get(file, MARK_KIND) as usize];
    let mut corners = vec![format!("{kind} marks")];
    let mut at = |corner: &str, holds: bool| {
        if holds {
            corners.push(format!("{kind} marks, {corner}"));
        }
    };
    at("a thousandth apart", minimum_mark - maximum_mark == 1);
    at("6.000 apart", minimum_mark - maximum_mark == 6_000);
    at("14", entry_ratio > 600);

    // the other faults are those that remain with the marks exchanged
    let mut exchanged = file.to_vec();
    set(&mut exchanged, MAXIMUM_MARK, minimum_mark);
    set(&mut exchanged, MINIMUM_MARK, maximum_mark);
    let answer = second_rater::rate(&exchanged, AMPLE).err().unwrap_or(0);
    match second_rater::read(&exchanged, AMPLE, AMPLE, AMPLE) {
        Err(question) => at(&question.to_string(), true),
        Ok(_) if answer == 10 => at("10", true),
        Ok(group) => {
            let sample = Sample::of(&group);
            let equal_dollars = dollars(&sample, maximum_mark) == dollars(&sample, minimum_mark);
            let on_1 = get(file, STANDARD_PREMIUM) == 1;
            at("equal dollars", equal_dollars);
            at("equal dollars, P 1", equal_dollars && on_1);
            at("no other fault", equal_dollars && answer == 0);
            // a negative basic of equal dollars is that of the file itself
            at("12", equal_dollars && answer == 12);
            at("above in dollars too", !equal_dollars);
        }
    }
    corners
}

#[test]
fn each_corner_of_crossed_marks_is_reached() {
    // seven of a question before 18, and fourteen of each kind of marks
    each_is_reached(35, 1_968, 60_000, |random| {
        let file = random.file();
        corners_of_file(&file, random.entry_ratio())
    });
}

/// The faults of values for Write beside a minimum mark above the maximum mark.
fn corners_of_values(values: &Values, room: usize) -> Vec<String> {
    let Values {
        edition,
        header,
        counts,
        claims,
        joined,
    } = values;
    if header.minimum_mark <= header.maximum_mark {
        return Vec::new();
    }
    let question = values.written(AMPLE).unwrap_err();
    if question != 18 {
        return vec![before_18(question, header.maximum_mark)];
    }

    let mut corners = Vec::new();
    let mut at = |corner: &str, holds: bool| {
        if holds {
            corners.push(corner.to_string());
        }
    };
    let mut exchanged = values.clone();
    exchanged.header.maximum_mark = header.minimum_mark;
    exchanged.header.minimum_mark = header.maximum_mark;
    match exchanged.written(AMPLE) {
        Ok(file) => {
            let enough = room >= file.len();
            at(
                "18 alone, loss ratio marks",
                enough && header.mark_kind == 0,
            );
            at(
                "18 alone, entry ratio marks",
                enough && header.mark_kind == 1,
            );
            at("18 and 13", !enough);
        }
        Err(7) => {
            at("18 and 7", claims.is_empty());
            at("18, 7 and claims without counts", !claims.is_empty());
        }
        Err(19) => at("18 and 19", true),
        Err(_) => {
            let counted: usize = counts.iter().map(|&count| usize::from(count)).sum();
            at("18 and a number of bits", joined.len() != claims.len());
            at("18 and a bit above 1", joined.iter().any(|&bit| bit > 1));
            at(
                "18 and a bit of edition 1",
                *edition == 1 && joined.contains(&1),
            );
            at("18 and 256 counts or more", counts.len() > 255);
            at(
                "18 and a count above 63",
                counts.iter().any(|&count| count > 63),
            );
            at("18 and a sum of counts", counted != claims.len());
            at(
                "18 and a claim",
                claims.iter().any(|&claim| claim >= 1 << 20),
            );
            at("18 and the loss limit", header.loss_limit >= 1 << 20);
            at("18 and P", header.standard_premium >= 1 << 22);
            at("18 and e", header.expense >= 1 << 20);
            at("18 and the mark kind", header.mark_kind > 1);
        }
    }
    corners
}

#[test]
fn each_corner_of_crossed_values_is_reached() {
    each_is_reached(23, 1_969, 60_000, |random| {
        let values = random.values();
        let room = random.room(values.length());
        corners_of_values(&values, room)
    });
}

/// The corners at which a schedule lies, and its faults beside those of the file and the buffers.
fn corners_of_quote(quote: &Quote) -> Vec<&'static str> {
    let rates = quote.schedule.map(|layer| layer.rate);
    let widths = quote.schedule.map(|layer| layer.width);
    let mut corners = Vec::new();
    let mut at = |corner: &'static str, holds: bool| {
        if holds {
            corners.push(corner);
        }
    };
    at("rate 0", rates.contains(&0));
    at("rate 1,000", rates.contains(&1_000));
    at("rate 1,001", rates.contains(&1_001));
    at("rate 4,294,967,295", rates.contains(&u32::MAX));
    at("width 1", widths[..3].contains(&1));
    at("width 4,294,967,295", widths[..3].contains(&u32::MAX));
    at("last width 0", widths[3] == 0);
    at("last width 4,294,967,295", widths[3] == u32::MAX);

    let above: Vec<usize> = (0..4).filter(|&row| rates[row] > 1_000).collect();
    let zero: Vec<usize> = (0..3).filter(|&row| widths[row] == 0).collect();
    let (refused_16, refused_17) = (!above.is_empty(), !zero.is_empty());
    let risks = match second_rater::rate(&quote.file, AMPLE) {
        Ok(rated) => rated.risks as usize,
        Err(question) => {
            at("12 and 16", question == 12 && refused_16);
            at("12 and 17", question == 12 && refused_17);
            let risks = get(&quote.file, RISKS) as usize;
            let short_premiums = quote.premiums_room < 4 * risks;
            let short_differences = quote.differences_room < risks;
            at(
                "18 and 13 of the premiums",
                question == 18 && short_premiums,
            );
            at(
                "18 and 13 of the differences",
                question == 18 && short_differences,
            );
            at("18 and 16", question == 18 && refused_16);
            at("18 and 17", question == 18 && refused_17);
            return corners;
        }
    };
    let short_premiums = quote.premiums_room < 4 * risks;
    let short_differences = quote.differences_room < risks;
    if short_premiums || short_differences {
        at("premiums alone too short", !short_differences);
        at("differences alone too short", !short_premiums);
        at("both too short", short_premiums && short_differences);
        at("13 and 16", refused_16);
        at("13 and 17", refused_17);
        return corners;
    }
    at("16 and 17", refused_16 && refused_17);
    at("first rate alone above 1,000", above == [0]);
    at("last rate alone above 1,000", above == [3]);
    at("first width alone 0", !refused_16 && zero == [0]);
    at("second width alone 0", !refused_16 && zero == [1]);
    at("third width alone 0", !refused_16 && zero == [2]);
    if let Ok(given) = second_rater::guaranteed(&quote.file, &quote.schedule, AMPLE, AMPLE) {
        corners.extend(corners_of_given(quote, &given));
    }
    corners
}

/// The corners at which the layers end, the discount is rounded and the differences lie.
fn corners_of_given(quote: &Quote, given: &Guaranteed) -> Vec<&'static str> {
    let premium = u64::from(quote.standard_premium());
    let mut corners = Vec::new();
    let mut at = |corner: &'static str, holds: bool| {
        if holds {
            corners.push(corner);
        }
    };
    let parts = quote.parts();
    at("P ends in the first layer", parts[0] == premium);
    at("P ends in the second layer", parts[1] > 0 && parts[2] == 0);
    at("P ends in the third layer", parts[2] > 0 && parts[3] == 0);
    at("P ends in the last layer", parts[3] > 0);
    let ends = [1, 2, 3].map(|rows| {
        let widths = quote.schedule[..rows].iter();
        widths.map(|layer| u64::from(layer.width)).sum::<u64>()
    });
    at("P ends with a layer", ends.contains(&premium));
    at("P ends a dollar before", ends.contains(&(premium + 1)));
    at("P ends a dollar after", ends.contains(&(premium - 1)));
    let past = |end: u64| end > u64::from(u32::MAX);
    at("two widths past 32 bits", parts[1] > 0 && past(ends[1]));
    at("three widths past 32 bits", parts[2] > 0 && past(ends[2]));
    let below = |end: u64| past(end) && end % (1 << 32) < premium;
    at(
        "an end below P if cut to 32 bits",
        ends.into_iter().any(below),
    );

    let thousandths = quote.thousandths();
    let nearest = |thousandths: u64| (thousandths + 500) / 1_000;
    assert_eq!(u128::from(nearest(thousandths)), given.discount);
    at("a discount of 0", given.discount == 0);
    at("a discount of P", given.discount == premium.into());
    at("an exact half", thousandths % 1_000 == 500);
    at("a thousandth below a half", thousandths % 1_000 == 499);
    at("a thousandth above a half", thousandths % 1_000 == 501);
    let by_layers = parts.iter().zip(&quote.schedule);
    let by_layers: u128 = by_layers
        .map(|(part, layer)| u128::from(nearest(part * u64::from(layer.rate))))
        .sum();
    at("less if rounded by layers", by_layers < given.discount);
    at("more if rounded by layers", by_layers > given.discount);

    let any = |sign: i128| given.differences.iter().any(|one| one.signum() == sign);
    at("a difference below 0", any(-1));
    at("a difference of 0", any(0));
    at("a difference above 0", any(1));
    at("a sum below 0", given.difference < 0);
    at("a sum above 0", given.difference > 0);
    corners
}

#[test]
fn each_corner_of_a_schedule_is_reached() {
    each_is_reached(47, 1_986, 40_000, |random| {
        corners_of_quote(&random.quote())
    });
}

/// The corners at which a maximum and a minimum premium lie beside the faults of the file, and the
/// mistakes that would give another plan.
fn corners_of_terms(terms: &Terms) -> Vec<String> {
    let Terms {
        ref file,
        maximum,
        minimum,
        ..
    } = *terms;
    let mut corners = Vec::new();
    let mut at = |corner: &str, holds: bool| {
        if holds {
            corners.push(corner.to_string());
        }
    };
    at("G 0", maximum == 0);
    at("G 4,294,967,295", maximum == u32::MAX);
    at("H 0", minimum == 0);
    at("H 4,294,967,295", minimum == u32::MAX);
    let crossed = minimum > maximum;
    let books = match Books::of(file) {
        Ok(books) => books,
        Err(question) => {
            at(&format!("{question} and 22"), crossed);
            return corners;
        }
    };
    let refused_12 = second_rater::rate(file, AMPLE).err() == Some(12);
    if crossed {
        let reaches = |bound| books.reaches(0, bound, bound);
        at("22, a dollar apart", minimum - maximum == 1);
        at("22, out of reach in either place", !reaches(minimum));
        at(
            "22, out of reach by G alone",
            !reaches(maximum) && reaches(minimum),
        );
        at("22, within reach in either place", reaches(maximum));
        at("22 and 12", refused_12);
        return corners;
    }
    let given = books.plan(maximum, minimum, terms.trials);
    at("23 and 12", given == Err(23) && refused_12);
    at("12 alone", given.is_ok() && refused_12);
    corners.extend(mistakes(terms, &books));
    corners
}

/// The mistakes by which the plan would be another one.
fn mistakes(terms: &Terms, books: &Books) -> Vec<String> {
    let Terms {
        ref file,
        maximum,
        minimum,
        trials,
    } = *terms;
    let given = books.plan(maximum, minimum, trials);
    let mut mistakes = Vec::new();
    let mut by = |mistake: &str, reaches: &dyn Fn(u32) -> bool| {
        if search(reaches, trials).ok_or(23) != given {
            mistakes.push(format!("another plan: {mistake}"));
        }
    };
    let total = |basic| books.total(basic, maximum, minimum);
    let premiums = |basic| books.premiums(basic, maximum, minimum);
    let (target, dollar) = (books.target(), books.dollar());
    by("more than the target", &|basic| total(basic) > target);

    let without_q = Books {
        excess: 0,
        ..books.clone()
    };
    let reaches = |books: &Books, basic| books.reaches(basic, maximum, minimum);
    by("Q left out", &|basic| reaches(&without_q, basic));
    let untaxed = Books {
        tax: 10_000,
        ..books.clone()
    };
    by("the target before tax", &|basic| {
        total(basic) >= untaxed.target()
    });
    by("the bounds before tax", &|basic| reaches(&untaxed, basic));
    let limited_target = Books {
        sum_total: books.limited.iter().sum(),
        ..books.clone()
    };
    by("SA in the target", &|basic| {
        total(basic) >= limited_target.target()
    });
    by("whole dollars of premiums", &|basic| {
        premiums(basic)
            .map(|premium| premium / dollar)
            .sum::<u128>()
            >= target / dollar
    });
    by("premiums as billed", &|basic| {
        let billed = premiums(basic).map(|premium| (2 * premium + dollar) / (2 * dollar));
        billed.sum::<u128>() * dollar >= target
    });
    by("no maximum", &|basic| {
        books.reaches(basic, u32::MAX, minimum)
    });
    by("no minimum", &|basic| books.reaches(basic, maximum, 0));

    let group = second_rater::read(file, AMPLE, AMPLE, AMPLE).unwrap();
    let sample = Sample::of(&group);
    let losses = sample
        .risks
        .iter()
        .map(|claims| claims.iter().map(|&claim| u128::from(claim)));
    let own_excess = Books {
        excess: 0,
        limited: losses.map(Iterator::sum).collect(),
        ..books.clone()
    };
    by("the excess of each risk its own", &|basic| {
        reaches(&own_excess, basic)
    });
    if sample.joined.is_some() {
        let unjoined = Books::of(&sample.in_edition_2(&[]).file()).unwrap();
        by("the limit of each claim", &|basic| {
            reaches(&unjoined, basic)
        });
    }
    if let Ok(rated) = second_rater::rate(file, AMPLE) {
        let ratable = Books {
            limited: rated.lines.iter().map(|line| line.ratable).collect(),
            ..books.clone()
        };
        by("K for A", &|basic| reaches(&ratable, basic));
    }
    mistakes
}

#[test]
fn each_corner_of_terms_is_reached() {
    // four of the bounds, twelve of a question before 22, five of 22, two of 12, twelve mistakes
    each_is_reached(35, 2_026, 30_000, |random| {
        corners_of_terms(&random.terms())
    });
}
