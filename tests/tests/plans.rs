//! Plans sold on premiums, job 6 of document 02, through the exported call: figures of known groups,
//! generated terms held to `plans`, the questions and their order, and extremes. On small groups the
//! second computation is held to a scan of every basic premium. Expected values are typed from the
//! papers or worked out beside the test.
//!
//! The gate runs 240,000 files with terms from a fixed seed. A longer run, with another seed:
//!
//!     RETRO_FILES=5000000 RETRO_SEED=7 cargo test --offline --release --test plans -- generated

use retro_tests::calls::{self, raw};
use retro_tests::comparison::{about_half_in_either_edition, compare_in_threads, say, setting};
use retro_tests::generator::{
    get, set, with, Random, Terms, EDITION, LOSS_LIMIT, MARK_KIND, MAXIMUM_MARK, MINIMUM_MARK,
    STANDARD_PREMIUM,
};
use retro_tests::guard::{Guarded, PLACES};
use retro_tests::held_calls::{Call, HeldCalls, TAKEN_OUT};
use retro_tests::plans::{self, after, search, Books, Plan, LARGEST_BASIC};
use retro_tests::samples::{
    bounds, four_risks, largest, largest_of_edition_2, one_claim_of_one, one_risk, scaffold,
    ten_risks, two_risks_of_ten, Sample,
};
use retro_tests::{refused_example, second_rater, QUESTIONS_OF_A_FILE};
use std::collections::BTreeMap;
use std::fs;
use std::ptr;
use std::sync::Mutex;
use std::time::Instant;

/// Generated terms in the gate.
const TERMS: u64 = 240_000;
/// The seed in the gate.
const SEED: u64 = 1_965;
/// How often each answer must occur at least, in either edition, and each kind of plan.
const LEAST: u64 = 200;
/// Small groups that are scanned.
const SCANNED: u32 = 200;

/// What the lent numbers hold before a call.
const BEFORE: Plan = Plan {
    made: 91,
    best: 92,
    short_of: -93,
};

/// Plan by the exported call. A refusal leaves the lent numbers as they were.
fn call(file: &[u8], maximum: u32, minimum: u32, trials: u32) -> Result<Plan, u32> {
    let mut given = BEFORE;
    let Plan {
        made,
        best,
        short_of,
    } = &mut given;
    let answer = calls::plan(file, maximum, minimum, trials, made, best, short_of);
    if answer != 0 {
        assert_eq!(given, BEFORE);
        return Err(answer);
    }
    Ok(given)
}

/// The trials made, the best basic premium and the largest known to fall short, of the call and by
/// both ways of the second computation.
#[track_caller]
fn plan(file: &[u8], maximum: u32, minimum: u32, trials: u32) -> Result<(u32, u32, i32), u32> {
    let given = call(file, maximum, minimum, trials);
    assert_eq!(given, plans::plan(file, maximum, minimum, trials));
    assert_eq!(given, plans::plan_directly(file, maximum, minimum, trials));
    given.map(|plan| (plan.made, plan.best, plan.short_of))
}

/// The finished plan with this basic premium.
fn finished(best: u32) -> Result<(u32, u32, i32), u32> {
    Ok((20, best, best as i32 - 1))
}

// ---- the figures

#[test]
fn four_risks_sold_on_premiums() {
    // A premium is 1.05 × (B + 825 + 1.1 × A), where A is 0, 4,000, 5,000 and 12,000, and the total
    // sought is 33,600.
    let file = four_risks().file();
    for (maximum, minimum, expected) in [
        // the premiums of the loss marks, whose M ÷ (1,000 × n) is 1,675
        (13_020, 4_935, finished(1_675)),
        // 5,000 + 1.05 × (2 × 2,955 + 9,900) + 12,000 = 33,600.50
        (12_000, 5_000, finished(2_130)),
        // 4 × 1,400 + 3,300 + 23,100 = 32,000
        (u32::MAX, 0, finished(1_400)),
        // bounds at the first and the last premium without effect, 2,336.25 and 16,196.25
        (16_197, 2_336, finished(1_400)),
        // the mean
        (8_400, 8_400, finished(0)),
        (8_401, 8_400, finished(0)),
        (u32::MAX, 8_400, finished(0)),
        (u32::MAX, u32::MAX, finished(0)),
        (8_399, 0, Err(23)),
        (8_399, 8_399, Err(23)),
        (0, 0, Err(23)),
        // all four at the maximum: 1.05 × (7,175 + 825) = 8,400
        (8_400, 0, finished(7_175)),
        // 1.05 × 7,997 + 3 × 8,401 is 15 cents short
        (8_401, 0, finished(7_173)),
    ] {
        assert_eq!(
            plan(&file, maximum, minimum, 20),
            expected,
            "{maximum} {minimum}"
        );
        assert_eq!(plan(&file, maximum, minimum, 21), expected);
        assert_eq!(plan(&file, maximum, minimum, u32::MAX), expected);
        // 1,048,575 is looked at without a trial too
        let untried = expected.map(|_| (0, 1_048_575, -1));
        assert_eq!(plan(&file, maximum, minimum, 0), untried);
    }
    assert_eq!(plan(&file, 13_020, 4_935, 1), Ok((1, 524_287, -1)));
}

/// Each trial of the first plan: the best basic premium and the largest known to fall short.
#[test]
fn each_trial_of_the_first_plan() {
    let file = four_risks().file();
    let expected = [
        (1_048_575, -1),
        (524_287, -1),
        (262_143, -1),
        (131_071, -1),
        (65_535, -1),
        (32_767, -1),
        (16_383, -1),
        (8_191, -1),
        (4_095, -1),
        (2_047, -1),
        (2_047, 1_023),
        (2_047, 1_535),
        (1_791, 1_535),
        (1_791, 1_663),
        (1_727, 1_663),
        (1_695, 1_663),
        (1_679, 1_663),
        (1_679, 1_671),
        (1_675, 1_671),
        (1_675, 1_673),
        (1_675, 1_674),
    ];
    for (trials, (best, short_of)) in (0..).zip(expected) {
        assert_eq!(
            plan(&file, 13_020, 4_935, trials),
            Ok((trials, best, short_of))
        );
    }
    for trials in 20..60 {
        assert_eq!(plan(&file, 13_020, 4_935, trials), finished(1_675));
    }
    for power in 5..32 {
        for trials in [
            (1 << power) - 1,
            1 << power,
            (1 << power) + 1,
            !(1 << power),
        ] {
            assert_eq!(
                plan(&file, 13_020, 4_935, trials),
                finished(1_675),
                "{trials}"
            );
        }
    }
}

#[test]
fn the_ten_risks_of_document_001() {
    // A premium is B + 1.3 × A, and the total sought 95,800. The premiums of the loss marks are
    // from 4,640 to 13,740, with a basic premium of 2,040.
    let file = ten_risks().file();
    assert_eq!(plan(&file, 13_740, 4_640, 20), finished(2_040));
    // 10 × 1,780 + 78,000 = 95,800
    assert_eq!(plan(&file, u32::MAX, 0, 20), finished(1_780));
    assert_eq!(plan(&file, 9_580, 0, 20), finished(8_280));
    assert_eq!(plan(&file, 9_579, 0, 20), Err(23));
}

#[test]
fn the_limit_applies_to_an_accident() {
    // A is 5,000, 0 and 8,000, the excess loss charge 733.33 a risk, the total sought 22,050.
    let file = scaffold().file();
    // 3 × 1,500 + 2,200 + 14,300 = 21,000
    assert_eq!(plan(&file, u32::MAX, 0, 20), finished(1_500));
    // 1.05 × (2 × 767 + 1,466.67 + 14,300) + 3,885 = 22,050.70
    assert_eq!(plan(&file, u32::MAX, 3_885, 20), finished(767));
    // each claim an accident of its own: A is 7,000, 0 and 8,000, and nothing is cut off;
    // 1.05 × (2 × 400 + 16,500) + 3,885 = 22,050
    let sample = scaffold().in_edition_2(&[]);
    assert_eq!(plan(&sample.file(), u32::MAX, 3_885, 20), finished(400));
    let mut sample = scaffold();
    sample.joined = None;
    assert_eq!(plan(&sample.file(), u32::MAX, 3_885, 20), finished(400));
}

#[test]
fn a_total_that_is_hit_exactly_reaches() {
    // Premiums of B and B + 20, and the total sought is 30.
    let mut sample = two_risks_of_ten(1_000);
    sample.header.expense = 5;
    sample.risks = vec![vec![], vec![20]];
    let file = sample.file();
    assert_eq!(plan(&file, u32::MAX, 0, 20), finished(5));
    assert_eq!(plan(&file, 18, 0, 20), finished(12));
    assert_eq!(plan(&file, 18, 12, 20), finished(0));
    // the same answer, and 70 more than is sought
    assert_eq!(plan(&file, 60, 50, 20), finished(0));
    let books = Books::of(&file).unwrap();
    assert_eq!(books.target(), 30 * books.dollar());
    assert_eq!(books.total(0, 18, 12), 30 * books.dollar());
    assert_eq!(books.total(0, 60, 50), 100 * books.dollar());
    assert_eq!(plan(&file, 15, 0, 20), finished(15));
    assert_eq!(plan(&file, 15, 15, 20), finished(0));
    assert_eq!(plan(&file, 14, 0, 20), Err(23));
}

#[test]
fn parts_of_a_dollar_count() {
    // The same with T 1.0001: the total sought is 30.003.
    let mut sample = two_risks_of_ten(1_000);
    sample.header.expense = 5;
    sample.header.tax = 10_001;
    sample.risks = vec![vec![], vec![20]];
    let file = sample.file();
    assert_eq!(plan(&file, u32::MAX, 0, 20), finished(5));
    // 12.0012 + 18 and 14.0014 + 16 fall short, and so does 15 + 15
    assert_eq!(plan(&file, 18, 0, 20), finished(13));
    assert_eq!(plan(&file, 16, 0, 20), finished(15));
    assert_eq!(plan(&file, 15, 0, 20), Err(23));

    // Three risks of thirds of a dollar: a claim of 2 is cut to 1, and the other 1 is charged to
    // all. B + 4/3, B + 1/3 and B + 1/3, and the total sought is 2.
    let mut sample = one_claim_of_one(3);
    sample.header.loss_limit = 1;
    sample.risks[0] = vec![2];
    let file = sample.file();
    assert_eq!(plan(&file, u32::MAX, 0, 20), finished(0));
    assert_eq!(plan(&file, 2, 0, 20), finished(0));
    // 1 + 1/3 + 1/3 is a third short
    assert_eq!(plan(&file, 1, 0, 20), finished(1));
    assert_eq!(plan(&file, 1, 1, 20), finished(0));
}

/// Two risks with c 1.001, T 1.0501 and e 10, of which the first is cut to the maximum: the total is
/// one part of a dollar short of what is sought, hits it, and is one part over, where a dollar has
/// 10,000,000 × n parts.
#[test]
fn the_smallest_part_of_a_dollar_counts() {
    let mut sample = two_risks_of_ten(1_001);
    sample.header.tax = 10_501;
    sample.header.expense = 10;
    for (loss_limit, first, second, maximum, basic, over) in [
        // 2,751 + 1,051.41209995, and 3,802.4121 is sought
        (2_851, 2_852, 749, 2_751, 251, -1),
        // 10,501 + 652.1121, and 11,153.1121 is sought
        (10_601, 10_601, 0, 10_501, 621, 0),
        // 7,750 + 777.86210005, and 8,527.8621 is sought
        (7_850, 7_851, 250, 7_750, 490, 1),
    ] {
        sample.header.loss_limit = loss_limit;
        sample.risks = vec![vec![first], vec![second]];
        let file = sample.file();
        let books = Books::of(&file).unwrap();
        let total = books.total(basic, maximum, 0) as i128;
        assert_eq!(total - books.target() as i128, over);
        let least = if over < 0 { basic + 1 } else { basic };
        assert_eq!(plan(&file, maximum, 0, 20), finished(least));
    }
}

// ---- the second computation

/// A scan of every basic premium, the division and the trials have the same least one, and the call
/// has it too.
#[test]
fn three_ways_agree_on_small_groups() {
    let mut random = Random::new(2_006);
    let mut scanned = 0;
    let mut reached = 0;
    while scanned < SCANNED {
        let terms = random.terms();
        let (maximum, minimum) = (terms.maximum, terms.minimum);
        let books = match Books::of(&terms.file) {
            Ok(books) if books.risks <= 5 && minimum <= maximum => books,
            _ => continue,
        };
        scanned += 1;
        let least = books.least_by_scan(maximum, minimum);
        assert_eq!(books.least_directly(maximum, minimum), least, "{terms:?}");
        for trials in (0..=21).chain([terms.trials]) {
            let expected = least.map(|least| after(least, trials));
            let reaches = |basic| books.reaches(basic, maximum, minimum);
            assert_eq!(search(reaches, trials), expected, "{terms:?}");
            let given = call(&terms.file, maximum, minimum, trials);
            assert_eq!(given, expected.ok_or(23), "{terms:?}");
        }
        reached += u32::from(least.is_some_and(|least| least > 0));
    }
    assert!(
        reached > SCANNED / 4,
        "{reached} with a basic premium above 0"
    );
}

/// The trials find each basic premium, whatever it is, as its binary digits have it.
#[test]
fn trials_find_each_basic_premium() {
    for least in (0..=LARGEST_BASIC)
        .step_by(97)
        .chain([1, 524_287, 524_288, LARGEST_BASIC])
    {
        for trials in 0..=21 {
            let mut looked_at = Vec::new();
            let reaches = |basic| {
                looked_at.push(basic);
                basic >= least
            };
            let plan = search(reaches, trials).unwrap();
            assert_eq!(plan, after(least, trials));
            // the first look is no trial, and nothing is looked at twice
            assert_eq!(looked_at.len(), plan.made as usize + 1);
            looked_at.sort_unstable();
            looked_at.dedup();
            assert_eq!(looked_at.len(), plan.made as usize + 1);
        }
    }
    for trials in [0, 1, 20, u32::MAX] {
        assert_eq!(search(|_| false, trials), None);
    }
}

// ---- the comparison

/// Generated terms, every lent number lying against unreadable pages.
#[test]
fn generated_terms() {
    let inputs = setting("RETRO_FILES", TERMS);
    let seed = setting("RETRO_SEED", SEED);
    say(&format!(
        "comparison: {inputs} files with terms of plans, seed {seed}"
    ));
    let start = Instant::now();
    let kinds = Mutex::new(BTreeMap::new());
    let counts = compare_in_threads(inputs, seed, |held_calls, random| {
        let terms = random.terms();
        let answer = held_calls.plan(&terms.file, terms.maximum, terms.minimum, terms.trials);
        let found = match answer {
            0 => kinds_of_plan(&terms),
            23 => kinds_out_of_reach(&terms),
            _ => return,
        };
        let mut kinds = kinds.lock().expect("no difference");
        for kind in found {
            *kinds.entry(kind).or_insert(0) += 1;
        }
    });
    let kinds = kinds.into_inner().expect("no difference");
    say(&counts.lines(&[Call::Plan]));
    for kind in KINDS {
        say(&format!("{:>8}  {kind}", kinds.get(kind).unwrap_or(&0)));
    }
    let of_made = |made: u32| kinds.get(&*format!("{made} made")).copied().unwrap_or(0);
    let made: Vec<String> = (0..=20).map(|made| of_made(made).to_string()).collect();
    say(&format!("trials made, 0 to 20: {}", made.join(" ")));
    say(&format!(
        "comparison: no difference, {:.1} s",
        start.elapsed().as_secs_f64()
    ));
    let rare = counts.rarer_than(LEAST, &[Call::Plan]);
    assert!(rare.is_empty(), "fewer than {LEAST} times: {rare:?}");
    assert_eq!(counts.of_any_call(TAKEN_OUT), 0);
    about_half_in_either_edition(&counts, Call::Plan);
    assert_eq!(kinds.len(), KINDS.len() + 21, "{kinds:?}");
    let rare: Vec<_> = kinds.iter().filter(|(_, &times)| times < LEAST).collect();
    assert!(rare.is_empty(), "fewer than {LEAST} times: {rare:?}");
}

/// The kinds of plans that are counted, beside the number of trials made.
const KINDS: [&str; 24] = [
    "edition 1, no loss limit",
    "edition 1, loss limit",
    "edition 2, no loss limit",
    "edition 2, loss limit",
    "more than 20 trials given",
    "unfinished",
    "finished, basic premium 0",
    "finished, basic premium above 0",
    "finished, basic premium 1,048,575",
    "H = G",
    "H 0, G 4,294,967,295",
    "a maximum that times 10,000,000 × n has 64 bits",
    "a total above 64 bits",
    "a target above 64 bits",
    "no premium held",
    "some premiums held, others not",
    "premiums below H, above G and between",
    "each premium held",
    "hit exactly, no premium held",
    "hit exactly, some premiums held",
    "over by less than a dollar",
    "a dollar of basic premium less is short by less than a dollar",
    "Rate refuses the file with 12",
    "out of reach by less than a dollar",
];

/// The kinds of an accepted plan, which is as the paper says.
fn kinds_of_plan(terms: &Terms) -> Vec<String> {
    let Terms {
        ref file,
        maximum,
        minimum,
        trials,
    } = *terms;
    let books = Books::of(file).unwrap();
    let plan = books.plan(maximum, minimum, trials).unwrap();
    hold_to_the_paper(&books, terms, plan);

    let Plan { made, best, .. } = plan;
    let mut kinds = vec![format!("{made} made")];
    let mut of = |kind: &str, holds: bool| {
        if holds {
            kinds.push(kind.to_string());
        }
    };
    let limit = ["no loss limit", "loss limit"][usize::from(get(file, LOSS_LIMIT) > 0)];
    of(&format!("edition {}, {limit}", get(file, EDITION)), true);
    of("more than 20 trials given", trials > 20);
    of("H = G", minimum == maximum);
    of("H 0, G 4,294,967,295", (maximum, minimum) == (u32::MAX, 0));
    let (total, target) = (books.total(best, maximum, minimum), books.target());
    let most = u128::from(maximum) * books.dollar();
    let least = u128::from(minimum) * books.dollar();
    let past = "a maximum that times 10,000,000 × n has 64 bits";
    of(past, most >= 1 << 63);
    of("a total above 64 bits", total >= 1 << 64);
    of("a target above 64 bits", target >= 1 << 64);
    of(
        "Rate refuses the file with 12",
        second_rater::rate(file, usize::MAX).err() == Some(12),
    );

    let not_held = books
        .limited
        .iter()
        .map(|&limited| books.not_held(best, limited));
    let not_held: Vec<u128> = not_held.collect();
    let below = not_held.iter().any(|&premium| premium < least);
    let above = not_held.iter().any(|&premium| premium > most);
    let between = not_held
        .iter()
        .any(|premium| (least..=most).contains(premium));
    let some = (below || above) && between;
    of("no premium held", !below && !above);
    of("some premiums held, others not", some);
    of(
        "premiums below H, above G and between",
        below && above && between,
    );
    of("each premium held", !between);

    if made < 20 {
        of("unfinished", true);
        return kinds;
    }
    of("finished, basic premium 0", best == 0);
    of("finished, basic premium above 0", best > 0);
    of("finished, basic premium 1,048,575", best == LARGEST_BASIC);
    let exactly = total == target;
    of("hit exactly, no premium held", exactly && !below && !above);
    of("hit exactly, some premiums held", exactly && some);
    of(
        "over by less than a dollar",
        !exactly && total - target < books.dollar(),
    );
    if best > 0 {
        let less = books.total(best - 1, maximum, minimum);
        let short = "a dollar of basic premium less is short by less than a dollar";
        of(short, target - less < books.dollar());
    }
    kinds
}

/// What the paper says of a plan: of the trials, of what reaches the total and what falls short, of
/// the least basic premium, and of how far the total is over.
fn hold_to_the_paper(books: &Books, terms: &Terms, plan: Plan) {
    let Terms {
        maximum,
        minimum,
        trials,
        ..
    } = *terms;
    let Plan {
        made,
        best,
        short_of,
    } = plan;
    assert_eq!(made, trials.min(20));
    assert_eq!(i64::from(best) - i64::from(short_of), 1 << (20 - made));
    assert!(books.reaches(best, maximum, minimum));
    if let Ok(short_of) = u32::try_from(short_of) {
        assert!(!books.reaches(short_of, maximum, minimum));
    } else {
        assert_eq!(short_of, -1);
    }
    let least = books.least_directly(maximum, minimum);
    assert_eq!(least.map(|least| after(least, trials)), Some(plan));
    if made == 20 {
        assert_eq!(least, Some(best));
        // n × T ÷ 10,000 dollars
        let over = books.total(best, maximum, minimum) - books.target();
        assert!(best == 0 || over <= 1_000 * books.risks * books.risks * books.tax);
    }
}

/// The kinds of a group whose total no basic premium reaches.
fn kinds_out_of_reach(terms: &Terms) -> Vec<String> {
    let books = Books::of(&terms.file).unwrap();
    let total = books.total(LARGEST_BASIC, terms.maximum, terms.minimum);
    match books.target() - total < books.dollar() {
        true => vec!["out of reach by less than a dollar".to_string()],
        false => Vec::new(),
    }
}

/// Each maximum and minimum premium around those of the four-risk group.
#[test]
fn each_bound_around_the_premiums() {
    let mut held_calls = HeldCalls::new();
    let file = four_risks().file();
    let around = [
        0,
        1,
        4_935,
        5_000,
        7_245,
        8_400,
        12_000,
        13_020,
        16_485,
        1 << 31,
        u32::MAX,
    ];
    let beside = |dollars: u32| [-2, -1, 0, 1, 2].map(|off| dollars.saturating_add_signed(off));
    let around: Vec<u32> = around.into_iter().flat_map(beside).collect();
    for &maximum in &around {
        for &minimum in &around {
            for trials in [0, 7, 19, 20] {
                let answer = held_calls.plan(&file, maximum, minimum, trials);
                let within_reach = if maximum < 8_400 { 23 } else { 0 };
                let expected = if minimum > maximum { 22 } else { within_reach };
                assert_eq!(answer, expected, "{maximum} {minimum}");
            }
        }
    }
}

// ---- the questions

/// Files that each fail one question of those that Plan asks of a file.
fn refused_files() -> Vec<(Vec<u8>, u32)> {
    let asked = QUESTIONS_OF_A_FILE
        .into_iter()
        .filter(|&question| question != 12);
    let file = |question| fs::read(refused_example(question)).unwrap();
    asked.map(|question| (file(question), question)).collect()
}

#[test]
fn questions_of_the_file_before_22_and_23() {
    let mut held_calls = HeldCalls::new();
    let files = refused_files();
    assert_eq!(files.len(), 12);
    for (file, question) in files {
        for (maximum, minimum) in bounds() {
            for trials in [20, 1, 0, u32::MAX] {
                assert_eq!(plan(&file, maximum, minimum, trials), Err(question));
                assert_eq!(held_calls.plan(&file, maximum, minimum, trials), question);
            }
        }
    }
    // The bounds are such that a sound file fails 22 and 23.
    let file = four_risks().file();
    let answers = bounds().map(|(maximum, minimum)| held_calls.plan(&file, maximum, minimum, 20));
    assert_eq!(answers, [0, 23, 22, 22, 22]);
}

#[test]
fn a_minimum_above_the_maximum_gives_22() {
    let file = four_risks().file();
    for (maximum, minimum) in [
        (8_400, 8_401),
        (13_020, 13_021),
        (4_935, 13_020),
        (0, u32::MAX),
        (u32::MAX - 1, u32::MAX),
        // in 31 or 16 bits the minimum is not above
        (20_000, 1 << 31),
        (20_000, 65_536 + 4_935),
        // within reach with the one or the other in both places
        (20_000, 20_001),
    ] {
        for trials in [0, 1, 20, u32::MAX] {
            assert_eq!(plan(&file, maximum, minimum, trials), Err(22));
        }
    }
    assert_eq!(plan(&file, 8_401, 8_401, 20), finished(0));
}

#[test]
fn question_22_before_23() {
    let file = four_risks().file();
    // 8,400 is the mean that reaches the total; at most 8,399 is out of reach in either place.
    for (maximum, minimum) in [
        (0, 1),
        (0, 8_399),
        (8_398, 8_399),
        (8_399, 8_400),
        (1, u32::MAX),
    ] {
        for trials in [0, 1, 20] {
            assert_eq!(plan(&file, maximum, minimum, trials), Err(22));
            assert_eq!(plan(&file, maximum, 0, trials), Err(23));
            assert_eq!(plan(&file, maximum, maximum, trials), Err(23));
        }
    }
}

#[test]
fn question_23_is_asked_whatever_the_trials() {
    let file = four_risks().file();
    for trials in [0, 1, 2, 19, 20, 21, 1 << 31, u32::MAX] {
        assert_eq!(plan(&file, 8_399, 0, trials), Err(23));
        assert_eq!(plan(&file, 8_399, 8_399, trials), Err(23));
        assert!(plan(&file, 8_400, 0, trials).is_ok());
    }
}

#[test]
fn a_negative_basic_of_rate_is_not_asked() {
    // c 2.000 and two risks of 10: B + 20 each, and the total sought is 20.
    let file = two_risks_of_ten(2_000).file();
    assert_eq!(calls::rated(&file, 8), Err(12));
    assert_eq!(plan(&file, u32::MAX, 0, 20), finished(0));
    assert_eq!(plan(&file, 10, 0, 20), finished(0));
    assert_eq!(plan(&file, 9, 0, 20), Err(23));
    assert_eq!(plan(&file, 9, 10, 20), Err(22));
    let file = fs::read(refused_example(12)).unwrap();
    assert_eq!(calls::rated(&file, 1_020), Err(12));
    assert!(plan(&file, u32::MAX, 0, 20).is_ok());
}

/// Marks that pass 6 and 18, whatever their kind, and P above 0 change no plan.
#[test]
fn marks_are_not_used_further() {
    for sample in [four_risks(), ten_risks(), scaffold()] {
        let file = sample.file();
        for (maximum, minimum) in [(13_020, 4_935), (12_000, 5_000), (9_580, 0), (u32::MAX, 0)] {
            for trials in [0, 13, 20] {
                let expected = plan(&file, maximum, minimum, trials);
                for (maximum_mark, minimum_mark) in [
                    (0, 0),
                    (1, 0),
                    (900, 900),
                    (6_000, 0),
                    (6_000, 6_000),
                    (200, 199),
                ] {
                    for (kind, standard_premium) in [(0, 1), (1, 1), (0, 4_194_303), (1, 10_000)] {
                        let mut file = file.clone();
                        set(&mut file, MAXIMUM_MARK, maximum_mark);
                        set(&mut file, MINIMUM_MARK, minimum_mark);
                        set(&mut file, MARK_KIND, kind);
                        set(&mut file, STANDARD_PREMIUM, standard_premium);
                        assert_eq!(plan(&file, maximum, minimum, trials), expected);
                    }
                }
                let above = with(&file, MAXIMUM_MARK, 6_001);
                assert_eq!(plan(&above, maximum, minimum, trials), Err(6));
                let crossed = with(&with(&file, MAXIMUM_MARK, 199), MINIMUM_MARK, 200);
                assert_eq!(plan(&crossed, maximum, minimum, trials), Err(18));
            }
        }
    }
}

/// The same claims in either edition have the same plans where no claim is joined.
#[test]
fn either_edition() {
    for sample in [four_risks(), ten_risks(), one_claim_of_one(3), one_risk(1)] {
        let (of_1, of_2) = (sample.file(), sample.in_edition_2(&[]).file());
        for (maximum, minimum) in [(13_020, 4_935), (u32::MAX, 0), (10_000, 10_000), (1, 0)] {
            for trials in [0, 5, 20] {
                let expected = plan(&of_1, maximum, minimum, trials);
                assert_eq!(plan(&of_2, maximum, minimum, trials), expected);
            }
        }
    }
}

// ---- extremes

/// The plans of a group with this least basic premium, with few trials and with the most.
#[track_caller]
fn has_least(sample: &Sample, maximum: u32, minimum: u32, least: u32) {
    let mut held_calls = HeldCalls::new();
    let file = sample.file();
    for trials in [0, 1, 10, 19, 20, 21, u32::MAX] {
        let Plan {
            made,
            best,
            short_of,
        } = after(least, trials);
        let expected = Ok((made, best, short_of));
        assert_eq!(plan(&file, maximum, minimum, trials), expected);
        assert_eq!(held_calls.plan(&file, maximum, minimum, trials), 0);
    }
}

/// No basic premium reaches the total, with trials or without.
#[track_caller]
fn is_out_of_reach(sample: &Sample, maximum: u32, minimum: u32) {
    for trials in [0, 20, u32::MAX] {
        assert_eq!(plan(&sample.file(), maximum, minimum, trials), Err(23));
    }
}

#[test]
fn the_largest_group() {
    // 2 × (B + 2 × 66,060,225) each, and a mean of 2 × (1,048,575 + 66,060,225) is sought.
    let sample = largest();
    let mean = 134_217_600;
    has_least(&sample, u32::MAX, 0, 0);
    has_least(&sample, u32::MAX, u32::MAX, 0);
    has_least(&sample, u32::MAX, mean, 0);
    has_least(&sample, mean, mean, 0);
    has_least(&sample, mean, 0, 0);
    is_out_of_reach(&sample, mean - 1, 0);
    is_out_of_reach(&sample, mean - 1, mean - 1);
    is_out_of_reach(&sample, 0, 0);

    // With c 1.000 the premium is 2 × (B + 66,060,225): the last basic premium of all.
    let mut sample = largest();
    sample.header.conversion = 1_000;
    has_least(&sample, u32::MAX, 0, 1_048_575);
    has_least(&sample, mean, 0, 1_048_575);
    has_least(&sample, mean, mean - 1, 1_048_575);
    has_least(&sample, mean, mean, 0);
    has_least(&sample, u32::MAX, u32::MAX, 0);
    is_out_of_reach(&sample, mean - 1, 0);
    // A dollar less for expenses, and the basic premium is a dollar less.
    sample.header.expense -= 1;
    has_least(&sample, u32::MAX, 0, 1_048_574);
}

#[test]
fn the_largest_group_of_edition_2() {
    // Of 63 claims 31 are cut off, of each risk alike: with what is charged for them the premiums
    // are those of edition 1.
    let mut sample = largest_of_edition_2();
    has_least(&sample, u32::MAX, 0, 0);
    has_least(&sample, u32::MAX, u32::MAX, 0);
    sample.header.conversion = 1_000;
    has_least(&sample, u32::MAX, 0, 1_048_575);
    is_out_of_reach(&sample, 134_217_599, 0);
}

/// The largest premium of all is that of a risk of which nothing is cut off, where each of the other
/// risks has one accident, of which all but the limit is.
#[test]
fn the_largest_premium() {
    let mut sample = largest();
    sample.header.loss_limit = 1_048_575;
    let joined = (1..255).flat_map(|risk| (1..63).map(move |claim| (risk, claim)));
    let mut sample = sample.in_edition_2(&joined.collect::<Vec<_>>());
    // The excess loss charge alone is 2 × 2 × 62 × 254 ÷ 255 × 1,048,575 a risk, above the mean.
    has_least(&sample, u32::MAX, 0, 0);
    has_least(&sample, 134_217_600, 0, 0);
    is_out_of_reach(&sample, 134_217_599, 0);

    // With c 1.000 the premiums without a basic premium total the taxed losses, and e is wanting.
    sample.header.conversion = 1_000;
    has_least(&sample, u32::MAX, 0, 1_048_575);
    has_least(&sample, 134_217_600, 134_217_600, 0);
    is_out_of_reach(&sample, 134_217_600, 0);
    // The total is reached as long as not even a part of a dollar is cut off the first premium.
    let books = Books::of(&sample.file()).unwrap();
    let first = books
        .not_held(LARGEST_BASIC, books.limited[0])
        .div_ceil(books.dollar());
    let first = u32::try_from(first).unwrap();
    has_least(&sample, first, 0, 1_048_575);
    is_out_of_reach(&sample, first - 1, 0);
}

#[test]
fn the_smallest_group() {
    // One risk with a claim of 1: B + 1, and 1 is sought; in a file of 20 bytes.
    let mut sample = one_claim_of_one(1);
    assert_eq!(sample.file().len(), 20);
    has_least(&sample, u32::MAX, 0, 0);
    has_least(&sample, 1, 0, 0);
    has_least(&sample, 1, 1, 0);
    is_out_of_reach(&sample, 0, 0);
    // 1,048,576 sought: the last basic premium of all
    sample.header.expense = 1_048_575;
    has_least(&sample, u32::MAX, 0, 1_048_575);
    has_least(&sample, 1_048_576, 0, 1_048_575);
    has_least(&sample, 1_048_576, 1_048_575, 1_048_575);
    has_least(&sample, 1_048_576, 1_048_576, 0);
    is_out_of_reach(&sample, 1_048_575, 0);
    for expense in [1, 2, 3, 524_286, 524_287, 524_288, 1_048_574] {
        sample.header.expense = expense;
        has_least(&sample, u32::MAX, 0, expense);
        has_least(&sample, expense + 1, 0, expense);
        is_out_of_reach(&sample, expense, 0);
    }
}

// ---- what Rate gives

/// Without bounds in effect the least basic premium is that of step 4 without marks, rounded up to
/// whole dollars, and not below 0: 1,000 × n × e − (c − 1,000) × SL over 1,000 × n.
#[test]
fn without_bounds_by_one_division() {
    let mut random = Random::new(1_986);
    let (mut above_0, mut whole, mut by_rate) = (0, 0, 0);
    for _ in 0..4_000 {
        let sample = random.group();
        let file = sample.file();
        if Books::of(&file).is_err() {
            continue;
        }
        let n = sample.risks.len() as i64;
        let losses: i64 = sample.claims().iter().map(|&claim| i64::from(claim)).sum();
        let converted = i64::from(sample.header.conversion - 1_000) * losses;
        let basic = 1_000 * n * i64::from(sample.header.expense) - converted;
        let least = match basic {
            ..=0 => 0,
            _ => (basic as u64).div_ceil(1_000 * n as u64) as u32,
        };
        let Plan { best, .. } = call(&file, u32::MAX, 0, 20).unwrap();
        assert_eq!(best, least, "{sample:?}");
        above_0 += u32::from(least > 0);
        whole += u32::from(basic > 0 && basic % (1_000 * n) == 0);

        // marks of 6.000 and 0 that no A meets: M of Rate is the same
        let open = with(&with(&file, MAXIMUM_MARK, 6_000), MINIMUM_MARK, 0);
        let Ok(rated) = second_rater::rate(&open, usize::MAX) else {
            continue;
        };
        if rated.lines.iter().all(|line| line.ratable == line.limited) {
            assert_eq!(rated.basic, i128::from(basic));
            let given = calls::rated(&open, 1_020).unwrap();
            assert_eq!(u64::from(best), given.numbers.1.div_ceil(1_000 * n as u64));
            by_rate += 1;
        }
    }
    let counts = (above_0, whole, by_rate);
    assert!(above_0 > 500 && whole > 200 && by_rate > 200, "{counts:?}");
}

// ---- memory

/// An answer does not depend on what the lent numbers held, and a refusal leaves it, whatever it is.
/// The file and the numbers lie against unreadable pages.
#[test]
fn lent_numbers_of_any_value() {
    let mut file_memory = Guarded::<u8>::new(100);
    let mut made_memory = Guarded::<u32>::new(1);
    let mut best_memory = Guarded::<u32>::new(1);
    let mut short_memory = Guarded::<i32>::new(1);
    let file = four_risks().file();
    for value in [0, 1, 20, 1_675, 1_048_575, 0x5a5a_a5a5, 1 << 31, u32::MAX] {
        for place in PLACES {
            for (maximum, minimum, answer, expected) in [
                (13_020, 4_935, 0, (20, 1_675, 1_674)),
                (8_400, 8_400, 0, (20, 0, -1)),
                (8_399, 8_400, 22, (value, value, value as i32)),
                (8_399, 8_399, 23, (value, value, value as i32)),
            ] {
                let lent = file_memory.copy(&file, place);
                let made = made_memory.number(value, place);
                let best = best_memory.number(value, place);
                let short_of = short_memory.number(value as i32, place);
                let given = calls::plan(lent, maximum, minimum, 20, made, best, short_of);
                assert_eq!((given, (*made, *best, *short_of)), (answer, expected));
                assert_eq!(lent, file);
            }
        }
    }
}

#[test]
fn a_null_pointer_to_no_file() {
    for (maximum, minimum) in bounds() {
        for trials in [0, 20, u32::MAX] {
            let mut given = BEFORE;
            // SAFETY: the pointer is null and its count 0; the numbers are lent.
            let answer = unsafe {
                raw::retro_plan(
                    ptr::null(),
                    0,
                    maximum,
                    minimum,
                    trials,
                    &mut given.made,
                    &mut given.best,
                    &mut given.short_of,
                )
            };
            assert_eq!((answer, given), (1, BEFORE));
            assert_eq!(plan(&[], maximum, minimum, trials), Err(1));
        }
    }
}
