//! The lines of tests/c/*.expected that have figures are what the second rater and the second
//! computations make of the same files, and README shows some of them. The programs in C are run by
//! tests/c/run.sh.

use retro_tests::charges_1965;
use retro_tests::plans::{Books, TRIALS_THAT_FINISH};
use retro_tests::samples::stock;
use retro_tests::second_rater;
use retro_tests::{examples, repository};
use std::fs;

/// The stored lines of this name.
fn stored(name: &str) -> String {
    let path = repository().join("tests/c").join(name);
    fs::read_to_string(path.with_extension("expected")).unwrap()
}

fn example(name: &str) -> Vec<u8> {
    fs::read(examples().join(name).with_extension("group")).unwrap()
}

/// Thousandths as a decimal.
fn decimal(thousandths: u128) -> String {
    format!("{}.{:03}", thousandths / 1_000, thousandths % 1_000)
}

/// The two lines of a group's amounts that Rate gives in thousandths of a dollar.
fn amounts(rated: &second_rater::Rated) -> String {
    let basic = decimal(rated.basic.try_into().unwrap());
    let excess = decimal(rated.excess);
    format!(
        "basic premium            {basic:>16} dollars for the group\n\
         excess loss charge       {excess:>16} dollars for the group\n"
    )
}

/// What the billing program prints.
fn invoice(file: &[u8]) -> String {
    let rated = second_rater::rate(file, 1_020).unwrap();
    let mut lines = String::new();
    for (k, premium) in rated.premiums.iter().enumerate() {
        lines += &format!("risk {:3}  premium {premium:10}\n", k + 1);
    }
    lines += &format!("{:24} {:12}\n", "risks", rated.risks);
    lines += &format!(
        "{:24} {:12}     dollars for the group\n",
        "billed", rated.billed
    );
    lines += &amounts(&rated);
    for (r, entry_ratio) in [(50, "0.50"), (100, "1.00"), (150, "1.50")] {
        let (charge, savings) = second_rater::table(file, r).unwrap();
        let (charge, savings) = (decimal(charge), decimal(savings));
        lines += &format!("entry ratio {entry_ratio}  charge {charge}  savings {savings}\n");
    }
    lines
}

#[test]
fn invoices() {
    for name in ["four-risks", "entry-ratio", "scaffold"] {
        assert_eq!(stored(name), invoice(&example(name)), "{name}");
    }
}

#[test]
fn guaranteed_cost() {
    let file = example("four-risks");
    let given = second_rater::guaranteed(&file, &stock(), 1_020, 255).unwrap();
    let difference = |dollars: i128| match dollars < 0 {
        true => format!("  saved {:10}\n", -dollars),
        false => format!("  cost  {dollars:10}\n"),
    };
    let mut lines = String::new();
    let premiums = given.rated.premiums.iter().zip(&given.differences);
    for (k, (premium, &beside)) in premiums.enumerate() {
        lines += &format!("risk {:3}  premium {premium:10}", k + 1);
        lines += &difference(beside);
    }
    lines += &format!("group     premium {:10}", given.rated.billed);
    lines += &difference(given.difference);
    for (what, dollars) in [
        ("standard premium", given.discount + given.guaranteed),
        ("premium discount", given.discount),
        ("guaranteed cost", given.guaranteed),
    ] {
        lines += &format!("{what:24} {dollars:12}     dollars a risk\n");
    }
    lines += &amounts(&given.rated);
    assert_eq!(stored("guaranteed"), lines);
}

#[test]
fn charges() {
    let lines = stored("charges");
    assert_eq!(lines.lines().count(), 9);
    for line in lines.lines() {
        let words: Vec<&str> = line.split(' ').collect();
        let [column, entry_ratio, thousandths] = [1, 2, 3].map(|k| words[k].parse().unwrap());
        let charge = charges_1965::charge(column, entry_ratio).unwrap();
        let unrounded: f64 = words[4].parse().unwrap();
        assert_eq!((words[0], words.len()), ("charge", 5));
        assert_eq!(
            (thousandths, unrounded),
            (charge.thousandths, charge.charge)
        );
    }
}

/// What is printed of the plan of these words: a file, the maximum and the minimum premium, and where
/// there is a fourth a number of trials. The amounts are cut off after the ten-thousandth of a dollar.
fn planned(terms: &str) -> String {
    let words: Vec<&str> = terms.split(' ').collect();
    let number = |k: usize| words[k].parse::<u32>().unwrap();
    let trials = words.get(3).map_or(TRIALS_THAT_FINISH, |_| number(3));
    let (maximum, minimum) = (number(1), number(2));
    let books = Books::of(&example(words[0])).unwrap();
    let plan = books.plan(maximum, minimum, trials).unwrap();
    let (total, target) = (books.total(plan.best, maximum, minimum), books.target());
    let largest_short = match plan.short_of {
        -1 => format!("{:>12}", "none"),
        short_of => format!("{short_of:12}      dollars a risk"),
    };
    let finished = match i64::from(plan.best) - i64::from(plan.short_of) {
        1 => "finished",
        _ => "not finished",
    };
    let amount = |parts: u128| {
        let cut_off = parts * 10_000 / books.dollar();
        let (dollars, rest) = (cut_off / 10_000, cut_off % 10_000);
        format!("{dollars:12}.{rest:04} dollars for the group")
    };
    format!(
        "trials made                  {made:12}      {finished}\n\
         best basic premium           {best:12}      dollars a risk\n\
         largest known to fall short  {largest_short}\n\
         premiums                     {}\n\
         taxed expenses and losses    {}\n\
         premiums over these          {}\n",
        amount(total),
        amount(target),
        amount(total - target),
        made = plan.made,
        best = plan.best,
    )
}

#[test]
fn plans() {
    let stored = stored("plan");
    let terms = stored.lines().filter_map(|line| line.strip_prefix("== "));
    let lines: Vec<String> = terms
        .map(|terms| format!("== {terms}\n{}", planned(terms)))
        .collect();
    assert_eq!(lines.len(), 20);
    assert_eq!(stored, lines.concat());
    // Rate's own bounds and basic premium balance the group to the dollar; a minimum above what a risk
    // owes does not.
    assert!(planned("four-risks 13020 4935").ends_with(" 0.0000 dollars for the group\n"));
    assert!(planned("four-risks 60000 50000").ends_with(" 166400.0000 dollars for the group\n"));
}

/// What README shows is what is stored.
#[test]
fn readme_shows_the_stored_lines() {
    let readme = fs::read_to_string(repository().join("README.md")).unwrap();
    let shown = |lines: &str| readme.contains(&format!("```\n{lines}```\n"));
    assert!(shown(&stored("four-risks")));
    assert!(shown(&stored("guaranteed")));
    assert!(shown(&planned("four-risks 12000 5000")));
    assert!(shown(&planned("four-risks 60000 50000")));
    let charges = stored("charges");
    let mut lines = charges.split_inclusive('\n');
    assert!(shown(
        lines
            .find(|line| line.starts_with("charge 44 150 "))
            .unwrap()
    ));
}
