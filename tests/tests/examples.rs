//! The example files are what their generator writes, and their expected lines are what the second
//! rater says.

use retro_tests::generator::{
    first_bits, get, set, MARK_KIND, MAXIMUM_MARK, MINIMUM_MARK, STANDARD_PREMIUM,
};
use retro_tests::samples::{FOUR_RISKS_PRINTED, SCAFFOLD_FILE, SCAFFOLD_PRINTED};
use retro_tests::{examples, refused_example, second_rater, QUESTIONS_OF_A_FILE};
use std::collections::BTreeMap;
use std::path::Path;
use std::process::Command;
use std::{env, fs, process};

/// The files of a folder by name.
fn files(folder: &Path) -> BTreeMap<String, Vec<u8>> {
    let mut files = BTreeMap::new();
    for entry in fs::read_dir(folder).unwrap() {
        let path = entry.unwrap().path();
        let name = path.file_name().unwrap().to_str().unwrap().to_string();
        files.insert(name, fs::read(&path).unwrap());
    }
    files
}

/// Runs a program on a folder.
fn run(program: &str, folder: &Path) {
    let status = Command::new(program).arg(folder).status().unwrap();
    assert!(status.success(), "{program}");
}

#[test]
fn examples_are_what_the_generator_writes() {
    let folder = env::temp_dir().join(format!("retro-examples-{}", process::id()));
    run(env!("CARGO_BIN_EXE_example-groups"), &folder);
    run(env!("CARGO_BIN_EXE_expected"), &folder);
    let made = files(&folder);
    fs::remove_dir_all(&folder).unwrap();
    let kept = files(&examples());
    assert_eq!(
        made.keys().collect::<Vec<_>>(),
        kept.keys().collect::<Vec<_>>()
    );
    for (name, bytes) in &made {
        assert!(
            kept[name] == *bytes,
            "examples/{name} is not what is written"
        );
    }
}

#[test]
fn there_is_an_example_for_each_question_that_a_file_alone_can_fail() {
    for question in QUESTIONS_OF_A_FILE {
        let path = refused_example(question);
        let file = fs::read(&path).unwrap();
        assert_eq!(second_rater::rate(&file, 1_020), Err(question));
        let expected = fs::read_to_string(path.with_extension("expected")).unwrap();
        assert_eq!(expected, format!("refused {question}\n"));
    }
    let of_the_folder = files(&examples());
    let refused = of_the_folder
        .keys()
        .filter(|name| name.starts_with("refused-"));
    assert_eq!(refused.count(), 2 * QUESTIONS_OF_A_FILE.len());
}

/// The example of question 18 passes all others: document 02's marks 0.900 and 0.950 on P 1, where
/// both are 0 dollars, and rated with the minimum mark at the maximum.
#[test]
fn example_of_question_18_fails_no_other() {
    let mut file = fs::read(refused_example(18)).unwrap();
    assert_eq!(get(&file, STANDARD_PREMIUM), 1);
    assert_eq!(get(&file, MARK_KIND), 0);
    assert_eq!(get(&file, MAXIMUM_MARK), 900);
    assert_eq!(get(&file, MINIMUM_MARK), 950);
    set(&mut file, MINIMUM_MARK, 900);
    let rated = second_rater::rate(&file, 4).unwrap();
    assert_eq!((rated.lines[0].ratable, rated.billed), (0, 10));
}

/// The example of question 19 is the scaffold with one bit more, and fails no other.
#[test]
fn example_of_question_19_fails_no_other() {
    let mut file = fs::read(refused_example(19)).unwrap();
    let bits = first_bits(&file);
    assert_eq!(bits.iter().map(|&bit| get(&file, bit)).sum::<u32>(), 1);
    for bit in bits {
        set(&mut file, bit, 0);
    }
    assert_eq!(file, SCAFFOLD_FILE);
    let rated = second_rater::rate(&file, 12).unwrap();
    assert_eq!(second_rater::print_rated(&rated), SCAFFOLD_PRINTED);
}

#[test]
fn rated_examples_are_of_their_kind() {
    let file = |name: &str| fs::read(examples().join(name).with_extension("group")).unwrap();
    let read = |name: &str| second_rater::read(&file(name), 255, 16_065, 16_065).unwrap();
    assert_eq!(read("four-risks").counts, [0, 2, 1, 3]);
    assert_eq!(read("ten-risks").counts, [1; 10]);
    assert_eq!(read("entry-ratio").header.mark_kind, 1);
    assert_eq!(read("no-limit").header.loss_limit, 0);
    let (largest, of_edition_2) = (read("largest"), read("largest-edition-2"));
    assert_eq!((largest.edition, of_edition_2.edition), (1, 2));
    assert_eq!(file("largest").len(), 40_370);
    assert_eq!(file("largest-edition-2").len(), second_rater::LARGEST_FILE);
    assert_eq!(largest.counts, [63; 255]);
    assert_eq!(
        (
            of_edition_2.header,
            of_edition_2.counts,
            of_edition_2.claims
        ),
        (largest.header, largest.counts, largest.claims)
    );
    let joined = of_edition_2.joined.iter().filter(|&&bit| bit == 1).count();
    assert!((3_700..4_300).contains(&joined), "{joined}");
    assert_eq!(read("scaffold").edition, 2);
    assert_eq!(read("scaffold").joined, [0, 1, 0, 1, 0]);
    let four_risks = fs::read_to_string(examples().join("four-risks.expected")).unwrap();
    assert_eq!(four_risks, FOUR_RISKS_PRINTED);
    let scaffold = fs::read_to_string(examples().join("scaffold.expected")).unwrap();
    assert_eq!(scaffold, SCAFFOLD_PRINTED);
}

/// The premiums are column 5 of the table in section E of document 001, and their sum is its total.
#[test]
fn ten_risks_are_billed_as_document_001_bills_them() {
    let ten_risks = fs::read_to_string(examples().join("ten-risks.expected")).unwrap();
    assert_eq!(
        ten_risks,
        "group 10 20400000 0 95800\n\
         1 1000 1000 2000 4640\n\
         2 2000 2000 2000 4640\n\
         3 4000 4000 4000 7240\n\
         4 6000 6000 6000 9840\n\
         5 6000 6000 6000 9840\n\
         6 6000 6000 6000 9840\n\
         7 6000 6000 6000 9840\n\
         8 8000 8000 8000 12440\n\
         9 10000 10000 9000 13740\n\
         10 11000 11000 9000 13740\n"
    );
}
