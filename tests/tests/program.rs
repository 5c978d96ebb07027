//! The program crates/retro/out/retro, run on the example files, on generated files and on inputs of
//! any length.

use retro_tests::generator::{get, Random, EDITION};
use retro_tests::samples::largest_of_edition_2;
use retro_tests::second_rater::Line;
use retro_tests::{examples, program, second_rater, QUESTIONS_OF_A_FILE};
use std::cmp::Ordering;
use std::collections::BTreeMap;
use std::fs::{self, File};
use std::io::Write;
use std::path::Path;
use std::process::{Command, Output, Stdio};
use std::{env, process, thread};

/// Generated files that the program is run on.
const FILES: u64 = 5_000;
/// The seed of the first of them.
const SEED: u64 = 1_942;
/// How often each answer and each kind of line must occur at least.
const LEAST: u64 = 5;

/// What was printed for a file as standard input.
fn printed_for(path: &Path) -> String {
    let input = File::open(path).unwrap();
    text(Command::new(program()).stdin(input).output().unwrap())
}

/// What was printed by a run that ended well and said nothing else.
fn text(output: Output) -> String {
    assert!(output.status.success(), "{}", output.status);
    assert!(output.stderr.is_empty());
    String::from_utf8(output.stdout).unwrap()
}

/// What was printed for these bytes as a file.
fn printed(bytes: &[u8], name: &str) -> String {
    let path = env::temp_dir().join(format!("retro-{name}-{}.group", process::id()));
    fs::write(&path, bytes).unwrap();
    let printed = printed_for(&path);
    fs::remove_file(&path).unwrap();
    printed
}

/// What must be printed for these bytes.
fn expected(bytes: &[u8]) -> String {
    match second_rater::rate(bytes, 4 * second_rater::MOST_RISKS) {
        Ok(rated) => second_rater::print_rated(&rated),
        Err(question) => second_rater::print_refused(question),
    }
}

fn example(name: &str) -> Vec<u8> {
    fs::read(examples().join(name)).unwrap()
}

#[test]
fn each_example() {
    let mut run = 0;
    for entry in fs::read_dir(examples()).unwrap() {
        let path = entry.unwrap().path();
        if path
            .extension()
            .is_some_and(|extension| extension == "group")
        {
            let expected = fs::read_to_string(path.with_extension("expected")).unwrap();
            assert!(printed_for(&path) == expected, "{}", path.display());
            run += 1;
        }
    }
    assert_eq!(run, 20);
}

#[test]
fn empty_input() {
    assert_eq!(printed(&[], "empty"), "refused 1\n");
}

#[test]
fn the_largest_file_of_edition_2() {
    let file = largest_of_edition_2().file();
    assert_eq!(file.len(), second_rater::LARGEST_FILE);
    let lines = printed(&file, "largest-2");
    assert!(lines.starts_with("group 255 "));
    assert!(lines == expected(&file));
}

#[test]
fn inputs_longer_than_the_largest_file() {
    for (mut file, length) in [
        (example("largest.group"), 40_370),
        (largest_of_edition_2().file(), second_rater::LARGEST_FILE),
    ] {
        assert_eq!(file.len(), length);
        for added in [0, 1, 0xff] {
            file.truncate(length);
            file.push(added);
            assert_eq!(printed(&file, "one-more"), "refused 8\n");
        }
        // As long as 1 MB, answered as the whole file would be.
        file.resize(1 << 20, 0);
        assert_eq!(printed(&file, "megabyte"), "refused 8\n");
    }
    let mut file = example("four-risks.group");
    file.resize(1 << 20, 0);
    assert_eq!(printed(&file, "megabyte-of-four"), "refused 8\n");
    // the questions of the header
    for k in [2, 3, 4, 5, 6, 18, 7] {
        let mut file = example(&format!("refused-{k:02}.group"));
        file.resize(1 << 20, 0xff);
        assert_eq!(printed(&file, "megabyte-refused"), format!("refused {k}\n"));
        assert_eq!(expected(&file), format!("refused {k}\n"));
    }
}

#[test]
fn input_through_a_pipe_in_small_parts() {
    for (name, part) in [
        ("four-risks", 5),
        ("largest", 4_099),
        ("largest-edition-2", 4_099),
        ("scaffold", 3),
        ("refused-09", 1),
        ("refused-19", 2),
    ] {
        let file = example(&format!("{name}.group"));
        let mut child = Command::new(program())
            .stdin(Stdio::piped())
            .stdout(Stdio::piped())
            .stderr(Stdio::piped())
            .spawn()
            .unwrap();
        let mut pipe = child.stdin.take().unwrap();
        for bytes in file.chunks(part) {
            pipe.write_all(bytes).unwrap();
            pipe.flush().unwrap();
        }
        drop(pipe);
        assert_eq!(text(child.wait_with_output().unwrap()), expected(&file));
    }
}

/// The kind of a risk's line: what the limit and the marks did to its losses.
fn kind(line: &Line) -> &'static str {
    let cut_off = line.limited < line.total;
    match (cut_off, line.ratable.cmp(&line.limited)) {
        (false, Ordering::Less) => "A is L, cut to LG",
        (false, Ordering::Equal) => "A is L, K is A",
        (false, Ordering::Greater) => "A is L, raised to LH",
        (true, Ordering::Less) => "A below L, cut to LG",
        (true, Ordering::Equal) => "A below L, K is A",
        (true, Ordering::Greater) => "A below L, raised to LH",
    }
}

/// How often something occurred, by its name.
type Counts = BTreeMap<String, u64>;

/// Runs the program on the files `first`, `first + step` and so on, half of them of sound groups, and
/// holds all that it prints to the second rater: L, A, K and premium of each risk, or the refusal.
fn compare_generated(first: u64, step: u64) -> Counts {
    let mut counts = Counts::new();
    let mut count = |what: String| *counts.entry(what).or_default() += 1;
    for k in (first..FILES).step_by(step as usize) {
        let mut random = Random::new(Random::new(SEED ^ k.rotate_left(32)).word());
        let file = match k % 2 {
            0 => random.group().file(),
            _ => random.file(),
        };
        let lines = match second_rater::rate(&file, 4 * second_rater::MOST_RISKS) {
            Ok(rated) => {
                let edition = get(&file, EDITION);
                count(format!("rated in edition {edition}"));
                let in_edition = |line| format!("{} in edition {edition}", kind(line));
                rated.lines.iter().for_each(|line| count(in_edition(line)));
                second_rater::print_rated(&rated)
            }
            Err(question) => {
                count(format!("refused {question}"));
                second_rater::print_refused(question)
            }
        };
        let printed = printed(&file, &format!("generated-{first}"));
        assert!(
            printed == lines,
            "file {k}: {file:02x?}\nprinted:\n{printed}\nexpected:\n{lines}"
        );
    }
    counts
}

#[test]
fn generated_files() {
    let threads = thread::available_parallelism().map_or(1, usize::from) as u64;
    let mut counts = Counts::new();
    thread::scope(|scope| {
        let workers: Vec<_> = (0..threads)
            .map(|first| scope.spawn(move || compare_generated(first, threads)))
            .collect();
        for worker in workers {
            for (what, times) in worker.join().expect("a difference") {
                *counts.entry(what).or_default() += times;
            }
        }
    });
    // thirteen refusals, rated in either edition, and six kinds of lines in either edition, each
    // often enough
    println!("{counts:#?}");
    assert_eq!(counts.len(), 27, "{counts:#?}");
    for question in QUESTIONS_OF_A_FILE {
        let refused = format!("refused {question}");
        assert!(counts.contains_key(&refused), "{counts:#?}");
    }
    assert!(counts.values().all(|&times| times >= LEAST), "{counts:#?}");
    for edition in [1, 2] {
        let rated = counts[&format!("rated in edition {edition}")];
        assert!(rated >= FILES / 8, "{counts:#?}");
    }
}
