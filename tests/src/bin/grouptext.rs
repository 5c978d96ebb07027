//! The second rater as a program, and group files from texts.
//!
//! - `grouptext rate [FILE]` prints what `retro` prints.
//! - `grouptext table R [FILE]` prints the charge and the savings at entry ratio R in hundredths.
//! - `grouptext read [FILE]` prints a group file as a text.
//! - `grouptext write [TEXT [FILE]]` makes the group file of a text, and says on standard error how
//!   many risks and claims it has.
//!
//! All of it is the second rater's, which is not proved; what `write` has made is read back by
//! `retro_read`, which is, and held to the text before anything is said. What is there of a file then
//! is read back, and of what goes to standard output, to a device or to a pipe its bytes before.
//!
//! The text is the same both ways: eight header values in file order on the first line, then a line
//! for each risk with its claims, or with `-` alone where it has none. In edition 2 there is a line
//! `edition 2` before them, and a claim that belongs to the accident of the claim before it has a
//! `+` before its digits.
//!
//! Without a name, or with `-` for it, input is standard input and output is standard output. A text
//! with a mistake gives no byte; the file of an output name is written whole or not at all, and one
//! that was there before then stays as it was.
//!
//! Exit status: 0; 1 where a text has a mistake, which is named on standard error with its line, or
//! `read` is refused, with `refused K` on standard error; 2 for wrong usage, and for input that
//! cannot be read or output that cannot be written; 3 where a file that was made is read back with
//! another value than its text, which is named on standard error, and is not there then. `rate` and
//! `table` print `refused K` on standard output with exit status 0, as `retro` does.

#![forbid(unsafe_code)]

use retro_tests::samples::{Sample, Values};
use retro_tests::second_rater::{self, LARGEST_FILE, MOST_CLAIMS_PER_RISK, MOST_RISKS};
use retro_tests::text;
use retro_tests::written::{self, Failed};
use std::env;
use std::fs;
use std::io::{self, Read, Write};
use std::path::Path;
use std::process::ExitCode;

const USAGE: &str =
    "usage: grouptext rate [FILE] | table R [FILE] | read [FILE] | write [TEXT [FILE]]";

/// The name of standard input and of standard output.
const STANDARD: &str = "-";

/// Why the program stops without its usual answer.
enum Stop {
    /// Wrong usage, or input or output that fails.
    Usage(String),
    /// A text with a mistake, or a file that Read refuses.
    Refused(String),
    /// A file that was made and, read back, has another value than its text.
    Otherwise(String),
}

fn main() -> ExitCode {
    let arguments: Vec<String> = env::args().skip(1).collect();
    let (text, status) = match run(&arguments) {
        Ok(()) => return ExitCode::SUCCESS,
        Err(Stop::Refused(text)) => (text, 1),
        Err(Stop::Usage(text)) => (text, 2),
        Err(Stop::Otherwise(text)) => (text, 3),
    };
    eprintln!("{text}");
    ExitCode::from(status)
}

/// Runs one subcommand.
fn run(arguments: &[String]) -> Result<(), Stop> {
    let words: Vec<&str> = arguments.iter().map(String::as_str).collect();
    match words[..] {
        ["rate"] => rate(STANDARD),
        ["rate", file] => rate(file),
        ["table", r] => table(r, STANDARD),
        ["table", r, file] => table(r, file),
        ["read"] => read(STANDARD),
        ["read", file] => read(file),
        ["write"] => write(STANDARD, STANDARD),
        ["write", text] => write(text, STANDARD),
        ["write", text, file] => write(text, file),
        _ => Err(Stop::Usage(USAGE.to_string())),
    }
}

/// The whole input of this name.
fn input(name: &str) -> Result<Vec<u8>, Stop> {
    let bytes = if name == STANDARD {
        let mut bytes = Vec::new();
        io::stdin().read_to_end(&mut bytes).map(|_| bytes)
    } else {
        fs::read(name)
    };
    bytes.map_err(|error| Stop::Usage(format!("{name} cannot be read: {error}")))
}

/// Prints these bytes.
fn print(bytes: &[u8]) -> Result<(), Stop> {
    let mut standard = io::stdout().lock();
    let printed = standard.write_all(bytes).and_then(|()| standard.flush());
    printed.map_err(|error| unwritten(STANDARD, error))
}

/// Writes the group file of these values to this name. What is printed is read back before.
fn put(name: &str, file: &[u8], values: &Values) -> Result<(), Stop> {
    let written = match name {
        STANDARD => {
            written::read_back(file, values).map_err(|what| otherwise(STANDARD, &what))?;
            return print(file);
        }
        _ => written::put(Path::new(name), file, values),
    };
    written.map_err(|failed| match failed {
        Failed::Unwritten(error) => unwritten(name, error),
        Failed::Otherwise(what) => otherwise(name, &what),
    })
}

fn unwritten(name: &str, error: io::Error) -> Stop {
    Stop::Usage(format!("{name} cannot be written: {error}"))
}

fn otherwise(name: &str, what: &str) -> Stop {
    Stop::Otherwise(format!("{name} is not written: read back, {what}"))
}

fn rate(file: &str) -> Result<(), Stop> {
    let lines = match second_rater::rate(&input(file)?, 4 * MOST_RISKS) {
        Ok(rated) => second_rater::print_rated(&rated),
        Err(k) => second_rater::print_refused(k),
    };
    print(lines.as_bytes())
}

fn table(r: &str, file: &str) -> Result<(), Stop> {
    let r = r
        .parse()
        .map_err(|_| Stop::Usage(format!("{r} is not an entry ratio in hundredths\n{USAGE}")))?;
    let line = match second_rater::table(&input(file)?, r) {
        Ok((charge, savings)) => format!("{charge} {savings}\n"),
        Err(k) => second_rater::print_refused(k),
    };
    print(line.as_bytes())
}

fn read(file: &str) -> Result<(), Stop> {
    let most_claims = MOST_RISKS * MOST_CLAIMS_PER_RISK;
    let file = input(file)?;
    let group = second_rater::read(&file, MOST_RISKS, most_claims, most_claims).map_err(refused)?;
    print(text::print(&Sample::of(&group)).as_bytes())
}

fn write(text: &str, file: &str) -> Result<(), Stop> {
    let sample =
        text::parse(&input(text)?).map_err(|mistake| Stop::Refused(mistake.to_string()))?;
    let values = sample.values();
    let bytes = values.written(LARGEST_FILE).map_err(refused)?;
    put(file, &bytes, &values)?;
    let (risks, claims) = (
        counted(values.counts.len(), "risk"),
        counted(values.claims.len(), "claim"),
    );
    eprintln!("{risks} and {claims} written");
    Ok(())
}

/// So many of them, in words.
fn counted(number: usize, what: &str) -> String {
    let ending = if number == 1 { "" } else { "s" };
    format!("{number} {what}{ending}")
}

fn refused(k: u32) -> Stop {
    Stop::Refused(second_rater::print_refused(k).trim_end().to_string())
}
