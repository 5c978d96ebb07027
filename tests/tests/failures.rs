//! The program crates/retro/out/retro where an input cannot be read, output cannot be written, or
//! an argument is given: no refusal, and a line on standard error, but where nobody reads the output
//! any more. The exit statuses are those of docs/DECISIONS.md.

use retro_tests::{examples, program, repository};
use std::fs::{self, File, OpenOptions};
use std::os::unix::process::ExitStatusExt;
use std::path::{Path, PathBuf};
use std::process::{Command, Output, Stdio};
use std::{env, process};

const SIGPIPE: i32 = 13;

fn example(name: &str) -> File {
    File::open(examples().join(name)).unwrap()
}

/// The one line on standard error, of a run that printed nothing and ended with this status.
fn said(output: Output, status: i32) -> String {
    assert!(output.stdout.is_empty(), "{output:?}");
    assert_eq!(output.status.code(), Some(status), "{output:?}");
    String::from_utf8(output.stderr).unwrap()
}

#[test]
fn a_directory() {
    let folder = File::open(examples()).unwrap();
    let output = Command::new(program()).stdin(folder).output().unwrap();
    assert_eq!(said(output, 1), "retro: standard input: Is a directory\n");
}

#[test]
fn a_closed_standard_input() {
    let output = Command::new("sh")
        .args(["-c", "exec \"$0\" <&-"])
        .arg(program())
        .output()
        .unwrap();
    assert_eq!(said(output, 1), "retro: standard input: Bad file descriptor\n");
}

/// Builds the read that fails.
fn failing_read(folder: &Path) -> PathBuf {
    let library = folder.join("failing_read.so");
    let built = Command::new("gcc")
        .args(["-shared", "-fPIC", "-Wall", "-Wextra", "-Werror", "-o"])
        .arg(&library)
        .arg(repository().join("tests/c/failing_read.c"))
        .status()
        .unwrap();
    assert!(built.success());
    library
}

#[test]
fn a_read_that_fails_midway() {
    let folder = env::temp_dir().join(format!("retro-failing-{}", process::id()));
    fs::create_dir_all(&folder).unwrap();
    let library = failing_read(&folder);
    // The four-risk file has 34 bytes: three full parts, one of four bytes, then the end.
    for number in 1..=5 {
        let output = Command::new(program())
            .env("LD_PRELOAD", &library)
            .env("FAILING_READ", number.to_string())
            .stdin(example("four-risks.group"))
            .output()
            .unwrap();
        let said = said(output, 1);
        assert_eq!(
            said, "retro: standard input: Input/output error\n",
            "{number}"
        );
    }
    // With none that fails, the same small parts are rated.
    let output = Command::new(program())
        .env("LD_PRELOAD", &library)
        .env("FAILING_READ", "6")
        .stdin(example("four-risks.group"))
        .output()
        .unwrap();
    let expected = fs::read(examples().join("four-risks.expected")).unwrap();
    assert_eq!(output.stdout, expected);
    assert!(output.stderr.is_empty());
    fs::remove_dir_all(&folder).unwrap();
}

#[test]
fn a_full_disk() {
    for name in ["four-risks.group", "refused-09.group"] {
        let full = OpenOptions::new().write(true).open("/dev/full").unwrap();
        let output = Command::new(program())
            .stdin(example(name))
            .stdout(full)
            .stderr(Stdio::piped())
            .output()
            .unwrap();
        assert_eq!(
            said(output, 1),
            "retro: standard output: No space left on device\n"
        );
    }
}

#[test]
fn a_disk_that_is_full_midway() {
    // The lines of 255 risks are more than the 1,024 bytes that a file may get here.
    let folder = env::temp_dir().join(format!("retro-short-{}", process::id()));
    fs::create_dir_all(&folder).unwrap();
    let path = folder.join("printed");
    let output = Command::new("sh")
        .args(["-c", "trap '' XFSZ; ulimit -f 1; exec \"$0\" > \"$1\""])
        .arg(program())
        .arg(&path)
        .stdin(example("largest.group"))
        .output()
        .unwrap();
    assert_eq!(said(output, 1), "retro: standard output: File too large\n");
    let whole = fs::read(examples().join("largest.expected")).unwrap();
    let printed = fs::read(&path).unwrap();
    assert!(printed.len() < whole.len() && whole.starts_with(&printed));
    fs::remove_dir_all(&folder).unwrap();
}

#[test]
fn a_closed_pipe() {
    // The program ends as one that the signal ended, by its status as a shell has it.
    let mut child = Command::new("sh")
        .args(["-c", "exec 3<&0; (sleep 0.2; exec \"$0\" <&3)"])
        .arg(program())
        .stdin(example("four-risks.group"))
        .stdout(Stdio::piped())
        .stderr(Stdio::piped())
        .spawn()
        .unwrap();
    drop(child.stdout.take());
    let output = child.wait_with_output().unwrap();
    let status = output.status;
    assert!(
        status.signal() == Some(SIGPIPE) || status.code() == Some(128 + SIGPIPE),
        "{status}"
    );
    assert!(output.stderr.is_empty());
}

#[test]
fn arguments() {
    let path = examples().join("four-risks.group");
    for argument in [path.to_str().unwrap(), "--help", "-", ""] {
        let output = Command::new(program())
            .arg(argument)
            .stdin(example("four-risks.group"))
            .output()
            .unwrap();
        assert_eq!(said(output, 0), "usage: retro < FILE\n");
    }
}
