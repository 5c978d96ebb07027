//! The program `grouptext`.

use retro_tests::generator::Random;
use retro_tests::samples::{
    crossed_marks, four_risks, largest, largest_of_edition_2, one_claim_of_one, scaffold,
    ten_risks, Values, FOUR_RISKS_PRINTED, SCAFFOLD_PRINTED,
};
use retro_tests::written::read_back;
use retro_tests::{repository, text};
use std::io::Write;
use std::path::{Path, PathBuf};
use std::process::{Command, Output, Stdio};
use std::{env, fs, process};

const GROUPTEXT: &str = env!("CARGO_BIN_EXE_grouptext");

const FOUR_RISKS: &str = "5000 10000 2000 1100 10500 0 900 200\n\
                          -\n\
                          3000 1000\n\
                          7000\n\
                          5000 6000 2000\n";

const SCAFFOLD: &str = "edition 2\n\
                        5000 10000 2000 1100 10500 0 900 200\n\
                        3000 +4000\n\
                        -\n\
                        1000 +4000 3000\n";

fn run(arguments: &[&str], input: &[u8]) -> Output {
    run_into(arguments, input, Stdio::piped())
}

/// Runs the program with this as its standard output.
fn run_into(arguments: &[&str], input: &[u8], standard_output: Stdio) -> Output {
    let mut child = Command::new(GROUPTEXT)
        .args(arguments)
        .stdin(Stdio::piped())
        .stdout(standard_output)
        .stderr(Stdio::piped())
        .spawn()
        .unwrap();
    // a run that stops before it reads has closed the pipe
    let _ = child.stdin.take().unwrap().write_all(input);
    child.wait_with_output().unwrap()
}

/// The standard output of a run that succeeds.
fn output(arguments: &[&str], input: &[u8]) -> String {
    let output = run(arguments, input);
    assert!(output.status.success());
    String::from_utf8(output.stdout).unwrap()
}

#[test]
fn rate_prints_the_four_risks() {
    assert_eq!(output(&["rate"], &four_risks().file()), FOUR_RISKS_PRINTED);
    let in_edition_2 = four_risks().in_edition_2(&[]);
    assert_eq!(output(&["rate"], &in_edition_2.file()), FOUR_RISKS_PRINTED);
}

#[test]
fn scaffold_from_its_text() {
    let (file, said) = written(SCAFFOLD.as_bytes());
    assert_eq!(file, scaffold().file());
    assert_eq!(said, "3 risks and 5 claims written\n");
    assert_eq!(output(&["read"], &file), SCAFFOLD);
    assert_eq!(output(&["rate"], &file), SCAFFOLD_PRINTED);
}

#[test]
fn rate_prints_refusals() {
    let four = four_risks().file();
    assert_eq!(output(&["rate"], &four[..15]), "refused 1\n");
    let mut longer = four.clone();
    longer.push(0);
    assert_eq!(output(&["rate"], &longer), "refused 8\n");
    let mut filled = one_claim_of_one(3).file();
    *filled.last_mut().unwrap() |= 1;
    assert_eq!(output(&["rate"], &filled), "refused 9\n");
    let mut none = four_risks();
    none.risks = vec![vec![0], vec![], vec![0, 0], vec![]];
    assert_eq!(output(&["rate"], &none.file()), "refused 10\n");
    assert_eq!(output(&["rate"], &[]), "refused 1\n");
}

#[test]
fn file_with_crossed_marks_is_refused_18() {
    let file = crossed_marks(1).file_of_any_marks();
    assert_eq!(output(&["rate"], &file), "refused 18\n");
    assert_eq!(output(&["table", "100"], &file), "refused 18\n");
    let refused = run(&["read"], &file);
    assert_eq!(refused.status.code(), Some(1));
    assert!(refused.stdout.is_empty());
    assert_eq!(refused.stderr, b"refused 18\n");
}

#[test]
fn table_prints_charge_and_savings() {
    let file = four_risks().file();
    assert_eq!(output(&["table", "0"], &file), "1000 0\n");
    assert_eq!(output(&["table", "100"], &file), "321 321\n");
    assert_eq!(output(&["table", "200"], &file), "71 1071\n");
    assert_eq!(output(&["table", "300"], &file), "0 2000\n");
    assert_eq!(output(&["table", "601"], &file), "refused 14\n");
}

#[test]
fn read_prints_the_text() {
    assert_eq!(output(&["read"], &four_risks().file()), FOUR_RISKS);
}

#[test]
fn read_refuses_on_standard_error() {
    let refused = run(&["read"], &[0; 16]);
    assert_eq!(refused.status.code(), Some(1));
    assert!(refused.stdout.is_empty());
    assert_eq!(refused.stderr, b"refused 2\n");
}

/// The standard output and the standard error of a write that succeeds.
fn written(text: &[u8]) -> (Vec<u8>, String) {
    let output = run(&["write"], text);
    assert!(output.status.success());
    (output.stdout, String::from_utf8(output.stderr).unwrap())
}

#[test]
fn write_makes_the_file_and_counts() {
    let (file, said) = written(FOUR_RISKS.as_bytes());
    assert_eq!(file, four_risks().file());
    assert_eq!(said, "4 risks and 6 claims written\n");
    // The last line may be a risk without claims, and a newline after it may be missing.
    for text in ["1\n-\n-\n", "1\n-\n-", "1\r\n-\r\n-\r\n", " 1 \n\t-\n-\n"] {
        let (file, said) = written(format!("0 1 0 1000 10000 1 1000 0\n{text}").as_bytes());
        assert_eq!(file, one_claim_of_one(3).file());
        assert_eq!(said, "3 risks and 1 claim written\n");
    }
}

#[test]
fn read_of_what_write_made_prints_the_same_text() {
    let mut risks_without_claims = four_risks();
    risks_without_claims.risks.push(vec![]);
    for sample in [
        four_risks(),
        ten_risks(),
        one_claim_of_one(3),
        risks_without_claims,
        largest(),
        largest_of_edition_2(),
    ] {
        let text = text::print(&sample);
        let (file, _) = written(text.as_bytes());
        assert_eq!(file, sample.file());
        assert_eq!(output(&["read"], &file), text);
    }
}

#[test]
fn write_of_a_text_with_a_mistake_gives_no_byte() {
    let cases: [(&[u8], &str); 9] = [
        (
            b"0 0 0 1000 10000 1 1000 0\n1\n",
            "line 1, standard premium: 0 is not a whole number from 1 to 4194303 (dollars)\n",
        ),
        (
            b"0 1 0 1000 10000 0 900 950\n10\n",
            "line 1, minimum mark: 950 is above the maximum mark of 900 (thousandths)\n",
        ),
        (
            b"0 1 0 1000 10000 1 1000 0\n",
            "line 2, risk 1: missing; a group has 1 to 255 risks\n",
        ),
        (
            b"0 1 0 1000 10000 1 1000 0\n1\n2 1048576\n",
            "line 3, claim 2 of risk 2: 1048576 is not a whole number from 0 to 1048575 (dollars)\n",
        ),
        (
            b"0 1 0 1000 10000 1 1000 0\n1\n\n",
            "line 3, risk 2: a blank line; a risk without claims is a line with - alone\n",
        ),
        (
            b"0 1 0 1000 10000 1 1000 0\n1 +2\n",
            "line 2, claim 2 of risk 1: +2 is for edition 2\n",
        ),
        (
            b"edition 2\n0 1 0 1000 10000 1 1000 0\n1\n+1\n",
            "line 4, claim 1 of risk 2: +1 has no claim before it in the risk\n",
        ),
        (
            "0 1 0 1000 10000 1 1000 0\n1\n7\u{a0}000\n".as_bytes(),
            "line 3, field 1: U+00A0 no-break space: only a space or a tab separates\n",
        ),
        (
            "\u{feff}0 1 0 1000 10000 1 1000 0\n1\n".as_bytes(),
            "line 1, field 1: U+FEFF byte order mark: only a space or a tab separates\n",
        ),
    ];
    for (text, mistake) in cases {
        let output = run(&["write"], text);
        assert_eq!(output.status.code(), Some(1));
        assert!(output.stdout.is_empty());
        assert_eq!(String::from_utf8(output.stderr).unwrap(), mistake);
    }
}

#[test]
fn write_of_equal_marks_makes_the_file() {
    let (file, said) = written(b"0 1 0 1000 10000 0 900 900\n10\n");
    assert_eq!(file, crossed_marks(1).with_marks(900, 900).file());
    assert_eq!(said, "1 risk and 1 claim written\n");
    assert_eq!(
        output(&["rate"], &file),
        "group 1 10000 0 10\n1 10 10 0 10\n"
    );
}

/// README's text, its message and its mistakes are those of the program.
#[test]
fn readme_shows_what_write_takes_and_says() {
    let readme = fs::read_to_string(repository().join("README.md")).unwrap();
    let typed = FOUR_RISKS.replace('\n', "\\n");
    assert!(readme.contains(&format!("printf '{typed}' > my.text\n")));
    let (_, said) = written(FOUR_RISKS.as_bytes());
    assert!(readme.contains(&format!("`{}`", said.trim_end())));
    for (value, mistaken) in [("10500", "1.05"), ("3000", "3\u{a0}000")] {
        let mistaken = FOUR_RISKS.replace(value, mistaken);
        let said = String::from_utf8(run(&["write"], mistaken.as_bytes()).stderr).unwrap();
        assert!(readme.contains(&format!("`{}`", said.trim_end())), "{said}");
    }
}

/// A folder of a test's own, empty.
fn folder(name: &str) -> PathBuf {
    let folder = env::temp_dir().join(format!("grouptext-{name}-{}", process::id()));
    fs::create_dir(&folder).unwrap();
    folder
}

/// The names of what is in a folder.
fn names(folder: &Path) -> Vec<String> {
    let entries = fs::read_dir(folder).unwrap();
    let mut names: Vec<_> = entries
        .map(|entry| entry.unwrap().file_name().into_string().unwrap())
        .collect();
    names.sort();
    names
}

#[test]
fn write_into_a_file() {
    let folder = folder("write");
    let (text, file) = (folder.join("my.text"), folder.join("my.group"));
    let (text_name, file_name) = (text.to_str().unwrap(), file.to_str().unwrap());

    // from standard input, then from a file over what is there
    let made = run(&["write", "-", file_name], FOUR_RISKS.as_bytes());
    assert!(made.status.success() && made.stdout.is_empty());
    assert_eq!(made.stderr, b"4 risks and 6 claims written\n");
    assert_eq!(fs::read(&file).unwrap(), four_risks().file());
    fs::write(&text, text::print(&ten_risks())).unwrap();
    assert!(run(&["write", text_name, file_name], &[]).status.success());
    assert_eq!(fs::read(&file).unwrap(), ten_risks().file());
    assert_eq!(run(&["write", text_name], &[]).stdout, ten_risks().file());

    // a mistake keeps what is there
    let refused = run(&["write", "-", file_name], b"1 2 3\n");
    assert_eq!(refused.status.code(), Some(1));
    assert_eq!(fs::read(&file).unwrap(), ten_risks().file());
    assert_eq!(names(&folder), ["my.group", "my.text"]);
    fs::remove_dir_all(&folder).unwrap();
}

#[test]
fn failed_write_leaves_no_file() {
    let folder = folder("failed");
    let file = folder.join("my.group");
    let file_name = file.to_str().unwrap();
    let mistake = run(
        &["write", "-", file_name],
        b"0 1 0 1000 10000 1 1000 0\n1\n\n",
    );
    assert_eq!(mistake.status.code(), Some(1));
    assert!(names(&folder).is_empty());

    // no such folder; a folder in the file's place
    let nowhere = folder.join("none/my.group");
    for name in [nowhere.to_str().unwrap(), folder.to_str().unwrap()] {
        let failed = run(&["write", "-", name], FOUR_RISKS.as_bytes());
        assert_eq!(failed.status.code(), Some(2));
        let said = String::from_utf8(failed.stderr).unwrap();
        assert!(said.starts_with(&format!("{name} cannot be written: ")));
    }
    assert!(names(&folder).is_empty());

    // no room for a byte
    let limited = "trap '' XFSZ; ulimit -f 0; printf \"$1\" | \"$0\" write - \"$2\"";
    let failed = Command::new("bash")
        .args(["-c", limited, GROUPTEXT, FOUR_RISKS, file_name])
        .output()
        .unwrap();
    assert_eq!(failed.status.code(), Some(2));
    let said = String::from_utf8(failed.stderr).unwrap();
    assert!(
        said.starts_with(&format!("{file_name} cannot be written: ")),
        "{said}"
    );
    assert!(names(&folder).is_empty());
    fs::remove_dir_all(&folder).unwrap();
}

#[test]
fn output_that_cannot_be_written_has_exit_status_2() {
    for (arguments, input) in [
        (&["write"][..], FOUR_RISKS.as_bytes().to_vec()),
        (&["write", "-", "/dev/full"], FOUR_RISKS.as_bytes().to_vec()),
        (&["read"], four_risks().file()),
        (&["rate"], four_risks().file()),
    ] {
        let full = fs::File::options().write(true).open("/dev/full").unwrap();
        let failed = run_into(arguments, &input, full.into());
        assert_eq!(failed.status.code(), Some(2), "{arguments:?}");
        let said = String::from_utf8(failed.stderr).unwrap();
        assert!(said.contains(" cannot be written: "), "{said}");
    }
}

#[test]
fn path_takes_the_place_of_standard_input() {
    let path = env::temp_dir().join(format!("grouptext-{}.group", process::id()));
    fs::write(&path, four_risks().file()).unwrap();
    let name = path.to_str().unwrap();
    assert_eq!(output(&["table", "100", name], &[]), "321 321\n");
    assert!(output(&["rate", name], &[]).starts_with("group 4 "));
    assert!(output(&["read", name], &[]).starts_with("5000 10000 "));
    fs::remove_file(&path).unwrap();
}

#[test]
fn wrong_usage_has_exit_status_2() {
    for arguments in [&[][..], &["table"], &["table", "x"], &["bill"]] {
        assert_eq!(run(arguments, &[]).status.code(), Some(2));
    }
    let four = ["write", "-", "-", "-"];
    assert_eq!(run(&four, &[]).status.code(), Some(2));
    assert_eq!(run(&["read", "no-such.group"], &[]).status.code(), Some(2));
}

// ---- read back

/// A group of either edition, and a file of it with one bit as its opposite: Read has another value of
/// it, or refuses it.
#[test]
fn a_bent_bit_is_found_where_a_file_is_read_back() {
    for sample in [four_risks(), scaffold(), one_claim_of_one(3)] {
        let (mut file, values) = (sample.file(), sample.values());
        assert_eq!(read_back(&file, &values), Ok(()));
        for bit in 0..8 * file.len() {
            let mask = 0x80 >> (bit % 8);
            file[bit / 8] ^= mask;
            let said = read_back(&file, &values).unwrap_err();
            assert!(said.starts_with("retro_read "), "{bit}: {said}");
            file[bit / 8] ^= mask;
        }
        for length in 0..file.len() {
            assert!(read_back(&file[..length], &values).is_err());
        }
    }
}

/// A value of each kind that is another, by its name.
#[test]
fn the_first_value_that_differs_is_named() {
    let of_values = |change: fn(&mut Values)| {
        let mut values = scaffold().values();
        change(&mut values);
        read_back(&scaffold().file(), &values).unwrap_err()
    };
    let changes: [(fn(&mut Values), &str); 14] = [
        (|values| values.edition = 1, "2 as edition, not 1"),
        (
            |values| values.header.loss_limit -= 1,
            "5000 as loss limit, not 4999",
        ),
        (
            |values| values.header.standard_premium -= 1,
            "10000 as standard premium, not 9999",
        ),
        (
            |values| values.header.expense -= 1,
            "2000 as expense provision, not 1999",
        ),
        (
            |values| values.header.conversion -= 1,
            "1100 as loss conversion factor, not 1099",
        ),
        (
            |values| values.header.tax -= 1,
            "10500 as tax multiplier, not 10499",
        ),
        (
            |values| values.header.mark_kind = 1,
            "0 as mark kind, not 1",
        ),
        (
            |values| values.header.maximum_mark -= 1,
            "900 as maximum mark, not 899",
        ),
        (
            |values| values.header.minimum_mark -= 1,
            "200 as minimum mark, not 199",
        ),
        (
            |values| values.counts.push(0),
            "3 as number of risks, not 4",
        ),
        (
            |values| values.counts[0] = 1,
            "2 as number of claims of risk 1, not 1",
        ),
        (
            |values| values.claims[1] = 5,
            "4000 as claim 2 of risk 1, not 5",
        ),
        (
            |values| values.claims[4] = 5,
            "3000 as claim 3 of risk 3, not 5",
        ),
        (
            |values| values.joined[3] = 0,
            "1 as accident bit of claim 2 of risk 3, not 0",
        ),
    ];
    for (change, what) in changes {
        assert_eq!(of_values(change), format!("retro_read gives {what}"));
    }
    let values = scaffold().values();
    let said = read_back(&scaffold().file()[..31], &values);
    assert_eq!(said, Err("retro_read refuses it with 8".to_string()));
}

/// The largest files, and groups at random, are read back as they are.
#[test]
fn groups_are_read_back_as_they_are() {
    for sample in [largest(), largest_of_edition_2(), ten_risks()] {
        assert_eq!(read_back(&sample.file(), &sample.values()), Ok(()));
    }
    let mut random = Random::new(1_932);
    for _ in 0..2_000 {
        let sample = random.group();
        assert_eq!(read_back(&sample.file(), &sample.values()), Ok(()));
    }
}

/// The program, where what it writes is not what comes to be in the file: it says so and leaves no
/// file, and one that was there stays. In the file of three risks, which has a fill bit at its end,
/// each bit is tried.
#[test]
fn a_file_that_reads_otherwise_is_not_left() {
    let folder = folder("bent");
    let library = folder.join("bent_write.so");
    let built = Command::new("gcc")
        .args(["-shared", "-fPIC", "-Wall", "-Wextra", "-Werror", "-o"])
        .arg(&library)
        .arg(repository().join("tests/c/bent_write.c"))
        .status()
        .unwrap();
    assert!(built.success());
    let (text, file) = (folder.join("my.text"), folder.join("my.group"));
    fs::write(&text, text::print(&scaffold())).unwrap();
    let write = |bit: Option<usize>| {
        let mut grouptext = Command::new(GROUPTEXT);
        grouptext.arg("write").args([&text, &file]);
        if let Some(bit) = bit {
            grouptext
                .env("LD_PRELOAD", &library)
                .env("BENT_BIT", bit.to_string());
        }
        let output = grouptext.output().unwrap();
        assert!(output.stdout.is_empty());
        (
            output.status.code(),
            String::from_utf8(output.stderr).unwrap(),
        )
    };
    let made = scaffold().file();
    for bit in 0..8 * made.len() {
        let (status, said) = write(Some(bit));
        assert_eq!(status, Some(3), "{bit}: {said}");
        let not_written = format!("{} is not written: read back, retro_read ", file.display());
        assert!(said.starts_with(&not_written), "{bit}: {said}");
        assert_eq!(names(&folder), ["bent_write.so", "my.text"], "{bit}");
    }
    // c has bits 66 to 76, of which bit 72 is worth 16
    let (_, said) = write(Some(72));
    assert!(
        said.ends_with("retro_read gives 1116 as loss conversion factor, not 1100\n"),
        "{said}"
    );
    assert_eq!(
        write(None),
        (Some(0), "3 risks and 5 claims written\n".to_string())
    );
    assert_eq!(fs::read(&file).unwrap(), made);
    fs::write(&text, text::print(&ten_risks())).unwrap();
    assert_eq!(write(Some(0)).0, Some(3));
    assert_eq!(fs::read(&file).unwrap(), made);
    fs::remove_dir_all(&folder).unwrap();
}
