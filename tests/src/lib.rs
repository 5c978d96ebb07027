//! What is tested beside the proofs: the exported calls from outside, held to a second rater.
//!
//! - `calls`: the seven exported calls of crates/retro_c/out/libretro_c.a.
//! - `second_rater`: the second rater, written from documents 01 and 02 alone.
//! - `charges_1965`: the charges of the 1965 table, from document 02 and source document 003 alone.
//! - `plans`: plans sold on premiums, from documents 01 and 02 alone.
//! - `straightforward`: a rater for Rate alone, the benchmark's baseline.
//! - `peers`: the tuned rater, reader and writer in C that the benchmark measures beside the calls.
//! - `desk`: the benchmark's groups and buffers, and the calls on them.
//! - `samples` and `generator`: known groups, schedules and bounds, generated ones, and damaged
//!   files.
//! - `text`: the text of a group, for people; `written`: group files made of it, read back.
//! - `guard` and `held_calls`: memory between unreadable pages, and the calls held to the second
//!   rater, to `charges_1965` or to `plans`, in it.
//! - `comparison`: many generated inputs on all cores.

pub mod calls;
pub mod charges_1965;
pub mod comparison;
pub mod desk;
pub mod generator;
pub mod guard;
pub mod held_calls;
pub mod peers;
pub mod plans;
pub mod samples;
pub mod second_rater;
pub mod straightforward;
pub mod text;
pub mod written;

use std::path::{Path, PathBuf};

/// The repository's root.
pub fn repository() -> PathBuf {
    Path::new(env!("CARGO_MANIFEST_DIR")).join("..")
}

/// The folder of the example files.
pub fn examples() -> PathBuf {
    repository().join("examples")
}

/// The questions that can be the first No of a file, in the order in which they are asked. 11 is no
/// question any more.
pub const QUESTIONS_OF_A_FILE: [u32; 13] = [1, 2, 3, 4, 5, 6, 18, 7, 8, 9, 19, 10, 12];

/// The example file that is refused with this question.
pub fn refused_example(question: u32) -> PathBuf {
    examples().join(format!("refused-{question:02}.group"))
}

/// The program `retro`, which is built before the tests run.
pub fn program() -> PathBuf {
    let program = repository().join("crates/retro/out/retro");
    assert!(
        program.is_file(),
        "{} is missing: run `rt run` in crates/retro first",
        program.display()
    );
    program
}
