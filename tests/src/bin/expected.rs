//! Writes what must be printed for each example file: `expected [FOLDER]`, without FOLDER for
//! examples/.
//!
//! The lines are the second rater's; the library takes no part.

use retro_tests::second_rater::{self, MOST_RISKS};
use std::path::PathBuf;
use std::{env, fs, io};

fn main() -> io::Result<()> {
    let folder = env::args_os()
        .nth(1)
        .map_or_else(retro_tests::examples, PathBuf::from);
    for entry in fs::read_dir(folder)? {
        let path = entry?.path();
        if path
            .extension()
            .is_some_and(|extension| extension == "group")
        {
            let lines = match second_rater::rate(&fs::read(&path)?, 4 * MOST_RISKS) {
                Ok(rated) => second_rater::print_rated(&rated),
                Err(question) => second_rater::print_refused(question),
            };
            fs::write(path.with_extension("expected"), lines)?;
        }
    }
    Ok(())
}
