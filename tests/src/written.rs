//! Group files that people have made: read back by the exported Read, which is proved, and held to
//! the values that they were made of, before they are said to be written.

use crate::calls;
use crate::samples::Values;
use crate::second_rater::{MOST_CLAIMS_PER_RISK, MOST_RISKS};
use crate::text::{header_values, HEADER_NAMES};
use std::fs;
use std::io;
use std::path::Path;
use std::process;

/// Why a group file is not there.
#[derive(Debug)]
pub enum Failed {
    /// It cannot be written or read back.
    Unwritten(io::Error),
    /// Read has something else of it than it was made of.
    Otherwise(String),
}

/// Puts a group file of these values at a path, whole or not at all: under another name beside it,
/// where it is read back, and which then becomes its own.
pub fn put(path: &Path, file: &[u8], values: &Values) -> Result<(), Failed> {
    // the file itself where the path is a link to one
    let path = fs::canonicalize(path).unwrap_or_else(|_| path.to_path_buf());
    if path.exists() && !path.is_file() {
        // a device or a pipe is not to be replaced by a file, nor read back
        read_back(file, values).map_err(Failed::Otherwise)?;
        return fs::write(path, file).map_err(Failed::Unwritten);
    }
    let name = path
        .file_name()
        .ok_or_else(|| Failed::Unwritten(io::ErrorKind::NotFound.into()))?;
    let other = format!(".{}.{}", name.to_string_lossy(), process::id());
    let beside = path.with_file_name(other);
    let written = put_beside(&beside, file, values)
        .and_then(|()| fs::rename(&beside, &path).map_err(Failed::Unwritten));
    if written.is_err() {
        // it may not be there at all
        let _ = fs::remove_file(&beside);
    }
    written
}

/// Writes a file and reads it back.
fn put_beside(beside: &Path, file: &[u8], values: &Values) -> Result<(), Failed> {
    fs::write(beside, file).map_err(Failed::Unwritten)?;
    let there = fs::read(beside).map_err(Failed::Unwritten)?;
    read_back(&there, values).map_err(Failed::Otherwise)
}

/// Whether Read gives these values of a file; the first that it does not give is named.
pub fn read_back(file: &[u8], values: &Values) -> Result<(), String> {
    let mut counts = [0; MOST_RISKS];
    let mut claims = vec![0; MOST_RISKS * MOST_CLAIMS_PER_RISK];
    let mut joined = vec![0; MOST_RISKS * MOST_CLAIMS_PER_RISK];
    let group = calls::read(file, &mut counts, &mut claims, &mut joined);
    if group.refused != 0 {
        return Err(format!("retro_read refuses it with {}", group.refused));
    }
    same("edition", group.edition, values.edition)?;
    let given = header_values(&group.header().into());
    let wanted = header_values(&values.header);
    for ((name, given), wanted) in HEADER_NAMES.into_iter().zip(given).zip(wanted) {
        same(name, given, wanted)?;
    }
    let risks = values.counts.len();
    same("number of risks", group.risks as usize, risks)?;
    let mut first = 0;
    for (k, &count) in values.counts.iter().enumerate() {
        let of_risk = format!("of risk {}", k + 1);
        same(&format!("number of claims {of_risk}"), counts[k], count)?;
        for claim in 0..usize::from(count) {
            let at = first + claim;
            let name = format!("claim {} {of_risk}", claim + 1);
            same(&name, claims[at], values.claims[at])?;
            let bit = (joined[at], values.joined[at]);
            same(&format!("accident bit of {name}"), bit.0, bit.1)?;
        }
        first += usize::from(count);
    }
    Ok(())
}

/// Whether a value is the one that is wanted.
fn same<T: PartialEq + std::fmt::Display>(name: &str, given: T, wanted: T) -> Result<(), String> {
    match given == wanted {
        true => Ok(()),
        false => Err(format!("retro_read gives {given} as {name}, not {wanted}")),
    }
}
