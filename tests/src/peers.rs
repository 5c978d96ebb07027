//! The peers of the benchmark: a tuned rater, a tuned reader and a tuned writer in C (tests/peers).
//! They are for comparing speed; nothing of them is shipped. Each is there in two forms. They take
//! and make files of edition 1 alone, of which the reader gives a bit of 0 for each claim, as Read
//! does.
//!
//! A peer asks no question and tests no length. So what it is given is a type that is made only of
//! what the second rater accepts, and what it stores to has room for the largest group: with that
//! asked and settled before, a call makes no check of its own.

use crate::calls::{Group, Header};
use crate::generator::{get, EDITION};
use crate::samples::Values;
use crate::second_rater::{self, LARGEST_FILE, MOST_CLAIMS_PER_RISK, MOST_RISKS};
use crate::straightforward::Rated;

/// The bytes after a file that a peer may load, and the writer set to 0.
pub const SPARE: usize = 8;

/// Room for the premiums of every group.
pub type Premiums = [u8; 4 * MOST_RISKS];
/// Room for the counts of every group.
pub type Counts = [u8; MOST_RISKS];
/// Room for the claims of every group.
pub type Claims = [u32; MOST_RISKS * MOST_CLAIMS_PER_RISK];
/// Room for the bits of every group.
pub type Joined = [u8; MOST_RISKS * MOST_CLAIMS_PER_RISK];
/// Room for every file and the spare bytes after it.
pub type Written = [u8; LARGEST_FILE + SPARE];

/// A form of the peers, in which tests/build.rs has them compiled.
#[derive(Clone, Copy, Debug, PartialEq, Eq)]
pub enum Form {
    /// As the loops are written.
    ClaimByClaim,
    /// With several claims at a time where gcc makes vectors of them.
    WithVectors,
}

/// Both forms.
pub const FORMS: [Form; 2] = [Form::ClaimByClaim, Form::WithVectors];

/// The peers as C sees them (tests/peers/peers.h). Each function here gives the peer of a form.
pub mod raw {
    use super::{Form, Group, Header, Rated};

    /// Declares a peer under its names in C, first claim by claim, then with vectors.
    macro_rules! peer {
        ($peer:ident: $claim_by_claim:ident, $with_vectors:ident,
         fn($($name:ident: $type:ty),*) -> $given:ty) => {
            extern "C" {
                fn $claim_by_claim($($name: $type),*) -> $given;
                fn $with_vectors($($name: $type),*) -> $given;
            }

            pub fn $peer(form: Form) -> unsafe extern "C" fn($($name: $type),*) -> $given {
                match form {
                    Form::ClaimByClaim => $claim_by_claim,
                    Form::WithVectors => $with_vectors,
                }
            }
        };
    }

    peer!(rate: tuned_rate, tuned_rate_with_vectors,
          fn(file: *const u8, premiums: *mut u8) -> Rated);
    peer!(read: tuned_read, tuned_read_with_vectors,
          fn(file: *const u8, counts: *mut u8, claims: *mut u32, joined: *mut u8) -> Group);
    peer!(write: tuned_write, tuned_write_with_vectors,
          fn(header: Header, counts: *const u8, risks: usize, claims: *const u32,
             file: *mut u8) -> usize);
}

/// A file of edition 1 that Rate accepts, and so does Read, with spare bytes after it.
pub struct AcceptedFile {
    bytes: Vec<u8>,
}

impl AcceptedFile {
    /// The file of these bytes. Panics where the second rater refuses it or its edition is another.
    pub fn new(file: &[u8]) -> AcceptedFile {
        if let Err(question) = second_rater::rate(file, 4 * MOST_RISKS) {
            panic!("no file for a peer: refused {question}");
        }
        let edition = get(file, EDITION);
        assert_eq!(edition, 1, "no file for a peer: edition {edition}");
        let mut bytes = file.to_vec();
        bytes.resize(file.len() + SPARE, 0);
        AcceptedFile { bytes }
    }

    /// The file alone.
    pub fn file(&self) -> &[u8] {
        &self.bytes[..self.bytes.len() - SPARE]
    }
}

/// The values of a group that Write accepts for edition 1.
pub struct AcceptedGroup {
    header: Header,
    counts: Vec<u8>,
    claims: Vec<u32>,
}

impl AcceptedGroup {
    /// The group of these values. Panics where the second rater refuses to write it.
    pub fn new(header: second_rater::Header, counts: &[u8], claims: &[u32]) -> AcceptedGroup {
        let values = Values::of_edition_1(&header, counts, claims);
        if let Err(question) = values.written(LARGEST_FILE) {
            panic!("no group for a peer: refused {question}");
        }
        AcceptedGroup {
            header: header.into(),
            counts: counts.to_vec(),
            claims: claims.to_vec(),
        }
    }
}

/// The tuned rater: Rate's numbers, with the premiums at the start of the buffer.
pub fn rate(form: Form, file: &AcceptedFile, premiums: &mut Premiums) -> Rated {
    // SAFETY: the file is accepted and has its spare bytes, and every group's premiums fit.
    unsafe { raw::rate(form)(file.bytes.as_ptr(), premiums.as_mut_ptr()) }
}

/// The tuned reader: the number of risks, the header values and edition 1, with the counts, the
/// claims and the bits, which are all 0, at the start of the buffers.
pub fn read(
    form: Form,
    file: &AcceptedFile,
    counts: &mut Counts,
    claims: &mut Claims,
    joined: &mut Joined,
) -> Group {
    // SAFETY: the file is accepted and has its spare bytes, and every group's counts, claims and
    // bits fit.
    unsafe {
        raw::read(form)(
            file.bytes.as_ptr(),
            counts.as_mut_ptr(),
            claims.as_mut_ptr(),
            joined.as_mut_ptr(),
        )
    }
}

/// The tuned writer: the file's length, with the file at the start of the buffer and up to `SPARE`
/// zeros after it.
pub fn write(form: Form, group: &AcceptedGroup, file: &mut Written) -> usize {
    let AcceptedGroup {
        header,
        counts,
        claims,
    } = group;
    // SAFETY: the values are accepted, and every group's file fits with its spare bytes.
    unsafe {
        raw::write(form)(
            *header,
            counts.as_ptr(),
            counts.len(),
            claims.as_ptr(),
            file.as_mut_ptr(),
        )
    }
}
