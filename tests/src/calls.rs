//! The exported calls of libretro_c.a. What each gives is said in include/retro.h.
//!
//! A slice is handed over as a pointer and a count; Rust's borrows keep the parts that a call
//! writes from overlapping.

use crate::samples::Values;
use crate::second_rater;

/// The header values in file order, loss limit to minimum mark.
#[repr(C)]
#[derive(Clone, Copy, Debug, Default, PartialEq, Eq)]
pub struct Header {
    pub loss_limit: u32,
    pub standard_premium: u32,
    pub expense: u32,
    pub conversion: u32,
    pub tax: u32,
    pub mark_kind: u32,
    pub maximum_mark: u32,
    pub minimum_mark: u32,
}

/// What Read answers: 0 or the refusal, n, the header values and the edition; all else is 0 where
/// it is a refusal.
#[repr(C)]
#[derive(Clone, Copy, Debug, Default, PartialEq, Eq)]
pub struct Group {
    pub refused: u32,
    pub risks: u32,
    pub loss_limit: u32,
    pub standard_premium: u32,
    pub expense: u32,
    pub conversion: u32,
    pub tax: u32,
    pub mark_kind: u32,
    pub maximum_mark: u32,
    pub minimum_mark: u32,
    pub edition: u32,
}

impl Group {
    /// The answer with these values.
    pub fn given(edition: u32, risks: u32, header: Header) -> Group {
        Group {
            refused: 0,
            risks,
            loss_limit: header.loss_limit,
            standard_premium: header.standard_premium,
            expense: header.expense,
            conversion: header.conversion,
            tax: header.tax,
            mark_kind: header.mark_kind,
            maximum_mark: header.maximum_mark,
            minimum_mark: header.minimum_mark,
            edition,
        }
    }

    /// The answer to a file that fails a question.
    pub fn refused(question: u32) -> Group {
        Group {
            refused: question,
            ..Group::default()
        }
    }

    /// The header values of the answer.
    pub fn header(&self) -> Header {
        Header {
            loss_limit: self.loss_limit,
            standard_premium: self.standard_premium,
            expense: self.expense,
            conversion: self.conversion,
            tax: self.tax,
            mark_kind: self.mark_kind,
            maximum_mark: self.maximum_mark,
            minimum_mark: self.minimum_mark,
        }
    }
}

impl From<second_rater::Header> for Header {
    fn from(header: second_rater::Header) -> Header {
        Header {
            loss_limit: header.loss_limit,
            standard_premium: header.standard_premium,
            expense: header.expense,
            conversion: header.conversion,
            tax: header.tax,
            mark_kind: header.mark_kind,
            maximum_mark: header.maximum_mark,
            minimum_mark: header.minimum_mark,
        }
    }
}

impl From<Header> for second_rater::Header {
    fn from(header: Header) -> second_rater::Header {
        second_rater::Header {
            loss_limit: header.loss_limit,
            standard_premium: header.standard_premium,
            expense: header.expense,
            conversion: header.conversion,
            tax: header.tax,
            mark_kind: header.mark_kind,
            maximum_mark: header.maximum_mark,
            minimum_mark: header.minimum_mark,
        }
    }
}

/// A layer of a premium discount schedule: its width in dollars, its rate in tenths of a percent.
#[repr(C)]
#[derive(Clone, Copy, Debug, Default, PartialEq, Eq)]
pub struct Layer {
    pub width: u32,
    pub rate: u32,
}

/// A premium discount schedule. The width in the last row is not looked at.
#[repr(C)]
#[derive(Clone, Copy, Debug, Default, PartialEq, Eq)]
pub struct Schedule {
    pub layers: [Layer; 4],
}

impl From<[second_rater::Layer; 4]> for Schedule {
    fn from(layers: [second_rater::Layer; 4]) -> Schedule {
        Schedule {
            layers: layers.map(|layer| Layer {
                width: layer.width,
                rate: layer.rate,
            }),
        }
    }
}

/// The numbers that Guaranteed gives: Rate's four, then its own three.
#[derive(Clone, Copy, Debug, Default, PartialEq, Eq)]
pub struct Numbers {
    pub risks: u32,
    pub basic: u64,
    pub excess: u64,
    pub billed: u64,
    pub discount: u32,
    pub guaranteed: u32,
    pub difference: i64,
}

impl Numbers {
    /// Lends them all.
    pub fn lend(&mut self) -> Lent<'_> {
        Lent {
            risks: &mut self.risks,
            basic: &mut self.basic,
            excess: &mut self.excess,
            billed: &mut self.billed,
            discount: &mut self.discount,
            guaranteed: &mut self.guaranteed,
            difference: &mut self.difference,
        }
    }
}

/// The numbers of Guaranteed where they lie.
pub struct Lent<'a> {
    pub risks: &'a mut u32,
    pub basic: &'a mut u64,
    pub excess: &'a mut u64,
    pub billed: &'a mut u64,
    pub discount: &'a mut u32,
    pub guaranteed: &'a mut u32,
    pub difference: &'a mut i64,
}

impl Lent<'_> {
    /// What they hold.
    pub fn numbers(&self) -> Numbers {
        Numbers {
            risks: *self.risks,
            basic: *self.basic,
            excess: *self.excess,
            billed: *self.billed,
            discount: *self.discount,
            guaranteed: *self.guaranteed,
            difference: *self.difference,
        }
    }
}

/// The calls as C sees them.
pub mod raw {
    use super::{Group, Header, Schedule};

    extern "C" {
        pub fn retro_rate(
            file: *const u8,
            file_len: usize,
            premiums: *mut u8,
            premiums_len: usize,
            risks: *mut u32,
            basic: *mut u64,
            excess: *mut u64,
            billed: *mut u64,
        ) -> u32;
        pub fn retro_guaranteed(
            file: *const u8,
            file_len: usize,
            schedule: Schedule,
            premiums: *mut u8,
            premiums_len: usize,
            differences: *mut i64,
            differences_len: usize,
            risks: *mut u32,
            basic: *mut u64,
            excess: *mut u64,
            billed: *mut u64,
            discount: *mut u32,
            guaranteed: *mut u32,
            difference: *mut i64,
        ) -> u32;
        pub fn retro_table(
            file: *const u8,
            file_len: usize,
            entry_ratio: u32,
            charge: *mut u32,
            savings: *mut u32,
        ) -> u32;
        pub fn retro_read(
            file: *const u8,
            file_len: usize,
            counts: *mut u8,
            counts_len: usize,
            claims: *mut u32,
            claims_len: usize,
            joined: *mut u8,
            joined_len: usize,
        ) -> Group;
        pub fn retro_write(
            edition: u32,
            header: Header,
            counts: *const u8,
            counts_len: usize,
            claims: *const u32,
            claims_len: usize,
            joined: *const u8,
            joined_len: usize,
            file: *mut u8,
            file_len: usize,
            length: *mut usize,
        ) -> u32;
        pub fn retro_charge(
            column: u32,
            entry_ratio: u32,
            charge: *mut f64,
            thousandths: *mut u32,
        ) -> u32;
        pub fn retro_plan(
            file: *const u8,
            file_len: usize,
            maximum: u32,
            minimum: u32,
            trials: u32,
            made: *mut u32,
            best: *mut u32,
            short_of: *mut i32,
        ) -> u32;
    }
}

/// Rate: 0, or the number of the first question that the file or the buffer fails.
pub fn rate(
    file: &[u8],
    premiums: &mut [u8],
    risks: &mut u32,
    basic: &mut u64,
    excess: &mut u64,
    billed: &mut u64,
) -> u32 {
    // SAFETY: each pointer is good for its count, and the borrows keep what is written apart.
    unsafe {
        raw::retro_rate(
            file.as_ptr(),
            file.len(),
            premiums.as_mut_ptr(),
            premiums.len(),
            risks,
            basic,
            excess,
            billed,
        )
    }
}

/// Guaranteed: 0, or the number of the first question that the file, a buffer or the schedule
/// fails.
pub fn guaranteed(
    file: &[u8],
    schedule: Schedule,
    premiums: &mut [u8],
    differences: &mut [i64],
    lent: &mut Lent,
) -> u32 {
    // SAFETY: as in `rate`.
    unsafe {
        raw::retro_guaranteed(
            file.as_ptr(),
            file.len(),
            schedule,
            premiums.as_mut_ptr(),
            premiums.len(),
            differences.as_mut_ptr(),
            differences.len(),
            lent.risks,
            lent.basic,
            lent.excess,
            lent.billed,
            lent.discount,
            lent.guaranteed,
            lent.difference,
        )
    }
}

/// Table: 0, or the number of the first question that the file or the entry ratio fails.
pub fn table(file: &[u8], entry_ratio: u32, charge: &mut u32, savings: &mut u32) -> u32 {
    // SAFETY: as in `rate`.
    unsafe { raw::retro_table(file.as_ptr(), file.len(), entry_ratio, charge, savings) }
}

/// Read: the edition and the header, with the counts, the claims and their bits in the buffers.
pub fn read(file: &[u8], counts: &mut [u8], claims: &mut [u32], joined: &mut [u8]) -> Group {
    // SAFETY: as in `rate`.
    unsafe {
        raw::retro_read(
            file.as_ptr(),
            file.len(),
            counts.as_mut_ptr(),
            counts.len(),
            claims.as_mut_ptr(),
            claims.len(),
            joined.as_mut_ptr(),
            joined.len(),
        )
    }
}

/// Write: 0, or the number of the first question that the values or the buffer fail.
pub fn write(
    edition: u32,
    header: Header,
    counts: &[u8],
    claims: &[u32],
    joined: &[u8],
    file: &mut [u8],
    length: &mut usize,
) -> u32 {
    // SAFETY: as in `rate`.
    unsafe {
        raw::retro_write(
            edition,
            header,
            counts.as_ptr(),
            counts.len(),
            claims.as_ptr(),
            claims.len(),
            joined.as_ptr(),
            joined.len(),
            file.as_mut_ptr(),
            file.len(),
            length,
        )
    }
}

/// Charge: 0, or the number of the first question that the column or the entry ratio fails.
pub fn charge(column: u32, entry_ratio: u32, charge: &mut f64, thousandths: &mut u32) -> u32 {
    // SAFETY: as in `rate`.
    unsafe { raw::retro_charge(column, entry_ratio, charge, thousandths) }
}

/// Plan: 0, or the number of the first question that the file or the maximum and minimum premium
/// fail.
pub fn plan(
    file: &[u8],
    maximum: u32,
    minimum: u32,
    trials: u32,
    made: &mut u32,
    best: &mut u32,
    short_of: &mut i32,
) -> u32 {
    // SAFETY: as in `rate`.
    unsafe {
        raw::retro_plan(
            file.as_ptr(),
            file.len(),
            maximum,
            minimum,
            trials,
            made,
            best,
            short_of,
        )
    }
}

/// What Rate gives: n, M, Q and the sum billed, and the premiums.
#[derive(Debug, PartialEq)]
pub struct Rated {
    pub numbers: (u32, u64, u64, u64),
    pub premiums: Vec<u32>,
}

/// Rate of a file with a buffer of so many bytes. A refusal leaves everything as it was; else the
/// bytes after the premiums keep their contents.
pub fn rated(file: &[u8], room: usize) -> Result<Rated, u32> {
    let mut buffer = vec![0xee; room];
    let (mut n, mut basic, mut excess, mut billed) = (9, 9, 9, 9);
    let answer = rate(
        file,
        &mut buffer,
        &mut n,
        &mut basic,
        &mut excess,
        &mut billed,
    );
    if answer != 0 {
        assert_eq!((n, basic, excess, billed), (9, 9, 9, 9));
        assert!(buffer.iter().all(|&byte| byte == 0xee));
        return Err(answer);
    }
    let (written, rest) = buffer.split_at(4 * n as usize);
    assert!(rest.iter().all(|&byte| byte == 0xee));
    Ok(Rated {
        numbers: (n, basic, excess, billed),
        premiums: premiums_in(written),
    })
}

/// The premiums in these bytes: four each, the most significant first.
pub fn premiums_in(bytes: &[u8]) -> Vec<u32> {
    let premium = |four: &[u8]| u32::from_be_bytes([four[0], four[1], four[2], four[3]]);
    bytes.chunks(4).map(premium).collect()
}

/// Charge and savings that Table gives. A refusal leaves both as they were.
pub fn tabled(file: &[u8], entry_ratio: u32) -> Result<(u32, u32), u32> {
    let (mut charge, mut savings) = (9, 9);
    let answer = table(file, entry_ratio, &mut charge, &mut savings);
    if answer != 0 {
        assert_eq!((charge, savings), (9, 9));
        return Err(answer);
    }
    Ok((charge, savings))
}

/// The file that Write makes in a buffer of so many bytes. A refusal leaves everything as it was;
/// else the bytes after the file keep their contents.
pub fn written(values: &Values, room: usize) -> Result<Vec<u8>, u32> {
    let mut buffer = vec![0xee; room];
    let mut length = 9;
    let answer = write(
        values.edition,
        values.header.into(),
        &values.counts,
        &values.claims,
        &values.joined,
        &mut buffer,
        &mut length,
    );
    if answer != 0 {
        assert_eq!(length, 9);
        assert!(buffer.iter().all(|&byte| byte == 0xee));
        return Err(answer);
    }
    assert!(buffer[length..].iter().all(|&byte| byte == 0xee));
    buffer.truncate(length);
    Ok(buffer)
}
