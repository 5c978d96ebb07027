//! The unreadable pages do what the comparison relies on: one byte outside a slice ends the
//! process.

use retro_tests::guard::{page_size, Guarded, Number, Place, PLACES};
use std::env;
use std::mem::size_of;
use std::os::unix::process::ExitStatusExt;
use std::process::Command;

/// Names the fault that a child process is to cause.
const FAULT: &str = "RETRO_GUARD_FAULT";
const SIGSEGV: i32 = 11;

/// Slices of these numbers begin after the page before them, or end before the page after them.
fn lie_against_the_pages<T: Number>() {
    let mut memory = Guarded::<T>::new(5_000);
    let inside = (5_000 * size_of::<T>()).next_multiple_of(page_size());
    let first = memory.slice(5_000, Place::PageBefore).as_ptr() as usize;
    assert_eq!(first % page_size(), 0);
    for len in [0, 1, 7, 5_000] {
        assert_eq!(
            memory.slice(len, Place::PageBefore).as_ptr() as usize,
            first
        );
        let after = memory.slice(len, Place::PageAfter);
        let end = after.as_ptr() as usize + size_of::<T>() * len;
        assert_eq!(end, first + inside);
    }
}

#[test]
fn slices_lie_against_the_pages() {
    lie_against_the_pages::<u8>();
    lie_against_the_pages::<u32>();
    lie_against_the_pages::<i32>();
    lie_against_the_pages::<i64>();
}

#[test]
fn slices_hold_what_is_put_into_them() {
    let mut memory = Guarded::<u8>::new(10);
    for place in PLACES {
        let slice = memory.copy(&[3, 1, 4, 1, 5], place);
        slice[4] = 9;
        assert_eq!(slice, [3, 1, 4, 1, 9]);
        assert_eq!(*memory.number(7, place), 7);
    }
}

/// Does what the fault's name says, in a child process of the test.
fn cause(fault: &str) {
    let mut memory = Guarded::<u8>::new(100);
    let before = memory.slice(100, Place::PageBefore).as_mut_ptr();
    let after = memory.slice(100, Place::PageAfter).as_mut_ptr();
    // SAFETY: none for the accesses outside; each must end this process.
    unsafe {
        match fault {
            "none" => before.write_volatile(after.add(99).read_volatile()),
            "read before" => drop(before.sub(1).read_volatile()),
            "write before" => before.sub(1).write_volatile(1),
            "read after" => drop(after.add(100).read_volatile()),
            "write after" => after.add(100).write_volatile(1),
            _ => panic!("no such fault: {fault}"),
        }
    }
}

/// The signal that ended a child with this fault, if one did.
fn signal_of(fault: &str) -> Option<i32> {
    let child = Command::new(env::current_exe().unwrap())
        .args(["--exact", "one_byte_outside_ends_the_process"])
        .env(FAULT, fault)
        .output()
        .unwrap();
    assert_eq!(child.status.success(), child.status.signal().is_none());
    child.status.signal()
}

#[test]
fn one_byte_outside_ends_the_process() {
    if let Ok(fault) = env::var(FAULT) {
        return cause(&fault);
    }
    assert_eq!(signal_of("none"), None);
    for fault in ["read before", "write before", "read after", "write after"] {
        assert_eq!(signal_of(fault), Some(SIGSEGV), "{fault}");
    }
}
