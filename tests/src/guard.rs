//! Memory between unreadable pages: a read or a write one byte outside it ends the process.

use std::ffi::{c_int, c_long, c_void};
use std::marker::PhantomData;
use std::mem::size_of;
use std::ptr;
use std::slice;

// The values of Linux on x86-64, for which the archive is built.
const PROT_NONE: c_int = 0;
const PROT_READ: c_int = 1;
const PROT_WRITE: c_int = 2;
const MAP_PRIVATE: c_int = 0x02;
const MAP_ANONYMOUS: c_int = 0x20;
const MAP_NORESERVE: c_int = 0x4000;
const SC_PAGESIZE: c_int = 30;

extern "C" {
    fn mmap(
        address: *mut c_void,
        length: usize,
        protection: c_int,
        flags: c_int,
        file: c_int,
        offset: i64,
    ) -> *mut c_void;
    fn mprotect(address: *mut c_void, length: usize, protection: c_int) -> c_int;
    fn munmap(address: *mut c_void, length: usize) -> c_int;
    fn sysconf(name: c_int) -> c_long;
}

/// Where a slice lies between the two unreadable pages.
#[derive(Clone, Copy, Debug, PartialEq, Eq)]
pub enum Place {
    /// Its first byte is the first after the page before it.
    PageBefore,
    /// Its last byte is the last before the page after it.
    PageAfter,
}

/// Both places, in each of which every slice is tried.
pub const PLACES: [Place; 2] = [Place::PageBefore, Place::PageAfter];

/// Numbers for which any bytes are a value.
pub trait Number: Copy {}
impl Number for u8 {}
impl Number for u32 {}
impl Number for u64 {}
impl Number for i32 {}
impl Number for i64 {}
impl Number for usize {}
impl Number for f64 {}

/// The size of a page in bytes.
pub fn page_size() -> usize {
    // SAFETY: sysconf only gives a number.
    usize::try_from(unsafe { sysconf(SC_PAGESIZE) }).expect("the size of a page")
}

/// Readable and writable pages between two unreadable ones.
pub struct Guarded<T: Number> {
    mapping: *mut u8,
    page: usize,
    /// The bytes between the two unreadable pages.
    inside: usize,
    numbers: PhantomData<T>,
}

impl<T: Number> Guarded<T> {
    /// Room for so many numbers, rounded up to whole pages.
    pub fn new(capacity: usize) -> Guarded<T> {
        let page = page_size();
        let inside = (capacity * size_of::<T>()).max(1).next_multiple_of(page);
        let mapping = map(inside + 2 * page, PROT_NONE);
        // SAFETY: the pages lie inside the mapping, and nothing points to them yet.
        let opened = unsafe { mprotect(mapping.add(page).cast(), inside, PROT_READ | PROT_WRITE) };
        assert_eq!(opened, 0, "mprotect failed");
        Guarded {
            mapping,
            page,
            inside,
            numbers: PhantomData,
        }
    }

    /// A slice of so many numbers against one of the unreadable pages, with what its memory held
    /// before.
    pub fn slice(&mut self, len: usize, place: Place) -> &mut [T] {
        let bytes = len * size_of::<T>();
        assert!(bytes <= self.inside, "more numbers than there is room for");
        let from = match place {
            Place::PageBefore => self.page,
            Place::PageAfter => self.page + self.inside - bytes,
        };
        // SAFETY: the bytes are inside the open pages, pages are aligned for every number, any
        // bytes are a number, and the borrow of self keeps the slice the only one.
        unsafe { slice::from_raw_parts_mut(self.mapping.add(from).cast(), len) }
    }

    /// A slice with these numbers in it.
    pub fn copy(&mut self, numbers: &[T], place: Place) -> &mut [T] {
        let slice = self.slice(numbers.len(), place);
        slice.copy_from_slice(numbers);
        slice
    }

    /// One number with this value.
    pub fn number(&mut self, value: T, place: Place) -> &mut T {
        let number = &mut self.slice(1, place)[0];
        *number = value;
        number
    }
}

impl<T: Number> Drop for Guarded<T> {
    fn drop(&mut self) {
        unmap(self.mapping, self.inside + 2 * self.page);
    }
}

/// Bytes that are 0 and take no memory until they are used, as many as the address space has.
pub struct Sparse {
    mapping: *mut u8,
    len: usize,
}

impl Sparse {
    /// So many bytes, all 0.
    pub fn new(len: usize) -> Sparse {
        Sparse {
            mapping: map(len, PROT_READ | PROT_WRITE),
            len,
        }
    }

    pub fn bytes(&mut self) -> &mut [u8] {
        self.numbers()
    }

    /// The same bytes as numbers.
    pub fn numbers<T: Number>(&mut self) -> &mut [T] {
        // SAFETY: the mapping has that many readable and writable bytes, pages are aligned for
        // every number, any bytes are a number, and the borrow of self keeps the slice the only
        // one.
        unsafe { slice::from_raw_parts_mut(self.mapping.cast(), self.len / size_of::<T>()) }
    }
}

impl Drop for Sparse {
    fn drop(&mut self) {
        unmap(self.mapping, self.len);
    }
}

/// New pages of the process's own, with no memory set aside for them.
fn map(len: usize, protection: c_int) -> *mut u8 {
    let flags = MAP_PRIVATE | MAP_ANONYMOUS | MAP_NORESERVE;
    // SAFETY: a new mapping at an address of the system's choice touches no memory in use.
    let mapping = unsafe { mmap(ptr::null_mut(), len, protection, flags, -1, 0) };
    assert!(
        !mapping.is_null() && mapping as isize != -1,
        "mmap failed: {}",
        std::io::Error::last_os_error()
    );
    mapping.cast()
}

/// Gives pages back.
fn unmap(mapping: *mut u8, len: usize) {
    // SAFETY: the mapping came from `map` with this length, and its owner is dropped.
    unsafe { munmap(mapping.cast(), len) };
}
