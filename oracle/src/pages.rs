//! Memory between unreadable pages, for buffers that end or begin exactly there: a place read or written on that side
//! ends the program with a signal. By Linux's calls and their numbers.

use std::cell::RefCell;
use std::ops::{Deref, DerefMut};
use std::{ptr, slice};

use crate::lend::{Ground, Number};

/// Bytes of a block that can be used: as many as the longest buffer needs, and whole pages.
const INSIDE: usize = 1 << 24;
/// Unreadable bytes on each side of it: more than a page, lest a wrong row of a great stride leaps over them.
const OUTSIDE: usize = 1 << 24;

const PROT_NONE: i32 = 0;
const PROT_READ_AND_WRITE: i32 = 1 | 2;
const MAP_PRIVATE_ANONYMOUS: i32 = 2 | 0x20;

unsafe extern "C" {
    fn mmap(address: *mut u8, length: usize, protection: i32, flags: i32, file: i32, offset: i64) -> *mut u8;
    fn mprotect(address: *mut u8, length: usize, protection: i32) -> i32;
}

thread_local! {
    /// The blocks that no buffer uses now. They are used again, for mapping costs more than a call.
    static FREE: RefCell<Vec<*mut u8>> = const { RefCell::new(vec![]) };
}

/// Maps a new block, and gives its first byte that can be used.
fn map_block() -> *mut u8 {
    // Both calls ask for fresh memory of this process alone, so nothing else is touched.
    unsafe {
        let block = mmap(ptr::null_mut(), OUTSIDE + INSIDE + OUTSIDE, PROT_NONE, MAP_PRIVATE_ANONYMOUS, -1, 0);
        assert!(block as isize != -1, "no memory could be mapped");
        let inside = block.add(OUTSIDE);
        assert!(mprotect(inside, INSIDE, PROT_READ_AND_WRITE) == 0, "mapped memory could not be opened");
        inside
    }
}

/// So many numbers at the beginning of a block, or at its end.
pub struct Part<T> {
    block: *mut u8,
    start: *mut T,
    length: usize,
}

impl<T: Number> Part<T> {
    /// Takes a free block, or a new one.
    fn new(length: usize, at_end: bool) -> Self {
        let bytes = length * size_of::<T>();
        assert!(bytes <= INSIDE, "a buffer of {bytes} bytes is longer than a block");
        let block = FREE.with_borrow_mut(Vec::pop).unwrap_or_else(map_block);
        let start = if at_end { block.wrapping_add(INSIDE - bytes) } else { block };
        Part { block, start: start.cast(), length }
    }
}

// The slices below are good: they lie in the part of the block that can be used, which is this one's own until it is
// dropped, and mapped memory holds numbers (0 at first).

impl<T> Deref for Part<T> {
    type Target = [T];

    fn deref(&self) -> &[T] {
        unsafe { slice::from_raw_parts(self.start, self.length) }
    }
}

impl<T> DerefMut for Part<T> {
    fn deref_mut(&mut self) -> &mut [T] {
        unsafe { slice::from_raw_parts_mut(self.start, self.length) }
    }
}

impl<T> Drop for Part<T> {
    fn drop(&mut self) {
        FREE.with_borrow_mut(|free| free.push(self.block));
    }
}

/// Each buffer ends exactly at an unreadable page.
pub struct EndsAtPage;

impl Ground for EndsAtPage {
    const SIDES: [bool; 2] = [true, false];
    type Memory<T: Number> = Part<T>;

    fn memory<T: Number>(length: usize) -> Part<T> {
        Part::new(length, true)
    }
}

/// Each buffer begins right after an unreadable page.
pub struct BeginsAfterPage;

impl Ground for BeginsAfterPage {
    const SIDES: [bool; 2] = [false, true];
    type Memory<T: Number> = Part<T>;

    fn memory<T: Number>(length: usize) -> Part<T> {
        Part::new(length, false)
    }
}

/// Each buffer ends exactly at an unreadable page, but the pointer to an empty one is null. Nothing is mapped there, so
/// that a place read or written through it ends the program too.
pub struct NullIfEmpty;

impl Ground for NullIfEmpty {
    const SIDES: [bool; 2] = EndsAtPage::SIDES;
    const NULL_IF_EMPTY: bool = true;
    type Memory<T: Number> = Part<T>;

    fn memory<T: Number>(length: usize) -> Part<T> {
        EndsAtPage::memory(length)
    }
}
