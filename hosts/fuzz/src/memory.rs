//! Memory to lend: what is lent lies among guard bytes, and an unreadable page stands before and behind them.

use std::ffi::{c_int, c_long, c_void};
use std::ptr;

unsafe extern "C" {
    fn mmap(address: *mut c_void, length: usize, protection: c_int, flags: c_int, file: c_int, offset: c_long) -> *mut c_void;
    fn mprotect(address: *mut c_void, length: usize, protection: c_int) -> c_int;
}

// the numbers of Linux on x86-64
const READ_WRITE: c_int = 1 | 2;
const NOTHING: c_int = 0;
const PRIVATE_ANONYMOUS: c_int = 2 | 32;
const PAGE: usize = 4096;

/// Where what is lent lies between the unreadable pages.
#[derive(Clone, Copy, PartialEq, Eq, Debug)]
pub enum Side {
    /// Its last byte is the last before a page that cannot be read.
    End,
    /// Its first byte is the first after such a page.
    Start,
    Middle,
}

pub struct Lent {
    bytes: &'static mut [u8],
    guard: Vec<u8>,
    from: usize,
    length: usize,
}

impl Lent {
    pub fn new(pages: usize) -> Lent {
        let length = pages * PAGE;
        let bytes = unsafe {
            let all = mmap(ptr::null_mut(), length + 2 * PAGE, READ_WRITE, PRIVATE_ANONYMOUS, -1, 0) as *mut u8;
            assert_ne!(all as isize, -1, "no memory");
            for edge in [all, all.add(PAGE + length)] {
                assert_eq!(mprotect(edge as *mut c_void, PAGE, NOTHING), 0);
            }
            std::slice::from_raw_parts_mut(all.add(PAGE), length)
        };
        // no two bytes side by side are equal, and none is 0 or 255, which a stray write is likely to bring
        let guard: Vec<u8> = (0..length).map(|at| (at % 251) as u8 + 2).collect();
        bytes.copy_from_slice(&guard);
        Lent { bytes, guard, from: 0, length: 0 }
    }

    /// The most that can be lent, with some guard bytes on both sides of the middle.
    pub fn most(&self) -> usize {
        self.bytes.len() - 64
    }

    /// Guard bytes everywhere, also where the lent bytes will be written. Those of the last time still stand, or the check has complained.
    pub fn clear(&mut self, length: usize, side: Side) -> *mut u8 {
        assert!(length <= self.bytes.len());
        let last = self.from..self.from + self.length;
        self.bytes[last.clone()].copy_from_slice(&self.guard[last]);
        self.length = length;
        self.from = match side {
            Side::End => self.bytes.len() - length,
            Side::Start => 0,
            Side::Middle => (self.bytes.len() - length) / 2 / 8 * 8,
        };
        unsafe { self.bytes.as_mut_ptr().add(self.from) }
    }

    /// `content`, among guard bytes.
    pub fn lay(&mut self, content: &[u8], side: Side) -> *mut u8 {
        let place = self.clear(content.len(), side);
        self.bytes[self.from..][..content.len()].copy_from_slice(content);
        place
    }

    /// Behind all bytes, where nothing can be read or written.
    pub fn beyond(&self) -> *mut u8 {
        self.bytes.as_ptr_range().end as *mut u8
    }

    pub fn lent(&self) -> &[u8] {
        &self.bytes[self.from..][..self.length]
    }

    pub fn guards_stand(&self) -> bool {
        let end = self.from + self.length;
        self.bytes[..self.from] == self.guard[..self.from] && self.bytes[end..] == self.guard[end..]
    }
}

/// A copy on the heap that never lies on the stack.
pub fn boxed<T: Copy>(from: *const T) -> Box<T> {
    let mut place = Box::<T>::new_uninit();
    unsafe {
        ptr::copy_nonoverlapping(from, place.as_mut_ptr(), 1);
        place.assume_init()
    }
}

/// The bytes of a struct of numbers, padding and all.
pub fn bytes_of<T: Copy>(value: &T) -> &[u8] {
    unsafe { std::slice::from_raw_parts(value as *const T as *const u8, size_of::<T>()) }
}
