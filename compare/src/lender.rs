//! Memory to lend to a call, so placed that what a call reads or writes outside it is noticed.

use std::ffi::{c_int, c_long, c_void};
use std::mem::size_of;
use std::{ptr, slice};

use crate::model::Layout;

/// How the memory stands.
#[derive(Clone, Copy, Debug, PartialEq)]
pub enum Place {
    /// Its end touches a page that faults.
    Last,
    /// Its start touches a page that faults.
    First,
    /// An allocation of exactly its size, for a checker of allocations such as valgrind.
    Heap,
}

/// A page's size, or a multiple of it.
const PAGE: usize = 65_536;

/// How many bytes of the other side are looked at.
const MARGIN: usize = 256;

/// What each of them holds.
const MARK: u8 = 0x55;

const NONE: c_int = 0;
const READ: c_int = 1;
const READ_WRITE: c_int = 3;

/// Private and anonymous.
const OWN: c_int = 0x22;

extern "C" {
    fn mmap(
        address: *mut c_void,
        length: usize,
        protection: c_int,
        flags: c_int,
        file: c_int,
        offset: c_long,
    ) -> *mut c_void;

    fn mprotect(address: *mut c_void, length: usize, protection: c_int) -> c_int;
}

/// Memory for bytes or numbers that is lent again and again, each time for other contents.
pub struct Lender<T> {
    /// The first of `room` bytes between two pages that fault.
    start: *mut u8,
    room: usize,
    /// A call may only read what is lent.
    read_only: bool,
    lent: usize,
    place: Place,
    heap: Box<[T]>,
}

impl<T: Copy> Lender<T> {
    /// Memory for as many elements at most.
    pub fn new(most: usize, read_only: bool) -> Self {
        let room = (most * size_of::<T>() + MARGIN).next_multiple_of(PAGE);
        // SAFETY: asks for pages of its own, at no address in particular.
        let pages = unsafe { mmap(ptr::null_mut(), room + 2 * PAGE, NONE, OWN, -1, 0) };
        assert!(pages as isize != -1, "there are pages");
        Self {
            start: pages.cast::<u8>().wrapping_add(PAGE),
            room,
            read_only,
            lent: 0,
            place: Place::Heap,
            heap: Box::new([]),
        }
    }

    fn protect(&mut self, protection: c_int) {
        // SAFETY: the pages between the two that fault, which nothing else uses.
        let done = unsafe { mprotect(self.start.cast(), self.room, protection) };
        assert_eq!(done, 0, "the pages are protected");
    }

    /// A copy of the contents, placed so.
    pub fn lend(&mut self, place: Place, contents: &[T]) -> &mut [T] {
        let size = size_of_val(contents);
        assert!(size + MARGIN <= self.room);
        (self.place, self.lent) = (place, size);
        if place == Place::Heap {
            self.heap = contents.into();
            return &mut self.heap;
        }
        self.protect(READ_WRITE);
        let at = self.start.wrapping_add(self.first());
        // SAFETY: the margin and the copy lie in the pages, as the assertion says, and the pages can be written. The copy's address is a
        // multiple of the element's size, since those of the pages' first and last byte and the copy's size are.
        let copy = unsafe {
            ptr::write_bytes(self.start.wrapping_add(self.margin()), MARK, MARGIN);
            ptr::copy_nonoverlapping(contents.as_ptr().cast(), at, size);
            slice::from_raw_parts_mut(at.cast(), contents.len())
        };
        if self.read_only {
            self.protect(READ);
        }
        copy
    }

    /// Where in the pages the lent memory starts.
    fn first(&self) -> usize {
        match self.place {
            Place::Last => self.room - self.lent,
            _ => 0,
        }
    }

    /// Where the bytes beside it start that are on the other side than the page that faults.
    fn margin(&self) -> usize {
        match self.place {
            Place::Last => self.room - self.lent - MARGIN,
            _ => self.lent,
        }
    }

    /// Whether the bytes beside what was lent last are as they were.
    pub fn margin_kept(&self) -> bool {
        if self.place == Place::Heap {
            return true;
        }
        // SAFETY: the margin lies in the pages, and these can be read.
        let margin = unsafe { slice::from_raw_parts(self.start.add(self.margin()), MARGIN) };
        margin.iter().all(|&byte| byte == MARK)
    }
}

/// The memory that calls at a layout are lent.
pub struct Lenders {
    pub layout: Layout,
    pub archive: Lender<u8>,
    pub lists: Lists,
}

/// That of the lists beside an archive, and the output.
pub struct Lists {
    pub keys: Lender<u64>,
    pub values: Lender<u64>,
    pub given_keys: Lender<u64>,
    pub given_values: Lender<u64>,
    pub output: Lender<u8>,
}

impl Lenders {
    /// Memory for archives of a mebibyte and so many entries: lists that are given can only be read, and those that are written to are twice as
    /// long.
    pub fn new(layout: Layout, most: usize) -> Self {
        Self {
            layout,
            archive: Lender::new(1 << 20, true),
            lists: Lists {
                keys: Lender::new(2 * most, false),
                values: Lender::new(2 * most, false),
                given_keys: Lender::new(most, true),
                given_values: Lender::new(most, true),
                output: Lender::new(1 << 20, false),
            },
        }
    }
}
