//! The calls of the static library, with C's calling convention, and a safe function over each.
//!
//! A slice passes as a pointer and a length, a lent number as a pointer. Each call answers a number from 0 on, or minus a refusal's number.
//! Nothing checks these declarations against the library's source; `include/fieldmap.h` says the same in C.

mod archives;

pub use archives::{
    build, build_length, certify, check, column, lookup, lookup_bytes, lookup_many, range, walk,
};

extern "C" {
    fn fieldmap_check(
        width: u8,
        entries: usize,
        longest: usize,
        depth: usize,
        archive: *const u8,
        archive_len: usize,
    ) -> i64;

    fn fieldmap_certify(
        width: u8,
        entries: usize,
        longest: usize,
        depth: usize,
        archive: *const u8,
        archive_len: usize,
    ) -> i64;

    fn fieldmap_lookup(
        width: u8,
        entries: usize,
        longest: usize,
        depth: usize,
        archive: *const u8,
        archive_len: usize,
        key: u64,
        value: *mut u64,
        position: *mut u64,
    ) -> i64;

    fn fieldmap_lookup_bytes(
        width: u8,
        entries: usize,
        longest: usize,
        depth: usize,
        archive: *const u8,
        archive_len: usize,
        key: u64,
        start: *mut u64,
    ) -> i64;

    fn fieldmap_lookup_many(
        width: u8,
        entries: usize,
        longest: usize,
        depth: usize,
        archive: *const u8,
        archive_len: usize,
        keys: *const u64,
        keys_len: usize,
        values: *mut u64,
        values_len: usize,
    ) -> i64;

    fn fieldmap_walk(
        width: u8,
        entries: usize,
        longest: usize,
        depth: usize,
        archive: *const u8,
        archive_len: usize,
        keys: *mut u64,
        keys_len: usize,
        values: *mut u64,
        values_len: usize,
        count: *mut u64,
    ) -> i64;

    fn fieldmap_range(
        width: u8,
        entries: usize,
        longest: usize,
        depth: usize,
        archive: *const u8,
        archive_len: usize,
        lower_kind: u8,
        lower: u64,
        upper_kind: u8,
        upper: u64,
        keys: *mut u64,
        keys_len: usize,
        values: *mut u64,
        values_len: usize,
        matching: *mut u64,
    ) -> i64;

    fn fieldmap_column(
        width: u8,
        entries: usize,
        longest: usize,
        depth: usize,
        archive: *const u8,
        archive_len: usize,
        packing: u8,
        examination: u32,
        eye: u8,
        a: i8,
        b: i8,
        keys: *mut u64,
        keys_len: usize,
        values: *mut u64,
        values_len: usize,
        matching: *mut u64,
    ) -> i64;

    fn fieldmap_build(
        width: u8,
        entries: usize,
        out: *mut u8,
        out_len: usize,
        header: usize,
        keys: *const u64,
        keys_len: usize,
        values: *const u64,
        values_len: usize,
    ) -> i64;

    fn fieldmap_build_length(width: u8, entries: usize, count: usize, header: usize) -> i64;

    fn fieldmap_signed_offset(from: u64, to: u64, offset: *mut i64) -> i64;

    fn fieldmap_offset32(from: u64, to: u64, offset: *mut i32) -> i64;

    fn fieldmap_absent_offset(at: u64, offset: *mut i32) -> i64;

    fn fieldmap_align(pos: u64, alignment: u64, next: *mut u64, zeros: *mut u64) -> i64;

    fn fieldmap_pack(
        packing: u8,
        examination: u32,
        eye: u8,
        x: i8,
        y: i8,
        presentation: u32,
        key: *mut u64,
    ) -> i64;

    fn fieldmap_unpack(
        key: u64,
        packing: u8,
        examination: *mut u32,
        eye: *mut u8,
        x: *mut i8,
        y: *mut i8,
        presentation: *mut u32,
    ) -> i64;

    fn fieldmap_seen(value: u64) -> i64;

    fn fieldmap_threshold(value: u64) -> i64;
}

// SAFETY, of every call below and in `archives`: a pointer and a length are those of a slice, a lone pointer is a reference's, and each is live and aligned
// for the call; what is written is borrowed mutably, so no other pointer leads there. The library reads and writes nothing else, whatever
// the bytes and the lengths are, and keeps no pointer.

pub fn signed_offset(from: u64, to: u64, offset: &mut i64) -> i64 {
    // SAFETY: as above.
    unsafe { fieldmap_signed_offset(from, to, offset) }
}

pub fn offset32(from: u64, to: u64, offset: &mut i32) -> i64 {
    // SAFETY: as above.
    unsafe { fieldmap_offset32(from, to, offset) }
}

pub fn absent_offset(at: u64, offset: &mut i32) -> i64 {
    // SAFETY: as above.
    unsafe { fieldmap_absent_offset(at, offset) }
}

pub fn align(pos: u64, alignment: u64, next: &mut u64, zeros: &mut u64) -> i64 {
    // SAFETY: as above.
    unsafe { fieldmap_align(pos, alignment, next, zeros) }
}

pub fn pack(
    packing: u8,
    (examination, eye): (u32, u8),
    (x, y): (i8, i8),
    presentation: u32,
    key: &mut u64,
) -> i64 {
    // SAFETY: as above.
    unsafe { fieldmap_pack(packing, examination, eye, x, y, presentation, key) }
}

pub fn unpack(
    key: u64,
    packing: u8,
    (examination, eye): (&mut u32, &mut u8),
    (x, y): (&mut i8, &mut i8),
    presentation: &mut u32,
) -> i64 {
    // SAFETY: as above.
    unsafe { fieldmap_unpack(key, packing, examination, eye, x, y, presentation) }
}

pub fn seen(value: u64) -> i64 {
    // SAFETY: no pointer passes.
    unsafe { fieldmap_seen(value) }
}

pub fn threshold(value: u64) -> i64 {
    // SAFETY: no pointer passes.
    unsafe { fieldmap_threshold(value) }
}
