//! A safe function over each call that takes a layout. Those that read an archive take the limits behind it.

use super::{
    fieldmap_build, fieldmap_build_length, fieldmap_certify, fieldmap_check, fieldmap_column,
    fieldmap_lookup, fieldmap_lookup_bytes, fieldmap_lookup_many, fieldmap_range, fieldmap_walk,
};
use crate::{Layout, Limits};

#[inline]
pub fn check(layout: Layout, limits: Limits, archive: &[u8]) -> i64 {
    // SAFETY: as `ffi.rs` says.
    unsafe {
        fieldmap_check(
            layout.width() as u8,
            layout.entries(),
            limits.longest,
            limits.depth,
            archive.as_ptr(),
            archive.len(),
        )
    }
}

#[inline]
pub fn certify(layout: Layout, limits: Limits, archive: &[u8]) -> i64 {
    // SAFETY: as `ffi.rs` says.
    unsafe {
        fieldmap_certify(
            layout.width() as u8,
            layout.entries(),
            limits.longest,
            limits.depth,
            archive.as_ptr(),
            archive.len(),
        )
    }
}

#[inline]
pub fn lookup(
    layout: Layout,
    limits: Limits,
    archive: &[u8],
    key: u64,
    value: &mut u64,
    position: &mut u64,
) -> i64 {
    // SAFETY: as `ffi.rs` says.
    unsafe {
        fieldmap_lookup(
            layout.width() as u8,
            layout.entries(),
            limits.longest,
            limits.depth,
            archive.as_ptr(),
            archive.len(),
            key,
            value,
            position,
        )
    }
}

#[inline]
pub fn lookup_bytes(
    layout: Layout,
    limits: Limits,
    archive: &[u8],
    key: u64,
    start: &mut u64,
) -> i64 {
    // SAFETY: as `ffi.rs` says.
    unsafe {
        fieldmap_lookup_bytes(
            layout.width() as u8,
            layout.entries(),
            limits.longest,
            limits.depth,
            archive.as_ptr(),
            archive.len(),
            key,
            start,
        )
    }
}

#[inline]
pub fn lookup_many(
    layout: Layout,
    limits: Limits,
    archive: &[u8],
    keys: &[u64],
    values: &mut [u64],
) -> i64 {
    // SAFETY: as `ffi.rs` says.
    unsafe {
        fieldmap_lookup_many(
            layout.width() as u8,
            layout.entries(),
            limits.longest,
            limits.depth,
            archive.as_ptr(),
            archive.len(),
            keys.as_ptr(),
            keys.len(),
            values.as_mut_ptr(),
            values.len(),
        )
    }
}

#[inline]
pub fn walk(
    layout: Layout,
    limits: Limits,
    archive: &[u8],
    keys: &mut [u64],
    values: &mut [u64],
    count: &mut u64,
) -> i64 {
    // SAFETY: as `ffi.rs` says.
    unsafe {
        fieldmap_walk(
            layout.width() as u8,
            layout.entries(),
            limits.longest,
            limits.depth,
            archive.as_ptr(),
            archive.len(),
            keys.as_mut_ptr(),
            keys.len(),
            values.as_mut_ptr(),
            values.len(),
            count,
        )
    }
}

/// A bound passes as its kind and its key.
#[allow(clippy::too_many_arguments)]
#[inline]
pub fn range(
    layout: Layout,
    limits: Limits,
    archive: &[u8],
    (lower_kind, lower): (u8, u64),
    (upper_kind, upper): (u8, u64),
    keys: &mut [u64],
    values: &mut [u64],
    matching: &mut u64,
) -> i64 {
    // SAFETY: as `ffi.rs` says.
    unsafe {
        fieldmap_range(
            layout.width() as u8,
            layout.entries(),
            limits.longest,
            limits.depth,
            archive.as_ptr(),
            archive.len(),
            lower_kind,
            lower,
            upper_kind,
            upper,
            keys.as_mut_ptr(),
            keys.len(),
            values.as_mut_ptr(),
            values.len(),
            matching,
        )
    }
}

/// The packing, the examination and its eye pass together, and so do the two ends of x.
#[allow(clippy::too_many_arguments)]
#[inline]
pub fn column(
    layout: Layout,
    limits: Limits,
    archive: &[u8],
    (packing, examination, eye): (u8, u32, u8),
    (a, b): (i8, i8),
    keys: &mut [u64],
    values: &mut [u64],
    matching: &mut u64,
) -> i64 {
    // SAFETY: as `ffi.rs` says.
    unsafe {
        fieldmap_column(
            layout.width() as u8,
            layout.entries(),
            limits.longest,
            limits.depth,
            archive.as_ptr(),
            archive.len(),
            packing,
            examination,
            eye,
            a,
            b,
            keys.as_mut_ptr(),
            keys.len(),
            values.as_mut_ptr(),
            values.len(),
            matching,
        )
    }
}

#[inline]
pub fn build(layout: Layout, out: &mut [u8], header: usize, keys: &[u64], values: &[u64]) -> i64 {
    // SAFETY: as `ffi.rs` says.
    unsafe {
        fieldmap_build(
            layout.width() as u8,
            layout.entries(),
            out.as_mut_ptr(),
            out.len(),
            header,
            keys.as_ptr(),
            keys.len(),
            values.as_ptr(),
            values.len(),
        )
    }
}

#[inline]
pub fn build_length(layout: Layout, count: usize, header: usize) -> i64 {
    // SAFETY: no pointer passes.
    unsafe { fieldmap_build_length(layout.width() as u8, layout.entries(), count, header) }
}
