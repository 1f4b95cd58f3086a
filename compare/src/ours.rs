//! The proved code: the calls of the static library, through the crate `fieldmap`, at a layout and under limits. Those without are at the
//! layout with 5 entries a node and the pointers that rkyv is built for, under the server's limits. A refusal is its number.

pub mod named;
mod parts;

use std::ops::Bound;

use fieldmap::{Refusal, Width};

use self::named::Named;
use crate::model::{narrow, Column, Layout, Limits, Packing, OWN, SERVER};
use crate::rkyv_map::Found;

pub use parts::{absent, align, offset, pack, seen, threshold, unpack};

/// A number of an answer, as the comparison has it.
fn number(number: usize) -> u32 {
    narrow(number as u64)
}

/// An answer with numbers as the comparison has them.
fn answer(answer: Result<usize, Refusal>) -> Result<u32, u8> {
    answer.map(number).map_err(Refusal::number)
}

/// A width of so many bytes as a call from C names it: every number but 16 and 64 names 32 bits.
pub fn bits(width: usize, any: u64) -> u8 {
    match (width, any as u8) {
        (2, _) => 16,
        (8, _) => 64,
        (_, 16 | 64) => 32,
        (_, other) => other,
    }
}

/// The calls at a layout and under limits.
#[derive(Clone, Copy)]
pub struct At {
    layout: Layout,
    limits: Limits,
    named: fieldmap::Layout,
}

/// The calls at a layout of 3 to 15 entries a node, under the server's limits.
pub fn at(layout: Layout) -> At {
    let width = match layout.width {
        2 => Width::Bits16,
        4 => Width::Bits32,
        _ => Width::Bits64,
    };
    let named = fieldmap::Layout::new(width, layout.entries);
    At {
        layout,
        limits: SERVER,
        named: named.expect("3 to 15 entries a node"),
    }
}

impl At {
    /// The calls under other limits.
    pub fn under(self, limits: Limits) -> Self {
        Self { limits, ..self }
    }

    /// The limits, as the crate has them.
    #[inline]
    fn limits(self) -> fieldmap::Limits {
        fieldmap::Limits {
            longest: self.limits.longest,
            depth: self.limits.depth,
        }
    }

    /// The recorded count, or the refusal.
    #[inline]
    pub fn check(self, archive: &[u8]) -> Result<u32, u8> {
        answer(fieldmap::check_at(self.named, self.limits(), archive))
    }

    /// The recorded count, or the refusal.
    #[inline]
    pub fn certify(self, archive: &[u8]) -> Result<u32, u8> {
        answer(fieldmap::certify_at(self.named, self.limits(), archive))
    }

    /// The number of entries written and the recorded count, or the refusal.
    #[inline]
    pub fn walk(
        self,
        archive: &[u8],
        keys: &mut [u64],
        values: &mut [u64],
    ) -> Result<(u32, u32), u8> {
        fieldmap::walk_at(self.named, self.limits(), archive, keys, values)
            .map(|walked| (number(walked.written), number(walked.count)))
            .map_err(Refusal::number)
    }

    /// The entry with a key, nothing, or the refusal.
    #[inline]
    pub fn lookup(self, archive: &[u8], key: u64) -> Result<Option<Found>, u8> {
        fieldmap::lookup_at(self.named, self.limits(), archive, key)
            .map(|found| found.map(|entry| (entry.key, entry.value, entry.position)))
            .map_err(Refusal::number)
    }

    /// The bytes of its value, as a part of the archive, none where there is no such entry, or the refusal, for which the crate gives no bytes.
    #[inline]
    pub fn lookup_bytes(self, archive: &[u8], key: u64) -> Result<&[u8], u8> {
        let named = Named {
            width: bits(self.layout.width, key),
            entries: self.layout.entries,
            limits: self.limits,
        };
        let part = named
            .lookup_bytes(archive, key)
            .map(|(start, length)| &archive[start..][..length]);
        let of_crate = fieldmap::lookup_bytes_at(self.named, self.limits(), archive, key);
        assert_eq!(of_crate, part.unwrap_or(&[]));
        part
    }

    /// The number of keys found after one check, their values each in its place, or the refusal.
    #[inline]
    pub fn lookup_many(self, archive: &[u8], keys: &[u64], values: &mut [u64]) -> Result<u32, u8> {
        answer(fieldmap::lookup_many_at(
            self.named,
            self.limits(),
            archive,
            keys,
            values,
        ))
    }

    /// The number of entries written and the number matching, in an archive that certify accepts, or the refusal.
    #[inline]
    pub fn range(
        self,
        archive: &[u8],
        lower: Bound<u64>,
        upper: Bound<u64>,
        keys: &mut [u64],
        values: &mut [u64],
    ) -> Result<(u32, u64), u8> {
        fieldmap::range_at(
            self.named,
            self.limits(),
            archive,
            (lower, upper),
            keys,
            values,
        )
        .map(|matched| (number(matched.written), matched.matching as u64))
        .map_err(Refusal::number)
    }

    /// The same for a column query.
    #[inline]
    pub fn column(
        self,
        archive: &[u8],
        column: Column,
        keys: &mut [u64],
        values: &mut [u64],
    ) -> Result<(u32, u64), u8> {
        let packing = packing(column.packing);
        let x = column.a..=column.b;
        fieldmap::column_at(
            self.named,
            self.limits(),
            archive,
            packing,
            column.examination,
            column.eye,
            x,
            keys,
            values,
        )
        .map(|matched| (number(matched.written), matched.matching as u64))
        .map_err(Refusal::number)
    }

    /// The archive's end in the output, behind a header of so many bytes that stay, or the refusal.
    #[inline]
    pub fn build(
        self,
        output: &mut [u8],
        header: usize,
        keys: &[u64],
        values: &[u64],
    ) -> Result<u32, u8> {
        answer(fieldmap::build_at(self.named, output, header, keys, values))
    }

    /// The end that a build of so many entries behind a header will answer, or the refusal.
    #[inline]
    pub fn build_length(self, count: usize, header: usize) -> Result<u32, u8> {
        answer(fieldmap::build_length_at(self.named, count, header))
    }
}

/// The recorded count, or the refusal.
pub fn check(archive: &[u8]) -> Result<u32, u8> {
    at(OWN).check(archive)
}

/// The recorded count, or the refusal.
pub fn certify(archive: &[u8]) -> Result<u32, u8> {
    at(OWN).certify(archive)
}

/// The number of entries written and the recorded count, or the refusal.
pub fn walk(archive: &[u8], keys: &mut [u64], values: &mut [u64]) -> Result<(u32, u32), u8> {
    at(OWN).walk(archive, keys, values)
}

/// The entry with a key, nothing, or the refusal.
pub fn lookup(archive: &[u8], key: u64) -> Result<Option<Found>, u8> {
    at(OWN).lookup(archive, key)
}

/// The number of entries written and the number matching, in an archive that certify accepts, or the refusal.
pub fn range(
    archive: &[u8],
    lower: Bound<u64>,
    upper: Bound<u64>,
    keys: &mut [u64],
    values: &mut [u64],
) -> Result<(u32, u64), u8> {
    at(OWN).range(archive, lower, upper, keys, values)
}

/// The same for a column query.
pub fn column(
    archive: &[u8],
    column: Column,
    keys: &mut [u64],
    values: &mut [u64],
) -> Result<(u32, u64), u8> {
    at(OWN).column(archive, column, keys, values)
}

/// The archive's end in the output, behind a header of so many bytes that stay, or the refusal.
pub fn build(output: &mut [u8], header: usize, keys: &[u64], values: &[u64]) -> Result<u32, u8> {
    at(OWN).build(output, header, keys, values)
}

fn packing(packing: Packing) -> fieldmap::Packing {
    match packing {
        Packing::TwosComplement => fieldmap::Packing::TwosComplement,
        Packing::Plus128 => fieldmap::Packing::Plus128,
    }
}
