//! The calls that read no archive and build none: offsets, alignment steps, key packing and the bits of values.

use fieldmap::Refusal;

use super::packing;
use crate::model::{KeyFields, Packing};

/// The offset that a field at one position stores to lead to another, or the refusal.
pub fn offset(from: u64, to: u64) -> Result<i32, u8> {
    fieldmap::offset32(from, to).map_err(Refusal::number)
}

/// The offset that marks an absent pointer at a position, or the refusal.
pub fn absent(at: u64) -> Result<i32, u8> {
    fieldmap::absent_offset(at).map_err(Refusal::number)
}

/// The next position on an alignment and the number of zeros before it, or the refusal.
pub fn align(position: u64, alignment: u64) -> Result<(u64, u64), u8> {
    fieldmap::align(position, alignment)
        .map(|aligned| (aligned.next, aligned.zeros))
        .map_err(Refusal::number)
}

/// A key, or the refusal.
pub fn pack(by: Packing, fields: &KeyFields) -> Result<u64, u8> {
    let key = fieldmap::Key {
        examination: fields.examination,
        eye: fields.eye,
        x: fields.x,
        y: fields.y,
        presentation: fields.presentation,
    };
    key.pack(packing(by)).map_err(Refusal::number)
}

/// The fields of a key.
pub fn unpack(by: Packing, key: u64) -> KeyFields {
    let key = fieldmap::Key::unpack(key, packing(by));
    KeyFields {
        examination: key.examination,
        eye: key.eye,
        x: key.x,
        y: key.y,
        presentation: key.presentation,
    }
}

/// Whether the stimulus of a value was seen.
pub fn seen(value: u64) -> bool {
    fieldmap::Value(value).is_seen()
}

/// The threshold of a value in tenths of a decibel.
pub fn threshold(value: u64) -> u64 {
    fieldmap::Value(value).threshold().into()
}
