//! rkyv's own parts that document 01 names: differences and offsets of positions, and the alignment step.

use std::mem::MaybeUninit;

use rkyv::primitive::ArchivedI32;
use rkyv::rancor::BoxedError;
use rkyv::rel_ptr::{signed_offset, Offset, RawRelPtrI32};
use rkyv::ser::{Positional, Writer, WriterExt};
use rkyv::Place;

/// Document 01's number of an error: 15 for a distance that does not fit 64 bits, 16 for one that does not fit the field.
fn refusal(error: &BoxedError) -> u8 {
    let text = format!("{error:?}");
    match (
        text.contains("IsizeOverflow"),
        text.contains("TryFromIntError"),
    ) {
        (true, _) => 15,
        (_, true) => 16,
        _ => panic!("rkyv gives an error that document 01 does not list: {text}"),
    }
}

/// The signed difference of two positions.
pub fn distance(from: u64, to: u64) -> Result<i64, u8> {
    let distance = signed_offset::<BoxedError>(from as usize, to as usize);
    let distance = distance.map_err(|error| refusal(&error))?;
    Ok(distance as i64)
}

/// The offset that `try_emplace` stores in a field at one position that leads to another.
pub fn offset(from: u64, to: u64) -> Result<i32, u8> {
    let offset = signed_offset::<BoxedError>(from as usize, to as usize)
        .and_then(ArchivedI32::from_isize::<BoxedError>);
    let offset = offset.map_err(|error| refusal(&error))?;
    Ok(offset.to_native())
}

/// The offset that `try_emplace_invalid` stores in a field at a position, as a release build does; a debug build stops at the sum of the
/// largest position and 1.
pub fn absent(at: u64) -> Result<i32, u8> {
    offset(at, at.wrapping_add(1))
}

/// What a field at a position holds after `try_emplace` of another position, or after `try_emplace_invalid`.
pub fn emplaced(at: u64, to: Option<u64>) -> Result<i32, u8> {
    let mut field = MaybeUninit::<RawRelPtrI32>::zeroed();
    // SAFETY: the pointer is to a local of the right type, all of whose bytes are set.
    let place = unsafe { Place::new_unchecked(at as usize, field.as_mut_ptr()) };
    let stored = match to {
        Some(to) => RawRelPtrI32::try_emplace::<BoxedError>(to as usize, place),
        None => RawRelPtrI32::try_emplace_invalid(place),
    };
    stored.map_err(|error| refusal(&error))?;
    Ok(i32::from_le_bytes(place.as_slice().try_into().unwrap()))
}

/// A writer that has a position and no bytes.
struct At(usize);

impl Positional for At {
    fn pos(&self) -> usize {
        self.0
    }
}

impl Writer<BoxedError> for At {
    fn write(&mut self, bytes: &[u8]) -> Result<(), BoxedError> {
        self.0 += bytes.len();
        Ok(())
    }
}

/// The next position on an alignment and the number of zeros before it. The alignment is 1, 2, 4, 8, 16 or 32, and there is such a position:
/// elsewhere rkyv has no answer to compare with.
pub fn aligned(position: u64, alignment: u64) -> (u64, u64) {
    let mut writer = At(position as usize);
    let next = WriterExt::<BoxedError>::align(&mut writer, alignment as usize)
        .expect("this writer takes all");
    (next as u64, next as u64 - position)
}
