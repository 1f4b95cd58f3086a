//! Bytes at an address divisible by 8.

use rkyv::util::AlignedVec;

pub fn copy(bytes: &[u8]) -> AlignedVec<8> {
    let mut aligned = AlignedVec::with_capacity(bytes.len());
    aligned.extend_from_slice(bytes);
    aligned
}
