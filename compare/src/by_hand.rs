//! Archives written node by node, so that they can be other than what a builder writes.

use crate::model::{Layout, ENTRIES, INNER, KEYS, LEAF, OWN};

/// A key and its value.
pub type Slot = (u64, u64);

pub fn put<const N: usize>(bytes: &mut [u8], position: usize, what: [u8; N]) {
    bytes[position..position + N].copy_from_slice(&what);
}

/// The offset that stands in a field at `from` and leads to `to`, as its two's complement.
pub fn offset(from: usize, to: usize) -> u64 {
    (to as u64).wrapping_sub(from as u64)
}

impl Layout {
    fn put_slots(self, node: &mut [u8], slots: &[Slot]) {
        for (index, (key, value)) in slots.iter().enumerate() {
            put(node, KEYS + 8 * index, key.to_le_bytes());
            put(node, self.values() + 8 * index, value.to_le_bytes());
        }
    }

    /// Makes a leaf of a leaf's size, which may hold anything where a leaf has nothing to say.
    pub fn put_leaf(self, node: &mut [u8], count: u64, slots: &[Slot]) {
        node[0] = 0;
        self.put_slots(node, slots);
        self.put(node, self.head(), count);
    }

    /// Makes an inner node of an inner node's size for a position, with the positions of its children.
    pub fn put_inner(
        self,
        node: &mut [u8],
        position: usize,
        slots: &[Slot],
        children: &[Option<usize>],
    ) {
        node[0] = 1;
        self.put_slots(node, slots);
        for (index, to) in children.iter().enumerate() {
            let offset = to.map_or(1, |to| offset(self.child(position, index), to));
            self.put(node, self.child(0, index), offset);
        }
    }

    /// The record for a position, with the position of its root.
    pub fn record_at(self, position: usize, root: usize, count: u64) -> Vec<u8> {
        let mut record = vec![0; self.record()];
        self.put(&mut record, 0, offset(position, root));
        self.put(&mut record, self.width, count);
        record
    }
}

/// An archive of rkyv's layout here in the making; every byte that has nothing to say is 0.
#[derive(Default)]
pub struct Output {
    pub bytes: Vec<u8>,
}

impl Output {
    /// Adds a leaf with a count of its own, and gives its position.
    pub fn leaf_counting(&mut self, count: u64, slots: &[Slot]) -> usize {
        let position = self.bytes.len();
        let mut node = [0; LEAF];
        OWN.put_leaf(&mut node, count, slots);
        self.bytes.extend(node);
        position
    }

    pub fn leaf(&mut self, slots: &[Slot]) -> usize {
        self.leaf_counting(slots.len() as u64, slots)
    }

    pub fn inner(
        &mut self,
        slots: [Slot; ENTRIES],
        children: [Option<usize>; ENTRIES + 1],
    ) -> usize {
        let position = self.bytes.len();
        let mut node = [0; INNER];
        OWN.put_inner(&mut node, position, &slots, &children);
        self.bytes.extend(node);
        position
    }

    /// Ends the archive.
    pub fn record(mut self, root: usize, count: u64) -> Vec<u8> {
        let record = OWN.record_at(self.bytes.len(), root, count);
        self.bytes.extend(record);
        self.bytes
    }
}
