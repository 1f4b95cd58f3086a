//! The check, the list of an accepted archive, certification and lookup, over a layout; what is read of an accepted
//! archive does not depend on limits. The text is document 01's,
//! whose numbers 4, 5 and 6 of a field's bytes, a node's entries and a node's children are the layout's.

use super::layout::{Layout, KEYS};
use super::Limits;

/// An entry, and the position of its value's first byte.
pub struct Entry {
    pub key: u64,
    pub value: u64,
    pub position: usize,
}

/// A reachable node.
#[derive(Clone, Copy)]
pub struct Node {
    pub position: usize,
    pub inner: bool,
}

fn u64_at(bytes: &[u8], position: usize) -> u64 {
    u64::from_le_bytes(bytes[position..position + 8].try_into().unwrap())
}

impl Layout {
    fn slot(self, bytes: &[u8], node: usize, index: usize) -> Entry {
        let position = node + self.values() + 8 * index;
        Entry {
            key: u64_at(bytes, node + KEYS + 8 * index),
            value: u64_at(bytes, position),
            position,
        }
    }

    /// The recorded count of bytes that have a record.
    fn recorded(self, bytes: &[u8]) -> u64 {
        self.number(bytes, bytes.len() - self.width)
    }

    /// A leaf's own count.
    fn counted(self, bytes: &[u8], leaf: usize) -> u64 {
        self.number(bytes, leaf + self.head())
    }

    /// The check under limits, 1 to 7, and the recorded count.
    pub fn check(self, limits: Limits, bytes: &[u8]) -> Result<u64, u8> {
        if limits.too_long(bytes) {
            return Err(1);
        }
        if bytes.len() < self.record() {
            return Err(2);
        }
        let record = bytes.len() - self.record();
        if !record.is_multiple_of(self.width) {
            return Err(3);
        }
        // The record takes one of the depth, as each node does.
        let depth = limits.counted().depth;
        if depth == 1 {
            return Err(5);
        }
        let count = self.recorded(bytes);
        // "A count of 0 is accepted without a look at the root"
        if count == 0 {
            return Ok(0);
        }
        let mut walk = Check {
            layout: self,
            bytes,
            start: 0,
            end: record,
            depth: depth - 1,
        };
        if walk.node(record)? != count {
            return Err(7);
        }
        Ok(count)
    }

    /// The reachable nodes of an accepted archive, each before its children.
    pub fn nodes(self, bytes: &[u8]) -> Vec<Node> {
        let mut nodes = Vec::new();
        if self.recorded(bytes) != 0 {
            self.reach(bytes, bytes.len() - self.record(), &mut nodes);
        }
        nodes
    }

    fn reach(self, bytes: &[u8], field: usize, nodes: &mut Vec<Node>) {
        let position = self.target(bytes, field) as usize;
        let inner = bytes[position] == 1;
        nodes.push(Node { position, inner });
        if inner {
            for index in 0..=self.entries {
                let field = self.child(position, index);
                if !self.absent(bytes, field) {
                    self.reach(bytes, field, nodes);
                }
            }
        }
    }

    /// The list of an accepted archive: "The list that demand 3 speaks of".
    pub fn list(self, bytes: &[u8]) -> Vec<Entry> {
        let mut entries = Vec::new();
        if self.recorded(bytes) != 0 {
            self.give(bytes, bytes.len() - self.record(), &mut entries);
        }
        entries
    }

    fn give(self, bytes: &[u8], field: usize, entries: &mut Vec<Entry>) {
        let position = self.target(bytes, field) as usize;
        if bytes[position] == 0 {
            // "A leaf gives its first slots, as many as its own count, in order."
            for index in 0..self.counted(bytes, position) as usize {
                entries.push(self.slot(bytes, position, index));
            }
        } else {
            // "An inner node gives, slot by slot, what the lesser child gives, nothing if absent, then the slot; last,
            // what the greater child gives."
            for index in 0..=self.entries {
                let field = self.child(position, index);
                if !self.absent(bytes, field) {
                    self.give(bytes, field, entries);
                }
                if index < self.entries {
                    entries.push(self.slot(bytes, position, index));
                }
            }
        }
    }

    /// What keeps an accepted archive from being certified: 8, else 9, else nothing.
    pub fn fault(self, bytes: &[u8]) -> Option<u8> {
        let hollow = |node: &Node| {
            if node.inner {
                self.absent(bytes, self.child(node.position, 0))
            } else {
                self.counted(bytes, node.position) == 0
            }
        };
        if self.nodes(bytes).iter().any(hollow) {
            return Some(8);
        }
        let list = self.list(bytes);
        let ascend = list.windows(2).all(|pair| pair[0].key < pair[1].key);
        (!ascend).then_some(9)
    }

    /// Certification under limits, 1 to 9: "accepted, with neither fault 8 nor 9", and the recorded count.
    pub fn certify(self, limits: Limits, bytes: &[u8]) -> Result<u64, u8> {
        let count = self.check(limits, bytes)?;
        self.fault(bytes).map_or(Ok(count), Err)
    }

    /// Lookup in an accepted archive: "the answer of `get_key_value`". In each node the first key that is not below the
    /// one sought decides: the entry is there, or the search goes on in the lesser child before it, in the greater
    /// child if all keys are below; in a leaf it ends.
    pub fn lookup(self, bytes: &[u8], key: u64) -> Option<Entry> {
        if self.recorded(bytes) == 0 {
            return None;
        }
        let mut field = bytes.len() - self.record();
        loop {
            let node = self.target(bytes, field) as usize;
            let inner = bytes[node] == 1;
            let slots = match inner {
                true => self.entries,
                false => self.counted(bytes, node) as usize,
            };
            let mut entries = (0..slots).map(|index| self.slot(bytes, node, index));
            let index = entries.position(|entry| entry.key >= key).unwrap_or(slots);
            let decides = (index < slots).then(|| self.slot(bytes, node, index));
            if let Some(entry) = decides.filter(|entry| entry.key == key) {
                return Some(entry);
            }
            field = self.child(node, index);
            if !inner || self.absent(bytes, field) {
                return None;
            }
        }
    }
}

/// "A checked node must lie in the current range."
struct Check<'a> {
    layout: Layout,
    bytes: &'a [u8],
    start: usize,
    end: usize,
    depth: usize,
}

impl Check<'_> {
    fn lies(&self, position: i128, size: usize) -> bool {
        position >= self.start as i128 && position + size as i128 <= self.end as i128
    }

    /// The node that a field leads to, and all below it: the number of entries.
    fn node(&mut self, field: usize) -> Result<u64, u8> {
        let target = self.layout.target(self.bytes, field);
        if !self.lies(target, self.layout.head()) {
            return Err(2);
        }
        if target % 8 != 0 {
            return Err(3);
        }
        let position = target as usize;
        let inner = match self.bytes[position] {
            0 => false,
            1 => true,
            _ => return Err(4),
        };
        let size = match inner {
            true => self.layout.inner(),
            false => self.layout.leaf(),
        };
        if !self.lies(target, size) {
            return Err(2);
        }
        if self.depth == 1 {
            return Err(5);
        }
        // "Inside it the range ends at the node's start; after it the range starts at the node's end and the old end
        // returns."
        self.depth -= 1;
        let end = std::mem::replace(&mut self.end, position);
        let entries = match inner {
            true => self.inner(position)?,
            false => self.leaf(position)?,
        };
        self.start = position + size;
        self.end = end;
        self.depth += 1;
        Ok(entries)
    }

    fn leaf(&self, position: usize) -> Result<u64, u8> {
        let count = self.layout.counted(self.bytes, position);
        if count > self.layout.entries as u64 {
            return Err(6);
        }
        Ok(count)
    }

    fn inner(&mut self, position: usize) -> Result<u64, u8> {
        let mut entries = self.layout.entries as u64;
        for index in 0..=self.layout.entries {
            let field = self.layout.child(position, index);
            if !self.layout.absent(self.bytes, field) {
                entries += self.node(field)?;
            }
        }
        Ok(entries)
    }
}
