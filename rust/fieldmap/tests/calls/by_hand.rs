//! Archives written node by node, by any layout.

use fieldmap::Layout;

/// Bytes to which nodes are added, each after its children.
#[derive(Default)]
pub struct Output {
    layout: Layout,
    pub bytes: Vec<u8>,
}

impl Output {
    pub fn at(layout: Layout) -> Self {
        Self {
            layout,
            bytes: vec![],
        }
    }

    /// An offset or a count, of as many bits as the width has.
    fn number(&mut self, number: i64) {
        let bytes = usize::from(self.layout.width() as u8) / 8;
        self.bytes.extend(&number.to_le_bytes()[..bytes]);
    }

    fn offset(&mut self, position: Option<usize>) {
        let field = self.bytes.len() as i64;
        self.number(position.map_or(1, |position| position as i64 - field));
    }

    fn head(&mut self, kind: u8, slots: &[(u64, u64)]) -> usize {
        let position = self.bytes.len();
        self.bytes.extend(u64::from(kind).to_le_bytes());
        let slot = |index: usize| slots.get(index).copied().unwrap_or_default();
        for index in 0..self.layout.entries() {
            self.bytes.extend(slot(index).0.to_le_bytes());
        }
        for index in 0..self.layout.entries() {
            self.bytes.extend(slot(index).1.to_le_bytes());
        }
        position
    }

    /// Ends the node at a position: its length is a multiple of 8.
    fn end(&mut self, position: usize) -> usize {
        let length = (self.bytes.len() - position).next_multiple_of(8);
        self.bytes.resize(position + length, 0);
        position
    }

    /// A leaf, with a count of its own. Gives its position, as `inner` does.
    pub fn leaf(&mut self, count: u32, slots: &[(u64, u64)]) -> usize {
        let position = self.head(0, slots);
        self.number(count.into());
        self.end(position)
    }

    /// An inner node with its first children. The others are absent.
    pub fn inner(&mut self, slots: &[(u64, u64)], children: &[usize]) -> usize {
        let position = self.head(1, slots);
        for index in 0..=self.layout.entries() {
            self.offset(children.get(index).copied());
        }
        self.end(position)
    }

    /// The record, which ends the archive.
    pub fn record(mut self, root: usize, count: u32) -> Vec<u8> {
        self.offset(Some(root));
        self.number(count.into());
        self.bytes
    }
}

/// A root leaf with these keys, in the order given; each value is ten times its key.
pub fn root_leaf(keys: &[u64]) -> Vec<u8> {
    root_leaf_at(Layout::COMMON, keys)
}

pub fn root_leaf_at(layout: Layout, keys: &[u64]) -> Vec<u8> {
    let slots: Vec<_> = keys.iter().map(|&key| (key, 10 * key)).collect();
    let mut output = Output::at(layout);
    let root = output.leaf(keys.len() as u32, &slots);
    output.record(root, keys.len() as u32)
}

/// The slots of a full node, with the keys behind one; each value is its key.
pub fn slots(layout: Layout, behind: u64) -> Vec<(u64, u64)> {
    let slot = |index| (behind + index, behind + index);
    (1..=layout.entries() as u64).map(slot).collect()
}

/// So many nodes nested, each inner one over its first child only; keys ascend.
pub fn nested_at(layout: Layout, nodes: u32) -> Vec<u8> {
    let mut output = Output::at(layout);
    let mut node = output.leaf(1, &[(0, 0)]);
    let entries = layout.entries() as u64;
    for level in 1..u64::from(nodes) {
        node = output.inner(&slots(layout, entries * level), &[node]);
    }
    output.record(node, layout.entries() as u32 * (nodes - 1) + 1)
}
