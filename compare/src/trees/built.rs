//! Archives as the builder writes them: by rkyv at its own layout here, and at others by a second way, which needs no
//! rkyv of that layout. Both give the same bytes.

use super::grown::Tree;
use super::keys::{Keys, Style};
use super::Random;
use crate::by_hand::Slot;
use crate::model::{Layout, OWN};
use crate::rkyv_map;

/// What a builder makes of an ascending list, behind a header.
pub fn built(layout: Layout, random: &mut Random) -> Vec<u8> {
    let limit = match random.below(200) {
        0 => most(layout),
        _ => random.pick(&[8, 40, 120, 260]),
    };
    let count = random.below(limit);
    let length = random.pick(&[0, 0, 0, 4, 5, 16]);
    let header = random.bytes(length);
    let mut keys = Keys::new(Style::Ascending, random);
    let mut keys: Vec<u64> = (0..count).map(|_| keys.next(random)).collect();
    if let Some(last) = keys.last_mut().filter(|_| random.one_in(8)) {
        *last = u64::MAX;
    }
    let values: Vec<u64> = (0..count).map(|_| random.number()).collect();
    match layout == OWN {
        true => rkyv_map::build(&header, &keys, &values),
        false => complete(layout, &header, &keys, &values),
    }
}

/// Fewer entries than this are built. Offsets of 16 bits are too short from 2,971 entries on with 5 a node, and with
/// other numbers of entries a node from 2,029 on at the earliest.
fn most(layout: Layout) -> usize {
    match (layout.width, layout.entries) {
        (2, 5) => 2_971,
        (2, _) => 2_029,
        _ => 5_000,
    }
}

/// What rkyv builds of an ascending list at a layout, if every offset fits.
pub fn complete(layout: Layout, header: &[u8], keys: &[u64], values: &[u64]) -> Vec<u8> {
    Complete::of(layout, header, keys, values).archive
}

/// A tree with full levels but for the last, which is filled from the left, by the second reading.
pub struct Complete {
    /// The archive with the header in front. An offset that does not fit is cut.
    pub archive: Vec<u8>,
    /// Where the root stands, if there is one.
    pub root: Option<usize>,
    /// Whether every offset fits.
    pub fits: bool,
}

impl Complete {
    pub fn of(layout: Layout, header: &[u8], keys: &[u64], values: &[u64]) -> Self {
        let mut writer = Writer {
            layout,
            slots: keys.iter().copied().zip(values.iter().copied()),
            bytes: header.to_vec(),
            fits: true,
        };
        let mut root = None;
        if !keys.is_empty() {
            writer.align(8);
            // The nodes that the last level has room for: the levels above it are full.
            let mut levels = 1;
            let mut nodes = 1;
            while nodes * (layout.entries + 1) <= keys.len() {
                nodes *= layout.entries + 1;
                levels += 1;
            }
            let mut last_level = keys.len() - (nodes - 1);
            let tree = shape(layout, levels, &mut last_level).expect("a root");
            root = Some(writer.write(&tree));
        }
        writer.align(layout.width);
        let position = writer.bytes.len();
        let to = root.unwrap_or(position + 1);
        writer.leads(position, to);
        let record = layout.record_at(position, to, keys.len() as u64);
        writer.bytes.extend(record);
        Self {
            archive: writer.bytes,
            root,
            fits: writer.fits,
        }
    }
}

/// The tree below a node with so many levels, its own among them, while so many entries are left for the last level.
fn shape(layout: Layout, levels: u32, last_level: &mut usize) -> Option<Tree> {
    if levels == 1 {
        let count = layout.entries.min(*last_level);
        *last_level -= count;
        return (count > 0).then_some(Tree::Leaf(count as u32));
    }
    let mut child = |_| shape(layout, levels - 1, last_level);
    let children: Vec<Option<Tree>> = (0..=layout.entries).map(&mut child).collect();
    match children.iter().any(Option::is_some) {
        true => Some(Tree::Inner(children)),
        false => Some(Tree::Leaf(layout.entries as u32)),
    }
}

struct Writer<I> {
    layout: Layout,
    /// The slots in the order of a walk.
    slots: I,
    bytes: Vec<u8>,
    fits: bool,
}

impl<I: Iterator<Item = Slot>> Writer<I> {
    /// Adds zeros up to the next multiple.
    fn align(&mut self, alignment: usize) {
        let length = self.bytes.len().next_multiple_of(alignment);
        self.bytes.resize(length, 0);
    }

    /// Notes a field that leads from one position to another.
    fn leads(&mut self, from: usize, to: usize) {
        let most = 1_i128 << (8 * self.layout.width - 1);
        let distance = to as i128 - from as i128;
        self.fits &= (-most..most).contains(&distance);
    }

    /// Writes a tree, each node after its children. Gives the position of the tree's own node.
    fn write(&mut self, tree: &Tree) -> usize {
        let layout = self.layout;
        let children = match tree {
            Tree::Leaf(count) => return self.leaf(*count),
            Tree::Inner(children) => children,
        };
        let (mut own, mut positions) = (Vec::new(), Vec::new());
        for child in children {
            positions.push(child.as_ref().map(|child| self.write(child)));
            if own.len() < layout.entries {
                own.extend(self.slots.next());
            }
        }
        let position = self.bytes.len();
        for (index, to) in positions.iter().enumerate() {
            if let Some(to) = to {
                self.leads(layout.child(position, index), *to);
            }
        }
        self.bytes.resize(position + layout.inner(), 0);
        let node = &mut self.bytes[position..];
        layout.put_inner(node, position, &own, &positions);
        position
    }

    fn leaf(&mut self, count: u32) -> usize {
        let own: Vec<Slot> = self.slots.by_ref().take(count as usize).collect();
        let position = self.bytes.len();
        self.bytes.resize(position + self.layout.leaf(), 0);
        self.layout
            .put_leaf(&mut self.bytes[position..], count.into(), &own);
        position
    }
}
