//! Archives with something changed.

use super::{built, grown, Random};
use crate::by_hand::{offset, put};
use crate::model::{Layout, Node, KEYS, SERVER};

/// A built or grown archive with something changed.
pub fn damaged(layout: Layout, random: &mut Random) -> Vec<u8> {
    let mut bytes = if random.one_in(2) {
        built(layout, random)
    } else {
        grown(layout, random)
    };
    let changes = random.pick(&[1, 1, 1, 2, 3]);
    for _ in 0..changes {
        // Where the nodes are is only known while the archive is accepted.
        if layout.check(SERVER, &bytes).is_ok() {
            damage(layout, &mut bytes, random);
        }
    }
    bytes
}

fn damage(layout: Layout, bytes: &mut Vec<u8>, random: &mut Random) {
    let nodes = layout.nodes(bytes);
    let record = bytes.len() - layout.record();
    let leaves = at(&nodes, false);
    let entries = layout.entries as u64;
    match random.below(16) {
        0..=4 => other_offset(layout, bytes, &nodes, random),
        5 if !nodes.is_empty() => {
            let kind = random.pick(&[0, 1, 2, 3, 128, 255]);
            bytes[random.pick(&nodes).position] = kind;
        }
        6 if !leaves.is_empty() => {
            let (full, above) = (entries, entries + 1);
            let large = large(layout, full);
            let count = random.pick(&[0, 1, full - 1, full, above, above + 1, large, u64::MAX]);
            layout.put(bytes, random.pick(&leaves) + layout.head(), count);
        }
        7 => {
            let large = large(layout, layout.number(bytes, record + layout.width));
            let count = random.pick(&[0, 1, 2, entries, entries + 1, 76, large, u64::MAX]);
            layout.put(bytes, record + layout.width, count);
        }
        8..=9 if !nodes.is_empty() => other_key(layout, bytes, &nodes, random),
        change @ 10..=13 => other_length(layout, bytes, change, random),
        _ => {
            let position = random.below(bytes.len());
            bytes[position] = random.number() as u8;
        }
    }
}

/// A count that is too large: in a field of 8 bytes one whose lower 4 say this number.
fn large(layout: Layout, lower: u64) -> u64 {
    match layout.width {
        8 => 1 << 32 | lower,
        _ => 256,
    }
}

/// A key becomes another's equal, or any number.
fn other_key(layout: Layout, bytes: &mut [u8], nodes: &[Node], random: &mut Random) {
    let from = random.pick(nodes).position + KEYS + 8 * random.below(layout.entries);
    let key = if random.one_in(3) {
        random.number().to_le_bytes()
    } else {
        bytes[from..from + 8].try_into().unwrap()
    };
    let to = random.pick(nodes).position + KEYS + 8 * random.below(layout.entries);
    put(bytes, to, key);
}

/// Bytes go or come at the end or in front.
fn other_length(layout: Layout, bytes: &mut Vec<u8>, change: usize, random: &mut Random) {
    let lengths = [1, layout.width, layout.record(), layout.leaf()];
    match change {
        10 => {
            let length = random.pick(&lengths).min(bytes.len());
            bytes.truncate(bytes.len() - length);
        }
        11 => {
            let length = random.pick(&lengths).min(bytes.len());
            bytes.drain(..length);
        }
        12 => {
            let length = random.pick(&lengths);
            let front = random.bytes(length);
            bytes.splice(0..0, front);
        }
        _ => {
            let length = random.pick(&lengths[..3]);
            bytes.extend(random.bytes(length));
        }
    }
}

/// The positions of the nodes of one kind.
fn at(nodes: &[Node], inner: bool) -> Vec<usize> {
    let kind = nodes.iter().filter(|node| node.inner == inner);
    kind.map(|node| node.position).collect()
}

/// Another offset in a field: near the one that is there, to a node that another field leads to, one of the marks, or
/// any number.
fn other_offset(layout: Layout, bytes: &mut [u8], nodes: &[Node], random: &mut Random) {
    let inner = at(nodes, true);
    let field = if inner.is_empty() || random.one_in(4) {
        bytes.len() - layout.record()
    } else {
        layout.child(random.pick(&inner), random.below(layout.entries + 1))
    };
    let old = layout.number(bytes, field);
    let least = 1 << (8 * layout.width - 1);
    // In a field of 8 bytes one that the lower 4 do not show.
    let step = if layout.width == 8 { 1 << 32 } else { 8 };
    let other = match random.below(6) {
        0 => random.pick(&[0, 1, u64::MAX, least, least - 1]),
        1..=2 => old.wrapping_add_signed(random.pick(&[-16, -8, -4, -1, 1, 4, step, 16])),
        3..=4 if !nodes.is_empty() => offset(field, random.pick(nodes).position),
        3..=4 => offset(field, 8 * random.below((bytes.len() / 8).max(1))),
        _ => random.number(),
    };
    layout.put(bytes, field, other);
}
