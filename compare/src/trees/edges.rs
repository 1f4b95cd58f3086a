//! Archives at the edges of a layout: most are one step from another answer. The same on every run.

use super::complete;
use crate::model::{Layout, KEYS, SERVER, VIEWER};

/// All of them.
pub fn edges(layout: Layout) -> Vec<Vec<u8>> {
    let mut archives = Vec::new();
    let about = |length| length - 1..=length + 8;
    let short = 0..=3 * layout.record();
    for length in short.chain(
        [VIEWER, SERVER]
            .into_iter()
            .flat_map(|limits| about(limits.longest)),
    ) {
        archives.extend([0, 1, 165].map(|fill| vec![fill; length]));
    }
    for missing in (0..=16).step_by(layout.width) {
        archives.extend([0, 1].map(|kind| cut(layout, kind, missing)));
    }
    let full = layout.entries as u64;
    for depth in 1..=SERVER.depth {
        archives.extend([0, 1, full, full + 1].map(|count| nested(layout, depth, count)));
    }
    let entries = 3 * layout.entries as u64;
    let keys: Vec<u64> = (0..entries).map(|key| 3 * key).collect();
    let built = complete(layout, b"field", &keys, &keys);
    for archive in [nested(layout, 1, full), nested(layout, 3, 1), built] {
        archives.extend(other_numbers(layout, &archive));
        archives.extend(other_bytes(layout, &archive));
        archives.push(archive);
    }
    archives
}

/// A root of a kind, full if it is a leaf and else without children, whose last bytes are missing: the record stands in
/// their place.
fn cut(layout: Layout, kind: u8, missing: usize) -> Vec<u8> {
    let size = match kind {
        0 => layout.leaf(),
        _ => layout.inner(),
    };
    let mut bytes = vec![0; size];
    let slots: Vec<(u64, u64)> = (0..layout.entries as u64).map(|key| (key, key)).collect();
    match kind {
        0 => layout.put_leaf(&mut bytes, layout.entries as u64, &slots),
        _ => layout.put_inner(&mut bytes, 0, &slots, &vec![None; layout.entries + 1]),
    }
    bytes.truncate(size - missing);
    bytes.extend(layout.record_at(bytes.len(), 0, layout.entries as u64));
    bytes
}

/// A leaf with a count under inner nodes, so that `depth` nodes are nested; each inner node has its first child only.
/// Keys ascend.
fn nested(layout: Layout, depth: usize, count: u64) -> Vec<u8> {
    let entries = layout.entries as u64;
    let slots = |level: u64| -> Vec<(u64, u64)> {
        (0..entries)
            .map(|index| (entries * level + index, level))
            .collect()
    };
    let mut bytes = vec![0; layout.leaf()];
    layout.put_leaf(&mut bytes, count, &slots(0));
    let mut root = 0;
    for level in 1..depth as u64 {
        let position = bytes.len();
        bytes.resize(position + layout.inner(), 0);
        let mut children = vec![None; layout.entries + 1];
        children[0] = Some(root);
        let node = &mut bytes[position..];
        layout.put_inner(node, position, &slots(level), &children);
        root = position;
    }
    let all = entries * (depth as u64 - 1) + count;
    bytes.extend(layout.record_at(bytes.len(), root, all));
    bytes
}

/// The archive with another number in one of its fields, each field with each number.
fn other_numbers(layout: Layout, archive: &[u8]) -> Vec<Vec<u8>> {
    let mut fields = vec![
        archive.len() - layout.record(),
        archive.len() - layout.width,
    ];
    for node in layout.nodes(archive) {
        let last = if node.inner { layout.entries } else { 0 };
        fields.extend((0..=last).map(|index| layout.child(node.position, index)));
    }
    let least = 1 << (8 * layout.width - 1);
    let mut archives = Vec::new();
    for field in fields {
        let old = layout.number(archive, field);
        let near = [-256, -8, -4, -2, -1, 1, 2, 4, 8, 256, 1 << 16, 1 << 32];
        let near = near.map(|step| old.wrapping_add_signed(step));
        for number in [0, 1, 2, u64::MAX, least, least - 1]
            .into_iter()
            .chain(near)
        {
            let mut other = archive.to_vec();
            layout.put(&mut other, field, number);
            archives.push(other);
        }
    }
    archives
}

/// The archive with another kind in one of its nodes, with two equal keys, and with bytes more or fewer in front and at
/// the end.
fn other_bytes(layout: Layout, archive: &[u8]) -> Vec<Vec<u8>> {
    let mut archives = Vec::new();
    for node in layout.nodes(archive) {
        for kind in [0, 1, 2, 255] {
            let mut other = archive.to_vec();
            other[node.position] = kind;
            archives.push(other);
        }
        let mut other = archive.to_vec();
        let first = node.position + KEYS;
        other.copy_within(first..first + 8, first + 8);
        archives.push(other);
    }
    for length in 1..=16 {
        let more = vec![0; length];
        archives.push([&more, archive].concat());
        archives.push([archive, &more].concat());
        archives.push(archive[length.min(archive.len())..].to_vec());
        archives.push(archive[..archive.len().saturating_sub(length)].to_vec());
    }
    archives
}
