//! What the tests of several files are given.

use fieldmap::Layout;
use fieldmap::Width::{self, Bits16, Bits32, Bits64};

/// What a place of a lent list holds before a call.
pub const BEFORE: u64 = 0x5555_5555_5555_5555;

/// A layout, and the sizes in bytes of a leaf, of an inner node and of the record.
#[derive(Clone, Copy)]
pub struct Sizes {
    pub layout: Layout,
    pub leaf: usize,
    pub inner: usize,
    pub record: usize,
}

/// The layouts of each width with 3, 4, 5 and 15 entries a node.
pub const LAYOUTS: [Sizes; 12] = [
    sizes(Bits16, 3, 64, 64),
    sizes(Bits16, 4, 80, 88),
    sizes(Bits16, 5, 96, 104),
    sizes(Bits16, 15, 256, 280),
    sizes(Bits32, 3, 64, 72),
    sizes(Bits32, 4, 80, 96),
    sizes(Bits32, 5, 96, 112),
    sizes(Bits32, 15, 256, 312),
    sizes(Bits64, 3, 64, 88),
    sizes(Bits64, 4, 80, 112),
    sizes(Bits64, 5, 96, 136),
    sizes(Bits64, 15, 256, 376),
];

const fn sizes(width: Width, entries: usize, leaf: usize, inner: usize) -> Sizes {
    let record = match width {
        Bits16 => 4,
        Bits32 => 8,
        Bits64 => 16,
    };
    Sizes {
        layout: layout(width, entries),
        leaf,
        inner,
        record,
    }
}

/// A layout whose entries a node are 3 to 15.
pub const fn layout(width: Width, entries: usize) -> Layout {
    match Layout::new(width, entries) {
        Ok(layout) => layout,
        Err(_) => panic!("the entries a node are not 3 to 15"),
    }
}

/// The archive of the first keys from 1 on, the values ten times the keys.
pub fn built(count: u64) -> Vec<u8> {
    built_at(Layout::COMMON, count)
}

pub fn built_at(layout: Layout, count: u64) -> Vec<u8> {
    let keys: Vec<u64> = (1..=count).collect();
    let values: Vec<u64> = keys.iter().map(|key| 10 * key).collect();
    let mut out = vec![0xaa; 300 + 30 * count as usize];
    let end = fieldmap::build_at(layout, &mut out, 0, &keys, &values).unwrap();
    assert!(out[end..].iter().all(|&byte| byte == 0xaa));
    out.truncate(end);
    out
}
