//! Each layout: what is built by it, and what becomes of an archive that is read by another.

use std::cmp::Ordering::{Equal, Greater, Less};

use crate::by_hand::root_leaf_at;
use crate::given::{built_at, layout, Sizes, LAYOUTS};
use fieldmap::Width::{Bits16, Bits32, Bits64};
use fieldmap::{Archive, Layout, Limits, Refusal, Width};

/// A library whose calls take no layout, or a width alone, links too, and gives other lengths.
#[test]
fn the_library_takes_layouts() {
    for Sizes { layout, record, .. } in LAYOUTS {
        assert_eq!(fieldmap::build_length_at(layout, 0, 0), Ok(record));
    }
}

/// Entries a node and numbers of entries, each with the leaves and the inner nodes of its tree.
const TREES: [(usize, u64, usize, usize); 38] = [
    (3, 1, 1, 0),
    (3, 3, 1, 0),
    (3, 4, 1, 1),
    (3, 15, 4, 1),
    (3, 16, 4, 2),
    (3, 63, 16, 5),
    (3, 64, 16, 6),
    (3, 255, 64, 21),
    (3, 256, 64, 22),
    (3, 2_556, 639, 213),
    (4, 4, 1, 0),
    (4, 5, 1, 1),
    (4, 24, 5, 1),
    (4, 25, 5, 2),
    (4, 124, 25, 6),
    (4, 125, 25, 7),
    (4, 625, 125, 32),
    (4, 2_224, 445, 111),
    (5, 0, 0, 0),
    (5, 1, 1, 0),
    (5, 5, 1, 0),
    (5, 6, 1, 1),
    (5, 10, 1, 1),
    (5, 11, 2, 1),
    (5, 35, 6, 1),
    (5, 36, 6, 2),
    (5, 215, 36, 7),
    (5, 216, 36, 8),
    (5, 1_296, 216, 44),
    (5, 2_970, 495, 99),
    (15, 1, 1, 0),
    (15, 15, 1, 0),
    (15, 16, 1, 1),
    (15, 30, 1, 1),
    (15, 31, 2, 1),
    (15, 255, 16, 1),
    (15, 256, 16, 2),
    (15, 2_145, 134, 9),
];

#[test]
fn lengths() {
    for Sizes {
        layout,
        leaf,
        inner,
        record,
    } in LAYOUTS
    {
        for (entries, count, leaves, inners) in TREES {
            if entries == layout.entries() {
                let length = leaf * leaves + inner * inners + record;
                assert_eq!(built_at(layout, count).len(), length, "{layout:?}");
                let count = count as usize;
                assert_eq!(fieldmap::build_length_at(layout, count, 0), Ok(length));
                assert_eq!(fieldmap::build_length_at(layout, count, 8), Ok(length + 8));
            }
        }
    }
}

/// The lengths of the largest builds.
#[test]
fn largest() {
    for (width, entries, length) in [
        (Bits32, 3, 880_056),
        (Bits64, 3, 933_408),
        (Bits32, 5, 789_352),
        (Bits64, 5, 821_376),
        (Bits32, 15, 692_112),
        (Bits64, 15, 702_808),
    ] {
        let layout = layout(width, entries);
        assert_eq!(fieldmap::build_length_at(layout, 40_000, 0), Ok(length));
    }
}

/// The most entries that 16 bits take with 3 to 15 a node. One more is refused by 16.
#[test]
fn most_at_16_bits() {
    let most = [
        2_556, 2_224, 2_970, 2_070, 2_282, 2_512, 2_808, 3_160, 3_575, 2_028, 2_067, 2_100, 2_145,
    ];
    for (entries, most) in (3..=15).zip(most) {
        let layout = layout(Bits16, entries);
        let bytes = built_at(layout, most);
        assert_eq!(
            fieldmap::certify_at(layout, Limits::SERVER, &bytes),
            Ok(most as usize)
        );
        let more = fieldmap::build_length_at(layout, most as usize + 1, 0);
        assert_eq!(more, Err(Refusal::OffsetOverflow));
    }
}

/// The signed number of a width at a position.
fn number_at(width: Width, bytes: &[u8], position: usize) -> i64 {
    let part = &bytes[position..];
    match width {
        Bits16 => i16::from_le_bytes(part[..2].try_into().unwrap()).into(),
        Bits32 => i32::from_le_bytes(part[..4].try_into().unwrap()).into(),
        Bits64 => i64::from_le_bytes(part[..8].try_into().unwrap()),
    }
}

/// One entry more than a leaf takes: a leaf of one at 0, and behind it the inner node, which leads to it by its first offset.
#[test]
fn offsets_and_counts() {
    for Sizes {
        layout,
        leaf,
        inner,
        record,
    } in LAYOUTS
    {
        let entries = layout.entries();
        let bytes = built_at(layout, entries as u64 + 1);
        let at = |position| number_at(layout.width(), &bytes, position);
        assert_eq!(at(leaf - 8), 1, "the leaf's count");
        let field = leaf + 8 + 16 * entries;
        assert_eq!(at(field), -(field as i64));
        for child in 1..=entries {
            assert_eq!(at(field + child * record / 2), 1);
        }
        assert_eq!(at(leaf + inner), -(inner as i64));
        assert_eq!(at(leaf + inner + record / 2), entries as i64 + 1);
    }
}

/// One leaf is the same bytes as that written by hand.
#[test]
fn bytes_of_a_leaf() {
    for Sizes { layout, .. } in LAYOUTS {
        assert_eq!(built_at(layout, 3), root_leaf_at(layout, &[1, 2, 3]));
    }
}

/// No entries: a record on its alignment behind a header of 5 bytes, whatever the entries a node.
#[test]
fn no_entries() {
    for Sizes { layout, record, .. } in LAYOUTS {
        let start = if layout.width() == Bits16 { 6 } else { 8 };
        let end = start + record;
        let mut out = [0xaa; 30];
        assert_eq!(fieldmap::build_at(layout, &mut out, 5, &[], &[]), Ok(end));
        assert_eq!(fieldmap::build_length_at(layout, 0, 5), Ok(end));
        let mut expected = [0xaa; 30];
        expected[5..end].fill(0);
        expected[start] = 1;
        assert_eq!(out, expected);
        let archive = &out[..end];
        assert_eq!(fieldmap::certify_at(layout, Limits::SERVER, archive), Ok(0));
        assert_eq!(
            fieldmap::lookup_at(layout, Limits::SERVER, archive, 0),
            Ok(None)
        );
        assert_eq!(
            fieldmap::lookup_bytes_at(layout, Limits::SERVER, archive, 0),
            []
        );
        assert!(Archive::check_at(layout, Limits::SERVER, archive)
            .unwrap()
            .is_empty());
    }
}

/// Read by a width above its own an archive with entries is refused, by one below it is certified without entries.
#[test]
fn read_by_another_width() {
    for Sizes { layout: own, .. } in LAYOUTS {
        for count in [1, 2, 5, 6, 35, 36, 1_000, 2_000] {
            let bytes = built_at(own, count);
            for width in [Bits16, Bits32, Bits64] {
                let by = layout(width, own.entries());
                let expected = match (own.width() as u8).cmp(&(width as u8)) {
                    Equal => Ok(count as usize),
                    Greater => Ok(0),
                    Less if (own.width(), width) == (Bits16, Bits64) => {
                        Err(Refusal::UnalignedPointer)
                    }
                    Less => Err(Refusal::InvalidSubtreePointer),
                };
                let answer = fieldmap::certify_at(by, Limits::SERVER, &bytes);
                assert_eq!(answer, expected, "{count} of {own:?} by {width:?}");
                assert_eq!(fieldmap::check_at(by, Limits::SERVER, &bytes), expected);
            }
        }
    }
}

/// Read by more entries a node than its own an archive with entries is refused.
#[test]
fn read_by_more_entries() {
    for Sizes { layout: own, .. } in LAYOUTS {
        for count in [1, 2, 3, 4, 15, 16, 36, 1_000] {
            let bytes = built_at(own, count);
            for entries in own.entries() + 1..=15 {
                let answer =
                    fieldmap::check_at(layout(own.width(), entries), Limits::SERVER, &bytes);
                assert_eq!(answer, Err(Refusal::InvalidSubtreePointer));
            }
        }
    }
}

/// Read by fewer it can pass, with other values than it has.
#[test]
fn read_by_fewer_entries() {
    for width in [Bits16, Bits32, Bits64] {
        let (own, fewer) = (Layout::from(width), layout(width, 3));
        let mut bytes = [0; 112];
        let end = fieldmap::build_at(own, &mut bytes, 0, &[1, 5], &[10, 50]).unwrap();
        let answer = fieldmap::check_at(fewer, Limits::SERVER, &bytes[..end]);
        assert_eq!(answer, Err(Refusal::InvalidLength));
        // The second value stands where a leaf of three has its count.
        fieldmap::build_at(own, &mut bytes, 0, &[1, 5], &[10, 2]).unwrap();
        let (mut keys, mut values) = ([0; 2], [0; 2]);
        assert_eq!(
            fieldmap::certify_at(fewer, Limits::SERVER, &bytes[..end]),
            Ok(2)
        );
        let _ = fieldmap::walk_at(fewer, Limits::SERVER, &bytes[..end], &mut keys, &mut values)
            .unwrap();
        assert_eq!((keys, values), ([1, 5], [0, 0]));
    }
}
