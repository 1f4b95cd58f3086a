//! Each refusal, by every call that can give it, by layouts of each width, and what was lent afterwards.

use crate::by_hand::{nested_at, root_leaf_at, slots, Output};
use crate::given::{layout, Sizes, LAYOUTS};
use crate::refused::refused;
use fieldmap::Width::{Bits16, Bits32, Bits64};
use fieldmap::{Layout, Limits, Refusal};

#[test]
fn by_1() {
    for Sizes { layout, .. } in LAYOUTS {
        refused(layout, &vec![0; 1_048_577], Some(1), 1);
        assert_eq!(
            fieldmap::check_at(layout, Limits::SERVER, &vec![0; 1_048_576]),
            Ok(0)
        );
    }
}

#[test]
fn by_2() {
    for Sizes {
        layout,
        leaf,
        record,
        ..
    } in LAYOUTS
    {
        for length in 0..record {
            refused(layout, &vec![0; length], Some(2), 2);
        }
        // A count of 1 with root offset 1 is not read as empty.
        let mut archive = vec![0; record];
        (archive[0], archive[record / 2]) = (1, 1);
        refused(layout, &archive, Some(2), 2);
        // A root leaf of which all but its count lies in the archive.
        let mut output = Output::at(layout);
        let root = output.leaf(1, &[(1, 1)]);
        output.bytes.truncate(leaf - 8);
        refused(layout, &output.record(root, 1), Some(2), 2);
        // One leaf named twice.
        let mut output = Output::at(layout);
        let named = output.leaf(1, &[(1, 1)]);
        let root = output.inner(&slots(layout, 1), &[named, named]);
        let count = layout.entries() as u32 + 2;
        refused(layout, &output.record(root, count), Some(2), 2);
    }
}

#[test]
fn by_3() {
    for Sizes { layout, record, .. } in LAYOUTS {
        // The record at each position below its alignment, which is the size of its offset.
        for position in 1..record / 2 {
            refused(layout, &vec![0; record + position], Some(3), 3);
        }
        // A leaf at 4, and the record at a multiple of 8 behind it.
        let mut output = Output::at(layout);
        output.bytes.extend([0; 4]);
        let root = output.leaf(1, &[(1, 1)]);
        output.bytes.extend([0; 4]);
        refused(layout, &output.record(root, 1), Some(3), 3);
    }
}

#[test]
fn by_4() {
    for Sizes { layout, .. } in LAYOUTS {
        let mut archive = root_leaf_at(layout, &[1]);
        archive[0] = 2;
        refused(layout, &archive, Some(4), 4);
    }
}

#[test]
fn by_5() {
    for Sizes { layout, .. } in LAYOUTS {
        refused(layout, &nested_at(layout, 15), Some(5), 5);
    }
}

#[test]
fn by_6() {
    for Sizes { layout, .. } in LAYOUTS {
        let mut output = Output::at(layout);
        let above = layout.entries() as u32 + 1;
        let root = output.leaf(above, &[]);
        refused(layout, &output.record(root, above), Some(6), 6);
    }
}

#[test]
fn by_7() {
    for Sizes { layout, .. } in LAYOUTS {
        let mut output = Output::at(layout);
        let root = output.leaf(2, &[(1, 1), (2, 2)]);
        refused(layout, &output.record(root, 3), Some(7), 7);
    }
}

#[test]
fn by_8() {
    for Sizes { layout, .. } in LAYOUTS {
        // A leaf of none, below keys that do not ascend: 8 comes first.
        let mut output = Output::at(layout);
        let leaf = output.leaf(0, &[]);
        let count = layout.entries() as u32;
        let mut falling = slots(layout, 0);
        falling.swap(0, 1);
        let root = output.inner(&falling, &[leaf]);
        refused(layout, &output.record(root, count), None, 8);
        // An inner node without its first child.
        let mut output = Output::at(layout);
        let root = output.inner(&slots(layout, 0), &[]);
        refused(layout, &output.record(root, count), None, 8);
    }
}

#[test]
fn by_9() {
    for Sizes { layout, .. } in LAYOUTS {
        refused(layout, &root_leaf_at(layout, &[1, 1]), None, 9);
        refused(layout, &root_leaf_at(layout, &[2, 1]), None, 9);
    }
}

/// What build answers by a layout, the output being left as it was.
fn built(layout: Layout, out_length: usize, header: usize, keys: &[u64], values: &[u64]) -> u8 {
    let mut out = vec![0x5a; out_length];
    let refusal = fieldmap::build_at(layout, &mut out, header, keys, values).unwrap_err();
    assert!(out.iter().all(|&byte| byte == 0x5a));
    refusal.number()
}

#[test]
fn by_10_to_14() {
    let many: Vec<u64> = (0..40_001).collect();
    for Sizes {
        layout,
        leaf,
        record,
        ..
    } in LAYOUTS
    {
        assert_eq!(built(layout, 200, 0, &[1, 2], &[1]), 10);
        assert_eq!(built(layout, 200, 0, &[2, 1], &[1]), 10);
        assert_eq!(built(layout, 200, 0, &many, &many), 11);
        assert_eq!(built(layout, 200, 0, &[2, 1], &[0, 0]), 12);
        assert_eq!(built(layout, 200, 0, &[1, 1], &[0, 0]), 12);
        assert_eq!(built(layout, 9_000, 4_097, &[1], &[0]), 13);
        assert_eq!(built(layout, leaf + record - 1, 0, &[1], &[0]), 14);
        assert_eq!(built(layout, leaf + record + 7, 5, &[1], &[0]), 14);
        assert_eq!(built(layout, record - 1, 0, &[], &[]), 14);
        assert_eq!(built(layout, record, usize::MAX, &[], &[]), 13);
    }
}

/// 16 bits take 2,970 entries with five a node, and no more. The refusals of 10 to 14 come before 16.
#[test]
fn by_16() {
    let bits_16 = Layout::from(Bits16);
    let many: Vec<u64> = (0..2_971).collect();
    let falling: Vec<u64> = many.iter().rev().copied().collect();
    let (most, more) = (&many[..2_970], &many[..]);
    let mut out = vec![0; 57_820];
    assert_eq!(
        fieldmap::build_at(bits_16, &mut out, 0, most, most),
        Ok(57_820)
    );
    assert_eq!(
        fieldmap::certify_at(bits_16, Limits::SERVER, &out),
        Ok(2_970)
    );
    for header in [0, 1, 4_096] {
        assert_eq!(built(bits_16, 100_000, header, more, more), 16);
    }
    assert_eq!(built(bits_16, 57_916, 0, more, more), 16);
    assert_eq!(built(bits_16, 57_915, 0, more, more), 14);
    assert_eq!(built(bits_16, 57_915, 4_097, more, more), 13);
    assert_eq!(built(bits_16, 57_915, 4_097, &falling, more), 12);
    assert_eq!(built(bits_16, 57_915, 4_097, &falling, most), 10);
}

#[test]
fn lengths_of_builds() {
    let number = |refusal: Refusal| refusal.number();
    for Sizes { layout, .. } in LAYOUTS {
        let length =
            |entries, header| fieldmap::build_length_at(layout, entries, header).map_err(number);
        assert_eq!(length(40_001, 4_097), Err(11));
        assert_eq!(length(usize::MAX, 0), Err(11));
        assert_eq!(length(40_000, 4_097), Err(13));
        assert_eq!(length(0, usize::MAX), Err(13));
        let most = if layout.width() == Bits16 {
            2_000
        } else {
            40_000
        };
        for (entries, header) in [(0, 0), (0, 5), (1, 0), (6, 1), (36, 4_096), (most, 4_095)] {
            let keys: Vec<u64> = (0..entries).collect();
            let end = length(keys.len(), header).unwrap();
            let mut out = vec![0; end];
            let answer = fieldmap::build_at(layout, &mut out, header, &keys, &keys);
            assert_eq!(answer, Ok(end));
            assert_eq!(built(layout, end - 1, header, &keys, &keys), 14);
        }
    }
    for entries in 2_971..=40_000 {
        let answer = fieldmap::build_length_at(Bits16.into(), entries, 0);
        assert_eq!(answer.map_err(number), Err(16));
    }
}

/// Entries a node outside 3 to 15 make no layout.
#[test]
fn by_24() {
    for width in [Bits16, Bits32, Bits64] {
        for entries in (0..=40).chain([usize::MAX - 1, usize::MAX]) {
            let made = Layout::new(width, entries);
            let right = (3..=15).contains(&entries);
            assert_eq!(made.is_ok(), right, "{entries}");
            match made {
                Ok(made) => assert_eq!((made.width(), made.entries()), (width, entries)),
                Err(refusal) => assert_eq!(refusal.number(), 24),
            }
        }
        assert_eq!(Layout::from(width), layout(width, 5));
    }
}

#[test]
fn numbers_and_texts() {
    assert_eq!(Refusal::ALL.len(), 19);
    for (refusal, number) in Refusal::ALL.into_iter().zip((1..=18).chain([24])) {
        assert_eq!(refusal.number(), number);
        let text = refusal.to_string();
        let start = format!("refused {number}: ");
        assert_eq!(text, start + refusal.text());
        let error: &dyn std::error::Error = &refusal;
        assert!(error.source().is_none());
    }
}
