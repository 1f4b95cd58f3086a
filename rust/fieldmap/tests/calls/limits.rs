//! The limits that a caller names, by each layout: how long an archive may be, and how deep its nodes may be nested.

use std::fmt::Debug;

use crate::by_hand::{nested_at, root_leaf_at, slots, Output};
use crate::given::{built_at, layout, Sizes, BEFORE, LAYOUTS};
use crate::refused::refused_by;
use fieldmap::Packing::TwosComplement;
use fieldmap::Width::Bits32;
use fieldmap::{Archive, Layout, Limits, Refusal};

/// The server's limits, but for the longest archive.
fn longest(longest: usize) -> Limits {
    Limits {
        longest,
        ..Limits::SERVER
    }
}

/// The server's limits, but for the depth.
fn depth(depth: usize) -> Limits {
    Limits {
        depth,
        ..Limits::SERVER
    }
}

const NONE: Limits = Limits {
    longest: 0,
    depth: 0,
};

/// What every reader gives of a certified archive.
fn read(layout: Layout, limits: Limits, archive: &[u8]) -> impl PartialEq + Debug + '_ {
    let list = || (vec![BEFORE; 80], vec![BEFORE; 90]);
    let (mut walked, mut ranged, mut points) = (list(), list(), list());
    let (keys, values) = (&mut walked.0, &mut walked.1);
    let walk = fieldmap::walk_at(layout, limits, archive, keys, values).unwrap();
    let (keys, values) = (&mut ranged.0, &mut ranged.1);
    let range = fieldmap::range_at(layout, limits, archive, 3.., keys, values).unwrap();
    let (keys, values) = (&mut points.0, &mut points.1);
    let packing = TwosComplement;
    let column = fieldmap::column_at(layout, limits, archive, packing, 0, 0, .., keys, values);
    let mut found = [BEFORE; 6];
    let sought = [0, 1, 2, 20, 1_000];
    let many = fieldmap::lookup_many_at(layout, limits, archive, &sought, &mut found).unwrap();
    let one = sought.map(|key| fieldmap::lookup_at(layout, limits, archive, key).unwrap());
    let part = sought.map(|key| fieldmap::lookup_bytes_at(layout, limits, archive, key));
    let opened = Archive::check_at(layout, limits, archive).unwrap();
    let certified = opened.certify().unwrap();
    (
        (walk, walked, range, ranged),
        (column.unwrap(), points),
        (many, found, one, part),
        (opened.count(), certified.count()),
    )
}

/// Each reader gives with these limits what it gives with the server's, and the archive has so many entries.
fn passes(layout: Layout, limits: Limits, archive: &[u8], count: usize) {
    let what = format!("{layout:?}, {limits:?}");
    let checked = fieldmap::check_at(layout, limits, archive);
    assert_eq!(checked, Ok(count), "{what}");
    let server = read(layout, Limits::SERVER, archive);
    assert_eq!(read(layout, limits, archive), server, "{what}");
}

/// An archive of so many bytes with one entry: zeros, a leaf, zeros up to the record, and the record.
fn ending_at(sizes: Sizes, length: usize) -> Vec<u8> {
    let end = length - sizes.record;
    let mut output = Output::at(sizes.layout);
    output.bytes.resize((end - sizes.leaf) / 8 * 8, 0);
    let root = output.leaf(1, &[(1, 10)]);
    output.bytes.resize(end, 0);
    output.record(root, 1)
}

/// A library whose readers take no limits links too, and takes these for an archive without bytes, which it refuses by 2.
#[test]
fn the_library_takes_limits() {
    for Sizes { layout, record, .. } in LAYOUTS {
        let answer = fieldmap::check_at(layout, NONE, &vec![0; record]);
        assert_eq!(answer, Err(Refusal::ArchiveTooLong));
    }
}

/// An archive as long as the limit passes, one that is a byte longer does not.
#[test]
fn longest_archives() {
    for sizes in LAYOUTS {
        let layout = sizes.layout;
        for length in [320, 1_008, 4_096, 65_536, 1_048_576] {
            let archive = ending_at(sizes, length);
            assert_eq!(archive.len(), length);
            passes(layout, longest(length), &archive, 1);
            passes(layout, longest(length + 1), &archive, 1);
            refused_by(layout, longest(length - 1), &archive, Some(1), 1);
            refused_by(layout, longest(0), &archive, Some(1), 1);
        }
        // No bytes are not longer than none.
        refused_by(layout, longest(0), &[], Some(2), 2);
    }
}

/// A longest archive above the server's counts as the server's.
#[test]
fn longest_above_the_servers() {
    for sizes in LAYOUTS {
        let (layout, server) = (sizes.layout, Limits::SERVER.longest);
        let most = ending_at(sizes, server);
        let more = ending_at(sizes, server + sizes.record);
        let byte_more = vec![0; server + 1];
        for above in [server, server + 1, 2 * server, 1 << 32, usize::MAX] {
            passes(layout, longest(above), &most, 1);
            refused_by(layout, longest(above), &more, Some(1), 1);
            refused_by(layout, longest(above), &byte_more, Some(1), 1);
        }
    }
}

/// With each depth d up to d - 2 nested nodes pass, none with 0 as with 1, and with one above the server's as many as with the server's.
#[test]
fn depths() {
    for Sizes { layout, .. } in LAYOUTS {
        for nodes in 0..=15 {
            let archive = match nodes {
                0 => built_at(layout, 0),
                _ => nested_at(layout, nodes as u32),
            };
            let count = match nodes {
                0 => 0,
                _ => (nodes - 1) * layout.entries() + 1,
            };
            for named in (0..=18).chain([256, 1 << 32, usize::MAX]) {
                let counts_as = match named {
                    0 => 1,
                    1..=16 => named,
                    _ => 16,
                };
                if nodes + 2 <= counts_as {
                    passes(layout, depth(named), &archive, count);
                } else {
                    refused_by(layout, depth(named), &archive, Some(5), 5);
                }
            }
        }
    }
}

/// The viewer takes 4,096 bytes and three nested nodes, the server 1,048,576 bytes and 14.
#[test]
fn viewer_and_server() {
    let (viewer, server) = (Limits::VIEWER, Limits::SERVER);
    for sizes in LAYOUTS {
        let layout = sizes.layout;
        passes(layout, viewer, &ending_at(sizes, 4_096), 1);
        let longer = ending_at(sizes, 4_096 + sizes.record);
        refused_by(layout, viewer, &longer, Some(1), 1);
        passes(layout, server, &longer, 1);
        refused_by(layout, viewer, &[0; 4_097], Some(1), 1);
        for nodes in 1..=14 {
            let archive = nested_at(layout, nodes);
            let count = (nodes as usize - 1) * layout.entries() + 1;
            passes(layout, server, &archive, count);
            match (archive.len() > 4_096, nodes > 3) {
                (true, _) => refused_by(layout, viewer, &archive, Some(1), 1),
                (_, true) => refused_by(layout, viewer, &archive, Some(5), 5),
                _ => passes(layout, viewer, &archive, count),
            }
        }
    }
}

/// What the viewer takes of what is built by 32 bits with 5 and with 3 entries a node.
#[test]
fn builds_that_the_viewer_takes() {
    for (entries, most, refusal) in [
        (5, 205, Refusal::ArchiveTooLong),
        (3, 63, Refusal::ExceededMaximumSubtreeDepth),
    ] {
        let layout = layout(Bits32, entries);
        let by_viewer =
            |count| fieldmap::check_at(layout, Limits::VIEWER, &built_at(layout, count));
        assert_eq!(by_viewer(most), Ok(most as usize));
        assert_eq!(by_viewer(most + 1), Err(refusal));
    }
}

/// 1 comes before what the record is refused by, and of the record 2 and 3 before 5.
#[test]
fn order_at_the_record() {
    for Sizes { layout, record, .. } in LAYOUTS {
        for length in [1, record - 1, record, record + 1, 2 * record] {
            let zeros = vec![0; length];
            refused_by(layout, NONE, &zeros, Some(1), 1);
            let number = match length {
                _ if length < record => 2,
                _ if length % (record / 2) != 0 => 3,
                _ => 5,
            };
            refused_by(layout, depth(0), &zeros, Some(number), number);
            refused_by(layout, depth(1), &zeros, Some(number), number);
        }
    }
}

/// Archives with one fault each, but for one without entries, and what refuses them with the depths 1, 2 and 3: 0 where nothing does.
fn faults(layout: Layout, record: usize) -> [(Vec<u8>, [u8; 3]); 7] {
    let mut outside = vec![0; record];
    (outside[0], outside[record / 2]) = (1, 1);
    let mut unaligned = root_leaf_at(layout, &[1]);
    let at = unaligned.len() - record;
    unaligned[at] += 1;
    let mut unknown = root_leaf_at(layout, &[1]);
    unknown[0] = 2;
    let leaf = |count, recorded| {
        let mut output = Output::at(layout);
        let root = output.leaf(count, &slots(layout, 0));
        output.record(root, recorded)
    };
    let above = layout.entries() as u32 + 1;
    [
        (outside, [5, 2, 2]),
        (unaligned, [5, 3, 3]),
        (unknown, [5, 4, 4]),
        (leaf(above, above), [5, 5, 6]),
        (leaf(1, 2), [5, 5, 7]),
        (leaf(0, 0), [5, 0, 0]),
        (root_leaf_at(layout, &[2, 1]), [5, 5, 9]),
    ]
}

/// Of a node 2, 3 and 4 come before 5, and all else behind it. In an archive without entries no node is looked at.
#[test]
fn order_at_a_node() {
    for Sizes { layout, record, .. } in LAYOUTS {
        for (archive, numbers) in faults(layout, record) {
            for (limit, number) in (1..).zip(numbers) {
                match number {
                    0 => passes(layout, depth(limit), &archive, 0),
                    _ => {
                        let by_check = (number < 8).then_some(number);
                        refused_by(layout, depth(limit), &archive, by_check, number);
                    }
                }
            }
        }
    }
}
