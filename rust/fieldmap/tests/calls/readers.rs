//! The readers by each layout: what they give of a built archive, and the layout and the limits that an archive keeps.

use crate::by_hand::root_leaf_at;
use crate::given::{built_at, Sizes, BEFORE, LAYOUTS};
use fieldmap::Packing::{Plus128, TwosComplement};
use fieldmap::{
    Archive, Certified, Entry, Key, Layout, Limits, Matched, Packing, Refusal, Walked, Width,
};

/// What the lookups give of the archive of the keys 1 to `count`, the values ten times the keys.
fn look_up(layout: Layout, limits: Limits, bytes: &[u8], count: u64) {
    let archive = Archive::check_at(layout, limits, bytes).unwrap();
    let certified = Certified::certify_at(layout, limits, bytes).unwrap();
    for key in 0..=count + 1 {
        let entry = fieldmap::lookup_at(layout, limits, bytes, key).unwrap();
        let found = (1..=count).contains(&key);
        assert_eq!(entry.is_some(), found);
        assert_eq!((archive.get(key), certified.get(key)), (entry, entry));
        assert_eq!(archive.contains_key(key), found);
        assert_eq!(certified.contains_key(key), found);
        let part = fieldmap::lookup_bytes_at(layout, limits, bytes, key);
        assert_eq!(archive.get_bytes(key), part);
        assert_eq!(certified.get_bytes(key), part);
        let Some(Entry {
            value, position, ..
        }) = entry
        else {
            assert!(part.is_empty());
            continue;
        };
        assert_eq!((entry.unwrap().key, value), (key, 10 * key));
        assert_eq!(part, value.to_le_bytes());
        assert_eq!(part.as_ptr(), bytes[position..].as_ptr());
    }
    let mut values = [BEFORE; 4];
    let sought = [count, 0, 1];
    assert_eq!(
        fieldmap::lookup_many_at(layout, limits, bytes, &sought, &mut values),
        Ok(2)
    );
    assert_eq!(values, [10 * count, BEFORE, 10, BEFORE]);
    assert_eq!(archive.get_many(&sought, &mut [0; 3]), 2);
    assert_eq!(certified.get_many(&sought, &mut [0; 3]), 2);
}

/// What the walk and a range give of the same archive.
fn list(layout: Layout, limits: Limits, bytes: &[u8], count: u64) {
    let archive = Archive::check_at(layout, limits, bytes).unwrap();
    let certified = Certified::certify_at(layout, limits, bytes).unwrap();
    let size = count as usize;
    let expected: Vec<u64> = (1..=count).collect();
    let (mut keys, mut values) = (vec![BEFORE; size], vec![BEFORE; size]);
    let walked = Walked {
        written: size,
        count: size,
    };
    assert_eq!(
        fieldmap::walk_at(layout, limits, bytes, &mut keys, &mut values),
        Ok(walked)
    );
    assert_eq!(keys, expected);
    assert!(values
        .iter()
        .zip(&expected)
        .all(|(value, key)| *value == 10 * key));
    assert_eq!(archive.walk(&mut keys, &mut values), walked);
    assert_eq!(certified.walk(&mut keys, &mut values), walked);

    let (mut keys, mut values) = (vec![BEFORE; size], vec![BEFORE; size]);
    let matched = Matched {
        written: size - 1,
        matching: size - 1,
    };
    let answer = fieldmap::range_at(layout, limits, bytes, 2.., &mut keys, &mut values);
    assert_eq!(answer, Ok(matched));
    assert_eq!(keys[..size - 1], expected[1..]);
    assert_eq!((keys[size - 1], values[size - 1]), (BEFORE, BEFORE));
    assert_eq!(certified.range(2.., &mut keys, &mut values), matched);
}

/// One entry, a full leaf, one more, full levels and one more, and some levels. With the viewer's limits too, where they take the archive: one of
/// 1,000 entries they do not.
#[test]
fn readers() {
    for Sizes { layout, .. } in LAYOUTS {
        let entries = layout.entries() as u64;
        let two = entries * (entries + 2);
        for count in [1, entries, entries + 1, two, two + 1, 1_000] {
            let bytes = built_at(layout, count);
            let size = count as usize;
            for limits in [Limits::VIEWER, Limits::SERVER] {
                if bytes.len() <= limits.longest {
                    assert_eq!(fieldmap::check_at(layout, limits, &bytes), Ok(size));
                    assert_eq!(fieldmap::certify_at(layout, limits, &bytes), Ok(size));
                    look_up(layout, limits, &bytes, count);
                    list(layout, limits, &bytes, count);
                }
            }
        }
    }
}

/// Archives keep the layout and the limits that they were opened by.
#[test]
fn layouts_and_limits_are_kept() {
    let narrow = Limits {
        longest: 1_000,
        depth: 4,
    };
    for (Sizes { layout, .. }, limits) in LAYOUTS
        .into_iter()
        .flat_map(|sizes| [Limits::VIEWER, Limits::SERVER, narrow].map(|limits| (sizes, limits)))
    {
        let bytes = built_at(layout, 7);
        let archive = Archive::check_at(layout, limits, &bytes).unwrap();
        let certified = Certified::certify_at(layout, limits, &bytes).unwrap();
        assert_eq!((archive.count(), certified.count()), (7, 7));
        assert_eq!((archive.layout(), archive.limits()), (layout, limits));
        assert_eq!((certified.layout(), certified.limits()), (layout, limits));
        assert_eq!(archive.certify(), Ok(certified));
        assert_eq!(Certified::try_from(archive), Ok(certified));
        assert_eq!(certified.archive(), archive);
        assert_eq!(Archive::from(certified), archive);
        let open = root_leaf_at(layout, &[2, 1]);
        let archive = Archive::check_at(layout, limits, &open).unwrap();
        assert_eq!(archive.certify(), Err(Refusal::KeysNotAscending));
    }
}

/// A call without a layout is the one by the common layout and with the server's limits.
#[test]
fn calls_without_a_layout() {
    let (layout, limits) = (Layout::default(), Limits::default());
    let bytes = built_at(Layout::COMMON, 100);
    let archive = Archive::check(&bytes).unwrap();
    assert_eq!(Ok(archive), Archive::check_at(layout, limits, &bytes));
    assert_eq!(Ok(archive), Archive::try_from(&bytes[..]));
    let certified = Certified::certify(&bytes).unwrap();
    assert_eq!(Ok(certified), Certified::certify_at(layout, limits, &bytes));
    assert_eq!(Ok(certified), Certified::try_from(&bytes[..]));
    assert_eq!(archive.layout(), Layout::COMMON);
    assert_eq!(archive.limits(), Limits::SERVER);
    assert_eq!(certified.width(), Width::default());
}

/// The archive of four points of the left eye of examination 4, at x = -9, -3, 3 and 9.
fn four_points(layout: Layout, packing: Packing) -> Vec<u8> {
    let key = |x| Key {
        examination: 4,
        eye: Key::LEFT,
        x,
        y: -5,
        presentation: 6,
    };
    let mut keys = [-9, -3, 3, 9].map(|x| key(x).pack(packing).unwrap());
    keys.sort_unstable();
    let mut bytes = vec![0; 400];
    let end = fieldmap::build_at(layout, &mut bytes, 0, &keys, &keys).unwrap();
    bytes.truncate(end);
    bytes
}

/// The points of an eye with x in some ranges, by both packings.
#[test]
fn columns() {
    let limits = Limits::VIEWER;
    for Sizes { layout, .. } in LAYOUTS {
        for packing in [TwosComplement, Plus128] {
            let bytes = &four_points(layout, packing);
            let certified = Certified::certify_at(layout, limits, bytes).unwrap();
            for (x, matching) in [(-3..=-1, 1), (0..=3, 1), (-9..=-1, 2), (0..=2, 0)] {
                let (mut found, mut values) = ([BEFORE; 4], [BEFORE; 4]);
                let (ours, theirs, of) = (&mut found, &mut values, x.clone());
                let answer =
                    fieldmap::column_at(layout, limits, bytes, packing, 4, 1, of, ours, theirs);
                let written = matching;
                assert_eq!(answer, Ok(Matched { written, matching }));
                let right = |key: &u64| x.contains(&Key::unpack(*key, packing).x);
                assert!(found[..matching].iter().all(right));
                assert_eq!(found, values);
                assert!(found[matching..].iter().all(|&key| key == BEFORE));
                let again = certified.column(packing, 4, 1, x, &mut found, &mut values);
                assert_eq!(again, answer);
            }
            let answer = certified.column(packing, 4, 2, .., &mut [], &mut []);
            assert_eq!(answer, Err(Refusal::KeyFieldOverflow));
        }
    }
}
