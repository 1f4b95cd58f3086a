//! The second reading with each number of entries a node against rkyv, with the pointers that rkyv is built for.

use compare::building::{most_at_16, Right};
use compare::cases::examination;
use compare::counts::LeftOut;
use compare::model::{Layout, RANGE, SERVER};
use compare::readers;
use compare::rkyv_map::{Archive, MapOf, BITS};
use compare::trees::{self, Random};
use compare::with_entries;

/// "With 4-byte pointers a leaf is 16 + 16e bytes and an inner node 12 + 20e rounded up to 8."
#[cfg(not(any(feature = "pointer_width_16", feature = "pointer_width_64")))]
#[test]
fn sizes() {
    for entries in RANGE {
        let layout = Layout::with(entries);
        assert_eq!(layout.leaf(), 16 + 16 * entries);
        assert_eq!(layout.inner(), (12 + 20 * entries).next_multiple_of(8));
    }
}

/// The record has the size of rkyv's map, and archives of rkyv's have the layout's sizes.
#[test]
fn sizes_of_rkyv() {
    fn of<const N: usize>() {
        let layout = Layout::with(N);
        let record = size_of::<MapOf<N>>();
        assert_eq!(layout.record(), record);
        let end = |count| {
            let (keys, values) = examination(count as u64);
            Right::of(N, &[], &keys, &values).end
        };
        assert_eq!(end(0), record);
        assert_eq!(end(1), layout.leaf() + record);
        assert_eq!(end(N), layout.leaf() + record);
        assert_eq!(end(N + 1), layout.leaf() + layout.inner() + record);
    }
    for entries in RANGE {
        with_entries!(entries, of());
    }
}

/// rkyv and the second reading build the same, which `Right` holds, and 16 bits take no more than `most_at_16` says.
#[test]
fn built() {
    for entries in RANGE {
        let most = most_at_16(entries);
        for count in (0..300).chain([most - 1, most, most + 1, 4_095, 4_096, 5_000]) {
            let (keys, values) = examination(count as u64);
            let header = &[7; 17][..count % 18];
            let right = Right::of(entries, header, &keys, &values);
            let what = format!("{count} entries, {entries} a node");
            let fits = BITS != 16 || count <= most;
            assert_eq!(right.archive.is_ok(), fits, "{what}");
            assert_eq!(right.panics, !fits, "{what}");
        }
    }
}

/// Some thousands of generated archives of each number of entries a node show no difference, and there are certified ones and each refusal of
/// certify but 1 among them.
#[test]
fn generated() {
    for entries in RANGE {
        let layout = Layout::with(entries);
        let mut answers = [0; 10];
        for seed in 0..2_000 {
            let archive = Archive::copy(&trees::archive_at(layout, seed, u64::MAX));
            let bytes = archive.bytes();
            answers[layout
                .certify(SERVER, bytes)
                .map_or_else(usize::from, |_| 0)] += 1;
            assert!(!SERVER.too_long(bytes));
            let random = &mut Random::new(!seed);
            let compared =
                readers::compare(entries, SERVER, &archive, random, &mut LeftOut::default());
            assert_eq!(compared, Ok(()), "seed {seed}, {entries} entries a node");
        }
        answers[1] = 20;
        assert!(answers.iter().all(|count| *count >= 20), "{answers:?}");
    }
}
