//! Maps with other entries a node than 5: what rkyv writes of them, what the proved builder writes, and what is let through. It runs at each width as
//! `widths` does.

mod aligned;

use compare::rkyv_map::build_of;
use fieldmap::{build_at, build_length_at, Layout, Refusal};
use fieldmap_rkyv::{accepted_of, certified_of, MapOf, Refused, WIDTH};
use rkyv::rancor::Error;
use rkyv::rend::u64_le;
use rkyv::util::AlignedVec;

/// What the proved builder writes of the first squares.
fn built(entries: usize, size: u64) -> AlignedVec<8> {
    let layout = Layout::new(WIDTH, entries).unwrap();
    let (keys, values) = squares(size);
    let mut out = vec![0; build_length_at(layout, keys.len(), 0).unwrap()];
    assert_eq!(build_at(layout, &mut out, 0, &keys, &values), Ok(out.len()));
    aligned::copy(&out)
}

fn squares(size: u64) -> (Vec<u64>, Vec<u64>) {
    (0..size).map(|key| (key * key, !key)).unzip()
}

/// The proved builder writes what rkyv writes, and the map is the same.
fn written_by_both<const E: usize>() {
    for size in [0, 1, 3, 4, 15, 16, 36, 255, 256, 2_000] {
        let (keys, values) = squares(size);
        let bytes = built(E, size);
        assert_eq!(bytes[..], build_of::<E>(&[], &keys, &values)[..]);
        let theirs = rkyv::access::<MapOf<E>, Error>(&bytes).unwrap();
        for map in [certified_of::<E>(&bytes), accepted_of::<E>(&bytes)] {
            let map = map.unwrap();
            assert!(std::ptr::eq(map, theirs));
            assert_eq!(map.len(), keys.len());
            let native = |number: &u64_le| number.to_native();
            assert!(map.keys().map(native).eq(keys.iter().copied()));
            assert!(map.values().map(native).eq(values.iter().copied()));
            for (key, value) in keys.iter().zip(&values) {
                assert_eq!(map.get(&(*key).into()).map(native), Some(*value));
                assert_eq!(
                    map.get(&u64_le::from(key + 2)),
                    theirs.get(&(key + 2).into())
                );
            }
            let some = map
                .range(u64_le::from(9)..u64_le::from(100))
                .map(|(key, _)| native(key));
            assert!(some.eq(keys.iter().copied().filter(|key| (9..100).contains(key))));
        }
    }
}

#[test]
fn written() {
    written_by_both::<3>();
    written_by_both::<4>();
    written_by_both::<15>();
}

/// Keys that do not ascend, and a leaf that counts none.
fn open<const E: usize>() {
    let mut bytes = built(E, 3);
    // The first key, in bytes 8 to 15, becomes 2, which is above the second.
    bytes[8] = 2;
    let refused = Refused::Archive(Refusal::KeysNotAscending);
    assert_eq!(certified_of::<E>(&bytes).err(), Some(refused));
    assert_eq!(accepted_of::<E>(&bytes).unwrap().iter().count(), 3);

    let mut bytes = built(E, E as u64 + 1);
    // The leaf's count, behind its slots, and the record's, half a record before the end, lose its one entry.
    let recorded = bytes.len() - size_of::<MapOf<E>>() / 2;
    (bytes[8 + 16 * E], bytes[recorded]) = (0, E as u8);
    let refused = Refused::Archive(Refusal::HollowNode);
    assert_eq!(certified_of::<E>(&bytes).err(), Some(refused));
    assert_eq!(accepted_of::<E>(&bytes).err(), Some(refused));
}

#[test]
fn open_archives() {
    open::<3>();
    open::<5>();
    open::<15>();
}

/// An `E` outside 3 to 15 is refused by 24, whatever the bytes are and wherever they stand.
fn out_of_range<const E: usize>() {
    let bytes = built(5, 1);
    let refused = Some(Refused::Archive(Refusal::EntriesOutOfRange));
    for bytes in [&bytes[..], &bytes[1..], &[], &[0; 1_048_577]] {
        assert_eq!(certified_of::<E>(bytes).err(), refused);
        assert_eq!(accepted_of::<E>(bytes).err(), refused);
    }
}

#[test]
fn entries_out_of_range() {
    out_of_range::<0>();
    out_of_range::<2>();
    out_of_range::<16>();
}

/// An archive of fewer entries a node than `E` is refused, as by rkyv's own access.
#[test]
fn archives_of_fewer_entries() {
    for size in [1, 3, 4, 36, 1_000] {
        for entries in 3..15 {
            let bytes = built(entries, size);
            let refused = Some(Refused::Archive(Refusal::InvalidSubtreePointer));
            assert_eq!(certified_of::<15>(&bytes).err(), refused);
            assert!(rkyv::access::<MapOf<15>, Error>(&bytes).is_err());
        }
    }
}
