//! An archive is what `rkyv::to_bytes` writes of a `BTreeMap<u64, u64>`, with the map as the root, and `rkyv::access` reads what `build` writes,
//! with pointers of the bits that rkyv is built for.
#![cfg(feature = "ours")]

use std::collections::BTreeMap;

use compare::ours;
use compare::rkyv_map::BITS;
use compare::trees::Random;
use rkyv::collections::btree_map::ArchivedBTreeMap;
use rkyv::rancor::Error;
use rkyv::rend::u64_le;
use rkyv::util::AlignedVec;

/// Every number of entries to 300, and the ends of what a tree of each height holds and of what a build takes.
fn sizes() -> impl Iterator<Item = usize> {
    let most = if BITS == 16 { 2_970 } else { 40_000 };
    (0..=300)
        .chain([1_000, 1_294, 1_295, 1_296, 7_774, 7_775, 7_776])
        .filter(move |size| *size < most)
        .chain([most - 1, most])
}

/// A map of so many random keys.
fn map(size: usize) -> BTreeMap<u64, u64> {
    let mut random = Random::new(size as u64);
    let mut map = BTreeMap::new();
    while map.len() < size {
        map.insert(random.number(), random.number());
    }
    map
}

/// The proved build of a map's entries, without a header, in an output of exactly so many bytes.
fn built(map: &BTreeMap<u64, u64>, length: usize) -> AlignedVec {
    let keys: Vec<u64> = map.keys().copied().collect();
    let values: Vec<u64> = map.values().copied().collect();
    let mut output = AlignedVec::new();
    output.resize(length, 0xff);
    let end = ours::build(&mut output, 0, &keys, &values);
    assert_eq!(end, Ok(length as u32), "{} entries", map.len());
    output
}

#[test]
fn build_writes_what_to_bytes_writes() {
    for size in sizes() {
        let map = map(size);
        let written = rkyv::to_bytes::<Error>(&map).unwrap();
        let built = built(&map, written.len());
        assert!(*built == *written, "{size} entries");
    }
}

#[test]
fn access_reads_what_build_writes() {
    for size in sizes() {
        let map = map(size);
        let length = rkyv::to_bytes::<Error>(&map).unwrap().len();
        let built = built(&map, length);
        let read = rkyv::access::<ArchivedBTreeMap<u64_le, u64_le>, Error>(&built).unwrap();
        assert_eq!(read.len(), size);
        let entries = read
            .iter()
            .map(|(key, value)| (key.to_native(), value.to_native()));
        assert!(entries.eq(map.clone()), "{size} entries");
        let found = |(key, value): (&u64, &u64)| read.get(&(*key).into()) == Some(&(*value).into());
        assert!(map.iter().all(found), "{size} entries");
    }
}

/// What `to_bytes` writes is certified, and the proved walk gives the map's entries.
#[test]
fn walk_reads_what_to_bytes_writes() {
    for size in sizes() {
        let map = map(size);
        let written = rkyv::to_bytes::<Error>(&map).unwrap();
        assert_eq!(ours::certify(&written), Ok(size as u32));
        let (mut keys, mut values) = (vec![0; size], vec![0; size]);
        let walked = ours::walk(&written, &mut keys, &mut values);
        assert_eq!(walked, Ok((size as u32, size as u32)));
        assert!(keys.into_iter().zip(values).eq(map));
    }
}
