//! Generated archives of the width that rkyv is built for with 3, 5 and 15 entries a node, certified, open and damaged: what is let through, and what
//! rkyv's readers give of it.

mod aligned;

use std::collections::BTreeMap;
use std::ops::{Bound, ControlFlow, RangeBounds};

use compare::model::{crosses, Layout, SERVER};
use compare::rkyv_map;
use compare::trees::{self, Random};
use fieldmap::{Limits, Width};
use fieldmap_rkyv::{accepted, accepted_of, certified, certified_of, Map, MapOf, Refused, WIDTH};
use rkyv::rancor::Error;
use rkyv::rend::u64_le;

type Entries = Vec<(u64, u64)>;

/// The layout with so many entries a node, as the second reading of document 01 has it.
const fn layout(entries: usize) -> Layout {
    let width = WIDTH as usize / 8;
    Layout { width, entries }
}

fn native((key, value): (&u64_le, &u64_le)) -> (u64, u64) {
    (key.to_native(), value.to_native())
}

/// The entries of the proved walk.
fn walk(layout: fieldmap::Layout, bytes: &[u8]) -> Entries {
    let count = fieldmap::check_at(layout, Limits::SERVER, bytes).unwrap();
    let (mut keys, mut values) = (vec![0; count], vec![0; count]);
    let walked = fieldmap::walk_at(layout, Limits::SERVER, bytes, &mut keys, &mut values).unwrap();
    assert_eq!((walked.written, walked.count), (count, count));
    keys.into_iter().zip(values).collect()
}

/// What holds of every map that is let through: all that iterates gives the entries of the walk, and `get` what the proved lookup gives.
fn holds_accepted<const E: usize>(bytes: &[u8], map: &MapOf<E>, random: &mut Random) -> Entries {
    let layout = fieldmap::Layout::new(WIDTH, E).unwrap();
    let entries = walk(layout, bytes);
    assert_eq!(map.len(), entries.len());
    assert_eq!(map.iter().map(native).collect::<Entries>(), entries);
    assert!(map.keys().zip(map.values()).map(native).eq(entries.clone()));
    let mut visited = Entries::new();
    map.visit(|key, value| {
        visited.push(native((key, value)));
        ControlFlow::<()>::Continue(())
    });
    assert_eq!(visited, entries);
    let keys: Vec<u64> = entries.iter().map(|entry| entry.0).collect();
    for key in trees::sought(&keys, 8, random) {
        let value = map.get(&u64_le::from_native(key));
        let found = fieldmap::lookup_at(layout, Limits::SERVER, bytes, key).unwrap();
        let found = found.map(|entry| entry.value);
        assert_eq!(value.map(|value| value.to_native()), found);
    }
    // Of any map a range stays in the bytes and gives no more than the entries.
    let (lower, upper) = trees::bounds(&keys, random);
    assert!(range(map, lower, upper).len() <= entries.len());
    entries
}

fn range<const E: usize>(map: &MapOf<E>, lower: Bound<u64>, upper: Bound<u64>) -> Entries {
    let bounds = (lower.map(u64_le::from), upper.map(u64_le::from));
    map.range(bounds).map(native).collect()
}

/// What holds of a certified map beyond it.
fn holds_certified<const E: usize>(map: &MapOf<E>, entries: &Entries, random: &mut Random) {
    assert!(entries.windows(2).all(|pair| pair[0].0 < pair[1].0));
    for (key, value) in entries {
        assert_eq!(map.get(&(*key).into()).copied(), Some((*value).into()));
    }
    let keys: Vec<u64> = entries.iter().map(|entry| entry.0).collect();
    for _ in 0..4 {
        let (lower, upper) = trees::bounds(&keys, random);
        if !crosses(lower, upper) {
            let meets = |entry: &&(u64, u64)| (lower, upper).contains(&entry.0);
            let matching: Entries = entries.iter().filter(meets).copied().collect();
            assert_eq!(range(map, lower, upper), matching);
        }
    }
}

/// The number of a refusal that is not of the address.
fn refused<const E: usize>(answer: Result<&MapOf<E>, Refused>) -> Option<u8> {
    match answer.unwrap_err() {
        Refused::Archive(refusal) => Some(refusal.number()),
        Refused::Unaligned => None,
    }
}

/// What the calls give of the archive of a seed, whose fault is known from the second reading of document 01. What is let through, rkyv's own
/// access accepts.
fn holds<const E: usize>(bytes: &[u8], fault: Option<u8>, random: &mut Random) {
    if fault.is_some() {
        assert_eq!(refused(certified_of::<E>(bytes)), fault);
    }
    if !matches!(fault, None | Some(9)) {
        assert_eq!(refused(accepted_of::<E>(bytes)), fault);
        return;
    }
    let map = accepted_of::<E>(bytes).unwrap();
    let entries = holds_accepted(bytes, map, random);
    let theirs = rkyv::access::<MapOf<E>, Error>(bytes).unwrap();
    assert!(std::ptr::eq(map, theirs));
    if fault.is_none() {
        let certified = certified_of::<E>(bytes).unwrap();
        assert!(std::ptr::eq(map, certified));
        holds_certified(map, &entries, random);
    }
}

/// Archives of every outcome, each at least so many times.
fn generated<const E: usize>(seeds: u64, least: usize) {
    let (layout, mut outcomes) = (layout(E), BTreeMap::new());
    for seed in 0..seeds {
        let bytes = aligned::copy(&trees::archive_at(layout, seed, 1_000));
        let fault = layout.certify(SERVER, &bytes).err();
        holds::<E>(&bytes, fault, &mut Random::new(seed));
        *outcomes.entry(fault).or_insert(0) += 1;
    }
    for fault in [None].into_iter().chain((2..=9).map(Some)) {
        assert!(outcomes[&fault] >= least, "{outcomes:?}");
    }
}

#[test]
fn generated_archives() {
    generated::<5>(6_000, 100);
}

#[test]
fn generated_archives_of_3() {
    generated::<3>(2_000, 20);
}

#[test]
fn generated_archives_of_15() {
    generated::<15>(2_000, 20);
}

/// The calls without an `E` are those with 5.
#[test]
fn calls_without_entries() {
    for seed in 0..500 {
        let bytes = aligned::copy(&trees::archive_at(layout(5), seed, 1_000));
        let address = |map: &Map| std::ptr::from_ref(map);
        assert_eq!(
            certified(&bytes).map(address),
            certified_of::<5>(&bytes).map(address)
        );
        assert_eq!(
            accepted(&bytes).map(address),
            accepted_of::<5>(&bytes).map(address)
        );
    }
}

/// An archive that is too long, as rkyv would take it.
#[test]
fn too_long() {
    let mut bytes = vec![0; Limits::SERVER.longest];
    bytes.extend(rkyv_map::build(&[], &[7], &[9]));
    let bytes = aligned::copy(&bytes);
    assert!(rkyv::access::<Map, Error>(&bytes).is_ok());
    assert_eq!(refused(certified(&bytes)), Some(1));
    assert_eq!(refused(accepted(&bytes)), Some(1));
}

/// What rkyv writes of a `BTreeMap` is certified, and the map is the same.
#[test]
fn written_by_rkyv() {
    let most = match WIDTH {
        Width::Bits16 => 2_970,
        _ => 40_000,
    };
    for size in [0, 1, 5, 6, 35, 36, 1_000, most] {
        let written: BTreeMap<u64, u64> = (0..size).map(|key| (key * key, !key)).collect();
        let bytes = rkyv::to_bytes::<Error>(&written).unwrap();
        let map = certified(&bytes).unwrap();
        assert!(map.iter().map(native).eq(written.clone()));
        let entries: Entries = written.into_iter().collect();
        holds_certified(map, &entries, &mut Random::new(size));
    }
}

/// Where bounds cross, rkyv's range runs on, also of a certified map.
#[test]
fn crossed_bounds() {
    let bytes = aligned::copy(&rkyv_map::build(&[], &[1, 2], &[10, 20]));
    let map = certified(&bytes).unwrap();
    let entries = range(map, Bound::Included(2), Bound::Included(0));
    assert_eq!(entries, [(2, 20)]);
}
