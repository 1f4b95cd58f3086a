//! Times the proved calls beside rkyv's with 3 and 15 entries a node and the pointers that rkyv is built for: one process, one run, warm buffers,
//! the best of many repetitions, as the program `bench` does it with 5. The archives are built by rkyv, and both sides give the same answer.
//!
//! - `check`: each runs its check.
//! - `certify`: the proved call checks, looks for hollow nodes and compares each key with the one before; rkyv's check, and a pass over all
//!   entries by `visit` that compares the keys.
//! - `check and walk`: each checks and writes all keys and values to two lists.
//! - `check and 1,000 lookups`: each checks once and looks up 1,000 keys, of which three quarters are there.
//! - `build`: each writes the archive to memory that it has already, behind no header. The proved build makes sure that the keys ascend, which
//!   rkyv leaves to the caller; rkyv also uses working memory, kept from call to call.

use std::hint::black_box;

use compare::cases::examination;
use compare::measure::theirs::{accepted, certified, look_up, visit};
use compare::measure::{best, heading, row, Lent};
use compare::model::Layout;
use compare::ours;
use compare::rkyv_map::{self, Archive, BITS};
use compare::trees::Random;
use rkyv::ser::allocator::Arena;
use rkyv::util::AlignedVec;

/// The entries of the largest archive: offsets of 16 bits reach no further.
const MOST: u64 = if BITS == 16 { 2_000 } else { 40_000 };
/// Keys looked up in one go.
const LOOKUPS: usize = 1_000;

fn main() {
    measure::<3>();
    measure::<15>();
}

fn measure<const N: usize>() {
    println!("pointers of {BITS} bits, {N} entries a node");
    heading();
    for entries in [76, 1_000, MOST] {
        let (keys, values) = examination(entries);
        let archive = &Archive::copy(&rkyv_map::build_of::<N>(&[], &keys, &values));
        measure_readers::<N>(archive, &keys);
        measure_build::<N>(archive.bytes(), &keys, &values);
    }
    println!();
}

fn measure_readers<const N: usize>(archive: &Archive, keys: &[u64]) {
    let (entries, ours) = (keys.len(), ours::at(Layout::with(N)));
    let random = &mut Random::new(0);
    // Of four keys that are looked up, three are there.
    let sought: Vec<u64> = (0..LOOKUPS)
        .map(|_| random.pick(keys) + u64::from(random.one_in(4)))
        .collect();
    let check = |_: &mut Lent| ours.check(black_box(archive.bytes())).unwrap() as usize;
    let times = best(0, Some(check), |_| accepted::<N>(archive).count() as usize);
    row(entries, "check", times);
    let certify = |_: &mut Lent| ours.certify(black_box(archive.bytes())).unwrap() as usize;
    let times = best(0, Some(certify), |_| {
        certified::<N>(archive).count() as usize
    });
    row(entries, "certify", times);
    let walk = |lent: &mut Lent| {
        let bytes = black_box(archive.bytes());
        let answer = ours.walk(bytes, &mut lent.keys, &mut lent.values);
        answer.unwrap().0 as usize
    };
    let times = best(entries, Some(walk), |lent| {
        visit(accepted::<N>(archive).map(), lent)
    });
    row(entries, "check and walk", times);
    let lookups = |lent: &mut Lent| {
        let bytes = black_box(archive.bytes());
        ours.lookup_many(bytes, &sought, &mut lent.values).unwrap() as usize
    };
    let times = best(LOOKUPS, Some(lookups), |lent| {
        look_up(accepted::<N>(archive).map(), &sought, lent)
    });
    row(entries, "check and 1,000 lookups", times);
}

fn measure_build<const N: usize>(archive: &[u8], keys: &[u64], values: &[u64]) {
    let ours = ours::at(Layout::with(N));
    let (mut output, mut arena) = (AlignedVec::new(), Arena::new());
    let mut lent = vec![0; archive.len()];
    ours.build(&mut lent, 0, keys, values).unwrap();
    assert_eq!(lent, archive, "the same bytes");
    let build = |_: &mut Lent| ours.build(&mut lent, 0, black_box(keys), values).unwrap() as usize;
    let times = best(0, Some(build), |_| {
        output.clear();
        rkyv_map::build_into::<N>(&mut output, &mut arena, black_box(keys), values).unwrap();
        output.len()
    });
    row(keys.len(), "build", times);
}
