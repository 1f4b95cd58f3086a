//! Times rkyv's calls and, with the feature `ours`, those of the proved code: one process, one run, warm buffers, the best of many
//! repetitions. Without the feature the lines have rkyv's time only. Both sides have the pointers that rkyv is built for.
//!
//! Both sides give the same answer in every line but one, and do this for it:
//!
//! - `check`: each runs its check.
//! - `certify`: the proved call checks, looks for hollow nodes and compares each key with the one before. rkyv has no such call. What a caller
//!   in Rust has to do for the same answer is rkyv's check and a pass over all entries by `visit` that compares the keys; it does not see
//!   hollow nodes.
//! - `check and walk`: each checks and writes all keys and values to two lists.
//! - `check and 1,000 lookups`: each checks once and looks up 1,000 keys, of which three quarters are there.
//! - `certify and range of 1`, `of 100` and of all: the proved range certifies and writes so many entries from the middle. rkyv checks, compares
//!   all keys as under `certify`, and writes what its range iterator gives.
//! - `the same, rkyv not certifying`: the proved range again, beside rkyv's check and range without a look at the order of the keys.
//! - `build`: the proved build makes sure that the keys ascend, rkyv leaves that to its caller. Both write to memory that they have already,
//!   behind no header; rkyv also uses working memory, kept from call to call.
//! - `refused at the first leaf`, `at the last leaf` and `by the count`: each runs its check on an archive whose first
//!   or last leaf counts 6 entries, or whose record counts one too many. The proved check answers the refusal's number,
//!   rkyv's error in a release build only that there is one.
//!
//! `bench refused` prints these last lines only.

use std::env;
use std::hint::black_box;
use std::ops::Bound;

use compare::cases::examination;
use compare::measure::theirs::{accepted, certified, look_up, range, refused, visit};
use compare::measure::{best, heading, row, Lent};
use compare::model::{self, ENTRIES, NODE, OWN};
#[cfg(feature = "ours")]
use compare::ours;
use compare::rkyv_map::{self, Archive, BITS};
use compare::trees::Random;
use rkyv::ser::allocator::Arena;
use rkyv::util::AlignedVec;

/// The entries of the largest archive: offsets of 16 bits are too short from 2,971 entries on.
const MOST: u64 = if BITS == 16 { 2_000 } else { 40_000 };
/// Keys looked up in one go, and the entries in a narrow range and in a wider one.
const LOOKUPS: usize = 1_000;
const NARROW: usize = 1;
const WIDER: usize = 100;

/// The proved code's side of a measurement, if it is linked.
#[cfg(feature = "ours")]
macro_rules! proved {
    ($call:expr) => {
        Some($call)
    };
}
#[cfg(not(feature = "ours"))]
macro_rules! proved {
    ($call:expr) => {
        NOT_THERE
    };
}

/// The side of a measurement that is not linked.
#[cfg(not(feature = "ours"))]
const NOT_THERE: Option<fn(&mut Lent) -> usize> = None;

fn main() {
    let refused_only = env::args().nth(1).is_some_and(|word| word == "refused");
    println!("pointers of {BITS} bits");
    heading();
    for entries in [76, 1_000, MOST] {
        let (keys, values) = examination(entries);
        let archive = &Archive::copy(&rkyv_map::build(&[], &keys, &values));
        if !refused_only {
            measure_readers(archive, &keys);
            measure_ranges(archive, &keys);
            measure_build(archive.bytes(), &keys, &values);
        }
        measure_refused(archive);
    }
}

fn measure_readers(archive: &Archive, keys: &[u64]) {
    let entries = keys.len();
    let random = &mut Random::new(0);
    // Of four keys that are looked up, three are there.
    let sought: Vec<u64> = (0..LOOKUPS)
        .map(|_| random.pick(keys) + u64::from(random.one_in(4)))
        .collect();
    let check = proved!(|_: &mut Lent| ours::check(black_box(archive.bytes())).unwrap() as usize);
    let times = best(0, check, |_| accepted::<5>(archive).count() as usize);
    row(entries, "check", times);
    let certify =
        proved!(|_: &mut Lent| ours::certify(black_box(archive.bytes())).unwrap() as usize);
    let times = best(0, certify, |_| certified::<5>(archive).count() as usize);
    row(entries, "certify", times);
    let walk = proved!(|lent: &mut Lent| {
        let bytes = black_box(archive.bytes());
        let answer = ours::walk(bytes, &mut lent.keys, &mut lent.values);
        answer.unwrap().0 as usize
    });
    let times = best(entries, walk, |lent| {
        visit(accepted::<5>(archive).map(), lent)
    });
    row(entries, "check and walk", times);
    let lookups = proved!(|lent: &mut Lent| {
        let bytes = black_box(archive.bytes());
        ours::at(OWN)
            .lookup_many(bytes, &sought, &mut lent.values)
            .unwrap() as usize
    });
    let times = best(LOOKUPS, lookups, |lent| {
        look_up(accepted::<5>(archive).map(), &sought, lent)
    });
    row(entries, "check and 1,000 lookups", times);
}

/// The rows of ranges over the middle of the keys: one entry, more, and all.
fn measure_ranges(archive: &Archive, keys: &[u64]) {
    let entries = keys.len();
    let mut counts = vec![NARROW, WIDER.min(entries), entries];
    counts.dedup();
    for count in counts {
        let first = (entries - count) / 2;
        let bounds = (
            Bound::Included(keys[first]),
            Bound::Included(keys[first + count - 1]),
        );
        let times = best(count, proved!(ranging(archive, bounds)), |lent| {
            range(certified::<5>(archive).map(), bounds, lent)
        });
        row(entries, &format!("certify and range of {count}"), times);
        let times = best(count, proved!(ranging(archive, bounds)), |lent| {
            range(accepted::<5>(archive).map(), bounds, lent)
        });
        row(entries, "the same, rkyv not certifying", times);
    }
}

fn measure_build(archive: &[u8], keys: &[u64], values: &[u64]) {
    let (mut output, mut arena) = (AlignedVec::new(), Arena::new());
    let build = proved!(building(archive, keys, values));
    let times = best(0, build, |_| {
        output.clear();
        rkyv_map::build_into::<5>(&mut output, &mut arena, black_box(keys), values).unwrap();
        output.len()
    });
    assert_eq!(output.as_slice(), archive, "the same bytes");
    row(keys.len(), "build", times);
}

/// The rows of the check where it refuses: early, late, and after all nodes.
fn measure_refused(archive: &Archive) {
    let bytes = archive.bytes();
    let entries = model::check(bytes).unwrap();
    let nodes = model::nodes(bytes);
    let mut leaves = nodes.iter().filter(|node| !node.inner);
    let first = leaves.next().expect("a leaf").position + NODE;
    let last = leaves.next_back().expect("another leaf").position + NODE;
    let recorded = bytes.len() - OWN.width;
    let above = ENTRIES as u64 + 1;
    for (call, field, count, number) in [
        ("refused at the first leaf", first, above, 6),
        ("refused at the last leaf", last, above, 6),
        ("refused by the count", recorded, u64::from(entries) + 1, 7),
    ] {
        let mut bytes = bytes.to_vec();
        OWN.put(&mut bytes, field, count);
        let archive = &Archive::copy(&bytes);
        assert_eq!(archive.check().map(|_| ()), Err(number), "{call}");
        let check =
            proved!(|_: &mut Lent| ours::check(black_box(archive.bytes())).unwrap_err().into());
        let times = best(0, check, |_| match refused(archive) {
            true => number.into(),
            false => 0,
        });
        row(entries as usize, call, times);
    }
}

/// The proved range.
#[cfg(feature = "ours")]
fn ranging(
    archive: &Archive,
    (lower, upper): (Bound<u64>, Bound<u64>),
) -> impl FnMut(&mut Lent) -> usize + use<'_> {
    move |lent| {
        let bytes = black_box(archive.bytes());
        let (written, matching) =
            ours::range(bytes, lower, upper, &mut lent.keys, &mut lent.values).unwrap();
        assert_eq!(u64::from(written), matching);
        written as usize
    }
}

/// The proved build, into an output that is as long as rkyv's archive, with the same bytes.
#[cfg(feature = "ours")]
fn building<'a>(
    archive: &[u8],
    keys: &'a [u64],
    values: &'a [u64],
) -> impl FnMut(&mut Lent) -> usize + use<'a> {
    let mut output = vec![0; archive.len()];
    ours::build(&mut output, 0, keys, values).unwrap();
    assert_eq!(output, archive, "the same bytes");
    move |_| ours::build(&mut output, 0, black_box(keys), values).unwrap() as usize
}
