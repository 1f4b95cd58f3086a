//! The readers' answers about one archive under limits: rkyv's against the model's, which is document 01's text, and, with the feature `ours`,
//! the proved code's against both.

#[cfg(feature = "ours")]
mod asked;
pub mod lent;
pub mod limits;
#[cfg(feature = "ours")]
mod proved;

use std::fmt::Debug;
use std::ops::Bound;

use crate::counts::LeftOut;
use crate::model::{self, narrow, Entry, Layout, Limits};
use crate::oracle::{self, Checked, Reads};
use crate::rkyv_map::Archive;
use crate::trees::{self, Random};

/// Keys and pairs of bounds asked of each archive.
const QUESTIONS: usize = 8;

/// A lower and an upper bound.
pub type Bounds = (Bound<u64>, Bound<u64>);

/// The first difference in the answers about one archive, read with so many entries a node under these limits.
pub fn compare(
    entries: usize,
    limits: Limits,
    archive: &Archive,
    random: &mut Random,
    left_out: &mut LeftOut,
) -> Result<(), String> {
    let (layout, bytes) = (Layout::with(entries), archive.bytes());
    let checked = check(entries, limits, archive);
    left_out.too_long += u64::from(limits.too_long(bytes));
    let right = layout.check(limits, bytes).map(narrow);
    same("check", ("rkyv", count(&checked)), ("model", right))?;

    let list = match &checked {
        Ok(accepted) => accepted.visit(),
        Err(_) => Vec::new(),
    };
    let keys: Vec<u64> = list.iter().map(|entry| entry.0).collect();
    let sought = trees::sought(&keys, QUESTIONS, random);
    let ranges: Vec<Bounds> = (0..QUESTIONS)
        .map(|_| trees::bounds(&keys, random))
        .collect();
    if let Ok(accepted) = &checked {
        count_left_out(layout, bytes, &ranges, left_out);
        readers(layout, bytes, &**accepted, &sought, &ranges)?;
    }
    #[cfg(feature = "ours")]
    {
        let asked = proved::Asked::new(layout, limits, bytes, &checked, &list);
        left_out.outside += asked.compare_all(&sought, &ranges, random)?;
    }
    Ok(())
}

/// rkyv's check under limits, but for their longest archive, for which rkyv has no limit.
fn check(entries: usize, limits: Limits, archive: &Archive) -> Checked<'_> {
    match limits.too_long(archive.bytes()) {
        true => Err(1),
        false => oracle::check(entries, limits, archive),
    }
}

/// What rkyv's check answers, as a number.
fn count(checked: &Checked) -> Result<u32, u8> {
    match checked {
        Ok(accepted) => Ok(accepted.count()),
        Err(number) => Err(*number),
    }
}

/// Counts what rkyv is not asked of an accepted archive.
fn count_left_out(layout: Layout, bytes: &[u8], ranges: &[Bounds], left_out: &mut LeftOut) {
    left_out.certify += 1;
    let crossed = ranges
        .iter()
        .filter(|&&(lower, upper)| model::crosses(lower, upper));
    match layout.fault(bytes) {
        None => left_out.crossed += crossed.count() as u64,
        Some(8) => left_out.hollow += ranges.len() as u64,
        Some(_) => left_out.unsorted += ranges.len() as u64,
    }
}

/// What rkyv reads of an accepted archive, and what document 01 says of it.
fn readers(
    layout: Layout,
    bytes: &[u8],
    accepted: &dyn Reads,
    sought: &[u64],
    ranges: &[Bounds],
) -> Result<(), String> {
    let list = layout.list(bytes);
    same("walk", ("rkyv", accepted.visit()), ("model", pairs(&list)))?;
    for &key in sought {
        let entry = layout.lookup(bytes, key);
        let found = entry.map(|entry| (entry.key, entry.value, entry.position));
        let what = format!("lookup of {key}");
        same(&what, ("rkyv", accepted.get(key)), ("model", found))?;
    }
    if layout.fault(bytes).is_some() {
        return Ok(());
    }
    for &key in sought {
        let entry = list.iter().find(|entry| entry.key == key);
        let found = entry.map(|entry| (entry.key, entry.value, entry.position));
        let what = format!("lookup of {key}");
        same(&what, ("rkyv", accepted.get(key)), ("the list", found))?;
    }
    for &(lower, upper) in ranges {
        let range = pairs(&layout.range(bytes, lower, upper));
        let what = format!("range from {lower:?} to {upper:?}");
        same(&what, matching(accepted, lower, upper), ("model", range))?;
    }
    Ok(())
}

/// The entries of a certified archive that meet both bounds, and whose answer they are.
fn matching(
    accepted: &dyn Reads,
    lower: Bound<u64>,
    upper: Bound<u64>,
) -> (&'static str, Vec<(u64, u64)>) {
    match model::crosses(lower, upper) {
        true => ("document 01", Vec::new()),
        false => ("rkyv", accepted.range(lower, upper)),
    }
}

/// The keys and values of entries.
pub fn pairs(entries: &[Entry]) -> Vec<(u64, u64)> {
    let pairs = entries.iter().map(|entry| (entry.key, entry.value));
    pairs.collect()
}

/// A difference, unless the two give the same.
pub fn same<T: Debug + PartialEq>(
    what: &str,
    one: (&str, T),
    other: (&str, T),
) -> Result<(), String> {
    if one.1 == other.1 {
        return Ok(());
    }
    let (one, first) = one;
    let (other, second) = other;
    Err(format!("{what}: {one} {first:?}, {other} {second:?}"))
}

/// The first place where bytes of one length differ, if there is one.
pub fn same_bytes(what: &str, right: &[u8], ours: &[u8]) -> Result<(), String> {
    if right == ours {
        return Ok(());
    }
    let mut pairs = right.iter().zip(ours);
    let place = pairs.position(|(right, ours)| right != ours);
    let place = place.expect("two of one length");
    let what = format!("{what}, byte {place}");
    same(&what, ("right", right[place]), ("ours", ours[place]))
}
