//! rkyv's map with a number of entries a node that is given as a value: each from 3 to 15, with the pointers that rkyv is built for; and its
//! check with the depth of a caller's limits.

use std::num::NonZeroUsize;
use std::ops::Bound;

use crate::model::Limits;
use crate::rkyv_map::{build_if_it_fits, Accepted, Archive, Found};

/// What rkyv reads of an archive that its check accepts.
pub trait Reads {
    /// The recorded count.
    fn count(&self) -> u32;
    /// All entries, in the order of `visit`.
    fn visit(&self) -> Vec<(u64, u64)>;
    /// The answer of `get_key_value`.
    fn get(&self, key: u64) -> Option<Found>;
    /// The answer of `range_with` by key order, where it is the reference.
    fn range(&self, lower: Bound<u64>, upper: Bound<u64>) -> Vec<(u64, u64)>;
}

impl<const N: usize> Reads for Accepted<'_, N> {
    fn count(&self) -> u32 {
        Accepted::count(self)
    }

    fn visit(&self) -> Vec<(u64, u64)> {
        Accepted::visit(self)
    }

    fn get(&self, key: u64) -> Option<Found> {
        Accepted::get(self, key)
    }

    fn range(&self, lower: Bound<u64>, upper: Bound<u64>) -> Vec<(u64, u64)> {
        Accepted::range(self, lower, upper)
    }
}

/// What rkyv's check answers.
pub type Checked<'a> = Result<Box<dyn Reads + 'a>, u8>;

/// Calls a function with the number of entries a node as a constant.
#[macro_export]
macro_rules! with_entries {
    ($entries:expr, $function:ident($($argument:expr),*)) => {
        match $entries {
            3 => $function::<3>($($argument),*),
            4 => $function::<4>($($argument),*),
            5 => $function::<5>($($argument),*),
            6 => $function::<6>($($argument),*),
            7 => $function::<7>($($argument),*),
            8 => $function::<8>($($argument),*),
            9 => $function::<9>($($argument),*),
            10 => $function::<10>($($argument),*),
            11 => $function::<11>($($argument),*),
            12 => $function::<12>($($argument),*),
            13 => $function::<13>($($argument),*),
            14 => $function::<14>($($argument),*),
            15 => $function::<15>($($argument),*),
            other => panic!("rkyv is compared at 3 to 15 entries a node, not {other}"),
        }
    };
}

/// rkyv's check with so many entries a node and the depth of these limits, and document 01's number of its refusal, 2 to 7. It has no limit
/// for the length.
pub fn check(entries: usize, limits: Limits, archive: &Archive) -> Checked<'_> {
    fn of<const N: usize>(archive: &Archive, depth: NonZeroUsize) -> Checked<'_> {
        let accepted = archive.check_of::<N>(depth)?;
        Ok(Box::new(accepted))
    }
    with_entries!(entries, of(archive, depth(limits)))
}

/// The depth at which rkyv is the judge of limits: it has none of 0, which is judged at 1, and 17 and above count as 16.
fn depth(limits: Limits) -> NonZeroUsize {
    let depth = match limits.depth {
        0 => 1,
        depth @ 1..=16 => depth,
        _ => 16,
    };
    NonZeroUsize::new(depth).expect("1 to 16")
}

/// rkyv's archive of keys and values behind a header, or nothing where an offset does not fit and rkyv panics.
pub fn build(entries: usize, header: &[u8], keys: &[u64], values: &[u64]) -> Option<Vec<u8>> {
    with_entries!(entries, build_if_it_fits(header, keys, values))
}
