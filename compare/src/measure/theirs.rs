//! rkyv's calls as they are measured, with any number of entries a node.

use std::hint::black_box;
use std::ops::{Bound, ControlFlow};

use rkyv::primitive::ArchivedU64;
use rkyv::rancor::Error;

use super::Lent;
use crate::rkyv_map::{by_key, Accepted, Archive, MapOf, MAX_DEPTH};

/// rkyv's check, as a caller has it in a release build. It and the functions below are functions of their own, as the
/// proved calls are, so that they are the same code in every line of the table.
#[inline(never)]
pub fn accepted<const N: usize>(archive: &Archive) -> Accepted<'_, N> {
    black_box(archive)
        .validate_of::<Error, N>(MAX_DEPTH)
        .unwrap()
}

/// The same where it refuses.
#[inline(never)]
pub fn refused(archive: &Archive) -> bool {
    black_box(archive).validate::<Error>().is_err()
}

/// rkyv's check, and each key compared with the one before.
#[inline(never)]
pub fn certified<const N: usize>(archive: &Archive) -> Accepted<'_, N> {
    let accepted = accepted(archive);
    assert!(ascending(accepted.map()), "keys that ascend");
    accepted
}

#[inline(never)]
fn ascending<const N: usize>(map: &MapOf<N>) -> bool {
    let mut before = None;
    let fault = map.visit(|key, _| {
        let key = key.to_native();
        if before.is_some_and(|before| key <= before) {
            return ControlFlow::Break(());
        }
        before = Some(key);
        ControlFlow::Continue(())
    });
    fault.is_none()
}

#[inline(never)]
pub fn visit<const N: usize>(map: &MapOf<N>, lent: &mut Lent) -> usize {
    let mut places = lent.keys.iter_mut().zip(&mut lent.values);
    let mut written = 0;
    map.visit(|key, value| match places.next() {
        Some(place) => {
            (*place.0, *place.1) = (key.to_native(), value.to_native());
            written += 1;
            ControlFlow::Continue(())
        }
        None => ControlFlow::Break(()),
    });
    written
}

#[inline(never)]
pub fn look_up<const N: usize>(map: &MapOf<N>, sought: &[u64], lent: &mut Lent) -> usize {
    let mut found = 0;
    for (key, place) in sought.iter().zip(&mut lent.values) {
        if let Some((_, value)) = map.get_key_value(&ArchivedU64::from_native(*key)) {
            *place = value.to_native();
            found += 1;
        }
    }
    found
}

#[inline(never)]
pub fn range<const N: usize>(
    map: &MapOf<N>,
    bounds: (Bound<u64>, Bound<u64>),
    lent: &mut Lent,
) -> usize {
    let places = lent.keys.iter_mut().zip(&mut lent.values);
    let mut written = 0;
    for ((key, value), place) in map.range_with(bounds, by_key).zip(places) {
        (*place.0, *place.1) = (key.to_native(), value.to_native());
        written += 1;
    }
    written
}
