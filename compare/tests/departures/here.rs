//! Our side: the second reading of document 01, and with the feature `ours` the proved call, which must give the same.

use std::ops::Bound;

use compare::model::{self, KeyFields, Limits, Packing, OWN};
#[cfg(feature = "ours")]
use compare::ours;
use compare::rkyv_map::{self, Found};

pub fn check(archive: &[u8]) -> Result<u32, u8> {
    let answer = model::check(archive);
    #[cfg(feature = "ours")]
    assert_eq!(ours::check(archive), answer);
    answer
}

/// The check under limits.
pub fn check_under(limits: Limits, archive: &[u8]) -> Result<u32, u8> {
    let answer = OWN.check(limits, archive).map(model::narrow);
    #[cfg(feature = "ours")]
    assert_eq!(ours::at(OWN).under(limits).check(archive), answer);
    answer
}

pub fn certify(archive: &[u8]) -> Result<u32, u8> {
    let answer = model::certify(archive);
    #[cfg(feature = "ours")]
    assert_eq!(ours::certify(archive), answer);
    answer
}

/// The entry with a key, in an archive that is certified or refused by the check.
pub fn lookup(archive: &[u8], key: u64) -> Result<Option<Found>, u8> {
    let answer = model::check(archive).map(|_| {
        let entry = model::list(archive).into_iter().find(|it| it.key == key);
        entry.map(|it| (it.key, it.value, it.position))
    });
    #[cfg(feature = "ours")]
    assert_eq!(ours::lookup(archive, key), answer);
    answer
}

/// The keys and values of a walk through at most eight entries.
pub fn walk(archive: &[u8]) -> Result<Vec<(u64, u64)>, u8> {
    let answer = model::check(archive).map(|_| pairs(model::list(archive)));
    #[cfg(feature = "ours")]
    {
        let (mut keys, mut values) = ([0; 8], [0; 8]);
        let written = ours::walk(archive, &mut keys, &mut values);
        let written = written.map(|(number, _)| number as usize);
        let written = written.map(|number| keys.into_iter().zip(values).take(number).collect());
        assert_eq!(written, answer);
    }
    answer
}

/// The keys of a range of at most eight entries.
pub fn range(archive: &[u8], lower: Bound<u64>, upper: Bound<u64>) -> Result<Vec<u64>, u8> {
    let answer = model::certify(archive).map(|_| {
        let entries = pairs(model::range(archive, lower, upper));
        entries.into_iter().map(|(key, _)| key).collect()
    });
    #[cfg(feature = "ours")]
    {
        let (mut keys, mut values) = ([0; 8], [0; 8]);
        let written = ours::range(archive, lower, upper, &mut keys, &mut values);
        let written = written.map(|(number, _)| keys[..number as usize].to_vec());
        assert_eq!(written, answer);
    }
    answer
}

fn pairs(entries: Vec<model::Entry>) -> Vec<(u64, u64)> {
    entries.iter().map(|it| (it.key, it.value)).collect()
}

/// What a build into an output of so many bytes is refused by; the refused build leaves the output as it was.
pub fn build_refusal(output: usize, header: u64, keys: &[u64], values: &[u64]) -> Option<u8> {
    let end = || rkyv_map::build(&vec![0; header as usize], keys, values).len();
    let refusal = model::build_fault(keys, values, header, end, output);
    #[cfg(feature = "ours")]
    {
        let mut bytes = vec![0xff; output];
        let answer = ours::build(&mut bytes, header as usize, keys, values);
        assert_eq!(answer.err(), refusal);
        assert!(refusal.is_none() || bytes.iter().all(|&byte| byte == 0xff));
    }
    refusal
}

/// The next position on an alignment and the zeros before it.
pub fn align(position: u64, alignment: u64) -> Result<(u64, u64), u8> {
    let answer = if model::aligns(position, alignment) {
        let next = position.next_multiple_of(alignment);
        Ok((next, next - position))
    } else {
        Err(17)
    };
    #[cfg(feature = "ours")]
    assert_eq!(ours::align(position, alignment), answer);
    answer
}

/// The offset that a field stores: "15 before 16".
pub fn offset(from: u64, to: u64) -> Result<i32, u8> {
    let distance = i64::try_from(i128::from(to) - i128::from(from)).map_err(|_| 15);
    let answer = distance.and_then(|distance| i32::try_from(distance).map_err(|_| 16));
    #[cfg(feature = "ours")]
    assert_eq!(ours::offset(from, to), answer);
    answer
}

/// The absent mark: "An absent mark at the largest position is refused (15)".
pub fn absent(at: u64) -> Result<i32, u8> {
    let answer = if at == u64::MAX { Err(15) } else { Ok(1) };
    #[cfg(feature = "ours")]
    assert_eq!(ours::absent(at), answer);
    answer
}

pub fn pack(packing: Packing, fields: &KeyFields) -> Result<u64, u8> {
    let answer = model::pack(packing, fields);
    #[cfg(feature = "ours")]
    assert_eq!(ours::pack(packing, fields), answer);
    answer
}
