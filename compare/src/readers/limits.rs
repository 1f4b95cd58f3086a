//! One archive under several limits: the check at each depth, and what document 02 says of two limits.

use std::ops::RangeInclusive;

use crate::model::{narrow, Layout, Limits, SERVER};
use crate::rkyv_map::Archive;
use crate::trees::Random;

use super::{check, count, same};

/// The depths that a check is given: those that count as themselves, 1 to 16, and the first past either end.
pub const DEPTHS: RangeInclusive<usize> = 0..=17;

/// The first difference between the checks of an archive at each of these depths. Gives the least depth that accepts it, if one does.
pub fn at_each_depth(entries: usize, archive: &Archive) -> Result<Option<usize>, String> {
    let (layout, bytes) = (Layout::with(entries), archive.bytes());
    let mut least = None;
    for depth in DEPTHS {
        let limits = Limits { depth, ..SERVER };
        let what = format!("check at depth {depth}");
        let rkyv = count(&check(entries, limits, archive));
        let model = layout.check(limits, bytes).map(narrow);
        same(&what, ("rkyv", rkyv), ("model", model))?;
        #[cfg(feature = "ours")]
        {
            let answer = crate::ours::at(layout).under(limits).check(bytes);
            same(&what, ("rkyv", rkyv), ("ours", answer))?;
        }
        if rkyv.is_ok() {
            least = least.or(Some(depth));
        }
    }
    Ok(least)
}

/// Whether an archive's answers under two limits, the first within the second, are as document 02 says: "anything that the viewer accepts, the
/// server accepts, with the same walk, lookups and ranges, and what the viewer refuses for another reason than 1 or 5, the server refuses with
/// that same number." Of rkyv and the model check and certify are held to it, of the proved code every reader.
pub fn under_two(
    entries: usize,
    limits: [Limits; 2],
    archive: &Archive,
    random: &mut Random,
) -> Result<(), String> {
    let (layout, bytes) = (Layout::with(entries), archive.bytes());
    let rkyv = limits.map(|limits| count(&check(entries, limits, archive)));
    let model = limits.map(|limits| layout.certify(limits, bytes));
    if let Err(1 | 5) = rkyv[0] {
        return Ok(());
    }
    let what = |who| format!("{who} under {:?} and {:?}", limits[0], limits[1]);
    same(
        &what("rkyv"),
        ("the smaller", rkyv[0]),
        ("the larger", rkyv[1]),
    )?;
    same(
        &what("model"),
        ("the smaller", model[0]),
        ("the larger", model[1]),
    )?;
    #[cfg(feature = "ours")]
    {
        let asked = super::asked::Questions::new(layout, bytes, random);
        let [smaller, larger] = limits.map(|limits| asked.answers(layout, limits, bytes));
        same(
            &what("ours"),
            ("the smaller", smaller),
            ("the larger", larger),
        )?;
    }
    let _ = random;
    Ok(())
}
