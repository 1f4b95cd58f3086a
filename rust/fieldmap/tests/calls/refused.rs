//! What every reader answers of an archive that is refused, and that it leaves what it was lent.

use crate::given::BEFORE;
use fieldmap::Packing::{Plus128, TwosComplement};
use fieldmap::{Layout, Limits, Refusal};

/// As `refused_by`, with the server's limits.
pub fn refused(layout: Layout, archive: &[u8], by_check: Option<u8>, by_certify: u8) {
    refused_by(layout, Limits::SERVER, archive, by_check, by_certify);
}

/// What check and certify answer by a layout and with limits, and that every reader answers the same where that is a refusal.
pub fn refused_by(
    layout: Layout,
    limits: Limits,
    archive: &[u8],
    by_check: Option<u8>,
    by_certify: u8,
) {
    let what = format!("{layout:?}, {limits:?}");
    let answer = fieldmap::check_at(layout, limits, archive);
    assert_eq!(answer.map_err(number).err(), by_check, "{what}");
    let answer = fieldmap::certify_at(layout, limits, archive);
    assert_eq!(answer.map_err(number), Err(by_certify), "{what}");
    certifying(layout, limits, archive, by_certify);
    if let Some(by_check) = by_check {
        checking(layout, limits, archive, by_check);
    }
}

fn number(refusal: Refusal) -> u8 {
    refusal.number()
}

/// The readers that certify, of which a column is refused by 18 only behind the others.
fn certifying(layout: Layout, limits: Limits, archive: &[u8], why: u8) {
    let (mut keys, mut values) = ([BEFORE; 7], [BEFORE; 9]);
    let (ours, theirs) = (&mut keys, &mut values);
    let answer = fieldmap::range_at(layout, limits, archive, .., ours, theirs);
    assert_eq!(answer.map_err(number), Err(why));
    for packing in [TwosComplement, Plus128] {
        for eye in [0, 2] {
            let x = 0..=1;
            let answer =
                fieldmap::column_at(layout, limits, archive, packing, 0, eye, x, ours, theirs);
            assert_eq!(answer.map_err(number), Err(why), "before 18");
        }
    }
    assert_eq!((keys, values), ([BEFORE; 7], [BEFORE; 9]));
}

/// The readers that check.
fn checking(layout: Layout, limits: Limits, archive: &[u8], why: u8) {
    let (mut keys, mut values) = ([BEFORE; 7], [BEFORE; 9]);
    let walked = fieldmap::walk_at(layout, limits, archive, &mut keys, &mut values);
    assert_eq!(walked.map_err(number), Err(why));
    let many = fieldmap::lookup_many_at(layout, limits, archive, &[1, 2, 3], &mut values);
    assert_eq!(many.map_err(number), Err(why));
    let found = fieldmap::lookup_at(layout, limits, archive, 1);
    assert_eq!(found.map_err(number), Err(why));
    assert!(fieldmap::lookup_bytes_at(layout, limits, archive, 1).is_empty());
    assert_eq!((keys, values), ([BEFORE; 7], [BEFORE; 9]));
}
