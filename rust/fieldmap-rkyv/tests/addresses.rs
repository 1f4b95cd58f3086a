//! Archives at addresses that 8 does not divide, and the texts of what is refused.

use compare::rkyv_map::{access, build, MAX_DEPTH};
use fieldmap_rkyv::{accepted, certified, Refused};
use rkyv::util::AlignedVec;

/// An archive behind so many bytes, the first of which stands at an address divisible by 8.
fn behind(by: usize, archive: &[u8]) -> AlignedVec<8> {
    let mut bytes = AlignedVec::new();
    bytes.extend_from_slice(&[0; 8][..by]);
    bytes.extend_from_slice(archive);
    bytes
}

/// The same archives, certified and open, are let through at 0 and refused elsewhere.
#[test]
fn unaligned() {
    let ascending = build(&[], &[1, 2], &[10, 20]);
    let open = build(&[], &[2, 1], &[10, 20]);
    for by in 0..8 {
        let refused = (by > 0).then_some(Refused::Unaligned);
        let bytes = behind(by, &ascending);
        assert_eq!(certified(&bytes[by..]).err(), refused);
        assert_eq!(accepted(&bytes[by..]).err(), refused);
        let bytes = behind(by, &open);
        assert_eq!(accepted(&bytes[by..]).err(), refused);
    }
}

/// An empty map is only its record, which rkyv would read at a multiple of 4; 8 is asked for whatever the map holds.
#[test]
fn empty_map() {
    let bytes = behind(4, &build(&[], &[], &[]));
    assert!(access(&bytes[4..], 0, MAX_DEPTH).is_ok());
    assert_eq!(certified(&bytes[4..]).err(), Some(Refused::Unaligned));
    assert_eq!(accepted(&bytes[4..]).err(), Some(Refused::Unaligned));
}

/// A refused archive is refused by its fault at every address.
#[test]
fn refused_anywhere() {
    let open = build(&[], &[2, 1], &[10, 20]);
    let mut damaged = open.clone();
    damaged[0] = 2;
    for by in 0..8 {
        let bytes = behind(by, &open);
        let refused = certified(&bytes[by..]).unwrap_err();
        assert_eq!(
            refused,
            Refused::Archive(fieldmap::Refusal::KeysNotAscending)
        );
        let bytes = behind(by, &damaged);
        for refused in [certified(&bytes[by..]), accepted(&bytes[by..])] {
            let kind = Refused::Archive(fieldmap::Refusal::InvalidKind);
            assert_eq!(refused.err(), Some(kind));
        }
    }
    for refused in [certified(&[]), accepted(&[])] {
        let range = fieldmap::Refusal::InvalidSubtreePointer;
        assert_eq!(refused.err(), Some(Refused::Archive(range)));
    }
}

#[test]
fn texts() {
    for refusal in fieldmap::Refusal::ALL {
        let refused = Refused::from(refusal);
        assert_eq!(refused.to_string(), refusal.to_string());
    }
    let error: Box<dyn std::error::Error> = Box::new(Refused::Unaligned);
    let text = "the archive's first byte is not at an address divisible by 8";
    assert_eq!(error.to_string(), text);
}
