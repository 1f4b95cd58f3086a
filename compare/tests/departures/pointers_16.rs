//! Where rkyv gives something else than document 02 with pointers of 16 bits, as `main.rs` has it for 32.
#![cfg(feature = "pointer_width_16")]

use compare::building::most_at_16;
use compare::model::{Layout, LONGEST_HEADER, SERVER};
use compare::oracle::build;
use compare::trees::Complete;

/// The entries a node at which a root can stand past 16 bits while every offset fits.
const ENTRIES: usize = 11;
const LAYOUT: Layout = Layout::with(ENTRIES);

/// The root's position as rkyv keeps it has 16 bits.
const PAST: usize = 1 << 16;

/// The archive here behind a header of zeros: by the second reading, and with the feature `ours` by the proved build, which must give the same
/// and whose certify must accept it; or the refusal. With it goes the root's position.
fn here(header: usize, keys: &[u64]) -> (Result<Vec<u8>, u8>, usize) {
    let built = Complete::of(LAYOUT, &vec![0; header], keys, keys);
    let end = built.archive.len();
    let archive = if built.fits {
        Ok(built.archive)
    } else {
        Err(16)
    };
    if let Ok(archive) = &archive {
        assert_eq!(LAYOUT.certify(SERVER, archive), Ok(keys.len() as u64));
    }
    #[cfg(feature = "ours")]
    {
        let ours = compare::ours::at(LAYOUT);
        let mut output = vec![0; end];
        let answer = ours.build(&mut output, header, keys, keys);
        assert_eq!(ours.build_length(keys.len(), header), answer);
        match &archive {
            Ok(archive) => {
                assert_eq!((answer, &output), (Ok(end as u32), archive));
                assert_eq!(ours.certify(archive), Ok(keys.len() as u32));
            }
            Err(number) => assert_eq!(answer, Err(*number)),
        }
    }
    let _ = end;
    (archive, built.root.expect("some entries"))
}

/// rkyv keeps the root's position in 16 bits: where the root stands at 2^16 or after, it panics, though every offset fits. Behind the longest
/// header that is so from 3,499 entries to 3,575, the last that fit. The shortest header at which it is so is one of 2,905 bytes, at 3,575.
#[test]
fn root_past_16_bits() {
    let longest = LONGEST_HEADER as usize;
    let all: Vec<u64> = (1..=3_577).collect();
    let most = most_at_16(ENTRIES);
    assert_eq!(most, 3_575);
    for count in 3_400..=3_577 {
        let keys = &all[..count];
        let by_rkyv = build(ENTRIES, &vec![0; longest], keys, keys);
        let (archive, root) = here(longest, keys);
        assert_eq!(archive.is_ok(), count <= most, "{count}");
        assert_eq!(root >= PAST, count >= 3_499, "{count}");
        match count {
            ..3_499 => assert!(by_rkyv == archive.ok(), "{count}"),
            _ => assert!(by_rkyv.is_none(), "{count}"),
        }
    }
    let keys = &all[..most];
    for header in [0, 2_904, 2_905] {
        let by_rkyv = build(ENTRIES, &vec![0; header], keys, keys);
        let (archive, root) = here(header, keys);
        assert_eq!(root >= PAST, header == 2_905);
        assert_eq!(by_rkyv.is_none(), header == 2_905);
        assert!(by_rkyv.is_none() || by_rkyv == archive.ok());
    }
}
