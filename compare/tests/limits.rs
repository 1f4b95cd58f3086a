//! The limits that a caller names, with the pointers that rkyv is built for: rkyv, the model and, with the feature `ours`, the proved calls give
//! what document 02 says.

use compare::cases::nested;
use compare::counts::LeftOut;
use compare::model::{Layout, Limits, OWN, RANGE, RECORD, SERVER, VIEWER};
use compare::readers::{self, limits::DEPTHS};
use compare::rkyv_map::Archive;
use compare::trees::{self, Random};

/// What check and certify answer about an archive under limits: by the model, and with the feature `ours` by the proved calls, which must give
/// the same.
fn here(limits: Limits, archive: &[u8]) -> [Result<u64, u8>; 2] {
    let answers = [OWN.check(limits, archive), OWN.certify(limits, archive)];
    #[cfg(feature = "ours")]
    {
        let ours = compare::ours::at(OWN).under(limits);
        let ours = [ours.check(archive), ours.certify(archive)];
        assert_eq!(ours.map(|answer| answer.map(u64::from)), answers);
    }
    answers
}

/// Whether every comparison of the readers' answers about an archive shows no difference.
fn readers_agree(limits: Limits, archive: &[u8]) {
    let (archive, random) = (Archive::copy(archive), &mut Random::new(0));
    let left_out = &mut LeftOut::default();
    let compared = readers::compare(OWN.entries, limits, &archive, random, left_out);
    assert_eq!(compared, Ok(()));
}

/// So many nested nodes, or the archive of no entry.
fn chain(nodes: u64) -> Vec<u8> {
    match nodes {
        0 => vec![0; RECORD],
        _ => nested(nodes, 1),
    }
}

/// "A depth limit of 0 gives the same as 1, and a limit above the server's counts as the server's."
#[test]
fn what_depths_count_as() {
    for nodes in 0..=16 {
        let archive = chain(nodes);
        let count = OWN.number(&archive, archive.len() - OWN.width);
        for depth in DEPTHS.chain([18, 256, 258, 1 << 32, 1 << 32 | 3, usize::MAX]) {
            // The record takes one of the depth and each nested node another, and one must be left.
            let accepts = match depth {
                0..=16 => nodes + 2 <= depth as u64,
                _ => nodes <= 14,
            };
            let right = if accepts { Ok(count) } else { Err(5) };
            let limits = Limits { depth, ..SERVER };
            assert_eq!(here(limits, &archive), [right; 2], "{nodes} at {depth}");
            readers_agree(limits, &archive);
        }
    }
}

/// "A limit above the server's counts as the server's", and each shorter one as itself.
#[test]
fn what_lengths_count_as() {
    let about = |length: usize| [length - RECORD, length, length + 1, length + RECORD];
    let lengths = [RECORD, VIEWER.longest, SERVER.longest].into_iter();
    for length in lengths.flat_map(about) {
        let archive = vec![0; length];
        let shorter = length.saturating_sub(1);
        let ends = [0, 1 << 32, usize::MAX];
        for longest in [shorter, length, length + 1].into_iter().chain(ends) {
            let right = match length {
                _ if length > longest || length > 1_048_576 => Err(1),
                ..RECORD => Err(2),
                _ if length % OWN.width != 0 => Err(3),
                _ => Ok(0),
            };
            let limits = Limits { longest, ..SERVER };
            assert_eq!(here(limits, &archive), [right; 2], "{length}, {longest}");
            readers_agree(limits, &archive);
        }
    }
}

/// "The viewer takes at most 4,096 bytes and depth 5, so three nested nodes; the server keeps 1,048,576 and 16."
#[test]
fn the_viewer() {
    for (nodes, viewer, server) in [
        (3, Ok(11), Ok(11)),
        (4, Err(5), Ok(16)),
        (15, Err(5), Err(5)),
    ] {
        let archive = nested(nodes, 1);
        assert_eq!(here(VIEWER, &archive), [viewer; 2]);
        assert_eq!(here(SERVER, &archive), [server; 2]);
    }
    for (length, viewer) in [(4_096, Ok(0)), (4_097, Err(1)), (4_112, Err(1))] {
        let archive = vec![0; length];
        let server = if length == 4_097 { Err(3) } else { Ok(0) };
        assert_eq!(here(VIEWER, &archive), [viewer; 2]);
        assert_eq!(here(SERVER, &archive), [server; 2]);
    }
}

/// 1 comes before 2, 2 and 3 of the record before 5, and 5 before the count and the root.
#[test]
fn the_order_of_refusals() {
    let limits = |longest, depth| Limits { longest, depth };
    for depth in [0, 1] {
        assert_eq!(here(limits(0, depth), &[0]), [Err(1); 2]);
        assert_eq!(here(limits(0, depth), &[]), [Err(2); 2]);
        assert_eq!(here(limits(RECORD, depth), &[0; RECORD - 1]), [Err(2); 2]);
        assert_eq!(here(limits(4_096, depth), &[0; RECORD + 1]), [Err(3); 2]);
        assert_eq!(here(limits(RECORD, depth), &[255; RECORD]), [Err(5); 2]);
        assert_eq!(here(limits(RECORD, depth), &[0; RECORD]), [Err(5); 2]);
    }
    // A node of unknown kind is refused by 4 at the depth that would refuse it by 5.
    let mut archive = nested(3, 1);
    archive[0] = 2;
    for (depth, right) in [(3, 5), (4, 4), (5, 4)] {
        assert_eq!(here(limits(4_096, depth), &archive), [Err(right); 2]);
    }
}

/// Generated archives of each number of entries a node at each depth, under drawn limits and under two: no difference, and refusals 1 and 5
/// among those under drawn limits.
#[test]
fn generated() {
    for entries in RANGE {
        let layout = Layout::with(entries);
        let mut refused = [0; 25];
        for seed in 0..400 {
            let archive = Archive::copy(&trees::archive_at(layout, seed, u64::MAX));
            let (length, random) = (archive.bytes().len(), &mut Random::new(!seed));
            let smaller = trees::limits(length, random);
            let larger = trees::larger(smaller, length, random);
            let left_out = &mut LeftOut::default();
            let compared = readers::compare(entries, smaller, &archive, random, left_out);
            assert_eq!(compared, Ok(()), "seed {seed}, {smaller:?}");
            let two = [smaller, larger];
            let compared = readers::limits::under_two(entries, two, &archive, random);
            assert_eq!(compared, Ok(()), "seed {seed}");
            let compared = readers::limits::at_each_depth(entries, &archive);
            assert!(compared.is_ok(), "seed {seed}: {compared:?}");
            let answer = layout.check(smaller, archive.bytes());
            refused[answer.map_or_else(usize::from, |_| 0)] += 1;
        }
        assert!(refused[1] >= 20 && refused[5] >= 10, "{refused:?}");
    }
}
