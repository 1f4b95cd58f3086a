//! Archives under other limits than the server's, each with fewer questions than those under them.

use super::archives::ask;
use super::asked::Case;
use crate::by_hand::Output;
use crate::cases::{self, nested};
use crate::model::{Limits, OWN, RECORD, SERVER, VIEWER};
use crate::readers::limits::DEPTHS;
use crate::trees::Random;

/// Archives nested as deep as each depth takes, and one deeper; archives as long as limits, shorter and longer; document 01's archives under the
/// viewer's limits; and limits beside a number of entries a node that 24 refuses.
pub fn all(random: &mut Random) -> Vec<Case> {
    let mut asked = Vec::new();
    let mut few = |entries, limits, archive: &[u8]| {
        let mut case = ask(entries, limits, archive.to_vec(), random);
        case.keys.truncate(2);
        case.ranges.truncate(1);
        case.columns.drain(..2);
        asked.push(case);
    };
    for (limits, archive) in depths().iter().chain(&lengths()).chain(&both()) {
        few(OWN.entries, *limits, archive);
    }
    for case in cases::all() {
        few(OWN.entries, VIEWER, &case.archive);
    }
    let none = Limits {
        longest: 0,
        depth: 0,
    };
    for entries in [2, 16] {
        few(entries, none, &nested(4, 1));
    }
    asked
}

/// At each depth from 0 to 17 the most nested nodes that the check takes, none where it takes the record only, and a node more. A depth of 0 or 1
/// takes no record.
fn depths() -> Vec<(Limits, Vec<u8>)> {
    let mut archives = Vec::new();
    for depth in DEPTHS {
        let limits = Limits { depth, ..SERVER };
        let most = limits.counted().depth.saturating_sub(2);
        for nodes in [most, most + 1] {
            archives.push((limits, chain(nodes as u64)));
        }
    }
    archives
}

/// So many nested nodes, or the archive of no entry.
fn chain(nodes: u64) -> Vec<u8> {
    match nodes {
        0 => Output::default().record(0, 0),
        _ => nested(nodes, 1),
    }
}

/// Archives that are certified, accepted and refused at limits about their length; and at the viewer's, about 4,096 bytes long, of which 4,097
/// would be refused by 3.
fn lengths() -> Vec<(Limits, Vec<u8>)> {
    let mut archives = Vec::new();
    let names = [
        "*8",
        "two keys that descend",
        "no child",
        "a leaf counting 6",
    ];
    let named = |name: &&str| cases::all().into_iter().find(|case| case.name == *name);
    for case in names.iter().map(|name| named(name).expect("a case")) {
        let length = case.archive.len();
        let ends = [VIEWER.longest, SERVER.longest + 1, 1 << 32, usize::MAX];
        for longest in [0, length - 1, length, length + 1].into_iter().chain(ends) {
            let limits = Limits { longest, ..SERVER };
            archives.push((limits, case.archive.clone()));
        }
    }
    for length in [VIEWER.longest, VIEWER.longest + 1, VIEWER.longest + 8] {
        for limits in [VIEWER, SERVER] {
            archives.push((limits, of_length(length)));
        }
    }
    archives
}

/// A leaf, and the record at the end of so many bytes.
fn of_length(length: usize) -> Vec<u8> {
    let mut output = Output::default();
    let root = output.leaf(&[(1, 1), (2, 2)]);
    output.bytes.resize(length - RECORD, 0);
    output.record(root, 2)
}

/// An archive under both limits at their ends, and under numbers whose lower 8 or 32 bits are small.
fn both() -> Vec<(Limits, Vec<u8>)> {
    let archive = nested(3, 1);
    let length = archive.len();
    let limits = [
        (0, 0),
        (length, 4),
        (length, 5),
        (length - 1, 4),
        (usize::MAX, usize::MAX),
        (1 << 32, 1 << 8),
        (1 << 32 | 1, 1 << 32 | 1),
    ];
    let limits = limits.map(|(longest, depth)| Limits { longest, depth });
    limits.map(|limits| (limits, archive.clone())).to_vec()
}
