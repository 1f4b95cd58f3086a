//! The archives that the readers are asked about, most of them under the server's limits.

use std::ops::Bound;

use super::asked::Case;
use super::{entries, limits, line, packed, Question};
use crate::model::{self, Column, Layout, Limits, Packing, COMMON, OWN, RANGE, SERVER};
use crate::rkyv_map::Archive;
use crate::trees::{self, Random};
use crate::{cases, columns};

/// The longest archive that the input has.
const LONGEST: usize = 65_536;
/// Generated archives by certify's answer, at 0 the certified ones: how many are taken of 5 entries a node, at 32 bits and at the others, of 3
/// and of 15, and of each other number. 1 is left out.
const MANY: [u32; 10] = [70, 0, 45, 30, 25, 8, 30, 30, 30, 30];
const FEWER: [u32; 10] = [6, 0, 3, 2, 2, 1, 2, 2, 2, 2];
const ENDS: [u32; 10] = [6, 0, 3, 3, 2, 1, 3, 3, 3, 3];
/// How long they may be with 5 entries a node, longer with more. Those nested too deep, 5, are longer than the others.
const LENGTHS: [usize; 10] = [
    1_500, 0, 1_200, 1_200, 1_200, 3_600, 1_200, 1_200, 1_200, 1_200,
];

/// The lines of the archives that the input does not have, which have pointers of 32 bits: 1,048,577 bytes, and 1,048,576 of them.
pub fn longest() -> Vec<String> {
    let bytes = vec![165; (1 << 20) + 1];
    let count = |count: u32| count.to_string();
    let (too_long, longest) = (model::check(&bytes), Archive::copy(&bytes[1..]));
    let longest = longest.check().map(|accepted| accepted.count());
    vec![
        line("too long", too_long, count),
        line("longest", longest, count),
    ]
}

/// Document 01's archives, each asked for all its keys, all its entries and the range of case *4; with pointers of 32 bits archives of packed
/// keys; then generated ones of 5 entries a node, of 3, of 15, one of each other number, and two with a number that 24 refuses; last archives
/// under other limits than the server's.
pub fn all() -> Vec<Question> {
    let random = &mut Random::new(0);
    let mut asked = Vec::new();
    for case in cases::all() {
        let keys = keys_of(OWN, &case.archive);
        let mut case = ask(OWN.entries, SERVER, case.archive, random);
        case.keys.extend(keys);
        case.ranges.push((Bound::Unbounded, Bound::Unbounded));
        case.ranges.push((Bound::Excluded(3), Bound::Excluded(3)));
        asked.push(case);
    }
    if OWN == COMMON {
        asked.extend(packed::all());
    }
    let own = if OWN == COMMON { MANY } else { FEWER };
    asked.extend(generated(OWN.entries, own, random));
    for entries in [3, 15] {
        asked.extend(generated(entries, ENDS, random));
    }
    for entries in RANGE.filter(|entries| ![3, 5, 15].contains(entries)) {
        // A certified archive, or one refused by each number in turn.
        let mut one = [0; 10];
        one[[0, 6, 2, 0, 7, 8, 0, 9, 6, 3][entries % 10]] = 1;
        asked.extend(generated(entries, one, random));
    }
    for entries in [2, 16] {
        asked.push(ask(
            entries,
            SERVER,
            cases::all().pop().expect("some").archive,
            random,
        ));
    }
    asked.extend(limits::all(random));
    asked.iter().map(Case::question).collect()
}

/// Generated archives of so many entries a node in the order of their seeds, until there are as many of each kind as wanted.
fn generated(entries: usize, mut wanted: [u32; 10], random: &mut Random) -> Vec<Case> {
    let layout = Layout::with(entries);
    let mut asked = Vec::new();
    for seed in 0.. {
        if wanted == [0; 10] {
            break;
        }
        let archive = trees::archive_at(layout, seed, trees::LONG);
        let kind = layout
            .certify(SERVER, &archive)
            .map_or_else(usize::from, |_| 0);
        let longest = LENGTHS[kind] * layout.inner() / OWN.inner();
        if wanted[kind] > 0 && archive.len() <= longest {
            wanted[kind] -= 1;
            asked.push(ask(entries, SERVER, archive, random));
        }
    }
    asked
}

/// The archives of so many seeds that the program has room for, each with a few questions, half of them under drawn limits. Where 24 refuses the
/// entries a node, the archive has 5.
pub fn random(number: usize, seed: u64) -> Vec<Question> {
    let random = &mut Random::new(seed);
    let mut questions = Vec::new();
    for seed in seed..seed + number as u64 {
        let entries = entries(random);
        let layout = if RANGE.contains(&entries) {
            Layout::with(entries)
        } else {
            OWN
        };
        let archive = trees::archive_at(layout, seed, trees::LONG);
        if archive.len() <= LONGEST {
            let limits = match random.one_in(2) {
                true => SERVER,
                false => trees::limits(archive.len(), random),
            };
            questions.push(ask(entries, limits, archive, random).question());
        }
    }
    questions
}

fn keys_of(layout: Layout, archive: &[u8]) -> Vec<u64> {
    if layout.check(SERVER, archive).is_err() {
        return Vec::new();
    }
    let list = layout.list(archive);
    list.iter().map(|entry| entry.key).collect()
}

/// What check and certify answer with so many entries a node under limits, by the model.
fn certified(entries: usize, limits: Limits, archive: &[u8]) -> (Result<u64, u8>, Result<u64, u8>) {
    match RANGE.contains(&entries) {
        true => {
            let layout = Layout::with(entries);
            (
                layout.check(limits, archive),
                layout.certify(limits, archive),
            )
        }
        false => (Err(24), Err(24)),
    }
}

/// A few questions about an archive under limits: more if it is accepted, most if it is certified; and four columns, one whose bounds cross, one that 18
/// refuses, and by each packing one about a key that is looked up.
pub(super) fn ask(entries: usize, limits: Limits, archive: Vec<u8>, random: &mut Random) -> Case {
    let (keys, lookups, ranges) = match certified(entries, limits, &archive) {
        (_, Ok(_)) => (keys_of(Layout::with(entries), &archive), 8, 5),
        (Ok(_), Err(_)) => (keys_of(Layout::with(entries), &archive), 8, 1),
        (Err(_), Err(_)) => (Vec::new(), 1, 1),
    };
    let sought = trees::sought(&keys, lookups, random);
    let column = |eye| Column {
        packing: Packing::TwosComplement,
        examination: 0,
        eye,
        a: -1,
        b: 1,
    };
    let key = sought[0];
    let about = |packing| columns::about(key, packing, &mut Random::new(key));
    let [old, new] = model::PACKINGS.map(about);
    Case {
        entries,
        limits,
        keys: sought,
        ranges: (0..ranges).map(|_| trees::bounds(&keys, random)).collect(),
        columns: vec![column(0), column(2), old, new],
        archive,
    }
}
