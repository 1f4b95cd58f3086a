//! Questions to the builder, as `build` makes them of lists, headers and outputs.

use super::build::{build as at, List, Room};
use super::{entries as entries_a_node, Question, WIDTH};
use crate::building::most_at_16;
use crate::model::{COMMON, OWN, RANGE};
use crate::trees::Random;

pub use super::build::checksum;

/// The most entries whose offsets fit 16 bits, with 5 a node.
const MOST_AT_16: usize = 2_970;

/// A question with 5 entries a node.
fn build(header: u64, room: Room, keys: &List, values: &List) -> Question {
    at(OWN.entries, header, room, keys, values)
}

/// Document 01's builds, the ends of keys and values, others of all kinds, and calls that are refused, also with several faults at once; then
/// builds of other numbers of entries a node.
pub fn all() -> Vec<Question> {
    let random = &mut Random::new(2);
    let mut questions = named();
    questions.extend(match OWN == COMMON {
        true => many(random),
        false => fewer(random),
    });
    questions.extend(refused());
    if WIDTH == 16 {
        questions.extend(far());
    }
    questions.extend(other_entries(random));
    questions
}

/// Builds of 3 and 15 entries a node and of each other number, about a height's first; the most that 16 bits take, also where the root stands
/// past them; and calls that 24 refuses, also with every other fault.
fn other_entries(random: &mut Random) -> Vec<Question> {
    let mut questions = Vec::new();
    for entries in RANGE.filter(|entries| *entries != OWN.entries) {
        let (full, next) = (entries * (entries + 2), (entries + 1) * (entries + 1));
        let counts = match entries {
            3 | 15 if OWN == COMMON => vec![entries, entries + 1, full, next],
            3 | 15 => vec![entries + 1, next],
            _ if OWN == COMMON || entries % 2 == 0 => vec![next],
            _ => vec![],
        };
        for count in counts {
            let header = random.pick(&[0, 1, 4, 5, 8, 17]);
            questions.push(some(entries, header, count, random));
        }
    }
    match WIDTH {
        16 => questions.extend(other_entries_at_16()),
        _ => questions.push(larger(15, 40_000, random)),
    }
    let (six, five, more) = (count_up(6), count_up(5), List::Steps(40_001, 7, 0));
    questions.push(at(2, 0, Room::Of(512), &six, &six));
    questions.push(at(16, 4_097, Room::Of(0), &more, &five));
    if OWN == COMMON {
        questions.push(at(0, 4_097, Room::Of(8_192), &six, &six));
        questions.push(at(255, 0, Room::Of(0), &six, &six));
    }
    questions
}

/// The last that 16 bits take with 3, 11 and 15 entries a node, and with 3 and 15 the first that they do not.
fn other_entries_at_16() -> Vec<Question> {
    let most = |entries| List::Steps(most_at_16(entries), 1, 1);
    let more = |entries| List::Steps(most_at_16(entries) + 1, 1, 1);
    let fits = Room::Past(0);
    let mut questions = vec![at(11, 4_096, fits, &most(11), &most(11))];
    for entries in [3, 15] {
        questions.push(at(entries, 0, fits, &most(entries), &most(entries)));
        questions.push(at(entries, 0, fits, &more(entries), &more(entries)));
    }
    questions
}

/// Every number of entries to 45, and others about each height's first, behind headers of all kinds.
fn many(random: &mut Random) -> Vec<Question> {
    let mut questions = Vec::new();
    for count in 0..=45 {
        let header = random.pick(&[0, 1, 4, 5, 8, 17, 31]);
        questions.push(some(5, header, count, random));
    }
    for count in [215, 216] {
        questions.push(some(5, 0, count, random));
    }
    for header in (0..=17).chain([4_095, 4_096]) {
        let count = if header % 2 == 0 { 6 } else { 0 };
        questions.push(some(5, header, count, random));
    }
    for count in [1_295, 1_296, 7_775, 7_776, 39_999, 40_000] {
        questions.push(larger(5, count, random));
    }
    questions
}

/// The same with less of each.
fn fewer(random: &mut Random) -> Vec<Question> {
    let mut questions = Vec::new();
    for count in [4, 5, 6, 7, 11, 12, 34, 35, 36, 37, 215, 216] {
        let header = random.pick(&[0, 1, 2, 4, 5, 8, 17]);
        questions.push(some(5, header, count, random));
    }
    for header in (1..=9).chain([4_095, 4_096]) {
        questions.push(some(5, header, 0, random));
    }
    let last = if WIDTH == 16 { MOST_AT_16 } else { 40_000 };
    for count in [1_295, 1_296, last] {
        questions.push(larger(5, count, random));
    }
    questions
}

/// So many random builds of up to 40 entries, every fourth with a fault or two; with pointers of 16 bits some of about as many entries as the
/// offsets take.
pub fn random(number: usize, random: &mut Random) -> Vec<Question> {
    let builds = (0..number).map(|_| {
        let (count, header) = (random.below(41), random.below(24) as u64);
        let entries = entries_a_node(random);
        if WIDTH == 16 && RANGE.contains(&entries) && random.one_in(32) {
            let count = most_at_16(entries) - 10 + random.below(21);
            let keys = List::Steps(count, random.number() >> 32, 1 + random.number() % 1_000);
            let room = random.pick(&[Room::Past(0), Room::Past(9), Room::Past(-1), Room::Of(0)]);
            at(entries, header, room, &keys, &keys)
        } else if random.one_in(4) {
            faulty(entries, header, count, random)
        } else {
            some(entries, header, count, random)
        }
    });
    builds.collect()
}

/// The build of as many entries, a list in steps, in an output that goes on past the archive.
fn larger(entries: usize, count: usize, random: &mut Random) -> Question {
    let past = random.below(40) as isize;
    let keys = List::Steps(count, 3, 5);
    let values = List::Steps(count, u64::MAX, random.number());
    at(entries, 3, Room::Past(past), &keys, &values)
}

/// Builds whose offsets do not fit 16 bits, and the last that do: 16 comes after 14, and after all others.
fn far() -> Vec<Question> {
    let (last, more) = (
        List::Steps(MOST_AT_16, 1, 1),
        List::Steps(MOST_AT_16 + 1, 1, 1),
    );
    let (most, same) = (List::Steps(40_000, 1, 1), List::Steps(MOST_AT_16 + 1, 7, 0));
    let (fits, short) = (Room::Past(0), Room::Past(-1));
    vec![
        build(0, fits, &last, &last),
        build(4_096, fits, &last, &last),
        build(0, short, &last, &last),
        build(5, short, &last, &last),
        build(0, fits, &more, &more),
        build(4_096, Room::Past(40), &more, &more),
        build(0, short, &more, &more),
        build(0, Room::Of(0), &more, &more),
        build(4_097, Room::Of(80_000), &more, &more),
        build(0, fits, &same, &more),
        build(0, fits, &more, &last),
        build(0, fits, &most, &most),
    ]
}

/// A build with one of the faults 10 to 14, or with two.
fn faulty(entries: usize, mut header: u64, count: usize, random: &mut Random) -> Question {
    let (mut keys, mut values) = lists(count, random);
    let mut room = 4_096 + 24 * count + 200;
    for _ in 0..random.pick(&[1, 1, 2]) {
        match random.below(5) {
            0 => values.push(0),
            1 if count > 1 => keys.swap(0, count - 1),
            2 => {
                let many = 40_001 + random.below(2);
                let list = List::Steps(many, 1, 1);
                return at(entries, header, Room::Of(room), &list, &list);
            }
            3 => header = 4_097 + random.number() % 3,
            _ => room = random.below(header.min(4_096) as usize + 8),
        }
    }
    let (keys, values) = (List::Numbers(keys), List::Numbers(values));
    at(entries, header, Room::Of(room), &keys, &values)
}

fn count_up(count: usize) -> List {
    List::Numbers((1..=count as u64).collect())
}

/// Cases *5 to *8, the other sizes that document 01 gives, and the ends of keys and values.
fn named() -> Vec<Question> {
    let numbers = |numbers: &[u64]| List::Numbers(numbers.to_vec());
    let mut questions = Vec::new();
    let mut case = |header, keys: List, values: List| {
        questions.push(build(header, Room::Past(0), &keys, &values));
    };
    case(0, count_up(0), count_up(0));
    case(0, numbers(&[7]), numbers(&[9]));
    for count in [5, 6, 35, 36] {
        case(0, count_up(count), count_up(count));
    }
    case(5, count_up(0), count_up(0));
    case(5, count_up(1), count_up(1));
    let most = u64::MAX;
    case(0, numbers(&[0, most]), numbers(&[most, 0]));
    case(0, numbers(&[0]), numbers(&[0]));
    case(0, numbers(&[most]), numbers(&[most]));
    case(0, numbers(&[most - 1, most]), numbers(&[most, most]));
    questions
}

/// As many ascending keys with gaps of any size, and values.
fn lists(count: usize, random: &mut Random) -> (Vec<u64>, Vec<u64>) {
    let widest = u64::MAX / (count as u64 + 1);
    let mut key = random.number() % widest;
    let (mut keys, mut values) = (Vec::new(), Vec::new());
    for _ in 0..count {
        keys.push(key);
        values.push(random.number());
        key += 1 + random.number() % (widest - 1);
    }
    (keys, values)
}

/// The build of as many entries, behind a header, in an output that goes on past the archive.
fn some(entries: usize, header: u64, count: usize, random: &mut Random) -> Question {
    let (keys, values) = lists(count, random);
    let room = Room::Past(random.below(24) as isize);
    let (keys, values) = (List::Numbers(keys), List::Numbers(values));
    at(entries, header, room, &keys, &values)
}

/// Calls that 10 to 14 refuse, and the last that each lets through.
fn refused() -> Vec<Question> {
    let (fits, none) = (Room::Past(0), Room::Of(0));
    let (six, seven) = (count_up(6), count_up(7));
    let equal = List::Numbers(vec![1, 2, 2, 4, 5, 6]);
    let falling = List::Numbers(vec![1, 2, 3, 4, 6, 5]);
    let (most, more) = (List::Steps(40_000, 1, 1), List::Steps(40_001, 1, 1));
    let (same, more_same) = (List::Steps(40_000, 7, 0), List::Steps(40_001, 7, 0));
    // 2^64 is no multiple of the step: some key is below the one before.
    let wrapping = List::Steps(20, 0, u64::MAX / 7);
    let long = 4_097;
    vec![
        // 10 comes before all others.
        build(0, fits, &six, &seven),
        build(0, fits, &seven, &six),
        build(long, none, &equal, &seven),
        build(0, none, &more_same, &same),
        build(0, fits, &count_up(1), &count_up(0)),
        // 11 comes before 12 to 14.
        build(0, fits, &more, &more),
        build(long, none, &more_same, &more),
        build(
            0,
            fits,
            &List::Steps(40_002, 1, 1),
            &List::Steps(40_002, 1, 1),
        ),
        // 12 comes before 13 and 14.
        build(0, fits, &equal, &six),
        build(0, fits, &falling, &six),
        build(0, fits, &same, &most),
        build(0, fits, &wrapping, &wrapping),
        build(long, none, &equal, &six),
        build(0, none, &falling, &six),
        // 13 comes before 14.
        build(long, Room::Of(8_192), &six, &six),
        build(u64::MAX, Room::Of(8_192), &six, &six),
        build(long, none, &six, &six),
        build(long, Room::Of(8_192), &count_up(0), &count_up(0)),
        build(4_096, fits, &six, &six),
        // 14, also where the output ends in the header.
        build(0, Room::Past(-1), &six, &six),
        build(5, Room::Past(-1), &six, &six),
        build(5, Room::Past(-1), &count_up(0), &count_up(0)),
        build(0, Room::Past(-1), &count_up(0), &count_up(0)),
        build(0, none, &count_up(0), &count_up(0)),
        build(4_096, Room::Of(4_095), &count_up(1), &count_up(1)),
        build(4_096, Room::Of(4_096), &count_up(1), &count_up(1)),
        build(0, Room::Past(-1), &most, &most),
    ]
}
