//! Puts generated archives, most of them damaged, to every proved call, in memory where a read or a write outside what is lent is noticed.
//!
//! `guarded [NUMBER [FIRST [ENTRIES]]]` takes as many seeds from the first on, with so many entries a node, 5 if not given. Each archive is read
//! under the server's limits and under limits drawn from the seed. What is lent stands between pages that fault, once with its end and once
//! with its start at one of them, and marked bytes on the other side; archives and given lists cannot be written. A fault prints its seed
//! and ends the program with 1, and so does a changed mark, a changed place that no entry was written to, another answer than the model's
//! or than in the other place, or a build other than rkyv's. Archives have pointers of the bits that rkyv is built for.
//!
//! `guarded NUMBER FIRST ENTRIES heap` lends allocations of exactly the right size instead, for a run under valgrind.

use std::env;
use std::process::ExitCode;
use std::sync::atomic::{AtomicU64, Ordering};

use compare::building::{most_at_16, Right};
use compare::counts::Counts;
use compare::lender::{Lenders, Lists, Place};
use compare::model::{narrow, Layout, Limits, OWN, SERVER};
use compare::ours::At;
use compare::rkyv_map::{Found, BITS};
use compare::trees::{self, Random};
use compare::{columns, model, ours};

/// What a place of a lent list holds before a call, and a byte of the output before a build.
const BEFORE: u64 = 0x3333_3333_3333_3333;
const BYTE_BEFORE: u8 = 0xaa;

/// The most entries of a generated archive, and a few more.
const MOST: usize = 12_000;

/// The seed that is at work, for the message of a fault.
static SEED: AtomicU64 = AtomicU64::new(0);

extern "C" {
    fn signal(number: i32, handler: extern "C" fn(i32)) -> usize;
}

extern "C" fn fault(_: i32) {
    println!(
        "seed {}: a read or a write outside what was lent",
        SEED.load(Ordering::Relaxed)
    );
    std::process::exit(1);
}

fn main() -> ExitCode {
    let arguments: Vec<String> = env::args().skip(1).collect();
    let number = |index: usize, default: u64| match arguments.get(index) {
        Some(text) => text.parse().expect("a number"),
        None => default,
    };
    let layout = Layout::with(number(2, OWN.entries as u64) as usize);
    let (number, first) = (number(0, 100_000), number(1, 0));
    let places = places(arguments.get(3).map(String::as_str));
    // SAFETY: the handler prints, although a handler should not, and does not return; SIGSEGV is 11 and SIGBUS is 7.
    unsafe {
        signal(11, fault);
        signal(7, fault);
    }

    let mut lenders = Lenders::new(layout, MOST);
    let mut counts = [Counts::default(), Counts::default()];
    for seed in first..first + number {
        SEED.store(seed, Ordering::Relaxed);
        let bytes = trees::archive_at(layout, seed, trees::LONG);
        let limits = [SERVER, trees::limits(bytes.len(), &mut Random::new(!seed))];
        for (counts, limits) in counts.iter_mut().zip(limits) {
            counts.add(layout.certify(limits, &bytes));
        }
        if let Err(difference) = in_places(&mut lenders, places, limits, &bytes, seed) {
            println!("seed {seed}: {difference}");
            return ExitCode::FAILURE;
        }
    }
    print(&counts);
    let stood = match places {
        [Place::Heap] => "in allocations of exactly their size",
        _ => "at both of two pages that fault",
    };
    let (entries, end) = (layout.entries, first + number);
    println!("pointers of {BITS} bits, {entries} entries a node, seeds {first} to {end}, {stood}");
    ExitCode::SUCCESS
}

/// Where what is lent stands, by the fourth argument.
fn places(word: Option<&str>) -> &'static [Place] {
    match word {
        None => &[Place::Last, Place::First],
        Some("heap") => &[Place::Heap],
        Some(_) => panic!("the fourth argument is heap"),
    }
}

/// Prints the archives by certify's answer, under the server's limits and under drawn ones.
fn print(counts: &[Counts; 2]) {
    for (counts, front) in counts.iter().zip(["", "drawn: "]) {
        let (archives, certified) = counts.all();
        for (name, number) in [("archives", archives), ("certified", certified)] {
            println!("{:36}{number:9}", format!("{front}{name}"));
        }
        counts.print_under(front, 1..=9);
    }
}

/// Every call on an archive in each place, under both limits, and that its answers are the same in all places.
fn in_places(
    lenders: &mut Lenders,
    places: &[Place],
    limits: [Limits; 2],
    bytes: &[u8],
    seed: u64,
) -> Result<(), String> {
    let mut answers = Vec::new();
    for &place in places {
        let random = &mut Random::new(!seed);
        let mut trace = Vec::new();
        let mut done = Ok(());
        for limits in limits {
            done = done.and_then(|()| read(lenders, limits, place, bytes, random, &mut trace));
        }
        done.and_then(|()| build(lenders, place, random, &mut trace))
            .map_err(|what| format!("{what}, placed {place:?}"))?;
        answers.push(trace);
    }
    expect(
        answers.windows(2).all(|pair| pair[0] == pair[1]),
        "other answers in another place",
    )
}

fn expect(holds: bool, what: &str) -> Result<(), String> {
    match holds {
        true => Ok(()),
        false => Err(what.into()),
    }
}

/// The readers under limits; what they answer and write goes to the trace.
fn read(
    lenders: &mut Lenders,
    limits: Limits,
    place: Place,
    bytes: &[u8],
    random: &mut Random,
    trace: &mut Vec<String>,
) -> Result<(), String> {
    let layout = lenders.layout;
    let ours = ours::at(layout).under(limits);
    let archive = &*lenders.archive.lend(place, bytes);
    let (checked, certified) = (ours.check(archive), ours.certify(archive));
    expect(checked == layout.check(limits, bytes).map(narrow), "check")?;
    let right = layout.certify(limits, bytes).map(narrow);
    expect(certified == right, "certify")?;
    let list = checked.map_or(Vec::new(), |_| layout.list(bytes));
    let own: Vec<u64> = list.iter().map(|entry| entry.key).collect();

    let given = Read {
        ours,
        place,
        archive,
        own: &own,
    };
    given.look_up(&mut lenders.lists, random, trace)?;
    given.write(&mut lenders.lists, random, trace)?;
    expect(lenders.archive.margin_kept(), "beside the archive")
}

/// An archive that is lent, the calls that read it, and its keys.
struct Read<'a> {
    ours: At,
    place: Place,
    archive: &'a [u8],
    own: &'a [u64],
}

impl Read<'_> {
    /// Lookup in both forms, and of many keys.
    fn look_up(
        &self,
        lists: &mut Lists,
        random: &mut Random,
        trace: &mut Vec<String>,
    ) -> Result<(), String> {
        let (ours, place) = (self.ours, self.place);
        let (archive, own) = (self.archive, self.own);
        let sought = trees::sought(own, 3, random);
        for &key in &sought {
            let found = ours.lookup(archive, key);
            let part = ours.lookup_bytes(archive, key);
            let value = |entry: Found| entry.1.to_le_bytes().to_vec();
            let value = found.map(|entry| entry.map_or(Vec::new(), value));
            expect(part == value.as_deref().map_err(|&number| number), "a part")?;
            trace.push(format!("{found:?}"));
        }
        let values = lists.values.lend(place, &vec![BEFORE; random.below(5)]);
        let given = &*lists.given_keys.lend(place, &sought);
        let many = ours.lookup_many(archive, given, values);
        expect(many.is_ok() || kept(values, 0), "a refused lookup of many")?;
        trace.push(format!("{many:?} {values:?}"));
        expect(lists.values.margin_kept(), "beside a lookup of many")
    }

    /// The calls that write keys and values: the walk, two ranges, and a column query by each packing.
    fn write(
        &self,
        lists: &mut Lists,
        random: &mut Random,
        trace: &mut Vec<String>,
    ) -> Result<(), String> {
        let (ours, place) = (self.ours, self.place);
        let (archive, own) = (self.archive, self.own);
        for call in 0..5 {
            let rooms = [0, 1].map(|_| vec![BEFORE; random.below(2 * own.len() + 3)]);
            let keys = lists.keys.lend(place, &rooms[0]);
            let values = lists.values.lend(place, &rooms[1]);
            let answer = match call {
                0 => ours
                    .walk(archive, keys, values)
                    .map(|(written, count)| (written, count.into())),
                1 | 2 => {
                    let (lower, upper) = trees::bounds(own, random);
                    ours.range(archive, lower, upper, keys, values)
                }
                _ => {
                    let key = trees::sought(own, 1, random)[0];
                    let column = columns::about(key, model::PACKINGS[call - 3], random);
                    ours.column(archive, column, keys, values)
                }
            };
            let written = answer.map_or(0, |answer| answer.0) as usize;
            expect(kept(keys, written) && kept(values, written), "past the end")?;
            let written = (&keys[..written], &values[..written]);
            trace.push(format!("{answer:?} {written:?}"));
            let beside = lists.keys.margin_kept() && lists.values.margin_kept();
            expect(beside, "beside a lent list")?;
        }
        Ok(())
    }
}

/// Whether the places from one on are as they were before.
fn kept(list: &[u64], from: usize) -> bool {
    list[from..].iter().all(|&number| number == BEFORE)
}

/// The builder, into an output that is too short, just right or longer; with pointers of 16 bits now and then of about as many entries as the
/// offsets take.
fn build(
    lenders: &mut Lenders,
    place: Place,
    random: &mut Random,
    trace: &mut Vec<String>,
) -> Result<(), String> {
    let (layout, ours) = (lenders.layout, ours::at(lenders.layout));
    let lists = &mut lenders.lists;
    let full = layout.entries;
    let (filled, next) = (full * (full + 2), (full + 1) * (full + 1));
    let mut count = random.pick(&[0, 1, full, full + 1, filled, next, 50]) + random.below(8);
    if BITS == 16 && random.one_in(16) {
        count = most_at_16(full) - 3 + random.below(8);
    }
    let keys: Vec<u64> = (0..count as u64).map(|index| 3 * index).collect();
    let keys = &*lists.given_keys.lend(place, &keys);
    let values = &*lists.given_values.lend(place, keys);
    let header = random.below(20);
    let front = vec![BYTE_BEFORE; header];
    let Right { archive, end, .. } = Right::of(full, &front, keys, values);
    let (short, long) = (random.below(end), end + random.below(30));
    let length = random.pick(&[end, end, long, short]);
    let right = if length < end { Err(14) } else { archive };
    let output = lists.output.lend(place, &vec![BYTE_BEFORE; length]);
    let answer = ours.build(output, header, keys, values);
    let number = right.as_ref().map(|archive| archive.len() as u32);
    expect(answer == number.map_err(|number| *number), "build")?;
    let archive = right.unwrap_or_default();
    let (built, past) = output.split_at(archive.len());
    let kept = past.iter().all(|&byte| byte == BYTE_BEFORE);
    expect(*built == archive && kept, "what is built")?;
    if answer.is_ok() {
        expect(ours.certify(built) == Ok(count as u32), "certify")?;
    }
    trace.push(format!("{answer:?}"));
    let beside = lists.given_keys.margin_kept() && lists.given_values.margin_kept();
    expect(beside && lists.output.margin_kept(), "beside build's lists")
}
