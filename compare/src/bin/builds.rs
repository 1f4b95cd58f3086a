//! Compares what the proved code builds with what rkyv and the second reading build, byte for byte: every number of entries up to a limit, larger
//! ones where the tree grows or the builder ends, and random ones up to 40,000, each behind headers of every length in `headers`.
//!
//! `builds [LIMIT [SEED [ENTRIES]]]` takes the numbers from 0 to the limit; if none is given, to 2,000, with pointers of 16 bits to 4,500. The
//! trees have so many entries a node, 5 if not given. The output holds bytes other than 0 before each call; those of the header and those past
//! the archive must stay, check and certify must accept the archive with the number of entries, and the length that is told beforehand must be
//! the archive's end. Once for each list the readers' answers about the archive are compared too, under the server's limits and under drawn
//! ones. Where an offset does not fit 16 bits, rkyv panics, and the build and the length must be refused by 16. Where rkyv panics although all
//! fit, the second reading is the reference. Refused calls must leave the output as it was; but for 16 the papers are the reference, since rkyv
//! takes every list. Prints how many archives and how many refused calls there were. If some differ, it prints the first of them and ends
//! with 1. With the limit that is taken if none is given, or a larger one, it also ends with 1 if one of the refusals 10 to 14 and 24, with
//! pointers of 16 bits also 16, comes up less than 100 times.

use std::env;
use std::ops::RangeInclusive;
use std::process::ExitCode;

use compare::building::{self, most_at_16, Given, Outputs, Right, HEADER};
use compare::counts::LeftOut;
use compare::lists::entries;
use compare::model::{Layout, MOST_GIVEN as MOST, OUTSIDE, OWN, SERVER};
use compare::ours::named::Named;
use compare::ours::{self, At};
use compare::readers::{self, same};
use compare::rkyv_map::{Archive, BITS};
use compare::trees::{self, Random};

/// With this limit or a larger one, the run takes so many random numbers of entries as well, and must have each refusal often enough.
/// With 5 entries a node, offsets of 16 bits are too short from 2,971 entries on.
const LONG: usize = if BITS == 16 { 4_500 } else { 2_000 };
const RANDOM: usize = 100;
/// The most bytes that an output has past the archive.
const PAST: usize = 40;

fn main() -> ExitCode {
    let mut arguments = env::args().skip(1).map(|text| text.parse::<u64>());
    let mut argument = |default| match arguments.next() {
        Some(number) => number.expect("a number"),
        None => default,
    };
    let limit = argument(LONG as u64) as usize;
    let seed = argument(0);
    let layout = Layout::with(argument(OWN.entries as u64) as usize);
    let entries = layout.entries;
    println!("pointers of {BITS} bits, {entries} entries a node, seed {seed}");

    let mut run = Run::new(layout, seed);
    for number in (0..=limit).chain(larger(entries, limit)) {
        run.number(number);
    }
    if limit >= LONG {
        for _ in 0..RANDOM {
            let number = LONG + run.random.below(MOST - LONG);
            run.number(number);
        }
    }
    for number in (1..=25).map(|more| MOST + more).chain([3 * MOST]) {
        let random = &mut Random::new(run.random.number());
        building::too_many(number, random, |number, given| run.refusal(number, given));
    }
    match run.finish(limit >= LONG) {
        true => ExitCode::SUCCESS,
        false => ExitCode::FAILURE,
    }
}

/// The numbers of entries beyond the limit: where the tree gets another level, the last that 16 bits take and the first that they do not, and
/// the most that the builder takes.
fn larger(entries: usize, limit: usize) -> Vec<usize> {
    let mut numbers = vec![MOST - 1, MOST];
    let mut full = entries + 1;
    while full <= MOST {
        numbers.extend([full - 1, full]);
        full *= entries + 1;
    }
    if BITS == 16 {
        let most = most_at_16(entries);
        numbers.extend([most, most + 1]);
    }
    numbers.retain(|number| *number > limit);
    numbers.sort();
    numbers
}

/// The lengths of the headers: each place in 8 bytes, twice over, and the longest.
fn headers() -> impl Iterator<Item = usize> {
    (0..=17).chain([HEADER - 1, HEADER])
}

struct Run {
    layout: Layout,
    ours: At,
    random: Random,
    outputs: Outputs,
    /// The lists behind a header at which rkyv panics, and those of them whose offsets fit.
    panics: u64,
    panics_alone: u64,
    /// The calls that are refused by another number than 24 and 16.
    refusals: u64,
    /// The archives that were read.
    read: u64,
    left_out: LeftOut,
}

impl Run {
    fn new(layout: Layout, seed: u64) -> Self {
        let mut random = Random::new(seed);
        let outputs = Outputs::new(&mut random);
        Self {
            layout,
            ours: ours::at(layout),
            random,
            outputs,
            panics: 0,
            panics_alone: 0,
            refusals: 0,
            read: 0,
            left_out: LeftOut::default(),
        }
    }

    /// A list of so many entries: the archives behind every header, the readers' answers about the last, and calls that are refused.
    fn number(&mut self, number: usize) {
        let (keys, values) = &entries(number, &mut self.random);
        let mut last = Err(0);
        for header in headers() {
            last = self.archive(header, keys, values);
        }
        if let Ok(archive) = last {
            self.read(number, &archive);
        }
        let header = self.random.below(HEADER + 1);
        let front = self.outputs.header(header);
        let given = Given {
            length: trees::complete(self.layout, front, keys, values).len(),
            header,
            keys,
            values,
        };
        let random = &mut Random::new(self.random.number());
        self.refused_by_24(given);
        building::refused(given, random, |number, given| self.refusal(number, given));
    }

    /// The readers' answers about an archive of so many entries, under the server's limits and under drawn ones.
    fn read(&mut self, number: usize, archive: &[u8]) {
        let (entries, archive) = (self.layout.entries, Archive::copy(archive));
        let drawn = trees::limits(archive.bytes().len(), &mut self.random);
        let mut read = |limits| {
            readers::compare(
                entries,
                limits,
                &archive,
                &mut self.random,
                &mut self.left_out,
            )
        };
        let difference = read(SERVER).and_then(|()| read(drawn));
        self.read += 1;
        self.outputs
            .note(format_args!("{number} entries, read"), difference);
    }

    /// The archive of a list behind a header, or the refusal of a list whose offsets do not fit; and the refusal of an output that is one
    /// byte too short, which comes first.
    fn archive(&mut self, header: usize, keys: &[u64], values: &[u64]) -> Result<Vec<u8>, u8> {
        let front = self.outputs.header(header);
        let right = Right::of(self.layout.entries, front, keys, values);
        let (archive, end, ours) = (right.archive, right.end, self.ours);
        self.panics += u64::from(right.panics);
        self.panics_alone += u64::from(right.panics && archive.is_ok());
        let given = Given {
            length: end + self.random.below(PAST + 1),
            header,
            keys,
            values,
        };
        let right = archive.as_deref().map_err(|number| *number);
        let told = right.map(|_| end as u32);
        let length = ours.build_length(keys.len(), header);
        let mut difference = self
            .call(given, right)
            .and_then(|()| same("length", ("right", told), ("ours", length)));
        if right.is_ok() {
            let built = self.outputs.written(end);
            let count = Ok(keys.len() as u32);
            difference = difference
                .and_then(|()| same("check", ("right", count), ("ours", ours.check(built))))
                .and_then(|()| same("certify", ("right", count), ("ours", ours.certify(built))));
        }
        self.outputs.note(given, difference);
        self.refusal(14, given.length(end - 1));
        archive
    }

    /// What is wrong with a call that must give this.
    fn call(&mut self, given: Given<'_>, right: Result<&[u8], u8>) -> Result<(), String> {
        let ours = self.ours;
        self.outputs.call(given, right, |output, given| {
            ours.build(output, given.header, given.keys, given.values)
                .map(u64::from)
        })
    }

    /// A call that must be refused with this number and leave the output as it was; every eighth also with each number of entries a node that 24
    /// refuses, which comes before all others.
    fn refusal(&mut self, number: u8, given: Given<'_>) {
        let mut difference = self.call(given, Err(number));
        if let 11 | 13 = number {
            let length = self.ours.build_length(given.keys.len(), given.header);
            let right = ("right", Err(number));
            difference = difference.and_then(|()| same("length", right, ("ours", length)));
        }
        self.outputs.note(given, difference);
        self.refusals += 1;
        if self.refusals % 8 == 0 {
            self.refused_by_24(given);
        }
    }

    /// The call with each number of entries a node that 24 refuses.
    fn refused_by_24(&mut self, given: Given<'_>) {
        for (index, entries) in (0..).zip(OUTSIDE) {
            let any = (given.header as u64).wrapping_mul(index);
            let width = ours::bits(self.layout.width, any);
            let named = Named {
                width,
                entries,
                limits: SERVER,
            };
            let length = named.build_length(given.keys.len(), given.header);
            let difference = self
                .outputs
                .call(given, Err(24), |output, given| {
                    let end = named.build(output, given.header, given.keys, given.values);
                    end.map(|end| end as u64)
                })
                .and_then(|()| same("length", ("right", Err(24)), ("ours", length)));
            self.outputs
                .note(format_args!("{given}, {named:?}"), difference);
        }
    }

    /// Prints what there was and what is wrong with it, and tells whether nothing is.
    fn finish(&self, enough: bool) -> bool {
        let line = |name: &str, count: u64| println!("{name:36}{count:9}");
        line("archives read", self.read);
        line("lists at which rkyv panics", self.panics);
        line("of these with offsets that fit", self.panics_alone);
        print!("{}", self.left_out);
        let mut refusals: Vec<RangeInclusive<usize>> = vec![10..=14, 24..=24];
        if BITS == 16 {
            refusals.push(16..=16);
        }
        self.outputs.finish(&refusals, enough)
    }
}
