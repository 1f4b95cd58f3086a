//! Compares answers on generated archives: rkyv's with the model's, which is document 01's text, and, with the feature `ours`, the proved
//! code's with both. The archives have pointers of the bits that rkyv is built for.
//!
//! `compare [NUMBER [FIRST [ENTRIES]]]` takes archives at the edges, also those of the other widths, and as many seeds from the first on, all
//! of so many entries a node, 5 if not given. Each is read under the server's limits. Those at the edges, and of the seeds' archives the shares
//! below, are also checked at each depth from 0 to 17, and read under limits drawn from the seed, whose answers are held against those under
//! larger ones too. Prints the seeds, how many archives there were of each kind, and what was compared with the model only. If answers differ,
//! it prints the smallest archive on which they do, in hex, and ends with 1. It also ends with 1 if one of the depths from 2 to 16 is the least
//! that accepts for no archive; with 100,000 seeds or more if one of the refusals 2 to 9 comes up less than 100 times among their archives, or
//! one of 1 to 9 under drawn limits; with a million or more also if 1 does under the server's.

use std::env;
use std::fmt::Display;
use std::ops::RangeInclusive;
use std::process::ExitCode;

use compare::counts::{Counts, Differences, LeftOut, LEAST};
use compare::model::{Layout, Limits, OWN, SERVER};
use compare::readers::{self, limits};
use compare::rkyv_map::{Archive, BITS};
use compare::trees::{self, Random};

/// A run of this many seeds must have each refusal often enough; archives that are too long for the server come up in one with more.
const LONG: u64 = 100_000;
const LONGER: u64 = 1_000_000;
/// One seed's archive in so many is checked at each depth, and one in so many is read under drawn limits. Both numbers are odd and
/// `trees::LONG` is a power of two, so that long archives are among them.
const DEPTHS_ONE_IN: u64 = 17;
const DRAWN_ONE_IN: u64 = 3;
/// The depths that are the least that accepts for some archive: 2 for an empty one, 16 for one with 14 nested nodes.
const LEAST_DEPTHS: RangeInclusive<usize> = 2..=16;

fn main() -> ExitCode {
    let mut arguments = env::args().skip(1).map(|text| text.parse::<u64>());
    let mut argument = |default| match arguments.next() {
        Some(number) => number.expect("a number"),
        None => default,
    };
    let number = argument(100_000);
    let first = argument(0);
    let layout = Layout::with(argument(OWN.entries as u64) as usize);
    let entries = layout.entries;
    println!(
        "pointers of {BITS} bits, {entries} entries a node, seeds from {first}, {number} of them"
    );

    let mut run = Run::new(layout);
    let edges = [2, 4, 8].map(|width| trees::edges(Layout { width, entries }));
    let edges = edges.concat();
    println!("{:36}{:9}", "archives at the edges", edges.len());
    for (index, bytes) in (0..).zip(edges) {
        run.archive(bytes, format_args!("edge {index}"), index, |_| true);
    }
    // What is counted by refusal and by name is of the seeds' archives.
    (run.server, run.drawn) = Default::default();
    for seed in first..first + number {
        let bytes = trees::archive_at(layout, seed, trees::LONG);
        let chosen = |one_in| seed % one_in == 0;
        run.archive(bytes, format_args!("seed {seed}"), !seed, chosen);
    }
    match run.finish(number) {
        true => ExitCode::SUCCESS,
        false => ExitCode::FAILURE,
    }
}

/// What archives that were read under limits came to.
#[derive(Default)]
struct Read {
    /// The archives by certify's answer.
    counts: Counts,
    left_out: LeftOut,
}

/// What a run over archives came to.
struct Run {
    layout: Layout,
    /// Under the server's limits.
    server: Read,
    /// Under drawn limits.
    drawn: Read,
    /// Archives that were checked at each depth, by the least depth that accepts them; at 0 those that none does.
    depths: [u64; 18],
    differences: Differences,
}

impl Run {
    fn new(layout: Layout) -> Self {
        Self {
            layout,
            server: Read::default(),
            drawn: Read::default(),
            depths: [0; 18],
            differences: Differences::default(),
        }
    }

    /// Compares the answers about an archive; the keys, bounds and limits are those of a seed. The last argument tells of a share, one in so many,
    /// whether the archive is in it.
    fn archive(
        &mut self,
        bytes: Vec<u8>,
        name: impl Display,
        seed: u64,
        chosen: impl Fn(u64) -> bool,
    ) {
        let (archive, random) = (Archive::copy(&bytes), &mut Random::new(seed));
        let layout = self.layout;
        let mut compared = self.server.compare(layout, SERVER, &archive, random);
        if chosen(DEPTHS_ONE_IN) {
            compared = compared.and_then(|()| self.at_each_depth(&archive));
        }
        if chosen(DRAWN_ONE_IN) {
            compared = compared.and_then(|()| self.under_drawn(&archive, random));
        }
        if let Err(difference) = compared {
            self.differences
                .add(archive, format!("{name}: {difference}"));
        }
    }

    /// The check at each depth.
    fn at_each_depth(&mut self, archive: &Archive) -> Result<(), String> {
        let least = limits::at_each_depth(self.layout.entries, archive)?;
        self.depths[least.unwrap_or(0)] += 1;
        Ok(())
    }

    /// Every reader under drawn limits, and under these and larger ones.
    fn under_drawn(&mut self, archive: &Archive, random: &mut Random) -> Result<(), String> {
        let length = archive.bytes().len();
        let smaller = trees::limits(length, random);
        self.drawn.compare(self.layout, smaller, archive, random)?;
        let larger = trees::larger(smaller, length, random);
        limits::under_two(self.layout.entries, [smaller, larger], archive, random)
    }

    /// Prints what there was of so many seeds and what is wrong with it, and tells whether nothing is.
    fn finish(&self, number: u64) -> bool {
        let (archives, _) = self.server.counts.all();
        println!("{:36}{archives:9}", "archives of seeds");
        self.server.print("");
        let checked = self.depths.iter().sum::<u64>();
        println!("{:36}{checked:9}", "archives checked at each depth");
        for depth in LEAST_DEPTHS {
            let name = format!("accepted from depth {depth:2} on");
            println!("{name:36}{:9}", self.depths[depth]);
        }
        let (drawn, _) = self.drawn.counts.all();
        println!("{:36}{drawn:9}", "archives under drawn limits");
        self.drawn.print("drawn: ");

        let none = || RangeInclusive::new(1, 0);
        let (often, often_drawn) = match number {
            LONGER.. => (1..=9, 1..=9),
            LONG.. => (2..=9, 1..=9),
            _ => (none(), none()),
        };
        let rare = [
            self.server.counts.rare(often),
            self.drawn.counts.rare(often_drawn),
        ]
        .concat();
        if !rare.is_empty() {
            println!("less than {LEAST} times: {rare:?}");
        }
        let mut depths = LEAST_DEPTHS;
        let every = depths.all(|depth| self.depths[depth] > 0);
        if !every {
            println!("a depth from 2 to 16 is the least that accepts for no archive");
        }
        self.differences.print() && rare.is_empty() && every
    }
}

impl Read {
    /// Compares what every reader answers about an archive under limits.
    fn compare(
        &mut self,
        layout: Layout,
        limits: Limits,
        archive: &Archive,
        random: &mut Random,
    ) -> Result<(), String> {
        self.counts.add(layout.certify(limits, archive.bytes()));
        let left_out = &mut self.left_out;
        readers::compare(layout.entries, limits, archive, random, left_out)
            .map_err(|difference| format!("{limits:?}: {difference}"))
    }

    /// Prints the archives by kind and what was compared with the model only, each line of the first with a text in front.
    fn print(&self, front: &str) {
        let (_, certified) = self.counts.all();
        let accepted = self.left_out.certify;
        for (name, number) in [("accepted", accepted), ("certified", certified)] {
            println!("{:36}{number:9}", format!("{front}{name}"));
        }
        self.counts.print_under(front, 1..=9);
        print!("{}", self.left_out);
    }
}
