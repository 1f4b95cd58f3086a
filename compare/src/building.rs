//! Calls to a builder, and what they must give: the bytes that rkyv and the second reading build of the same lists, or a refusal.
//!
//! Where an offset does not fit rkyv's pointers, rkyv panics: there a builder must refuse by 16, and nowhere else. rkyv has no counterpart
//! to the other refusals.

use std::fmt;
use std::ops::RangeInclusive;

use crate::counts::{Counts, LEAST};
use crate::lists::entries;
use crate::model::{Layout, LONGEST_HEADER, SERVER};
use crate::oracle;
use crate::readers::{same, same_bytes};
use crate::rkyv_map::BITS;
use crate::trees::{Complete, Random};

/// The longest header.
pub const HEADER: usize = LONGEST_HEADER as usize;

/// What is right where nothing that comes before 16 refuses a build.
pub struct Right {
    /// The archive with the header in front, or 16.
    pub archive: Result<Vec<u8>, u8>,
    /// Where it ends, or would end.
    pub end: usize,
    /// Whether rkyv panics.
    pub panics: bool,
}

impl Right {
    /// What rkyv and the second reading say, with so many entries a node.
    ///
    /// # Panics
    ///
    /// Where they do not say the same, but for one place: rkyv keeps the root's position in as many bits as its pointers have. Past these it
    /// panics, though every offset fits.
    pub fn of(entries: usize, header: &[u8], keys: &[u64], values: &[u64]) -> Self {
        let layout = Layout::with(entries);
        let built = Complete::of(layout, header, keys, values);
        let by_rkyv = oracle::build(entries, header, keys, values);
        let cut = built.root.is_some_and(|root| root >> BITS.min(63) > 0);
        let what = || {
            let (count, front) = (keys.len(), header.len());
            format!("rkyv and the second reading, {layout:?}, {count} behind {front} bytes")
        };
        match &by_rkyv {
            Some(archive) => assert!(
                built.fits && !cut && *archive == built.archive,
                "{}",
                what()
            ),
            None => assert!(!built.fits || cut, "{}", what()),
        }
        Self {
            end: built.archive.len(),
            archive: if built.fits {
                Ok(built.archive)
            } else {
                Err(16)
            },
            panics: by_rkyv.is_none(),
        }
    }
}

/// The most entries whose offsets fit 16 bits, with 3 to 15 a node.
const MOST_AT_16: [usize; 13] = [
    2_556, 2_224, 2_970, 2_070, 2_282, 2_512, 2_808, 3_160, 3_575, 2_028, 2_067, 2_100, 2_145,
];

/// The most entries whose offsets fit 16 bits with so many a node: one more does not fit, which `builds` and its test try.
pub fn most_at_16(entries: usize) -> usize {
    MOST_AT_16[entries - 3]
}

/// What a call is given, and the length of the output that it is lent.
#[derive(Clone, Copy)]
pub struct Given<'a> {
    pub length: usize,
    pub header: usize,
    pub keys: &'a [u64],
    pub values: &'a [u64],
}

impl<'a> Given<'a> {
    /// The same call with an output of this length.
    pub fn length(self, length: usize) -> Self {
        Self { length, ..self }
    }

    /// The same behind so many bytes.
    fn header(self, header: usize) -> Self {
        Self { header, ..self }
    }

    /// The same with these keys.
    fn keys(self, keys: &'a [u64]) -> Self {
        Self { keys, ..self }
    }

    /// The same with these values.
    fn values(self, values: &'a [u64]) -> Self {
        Self { values, ..self }
    }

    /// The same with faults that other refusals come before: by 13, and if that were not so by 14.
    fn late(self) -> Self {
        self.header(HEADER + 1).length(0)
    }
}

impl fmt::Display for Given<'_> {
    fn fmt(&self, f: &mut fmt::Formatter<'_>) -> fmt::Result {
        let (keys, values) = (self.keys.len(), self.values.len());
        let (header, length) = (self.header, self.length);
        write!(f, "{keys} keys and {values} values behind {header} bytes")?;
        write!(f, ", in an output of {length}")
    }
}

/// Calls like this one that are refused, each with its number. The keys of this one ascend, and there are as many values.
pub fn refused(given: Given<'_>, random: &mut Random, mut call: impl FnMut(u8, Given<'_>)) {
    other_lengths(given, &mut call);
    unordered(given, random, &mut call);
    outside(given, &mut call);
}

/// 10, which comes before all others.
fn other_lengths(given: Given<'_>, call: &mut impl FnMut(u8, Given<'_>)) {
    let one_more = &[given.values, &[0]].concat();
    for given in [given, given.late()] {
        call(10, given.values(one_more));
        if let [fewer @ .., _] = given.values {
            call(10, given.values(fewer));
        }
    }
}

/// 12, which comes before 13 and 14: two neighbours that are equal, or two that descend.
fn unordered(given: Given<'_>, random: &mut Random, call: &mut impl FnMut(u8, Given<'_>)) {
    let Given { keys, values, .. } = given;
    if keys.len() < 2 {
        return;
    }
    let place = random.below(keys.len() - 1);
    for place in [0, place, keys.len() - 2] {
        let equal = &mut keys.to_vec();
        equal[place] = keys[place + 1];
        let descending = &mut keys.to_vec();
        descending.swap(place, place + 1);
        for keys in [equal, descending] {
            call(10, given.keys(keys).values(&values[1..]));
            call(12, given.keys(keys));
            call(12, given.late().keys(keys));
        }
    }
}

/// 13, and 14 behind it, also where the output ends in the header.
fn outside(given: Given<'_>, call: &mut impl FnMut(u8, Given<'_>)) {
    for header in [HEADER + 1, HEADER + 1 + given.keys.len(), usize::MAX] {
        call(13, given.header(header));
        call(13, given.header(header).length(0));
    }
    for length in [0, given.header / 2, given.header] {
        call(14, given.length(length));
    }
}

/// Calls with a list that is too long, of so many entries: 11 comes after 10 and before all others.
pub fn too_many(number: usize, random: &mut Random, mut call: impl FnMut(u8, Given<'_>)) {
    let (keys, values) = &entries(number, random);
    let given = Given {
        length: SERVER.longest,
        header: 0,
        keys,
        values,
    };
    call(10, given.values(&values[1..]));
    let swapped = &mut keys.clone();
    swapped.swap(0, number / 2);
    for given in [given, given.length(0), given.late(), given.keys(swapped)] {
        call(11, given);
    }
}

/// The output that calls are lent the front of, and what came of them.
pub struct Outputs {
    /// What the output holds before a call: bytes other than 0.
    before: Vec<u8>,
    output: Vec<u8>,
    /// The answers, of which those that are no refusals are compared with rkyv's bytes.
    answers: Counts,
    differing: u64,
    /// The first difference.
    first: Option<String>,
}

impl Outputs {
    pub fn new(random: &mut Random) -> Self {
        let bytes = (0..SERVER.longest).map(|_| 1 + random.below(255) as u8);
        Self {
            before: bytes.collect(),
            output: vec![0; SERVER.longest],
            answers: Counts::default(),
            differing: 0,
            first: None,
        }
    }

    /// The header of so many bytes that the output has before a call.
    pub fn header(&self, length: usize) -> &[u8] {
        &self.before[..length]
    }

    /// What is wrong with a call that must give the end of this archive, whose first bytes are the header, and leave what is past it, or must
    /// give this refusal and leave all as it was.
    pub fn call(
        &mut self,
        given: Given<'_>,
        right: Result<&[u8], u8>,
        build: impl FnOnce(&mut [u8], Given<'_>) -> Result<u64, u8>,
    ) -> Result<(), String> {
        let before = &self.before[..given.length];
        let output = &mut self.output[..given.length];
        output.copy_from_slice(before);
        let answer = build(output, given);
        self.answers.add(answer);

        let archive = right.unwrap_or_default();
        let (built, past) = output.split_at(archive.len());
        let end = right.map(|archive| archive.len() as u64);
        same("answer", ("right", end), ("ours", answer))
            .and_then(|()| same_bytes("archive", archive, built))
            .and_then(|()| same_bytes("other bytes", &before[archive.len()..], past))
    }

    /// The first bytes of the output after a call.
    pub fn written(&self, length: usize) -> &[u8] {
        &self.output[..length]
    }

    /// Keeps the first of the differences.
    pub fn note(&mut self, what: impl fmt::Display, difference: Result<(), String>) {
        if let Err(difference) = difference {
            self.differing += 1;
            self.first.get_or_insert(format!("{what}: {difference}"));
        }
    }

    /// Prints how many archives and refusals by these numbers there were and what is wrong, and tells whether nothing is. Where there is
    /// enough, each of these numbers must come up often.
    pub fn finish(&self, refusals: &[RangeInclusive<usize>], enough: bool) -> bool {
        let (all, archives) = self.answers.all();
        let line = |name: &str, count: u64| println!("{name:36}{count:9}");
        line("archives compared", archives);
        line("refused calls", all - archives);
        let mut rare = Vec::new();
        for numbers in refusals {
            self.answers.print(numbers.clone());
            rare.extend(self.answers.rare(numbers.clone()));
        }
        line("differing", self.differing);
        let few = enough && !rare.is_empty();
        if few {
            println!("less than {LEAST} times: {rare:?}");
        }
        if let Some(difference) = &self.first {
            println!("{difference}");
        }
        self.differing == 0 && !few
    }
}
