//! How often there was what: the answers by kind, differences, and what was not compared with rkyv.

use std::fmt;
use std::ops::RangeInclusive;

use crate::rkyv_map::Archive;

/// On a long run each refusal must come up this often.
pub const LEAST: u64 = 100;

/// Answers that are counted: accepted ones at 0, else by refusal.
#[derive(Default)]
pub struct Counts([u64; 25]);

impl Counts {
    pub fn add<T>(&mut self, answer: Result<T, u8>) {
        self.0[answer.map_or_else(usize::from, |_| 0)] += 1;
    }

    /// How many there were in all, and of those how many were not refused.
    pub fn all(&self) -> (u64, u64) {
        (self.0.iter().sum(), self.0[0])
    }

    /// The refusals among these that came up less than `LEAST` times.
    pub fn rare(&self, numbers: RangeInclusive<usize>) -> Vec<usize> {
        numbers.filter(|&number| self.0[number] < LEAST).collect()
    }

    /// A line for each of these refusals.
    pub fn print(&self, numbers: RangeInclusive<usize>) {
        self.print_under("", numbers);
    }

    /// The same, each line with a text in front.
    pub fn print_under(&self, front: &str, numbers: RangeInclusive<usize>) {
        for number in numbers {
            let (name, count) = (format!("{front}refused by {number:2}"), self.0[number]);
            println!("{name:36}{count:9}");
        }
    }
}

/// The archives of a run on which answers differ.
#[derive(Default)]
pub struct Differences {
    number: u64,
    /// The smallest of them, and the first difference on it.
    smallest: Option<(Archive, String)>,
}

impl Differences {
    pub fn add(&mut self, archive: Archive, difference: String) {
        self.number += 1;
        let length = archive.bytes().len();
        let smallest = self.smallest.as_ref();
        if smallest.is_none_or(|(least, _)| length < least.bytes().len()) {
            self.smallest = Some((archive, difference));
        }
    }

    /// Prints how many there were, and the smallest in hex, and tells whether there was none.
    pub fn print(&self) -> bool {
        println!("differing                           {:9}", self.number);
        if let Some((archive, difference)) = &self.smallest {
            println!("{difference}");
            for byte in archive.bytes() {
                print!("{byte:02x}");
            }
            println!();
        }
        self.number == 0
    }
}

/// Where rkyv has no answer, or none that can be asked for: there the proved code is compared with the second reading of document 01 only.
#[derive(Default)]
pub struct LeftOut {
    /// Archives longer than the limit, the server's or a drawn one.
    pub too_long: u64,
    /// Accepted archives, of which certify was asked.
    pub certify: u64,
    /// Ranges asked of certified archives whose bounds cross.
    pub crossed: u64,
    /// Ranges asked of hollow archives.
    pub hollow: u64,
    /// Ranges asked of archives that are not hollow and whose keys do not ascend.
    pub unsorted: u64,
    /// Calls that name a number of entries a node outside 3 to 15.
    pub outside: u64,
}

impl fmt::Display for LeftOut {
    fn fmt(&self, f: &mut fmt::Formatter<'_>) -> fmt::Result {
        let lines = [
            ("archives longer than the limit", self.too_long),
            ("certify of accepted archives", self.certify),
            ("crossed ranges", self.crossed),
            ("ranges of hollow archives (RawIter)", self.hollow),
            ("ranges of unsorted archives", self.unsorted),
            ("calls refused by 24", self.outside),
        ];
        writeln!(f, "with the second reading only, not with rkyv:")?;
        for (name, count) in lines {
            writeln!(f, "  {name:35}{count:9}")?;
        }
        Ok(())
    }
}
