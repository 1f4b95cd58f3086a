//! Questions about an archive that can be asked again, and what the proved readers answer to them.

use crate::columns;
use crate::model::{Column, Layout, Limits, PACKINGS, SERVER};
use crate::ours;
use crate::rkyv_map::Found;
use crate::trees::{self, Random};

use super::lent::{lent, BEFORE};
use super::{pairs, Bounds};

/// Keys, ranges and columns, a few of each.
const QUESTIONS: usize = 2;

/// What is asked, and the lists that are lent to each call.
pub struct Questions {
    sought: Vec<u64>,
    ranges: Vec<Bounds>,
    columns: Vec<Column>,
    lent: (Vec<u64>, Vec<u64>),
}

/// What every reader answers, and the lists after each call that writes.
#[derive(Debug, PartialEq)]
pub struct Answers<'a> {
    counts: [Result<u32, u8>; 2],
    found: Vec<Result<Option<Found>, u8>>,
    parts: Vec<Result<&'a [u8], u8>>,
    many: (Result<u32, u8>, Vec<u64>),
    written: Vec<(Result<(u32, u64), u8>, Vec<u64>, Vec<u64>)>,
}

impl Questions {
    /// Questions about an archive, from a seed.
    pub fn new(layout: Layout, bytes: &[u8], random: &mut Random) -> Self {
        let list = match layout.check(SERVER, bytes) {
            Ok(_) => pairs(&layout.list(bytes)),
            Err(_) => Vec::new(),
        };
        let keys: Vec<u64> = list.iter().map(|entry| entry.0).collect();
        let sought = trees::sought(&keys, QUESTIONS, random);
        let ranges = (0..QUESTIONS).map(|_| trees::bounds(&keys, random));
        let ranges = ranges.collect();
        let columns = sought.iter().zip(PACKINGS);
        let columns = columns.map(|(&key, packing)| columns::about(key, packing, random));
        Self {
            columns: columns.collect(),
            sought,
            ranges,
            lent: lent(&list, random),
        }
    }

    /// The proved readers' answers under limits.
    pub fn answers<'a>(&self, layout: Layout, limits: Limits, bytes: &'a [u8]) -> Answers<'a> {
        let ours = ours::at(layout).under(limits);
        let sought = self.sought.iter();
        let mut places = vec![BEFORE; self.sought.len()];
        let many = ours.lookup_many(bytes, &self.sought, &mut places);
        let mut written = Vec::new();
        let (mut keys, mut values) = self.lent.clone();
        let walked = ours.walk(bytes, &mut keys, &mut values);
        let walked = walked.map(|(written, count)| (written, count.into()));
        written.push((walked, keys, values));
        for &(lower, upper) in &self.ranges {
            let (mut keys, mut values) = self.lent.clone();
            let answer = ours.range(bytes, lower, upper, &mut keys, &mut values);
            written.push((answer, keys, values));
        }
        for &column in &self.columns {
            let (mut keys, mut values) = self.lent.clone();
            let answer = ours.column(bytes, column, &mut keys, &mut values);
            written.push((answer, keys, values));
        }
        Answers {
            counts: [ours.check(bytes), ours.certify(bytes)],
            found: sought.clone().map(|&key| ours.lookup(bytes, key)).collect(),
            parts: sought.map(|&key| ours.lookup_bytes(bytes, key)).collect(),
            many: (many, places),
            written,
        }
    }
}
