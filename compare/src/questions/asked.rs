//! Questions to the readers about one archive: rkyv answers check, walk, lookup and range; the model answers refusals 1, 8, 9 and 24, column
//! queries' bounds and crossed ranges, where rkyv has no say.

use std::ops::Bound;

use super::{length, line, number, Question, WIDTH};
use crate::model::{self, Column, Layout, Limits, RANGE};
use crate::oracle::{self, Reads};
use crate::rkyv_map::Archive;

/// Places of each lent list.
const ROOM: usize = 64;

/// An archive and what is asked of it.
pub struct Case {
    /// The entries a node that the calls are given.
    pub entries: usize,
    /// The limits that they are given.
    pub limits: Limits,
    pub archive: Vec<u8>,
    pub keys: Vec<u64>,
    pub ranges: Vec<(Bound<u64>, Bound<u64>)>,
    pub columns: Vec<Column>,
}

impl Case {
    pub fn question(&self) -> Question {
        Question {
            bytes: self.bytes(),
            lines: self.lines(),
        }
    }

    fn bytes(&self) -> Vec<u8> {
        let mut bytes = vec![1, WIDTH, self.entries as u8];
        for limit in [self.limits.longest, self.limits.depth] {
            bytes.extend((limit as u64).to_le_bytes());
        }
        bytes.extend(length(self.archive.len()));
        bytes.extend(&self.archive);
        bytes.extend(length(self.keys.len()));
        bytes.extend(self.keys.iter().flat_map(|key| key.to_le_bytes()));
        bytes.extend(length(self.ranges.len()));
        for &(lower, upper) in &self.ranges {
            for bound in [lower, upper] {
                let (kind, key) = match bound {
                    Bound::Included(key) => (0, key),
                    Bound::Excluded(key) => (1, key),
                    Bound::Unbounded => (2, 0),
                };
                bytes.push(kind);
                bytes.extend(key.to_le_bytes());
            }
        }
        bytes.extend(length(self.columns.len()));
        for column in &self.columns {
            bytes.push(number(column.packing));
            bytes.extend(column.examination.to_le_bytes());
            bytes.extend([column.eye, column.a as u8, column.b as u8]);
        }
        bytes
    }

    fn lines(&self) -> Vec<String> {
        if !RANGE.contains(&self.entries) {
            return self.refused(24);
        }
        if self.limits.too_long(&self.archive) {
            return self.refused(1);
        }
        let archive = Archive::copy(&self.archive);
        let lines = match oracle::check(self.entries, self.limits, &archive) {
            Ok(accepted) => self.accepted(&*accepted),
            Err(number) => self.refused(number),
        };
        lines
    }

    /// Every call is refused with the same number; only lookup's second form gives the empty part.
    fn refused(&self, number: u8) -> Vec<String> {
        let refused = |call| format!("{call} refused {number}");
        let mut lines = vec![refused("check"), refused("certify"), refused("walk")];
        for _ in &self.keys {
            lines.extend([refused("lookup"), "bytes 0".into()]);
        }
        lines.extend(self.ranges.iter().map(|_| refused("range")));
        lines.extend(self.columns.iter().map(|_| refused("column")));
        lines
    }

    fn accepted(&self, accepted: &dyn Reads) -> Vec<String> {
        let fault = Layout::with(self.entries).fault(&self.archive);
        let count = accepted.count();
        let certified = fault.map_or(Ok(count), Err);
        let mut lines = vec![format!("check {count}")];
        lines.push(line("certify", certified, |count| count.to_string()));
        lines.extend(written("walk", &accepted.visit(), count as usize));
        for &key in &self.keys {
            lines.extend(match accepted.get(key) {
                Some((key, value, position)) => [
                    format!("lookup {key} {value} {position}"),
                    format!("bytes 8 {value}"),
                ],
                None => ["lookup none".into(), "bytes 0".into()],
            });
        }
        for &bounds in &self.ranges {
            let bounds = certified.map(|_| bounds);
            lines.extend(range("range", accepted, bounds));
        }
        for &column in &self.columns {
            let bounds = certified.and_then(|_| model::column(column));
            let answer = range("column", accepted, bounds);
            if bounds.is_ok() {
                assert_eq!(answer, by_fields(accepted, column), "{column:?}");
            }
            lines.extend(answer);
        }
        lines
    }
}

/// The entries of a certified archive that meet both bounds, or the refusal.
fn range(
    call: &str,
    accepted: &dyn Reads,
    bounds: Result<(Bound<u64>, Bound<u64>), u8>,
) -> Vec<String> {
    let (lower, upper) = match bounds {
        Ok(bounds) => bounds,
        Err(number) => return vec![format!("{call} refused {number}")],
    };
    if model::crosses(lower, upper) {
        return written(call, &[], 0);
    }
    let range = accepted.range(lower, upper);
    written(call, &range, range.len())
}

/// A column query's answer by the fields of the keys, without its bounds.
fn by_fields(accepted: &dyn Reads, column: Column) -> Vec<String> {
    let mut entries = accepted.visit();
    entries.retain(|entry| model::in_column(column, entry.0));
    written("column", &entries, entries.len())
}

/// What two lent lists take of some entries.
fn written(call: &str, entries: &[(u64, u64)], of: usize) -> Vec<String> {
    let written = entries.len().min(ROOM);
    let mut lines = vec![format!("{call} {written} of {of}")];
    lines.extend(
        entries[..written]
            .iter()
            .map(|(key, value)| format!("{key} {value}")),
    );
    lines
}
