//! A question to the builder: rkyv's archive, byte for byte by its checksum, or 16 where rkyv panics since an offset does not fit; the papers
//! answer 10 to 14 and 24, which are ours alone.

use super::{length, line, Question, WIDTH};
use crate::building::Right;
use crate::model::{self, RANGE};

/// What every byte of an output is before a build.
const BEFORE: u8 = 165;

/// A list as the input has it.
#[derive(Clone)]
pub enum List {
    Numbers(Vec<u64>),
    /// From the first number on in steps; past the largest it goes on at 0.
    Steps(usize, u64, u64),
}

impl List {
    fn length(&self) -> usize {
        match self {
            List::Numbers(numbers) => numbers.len(),
            List::Steps(length, _, _) => *length,
        }
    }

    fn numbers(&self) -> Vec<u64> {
        match self {
            List::Numbers(numbers) => numbers.clone(),
            &List::Steps(length, first, step) => (0..length as u64)
                .map(|index| first.wrapping_add(index.wrapping_mul(step)))
                .collect(),
        }
    }

    fn put(&self, bytes: &mut Vec<u8>) {
        match self {
            List::Numbers(numbers) => {
                bytes.extend(length(numbers.len()));
                bytes.push(0);
                bytes.extend(numbers.iter().flat_map(|number| number.to_le_bytes()));
            }
            List::Steps(count, first, step) => {
                bytes.extend(length(*count));
                bytes.push(1);
                bytes.extend([first, step].iter().flat_map(|number| number.to_le_bytes()));
            }
        }
    }
}

/// The length of the output: this one, or as long as the archive's end and these bytes more or fewer.
#[derive(Clone, Copy)]
pub enum Room {
    Of(usize),
    Past(isize),
}

/// The question with so many entries a node, and what must be printed of it.
pub fn build(entries: usize, header: u64, room: Room, keys: &List, values: &List) -> Question {
    let (given_keys, given_values) = (keys.numbers(), values.numbers());
    let (outside, unequal) = (!RANGE.contains(&entries), keys.length() != values.length());
    let right = || right(entries, header, &given_keys, &given_values);
    let room = match room {
        Room::Of(length) => length,
        // Where a list is refused before it could be built, any length will do.
        Room::Past(_) if outside || unequal => 512,
        Room::Past(more) => right().end.saturating_add_signed(more),
    };
    let end = || right().end;
    let fault = match outside {
        true => Some(24),
        false => model::build_fault(&given_keys, &given_values, header, end, room),
    };

    let mut bytes = vec![2, WIDTH, entries as u8];
    bytes.extend(header.to_le_bytes());
    bytes.extend(length(room));
    keys.put(&mut bytes);
    values.put(&mut bytes);

    let mut output = vec![BEFORE; room];
    let needed = needed(entries, given_keys.len(), header);
    let mut lines = vec![line("length", needed, |end| end.to_string())];
    let answer = fault.map_or_else(|| right().archive, Err);
    if let Ok(archive) = &answer {
        output[..archive.len()].copy_from_slice(archive);
    }
    let count = answer.as_ref().ok().map(|_| given_keys.len());
    lines.push(line("build", answer, |archive| archive.len().to_string()));
    lines.extend(count.map(|count| format!("certify {count}")));
    lines.push(format!("checksum {}", checksum(&output)));
    Question { bytes, lines }
}

/// What is right for these lists behind a header, if no other refusal comes before 16.
fn right(entries: usize, header: u64, keys: &[u64], values: &[u64]) -> Right {
    let header = vec![BEFORE; header as usize];
    Right::of(entries, &header, keys, values)
}

/// How long an output has to be for so many entries: where the archive of others, as many, ends.
fn needed(entries: usize, count: usize, header: u64) -> Result<usize, u8> {
    if !RANGE.contains(&entries) {
        return Err(24);
    }
    if count > 40_000 {
        return Err(11);
    }
    if header > 4_096 {
        return Err(13);
    }
    let numbers: Vec<u64> = (0..count as u64).collect();
    let right = right(entries, header, &numbers, &numbers);
    right.archive.map(|archive| archive.len())
}

/// The bytes as the digits of a number in base 1,000,003, the first one the highest: its remainder by the largest prime below 2^32.
pub fn checksum(bytes: &[u8]) -> u64 {
    bytes.iter().fold(0, |remainder, &byte| {
        (remainder * 1_000_003 + u64::from(byte)) % 4_294_967_291
    })
}
