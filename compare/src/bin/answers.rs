//! Writes a sample of rkyv's answers for a program that replays it without rkyv.
//!
//! `answers INPUT EXPECTED` writes questions to the first file and, to the second, the text that a program must print of them. Built for
//! pointers of 32 bits it writes both files anew. Built for 16 or 64 bits it adds its archives and builds to the files that are there; what has
//! no pointers is asked once. The sample is the same on every run, and so are the files after a run of each build, that for 32 bits first, then
//! 16, then 64. `answers INPUT EXPECTED NUMBER SEED` writes or adds random questions: so many archives, and as many builds and questions of
//! each other kind; from 10,000 on it ends with 1 if one of the refusals in `OFTEN` comes up less than 100 times among them.
//!
//! The input is a sequence of questions, all numbers little-endian. A question starts with its kind (u8), and 0 ends the file:
//!
//! - 1: the width of pointers (u8: 16, 32 or 64) and the entries a node (u8); the limits, the longest archive and the depth (u64); the archive's
//!   length (u32) and the archive; the number of lookups (u32) and their keys (u64); the number of ranges (u32) and of each the lower and the
//!   upper bound, a kind (u8: 0 included, 1 excluded, 2 unbounded) and a key (u64); the number of column queries (u32) and of each the packing,
//!   examination (u32), eye (u8), a and b (i8).
//! - 2: a build: the width of pointers and the entries a node (u8), the header's length (u64), the output's (u32), and the lists of keys and of
//!   values, each its length (u32), its form (u8) and the numbers (form 0, u64), or the first number and the step to the next (form 1, u64).
//! - 3 and 4: a signed difference and a 32-bit offset, from and to (u64). 5: an absent offset, at (u64). 6: an alignment step, position and
//!   alignment (u64).
//! - 7: a key to pack: packing, examination (u32), eye (u8), x and y (i8), presentation (u32). 8: a key to unpack: packing, key (u64). 9: a
//!   value to read (u64).
//!
//! A packing (u8) is 0 for two's complement and 1 for plus 128.
//!
//! The text begins with `too long refused 1`, of 1,048,577 bytes that are 165, and `longest`, of 1,048,576 of them, which the program makes
//! itself and reads with pointers of 32 bits. A refused call prints its name and `refused R`. Else, in the order of the questions:
//!
//! - of an archive `check N` and `certify N`; `walk W of N` for two lent lists, the shorter of 64 places, and W lines `KEY VALUE`; for each key
//!   `lookup KEY VALUE POSITION` or `lookup none`, and lookup's second form, `bytes 8 NUMBER` or, empty, `bytes 0`; for each range
//!   `range W of K`, W written to two such lists and K matching, and W lines `KEY VALUE`; for each column query the same;
//! - of a build `length N`, which as many entries as there are keys need, `build N`, `certify N` of the archive, and also where it is refused
//!   `checksum C` of the whole output, all of whose bytes are 165 before;
//! - `distance D`, `offset O`, `absent O`, `align NEXT ZEROS`, `pack KEY`, `unpack EXAMINATION EYE X Y PRESENTATION`, and `value THRESHOLD`
//!   or `value seen THRESHOLD`.
//!
//! It ends with `questions N`, the number of questions in the input. A sample for the gate that is shorter than `SAMPLE` is not written.
//!
//! `compare::questions` says who gives each answer.

use std::ops::RangeInclusive;
use std::process::ExitCode;
use std::{env, fs, io};

use compare::counts::{Counts, LEAST};
use compare::questions::{archives, builds, parts, Question};
use compare::rkyv_map::BITS;
use compare::trees::Random;

/// What rkyv has no answer to, and how the lines begin that have one.
const NOT_RKYV: [(&str, &[&str]); 6] = [
    ("checks refused by 1", &["check refused 1"]),
    ("certify", &["certify "]),
    (
        "checks and builds refused by 24",
        &["check refused 24", "build refused 24"],
    ),
    (
        "builds refused by 10 to 14",
        &[
            "build refused 10",
            "build refused 11",
            "build refused 12",
            "build refused 13",
            "build refused 14",
        ],
    ),
    ("refused alignment steps", &["align refused"]),
    (
        "keys packed and unpacked, values",
        &["pack ", "unpack ", "value "],
    ),
];
/// The sample for the gate has at least this many archives, builds, and parts and keys.
const SAMPLE: [usize; 3] = match BITS {
    32 => [579, 136, 475],
    16 => [299, 94, 0],
    _ => [299, 78, 0],
};
/// A random sample of this many archives must have each of these refusals often enough: 15 and 17 are of parts only, and 16 is of a part or of
/// offsets that do not fit 16 bits.
const LONG: usize = 10_000;
const OFTEN: &[RangeInclusive<usize>] = match BITS {
    32 => &[1..=18, 24..=24],
    16 => &[1..=14, 16..=16, 18..=18, 24..=24],
    _ => &[1..=14, 18..=18, 24..=24],
};

fn main() -> ExitCode {
    let arguments: Vec<String> = env::args().skip(1).collect();
    let (files, number, questions) = match arguments.as_slice() {
        [input, expected] => ((input, expected), 0, sample()),
        [input, expected, number, seed] => {
            let number = number.parse().expect("a number of questions");
            let seed = seed.parse().expect("a seed");
            ((input, expected), number, random(number, seed))
        }
        _ => {
            eprintln!("usage: answers INPUT EXPECTED [NUMBER SEED]");
            return ExitCode::FAILURE;
        }
    };
    let refusals = match before(files).and_then(|before| write(files, before, questions)) {
        Ok(refusals) => refusals,
        Err(error) => {
            eprintln!("answers: {error}");
            return ExitCode::FAILURE;
        }
    };
    let rare = OFTEN
        .iter()
        .flat_map(|numbers| refusals.rare(numbers.clone()));
    let rare: Vec<usize> = rare.collect();
    if number >= LONG && !rare.is_empty() {
        println!("less than {LEAST} times: {rare:?}");
        return ExitCode::FAILURE;
    }
    ExitCode::SUCCESS
}

/// The sample for the gate.
fn sample() -> [Vec<Question>; 3] {
    let sample = [archives::all(), builds::all(), once(parts::all)];
    for (questions, least) in sample.iter().zip(SAMPLE) {
        assert!(questions.len() >= least, "the sample became shorter");
    }
    sample
}

fn random(number: usize, seed: u64) -> [Vec<Question>; 3] {
    println!("seed {seed}");
    let random = &mut Random::new(seed);
    [
        archives::random(number, seed),
        builds::random(number, random),
        once(|| parts::random(number, random)),
    ]
}

/// What has no pointers is asked by the build for 32 bits.
fn once(questions: impl FnOnce() -> Vec<Question>) -> Vec<Question> {
    match BITS {
        32 => questions(),
        _ => Vec::new(),
    }
}

/// What stands in the files before the questions, without their ends, and the number of questions there.
struct Before {
    bytes: Vec<u8>,
    text: String,
    questions: usize,
}

/// With pointers of 32 bits no question and the lines that have none; else what the files hold.
fn before((input, expected): (&String, &String)) -> io::Result<Before> {
    if BITS == 32 {
        return Ok(Before {
            bytes: Vec::new(),
            text: archives::longest().join("\n") + "\n",
            questions: 0,
        });
    }
    let (mut bytes, mut text) = (fs::read(input)?, fs::read_to_string(expected)?);
    let ended = bytes.pop() == Some(0);
    let last = text.trim_end().rfind('\n').map_or(0, |end| end + 1);
    let number = text[last..].trim_end().strip_prefix("questions ");
    let number = number.and_then(|number| number.parse().ok());
    let Some(questions) = number.filter(|_| ended) else {
        let text = "the files do not end as those that the build for 32 bits writes";
        return Err(io::Error::new(io::ErrorKind::InvalidData, text));
    };
    text.truncate(last);
    Ok(Before {
        bytes,
        text,
        questions,
    })
}

/// Writes both files, and gives the refused calls among these questions by number.
fn write(
    (input, expected): (&String, &String),
    mut before: Before,
    questions: [Vec<Question>; 3],
) -> io::Result<Counts> {
    println!("pointers of {BITS} bits");
    for (name, questions) in ["archives", "builds", "parts and keys"]
        .iter()
        .zip(&questions)
    {
        println!("{name:14}                      {:9}", questions.len());
    }
    let number = before.questions + questions.iter().map(Vec::len).sum::<usize>();
    let mut lines = Vec::new();
    for question in questions.into_iter().flatten() {
        before.bytes.extend(question.bytes);
        lines.extend(question.lines);
    }
    before.bytes.push(0);
    for line in &lines {
        before.text += &format!("{line}\n");
    }
    before.text += &format!("questions {number}\n");
    fs::write(input, &before.bytes)?;
    fs::write(expected, &before.text)?;
    print(&before, &lines);
    Ok(refusals(&lines))
}

/// Prints how long the files are, and what there is among the lines of the questions.
fn print(written: &Before, lines: &[String]) {
    let text = written.text.lines().count();
    println!(
        "bytes of input                      {:9}",
        written.bytes.len()
    );
    println!("lines of text                       {text:9}");
    refusals(lines).print(1..=18);
    refusals(lines).print(24..=24);
    println!("answered by the papers only, not by rkyv:");
    for (name, starts) in NOT_RKYV {
        let answered = |line: &&String| starts.iter().any(|start| line.starts_with(start));
        println!("  {name:34}{:9}", lines.iter().filter(answered).count());
    }
}

/// The calls that are refused, by number.
fn refusals(lines: &[String]) -> Counts {
    let mut counts = Counts::default();
    for line in lines {
        if let Some((_, number)) = line.split_once(" refused ") {
            counts.add::<()>(Err(number.parse().expect("a refusal's number")));
        }
    }
    counts
}
