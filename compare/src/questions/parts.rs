//! Questions to the parts, to key packing and to the bits of values. rkyv answers the parts; document 01 answers 17, which is ours alone, and
//! the rest, with document 02 for the second packing.

use super::{line, number, Question};
use crate::model::{self, KeyFields, Packing, PACKINGS};
use crate::rkyv_parts;
use crate::trees::Random;

/// Random questions of each kind in the sample for the gate.
const RANDOM: usize = 24;

/// Those that document 01 speaks of, and random ones.
pub fn all() -> Vec<Question> {
    let mut questions = Asked::named().questions();
    questions.extend(random(RANDOM, &mut Random::new(1)));
    questions
}

/// So many random questions of each kind.
pub fn random(number: usize, random: &mut Random) -> Vec<Question> {
    let mut asked = Asked::default();
    for _ in 0..number {
        asked.pairs.push((position(random), position(random)));
        asked.positions.push(position(random));
        let alignment = random.pick(&[1, 2, 4, 8, 16, 32, 32, 0, 3, 64]);
        asked.steps.push((position(random), alignment));
        asked.keys.push(any_key(random));
        asked.packed.push(random.number());
        asked.values.push(random.number());
    }
    asked.questions()
}

/// What is asked.
#[derive(Default)]
struct Asked {
    /// Two positions for a difference and an offset.
    pairs: Vec<(u64, u64)>,
    /// Positions of absent marks.
    positions: Vec<u64>,
    /// Positions and alignments.
    steps: Vec<(u64, u64)>,
    /// Keys to pack by both packings; what they give is unpacked by both.
    keys: Vec<KeyFields>,
    /// Keys to unpack by both packings.
    packed: Vec<u64>,
    /// Values to read.
    values: Vec<u64>,
}

impl Asked {
    /// Document 01's: cases *1 to *3 and *9, an absent mark at the largest position, alignments 32, 64 and 0, a padded position past the
    /// largest, each field of a key at and past its end; and points at every end of x and y, and on both sides of 0.
    fn named() -> Self {
        let (half, most) = (1 << 63, u64::MAX);
        let (examinations, presentations) = (1 << 24, 1 << 23);
        let mut pairs = vec![(half, 0), (0, half), (0, (1 << 31) - 1), (0, 1 << 31)];
        pairs.extend([(1 << 31, 0), ((1 << 31) + 1, 0), (most, 0), (0, most)]);
        pairs.extend([(0, 0), (most, most), (192, 8), (208, 96), (half + 1, 0)]);
        let mut steps = vec![(5, 8), (8, 8), (1, 32), (0, 64), (1, 64), (0, 0), (7, 0)];
        steps.extend([(most, 1), (most, 2), (most - 31, 32), (most - 30, 32)]);
        steps.extend([(3, 3), (0, 12), (0, most), (0, half)]);
        let mut keys = vec![
            key(1, 0, -3, 3, 2),
            key(examinations - 1, 1, -1, -1, presentations - 1),
            key(0, 0, i8::MIN, i8::MAX, 0),
            key(examinations, 0, 0, 0, 0),
            key(u32::MAX, 0, 0, 0, 0),
            key(0, 2, 0, 0, 0),
            key(0, u8::MAX, 0, 0, 0),
            key(0, 0, 0, 0, presentations),
            key(0, 0, 0, 0, u32::MAX),
            key(examinations, 2, -128, 127, presentations),
        ];
        for x in [-128, -1, 0, 127] {
            keys.extend([-128, -1, 0, 127].map(|y| key(1, 0, x, y, 2)));
        }
        Self {
            pairs,
            positions: vec![0, 1, 1 << 31, half - 1, half, most - 1, most],
            steps,
            keys,
            packed: vec![0, 1, half, most],
            values: vec![0, most, half, half - 1, 1 << 53, (1 << 53) - 1, 300 << 53],
        }
    }

    fn questions(&self) -> Vec<Question> {
        let mut questions = Vec::new();
        questions.extend(self.pairs.iter().map(|&(from, to)| distance(from, to)));
        questions.extend(self.pairs.iter().map(|&(from, to)| offset(from, to)));
        questions.extend(self.positions.iter().map(|&at| absent(at)));
        questions.extend(self.steps.iter().map(|&(position, by)| align(position, by)));
        let mut packed = self.packed.clone();
        for packing in PACKINGS {
            questions.extend(self.keys.iter().map(|fields| pack(packing, fields)));
            let fitting = self.keys.iter().flat_map(|key| model::pack(packing, key));
            packed.extend(fitting);
        }
        for packing in PACKINGS {
            questions.extend(packed.iter().map(|&key| unpack(packing, key)));
        }
        questions.extend(self.values.iter().map(|&number| value(number)));
        questions
    }
}

fn key(examination: u32, eye: u8, x: i8, y: i8, presentation: u32) -> KeyFields {
    KeyFields {
        examination,
        eye,
        x,
        y,
        presentation,
    }
}

/// A key whose fields fit as a rule.
fn any_key(random: &mut Random) -> KeyFields {
    let bits = random.number();
    let [eye, x, y] = [bits as u8 % 2, (bits >> 8) as u8, (bits >> 16) as u8];
    let mut key = key(
        (bits >> 40) as u32,
        eye,
        x as i8,
        y as i8,
        random.number() as u32 >> 9,
    );
    match random.below(12) {
        0 => key.examination = random.pick(&[1 << 24, u32::MAX, bits as u32]),
        1 => key.eye = random.pick(&[2, 3, 255]),
        2 => key.presentation = random.pick(&[1 << 23, u32::MAX, bits as u32]),
        _ => (),
    }
    key
}

/// A position of any size: small ones, near a power of two, large ones, and once in a while the largest.
fn position(random: &mut Random) -> u64 {
    let shift = random.below(64);
    let any = random.number() >> shift;
    random.pick(&[any, any | 1 << 31, any | 1 << 63, !any, any, u64::MAX])
}

/// A question of this kind about these numbers.
fn about(kind: u8, numbers: &[u64], line: String) -> Question {
    let mut bytes = vec![kind];
    bytes.extend(numbers.iter().flat_map(|number| number.to_le_bytes()));
    let lines = vec![line];
    Question { bytes, lines }
}

fn distance(from: u64, to: u64) -> Question {
    let answer = rkyv_parts::distance(from, to);
    let text = line("distance", answer, |distance| distance.to_string());
    about(3, &[from, to], text)
}

fn offset(from: u64, to: u64) -> Question {
    let answer = rkyv_parts::offset(from, to);
    let text = line("offset", answer, |offset| offset.to_string());
    about(4, &[from, to], text)
}

fn absent(at: u64) -> Question {
    let answer = rkyv_parts::absent(at);
    let text = line("absent", answer, |offset| offset.to_string());
    about(5, &[at], text)
}

fn align(position: u64, alignment: u64) -> Question {
    let answer = match model::aligns(position, alignment) {
        true => Ok(rkyv_parts::aligned(position, alignment)),
        false => Err(17),
    };
    let text = line("align", answer, |(next, zeros)| format!("{next} {zeros}"));
    about(6, &[position, alignment], text)
}

fn pack(packing: Packing, fields: &KeyFields) -> Question {
    let answer = model::pack(packing, fields);
    let mut question = about(7, &[], line("pack", answer, |key| key.to_string()));
    question.bytes.push(number(packing));
    question.bytes.extend(fields.examination.to_le_bytes());
    let narrow = [fields.eye, fields.x as u8, fields.y as u8];
    question.bytes.extend(narrow);
    question.bytes.extend(fields.presentation.to_le_bytes());
    question
}

fn unpack(packing: Packing, key: u64) -> Question {
    let KeyFields {
        examination,
        eye,
        x,
        y,
        presentation,
    } = model::unpack(packing, key);
    let text = format!("unpack {examination} {eye} {x} {y} {presentation}");
    let mut question = about(8, &[], text);
    question.bytes.push(number(packing));
    question.bytes.extend(key.to_le_bytes());
    question
}

fn value(value: u64) -> Question {
    let seen = match model::seen(value) {
        true => "seen ",
        false => "",
    };
    let text = format!("value {seen}{}", model::threshold(value));
    about(9, &[value], text)
}
