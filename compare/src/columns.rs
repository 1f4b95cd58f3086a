//! Column queries to ask of archives.

use crate::model::{self, Column, Packing};
use crate::trees::Random;

/// A query about the columns beside a key, as a rule of its own examination and eye; once in a while 18 refuses it.
pub fn about(key: u64, packing: Packing, random: &mut Random) -> Column {
    let fields = model::unpack(packing, key);
    let x = fields.x;
    let [any, other] = [random.number() as i8, random.number() as i8];
    Column {
        packing,
        examination: fields.examination + (u32::from(random.one_in(16)) << 24),
        eye: random.pick(&[fields.eye, fields.eye, fields.eye, 0, 1, 2]),
        a: random.pick(&[x, x, x.saturating_sub(3), i8::MIN, any]),
        b: random.pick(&[x, x.saturating_add(3), i8::MAX, -1, other]),
    }
}
