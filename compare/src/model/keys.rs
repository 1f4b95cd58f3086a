//! Key packing and the bits of a value.

/// How x and y stand in a key: document 01's packing, of old archives, and document 02's, of new examinations. "the caller of the field page
/// names the packing to read by".
#[derive(Clone, Copy, Debug, PartialEq, Eq)]
pub enum Packing {
    TwosComplement,
    Plus128,
}

pub const PACKINGS: [Packing; 2] = [Packing::TwosComplement, Packing::Plus128];

impl Packing {
    /// "x 8 and y 8 in two's complement degrees"; "New examinations store x plus 128 and y plus 128 in their fields."
    pub fn stored(self, degrees: i8) -> u8 {
        match self {
            Packing::TwosComplement => degrees as u8,
            Packing::Plus128 => (i16::from(degrees) + 128) as u8,
        }
    }

    fn degrees(self, stored: u8) -> i8 {
        match self {
            Packing::TwosComplement => stored as i8,
            Packing::Plus128 => (i16::from(stored) - 128) as i8,
        }
    }
}

/// The fields of a key.
#[derive(Clone, Copy, Debug, PartialEq, Eq)]
pub struct KeyFields {
    pub examination: u32,
    pub eye: u8,
    pub x: i8,
    pub y: i8,
    pub presentation: u32,
}

/// "most significant first: examination 24 bits, eye 1, x 8 and y 8", as they are stored, "presentation 23", or 18.
pub fn key(examination: u32, eye: u8, x: u8, y: u8, presentation: u32) -> Result<u64, u8> {
    if examination >= 1 << 24 || eye > 1 || presentation >= 1 << 23 {
        return Err(18);
    }
    let key = u64::from(examination) << 1 | u64::from(eye);
    let key = (key << 8 | u64::from(x)) << 8 | u64::from(y);
    Ok(key << 23 | u64::from(presentation))
}

pub fn pack(packing: Packing, fields: &KeyFields) -> Result<u64, u8> {
    let (x, y) = (packing.stored(fields.x), packing.stored(fields.y));
    key(fields.examination, fields.eye, x, y, fields.presentation)
}

pub fn unpack(packing: Packing, key: u64) -> KeyFields {
    KeyFields {
        examination: (key >> 40) as u32,
        eye: (key >> 39 & 1) as u8,
        x: packing.degrees((key >> 31) as u8),
        y: packing.degrees((key >> 23) as u8),
        presentation: (key & 0x7f_ffff) as u32,
    }
}

/// "In a value the top bit is 1 for seen, the next 10 bits are the threshold in tenths of a decibel".
pub fn seen(value: u64) -> bool {
    value >> 63 == 1
}

pub fn threshold(value: u64) -> u64 {
    (value >> 53) & 0x3ff
}
