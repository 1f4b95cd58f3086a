//! `sheet FILE PACKING EXAMINATION EYE` draws one eye's field of an examination as perimeters print it, in SVG on standard output. PACKING is how
//! x and y stand in the archive's keys, `twos-complement` or `plus-128`, which the archive does not say. EYE is `right` or `left`, or 0 or 1 as
//! keys have it. The archive must have the common layout, 32 bits and 5 entries a node, which it does not say either: in one with 64 bits no point is
//! found.
//!
//! Each point shows its threshold in whole decibels, halves rounded up, on a grey tone, the darker the lower; a point that was not seen is black
//! and shows `<0`. Where a point was presented several times, the latest presentation counts: the one with the highest number. The dashed line
//! is where the blind spot is expected.
//!
//! A map is drawn from certified archives only. Of a refused or open archive, or where the eye has no point, the picture has nothing but the
//! reason, which goes to standard error as well, and the program ends with 1. It ends with 0 where a map is drawn and with 2 where the
//! arguments are not understood, the file cannot be read or the picture not written.

mod field;
mod frame;
mod picture;

use std::ffi::OsString;
use std::io::{self, ErrorKind, Write};
use std::path::Path;
use std::process::ExitCode;
use std::{env, fs};

use fieldmap::{Key, Packing};

fn main() -> ExitCode {
    let arguments: Vec<OsString> = env::args_os().skip(1).collect();
    let Some((file, packing, examination, eye)) = asked(&arguments) else {
        eprintln!("usage: sheet FILE twos-complement|plus-128 EXAMINATION right|left > sheet.svg");
        return ExitCode::from(2);
    };
    let bytes = match fs::read(file) {
        Ok(bytes) => bytes,
        Err(error) => {
            eprintln!("{}: {error}", file.display());
            return ExitCode::from(2);
        }
    };
    let (svg, code) = match field::points(&bytes, packing, examination, eye) {
        Ok(points) => (picture::map(examination, eye, &points), ExitCode::SUCCESS),
        Err(reason) => {
            eprintln!("{}: {}", file.display(), reason.join(" "));
            (picture::reason(&reason), ExitCode::FAILURE)
        }
    };
    match io::stdout().write_all(svg.as_bytes()) {
        Err(error) if error.kind() != ErrorKind::BrokenPipe => {
            eprintln!("standard output: {error}");
            ExitCode::from(2)
        }
        _ => code,
    }
}

/// The file, the packing, the examination and the eye that the arguments name.
fn asked(arguments: &[OsString]) -> Option<(&Path, Packing, u32, u8)> {
    let [file, packing, examination, eye] = arguments else {
        return None;
    };
    let packing = match packing.to_str()? {
        "twos-complement" => Packing::TwosComplement,
        "plus-128" => Packing::Plus128,
        _ => return None,
    };
    let examination = examination.to_str()?.parse().ok()?;
    let eye = match eye.to_str()? {
        "right" | "0" => Key::RIGHT,
        "left" | "1" => Key::LEFT,
        _ => return None,
    };
    Some((Path::new(file), packing, examination, eye))
}
