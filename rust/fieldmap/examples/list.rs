//! `list FILE` prints the list of an archive: `certified`, or `open` if it is only accepted, and the count; then key and value a line. The
//! archive must have the common layout, 32 bits and 5 entries a node, which it does not say: of one with 64 bits the list is empty.
//!
//! Why an archive is open goes to standard error. A refused archive prints its refusal, and the program ends with 1. It ends with 2 where the
//! file cannot be read or the text not written. A reader that closes the pipe early ends the list.

use std::io::{self, ErrorKind, Write};
use std::process::ExitCode;
use std::{env, fs};

use fieldmap::Archive;

fn main() -> ExitCode {
    let Some(file) = env::args_os().nth(1) else {
        eprintln!("usage: list FILE");
        return ExitCode::from(2);
    };
    let bytes = match fs::read(&file) {
        Ok(bytes) => bytes,
        Err(error) => {
            eprintln!("{}: {error}", file.to_string_lossy());
            return ExitCode::from(2);
        }
    };
    let (text, code) = match Archive::check(&bytes) {
        Ok(archive) => (list(archive), ExitCode::SUCCESS),
        Err(refusal) => (format!("{refusal}\n"), ExitCode::FAILURE),
    };
    match io::stdout().write_all(text.as_bytes()) {
        Err(error) if error.kind() != ErrorKind::BrokenPipe => {
            eprintln!("standard output: {error}");
            ExitCode::from(2)
        }
        _ => code,
    }
}

fn list(archive: Archive) -> String {
    let count = archive.count();
    let (mut keys, mut values) = (vec![0; count], vec![0; count]);
    let walked = archive.walk(&mut keys, &mut values);
    let kind = match archive.certify() {
        Ok(_) => "certified",
        Err(refusal) => {
            eprintln!("not certified: {refusal}");
            "open"
        }
    };
    let mut text = format!("{kind} {count}\n");
    for (key, value) in keys.iter().zip(&values).take(walked.written) {
        text.push_str(&format!("{key} {value}\n"));
    }
    text
}
