//! Files of the repository around the crate.

use std::path::PathBuf;
use std::{env, fs};

/// The path of a file, from the repository's folder.
pub fn path(name: &str) -> PathBuf {
    let here = env::var_os("CARGO_MANIFEST_DIR").expect("cargo sets the crate's folder");
    PathBuf::from(here).join("../..").join(name)
}

/// The bytes of a file, from the repository's folder.
pub fn bytes(name: &str) -> Vec<u8> {
    let path = path(name);
    fs::read(&path).unwrap_or_else(|error| panic!("{}: {error}", path.display()))
}
