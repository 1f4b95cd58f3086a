//! Links the static library of the proved calls, `libexports.a`: from the folder that the environment variable `FIELDMAP_LIB` names, or
//! else from `target/staticlib` of the repository.
//!
//! Where the library is not there, this only warns: the crate can be checked and documented without it, and a program that uses it does not
//! link. The same holds of a library without `fieldmap_build_length`, which is of another version and answers otherwise. One of another version
//! that has this call cannot be told here, since its calls have the same names: it links, and where it takes other arguments it reads and writes
//! memory that it must not. The tests of this crate do not pass then.

use std::path::{Path, PathBuf};
use std::{env, fs};

/// A call that the library of this version has.
const SIGNED: &[u8] = b"fieldmap_build_length";

fn main() {
    println!("cargo::rerun-if-changed=build.rs");
    println!("cargo::rerun-if-env-changed=FIELDMAP_LIB");
    let folder = folder();
    let library = folder.join("libexports.a");
    println!("cargo::rerun-if-changed={}", library.display());
    match fs::read(&library) {
        Err(_) => warn(&library, "is not there"),
        Ok(bytes) if !bytes.windows(SIGNED.len()).any(|part| part == SIGNED) => {
            warn(&library, "is of another version")
        }
        Ok(_) => println!("cargo::rustc-link-search=native={}", folder.display()),
    }
    println!("cargo::rustc-link-lib=static:-bundle=exports");
}

fn warn(library: &Path, why: &str) {
    let path = library.display();
    println!("cargo::warning={path} {why}: cargo check and cargo doc work, programs and tests do not link.");
    println!("cargo::warning=`tools/build exports`, in the repository's folder, writes target/staticlib/libexports.a.");
    println!(
        "cargo::warning=The environment variable FIELDMAP_LIB names another folder that holds it."
    );
}

/// The folder of the library. Cargo runs this script in the crate's folder; a relative `FIELDMAP_LIB` starts where cargo itself is run, which
/// the variable `PWD` says.
fn folder() -> PathBuf {
    let named = env::var_os("FIELDMAP_LIB").filter(|named| !named.is_empty());
    let Some(named) = named.map(PathBuf::from) else {
        let here = env::var_os("CARGO_MANIFEST_DIR").expect("cargo sets the crate's folder");
        return PathBuf::from(here).join("../../target/staticlib");
    };
    if named.is_absolute() {
        return named;
    }
    println!("cargo::rerun-if-env-changed=PWD");
    match env::var_os("PWD") {
        Some(start) => PathBuf::from(start).join(named),
        None => named,
    }
}
