//! The example programs, run as a user runs them.

mod sheets;

use std::fs;
use std::io::{BufRead, BufReader, Read};
use std::path::{Path, PathBuf};
use std::process::{Command, Output, Stdio};
use std::sync::OnceLock;

/// The path of a file, from the repository's folder.
fn path(name: &str) -> PathBuf {
    Path::new(env!("CARGO_MANIFEST_DIR"))
        .join("../..")
        .join(name)
}

/// The folder of the example programs. They are built here, since cargo builds them before a test only where every target is asked for.
fn programs() -> &'static Path {
    static FOLDER: OnceLock<PathBuf> = OnceLock::new();
    FOLDER.get_or_init(|| {
        let target = Path::new(env!("CARGO_TARGET_TMPDIR")).join("programs");
        let mut cargo = Command::new(env!("CARGO"));
        cargo.args(["build", "--offline", "--quiet", "--examples"]);
        cargo.arg("--target-dir").arg(&target);
        cargo.current_dir(env!("CARGO_MANIFEST_DIR"));
        assert!(cargo.status().unwrap().success());
        target.join("debug/examples")
    })
}

/// A command that runs an example program.
fn program(name: &str) -> Command {
    Command::new(programs().join(name))
}

/// The exit status, standard output and standard error.
fn answer(output: Output) -> (i32, String, String) {
    let text = |bytes| String::from_utf8(bytes).unwrap();
    let code = output.status.code().unwrap();
    (code, text(output.stdout), text(output.stderr))
}

fn list(file: &Path) -> (i32, String, String) {
    answer(program("list").arg(file).output().unwrap())
}

/// Writes an archive of these entries to a file of the tests' own and gives its path.
fn archive(name: &str, entries: &[(u64, u64)]) -> PathBuf {
    let keys: Vec<u64> = entries.iter().map(|entry| entry.0).collect();
    let values: Vec<u64> = entries.iter().map(|entry| entry.1).collect();
    let mut bytes = vec![0; fieldmap::build_length(keys.len(), 0).unwrap()];
    let end = fieldmap::build(&mut bytes, 0, &keys, &values).unwrap();
    assert_eq!(end, bytes.len());
    let path = Path::new(env!("CARGO_TARGET_TMPDIR")).join(name);
    fs::write(&path, bytes).unwrap();
    path
}

#[test]
fn list_prints_what_is_stored() {
    for name in [
        "examination",
        "empty",
        "one-entry",
        "keys-exchanged",
        "leaf-emptied",
    ] {
        let (code, text, errors) = list(&path(&format!("examples/{name}.fieldmap")));
        let stored = fs::read_to_string(path(&format!("examples/{name}.txt"))).unwrap();
        assert_eq!((code, &text), (0, &stored));
        let why = match name {
            "keys-exchanged" => "not certified: refused 9: a key is not above the one before\n",
            "leaf-emptied" => {
                "not certified: refused 8: a leaf is empty, or an inner node has no first child\n"
            }
            _ => "",
        };
        assert_eq!(errors, why);
    }
}

#[test]
fn list_prints_the_refusal() {
    let (code, text, errors) = list(&path("examples/unknown-kind.fieldmap"));
    assert_eq!(code, 1);
    assert_eq!(
        text,
        "refused 4: a node is neither a leaf nor an inner node\n"
    );
    assert_eq!(errors, "");
}

#[test]
fn list_ends_quietly_on_a_closed_pipe() {
    let entries: Vec<(u64, u64)> = (0..40_000).map(|key| (key, key)).collect();
    // The list is longer than a pipe holds, so the program still writes when the pipe is closed.
    let file = archive("long.fieldmap", &entries);
    let mut command = program("list");
    let pipes = command.stdout(Stdio::piped()).stderr(Stdio::piped());
    let mut child = pipes.arg(&file).spawn().unwrap();
    let mut first = String::new();
    let mut pipe = BufReader::new(child.stdout.take().unwrap());
    pipe.read_line(&mut first).unwrap();
    drop(pipe);
    assert_eq!(first, "certified 40000\n");
    let mut errors = String::new();
    child
        .stderr
        .take()
        .unwrap()
        .read_to_string(&mut errors)
        .unwrap();
    assert_eq!(errors, "");
    assert_eq!(child.wait().unwrap().code(), Some(0));
}

#[test]
fn list_without_a_file() {
    let (code, text, errors) = answer(program("list").output().unwrap());
    assert_eq!((code, &*text), (2, ""));
    assert!(errors.starts_with("usage: "));
    let (code, text, errors) = list(&path("examples/none.fieldmap"));
    assert_eq!((code, &*text), (2, ""));
    assert!(errors.contains("none.fieldmap: "));
}
