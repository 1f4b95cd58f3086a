//! The programs `compare`, `answers` and, with the feature `ours`, `builds` and `guarded`, at the width of pointers that rkyv is built for.

use std::path::Path;
use std::process::{Command, Output};
use std::sync::atomic::{AtomicU32, Ordering};
use std::{env, fs};

use compare::rkyv_map::BITS;

fn run(program: &str, arguments: &[&str]) -> Output {
    Command::new(program)
        .args(arguments)
        .output()
        .expect("cargo has built the program")
}

/// The number in the line of a program's text that starts so.
fn counted(text: &str, name: &str) -> u32 {
    let line = text.lines().find(|line| line.starts_with(name));
    line.expect(name)[name.len()..].trim().parse().unwrap()
}

/// Some thousands of generated archives of 3, 5 and 15 entries a node show no difference, and every refusal of check and certify among them,
/// under drawn limits also 1.
#[test]
fn generated_archives() {
    for entries in ["3", "5", "15"] {
        let output = run(env!("CARGO_BIN_EXE_compare"), &["4000", "0", entries]);
        let text = String::from_utf8(output.stdout).unwrap();
        assert!(output.status.success(), "{text}");
        for number in 2..=9 {
            let count = counted(&text, &format!("refused by {number:2}"));
            assert!(count >= 50, "{text}");
        }
        for number in [1, 5] {
            let count = counted(&text, &format!("drawn: refused by {number:2}"));
            assert!(count >= 50, "{text}");
        }
        let calls = counted(&text, "  calls refused by 24");
        assert_eq!(calls > 0, cfg!(feature = "ours"), "{text}");
    }
}

/// What is built shows no difference with each number of entries a node: 20 smaller numbers of entries, those about each height's first, and
/// the largest, where offsets fit, each behind 20 headers. rkyv panics alone at 11 entries a node and 16 bits behind the longest two.
#[cfg(feature = "ours")]
#[test]
fn built_archives() {
    for entries in compare::model::RANGE {
        let output = run(
            env!("CARGO_BIN_EXE_builds"),
            &["19", "0", &entries.to_string()],
        );
        let text = String::from_utf8(output.stdout).unwrap();
        assert!(output.status.success(), "{text}");
        let heights = (1..).map(|height| (entries + 1).pow(height));
        let heights = heights.take_while(|count| *count <= 40_000);
        let mut larger: Vec<usize> = heights.flat_map(|count| [count - 1, count]).collect();
        larger.extend([39_999, 40_000]);
        if BITS == 16 {
            let most = compare::building::most_at_16(entries);
            larger.retain(|count| *count < most);
            larger.push(most);
        }
        let lists = 20 + larger.iter().filter(|count| **count > 19).count();
        let built = counted(&text, "archives compared");
        assert_eq!(built as usize, 20 * lists, "{text}");
        let alone = counted(&text, "of these with offsets that fit");
        let right = if (BITS, entries) == (16, 11) { 2 } else { 0 };
        assert_eq!(alone, right, "{text}");
        assert!(counted(&text, "refused by 24") > 100, "{text}");
    }
}

/// No call reads or writes outside what it is lent, beside pages that fault and in allocations.
#[cfg(feature = "ours")]
#[test]
fn guarded_archives() {
    for arguments in [
        &["2000"][..],
        &["1000", "0", "3"],
        &["1000", "0", "15"],
        &["300", "0", "5", "heap"],
    ] {
        let output = run(env!("CARGO_BIN_EXE_guarded"), arguments);
        let text = String::from_utf8(output.stdout).unwrap();
        assert!(output.status.success(), "{text}");
    }
}

/// What `answers` writes with these arguments behind those of its files: the input without its end, and the text without its last line. With
/// pointers of 32 bits it writes the files anew, else it adds to files that have no questions.
fn answers(arguments: &[&str]) -> (Vec<u8>, String) {
    static FOLDERS: AtomicU32 = AtomicU32::new(0);
    let number = FOLDERS.fetch_add(1, Ordering::Relaxed);
    let folder = env::temp_dir().join(format!("answers-{}-{number}", std::process::id()));
    fs::create_dir_all(&folder).unwrap();
    let (input, expected) = (folder.join("input"), folder.join("expected"));
    fs::write(&input, [0]).unwrap();
    fs::write(&expected, "questions 0\n").unwrap();
    let mut all = vec![input.to_str().unwrap(), expected.to_str().unwrap()];
    all.extend(arguments);
    assert!(run(env!("CARGO_BIN_EXE_answers"), &all).status.success());
    let mut bytes = fs::read(&input).unwrap();
    let text = fs::read_to_string(&expected).unwrap();
    fs::remove_dir_all(&folder).unwrap();
    assert_eq!(bytes.pop(), Some(0));
    let (lines, last) = text.trim_end().rsplit_once('\n').unwrap();
    assert!(last.starts_with("questions ") && text.ends_with('\n'));
    (bytes, lines.to_string() + "\n")
}

/// The sample for the gate is small and has every refusal of archives and builds; with pointers of 16 bits also 16, and 14 before it.
#[test]
fn sample() {
    let (bytes, text) = answers(&[]);
    assert!(bytes.len() < if BITS == 32 { 450_000 } else { 250_000 });
    let has = |line: &str| text.lines().any(|found| found == line);
    let refusals: [(&[&str], &[u8]); 6] = [
        (
            &["check", "certify", "walk", "lookup", "range", "column"],
            &[1, 2, 3, 4, 5, 6, 7],
        ),
        (&["certify", "range", "column"], &[8, 9]),
        (&["column"], &[18]),
        (&["build"], &[10, 11, 12, 13, 14]),
        (&["length"], &[11, 13, 24]),
        (
            &[
                "check", "certify", "walk", "lookup", "range", "column", "build",
            ],
            &[24],
        ),
    ];
    for (calls, numbers) in refusals {
        for call in calls {
            for number in numbers {
                assert!(has(&format!("{call} refused {number}")), "{call} {number}");
            }
        }
    }
    for build in ["build refused 16", "build refused 14"] {
        let both = format!("length refused 16\n{build}\n");
        assert_eq!(text.contains(&both), BITS == 16);
    }
    for line in ["walk 64 of 76", "range 64 of 76", "lookup none", "bytes 0"] {
        assert!(has(line), "{line}");
    }
}

/// What has no pointers, and cases *1 to *3, *6 and *9 among others, *9 by both packings; sizes and parts that document 01 gives.
#[cfg(not(any(feature = "pointer_width_16", feature = "pointer_width_64")))]
#[test]
fn sample_of_document_01() {
    let (_, text) = answers(&[]);
    let has = |line: &str| text.lines().any(|found| found == line);
    for line in [
        "too long refused 1",
        "distance refused 15",
        "offset refused 15",
        "absent refused 15",
        "offset refused 16",
        "align refused 17",
        "pack refused 18",
        "lookup 7 9 48",
        "bytes 8 9",
        "pack 1642850156546",
        "pack 1369045991426",
        "unpack 1 0 -3 3 2",
        "distance -9223372036854775808",
        "offset 2147483647",
        "absent 1",
        "align 8 3",
        "align 8 0",
        "align 32 31",
        "build 8",
        "build 104",
        "build 216",
        "build 808",
        "build 696",
        "build 16",
        "build 112",
    ] {
        assert!(has(line), "{line}");
    }
}

/// The stored sample begins with what `answers` writes for pointers of 32 bits, ends with what it adds for 64, and has what it adds for 16.
#[test]
fn stored_sample() {
    fn stands<T: PartialEq>(part: &[T], stored: &[T]) -> bool {
        match BITS {
            16 => stored.windows(part.len()).any(|place| place == part),
            32 => stored.starts_with(part),
            _ => stored.ends_with(part),
        }
    }
    let (bytes, text) = answers(&[]);
    let program = Path::new(env!("CARGO_MANIFEST_DIR")).join("../crates/cases");
    let (stdin, stdout) = (program.join("stdin"), program.join("stdout"));
    let (stdin, stdout) = (
        fs::read(stdin).unwrap(),
        fs::read_to_string(stdout).unwrap(),
    );
    let (lines, _) = stdout.trim_end().rsplit_once('\n').unwrap();
    let lines: Vec<&str> = lines.lines().collect();
    let same = stands(&bytes, &stdin[..stdin.len() - 1])
        && stands(&text.lines().collect::<Vec<&str>>(), &lines);
    assert!(same, "write crates/cases/stdin and stdout anew");
}

/// A random sample of some hundred archives has refusals of every call, and the same seed gives the same one.
#[test]
fn random_sample() {
    let (one, again) = (answers(&["300", "5"]), answers(&["300", "5"]));
    assert!(one == again);
    assert!(one != answers(&["300", "6"]));
    for number in (1..=18).chain([24]) {
        let refused = format!(" refused {number}");
        let comes_up = one.1.lines().any(|line| line.ends_with(&refused));
        let part = matches!(number, 15 | 17) && BITS != 32 || number == 16 && BITS == 64;
        assert_eq!(comes_up, !part, "{number}");
    }
}
