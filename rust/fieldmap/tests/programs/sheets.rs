//! The program `sheet`.

use std::fs;
use std::path::Path;

use super::{answer, archive, list, path, program};
use fieldmap::{Key, Packing, Value};

/// The packings, as the programs take them.
const PACKINGS: [(Packing, &str); 2] = [
    (Packing::TwosComplement, "twos-complement"),
    (Packing::Plus128, "plus-128"),
];

fn sheet_by(packing: &str, file: &Path, examination: &str, eye: &str) -> (i32, String, String) {
    let mut command = program("sheet");
    let command = command.arg(file).args([packing, examination, eye]);
    answer(command.output().unwrap())
}

/// The sheet of an example, whose keys are in two's complement.
fn sheet(file: &Path, examination: &str, eye: &str) -> (i32, String, String) {
    sheet_by("twos-complement", file, examination, eye)
}

#[test]
fn sheet_of_the_examination() {
    let file = path("examples/examination.fieldmap");
    let stored = fs::read_to_string(path("examples/sheet.svg")).unwrap();
    for eye in ["right", "0"] {
        let answer = sheet(&file, "1", eye);
        assert_eq!(answer, (0, stored.clone(), String::new()));
    }
    assert_eq!(
        stored.matches(">&lt;0</text>").count(),
        3,
        "two points and the legend"
    );
}

/// The entries of the examination with their keys packed anew, in the order of the new keys.
fn packed_anew() -> Vec<(u64, u64)> {
    let bytes = fs::read(path("examples/examination.fieldmap")).unwrap();
    let (mut keys, mut values) = ([0; 76], [0; 76]);
    let walked = fieldmap::walk(&bytes, &mut keys, &mut values).unwrap();
    assert_eq!((walked.written, walked.count), (76, 76));
    let anew = |key| Key::unpack(key, Packing::TwosComplement).pack(Packing::Plus128);
    let keys = keys.map(|key| anew(key).unwrap());
    let mut entries: Vec<(u64, u64)> = keys.into_iter().zip(values).collect();
    entries.sort_unstable();
    entries
}

fn sorted_lines(text: &str) -> Vec<&str> {
    let mut lines: Vec<&str> = text.lines().collect();
    lines.sort_unstable();
    lines
}

/// The same marks stand in the same places, drawn from left to right.
#[test]
fn sheet_of_new_keys() {
    let file = archive("plus-128.fieldmap", &packed_anew());
    let (code, svg, errors) = sheet_by("plus-128", &file, "1", "right");
    assert_eq!((code, &*errors), (0, ""));
    let stored = fs::read_to_string(path("examples/sheet.svg")).unwrap();
    assert_eq!(sorted_lines(&svg), sorted_lines(&stored));
    let lefts = |svg: &str| -> Vec<f64> {
        let cells = svg
            .lines()
            .filter_map(|line| line.strip_prefix("<rect x=\""));
        let lefts = cells.take(76).map(|cell| cell.split_once('"').unwrap().0);
        lefts.map(|left| left.parse().unwrap()).collect()
    };
    let ascends = |lefts: Vec<f64>| lefts.windows(2).all(|pair| pair[0] <= pair[1]);
    assert!(ascends(lefts(&svg)) && !ascends(lefts(&stored)));
}

/// The list has keys as numbers, whatever their packing.
#[test]
fn list_of_new_keys() {
    let entries = packed_anew();
    let file = archive("plus-128-listed.fieldmap", &entries);
    let mut expected = "certified 76\n".to_string();
    for (key, value) in entries {
        expected += &format!("{key} {value}\n");
    }
    assert_eq!(list(&file), (0, expected, String::new()));
}

/// The sentences of a sheet without a map: nothing else is drawn on the paper.
fn sentences(file: &Path, examination: &str, eye: &str) -> Vec<String> {
    let (code, svg, errors) = sheet(file, examination, eye);
    assert_eq!(code, 1);
    assert!(svg.starts_with("<svg ") && svg.ends_with("</svg>\n"));
    let drawn = ["<rect", "<path", "<ellipse"].map(|sign| svg.matches(sign).count());
    assert_eq!(drawn, [1, 0, 0], "only the paper");
    let texts = svg
        .split("</text>")
        .filter_map(|part| part.split_once("<text "));
    let texts = texts.map(|(_, text)| text.split_once('>').unwrap().1.to_string());
    let sentences: Vec<String> = texts.collect();
    assert!(errors.ends_with(&format!(": {}\n", sentences.join(" "))));
    sentences
}

#[test]
fn sheets_without_a_map() {
    let example = |name: &str| path(&format!("examples/{name}.fieldmap"));
    let open = "No map is drawn: the archive is open and not certified.";
    assert_eq!(
        sentences(&example("keys-exchanged"), "1", "right"),
        [open, "Refusal 9: a key is not above the one before."]
    );
    assert_eq!(
        sentences(&example("leaf-emptied"), "1", "right"),
        [
            open,
            "Refusal 8: a leaf is empty, or an inner node has no first child."
        ]
    );
    assert_eq!(
        sentences(&example("byte-missing"), "1", "right"),
        [
            "No map is drawn: the archive is refused.",
            "Refusal 3: the record or a node is not on its alignment."
        ]
    );
    assert_eq!(
        sentences(&example("examination"), "1", "left"),
        [
            "No map is drawn.",
            "The archive is certified and has no point of examination 1, left eye."
        ]
    );
    assert_eq!(
        sentences(&example("examination"), "16777216", "right"),
        [
            "No map is drawn: there is no such examination.",
            "Refusal 18: an examination, an eye or a presentation does not fit its field."
        ]
    );
}

#[test]
fn sheet_of_a_left_eye() {
    for (packing, name) in PACKINGS {
        left_eye(packing, name);
    }
}

/// A left eye of two points, one of them presented twice.
fn left_eye(packing: Packing, name: &str) {
    let entry = |x, y, presentation, value: Option<Value>| {
        let key = Key {
            examination: 2,
            eye: Key::LEFT,
            x,
            y,
            presentation,
        };
        (key.pack(packing).unwrap(), value.unwrap().0)
    };
    let mut entries = [
        entry(9, 9, 0, Value::new(true, 285)),
        entry(-15, 3, 0, Value::new(true, 284)),
        entry(-15, 3, 7, Value::new(false, 0)),
    ];
    entries.sort_unstable();
    let file = archive(&format!("left-{name}.fieldmap"), &entries);
    let (code, svg, errors) = sheet_by(name, &file, "2", "left");
    assert_eq!((code, &*errors), (0, ""));
    assert_eq!(svg, sheet_by(name, &file, "2", "1").1);
    assert!(svg.contains("2 points, 1 not seen"));
    assert!(svg.contains(">29</text>"), "halves are rounded up");
    assert!(
        !svg.contains(">28</text>"),
        "the latest presentation counts"
    );
    // 20 degrees are 270 units, and the middle is at 326: the blind spot and the point 15 degrees to the left are at 123.5.
    assert!(svg.contains("<ellipse cx=\"123.5\""));
    assert!(svg.contains("<text x=\"123.5\" y=\"333.7\" fill=\"rgb(255,255,255)\">&lt;0</text>"));
}

#[test]
fn arguments() {
    let file = path("examples/examination.fieldmap");
    let unknown = |(code, svg, errors): (i32, String, String)| {
        assert_eq!((code, &*svg), (2, ""));
        assert!(errors.starts_with("usage: "));
    };
    for (examination, eye) in [("1", "both"), ("one", "right"), ("-1", "left"), ("1", "2")] {
        unknown(sheet(&file, examination, eye));
    }
    for packing in ["", "0", "1", "plus128", "Plus128", "twos_complement"] {
        unknown(sheet_by(packing, &file, "1", "right"));
    }
    // There is no packing that holds where none is named.
    let mut unnamed = program("sheet");
    unknown(answer(
        unnamed.arg(&file).args(["1", "right"]).output().unwrap(),
    ));
    unknown(answer(program("sheet").output().unwrap()));
    let none = path("examples/none.fieldmap");
    let (code, svg, errors) = sheet(&none, "1", "right");
    assert_eq!((code, &*svg), (2, ""));
    assert!(errors.contains("none.fieldmap: "));
}
