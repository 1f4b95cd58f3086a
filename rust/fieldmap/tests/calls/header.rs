//! The refusals, the packings, the widths, the common layout and the limits, against those of `include/fieldmap.h`.

use crate::repository;
use fieldmap::{Layout, Limits, NoSuchRefusal, Packing, Refusal, Width};

fn header() -> String {
    String::from_utf8(repository::bytes("include/fieldmap.h")).unwrap()
}

/// What stands between two texts, for each line that has both.
fn between<'a>(text: &'a str, before: &str, after: &str) -> Vec<(&'a str, &'a str)> {
    let cut = |line: &'a str| {
        let (name, rest) = line.trim_start().strip_prefix(before)?.split_once(after)?;
        Some((name, rest))
    };
    text.lines().filter_map(cut).collect()
}

/// The name of a refusal as C has it.
fn name_in_c(refusal: Refusal) -> String {
    let mut name = String::new();
    for letter in format!("{refusal:?}").chars() {
        if letter.is_ascii_uppercase() && !name.is_empty() {
            name.push('_');
        }
        name.push(letter.to_ascii_uppercase());
    }
    name
}

#[test]
fn texts() {
    let header = header();
    let texts = between(&header, "case -FIELDMAP_", ": return ");
    assert_eq!(texts.len(), Refusal::ALL.len());
    for ((name, text), refusal) in texts.into_iter().zip(Refusal::ALL) {
        assert_eq!(name, name_in_c(refusal));
        assert_eq!(text, format!("\"{}\";", refusal.text()));
    }
}

#[test]
fn numbers() {
    let header = header();
    let (_, rest) = header.split_once("/* The refusals").unwrap();
    let (list, _) = rest.split_once("};").unwrap();
    let numbers = between(list, "FIELDMAP_", " = ");
    assert_eq!(numbers.len(), Refusal::ALL.len());
    for ((name, number), refusal) in numbers.into_iter().zip(Refusal::ALL) {
        assert_eq!(name, name_in_c(refusal));
        let digits = number.split(|letter: char| !letter.is_ascii_digit());
        assert_eq!(
            digits.into_iter().next(),
            Some(&*refusal.number().to_string())
        );
    }
}

/// The names and the numbers of the list that starts at a text are those given.
fn numbered(start: &str, named: &[(&str, u8)]) {
    let header = header();
    let (_, rest) = header.split_once(start).unwrap();
    let (list, _) = rest.split_once("};").unwrap();
    let numbers = between(list, "FIELDMAP_", " = ");
    assert_eq!(numbers.len(), named.len());
    for ((name, number), (expected, ours)) in numbers.into_iter().zip(named) {
        assert_eq!(name, *expected);
        let digits = number.split(|letter: char| !letter.is_ascii_digit());
        assert_eq!(digits.into_iter().next(), Some(&*ours.to_string()));
    }
}

#[test]
fn packings() {
    let named = [
        ("TWOS_COMPLEMENT", Packing::TwosComplement as u8),
        ("PLUS_128", Packing::Plus128 as u8),
    ];
    numbered("/* The packings", &named);
}

#[test]
fn widths() {
    let named = [
        ("WIDTH_16", Width::Bits16 as u8),
        ("WIDTH_32", Width::Bits32 as u8),
        ("WIDTH_64", Width::Bits64 as u8),
    ];
    numbered(" * The layouts", &named);
}

/// The first word that a name is defined as.
fn limit(name: &str) -> String {
    let header = header();
    let limits = between(&header, "#define FIELDMAP_", " ");
    let (_, rest) = limits.iter().find(|(other, _)| *other == name).unwrap();
    rest.split_whitespace().next().unwrap().to_string()
}

#[test]
fn common_layout() {
    assert_eq!(Layout::default(), Layout::COMMON);
    assert_eq!(Layout::from(Width::default()), Layout::COMMON);
    let width = format!("FIELDMAP_WIDTH_{}", Layout::COMMON.width() as u8);
    assert_eq!(limit("COMMON_WIDTH"), width);
    let entries = Layout::COMMON.entries().to_string();
    assert_eq!(limit("COMMON_ENTRIES"), entries);
    let both = "FIELDMAP_COMMON_LAYOUT FIELDMAP_COMMON_WIDTH, FIELDMAP_COMMON_ENTRIES\n";
    assert!(header().contains(both));
}

/// The limits of a caller, and that both pass together.
fn limits_of(caller: &str, limits: Limits) {
    let (longest, depth) = (format!("{caller}_LONGEST"), format!("{caller}_DEPTH"));
    assert_eq!(limit(&longest), limits.longest.to_string());
    assert_eq!(limit(&depth), limits.depth.to_string());
    let both = format!("FIELDMAP_{caller}_LIMITS FIELDMAP_{longest}, FIELDMAP_{depth}\n");
    assert!(header().contains(&both));
}

#[test]
fn limits_of_callers() {
    limits_of("VIEWER", Limits::VIEWER);
    limits_of("SERVER", Limits::SERVER);
    assert_eq!(Limits::default(), Limits::SERVER);
}

#[test]
fn limits_of_all() {
    assert_eq!(
        limit("FEWEST_IN_NODE"),
        fieldmap::FEWEST_IN_NODE.to_string()
    );
    assert_eq!(limit("MOST_IN_NODE"), fieldmap::MOST_IN_NODE.to_string());
    assert_eq!(limit("MOST_ENTRIES"), fieldmap::MOST_ENTRIES.to_string());
    assert_eq!(
        limit("LONGEST_HEADER"),
        fieldmap::LONGEST_HEADER.to_string()
    );
    assert_eq!(
        limit("VERSION"),
        format!("\"{}\"", env!("CARGO_PKG_VERSION"))
    );
}

#[test]
fn refusals_by_number() {
    for refusal in Refusal::ALL {
        assert_eq!(Refusal::try_from(refusal.number()), Ok(refusal));
        assert_eq!(u8::from(refusal), refusal.number());
    }
    for number in [0, 19, 23, 25, u8::MAX] {
        assert_eq!(Refusal::try_from(number), Err(NoSuchRefusal(number)));
    }
    let error: Box<dyn std::error::Error> = Box::new(NoSuchRefusal(19));
    assert_eq!(error.to_string(), "no refusal has the number 19");
}
