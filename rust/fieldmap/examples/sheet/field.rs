//! The points of one eye of an examination.

use fieldmap::{Archive, Certified, Key, Packing, Refusal, Value};

/// A point in degrees, and the response to its latest presentation.
pub struct Point {
    pub x: i8,
    pub y: i8,
    pub value: Value,
}

/// The sentences that say why there is no map.
pub type Reason = Vec<String>;

/// The eye's name.
pub fn name(eye: u8) -> &'static str {
    if eye == Key::RIGHT {
        "right"
    } else {
        "left"
    }
}

/// The points of an eye, one or more, or why there is no map.
pub fn points(
    bytes: &[u8],
    packing: Packing,
    examination: u32,
    eye: u8,
) -> Result<Vec<Point>, Reason> {
    let why = |state: &str, refusal: Refusal| {
        vec![
            format!("No map is drawn: {state}."),
            format!("Refusal {}: {}.", refusal.number(), refusal.text()),
        ]
    };
    let archive =
        Archive::check(bytes).map_err(|refusal| why("the archive is refused", refusal))?;
    let certified = archive
        .certify()
        .map_err(|refusal| why("the archive is open and not certified", refusal))?;
    let points = latest(certified, packing, examination, eye)
        .map_err(|refusal| why("there is no such examination", refusal))?;
    if points.is_empty() {
        let of = format!("of examination {examination}, {} eye", name(eye));
        return Err(vec![
            "No map is drawn.".to_string(),
            format!("The archive is certified and has no point {of}."),
        ]);
    }
    Ok(points)
}

/// The points of an eye. Presentations of a point follow each other in the order of the keys, so the last of them stays.
fn latest(
    certified: Certified,
    packing: Packing,
    examination: u32,
    eye: u8,
) -> Result<Vec<Point>, Refusal> {
    let count = certified.count();
    let (mut keys, mut values) = (vec![0; count], vec![0; count]);
    let matched = certified.column(packing, examination, eye, .., &mut keys, &mut values)?;
    let mut points: Vec<Point> = Vec::new();
    for (&key, &value) in keys.iter().zip(&values).take(matched.written) {
        let Key { x, y, .. } = Key::unpack(key, packing);
        if points.last().is_some_and(|last| (last.x, last.y) == (x, y)) {
            points.pop();
        }
        let value = Value::from(value);
        points.push(Point { x, y, value });
    }
    Ok(points)
}
