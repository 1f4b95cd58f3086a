//! The sheet in SVG.

use fieldmap::{Key, Value};

use crate::field::{name, Point, Reason};
use crate::frame::{Frame, HEIGHT, WIDTH};

/// The lowest threshold of each tone in whole decibels, and its grey, from dark to light.
const TONES: [(u16, u8); 9] = [
    (0, 64),
    (6, 92),
    (11, 118),
    (16, 144),
    (21, 170),
    (26, 196),
    (31, 219),
    (36, 238),
    (41, 255),
];

const NOT_SEEN: &str = "&lt;0";

/// The middle of the blind spot in degrees, on the temporal side, and half its width and height.
const BLIND_SPOT: (f64, f64) = (15.0, -1.5);
const BLIND_SPOT_HALVES: (f64, f64) = (2.75, 3.75);

/// The sheet of points.
pub fn map(examination: u32, eye: u8, points: &[Point]) -> String {
    let frame = Frame::of(points);
    let title = format!("Examination {examination}, {} eye", name(eye));
    let mut svg = start(HEIGHT, &title);
    heading(&mut svg, &title, points);
    cells(&mut svg, &frame, points);
    axes(&mut svg, &frame);
    if frame.has_blind_spot() {
        blind_spot(&mut svg, &frame, eye);
    }
    thresholds(&mut svg, &frame, points);
    sides(&mut svg, eye);
    tones(&mut svg);
    signs(&mut svg, &frame);
    svg + "</svg>\n"
}

/// The sheet that has only the reason why there is no map.
pub fn reason(sentences: &Reason) -> String {
    let mut svg = start(120.0, &sentences[0]);
    for (sentence, y) in sentences.iter().zip([52, 80]) {
        svg += &format!("<text x=\"40\" y=\"{y}\" font-size=\"16\">{sentence}</text>\n");
    }
    svg + "</svg>\n"
}

/// The head of the file, its title for those who cannot see the picture, and white paper.
fn start(height: f64, title: &str) -> String {
    let font = "font-family=\"Helvetica, Arial, sans-serif\" fill=\"#111\"";
    let size = format!("width=\"{WIDTH}\" height=\"{height}\" viewBox=\"0 0 {WIDTH} {height}\"");
    format!(
        "<svg xmlns=\"http://www.w3.org/2000/svg\" {size} {font} role=\"img\">\n\
         <title>{title}</title>\n\
         <rect width=\"{WIDTH}\" height=\"{height}\" fill=\"#fff\"/>\n"
    )
}

fn heading(svg: &mut String, title: &str, points: &[Point]) {
    let all = points.len();
    let unseen = points.iter().filter(|point| !point.value.is_seen()).count();
    let noun = if all == 1 { "point" } else { "points" };
    *svg += &format!(
        "<text x=\"56\" y=\"44\" font-size=\"23\" font-weight=\"bold\">{title}</text>\n\
         <text x=\"56\" y=\"70\" font-size=\"14\" fill=\"#444\">{all} {noun}, {unseen} not seen; thresholds in dB</text>\n\
         <text x=\"596\" y=\"70\" font-size=\"14\" fill=\"#444\" text-anchor=\"end\">certified archive</text>\n"
    );
}

/// What a point shows, its grey, and the grey of what it shows.
fn shown(value: Value) -> (String, u8, u8) {
    if !value.is_seen() {
        return (NOT_SEEN.to_string(), 0, 255);
    }
    let decibels = (value.threshold() + 5) / 10;
    let tone = TONES.iter().rev().find(|tone| decibels >= tone.0);
    let grey = tone.map_or(0, |tone| tone.1);
    (decibels.to_string(), grey, text_on(grey))
}

fn text_on(grey: u8) -> u8 {
    if grey < 140 {
        255
    } else {
        17
    }
}

fn cells(svg: &mut String, frame: &Frame, points: &[Point]) {
    let side = frame.length(f64::from(frame.cell));
    *svg += "<g stroke=\"#fff\">\n";
    for point in points {
        let (x, y) = frame.place(point);
        let (left, top) = (x - side / 2.0, y - side / 2.0);
        let (_, grey, _) = shown(point.value);
        *svg += &format!(
            "<rect x=\"{left:.1}\" y=\"{top:.1}\" width=\"{side:.1}\" height=\"{side:.1}\" fill=\"rgb({grey},{grey},{grey})\"/>\n"
        );
    }
    *svg += "</g>\n";
}

fn thresholds(svg: &mut String, frame: &Frame, points: &[Point]) {
    let size = 0.28 * frame.length(f64::from(frame.cell));
    *svg += &format!("<g font-size=\"{size:.1}\" text-anchor=\"middle\">\n");
    for point in points {
        let (x, y) = frame.place(point);
        let base = y + 0.36 * size;
        let (text, _, ink) = shown(point.value);
        *svg += &format!(
            "<text x=\"{x:.1}\" y=\"{base:.1}\" fill=\"rgb({ink},{ink},{ink})\">{text}</text>\n"
        );
    }
    *svg += "</g>\n";
}

/// The two axes with a tick every 10 degrees, the frame, and the degrees beside it.
fn axes(svg: &mut String, frame: &Frame) {
    let reach = f64::from(frame.reach);
    let (left, right) = (frame.across(-reach), frame.across(reach));
    let (top, bottom) = (frame.down(reach), frame.down(-reach));
    let (x0, y0) = (frame.across(0.0), frame.down(0.0));
    let mut ticks = format!("M{left:.1} {y0:.1}H{right:.1}M{x0:.1} {top:.1}V{bottom:.1}");
    let mut labels = String::new();
    let step = if frame.reach <= 60 { 10 } else { 20 };
    for degrees in frame.tens() {
        let (x, y) = (
            frame.across(f64::from(degrees)),
            frame.down(f64::from(degrees)),
        );
        if degrees != 0 && degrees.abs() < frame.reach {
            ticks += &format!("M{x:.1} {:.1}v10M{:.1} {y:.1}h10", y0 - 5.0, x0 - 5.0);
        }
        if degrees % step == 0 {
            let number = degrees.to_string().replace('-', "\u{2212}");
            let (below, beside) = (bottom + 17.0, left - 7.0);
            labels += &format!(
                "<text x=\"{x:.1}\" y=\"{below:.1}\" text-anchor=\"middle\">{number}</text>\
                 <text x=\"{beside:.1}\" y=\"{:.1}\" text-anchor=\"end\">{number}</text>\n",
                y + 4.0
            );
        }
    }
    let (width, height) = (right - left, bottom - top);
    *svg += &format!(
        "<path d=\"{ticks}\" stroke=\"#111\" stroke-width=\"1.4\" fill=\"none\"/>\n\
         <rect x=\"{left:.1}\" y=\"{top:.1}\" width=\"{width:.1}\" height=\"{height:.1}\" fill=\"none\" stroke=\"#999\"/>\n\
         <g font-size=\"12\" fill=\"#444\">\n{labels}</g>\n"
    );
}

/// An ellipse whose dashes show on black and on white.
fn dashed(svg: &mut String, (x, y): (f64, f64), (rx, ry): (f64, f64)) {
    let at = format!("cx=\"{x:.1}\" cy=\"{y:.1}\" rx=\"{rx:.1}\" ry=\"{ry:.1}\" fill=\"none\"");
    *svg += &format!(
        "<ellipse {at} stroke=\"#fff\" stroke-width=\"2.6\"/>\
         <ellipse {at} stroke=\"#111\" stroke-width=\"1.4\" stroke-dasharray=\"6 4\"/>\n"
    );
}

fn blind_spot(svg: &mut String, frame: &Frame, eye: u8) {
    let (x, y) = BLIND_SPOT;
    let x = if eye == Key::RIGHT { x } else { -x };
    let (half_width, half_height) = BLIND_SPOT_HALVES;
    let halves = (frame.length(half_width), frame.length(half_height));
    dashed(svg, (frame.across(x), frame.down(y)), halves);
}

/// The names of the field's sides below the frame: the right eye's temporal side is on the right.
fn sides(svg: &mut String, eye: u8) {
    let (left, right) = if eye == Key::RIGHT {
        ("nasal", "temporal")
    } else {
        ("temporal", "nasal")
    };
    *svg += &format!(
        "<g font-size=\"12\" fill=\"#444\"><text x=\"56\" y=\"672\">{left}</text>\
         <text x=\"596\" y=\"672\" text-anchor=\"end\">{right}</text></g>\n"
    );
}

/// The tones with their decibels.
fn tones(svg: &mut String) {
    let mut labels = vec![(NOT_SEEN.to_string(), 0)];
    for (index, &(from, grey)) in TONES.iter().enumerate() {
        let to = TONES.get(index + 1).map(|next| next.0 - 1);
        let label = to.map_or(format!("{from}+"), |to| format!("{from}\u{2013}{to}"));
        labels.push((label, grey));
    }
    *svg += "<g font-size=\"12\" text-anchor=\"middle\">\n";
    for (index, (label, grey)) in labels.iter().enumerate() {
        let left = 56 + 54 * index;
        let middle = left + 27;
        *svg += &format!(
            "<rect x=\"{left}\" y=\"688\" width=\"54\" height=\"18\" fill=\"rgb({grey},{grey},{grey})\" stroke=\"#999\"/>\
             <text x=\"{middle}\" y=\"722\">{label}</text>\n"
        );
    }
    *svg += "</g>\n";
}

/// What the other signs say.
fn signs(svg: &mut String, frame: &Frame) {
    if frame.has_blind_spot() {
        dashed(svg, (64.0, 746.0), (6.5, 9.0));
        *svg += "<text x=\"80\" y=\"750\" font-size=\"12\">blind spot, expected</text>\n";
    }
    *svg += "<g font-size=\"12\"><text x=\"290\" y=\"750\" text-anchor=\"middle\">&lt;0 not seen</text>\
             <text x=\"596\" y=\"750\" text-anchor=\"end\">latest presentation of each point</text></g>\n";
}
