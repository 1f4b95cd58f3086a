//! Where degrees lie on the sheet.

use crate::field::Point;

/// The sheet's size.
pub const WIDTH: f64 = 640.0;
pub const HEIGHT: f64 = 776.0;

/// Half the side of the square in which the field lies, and its middle.
const HALF: f64 = 270.0;
const MIDDLE: (f64, f64) = (326.0, 366.0);

/// The square in which the field lies: how many degrees it reaches each way, and how many a point's cell takes.
pub struct Frame {
    pub reach: i32,
    pub cell: i32,
}

impl Frame {
    /// The frame of points: as many tens of degrees as they need. A cell takes 6 degrees, or less where the points stand closer, so that no two
    /// overlap.
    pub fn of(points: &[Point]) -> Self {
        let xs = points.iter().map(|point| i32::from(point.x));
        let ys = points.iter().map(|point| i32::from(point.y));
        let cell = 6.min(least_gap(xs.clone())).min(least_gap(ys.clone()));
        let furthest = xs.chain(ys).map(i32::abs).max().unwrap_or(0);
        let needed = 2 * furthest + cell;
        let reach = (needed + 19) / 20 * 10;
        Self { reach, cell }
    }

    /// Whether the frame reaches as far as the blind spot.
    pub fn has_blind_spot(&self) -> bool {
        self.reach >= 20
    }

    /// The length of so many degrees.
    pub fn length(&self, degrees: f64) -> f64 {
        degrees * HALF / f64::from(self.reach)
    }

    /// The place of x degrees.
    pub fn across(&self, x: f64) -> f64 {
        MIDDLE.0 + self.length(x)
    }

    /// The place of y degrees, which go upwards.
    pub fn down(&self, y: f64) -> f64 {
        MIDDLE.1 - self.length(y)
    }

    /// The place of a point.
    pub fn place(&self, point: &Point) -> (f64, f64) {
        (
            self.across(f64::from(point.x)),
            self.down(f64::from(point.y)),
        )
    }

    /// The tens of degrees from one side to the other.
    pub fn tens(&self) -> impl Iterator<Item = i32> {
        (-self.reach..=self.reach).step_by(10)
    }
}

/// The least distance between two different numbers.
fn least_gap(numbers: impl Iterator<Item = i32>) -> i32 {
    let mut sorted: Vec<i32> = numbers.collect();
    sorted.sort_unstable();
    let gaps = sorted.windows(2).map(|pair| pair[1] - pair[0]);
    gaps.filter(|&gap| gap > 0).min().unwrap_or(i32::MAX)
}
