//! Measuring two sides beside each other: one process, one run, warm buffers, the best of many repetitions.

pub mod theirs;

use std::hint::black_box;
use std::time::{Duration, Instant};

/// Repetitions of a measurement, and the least time of one, in which the call is made as often as needed.
const REPETITIONS: usize = 1_000;
const LEAST: Duration = Duration::from_micros(100);

/// What a call writes to.
pub struct Lent {
    pub keys: Vec<u64>,
    pub values: Vec<u64>,
}

/// The first line of a table.
pub fn heading() {
    println!("entries  call                               ours ns     rkyv ns   ratio");
}

/// A line of it.
pub fn row(entries: usize, call: &str, (ours, rkyv): (Option<f64>, f64)) {
    let ratio = ours.map_or("-".into(), |ours| format!("{:.2}", ours / rkyv));
    let ours = ours.map_or("-".into(), |ours| format!("{ours:.0}"));
    println!("{entries:7}  {call:32} {ours:>9} {rkyv:11.0} {ratio:>7}");
}

/// The best times of the two sides in nanoseconds, their repetitions taken in turn. Each has two lists of its own to
/// write to, and both must give the same number and leave the same lists.
pub fn best(
    room: usize,
    ours: Option<impl FnMut(&mut Lent) -> usize>,
    rkyv: impl FnMut(&mut Lent) -> usize,
) -> (Option<f64>, f64) {
    let mut rkyv = Side::new(room, rkyv);
    let mut ours = ours.map(|ours| Side::new(room, ours));
    if let Some(ours) = &ours {
        assert_eq!(ours.answer, rkyv.answer, "the same number");
        assert_eq!(ours.lent.keys, rkyv.lent.keys, "the same keys");
        assert_eq!(ours.lent.values, rkyv.lent.values, "the same values");
    }
    for _ in 0..REPETITIONS {
        if let Some(ours) = &mut ours {
            ours.repeat();
        }
        rkyv.repeat();
    }
    (ours.map(|ours| ours.best), rkyv.best)
}

struct Side<F> {
    call: F,
    lent: Lent,
    answer: usize,
    calls: u32,
    best: f64,
}

impl<F: FnMut(&mut Lent) -> usize> Side<F> {
    fn new(room: usize, mut call: F) -> Self {
        let mut lent = Lent {
            keys: vec![0; room],
            values: vec![0; room],
        };
        let answer = call(&mut lent);
        let mut side = Self {
            call,
            lent,
            answer,
            calls: 1,
            best: f64::INFINITY,
        };
        while side.repeat() < LEAST {
            side.calls *= 2;
        }
        side.best = f64::INFINITY;
        side
    }

    /// One repetition: the calls that it takes, and its time.
    fn repeat(&mut self) -> Duration {
        let start = Instant::now();
        for _ in 0..self.calls {
            black_box((self.call)(&mut self.lent));
        }
        let time = start.elapsed();
        let each = time.as_nanos() as f64 / f64::from(self.calls);
        self.best = self.best.min(each);
        time
    }
}
