//! Nanoseconds a call, of the sides in turn.

use crate::original::Original;
use crate::rattle::Rattle;
use crate::row::Row;
use crate::side::{Side, SIDES};
use std::time::{Duration, Instant};

/// How often each side is timed.
const ROUNDS: usize = 31;

/// How long one timing takes at least.
const SAMPLE: Duration = Duration::from_micros(300);

/// The middle of some numbers, and the quarter and three-quarter points around it.
pub struct Spread {
    pub low: f64,
    pub middle: f64,
    pub high: f64,
}

impl Spread {
    fn of(mut numbers: Vec<f64>) -> Spread {
        numbers.sort_by(f64::total_cmp);
        let at = |quarters: usize| numbers[(numbers.len() - 1) * quarters / 4];
        Spread {
            low: at(1),
            middle: at(2),
            high: at(3),
        }
    }
}

pub struct Times {
    /// Of each side.
    pub sides: [Spread; SIDES.len()],
    /// Each side to the first, round by round.
    pub ratios: [Spread; SIDES.len()],
}

fn timed<S: Side>(row: &Row, logs: &mut [S]) -> Duration {
    let mut took = Duration::ZERO;
    row.once(logs, |calls| {
        let start = Instant::now();
        calls();
        took = start.elapsed();
    });
    took
}

/// Makes so many measurements, and says how long they took.
type Timer<'a> = Box<dyn FnMut(usize) -> Duration + 'a>;

fn timer<'a, S: Side + 'a>(row: &'a Row) -> Timer<'a> {
    let mut logs = row.set_up::<S>();
    Box::new(move |measurements| (0..measurements).map(|_| timed(row, &mut logs)).sum())
}

fn times(row: &Row, mut sides: [Timer; SIDES.len()]) -> Times {
    let mut measurements = 0;
    let mut took = Duration::ZERO;
    while took < SAMPLE {
        took += sides.iter_mut().map(|side| side(1)).min().expect("a side");
        measurements += 1;
    }
    let calls = (measurements * row.calls()) as f64;
    let round = |first: usize| {
        let mut took = [0.0; SIDES.len()];
        for turn in 0..SIDES.len() {
            let side = (first + turn) % SIDES.len();
            took[side] = sides[side](measurements).as_nanos() as f64 / calls;
        }
        took
    };
    let rounds: Vec<[f64; SIDES.len()]> = (0..ROUNDS).map(round).collect();
    let spread =
        |of: &dyn Fn(&[f64; SIDES.len()]) -> f64| Spread::of(rounds.iter().map(of).collect());
    Times {
        sides: std::array::from_fn(|side| spread(&|round| round[side])),
        ratios: std::array::from_fn(|side| spread(&|round| round[side] / round[0])),
    }
}

pub fn of(row: &Row) -> Times {
    let rust = match row.page_size {
        32 => timer::<Original<32>>(row),
        512 => timer::<Original<512>>(row),
        4096 => timer::<Original<4096>>(row),
        _ => unreachable!("pages have 32, 512 or 4,096 bytes"),
    };
    times(
        row,
        [rust, timer::<Rattle<u64>>(row), timer::<Rattle<u32>>(row)],
    )
}
