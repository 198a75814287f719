//! Times of the sides, taken by turns.

use std::time::Instant;

use crate::rows::{Row, Work, SIDES};

/// A middle value and how far the others lie from it.
#[derive(Clone, Copy, Debug, Default)]
pub struct Spread {
    pub low: f64,
    pub middle: f64,
    pub high: f64,
}

/// The 10th, 50th and 90th percentile.
pub fn spread(mut values: Vec<f64>) -> Spread {
    values.sort_by(f64::total_cmp);
    let last = values.len().saturating_sub(1);
    let at = |part: usize| values.get(last * part / 100).copied().unwrap_or(f64::NAN);
    Spread {
        low: at(10),
        middle: at(50),
        high: at(90),
    }
}

/// Nanoseconds an operation in each round, by side.
pub type Rounds = [Vec<f64>; 3];

/// About how many nanoseconds a sample takes.
const SAMPLE: f64 = 200_000.0;

/// The measured part. Its name is known to the counting of instructions, which counts in here only.
#[no_mangle]
#[inline(never)]
pub fn bench_timed_part(work: &mut dyn Work) {
    work.run();
}

/// One timed run, in nanoseconds.
fn timed(work: &mut dyn Work) -> f64 {
    work.restore();
    let start = Instant::now();
    bench_timed_part(work);
    start.elapsed().as_nanos() as f64
}

/// The median of several runs.
fn sample(work: &mut dyn Work, runs: usize) -> f64 {
    spread((0..runs).map(|_| timed(work)).collect()).middle
}

/// Runs each side once, and stops where the outcomes differ.
pub fn agree(row: &mut Row) {
    let mut outcomes = Vec::new();
    for work in &mut row.works {
        work.restore();
        work.run();
        outcomes.push(work.outcome());
    }
    for (outcome, side) in outcomes.iter().zip(SIDES) {
        assert!(
            *outcome == outcomes[0],
            "row {}: {} differs from {}",
            row.name,
            side,
            SIDES[0]
        );
    }
}

/// Measures a row: in each round a sample of every side, by turns, beginning with another side each time.
pub fn measure(row: &mut Row, rounds: usize) -> Rounds {
    let mut runs = [0; 3];
    for (work, runs) in row.works.iter_mut().zip(&mut runs) {
        let once = sample(&mut **work, 5).max(1.0);
        *runs = ((SAMPLE / once) as usize).clamp(3, 1000);
    }
    let mut times = Rounds::default();
    for round in 0..rounds {
        for turn in 0..SIDES.len() {
            let side = (round + turn) % SIDES.len();
            let time = sample(&mut *row.works[side], runs[side]);
            times[side].push(time / row.operations as f64);
        }
    }
    times
}

/// The times of one side by those of another, round by round.
pub fn ratio(rounds: &Rounds, side: usize, by: usize) -> Spread {
    spread(
        rounds[side]
            .iter()
            .zip(&rounds[by])
            .map(|(one, other)| one / other)
            .collect(),
    )
}
