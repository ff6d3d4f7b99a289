//! Times by the least of many repetitions, ours and the Rust's in turns, so that what disturbs the machine disturbs
//! both.

use std::time::{Duration, Instant};

const LEAST_TURNS: u32 = 8;
const BATCH: Duration = Duration::from_micros(500);

/// How long one side was given at most.
#[derive(Clone, Copy)]
pub struct Patience(pub Duration);

/// Seconds that one call takes, ours and the Rust's.
pub struct Times {
    pub ours: f64,
    pub rust: f64,
}

/// `prepare` makes what one call of the Rust is handed; it is made before the clock runs.
pub fn measure<P>(
    patience: Patience,
    mut ours: impl FnMut(),
    mut prepare: impl FnMut() -> P,
    mut rust: impl FnMut(P),
) -> Times {
    let batch = batch_of(&mut ours);
    let mut times = Times {
        ours: f64::INFINITY,
        rust: f64::INFINITY,
    };
    let began = Instant::now();
    let mut turns = 0;
    while turns < LEAST_TURNS || began.elapsed() < patience.0 {
        times.ours = times.ours.min(timed(batch, || ours()));
        let mut prepared: Vec<P> = (0..batch).map(|_| prepare()).collect();
        times.rust = times.rust.min(timed(batch, || prepared.pop().map_or((), &mut rust)));
        turns += 1;
    }
    times
}

/// So many calls that the clock's own time does not count.
fn batch_of(call: &mut impl FnMut()) -> usize {
    let mut batch = 1;
    while timed(batch, &mut *call) * (batch as f64) < BATCH.as_secs_f64() {
        batch *= 2;
    }
    batch
}

fn timed(batch: usize, mut call: impl FnMut()) -> f64 {
    let began = Instant::now();
    for _ in 0..batch {
        call();
    }
    began.elapsed().as_secs_f64() / batch as f64
}
