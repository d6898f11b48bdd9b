//! Timing two ways of doing the same in one run, by turns, so that what else the machine does meets both.

use std::time::{Duration, Instant};

/// Many short rounds: where other work takes the processor, it spoils a few of them and not the median.
const ROUNDS: usize = 201;
const ROUND: Duration = Duration::from_micros(200);
/// Calls that are longer than a round have fewer of them.
const LONGEST: Duration = Duration::from_secs(1);

/// Nanoseconds a call, of both, and how many times as long the first takes.
pub struct Comparison {
    pub first: f64,
    pub second: f64,
    pub ratio: f64,
}

/// Medians over the rounds; the ratio is the median of the rounds' own ratios.
pub fn compare(mut first: impl FnMut(), mut second: impl FnMut()) -> Comparison {
    let counts = (calls(&mut first), calls(&mut second));
    let start = Instant::now();
    let mut rounds = Vec::new();
    while rounds.len() < ROUNDS && (rounds.len() < 9 || start.elapsed() < LONGEST) {
        rounds.push((time(&mut first, counts.0), time(&mut second, counts.1)));
    }
    Comparison {
        first: median(rounds.iter().map(|round| round.0)),
        second: median(rounds.iter().map(|round| round.1)),
        ratio: median(rounds.iter().map(|round| round.0 / round.1)),
    }
}

/// How many calls make a round.
fn calls(call: &mut impl FnMut()) -> u32 {
    let mut count = 1;
    while time(call, count) * f64::from(count) < ROUND.as_nanos() as f64 {
        count *= 2;
    }
    count
}

fn time(call: &mut impl FnMut(), count: u32) -> f64 {
    let start = Instant::now();
    for _ in 0..count {
        call();
    }
    start.elapsed().as_nanos() as f64 / f64::from(count)
}

fn median(numbers: impl Iterator<Item = f64>) -> f64 {
    let mut numbers: Vec<f64> = numbers.collect();
    numbers.sort_by(f64::total_cmp);
    numbers[numbers.len() / 2]
}
