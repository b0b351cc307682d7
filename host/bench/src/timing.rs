//! Several programs timed in turns, in one process, on one input; and what is said of the times.

use std::time::{Duration, Instant};

/// How long a race goes on.
#[derive(Clone, Copy)]
pub struct Effort {
    pub rounds: usize,
    /// The least time spent inside each side, all rounds together, and in one round.
    pub seconds: f64,
    pub sample: f64,
}

pub const THOROUGH: Effort = Effort {
    rounds: 15,
    seconds: 0.25,
    sample: 0.001,
};
pub const QUICK: Effort = Effort {
    rounds: 3,
    seconds: 0.0,
    sample: 0.0,
};

/// One side of a race: does its work so many times, and tells the time spent inside it.
pub type Side<'a> = Box<dyn FnMut(u32) -> Duration + 'a>;

/// Seconds of one piece of work, round by round.
pub type Times = Vec<f64>;

/// A side whose work needs nothing put back between two runs.
pub fn side<'a>(mut work: impl FnMut() + 'a) -> Side<'a> {
    Box::new(move |repeats| {
        let start = Instant::now();
        (0..repeats).for_each(|_| work());
        start.elapsed()
    })
}

/// How often a side repeats its work in one round, so that a round is long beside the clock's steps.
fn repeats(side: &mut Side, sample: f64) -> u32 {
    side(1);
    let mut repeats = 1;
    while side(repeats).as_secs_f64() < sample && repeats < 1 << 20 {
        repeats *= 2;
    }
    repeats
}

/// Runs all sides in turns; every second round goes the other way about.
pub fn race(sides: &mut [Side], effort: Effort) -> Vec<Times> {
    let repeats: Vec<u32> = sides.iter_mut().map(|side| repeats(side, effort.sample)).collect();
    let mut times: Vec<Times> = vec![Vec::new(); sides.len()];
    let mut spent = vec![0.0; sides.len()];
    let enough = |round: usize, spent: &[f64]| round >= effort.rounds && spent.iter().all(|&seconds| seconds >= effort.seconds);
    let mut round = 0;
    while !enough(round, &spent) {
        for turn in 0..sides.len() {
            let which = if round % 2 == 0 { turn } else { sides.len() - 1 - turn };
            let seconds = sides[which](repeats[which]).as_secs_f64();
            spent[which] += seconds;
            times[which].push(seconds / f64::from(repeats[which]));
        }
        round += 1;
    }
    times
}

/// The middle of some figures with their spread: the 10th and 90th of a hundred.
#[derive(Clone, Copy, Debug)]
pub struct Spread {
    pub low: f64,
    pub median: f64,
    pub high: f64,
}

impl Spread {
    pub fn of(figures: &[f64]) -> Spread {
        let mut sorted = figures.to_vec();
        sorted.sort_by(f64::total_cmp);
        let at = |share: f64| sorted[((sorted.len() - 1) as f64 * share).round() as usize];
        Spread {
            low: at(0.1),
            median: at(0.5),
            high: at(0.9),
        }
    }

    /// The ratio of two sides, taken round by round.
    pub fn of_ratio(first: &[f64], other: &[f64]) -> Spread {
        let ratios: Vec<f64> = first.iter().zip(other).map(|(a, b)| a / b).collect();
        Spread::of(&ratios)
    }
}

impl std::fmt::Display for Spread {
    fn fmt(&self, f: &mut std::fmt::Formatter) -> std::fmt::Result {
        let digits = if self.median < 0.1 { 4 } else { 2 };
        write!(f, "{:.digits$} ({:.digits$} to {:.digits$})", self.median, self.low, self.high)
    }
}

/// A time in the unit that suits it.
pub fn show(seconds: f64) -> String {
    match seconds {
        s if s < 1e-6 => format!("{:.1} ns", s * 1e9),
        s if s < 1e-3 => format!("{:.2} us", s * 1e6),
        s if s < 1.0 => format!("{:.2} ms", s * 1e3),
        s => format!("{s:.2} s"),
    }
}

#[cfg(test)]
mod tests {
    use super::*;

    #[test]
    fn the_spread_is_of_the_sorted_figures() {
        let figures: Vec<f64> = (0..=10).rev().map(f64::from).collect();
        let spread = Spread::of(&figures);
        assert_eq!((spread.low, spread.median, spread.high), (1.0, 5.0, 9.0));
    }

    #[test]
    fn a_race_has_the_same_rounds_on_each_side() {
        let mut sides = [side(|| ()), side(|| ())];
        let times = race(&mut sides, QUICK);
        assert_eq!((times[0].len(), times[1].len()), (3, 3));
    }
}
