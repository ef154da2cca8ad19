//! Contestants that run in turn, round by round: what else the machine does falls on all of them, and the best round of each is the one
//! that was disturbed least. How far the others lie above it is kept beside it.

use std::ops::{Div, Sub};
use std::time::Instant;

/// A number that was measured.
#[derive(Clone, Copy)]
pub struct Figure {
    /// That of the best round.
    pub value: f64,
    /// How far the upper quartile of all rounds lies above the best one, as a part of it.
    pub spread: f64,
}

impl Figure {
    fn of(mut rounds: Vec<f64>) -> Figure {
        rounds.sort_by(f64::total_cmp);
        let (best, upper) = (rounds[0], rounds[rounds.len() * 3 / 4]);
        Figure { value: best, spread: upper / best - 1.0 }
    }
}

/// A ratio spreads as the side that spreads more.
impl Div for Figure {
    type Output = Figure;

    fn div(self, other: Figure) -> Figure {
        Figure { value: self.value / other.value, spread: self.spread.max(other.spread) }
    }
}

impl Div<f64> for Figure {
    type Output = Figure;

    fn div(self, count: f64) -> Figure {
        Figure { value: self.value / count, ..self }
    }
}

/// A difference spreads as far as both sides do.
impl Sub for Figure {
    type Output = Figure;

    fn sub(self, other: Figure) -> Figure {
        let (value, spread) = (self.value - other.value, self.value * self.spread + other.value * other.spread);
        Figure { value, spread: spread / value }
    }
}

/// A contestant: runs so many times, and says how many nanoseconds that took.
pub type Runner<'a> = Box<dyn FnMut(u32) -> u64 + 'a>;

/// How much is measured in one pass.
#[derive(Clone, Copy)]
pub struct Effort {
    /// Rounds of each contestant; the first one finds out how many runs a round needs.
    pub rounds: u32,
    /// The least time of a round, in nanoseconds.
    pub round: u64,
}

/// A contestant whose runs are timed together.
pub fn runner<'a>(mut call: impl FnMut() + 'a) -> Runner<'a> {
    Box::new(move |times| {
        let start = Instant::now();
        for _ in 0..times {
            call();
        }
        start.elapsed().as_nanos() as u64
    })
}

/// Nanoseconds for one run of each contestant, in each of its rounds.
pub type Rounds<const N: usize> = [Vec<f64>; N];

pub fn race<const N: usize>(mut runners: [Runner<'_>; N], effort: Effort) -> Rounds<N> {
    let first = runners.each_mut().map(|runner| first_round(runner, effort.round));
    let mut rounds = first.map(|(_, nanos)| vec![nanos]);
    for _ in 1..effort.rounds {
        for ((runner, rounds), (times, _)) in runners.iter_mut().zip(&mut rounds).zip(first) {
            rounds.push(round(runner, times));
        }
    }
    rounds
}

/// Nanoseconds for one run, in a round of so many.
fn round(runner: &mut Runner<'_>, times: u32) -> f64 {
    runner(times) as f64 / f64::from(times)
}

/// How many runs a round needs so that it lasts, and the nanoseconds for one run in it.
fn first_round(runner: &mut Runner<'_>, least: u64) -> (u32, f64) {
    let mut times = 1;
    loop {
        let nanos = round(runner, times);
        if times == 1 << 20 || nanos * f64::from(times) >= least as f64 {
            return (times, nanos);
        }
        times *= 2;
    }
}

/// Cases, each with a race of N contestants.
pub struct Series<C, const N: usize> {
    name: &'static str,
    cases: Vec<C>,
    measure: fn(&C, Effort) -> Rounds<N>,
    effort: Effort,
    /// For each case, those of all passes.
    rounds: Vec<Rounds<N>>,
}

impl<C, const N: usize> Series<C, N> {
    pub fn new(name: &'static str, cases: Vec<C>, effort: Effort, measure: fn(&C, Effort) -> Rounds<N>) -> Series<C, N> {
        let rounds = cases.iter().map(|_| [const { Vec::new() }; N]).collect();
        Series { name, cases, measure, effort, rounds }
    }

    /// The cases with what was measured, in nanoseconds.
    pub fn rows(self) -> impl Iterator<Item = (C, [Figure; N])> {
        self.cases.into_iter().zip(self.rounds).map(|(case, rounds)| (case, rounds.map(Figure::of)))
    }
}

/// Everything is measured several times from the start: passes lie apart in time, and their stores in memory.
pub trait Pass {
    fn name(&self) -> &'static str;
    /// Measures all cases once more.
    fn pass(&mut self);
}

impl<C, const N: usize> Pass for Series<C, N> {
    fn name(&self) -> &'static str {
        self.name
    }

    fn pass(&mut self) {
        for (case, rounds) in self.cases.iter().zip(&mut self.rounds) {
            let more = (self.measure)(case, self.effort);
            rounds.iter_mut().zip(more).for_each(|(rounds, more)| rounds.extend(more));
        }
    }
}
