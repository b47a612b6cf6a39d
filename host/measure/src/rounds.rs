//! Runners timed in turns, so that whatever else the machine does falls on all of them alike.

use std::io::{self, Write};
use std::process;
use std::time::{Duration, Instant};

/// How many times each runner is timed.
const ROUNDS: usize = 41;

/// How long one timing should take.
const SAMPLE: Duration = Duration::from_millis(2);

/// One way to do the work that is measured.
pub struct Runner<'a> {
    name: &'static str,
    work: Box<dyn FnMut() + 'a>,
}

/// A runner that does its work once for each call.
pub fn runner<'a>(name: &'static str, work: impl FnMut() + 'a) -> Runner<'a> {
    Runner {
        name,
        work: Box::new(work),
    }
}

impl Runner<'_> {
    fn time(&mut self, calls: u32) -> Duration {
        let began = Instant::now();
        for _ in 0..calls {
            (self.work)();
        }
        began.elapsed()
    }

    /// How many calls fill a sample.
    fn calls(&mut self) -> u32 {
        let mut calls = 1;
        while self.time(calls) < SAMPLE && calls < 1 << 24 {
            calls *= 2;
        }
        calls
    }
}

/// The median time of a call of each runner, in nanoseconds, over interleaved rounds.
pub fn medians(runners: &mut [Runner]) -> Vec<f64> {
    samples(runners).into_iter().map(median).collect()
}

/// The time of a call of each runner, in nanoseconds, in each of the interleaved rounds.
pub fn samples(runners: &mut [Runner]) -> Vec<Vec<f64>> {
    let calls: Vec<u32> = runners.iter_mut().map(Runner::calls).collect();
    let mut samples = vec![Vec::with_capacity(ROUNDS); runners.len()];
    for _ in 0..ROUNDS {
        for ((runner, &calls), samples) in runners.iter_mut().zip(&calls).zip(&mut samples) {
            samples.push(runner.time(calls).as_secs_f64() * 1e9 / f64::from(calls));
        }
    }
    samples
}

/// The median of what the one took longer than the other, round by round.
pub fn longer(one: &[f64], other: &[f64]) -> f64 {
    let rounds = one.iter().zip(other);
    median(rounds.map(|(one, other)| one - other).collect())
}

pub fn median(mut samples: Vec<f64>) -> f64 {
    samples.sort_by(f64::total_cmp);
    samples[samples.len() / 2]
}

/// Measures the runners and prints a line: each one's time, and the first one's ratio to each other.
/// `per` is how many pieces of work a call does.
pub fn report(what: &str, per: usize, mut runners: Vec<Runner>) {
    let times = medians(&mut runners);
    let named: Vec<(&str, f64)> = runners
        .iter()
        .zip(&times)
        .map(|(runner, time)| (runner.name, time / per as f64))
        .collect();
    print_line(what, &named);
}

/// Prints a line of named times, in nanoseconds, and the first one's ratio to each other.
pub fn print_line(what: &str, times: &[(&str, f64)]) {
    let mut line = format!("{what:<60}");
    for (name, time) in times {
        line += &format!("  {name} {:>9}", nanoseconds(*time));
    }
    for (name, time) in &times[1..] {
        line += &format!("  {:.2} x {name}", times[0].1 / time);
    }
    if writeln!(io::stdout(), "{line}").is_err() {
        process::exit(1); // nobody reads on: there is nothing more to measure for
    }
}

fn nanoseconds(time: f64) -> String {
    if time < 100.0 {
        format!("{time:.1} ns")
    } else {
        format!("{time:.0} ns")
    }
}
