//! The time of a normal cycle in both implementations.

use std::hint::black_box;
use std::time::{Duration, Instant};

use crate::linked;
use crate::model;
use crate::model::image::{POWER, POWER_UP};

/// By then all modules are active.
const FIRST: u32 = 10;
const CYCLES: u32 = 200_000;
const TRIALS: u32 = 5;

/// I/O code 7, and nothing disturbed.
const MODULE: u32 = 0x4709_FF00;

pub fn print() {
    println!("time per normal cycle, in nanoseconds");
    println!("{:>7} {:>12} {:>12}", "active", "library", "second");
    for active in [0, 8, 31] {
        let words = image_with(active);
        let library = per_cycle(|cycles| linked::cycles(&mut words.clone(), cycles));
        let second = per_cycle(|cycles| model::cycles(&words, cycles));
        println!("{active:>7} {library:>12.1} {second:>12.1}");
    }
}

/// Runs cycles of the library with so many modules, and nothing else.
pub fn run_library(active: usize, cycles: u32) {
    black_box(linked::cycles(&mut image_with(active), cycles));
}

fn image_with(active: usize) -> Vec<u32> {
    let mut words = vec![0; 33];
    words[1..=active].fill(MODULE);
    words[POWER] = POWER_UP;
    words
}

/// What is spent on opening and on the first cycles is taken off.
fn per_cycle(run: impl Fn(u32) -> u32) -> f64 {
    let all = best(|| run(FIRST + CYCLES));
    let first = best(|| run(FIRST));
    all.saturating_sub(first).as_secs_f64() * 1e9 / f64::from(CYCLES)
}

fn best(run: impl Fn() -> u32) -> Duration {
    (0..TRIALS).map(|_| time(&run)).min().unwrap_or_default()
}

fn time(run: impl Fn() -> u32) -> Duration {
    let start = Instant::now();
    black_box(run());
    start.elapsed()
}

#[cfg(test)]
mod tests {
    use super::*;

    #[test]
    fn all_modules_are_active_at_first() {
        for active in [0, 8, 31] {
            let words = image_with(active);
            let requests = |cycles| model::cycles(&words, cycles);
            // Each active module, and one step of the search.
            assert_eq!(requests(FIRST + 1) - requests(FIRST), active as u32 + 1);
        }
    }
}
