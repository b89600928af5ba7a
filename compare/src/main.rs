//! Compares the proved library with a second implementation of its rules.
//!
//! `compare [N [SEED]]` replays N random successions of calls on both,
//! `compare time` measures both, `compare coverage [N [SEED]]` counts what
//! comes up in the successions. `compare cycles ACTIVE N` only runs N cycles
//! of the library with so many active modules, for whoever counts its
//! instructions.
//!
//! Built with `rustc --edition 2021 -O -L DIR -l static=exports main.rs`,
//! where DIR holds the library; `--cfg standalone` in place of the library
//! lets the second implementation stand in for it.

mod coverage;
mod differences;
mod linked;
mod model;
mod random;
mod script;
mod successions;
mod timing;

use std::process::ExitCode;

use differences::Difference;

const SUCCESSIONS: u64 = 400;
const SEED: u64 = 1;

fn main() -> ExitCode {
    let arguments: Vec<String> = std::env::args().skip(1).collect();
    let arguments: Vec<&str> = arguments.iter().map(String::as_str).collect();
    match arguments[..] {
        ["time"] => timing::print(),
        ["cycles", active, cycles] => match (active.parse(), cycles.parse()) {
            (Ok(active @ 0..=31), Ok(cycles)) => timing::run_library(active, cycles),
            _ => return usage(),
        },
        ["coverage", ref numbers @ ..] => match numbers_of(numbers) {
            Some((successions, seed)) => coverage::print(successions, seed),
            None => return usage(),
        },
        ref numbers => match numbers_of(numbers) {
            Some((successions, seed)) => return compare(successions, seed),
            None => return usage(),
        },
    }
    ExitCode::SUCCESS
}

/// How many successions of which seed.
fn numbers_of(arguments: &[&str]) -> Option<(u64, u64)> {
    match arguments {
        [] => Some((SUCCESSIONS, SEED)),
        [number] => Some((number.parse().ok()?, SEED)),
        [number, seed] => Some((number.parse().ok()?, seed.parse().ok()?)),
        _ => None,
    }
}

fn usage() -> ExitCode {
    eprintln!("compare [N [SEED]] | time | coverage [N [SEED]] | cycles ACTIVE N");
    ExitCode::from(2)
}

fn compare(successions: u64, seed: u64) -> ExitCode {
    match compare_all(successions, seed) {
        Ok(()) => ExitCode::SUCCESS,
        Err(difference) => {
            println!("{difference}");
            ExitCode::FAILURE
        }
    }
}

fn compare_all(successions: u64, seed: u64) -> Result<(), Difference> {
    println!("{} telegrams compared", differences::telegrams(seed)?);
    println!("{} runs of cycles compared", differences::cycles(seed)?);
    let mut calls = 0;
    for index in 0..successions {
        calls += differences::succession(seed, index)?;
    }
    println!("{calls} calls compared, 0 differ");
    Ok(())
}
