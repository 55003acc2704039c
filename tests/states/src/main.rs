//! Compares what the library says about states with wgpu-core's own `invalid_resource_state`: every state of sixteen bits, under
//! masks from none to nearly all, through the public calls alone. `--self-test` hands wrong rules to the comparisons, which must notice each.
mod case;
mod flags;
mod given;
mod library;
mod palettes;
mod ranges;
mod self_test;
mod tally;
mod united;
mod upstream;
mod words;

use case::Case;
use std::process::ExitCode;
use tally::Tally;

const OF_STATES: [(&str, fn(&Case, &mut Tally)); 4] =
    [("given", given::compare), ("united", united::compare), ("words", words::compare), ("ranges", ranges::compare)];

fn main() -> ExitCode {
    let arguments: Vec<String> = std::env::args().skip(1).collect();
    match arguments.iter().map(String::as_str).collect::<Vec<_>>()[..] {
        [] => compare(),
        ["--self-test"] => test(),
        _ => {
            eprintln!("states: --self-test is the only argument");
            ExitCode::from(2)
        }
    }
}

fn compare() -> ExitCode {
    let mut tally = Tally::default();
    let cases = palettes::all();
    for case in &cases {
        for (_, compare) in OF_STATES {
            compare(case, &mut tally);
        }
        flags::compare(case, &mut tally);
    }
    let made = grouped(tally.comparisons);
    if let Some((_, told)) = tally.smallest {
        eprintln!("states: {} of {made} comparisons differ, the smallest at {told}", grouped(tally.differences));
        return ExitCode::FAILURE;
    }
    let masks = upstream::RULES.len();
    println!("states: 65,536 states under {masks} masks and {} choices of flags: {made} comparisons, no difference", cases.len());
    ExitCode::SUCCESS
}

fn test() -> ExitCode {
    let missed = self_test::missed();
    for each in &missed {
        eprintln!("states: a wrong rule goes unnoticed: {each}");
    }
    if !missed.is_empty() {
        return ExitCode::FAILURE;
    }
    println!("states: {} wrong rules, each noticed by every comparison that it concerns", self_test::rules());
    ExitCode::SUCCESS
}

/// A number with its thousands apart.
fn grouped(number: u64) -> String {
    let digits = number.to_string();
    let mut told = String::new();
    for (k, digit) in digits.chars().enumerate() {
        if k > 0 && (digits.len() - k) % 3 == 0 {
            told.push(',');
        }
        told.push(digit);
    }
    told
}
