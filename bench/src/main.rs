//! Measures the port and wgpu-core's Rust, in one process, on the same calls.
//!
//!     bench [ROUNDS]                       the table of docs/BENCH.md
//!     bench time CALL|SET HELD TEXTURES LAYERS STATES ROUNDS
//!                                          a row of the tables by the states held
//!     bench count CALL|SET HELD TEXTURES LAYERS [STATES] rust|port|test CALLS
//!                                          only makes the calls, for an instruction counter
//!     bench time merge_logs ENTRIES PATTERN ROUNDS
//!                                          a row of the table of merged logs
//!     bench count merge_logs ENTRIES PATTERN rust|port CALLS
//!                                          only makes the merges
//!     bench time read_plan|write_plan ITEMS PATTERN ROUNDS
//!                                          a row of the table of plans
//!     bench count read_plan|write_plan ITEMS PATTERN rust|port CALLS
//!                                          only reads or writes them
//!
//! A SET is scope or tracker, of which there is only the test. STATES tells how many different states are held that meet EXCLUSIVE:
//! none, as where it is left out, one or several; calls that set have their own. A PATTERN is alternate, random or runs; of a plan, flat or
//! nested.
mod cases;
mod logs;
mod measure;
mod plans;
#[rustfmt::skip]
mod port;
mod states;

use cases::{merge_single, Case, Join, Kind, MergeScope, SetScope, SetSingle, Shape, Sparse};
use logs::{MergeLogs, Pattern};
use measure::{measure, measure_both, measure_test, Times};
use plans::PlanCall;
use states::States;

const CALLS: [&str; 6] = [
    "merge_single",
    "merge_usage_scope",
    "set_single",
    "set_from_usage_scope",
    "set_from_tracker",
    "set_and_remove_from_usage_scope_sparse",
];
const TEXTURES: [u32; 3] = [1, 16, 64];

fn case(call: &str, shape: Shape) -> Box<dyn Case> {
    match call {
        "merge_single" => merge_single(shape),
        "merge_usage_scope" => Box::new(MergeScope::new(shape)),
        "set_single" => Box::new(SetSingle::new(shape)),
        "set_from_usage_scope" => Box::new(SetScope::new(shape)),
        "set_from_tracker" => Box::new(Join::new(shape)),
        "set_and_remove_from_usage_scope_sparse" => Box::new(Sparse::new(shape)),
        _ => panic!("no such call: {call}"),
    }
}

/// The kinds of textures and their layers that a call is measured with.
fn shapes(call: &str) -> Vec<(&'static str, Kind, u32)> {
    let mut shapes = vec![
        ("Single", Kind::Single, 256),
        ("Many", Kind::Many, 1),
        ("Many", Kind::Many, 16),
        ("Many", Kind::Many, 256),
    ];
    if call == "set_single" {
        shapes.push(("cut", Kind::Cut, 256));
    }
    shapes
}

/// A time with three figures.
fn nanoseconds(x: f64) -> String {
    if x < 99.95 {
        return format!("{x:.1}");
    }
    let step = 10f64.powf(x.log10().floor() - 2.0);
    let mut left = ((x / step).round() * step).round() as u64;
    let mut text = String::new();
    while left >= 1000 {
        text = format!(",{:03}{text}", left % 1000);
        left /= 1000;
    }
    format!("{left}{text}")
}

/// What the port takes beside the test, by the Rust's time. Where the test is nearly all of it, the two medians tell nothing.
fn beside(times: Times) -> String {
    if times.test > 0.9 * times.port {
        return "–".into();
    }
    format!("{:.2}", (times.port - times.test) / times.rust)
}

/// Rust, port, ratio and test.
fn compared(times: Times) -> String {
    format!(
        "{} | {} | {:.2} | {}",
        nanoseconds(times.rust),
        nanoseconds(times.port),
        times.port / times.rust,
        nanoseconds(times.test),
    )
}

fn table(rounds: usize) {
    println!("| call | textures | held | layers | Rust ns | port ns | ratio | of it the test | ratio beside the test |");
    println!("|---|---|---|---|---|---|---|---|---|");
    for call in CALLS {
        for (name, kind, layers) in shapes(call) {
            for textures in TEXTURES {
                let shape = Shape {
                    textures,
                    kind,
                    layers,
                    states: States::Plain,
                };
                let times = measure(&mut *case(call, shape), rounds);
                println!(
                    "| {call} | {textures} | {name} | {layers} | {} | {} |",
                    compared(times),
                    beside(times),
                );
            }
        }
    }
}

fn number(word: &str) -> u32 {
    word.parse().expect("a number")
}

/// What a call is made on, or the sets that are tested.
fn shape(call: &str, words: &[String]) -> Shape {
    let [kind, textures, layers, states @ ..] = words else {
        panic!("no HELD TEXTURES LAYERS: {words:?}");
    };
    Shape {
        textures: number(textures),
        kind: match kind.as_str() {
            "Single" => Kind::Single,
            "Many" => Kind::Many,
            "cut" => Kind::Cut,
            _ => panic!("no such kind: {kind}"),
        },
        layers: number(layers),
        states: match states {
            [] => States::Plain,
            [word] if !call.starts_with("set_") => States::named(word),
            _ => panic!("no states for {call}: {states:?}"),
        },
    }
}

fn logs(words: &[String]) -> MergeLogs {
    let [entries, pattern] = words else {
        panic!("no ENTRIES PATTERN: {words:?}");
    };
    MergeLogs::new(Pattern::named(pattern), number(entries))
}

fn time_logs(words: &[String]) {
    let [held @ .., rounds] = words else {
        panic!("time merge_logs ENTRIES PATTERN ROUNDS");
    };
    let mut logs = logs(held);
    let merged = logs.merged;
    let [rust, port] = measure_both(&mut logs, number(rounds) as usize);
    println!(
        "| {} | {} | {merged} | {} | {} | {:.2} |",
        held[0],
        held[1],
        nanoseconds(rust),
        nanoseconds(port),
        port / rust,
    );
}

fn count_logs(words: &[String]) {
    let [held @ .., part, calls] = words else {
        panic!("count merge_logs ENTRIES PATTERN rust|port CALLS");
    };
    let mut logs = logs(held);
    match part.as_str() {
        "rust" => logs.rust(number(calls)),
        "port" => logs.port(number(calls)),
        _ => panic!("no such part: {part}"),
    }
}

fn plan(words: &[String]) -> PlanCall {
    let [call, items, pattern] = words else {
        panic!("no CALL ITEMS PATTERN: {words:?}");
    };
    PlanCall::new(call, number(items), pattern)
}

fn time_plan(words: &[String]) {
    let [held @ .., rounds] = words else {
        panic!("time read_plan|write_plan ITEMS PATTERN ROUNDS");
    };
    let mut plan = plan(held);
    let bytes = plan.bytes();
    let [rust, port] = measure_both(&mut plan, number(rounds) as usize);
    println!(
        "| {} | {} | {} | {bytes} | {} | {} | {:.2} |",
        held[0],
        held[1],
        held[2],
        nanoseconds(rust),
        nanoseconds(port),
        port / rust,
    );
}

fn count_plan(words: &[String]) {
    let [held @ .., part, calls] = words else {
        panic!("count read_plan|write_plan ITEMS PATTERN rust|port CALLS");
    };
    let mut plan = plan(held);
    match part.as_str() {
        "rust" => plan.rust(number(calls)),
        "port" => plan.port(number(calls)),
        _ => panic!("no such part: {part}"),
    }
}

fn time(words: &[String]) {
    let [call, held, textures, layers, states, rounds] = words else {
        panic!("time CALL|SET HELD TEXTURES LAYERS STATES ROUNDS");
    };
    let shape = shape(call, &words[1..5]);
    let rounds = number(rounds) as usize;
    let times = match states::set(call, shape) {
        Some(mut set) => nanoseconds(measure_test(&mut *set, rounds)),
        None => compared(measure(&mut *case(call, shape), rounds)),
    };
    println!("| {call} | {textures} | {held} | {layers} | {states} | {times} |");
}

fn count(words: &[String]) {
    let [call, held @ .., part, calls] = words else {
        panic!("count CALL|SET HELD TEXTURES LAYERS [STATES] rust|port|test CALLS");
    };
    let shape = shape(call, held);
    if let Some(set) = states::set(call, shape) {
        assert_eq!(part, "test", "of a set there is only the test");
        return set.test(number(calls));
    }
    let mut case = case(call, shape);
    let laps = number(calls) / case.calls();
    match part.as_str() {
        "rust" => case.rust(laps),
        "port" => case.port(laps),
        "test" => case.test(laps),
        _ => panic!("no such part: {part}"),
    }
}

fn main() {
    let words: Vec<String> = std::env::args().skip(1).collect();
    let plain: Vec<&str> = words.iter().map(String::as_str).collect();
    match plain[..] {
        ["time", "merge_logs", ..] => time_logs(&words[2..]),
        ["count", "merge_logs", ..] => count_logs(&words[2..]),
        ["time", "read_plan" | "write_plan", ..] => time_plan(&words[1..]),
        ["count", "read_plan" | "write_plan", ..] => count_plan(&words[1..]),
        ["time", ..] => time(&words[1..]),
        ["count", ..] => count(&words[1..]),
        [rounds, ..] => table(rounds.parse().expect("a number of rounds")),
        [] => table(15),
    }
}
