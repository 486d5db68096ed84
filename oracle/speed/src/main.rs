//! The port and the Rust on the same sheets in one process: medians of many runs, as a Markdown table.
//!
//!     speed SECONDS [FILTER]
//!     speed parts [SECONDS [FILTER]]
//!
//! SECONDS is what each of the two may take for a sheet; FILTER leaves out shapes whose names do not have it. With
//! `parts` closure and run are timed apart, on the largest sheets.

mod parts;
mod shapes;

use oracle::Sheet;
use shapes::{Shape, SHAPES};
use std::hint::black_box;
use std::process::ExitCode;
use std::time::{Duration, Instant};
use vo_facts::{Budget, Buffers};

const INSTRUCTIONS: [usize; 5] = [16, 64, 256, 1024, 4096];
const TRACKED: [usize; 4] = [1, 8, 64, 512];
const MOST_BYTES: usize = 1 << 30;
/// Runs of each: at least and at most.
const RUNS: (usize, usize) = (5, 1001);

fn main() -> ExitCode {
    let words: Vec<String> = std::env::args().skip(1).collect();
    if words.first().is_some_and(|word| word == "parts") {
        return parts::main(&words[1..]);
    }
    let seconds = words.first().and_then(|word| word.parse().ok()).map(Duration::from_secs_f64);
    let Some(time) = seconds else {
        eprintln!("speed SECONDS [FILTER], speed parts [SECONDS [FILTER]]");
        return ExitCode::FAILURE;
    };
    let filter = words.get(1).map_or("", String::as_str);
    println!("| shape | n | s | pops | port µs | Rust µs | port / Rust | port ns / (pops × s) |");
    println!("| --- | ---: | ---: | ---: | ---: | ---: | ---: | ---: |");
    let mut ratios = Vec::new();
    for shape in SHAPES.iter().filter(|shape| shape.name.contains(filter)) {
        for n in INSTRUCTIONS {
            for s in TRACKED {
                let Row { pops, port, rust } = row(shape, n, s, time);
                let (ratio, cell) = (port / rust, 1000.0 * port / (pops as f64 * s as f64));
                println!("| {} | {n} | {s} | {pops} | {port:.1} | {rust:.1} | {ratio:.2} | {cell:.2} |", shape.name);
                ratios.push(ratio);
            }
        }
    }
    ratios.sort_by(f64::total_cmp);
    let above = ratios.iter().filter(|ratio| **ratio > 1.0).count();
    println!();
    println!("Of {} rows {above} are above 1; the middle one is {:.2}.", ratios.len(), ratios[ratios.len() / 2]);
    ExitCode::SUCCESS
}

struct Row {
    /// Of the three analyses together.
    pops: u64,
    /// Medians, in microseconds.
    port: f64,
    rust: f64,
}

/// The two take turns, so that what else the machine does falls on both.
fn row(shape: &Shape, n: usize, s: usize, time: Duration) -> Row {
    let bytes = shape.sheet(n, s);
    let sheet = Sheet::load(&bytes).unwrap_or_else(|number| panic!("{} {n} {s}: refused {number}", shape.name));
    let mut buffers = Buffers::default();
    buffers.fit(&bytes, MOST_BYTES).expect("room for the largest sheet");
    let (mut port, mut rust) = (Vec::new(), Vec::new());
    let begun = Instant::now();
    let mut pops = 0;
    while rust.len() < RUNS.0 || (rust.len() < RUNS.1 && begun.elapsed() < 2 * time) {
        let start = Instant::now();
        let facts = buffers.analyze(black_box(&bytes), Budget::FRESH);
        port.push(start.elapsed());
        let analyzed = facts.unwrap_or_else(|refused| panic!("{} {n} {s}: {refused}", shape.name)).analyzed;
        pops = analyzed.constant.pops + analyzed.index.pops + analyzed.container.pops;
        let tracked = [analyzed.constant, analyzed.index, analyzed.container].map(|counts| counts.tracked);
        assert_eq!(tracked, [s; 3], "{} {n} {s}", shape.name);

        // The Rust's time has its own allocations in it, and giving them back.
        let start = Instant::now();
        let (facts, left) = oracle::analyze(black_box(&sheet), oracle::fresh());
        drop(black_box(facts));
        rust.push(start.elapsed());
        assert_eq!((left.bytes, left.work), (analyzed.left.bytes, analyzed.left.work), "{} {n} {s}", shape.name);
    }
    Row { pops, port: median(port), rust: median(rust) }
}

fn median(mut times: Vec<Duration>) -> f64 {
    times.sort();
    times[times.len() / 2].as_secs_f64() * 1e6
}
