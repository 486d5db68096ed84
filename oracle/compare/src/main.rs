//! The port, as its archive has it, beside the Rust: answers, every lent element and lookups, on sheet after sheet.
//!
//!     compare GENERATED PAIRS LARGE [bare]
//!     compare one FILE BYTES WORK
//!     compare replay FILE LINE
//!
//! The first compares the fixed list, every script of one instruction and every PAIRS-th of two (0: none of these),
//! GENERATED sheets of seed 3 and LARGE large ones; `bare` lends without guards, for a tool that watches the heap. The
//! second compares one sheet, the third every call of one recorded sheet.

mod bindings;
mod damage;
mod lent;
mod loader;
mod lookups;
mod memory;
mod plan;
mod question;
mod replay;
mod sheets;

use oracle::generate::{generated, large};
use oracle::inputs::{fixed, short, Request};
use oracle::replay::RecordedSheet;
use oracle::{fresh, Budget};
use sheets::Compared;
use std::process::ExitCode;

const USAGE: &str = "compare GENERATED PAIRS LARGE [bare] | compare one FILE BYTES WORK | compare replay FILE LINE";
const SEED: u64 = 3;

fn main() -> ExitCode {
    let words: Vec<String> = std::env::args().skip(1).collect();
    let words: Vec<&str> = words.iter().map(String::as_str).collect();
    let agrees = match words[..] {
        ["replay", file, line] => replay(file, line),
        ["one", file, bytes, work] => one(file, bytes, work).map(|compared| compared.report()),
        [generated, pairs, large] => lists(false, generated, pairs, large).map(|compared| compared.report()),
        [generated, pairs, large, "bare"] => lists(true, generated, pairs, large).map(|compared| compared.report()),
        _ => None,
    };
    match agrees {
        Some(true) => ExitCode::SUCCESS,
        Some(false) => ExitCode::FAILURE,
        None => {
            eprintln!("{USAGE}");
            ExitCode::FAILURE
        }
    }
}

fn replay(file: &str, line: &str) -> Option<bool> {
    let records = std::fs::read(file).ok()?;
    let (mut rest, before) = (&records[..], line.parse::<usize>().ok()?.checked_sub(1)?);
    (0..before).try_for_each(|_| RecordedSheet::next(&mut rest).map(drop))?;
    Some(replay::agrees(&RecordedSheet::next(&mut rest)?))
}

fn one(file: &str, bytes: &str, work: &str) -> Option<Compared> {
    let sheet = std::fs::read(file).ok()?;
    let budget = Budget { bytes: bytes.parse().ok()?, work: work.parse().ok()? };
    let mut compared = Compared::new(false);
    // The number of a sheet chooses which buffer is one short.
    (0..17 * 16).for_each(|number| compared.sheet(number, &sheet, budget));
    Some(compared)
}

fn lists(bare: bool, generated: &str, pairs: &str, large: &str) -> Option<Compared> {
    let (generated, pairs, large) = (generated.parse().ok()?, pairs.parse().ok()?, large.parse().ok()?);
    let mut compared = Compared::new(bare);
    for (number, (sheet, budget)) in (0..).zip(requests(generated, pairs, large)) {
        compared.sheet(number, &sheet, budget);
    }
    compared.demand_coverage();
    Some(compared)
}

fn requests(count: u64, pairs: usize, large_count: u64) -> impl Iterator<Item = Request> {
    let generated = (0..count).map(|number| generated(SEED, number));
    let large = (0..large_count).map(|number| (large(SEED, number), fresh()));
    let short = (pairs > 0).then(|| short(pairs)).into_iter().flatten();
    fixed().into_iter().chain(short).chain(large).chain(generated)
}
