//! One recorded sheet of crates/check_replay: what each of its calls answers and leaves by the archive, beside what the
//! Rust gives.

use crate::lent::Lent;
use crate::memory::Fill;
use oracle::expect::{Lengths, Numbers, BUFFERS, MARKS};
use oracle::replay::{held, line, Checksum, RecordedSheet};
use oracle::NAMES;
use vo_facts::raw::ANSWER_LENGTH;

const PARTS: [&str; 4] = ["slots", "present", "kinds", "values"];
const SCRATCH: [&str; BUFFERS - MARKS] = ["marks", "stack", "row kinds", "row values", "work list"];

/// Prints a line for each call, or for each number and each buffer of it that differs; then the sheet's line, by the
/// archive and by the Rust. Answers whether the two are the same.
pub fn agrees(recorded: &RecordedSheet) -> bool {
    let calls = recorded.calls();
    let mut lent = Lent::new(false);
    let mut sums = [Checksum::start(), Checksum::start()];
    let mut firsts = None;
    for (number, (lengths, must)) in calls.iter().enumerate() {
        lent.call(&recorded.sheet, recorded.budget, lengths, ANSWER_LENGTH, Fill::Replay);
        let answer: Numbers = lent.answer.lent().try_into().unwrap();
        let left = (0..BUFFERS).map(|which| held(&must.left, which, lengths[which])).collect();
        let both = [(answer, lent.held()), (must.answer, left)];
        let mut wrong = wrong_numbers(&answer, &must.answer);
        wrong.extend((0..BUFFERS).filter_map(|which| wrong_buffer(which, &both[0].1[which], &both[1].1[which])));
        if wrong.is_empty() {
            // what no checksum goes over: the sheet, and what stands around the buffers
            wrong = lent.wrong_after(&recorded.sheet, &must.left);
        }
        if wrong.is_empty() {
            let mut alone = Checksum::start();
            put(&mut alone, &both[0]);
            wrong.push(format!("as the Rust gives, checksum {}", alone.value()));
        }
        wrong.iter().for_each(|what| println!("call {number}, {}: {what}", how(number, lengths, &calls[0].0)));
        sums.iter_mut().zip(&both).for_each(|(sum, side)| put(sum, side));
        firsts.get_or_insert(both.map(|(answer, _)| answer));
    }
    let firsts = firsts.unwrap();
    let lines = [0, 1].map(|side| line(&firsts[side], &sums[side]));
    print!("archive: {}Rust:    {}", lines[0], lines[1]);
    lines[0] == lines[1]
}

/// The answer, and then the buffers.
fn put(checksum: &mut Checksum, (answer, buffers): &(Numbers, Vec<Vec<u64>>)) {
    checksum.buffer(answer);
    buffers.iter().for_each(|buffer| checksum.buffer(buffer));
}

fn wrong_numbers(is: &Numbers, must: &Numbers) -> Vec<String> {
    let differ = (0..is.len()).filter(|i| is[*i] != must[*i]);
    differ.map(|i| format!("answer [{i}] is {} and must be {}", is[i], must[i])).collect()
}

/// The buffer's first element that differs.
fn wrong_buffer(which: usize, is: &[u64], must: &[u64]) -> Option<String> {
    let at = (0..must.len()).find(|at| is[*at] != must[*at])?;
    Some(format!("{} [{at}] is {} and must be {}", name(which), is[at], must[at]))
}

fn name(which: usize) -> String {
    match which.checked_sub(MARKS) {
        None => format!("{} {}", NAMES[which / 4], PARTS[which % 4]),
        Some(scratch) => SCRATCH[scratch].to_string(),
    }
}

/// What the call is lent.
fn how(call: usize, lengths: &Lengths, needed: &Lengths) -> String {
    let Some(which) = call.checked_sub(2) else {
        return ["buffers as long as needed", "longer buffers"][call].to_string();
    };
    format!("{} one {}", name(which), if lengths[which] < needed[which] { "short" } else { "longer" })
}
