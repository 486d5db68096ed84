//! What a call must answer and leave, from the Rust's answer and the lengths lent.

use crate::answer::{Answer, Budget, Outcome, Table};

/// The number of buffers, and their order: slots, present, kinds and values of each analysis, then the scratch.
pub const BUFFERS: usize = 17;
pub const MARKS: usize = 12;
pub const STACK: usize = 13;
pub const ROW_KINDS: usize = 14;
pub const ROW_VALUES: usize = 15;
pub const WORK_LIST: usize = 16;

pub type Lengths = [usize; BUFFERS];

/// "the number; s and pops of constant, index, container; bytes and work left; stage, requested, remaining"
pub type Numbers = [u64; 12];

/// What all that was lent must hold after a call.
pub enum Left<'a> {
    /// "After 1 to 6 .. nothing lent changes"
    Kept,
    /// "After 7 and 8 all lent output and scratch is zero"
    Zero,
    /// "Success leaves scratch and unused output zero"
    Tables(&'a [Table; 3]),
}

pub struct Expected<'a> {
    pub number: u8,
    pub answer: Numbers,
    pub left: Left<'a>,
}

/// The sheet's own sizes that questions 6 and 8 ask about; 0 where questions 1 to 5 refuse it.
#[derive(Clone, Copy)]
pub struct Sizes {
    pub n: usize,
    pub locals: usize,
}

impl Sizes {
    pub fn of(sheet: &[u8], rust: &Answer) -> Sizes {
        if let Outcome::Refused(_) = rust.outcome {
            return Sizes { n: 0, locals: 0 };
        }
        let size = |i: usize| u32::from_le_bytes(sheet[4 * i..4 * i + 4].try_into().unwrap()) as usize;
        Sizes { n: size(0), locals: size(6) }
    }
}

/// "with s and n above zero, the work list n × (1 + 2 × s)"
fn list_room(n: usize, s: usize) -> usize {
    if n > 0 && s > 0 {
        n * (1 + 2 * s)
    } else {
        0
    }
}

/// The least lengths that no question refuses. An analysis that the Rust did not come to is asked nothing.
pub fn needed(rust: &Answer, sizes: Sizes) -> Lengths {
    let mut lengths = [0; BUFFERS];
    for (which, closed) in rust.closed.iter().enumerate() {
        let (n, s) = (sizes.n, closed.slots);
        lengths[4 * which..4 * which + 4].copy_from_slice(&[s, n, n * s, n * s]);
        lengths[ROW_KINDS] = lengths[ROW_KINDS].max(s);
        lengths[ROW_VALUES] = lengths[ROW_VALUES].max(s);
        lengths[WORK_LIST] = lengths[WORK_LIST].max(list_room(n, s));
    }
    lengths[MARKS] = sizes.locals;
    lengths[STACK] = sizes.locals;
    lengths
}

/// "Are slots and the row scratch at least s long, present n, kinds and values n × s, and .. the work list ..?"
fn has_room(lengths: &Lengths, which: usize, n: usize, s: usize) -> bool {
    let [slots, present, kinds, values] = lengths[4 * which..4 * which + 4] else { unreachable!() };
    slots >= s
        && lengths[ROW_KINDS] >= s
        && lengths[ROW_VALUES] >= s
        && present >= n
        && kinds >= n * s
        && values >= n * s
        && lengths[WORK_LIST] >= list_room(n, s)
}

/// The questions in order. The Rust asks neither 6 nor 8, but its closures tell s and what is left when 8 is asked: a
/// closure that ended was followed by question 8, whatever its analysis came to.
pub fn expected<'a>(rust: &'a Answer, sizes: Sizes, budget: Budget, lengths: &Lengths) -> Expected<'a> {
    if let Outcome::Refused(number) = rust.outcome {
        return refused(number, budget, [0; 3], Left::Kept);
    }
    if lengths[MARKS] < sizes.locals || lengths[STACK] < sizes.locals {
        return refused(6, budget, [0; 3], Left::Kept);
    }
    let mut closed = rust.closed.iter().enumerate();
    if let Some((_, closed)) = closed.find(|(which, closed)| !has_room(lengths, *which, sizes.n, closed.slots)) {
        return refused(8, closed.left, [0; 3], Left::Zero);
    }
    match &rust.outcome {
        Outcome::Refused(_) => unreachable!(),
        Outcome::Spent(spent) => {
            refused(7, rust.left, [spent.stage.into(), spent.requested, spent.remaining], Left::Zero)
        }
        Outcome::Facts(tables) => {
            let [constant, index, container] = tables.each_ref().map(|table| [table.slots.len() as u64, table.pops]);
            let Budget { bytes, work } = rust.left;
            let counts = [constant, index, container].concat();
            let answer = [&[0], &counts[..], &[bytes, work, 0, 0, 0]].concat().try_into().unwrap();
            Expected { number: 0, answer, left: Left::Tables(tables) }
        }
    }
}

fn refused(number: u8, left: Budget, charge: [u64; 3], memory: Left<'_>) -> Expected<'_> {
    let Budget { bytes, work } = left;
    let [stage, requested, remaining] = charge;
    let answer = [number.into(), 0, 0, 0, 0, 0, 0, bytes, work, stage, requested, remaining];
    Expected { number, answer, left: memory }
}
