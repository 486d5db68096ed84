//! How long each buffer is lent: exactly as long as needed, longer, one short.

use oracle::expect::{needed, Lengths, Sizes, BUFFERS};
use oracle::generate::Rng;
use oracle::{Answer, Outcome};
use vo_facts::raw::ANSWER_LENGTH;

pub struct Plan {
    pub lengths: Lengths,
    pub answer: usize,
}

/// The calls of one sheet: exact, longer, one short of a buffer whose turn it is, one short of another, and a mixture.
pub fn plans(rng: &mut Rng, rust: &Answer, sizes: Sizes, number: u64) -> Vec<Plan> {
    if let Outcome::Refused(_) = rust.outcome {
        // Nothing is asked of the buffers: any lengths.
        let any = [(); BUFFERS].map(|()| rng.below(6) as usize);
        return vec![plan(any), Plan { lengths: any, answer: answer_length(rng) }];
    }
    let exact = needed(rust, sizes);
    let longer = exact.map(|length| length + 1 + rng.below(4) as usize);
    let mut plans = vec![plan(exact), Plan { lengths: longer, answer: answer_length(rng) }];
    // Buffers take turns, so that each is one short as often as any other.
    let lendable: Vec<usize> = (0..BUFFERS).filter(|buffer| exact[*buffer] > 0).collect();
    if !lendable.is_empty() {
        let turn = lendable[(number / 16) as usize % lendable.len()];
        let other = lendable[rng.below(lendable.len() as u64) as usize];
        plans.push(plan(one_short(exact, exact, turn)));
        plans.push(plan(one_short(longer, exact, other)));
    }
    let mixed = exact.map(|length| match rng.below(20) {
        0 => length.saturating_sub(1),
        1..=9 => length + rng.below(3) as usize,
        _ => length,
    });
    plans.push(Plan { lengths: mixed, answer: answer_length(rng) });
    if number % 64 == 0 {
        plans.push(plan([0; BUFFERS]));
    }
    plans
}

fn plan(lengths: Lengths) -> Plan {
    Plan { lengths, answer: ANSWER_LENGTH }
}

fn one_short(lengths: Lengths, needed: Lengths, buffer: usize) -> Lengths {
    let mut lengths = lengths;
    lengths[buffer] = needed[buffer] - 1;
    lengths
}

/// Exact, longer, and now and then too short.
fn answer_length(rng: &mut Rng) -> usize {
    match rng.below(32) {
        0 => 11,
        1 => rng.below(11) as usize,
        2..=15 => ANSWER_LENGTH + 1 + rng.below(4) as usize,
        _ => ANSWER_LENGTH,
    }
}
