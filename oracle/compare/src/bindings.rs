//! The same sheets through the safe functions of bindings/rust: its buffers are exactly as long as needed, and it answers
//! the same.

use oracle::expect::Sizes;
use oracle::{Answer, Budget, Outcome, Table};
use vo_facts::{Analyzed, Buffers, Refusal, Refused};

/// Every how manieth sheet is called, and what its buffers may take.
const SHARE: u64 = 8;
const MOST: usize = 1 << 22;

#[derive(Default)]
pub struct Bindings {
    buffers: Buffers,
    pub called: u64,
}

impl Bindings {
    pub fn wrong(&mut self, number: u64, sheet: &[u8], budget: Budget, rust: &Answer, sizes: Sizes) -> Option<String> {
        if number % SHARE != 0 || self.buffers.fit(sheet, MOST).is_err() {
            return None;
        }
        self.called += 1;
        let room = self.buffers.room();
        let tracked: Vec<usize> = rust.closed.iter().map(|closed| closed.slots).collect();
        let fits = [room.constant, room.index, room.container].starts_with(&tracked);
        let accepted = !matches!(rust.outcome, Outcome::Refused(_));
        if accepted && (room.instructions, room.locals) != (sizes.n, sizes.locals) || !fits {
            return Some(format!("bindings: {room:?} does not fit {tracked:?} tracked slots"));
        }
        let answered = self.buffers.analyze(sheet, vo_facts::Budget { bytes: budget.bytes, work: budget.work });
        let differs = match (&answered, &rust.outcome) {
            (Ok(facts), Outcome::Facts(tables)) => {
                let Analyzed { constant, index, container, left } = facts.analyzed;
                let counts = [constant, index, container].map(|counts| (counts.tracked, counts.pops));
                let parts = [facts.constant.0, facts.index.0, facts.container.0];
                counts != tables.each_ref().map(|table| (table.slots.len(), table.pops))
                    || (left.bytes, left.work) != (rust.left.bytes, rust.left.work)
                    || parts.iter().zip(tables).any(|(part, table)| !same(part, table))
            }
            (Err(Refused { refusal, left }), outcome) => {
                let same = match (refusal, outcome) {
                    (Refusal::OverBudget { stage, requested, remaining }, Outcome::Spent(spent)) => {
                        (*stage as u8, *requested, *remaining) == (spent.stage, spent.requested, spent.remaining)
                    }
                    (refusal, Outcome::Refused(number)) => refusal.number() == *number,
                    _ => false,
                };
                !same || (left.bytes, left.work) != (rust.left.bytes, rust.left.work)
            }
            (Ok(_), _) => true,
        };
        let told = answered.map(|facts| facts.analyzed);
        differs.then(|| format!("bindings: {told:?} or its tables; the Rust: {} {:?}", rust.number(), rust.left))
    }
}

fn same(part: &vo_facts::Table<'_>, table: &Table) -> bool {
    part.slots == table.slots
        && part.present == table.present
        && part.kinds == table.kinds
        && part.values == table.values
}
