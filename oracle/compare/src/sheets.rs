//! One sheet after the other: all its calls, the lookups in what they leave, and what was seen.

use crate::bindings::Bindings;
use crate::lent::Lent;
use crate::loader::Loader;
use crate::lookups::Lookups;
use crate::memory::{After, Fill};
use crate::plan::{plans, Plan};
use oracle::expect::{expected, Expected, Left, Sizes};
use oracle::generate::Rng;
use oracle::{answer_and_facts, Answer, Budget};
use vo_facts::raw::{ANSWER_LENGTH, TOO_SHORT};
use vo_facts::Table;

/// Another stream than the sheets' own.
const SEED: u64 = 77;

pub struct Compared {
    lent: Lent,
    lookups: Lookups,
    loader: Loader,
    bindings: Bindings,
    sheets: u64,
    calls: u64,
    /// How many calls answered each number, and how many were over budget in each stage.
    answered: [u64; 256],
    stages: [u64; 6],
    differing: u64,
    smallest: Option<Difference>,
}

struct Difference {
    sheet: Vec<u8>,
    budget: Budget,
    what: String,
}

impl Compared {
    pub fn new(bare: bool) -> Compared {
        Compared {
            lent: Lent::new(bare),
            lookups: Lookups::new(bare),
            loader: Loader::new(bare),
            bindings: Bindings::default(),
            sheets: 0,
            calls: 0,
            answered: [0; 256],
            stages: [0; 6],
            differing: 0,
            smallest: None,
        }
    }

    pub fn sheet(&mut self, number: u64, sheet: &[u8], budget: Budget) {
        self.sheets += 1;
        let Some(what) = self.difference(number, sheet, budget) else { return };
        self.differing += 1;
        if self.smallest.as_ref().is_none_or(|smallest| sheet.len() < smallest.sheet.len()) {
            self.smallest = Some(Difference { sheet: sheet.to_vec(), budget, what });
        }
    }

    fn difference(&mut self, number: u64, sheet: &[u8], budget: Budget) -> Option<String> {
        let mut rng = Rng::new(SEED, number);
        let (rust, facts) = answer_and_facts(sheet, budget);
        let sizes = Sizes::of(sheet, &rust);
        let mut looked = false;
        for plan in plans(&mut rng, &rust, sizes, number) {
            let must = expected(&rust, sizes, budget, &plan.lengths);
            if let Some(wrong) = self.call(&mut rng, sheet, budget, &plan, &must) {
                return Some(format!("{wrong}\nlent {:?}, answer {}", plan.lengths, plan.answer));
            }
            if let (false, 0, Some(facts)) = (looked, self.lent.answer_number(), &facts) {
                looked = true;
                let tables = used(&self.lent, &rust, sizes.n);
                let wrong = self.lookups.of_left(&mut rng, &tables, facts);
                if let Some(wrong) = wrong.or_else(|| self.lookups.of_damaged(&mut rng, &tables)) {
                    return Some(wrong);
                }
            }
        }
        if let Some(wrong) = self.loader.wrong(&mut rng, sheet, &rust, sizes) {
            return Some(wrong);
        }
        // The bindings' buffers have no guards: they are not lent to a port that was seen to differ.
        if self.differing > 0 {
            return None;
        }
        self.bindings.wrong(number, sheet, budget, &rust, sizes)
    }

    /// One call: its number, its answer, the sheet and all that was lent.
    fn call(
        &mut self,
        rng: &mut Rng,
        sheet: &[u8],
        budget: Budget,
        plan: &Plan,
        must: &Expected<'_>,
    ) -> Option<String> {
        self.calls += 1;
        let number = self.lent.call(sheet, budget, &plan.lengths, plan.answer, Fill::Salt(rng.below(u64::MAX)));
        self.answered[usize::from(number)] += 1;
        let lent = &self.lent;
        if plan.answer < ANSWER_LENGTH {
            return other_number(number, TOO_SHORT)
                .or_else(|| lent.answer.wrong(After::Kept).map(|wrong| format!("answer {wrong}")))
                .or_else(|| lent.wrong_after(sheet, &Left::Kept).into_iter().next());
        }
        if number == 7 {
            self.stages[must.answer[9] as usize] += 1;
        }
        other_number(number, must.number)
            .or_else(|| lent.answer.wrong(After::Written(&must.answer)).map(|wrong| format!("answer {wrong}")))
            .or_else(|| lent.wrong_after(sheet, &must.left).into_iter().next())
    }

    /// Notes it as a difference where an outcome was not seen at all.
    pub fn demand_coverage(&mut self) {
        let seen = |all: &[u64; 256], numbers: &[usize]| numbers.iter().all(|number| all[*number] > 0);
        let calls = seen(&self.answered, &[0, 1, 2, 3, 4, 5, 6, 7, 8, 255]);
        let lookups = seen(&self.lookups.answered, &[0, 9, 254, 255]);
        let room = seen(&self.loader.room, &[0, 1, 2, 3, 4, 5, 6, 255]);
        let lowest = seen(&self.loader.lowest, &[0, 1, 2, 3, 4, 5, 254, 255]);
        if !calls || !lookups || !room || !lowest || self.stages[1..].contains(&0) {
            println!("compare: not every outcome was met");
            self.differing += 1;
        }
    }

    /// What was compared, and the smallest sheet that differs; whether there is none.
    pub fn report(&self) -> bool {
        let met = |all: &[u64; 256]| -> String {
            let met = all.iter().enumerate().filter(|(_, count)| **count > 0);
            met.map(|(number, count)| format!(" {number}: {count}")).collect()
        };
        println!("{} sheets with budgets, {} calls, answers{}", self.sheets, self.calls, met(&self.answered));
        println!("refusals 7 by stage {:?}; through the bindings {}", &self.stages[1..], self.bindings.called);
        let Lookups { of_left, of_damaged, answered, .. } = &self.lookups;
        println!("lookups in tables left {of_left}, in damaged copies {of_damaged}, answers{}", met(answered));
        println!("room{}; lowest layouts{}", met(&self.loader.room), met(&self.loader.lowest));
        if let Some(Difference { sheet, budget, what }) = &self.smallest {
            println!("{} sheets differ; the smallest, {} bytes:", self.differing, sheet.len());
            println!("{}", sheet.iter().map(|byte| format!("{byte:02x}")).collect::<String>());
            println!("bytes {} work {}", budget.bytes, budget.work);
            println!("{what}");
        }
        self.differing == 0
    }
}

fn other_number(is: u8, must: u8) -> Option<String> {
    (is != must).then(|| format!("returned {is} and must be {must}"))
}

/// "the used parts" of what a call left.
fn used<'a>(lent: &'a Lent, rust: &Answer, n: usize) -> [Table<'a>; 3] {
    std::array::from_fn(|which| {
        let (output, s) = (&lent.outputs[which], rust.closed[which].slots);
        Table {
            slots: &output.slots.lent()[..s],
            present: &output.present.lent()[..n],
            kinds: &output.kinds.lent()[..n * s],
            values: &output.values.lent()[..n * s],
        }
    })
}
