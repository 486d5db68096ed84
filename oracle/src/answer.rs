//! The full answer to a sheet and a budget, and the form in which it is written.

use crate::sheet::Sheet;
use crate::verifier::{analyze_watched, Facts, Spent};

#[derive(Clone, Copy, Debug, PartialEq, Eq)]
pub struct Budget {
    pub bytes: u64,
    pub work: u64,
}

/// A closure that ended: how many slots it tracks, the budget before its charges and right after them, which is
/// what refusal 8 leaves.
pub struct Closed {
    pub slots: usize,
    pub entered: Budget,
    pub left: Budget,
}

pub struct Table {
    pub slots: Vec<u16>,
    pub pops: u64,
    pub present: Vec<u8>,
    pub kinds: Vec<u8>,
    pub values: Vec<u64>,
}

pub enum Outcome {
    /// Constant, index, container.
    Facts([Table; 3]),
    /// Questions 1 to 5.
    Refused(u8),
    /// Question 7.
    Spent(Spent),
}

pub struct Answer {
    pub outcome: Outcome,
    pub left: Budget,
    pub closed: Vec<Closed>,
}

/// Questions 1 to 5 and 7: buffers are the Rust's own, so 6 and 8 do not arise.
pub fn answer(sheet: &[u8], budget: Budget) -> Answer {
    answer_and_facts(sheet, budget).0
}

/// The same, and after success the Rust's own analyses, for its lookups.
pub fn answer_and_facts(sheet: &[u8], budget: Budget) -> (Answer, Option<Facts>) {
    let sheet = match Sheet::load(sheet) {
        Ok(sheet) => sheet,
        Err(number) => {
            return (Answer { outcome: Outcome::Refused(number), left: budget, closed: Vec::new() }, None);
        }
    };
    let (facts, left, closed) = analyze_watched(&sheet, budget);
    match facts {
        Ok(facts) => {
            let outcome = Outcome::Facts(counted(&facts, &closed, left));
            (Answer { outcome, left, closed }, Some(facts))
        }
        Err(spent) => (Answer { outcome: Outcome::Spent(spent), left, closed }, None),
    }
}

/// Between an analysis' closure and its end the only work charged is s for each entry taken, so the pop count is
/// the work spent there divided by s.
fn counted(facts: &Facts, closed: &[Closed], left: Budget) -> [Table; 3] {
    let mut tables = facts.tables();
    let ends = [closed[1].entered, closed[2].entered, left];
    for ((table, closed), end) in tables.iter_mut().zip(closed).zip(ends) {
        let steps = closed.left.work - end.work;
        table.pops = steps.checked_div(table.slots.len() as u64).unwrap_or(0);
    }
    tables
}

impl Answer {
    pub fn number(&self) -> u8 {
        match &self.outcome {
            Outcome::Facts(_) => 0,
            Outcome::Refused(number) => *number,
            Outcome::Spent(_) => 7,
        }
    }

    /// The part of a record behind its budget.
    pub fn bytes(&self) -> Vec<u8> {
        let mut out = vec![self.number()];
        put_budget(&mut out, self.left);
        if let Outcome::Spent(spent) = &self.outcome {
            out.push(spent.stage);
            put_budget(&mut out, Budget { bytes: spent.requested, work: spent.remaining });
        }
        out.push(self.closed.len() as u8);
        for closed in &self.closed {
            out.extend((closed.slots as u16).to_le_bytes());
            put_budget(&mut out, closed.left);
        }
        if let Outcome::Facts(tables) = &self.outcome {
            tables.iter().for_each(|table| table.put(&mut out));
        }
        out
    }

    /// The text that the command `full` prints.
    pub fn text(&self) -> String {
        let mut out = match &self.outcome {
            Outcome::Facts(_) => "answer 0\n".to_string(),
            Outcome::Refused(number) => format!("answer {number}\n"),
            Outcome::Spent(Spent { stage, requested, remaining }) => {
                format!("answer 7 stage {stage} requested {requested} remaining {remaining}\n")
            }
        };
        out += &format!("left {} {}\n", self.left.bytes, self.left.work);
        for (name, Closed { slots, left, .. }) in NAMES.iter().zip(&self.closed) {
            out += &format!("closure {name} {slots} {} {}\n", left.bytes, left.work);
        }
        if let Outcome::Facts(tables) = &self.outcome {
            out.extend(NAMES.iter().zip(tables).map(|(name, table)| table.text(name)));
        }
        out
    }
}

pub const NAMES: [&str; 3] = ["constant", "index", "container"];

impl Table {
    /// Slots, present, kinds or values.
    pub fn part(&self, which: usize) -> Vec<u64> {
        match which {
            0 => self.slots.iter().copied().map(u64::from).collect(),
            1 => self.present.iter().copied().map(u64::from).collect(),
            2 => self.kinds.iter().copied().map(u64::from).collect(),
            _ => self.values.clone(),
        }
    }

    /// Values stand only for cells that have one: those of kind 2 and above.
    fn put(&self, out: &mut Vec<u8>) {
        out.extend((self.slots.len() as u16).to_le_bytes());
        out.extend((self.pops as u32).to_le_bytes());
        out.extend(self.slots.iter().flat_map(|slot| slot.to_le_bytes()));
        out.extend(&self.present);
        out.extend(&self.kinds);
        let known = self.kinds.iter().zip(&self.values).filter(|(kind, _)| **kind >= 2);
        out.extend(known.flat_map(|(_, value)| value.to_le_bytes()));
    }

    fn text(&self, name: &str) -> String {
        let Table { slots, pops, present, kinds, values } = self;
        let head = format!("{name} {} {pops}\n", slots.len());
        let line = |name: &str, numbers: String| format!("{name}{numbers}\n");
        head + &line("slots", spaced(slots))
            + &line("present", spaced(present))
            + &line("kinds", spaced(kinds))
            + &line("values", spaced(values))
    }
}

fn spaced<T: ToString>(numbers: &[T]) -> String {
    numbers.iter().map(|number| format!(" {}", number.to_string())).collect()
}

fn put_budget(out: &mut Vec<u8>, budget: Budget) {
    out.extend(budget.bytes.to_le_bytes());
    out.extend(budget.work.to_le_bytes());
}

/// A sheet and a budget, as `batch` and `records` read them.
pub fn request(sheet: &[u8], budget: Budget) -> Vec<u8> {
    let mut out = (sheet.len() as u32).to_le_bytes().to_vec();
    out.extend(sheet);
    put_budget(&mut out, budget);
    out
}

/// A request and its answer, after the length of both.
pub fn record(sheet: &[u8], budget: Budget) -> Vec<u8> {
    let mut body = request(sheet, budget);
    body.extend(answer(sheet, budget).bytes());
    let mut out = (body.len() as u32).to_le_bytes().to_vec();
    out.extend(body);
    out
}
