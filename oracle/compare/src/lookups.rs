//! Lookups in the tables that a call left, against the Rust's own, and in damaged copies, against question 9.

use crate::damage::Copied;
use crate::memory::{After, Buffer};
use crate::question::{fact, fixed, is_reachable, Look};
use oracle::generate::Rng;
use oracle::{Facts, NAMES};
use vo_facts::raw::{
    self, vo_facts_constant, vo_facts_container, vo_facts_index_check, vo_facts_is_reachable, Lookup, DAMAGED, NONE,
    OUT_LENGTH, TOO_SHORT,
};
use vo_facts::Table;

const LOOKUPS: [Lookup; 3] = [vo_facts_constant, vo_facts_index_check, vo_facts_container];
/// How often a table left is asked, how many copies are damaged, and how often each is asked.
const ASKED: usize = 24;
const COPIES: usize = 4;
const ASKED_OF_COPY: usize = 6;

pub struct Lookups {
    out: Buffer<u64>,
    /// How many were asked: of tables that a call left, of damaged copies, and how many answered each number.
    pub of_left: u64,
    pub of_damaged: u64,
    pub answered: [u64; 256],
}

impl Lookups {
    pub fn new(bare: bool) -> Lookups {
        Lookups { out: Buffer::new(bare), of_left: 0, of_damaged: 0, answered: [0; 256] }
    }

    /// The first lookup that differs in the used parts of what a call left.
    pub fn of_left(&mut self, rng: &mut Rng, tables: &[Table<'_>; 3], rust: &Facts) -> Option<String> {
        (0..3).find_map(|which| {
            let table = &tables[which];
            let rust_fact = |pc: u64, slot: u16| {
                let cell = match which {
                    0 => rust.constant(pc as usize, slot),
                    1 => rust.index(pc as usize, slot),
                    _ => rust.container(pc as usize, slot),
                };
                cell.map_or(Look::None, |(kind, value)| Look::Cell(kind.into(), value))
            };
            (0..ASKED).find_map(|_| {
                self.of_left += 1;
                let (pc, slot) = (any_pc(rng, table), any_slot(rng, table));
                let reached =
                    if which == 0 { u8::from(rust.is_reachable(pc as usize)) } else { is_reachable(table.present, pc) };
                None.or_else(|| self.fact(rng, which, table, (pc, slot), rust_fact(pc, slot)))
                    .or_else(|| self.reached(which, table, pc, reached))
                    .or_else(|| self.fixed(rng, which, table, slot))
            })
        })
    }

    /// The first lookup that differs in damaged copies.
    pub fn of_damaged(&mut self, rng: &mut Rng, tables: &[Table<'_>; 3]) -> Option<String> {
        (0..3).find_map(|which| (0..COPIES).find_map(|_| self.of_copy(rng, which, &tables[which])))
    }

    fn of_copy(&mut self, rng: &mut Rng, which: usize, table: &Table<'_>) -> Option<String> {
        let mut copy = Copied::of(table);
        let mut place = copy.damage(rng, which);
        if rng.below(3) == 0 {
            place = copy.damage(rng, which);
        }
        let copy = copy.tight();
        let table = &copy.table();
        let before = copy.clone();
        let wrong = (0..ASKED_OF_COPY).find_map(|turn| {
            self.of_damaged += 1;
            let pc = if turn % 2 == 0 { place.0 } else { any_pc(rng, table) };
            let slot = if turn % 3 == 0 { place.1 } else { any_slot(rng, table) };
            None.or_else(|| self.fact(rng, which, table, (pc, slot), fact(which, table, pc, slot)))
                .or_else(|| self.reached(which, table, pc, is_reachable(table.present, pc)))
                .or_else(|| self.fixed(rng, which, table, slot))
        });
        wrong.or_else(|| (copy != before).then(|| format!("{}: a lookup changed its tables", NAMES[which])))
    }

    fn fact(
        &mut self,
        rng: &mut Rng,
        which: usize,
        table: &Table<'_>,
        (pc, slot): (u64, u16),
        must: Look,
    ) -> Option<String> {
        // Sound: it is one of the three lookups.
        let number = unsafe { raw::look(LOOKUPS[which], *table, pc, slot, self.lend(rng)) };
        self.wrong(number, must).map(|wrong| format!("{} at {pc} of slot {slot}{}: {wrong}", NAMES[which], told(table)))
    }

    fn fixed(&mut self, rng: &mut Rng, which: usize, table: &Table<'_>, slot: u16) -> Option<String> {
        if which != 0 {
            return None;
        }
        let number = raw::fixed(*table, slot, self.lend(rng));
        self.wrong(number, fixed(table, slot)).map(|wrong| format!("fixed of slot {slot}{}: {wrong}", told(table)))
    }

    fn reached(&mut self, which: usize, table: &Table<'_>, pc: u64, must: u8) -> Option<String> {
        // Sound: a slice has its true length.
        let is = unsafe { vo_facts_is_reachable(table.present.as_ptr(), table.present.len(), pc) };
        (is != must)
            .then(|| format!("{} is_reachable of {pc}{}: answered {is} and must be {must}", NAMES[which], told(table)))
    }

    /// `out` is exact, longer, and now and then too short.
    fn lend(&mut self, rng: &mut Rng) -> &mut [u64] {
        let length = match rng.below(16) {
            0 => 0,
            1 => 1,
            2..=5 => OUT_LENGTH + 1 + rng.below(3) as usize,
            _ => OUT_LENGTH,
        };
        self.out.fill(length, rng.below(u64::MAX));
        self.out.lend()
    }

    fn wrong(&mut self, number: u8, must: Look) -> Option<String> {
        self.answered[usize::from(number)] += 1;
        let (must_number, cell) = match must {
            _ if self.out.len() < OUT_LENGTH => (TOO_SHORT, None),
            Look::Damaged => (DAMAGED, None),
            Look::None => (NONE, None),
            Look::Cell(kind, value) => (0, Some([kind, value])),
        };
        if number != must_number {
            let length = self.out.len();
            return Some(format!("answered {number} and must be {must_number}, with out {length} long"));
        }
        let after = cell.as_ref().map_or(After::Kept, |cell| After::Written(cell));
        self.out.wrong(after).map(|wrong| format!("answered {number}, but out {wrong}"))
    }
}

/// Small tables are told whole, so that a difference in a damaged copy can be seen.
fn told(table: &Table<'_>) -> String {
    if table.kinds.len() > 64 {
        return String::new();
    }
    format!(" in slots {:?} present {:?} kinds {:?} values {:?}", table.slots, table.present, table.kinds, table.values)
}

fn any_pc(rng: &mut Rng, table: &Table<'_>) -> u64 {
    let n = table.present.len() as u64;
    match rng.below(12) {
        0 => n,
        1 => n + 1,
        2 => u64::MAX,
        // Instructions of the code, but for the high half.
        3 => rng.below(n + 1) + (1 << 32),
        _ => rng.below(n + 1),
    }
}

fn any_slot(rng: &mut Rng, table: &Table<'_>) -> u16 {
    let s = table.slots.len() as u64;
    match rng.below(12) {
        0 => 0,
        1 => 65535,
        2 => rng.below(65536) as u16,
        turn if s > 0 => {
            let tracked = table.slots[rng.below(s) as usize];
            match turn {
                3 => tracked.wrapping_add(1),
                4 => tracked.wrapping_sub(1),
                _ => tracked,
            }
        }
        _ => rng.below(8) as u16,
    }
}
