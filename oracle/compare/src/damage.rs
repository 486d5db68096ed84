//! Copies of tables, with something changed that a lookup must refuse or answer otherwise.

use crate::question::LAST_KIND;
use oracle::generate::Rng;
use vo_facts::Table;

#[derive(Clone, PartialEq, Eq)]
pub struct Copied {
    slots: Vec<u16>,
    present: Vec<u8>,
    kinds: Vec<u8>,
    values: Vec<u64>,
}

impl Copied {
    pub fn of(table: &Table<'_>) -> Copied {
        let Table { slots, present, kinds, values } = *table;
        Copied { slots: slots.to_vec(), present: present.to_vec(), kinds: kinds.to_vec(), values: values.to_vec() }
    }

    /// Allocated anew, exactly as long as its parts, so that a tool that watches the heap sees a step past their ends.
    pub fn tight(&self) -> Copied {
        Copied::of(&self.table())
    }

    pub fn table(&self) -> Table<'_> {
        Table { slots: &self.slots, present: &self.present, kinds: &self.kinds, values: &self.values }
    }

    /// One change, and the instruction and slot where it shows.
    pub fn damage(&mut self, rng: &mut Rng, which: usize) -> (u64, u16) {
        let (n, s) = (self.present.len(), self.slots.len());
        let pc = rng.below(n.max(1) as u64) as usize;
        let column = rng.below(s.max(1) as u64) as usize;
        let slot = self.slots.get(column).copied().unwrap_or(0);
        let cell = (pc * s + column).min(self.kinds.len().saturating_sub(1));
        let last = LAST_KIND[which];
        let longer = rng.below(2) == 0;
        match rng.below(13) {
            0 if column + 1 < s => self.slots.swap(column, column + 1),
            1 if column + 1 < s => self.slots[column + 1] = slot,
            2 => lengthen(&mut self.slots, longer, slot.wrapping_add(1)),
            3 => lengthen(&mut self.present, longer, rng.below(3) as u8),
            4 => lengthen(&mut self.kinds, longer, 0),
            5 => lengthen(&mut self.values, longer, 0),
            6 if n > 0 => self.present[pc] = [2, 3, 128, 255][rng.below(4) as usize],
            7 if n > 0 => self.present[pc] ^= 1,
            8 if cell < self.kinds.len() => self.kinds[cell] = last + 1,
            9 if cell < self.kinds.len() => self.kinds[cell] = rng.below(256) as u8,
            10 if cell < self.kinds.len() => self.kinds[cell] = rng.below(u64::from(last) + 1) as u8,
            11 if cell < self.values.len() => self.values[cell] = rng.below(u64::MAX),
            _ => self.fix(rng, column),
        }
        (pc as u64, slot)
    }

    /// The same known number in a column of every row, or of all but one: "fixed", or almost.
    fn fix(&mut self, rng: &mut Rng, column: usize) {
        let (n, s) = (self.present.len(), self.slots.len());
        if s == 0 || self.kinds.len() != n * s || self.values.len() != n * s {
            return;
        }
        let (kind, value) = (2 + rng.below(2) as u8, [0, 7, u64::MAX][rng.below(3) as usize]);
        for pc in 0..n {
            (self.kinds[pc * s + column], self.values[pc * s + column]) = (kind, value);
        }
        let other = rng.below(n as u64 + 1) as usize;
        if other < n && rng.below(2) == 0 {
            self.kinds[other * s + column] = rng.below(5) as u8;
        }
        if rng.below(2) == 0 {
            self.present.fill(1);
        }
    }
}

fn lengthen<T>(part: &mut Vec<T>, longer: bool, element: T) {
    if longer {
        part.push(element);
    } else {
        part.pop();
    }
}
