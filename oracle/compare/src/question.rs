//! Question 9 and the lookups, from document 01, for tables that no analysis left.

use vo_facts::Table;

/// What a lookup answers.
#[derive(Clone, Copy, Debug, PartialEq, Eq)]
pub enum Look {
    Damaged,
    None,
    Cell(u64, u64),
}

/// "Constants: 2 .., 3 negative", "Index: 2 Checked", "Containers: 2 map, 3 iterator, 4 queue"
pub const LAST_KIND: [u8; 3] = [3, 2, 4];

/// "do the slots ascend strictly, are kinds and values exactly n × s long"
fn agree(table: &Table<'_>) -> bool {
    let cells = table.present.len() as u128 * table.slots.len() as u128;
    let exact = |length: usize| length as u128 == cells;
    table.slots.windows(2).all(|pair| pair[0] < pair[1]) && exact(table.kinds.len()) && exact(table.values.len())
}

/// Of tables that agree: "is the present byte, for pc below n, 0 or 1, is the kind, for a tracked slot in a present
/// row, one that this analysis names"; "untracked slot, absent instruction or pc from n up answers "none""
fn in_row(which: usize, table: &Table<'_>, pc: u64, slot: u16) -> Look {
    if pc >= table.present.len() as u64 {
        return Look::None;
    }
    let pc = pc as usize;
    let column = table.slots.iter().position(|tracked| *tracked == slot);
    match (table.present[pc], column) {
        (2.., _) => Look::Damaged,
        (0, _) | (1, None) => Look::None,
        (1, Some(column)) => {
            let cell = pc * table.slots.len() + column;
            if table.kinds[cell] > LAST_KIND[which] {
                return Look::Damaged;
            }
            Look::Cell(table.kinds[cell].into(), table.values[cell])
        }
    }
}

pub fn fact(which: usize, table: &Table<'_>, pc: u64, slot: u16) -> Look {
    if agree(table) {
        in_row(which, table, pc, slot)
    } else {
        Look::Damaged
    }
}

/// "fixed .. when n exceeds 1, some instruction but 0 is present and all such show the same known value"; "it asks 9 of
/// every instruction"
pub fn fixed(table: &Table<'_>, slot: u16) -> Look {
    let rows: Vec<Look> = (0..table.present.len() as u64).map(|pc| fact(0, table, pc, slot)).collect();
    if !agree(table) || rows.contains(&Look::Damaged) {
        return Look::Damaged;
    }
    let mut shown = rows.into_iter().skip(1).filter(|row| *row != Look::None);
    match shown.next() {
        Some(Look::Cell(kind @ 2.., value)) if shown.all(|row| row == Look::Cell(kind, value)) => {
            Look::Cell(kind, value)
        }
        _ => Look::None,
    }
}

/// "yes for byte 1, no for 0 or pc from n up, 9 for another byte"
pub fn is_reachable(present: &[u8], pc: u64) -> u8 {
    match usize::try_from(pc).ok().and_then(|pc| present.get(pc)) {
        None | Some(0) => 0,
        Some(1) => 1,
        Some(_) => 9,
    }
}
