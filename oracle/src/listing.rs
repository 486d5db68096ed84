//! The bytes that the program `facts` writes.

use crate::answer::{answer, Outcome, Table, NAMES};
use crate::outside::Layout;
use crate::sheet::Sheet;
use crate::verifier::fresh;

const TOO_LARGE: &str = "too large\n";

pub fn listing(bytes: &[u8]) -> String {
    if bytes.len() > 65536 {
        return TOO_LARGE.into();
    }
    let sheet = match Sheet::load(bytes) {
        Ok(sheet) => sheet,
        Err(number) => return format!("refused {number}\n"),
    };
    if sheet.func.code.len() > 256 || sheet.func.local_slots > 4096 {
        return TOO_LARGE.into();
    }
    let answer = answer(bytes, fresh());
    // A closure is listed only where it was reached, so question 7 did not come before it.
    if answer.closed.iter().any(|closed| closed.slots > 32) {
        return TOO_LARGE.into();
    }
    let Outcome::Facts(tables) = &answer.outcome else {
        return format!("refused {}\n", answer.number());
    };
    let show: [&dyn Fn(u8, u64) -> String; 3] =
        [&constant, &|_, len| format!("checked {len}"), &|kind, value| container(&sheet.module.layouts, kind, value)];
    let mut out: String =
        NAMES.iter().zip(tables).zip(show).map(|((name, table), show)| part(name, table, show)).collect();
    out += &format!("left {} {}\n", answer.left.bytes, answer.left.work);
    out
}

fn part(name: &str, table: &Table, show: &dyn Fn(u8, u64) -> String) -> String {
    let s = table.slots.len();
    let mut out = format!("{name} {} {s} {}\n", table.present.len(), table.pops);
    let present = table.present.iter().enumerate().filter(|(_, present)| **present == 1);
    for (pc, column) in present.flat_map(|(pc, _)| (0..s).map(move |column| (pc, column))) {
        let fact = match table.kinds[pc * s + column] {
            0 => "unknown".into(),
            1 => "conflict".into(),
            kind => show(kind, table.values[pc * s + column]),
        };
        out += &format!("{pc} {} {fact}\n", table.slots[column]);
    }
    out
}

/// "A known constant prints in signed decimal."
fn constant(kind: u8, value: u64) -> String {
    match kind {
        2 => value.to_string(),
        _ => (i128::from(value) - (1 << 64)).to_string(),
    }
}

fn container(layouts: &[Layout], kind: u8, value: u64) -> String {
    let (a, b) = (lowest(layouts, value >> 16), lowest(layouts, value & 65535));
    match kind {
        2 => format!("map {a} {b}"),
        3 => format!("iter {a} {b}"),
        _ => format!("queue {a}"),
    }
}

/// "with the lowest layout number of equal content"
fn lowest(layouts: &[Layout], number: u64) -> usize {
    let content = &layouts[number as usize].slots;
    layouts.iter().position(|layout| layout.slots == *content).unwrap()
}
