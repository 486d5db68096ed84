//! Fixed inputs: the proved cases of document 01, readings of it, short sheets in full, sheets at each limit, and the
//! list of the recorded sheets.

use crate::answer::{answer, Budget, Outcome};
use crate::draft::{imm, line, Draft, Line};
use crate::generate::{boundaries, generated, large};
use crate::sheet::{Sheet, LIMITS};
use crate::verifier::{fresh, successors};

pub type Request = (Vec<u8>, Budget);

pub const RECORDED_SEED: u64 = 1;
const RECORDED_GENERATED: u64 = 5000;
const RECORDED_LARGE: u64 = 9;
const RECORDED_LONGEST: usize = 20_000;

/// What a case must show.
pub enum Expect {
    /// Table (0 constant, 1 index, 2 container), instruction, slot, kind, value.
    Cell(usize, usize, u16, u8, u64),
    /// Table, pops.
    Pops(usize, u64),
    /// Instruction, its successors.
    Next(usize, &'static [usize]),
}

pub struct Case {
    pub name: &'static str,
    pub draft: Draft,
    pub expect: Expect,
}

/// "Sheet: L 2; LoadInt a 0, 7; JumpIfNot a 1, +2; LoadInt a 0, 9; IndexCheck a 1, b 0; Return"
pub fn worked() -> Draft {
    Draft::of(2, vec![imm(1, 0, 7), imm(59, 1, 2), imm(1, 0, 9), line(121, 1, 0, 0), line(64, 0, 0, 0)])
}

/// "Proved cases", in document 01's order; then lines of its readings that a proved case does not show.
pub fn cases() -> Vec<Case> {
    use Expect::*;
    let case = |name, draft, expect| Case { name, draft, expect };
    vec![
        case("Unknown and 7 join to Unknown", joined(&[None, Some(7)]), Cell(0, 10, 0, 0, 0)),
        case("7 and 9 to Conflict", joined(&[Some(7), Some(9)]), Cell(0, 10, 0, 1, 0)),
        case("7, 9, Unknown in turn give Conflict", joined(&[Some(7), Some(9), None]), Cell(0, 10, 0, 1, 0)),
        case("7, Unknown, 9 give Unknown", joined(&[Some(7), None, Some(9)]), Cell(0, 10, 0, 0, 0)),
        case("1 shifted by 63", folded(53, 1, 63), Cell(0, 3, 2, 2, 1 << 63)),
        case("1 shifted by 64", folded(53, 1, 64), Cell(0, 3, 2, 0, 0)),
        case("-1 Or 0", folded(49, -1, 0), Cell(0, 3, 2, 0, 0)),
        case("IndexCheck of 65,535", checked(65535), Cell(1, 2, 1, 2, 65535)),
        case("IndexCheck of 65,536", checked(65536), Cell(1, 2, 1, 1, 0)),
        case("IndexCheck of -1", checked(-1), Cell(1, 2, 1, 1, 0)),
        case("ForLoop at 5 of 10 with c 65,533", at(5, 10, line(124, 0, 0, 65533)), Next(5, &[6, 3])),
        case("Jump -3 at 2", at(2, 4, imm(57, 0, -3)), Next(2, &[])),
        case("JumpIf +1 at 1 of 3", at(1, 3, imm(58, 0, 1)), Next(1, &[2])),
        case("SlotSet under Checked 0", slot_set_under(0, line(6, 0, 1, 0)), Cell(1, 3, 1, 2, 0)),
        case("the listing's 7 pops", worked(), Pops(0, 7)),
        case("3 shifted by 63 drops a bit", folded(53, 3, 63), Cell(0, 3, 2, 2, 1 << 63)),
        case("0 shifted by 64", folded(53, 0, 64), Cell(0, 3, 2, 0, 0)),
        case("-1 and 2^64 - 1 are different facts", minus_one_and_top(), Cell(0, 8, 2, 1, 0)),
        case("SlotSet under Checked 1", slot_set_under(1, line(6, 0, 1, 0)), Cell(1, 3, 1, 2, 1)),
        case("SlotSetN writes len × flags", slot_set_under(2, line(8, 0, 1, 0).flagged(1)), Cell(1, 3, 1, 0, 0)),
        case("Or of a Conflict is Unknown", or_of_conflict(), Cell(0, 5, 1, 0, 0)),
        case("a later parameter without container", two_params_at_one_slot(), Cell(2, 0, 0, 2, 65536)),
        case("a map in MapIterNext's b is Unknown", iter_next_of_map(), Cell(2, 2, 0, 0, 0)),
        case("MapIterNext covers the slot 6 above b", iter_next_at(1), Cell(2, 3, 7, 3, 65536)),
        case("MapIterNext leaves the slot 7 above b", iter_next_at(1), Cell(2, 3, 8, 0, 0)),
        case("MapIterNext does not wrap at 65,536", iter_next_at(65531), Cell(2, 3, 0, 0, 0)),
        case("CopyN does not wrap at 65,536", copy_n_at_end(), Cell(0, 2, 2, 0, 0)),
        case("equal layouts keep the old number", made_twice(89, 1, vec![2, 3]), Cell(2, 4, 0, 2, 65537)),
        case("empty layouts are equal", made_twice(96, 2, vec![]), Cell(2, 4, 0, 4, 65536)),
    ]
}

/// The first case that does not show what it must.
pub fn wrong_case() -> Option<&'static str> {
    cases().into_iter().find(|case| !shows(case)).map(|case| case.name)
}

fn shows(case: &Case) -> bool {
    let sheet = case.draft.bytes();
    if let Expect::Next(pc, next) = case.expect {
        return Sheet::load(&sheet).is_ok_and(|sheet| successors(&sheet)[pc] == next);
    }
    let Outcome::Facts(tables) = answer(&sheet, fresh()).outcome else { return false };
    match case.expect {
        Expect::Pops(which, pops) => tables[which].pops == pops,
        Expect::Cell(which, pc, slot, kind, value) => {
            let table = &tables[which];
            let Ok(column) = table.slots.binary_search(&slot) else { return false };
            let cell = pc * table.slots.len() + column;
            (table.present[pc], table.kinds[cell], table.values[cell]) == (1, kind, value)
        }
        Expect::Next(..) => false,
    }
}

/// Up to three facts of slot 0 arrive at instruction 10, in this order: the branch taken last is followed first.
fn joined(facts: &[Option<i32>]) -> Draft {
    let load = |i: usize| match facts.get(i) {
        Some(Some(value)) => imm(1, 0, *value),
        _ => line(0, 0, 0, 0),
    };
    // Where a third fact is not wanted its branch ends in Return.
    let third = if facts.len() == 3 { imm(57, 0, 6) } else { line(64, 0, 0, 0) };
    let code = vec![
        imm(58, 1, 8),
        imm(58, 1, 4),
        load(2),
        line(0, 0, 0, 0),
        third,
        load(1),
        imm(57, 0, 4),
        line(64, 0, 0, 0),
        load(0),
        line(0, 0, 0, 0),
        line(121, 1, 0, 0),
        line(64, 0, 0, 0),
    ];
    Draft::of(2, code)
}

/// Slot 2 is what the opcode makes of two loaded numbers; instruction 3 asks for it.
fn folded(op: u8, left: i32, right: i32) -> Draft {
    Draft::of(3, vec![imm(1, 0, left), imm(1, 1, right), line(op, 2, 0, 1), line(121, 0, 2, 0)])
}

fn checked(value: i32) -> Draft {
    Draft::of(2, vec![imm(1, 0, value), line(121, 1, 0, 0), line(5, 0, 0, 1)])
}

fn slot_set_under(len: i32, set: Line) -> Draft {
    Draft::of(2, vec![imm(1, 0, len), line(121, 1, 0, 0), set, line(64, 0, 0, 0)])
}

/// An instruction among others that fall through.
fn at(pc: usize, n: usize, line: Line) -> Draft {
    let mut lines = vec![Line::default(); n];
    lines[pc] = line;
    Draft::of(1, lines)
}

/// Slot 2 is 2^64 − 1 on one way to instruction 8 and −1 on the other.
fn minus_one_and_top() -> Draft {
    let code = vec![
        imm(1, 0, 1),
        imm(1, 1, 63),
        line(53, 0, 0, 1),
        line(2, 1, 0, 0),
        imm(58, 3, 3),
        line(49, 2, 0, 1),
        imm(57, 0, 2),
        imm(1, 2, -1),
        line(121, 3, 2, 0),
    ];
    Draft { constants: vec![(1, i64::MAX)], ..Draft::of(4, code) }
}

fn or_of_conflict() -> Draft {
    let code = vec![imm(1, 0, 7), imm(58, 1, 2), imm(1, 0, 9), line(0, 0, 0, 0), line(49, 1, 0, 0), line(121, 0, 1, 0)];
    Draft::of(2, code)
}

fn two_params_at_one_slot() -> Draft {
    let params = vec![(0, 1, 1, 0), (1, 0, 0, 0)];
    Draft { params, layouts: vec![vec![0], vec![1]], param_slots: 1, ..Draft::of(1, vec![line(90, 0, 0, 0)]) }
}

fn iter_next_of_map() -> Draft {
    let code = vec![line(89, 0, 1, 0).noted(1, 0, 0), line(95, 1, 0, 0), line(64, 0, 0, 0)];
    Draft { layouts: vec![vec![0]], ..Draft::of(2, code) }
}

/// An iterator in slot b, and MapIterNext of it with a visitor that errs; slots 0, 7 and 8 are tracked.
fn iter_next_at(b: u16) -> Draft {
    let code = vec![
        line(89, 9, 10, 0).noted(1, 1, 0),
        line(94, b, 9, 0),
        line(95, 9, b, 0).erring(),
        line(90, 10, 0, 0),
        line(90, 10, 7, 0),
        line(90, 10, 8, 0),
    ];
    Draft { layouts: vec![vec![], vec![3]], ..Draft::of(65535, code) }
}

/// Slot 2 would lie in a CopyN from 65,530 on, with the source 9, if it wrapped.
fn copy_n_at_end() -> Draft {
    Draft::of(65535, vec![imm(1, 9, 7), line(4, 65530, 1, 10).erring(), line(121, 0, 9, 0), line(121, 0, 2, 0)])
}

/// One container from layout 1 and then one from layout 0, of equal content, arrive at instruction 4.
fn made_twice(op: u8, note: u8, layout: Vec<u8>) -> Draft {
    let made = |number| line(op, 0, 1, 0).noted(note, number, number);
    let code = vec![imm(58, 1, 3), made(0), imm(57, 0, 2), made(1), line(64, 0, 0, 0)];
    Draft { layouts: vec![layout.clone(), layout], ..Draft::of(2, code) }
}

/// Every kind of charge in one sheet.
fn rich() -> Draft {
    let code = vec![
        imm(1, 0, 1),
        line(2, 1, 0, 0),
        line(53, 2, 0, 1),
        line(49, 3, 2, 0),
        line(4, 4, 2, 3),
        line(89, 5, 3, 0).noted(1, 0, 1),
        line(96, 6, 4, 0).noted(2, 2, 0),
        line(94, 7, 5, 0),
        line(95, 0, 7, 0),
        line(121, 1, 3, 0),
        line(5, 0, 0, 1),
        line(8, 6, 1, 0).noted(3, 0, 0),
        imm(58, 0, -4),
        line(3, 6, 5, 0),
        line(64, 0, 0, 0),
    ];
    let mut draft = Draft::of(9, code);
    draft.constants = vec![(1, 5)];
    draft.layouts = vec![vec![0, 1], vec![2, 3, 4], vec![0]];
    draft.params = vec![(1, 1, 1, 0), (2, 2, 2, 0), (0, 0, 0, 0)];
    (draft.param_slots, draft.receiver, draft.closure) = (5, 1, true);
    draft
}

/// "every length from 0 to 41 bytes": zeros, ones, and the beginning of the worked sheet.
fn lengths() -> impl Iterator<Item = Vec<u8>> {
    let worked = worked().bytes();
    (0..42).flat_map(move |length| [vec![0; length], vec![255; length], worked[..length].to_vec()])
}

/// One opcode of each class: branches, loads, copies, folds, seeds and writers that the rules tell apart.
const CLASSES: &[u8] = &[1, 2, 3, 4, 5, 6, 8, 13, 49, 53, 57, 58, 124, 64, 87, 89, 90, 91, 94, 95, 96, 121, 0];

/// Instructions of all classes with fields 0 to 2.
pub const SINGLES: usize = CLASSES.len() * 27;

fn single(i: usize) -> Line {
    let op = CLASSES[i / 27];
    let field = |divisor: usize| (i / divisor % 3) as u16;
    let line = line(op, field(9), field(3), field(1)).flagged(2);
    match op {
        89 => line.noted(1, 0, 1),
        96 => line.noted(2, 1, 0),
        8 => line.noted(3, 0, 0),
        _ => line,
    }
}

fn script(lines: Vec<Line>) -> Vec<u8> {
    let draft = Draft::of(3, lines);
    Draft { constants: vec![(1, -1), (0, 5), (1, 65535)], layouts: vec![vec![0], vec![0, 1]], ..draft }.bytes()
}

/// Every length, every script of one instruction with every budget that a charge just misses or just fits, and every
/// `step`-th script of two instructions.
pub fn short(step: usize) -> impl Iterator<Item = Request> {
    let ones = (0..SINGLES).map(|i| script(vec![single(i)])).flat_map(|sheet| {
        let budgets = boundaries(&sheet);
        std::iter::once(fresh()).chain(budgets).map(move |budget| (sheet.clone(), budget))
    });
    let pairs = (0..SINGLES * SINGLES).step_by(step);
    let twos = pairs.map(|i| (script(vec![single(i / SINGLES), single(i % SINGLES)]), fresh()));
    lengths().map(|sheet| (sheet, fresh())).chain(ones).chain(twos)
}

/// Shl and Or of every two of these numbers, and IndexCheck of what they give.
fn folds() -> impl Iterator<Item = Vec<u8>> {
    let numbers = [0, 1, 3, 63, 64, 65535, i64::MAX as i128, 1 << 63, (1 << 64) - 1, -1, i64::MIN as i128];
    let pairs = numbers.into_iter().flat_map(move |left| numbers.map(|right| (left, right)));
    pairs.flat_map(|(left, right)| [53, 49].map(|op| fold(op, left, right)))
}

fn fold(op: u8, left: i128, right: i128) -> Vec<u8> {
    let mut draft = Draft::of(5, vec![]);
    put_number(&mut draft, 0, left);
    put_number(&mut draft, 1, right);
    draft.lines.extend([line(op, 2, 0, 1), line(121, 4, 2, 0), line(5, 3, 0, 4)]);
    draft.bytes()
}

/// LoadConst into a slot; numbers from 2^63 up are folded with the help of slots 2 and 3.
fn put_number(draft: &mut Draft, slot: u16, value: i128) {
    let mut load = |slot, value| {
        draft.constants.push((1, value));
        draft.lines.push(line(2, slot, draft.constants.len() as u16 - 1, 0));
    };
    if let Ok(value) = i64::try_from(value) {
        return load(slot, value);
    }
    load(2, 1);
    load(3, 63);
    draft.lines.push(line(53, slot, 2, 3));
    let rest = (value - (1 << 63)) as i64;
    draft.constants.push((1, rest));
    draft.lines.extend([line(2, 3, draft.constants.len() as u16 - 1, 0), line(49, slot, slot, 3)]);
}

/// Every opcode byte between a load and a use, once with its own ranges and once with a visitor that errs.
fn every_byte() -> impl Iterator<Item = Vec<u8>> {
    (0..=255).flat_map(|op| {
        let own = line(op, 0, 1, 2).noted(if op == 89 { 1 } else { 2 }, 0, 0);
        [own.clone(), own.erring()]
            .map(|middle| script(vec![imm(1, 0, 7), middle, line(121, 1, 0, 0), line(5, 2, 0, 1), line(90, 2, 0, 0)]))
    })
}

/// One damage each of a sheet that has something of everything, for refusals 3 to 5; unused layout numbers do none.
fn damages() -> Vec<Vec<u8>> {
    let rich = rich();
    let y = rich.layouts.len() as u16;
    let mut drafts = Vec::new();
    let mut damage = |change: &dyn Fn(&mut Draft)| {
        let mut draft = rich.clone();
        change(&mut draft);
        drafts.push(draft.bytes());
    };
    damage(&|draft| draft.lines[0].note.0 = 4);
    damage(&|draft| draft.constants[0].0 = 2);
    damage(&|draft| draft.params[0].1 = 3);
    damage(&|draft| draft.layouts[0][0] = 6);
    for (line, _) in rich.lines.iter().enumerate() {
        damage(&|draft| draft.lines[line].note.1 = y);
        damage(&|draft| draft.lines[line].note.2 = y);
    }
    for (param, _) in rich.params.iter().enumerate() {
        damage(&|draft| draft.params[param].2 = y);
        damage(&|draft| draft.params[param].3 = y);
    }
    let whole = rich.bytes();
    drafts.extend([whole[..whole.len() - 1].to_vec(), [&whole[..], &[0]].concat()]);
    let counts = (0..rich.lines.len()).map(|i| rich.write_counts_at() + 2 * i);
    let lengths = (0..rich.layouts.len()).map(|i| rich.layout_lengths_at() + 2 * i);
    for place in counts.chain(lengths) {
        for byte in [whole[place].wrapping_add(1), whole[place].wrapping_sub(1)] {
            let mut sheet = whole.clone();
            sheet[place] = byte;
            drafts.push(sheet);
        }
    }
    drafts
}

/// Each size at its limit and one past it, and the limits of the program `facts`.
pub fn limits() -> Vec<Vec<u8>> {
    let worked = worked().bytes();
    let mut sheets: Vec<Vec<u8>> = Vec::new();
    for more in [0, 1] {
        let of = |i: usize| (LIMITS[i] + more) as usize;
        let plain = Draft::of(2, vec![line(121, 0, 0, 0)]);
        sheets.push(Draft::of(1, vec![line(121, 0, 0, 0); of(0)]).bytes());
        sheets.push(Draft::of(2, vec![line(121, 0, 0, 0).writing(&vec![(9, 1); of(1)])]).bytes());
        sheets.push(Draft { constants: vec![(1, 0); of(2)], ..plain.clone() }.bytes());
        sheets.push(Draft { params: vec![(1, 0, 0, 0); of(3)], ..plain.clone() }.bytes());
        sheets.push(Draft { layouts: vec![vec![]; of(4)], ..plain.clone() }.bytes());
        sheets.push(Draft { layouts: vec![vec![5; of(5)]], ..plain }.bytes());
        for size in 6..10 {
            let mut sheet = worked.clone();
            sheet[4 * size..4 * size + 4].copy_from_slice(&(LIMITS[size] + more).to_le_bytes());
            sheets.push(sheet);
        }
        sheets.push(Draft::of(1, vec![line(121, 0, 0, 0); 256 + more as usize]).bytes());
        sheets.push(Draft::of(4096 + more as u16, vec![line(121, 0, 0, 0)]).bytes());
        sheets.push(Draft::of(40, (0..32 + more as u16).map(|slot| line(121, 0, slot, 0)).collect()).bytes());
        sheets.push(Draft::of(40, (0..32 + more as u16).map(|slot| line(5, 0, 0, slot)).collect()).bytes());
        sheets.push(Draft::of(40, (0..32 + more as u16).map(|slot| line(90, 0, slot, 0)).collect()).bytes());
        sheets.push(sized(65536 + more as usize));
    }
    let mut wrong_length = Draft::of(1, vec![line(121, 0, 0, 0); 257]).bytes();
    wrong_length.pop();
    sheets.push(wrong_length);
    sheets
}

/// A good sheet of this many bytes: one instruction (15), constants (9 each), ranges (6 each) and a layout for the rest.
fn sized(length: usize) -> Vec<u8> {
    let constants = vec![(1, 7); 4000];
    let rest = length - 40 - 15 - 9 * constants.len();
    let ranges = rest / 6 - 1;
    let layout = vec![0; rest - 6 * ranges - 2];
    let line = line(121, 0, 0, 0).writing(&vec![(9, 1); ranges]);
    Draft { constants, layouts: vec![layout], ..Draft::of(1, vec![line]) }.bytes()
}

/// Cases, readings, limits and the boundaries of two sheets: what every comparison begins with.
pub fn fixed() -> Vec<Request> {
    let with = |budget: Budget| move |sheet: Vec<u8>| (sheet, budget);
    let mut out: Vec<Request> = cases().iter().map(|case| case.draft.bytes()).map(with(fresh())).collect();
    for sheet in [worked().bytes(), rich().bytes()] {
        let budgets = boundaries(&sheet);
        out.extend(budgets.into_iter().map(|budget| (sheet.clone(), budget)));
    }
    out.push((worked().bytes(), Budget { bytes: 0, work: 0 }));
    // "n 0, L 1, bytes 0: 7 with stage 3, requested 1, remaining 0"
    out.push((Draft::of(1, vec![]).bytes(), Budget { bytes: 0, ..fresh() }));
    out.extend(folds().map(with(fresh())));
    out.extend(every_byte().map(with(fresh())));
    out.extend(damages().into_iter().map(with(fresh())));
    out.extend(limits().into_iter().map(with(fresh())));
    out.extend(lengths().map(with(fresh())));
    out
}

/// The list of the recorded sheets: fixed inputs of moderate length, generated ones, and a few large sheets.
pub fn recorded() -> impl Iterator<Item = Request> {
    let generated = (0..RECORDED_GENERATED).map(|number| generated(RECORDED_SEED, number));
    let large = (0..RECORDED_LARGE).map(|number| (large(RECORDED_SEED, number), fresh()));
    fixed().into_iter().chain(generated).filter(|(sheet, _)| sheet.len() <= RECORDED_LONGEST).chain(large)
}
