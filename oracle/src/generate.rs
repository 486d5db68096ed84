//! Sheets and budgets by seed: the same seed and number give the same sheet and budget.

use crate::answer::{answer, Budget, Outcome};
use crate::draft::{imm, line, Draft, Line, Param, Writes};
use crate::sheet::LIMITS;
use crate::verifier::fresh;

/// SplitMix64.
pub struct Rng(u64);

impl Rng {
    pub fn new(seed: u64, number: u64) -> Rng {
        let mut rng = Rng(seed.wrapping_mul(0x9E37_79B9_7F4A_7C15) ^ number.wrapping_mul(0xD1B5_4A32_D192_ED03));
        rng.next();
        rng
    }

    fn next(&mut self) -> u64 {
        self.0 = self.0.wrapping_add(0x9E37_79B9_7F4A_7C15);
        let z = (self.0 ^ self.0 >> 30).wrapping_mul(0xBF58_476D_1CE4_E5B9);
        let z = (z ^ z >> 27).wrapping_mul(0x94D0_49BB_1331_11EB);
        z ^ z >> 31
    }

    /// Below `bound`, which is not 0.
    pub fn below(&mut self, bound: u64) -> u64 {
        self.next() % bound
    }

    fn percent(&mut self, chance: u64) -> bool {
        self.below(100) < chance
    }

    fn pick<T: Copy>(&mut self, items: &[T]) -> T {
        items[self.below(items.len() as u64) as usize]
    }

    fn between(&mut self, (low, high): (u64, u64)) -> u64 {
        low + self.below(high - low + 1)
    }
}

/// A family of sheets: which opcodes, how many instructions and local slots, and how often (in percent) a visitor
/// errs, a range is odd, a note is another than the opcode's own, a slot is out of range.
pub struct Shape {
    pub name: &'static str,
    ops: &'static [u8],
    lines: (u64, u64),
    locals: (u64, u64),
    err: u64,
    odd_range: u64,
    odd_note: u64,
    odd_slot: u64,
    start: Start,
    budget: fn(&mut Rng, &[u8]) -> Budget,
    damaged: bool,
}

/// What the first four instructions do.
#[derive(PartialEq)]
enum Start {
    Anything,
    /// Slots 1 and 2 are Checked by the numbers that slot 0 is loaded with.
    Checked,
    /// Two containers, made on two ways, meet in one slot.
    Joined,
}

const PLAIN: Shape = Shape {
    name: "mixed",
    ops: NAMED,
    lines: (0, 10),
    locals: (0, 7),
    err: 3,
    odd_range: 10,
    odd_note: 10,
    odd_slot: 5,
    start: Start::Anything,
    budget: any_budget,
    damaged: false,
};

/// Every opcode that document 01 names, and 0, 63, 128, 255, which it does not.
#[rustfmt::skip]
const NAMED: &[u8] = &[
    1, 2, 3, 4, 5, 6, 7, 8, 13, 49, 53, 57, 58, 59, 64, 77, 81, 87, 89, 90, 91, 92, 93, 94, 95, 96, 97, 98, 99, 100,
    101, 103, 104, 111, 121, 124, 0, 63, 128, 255, 1, 1, 3, 4, 121, 121, 89, 96, 58, 59, 57, 124,
];
const BRANCHES: &[u8] = &[57, 58, 58, 59, 59, 124, 124, 1, 1, 1, 121, 121, 3, 64, 6, 5];
const COPIES: &[u8] = &[4, 4, 4, 3, 1, 1, 121, 121, 5, 89, 96, 58, 91, 97];
const SLOT_SETS: &[u8] = &[6, 6, 8, 8, 8, 5, 7, 1, 1, 121, 121, 121, 58, 3];
const LAYOUTS: &[u8] = &[89, 89, 89, 96, 96, 94, 94, 95, 95, 3, 4, 58, 59, 57, 124, 91, 98];
const VISITORS: &[u8] = &[1, 2, 3, 4, 5, 6, 6, 7, 8, 8, 49, 53, 57, 58, 64, 89, 91, 94, 95, 96, 98, 121, 124, 0];
const FOLDS: &[u8] = &[1, 2, 2, 2, 53, 53, 53, 49, 49, 49, 121, 13, 58, 3];
const CHECKS: &[u8] = &[1, 1, 2, 2, 121, 121, 121, 5, 6, 58, 59, 57, 3];
const CLOSURES: &[u8] = &[3, 3, 3, 4, 49, 53, 94, 94, 13, 5, 6, 87, 89, 121, 91, 90];

pub const SHAPES: &[Shape] = &[
    PLAIN,
    Shape { name: "any byte", ops: &[], ..PLAIN },
    Shape { name: "branches", ops: BRANCHES, lines: (1, 14), locals: (1, 3), ..PLAIN },
    Shape { name: "tiny", lines: (0, 2), locals: (0, 2), ..PLAIN },
    Shape { name: "copies", ops: COPIES, lines: (2, 9), odd_slot: 12, ..PLAIN },
    Shape { name: "high slots", ops: COPIES, lines: (1, 6), locals: (65529, 65535), odd_slot: 0, ..PLAIN },
    Shape { name: "visitors", ops: VISITORS, err: 40, locals: (3, 7), start: Start::Checked, ..PLAIN },
    Shape { name: "ranges", odd_range: 80, locals: (2, 9), ..PLAIN },
    Shape {
        name: "slot sets",
        ops: SLOT_SETS,
        lines: (2, 8),
        locals: (3, 7),
        odd_note: 40,
        start: Start::Checked,
        ..PLAIN
    },
    Shape { name: "layouts", ops: LAYOUTS, lines: (1, 8), locals: (2, 9), start: Start::Joined, ..PLAIN },
    Shape { name: "parameters", ops: LAYOUTS, lines: (1, 4), locals: (1, 8), ..PLAIN },
    Shape { name: "folds", ops: FOLDS, lines: (4, 14), locals: (2, 4), odd_slot: 1, odd_range: 2, ..PLAIN },
    Shape { name: "checks", ops: CHECKS, lines: (2, 10), locals: (3, 5), odd_slot: 1, start: Start::Checked, ..PLAIN },
    Shape { name: "closures", ops: CLOSURES, lines: (6, 18), locals: (3, 7), odd_slot: 2, budget: at_charge, ..PLAIN },
    Shape { name: "long", lines: (20, 60), locals: (4, 12), err: 1, odd_range: 4, ..PLAIN },
    Shape { name: "damaged", lines: (0, 4), damaged: true, ..PLAIN },
];

/// Sheet `number` of a seed; shapes take turns.
pub fn generated(seed: u64, number: u64) -> (Vec<u8>, Budget) {
    let shape = &SHAPES[(number % SHAPES.len() as u64) as usize];
    let mut rng = Rng::new(seed, number);
    let draft = draft(&mut rng, shape);
    let sheet = if shape.damaged { damaged(&mut rng, draft) } else { draft.bytes() };
    let budget = (shape.budget)(&mut rng, &sheet);
    (sheet, budget)
}

/// A sheet of some hundred instructions or up to 64 tracked slots.
pub fn large(seed: u64, number: u64) -> Vec<u8> {
    let mut rng = Rng::new(seed, number);
    let shape = match number % 3 {
        0 => Shape { name: "many instructions", lines: (150, 400), locals: (3, 5), err: 0, odd_range: 2, ..PLAIN },
        1 => Shape { name: "many slots", ops: COPIES, lines: (90, 120), locals: (64, 68), err: 0, ..PLAIN },
        _ => Shape { name: "both", lines: (60, 120), locals: (16, 32), err: 0, odd_range: 2, ..PLAIN },
    };
    draft(&mut rng, &shape).bytes()
}

fn draft(rng: &mut Rng, shape: &Shape) -> Draft {
    let n = rng.between(shape.lines);
    let mut draft = Draft { locals: rng.between(shape.locals) as u16, ..Draft::default() };
    draft.layouts = (0..rng.below(5)).map(|_| layout(rng)).collect();
    draft.constants = (0..rng.below(6)).map(|_| (u8::from(!rng.percent(15)), wide_value(rng))).collect();
    draft.lines = (0..n).map(|pc| any_line(rng, shape, &draft, pc as i64, n as i64)).collect();
    let start = start(rng, &shape.start, &draft);
    draft.lines.splice(0..0, start);
    add_params(rng, &mut draft);
    draft
}

fn start(rng: &mut Rng, start: &Start, draft: &Draft) -> Vec<Line> {
    match start {
        Start::Anything => Vec::new(),
        Start::Checked => {
            let lens = [0, 1, 1, 2, 3, 65535, 65535, 32768, 21846, 65536, -1];
            let mut check = |slot| [imm(1, 0, rng.pick(&lens)), line(121, slot, 0, 0)];
            [check(1), check(2)].concat()
        }
        Start::Joined => {
            let op = rng.pick(&[89, 96]);
            let mut made = || with_note(rng, &PLAIN, draft, line(op, 0, 1, 0));
            vec![imm(58, 1, 3), made(), imm(57, 0, 2), made()]
        }
    }
}

/// Short and of few kinds, so that equal contents under different numbers are common; sometimes empty.
fn layout(rng: &mut Rng) -> Vec<u8> {
    (0..rng.pick(&[0, 0, 1, 1, 1, 2, 2, 3])).map(|_| rng.pick(&[0, 0, 1, 5])).collect()
}

/// Values around which LoadConst, the folds and IndexCheck change what they do.
fn wide_value(rng: &mut Rng) -> i64 {
    let near = [0, 1, 2, 3, 7, 9, 62, 63, 64, 65, 65535, 65536, -1, -2, i64::MAX, i64::MIN, 1 << 62, 1 << 32];
    if rng.percent(10) {
        rng.next() as i64
    } else {
        rng.pick(&near)
    }
}

fn imm_value(rng: &mut Rng) -> i32 {
    let near = [0, 1, 2, 3, 7, 7, 9, 9, 63, 64, 65535, 65536, -1, -1, i32::MAX, i32::MIN];
    if rng.percent(10) {
        rng.next() as i32
    } else {
        rng.pick(&near)
    }
}

fn slot(rng: &mut Rng, shape: &Shape, locals: u16) -> u16 {
    if rng.percent(shape.odd_slot) || locals == 0 {
        return rng.pick(&[locals, locals.saturating_add(1), 65535, 65534, 65530]);
    }
    // Of many slots the last few, where CopyN and ranges reach past 65,535, and the first, to which they do not wrap.
    match locals {
        0..1000 => rng.below(u64::from(locals)) as u16,
        _ if rng.percent(40) => rng.below(4) as u16,
        _ => locals - 1 - rng.below(8) as u16,
    }
}

fn any_line(rng: &mut Rng, shape: &Shape, draft: &Draft, pc: i64, n: i64) -> Line {
    let op = if shape.ops.is_empty() { rng.below(256) as u8 } else { rng.pick(shape.ops) };
    let [a, mut b, mut c] = [0; 3].map(|_: u16| slot(rng, shape, draft.locals));
    let target = if rng.percent(5) { rng.next() as i32 as i64 } else { rng.between((0, n as u64 + 3)) as i64 - 2 };
    let wide = match op {
        1 => Some(imm_value(rng)),
        57..=59 => Some((target - pc) as i32),
        _ => None,
    };
    if let Some(value) = wide {
        (b, c) = (value as u16, (value >> 16) as u16);
    }
    match op {
        2 => b = rng.below(draft.constants.len() as u64 + 2) as u16,
        6 | 8 if shape.start == Start::Checked && rng.percent(60) => b = rng.pick(&[1, 2]),
        4 => c = copy_count(rng),
        124 => c = if rng.percent(5) { rng.next() as u16 } else { (target - pc - 1) as u16 },
        _ => {}
    }
    let flags = rng.pick(&[0, 0, 1, 2, 3, 255]);
    let natural = line(op, a, b, c).flagged(flags);
    let noted = with_note(rng, shape, draft, natural);
    with_writes(rng, shape, draft.locals, noted)
}

fn copy_count(rng: &mut Rng) -> u16 {
    if rng.percent(6) {
        rng.pick(&[65535, 65534, 40000, 300])
    } else {
        rng.below(5) as u16
    }
}

fn with_note(rng: &mut Rng, shape: &Shape, draft: &Draft, line: Line) -> Line {
    let y = draft.layouts.len() as u64;
    let own = match line.op {
        89 => 1,
        96 => 2,
        7 | 8 => 3,
        _ => 0,
    };
    let kind = if y == 0 {
        0
    } else if rng.percent(shape.odd_note) {
        rng.below(4) as u8
    } else {
        own
    };
    let [a, b] = [0; 2].map(|_: u8| if y == 0 { 0 } else { rng.below(y) as u16 });
    let unused = rng.pick(&[0, 0, y as u16, 65535]);
    match kind {
        0 => line.noted(0, unused, unused),
        1 => line.noted(1, a, b),
        _ => line.noted(kind, a, unused),
    }
}

fn with_writes(rng: &mut Rng, shape: &Shape, locals: u16, line: Line) -> Line {
    if rng.percent(shape.err) {
        return line.erring();
    }
    if !rng.percent(shape.odd_range) {
        return line;
    }
    let mut ranges = match &line.writes {
        Writes::Ranges(ranges) if rng.percent(50) => ranges.clone(),
        _ => Vec::new(),
    };
    for _ in 0..rng.below(4) {
        let start = slot(rng, shape, locals);
        let lengths = [0, 1, 1, 2, 3, 7, 65535, 65536, 65537, 4294967295, 4294967294, 4294901761, 131072];
        ranges.push((start, rng.pick(&lengths)));
    }
    line.writing(&ranges)
}

/// Parameters whose slots fit the first branch, the second, or neither, and sums past 65,535.
fn add_params(rng: &mut Rng, draft: &mut Draft) {
    let y = draft.layouts.len() as u64;
    draft.params = (0..rng.pick(&[0, 1, 1, 2, 3, 4])).map(|_| param(rng, y)).collect();
    draft.receiver = rng.pick(&[0, 0, 1, 2]);
    draft.closure = rng.percent(30);
    match rng.below(20) {
        0 => draft.receiver = 65535,
        1 => draft.params.push((65535, 0, 0, 0)),
        2 => draft.params.push((rng.pick(&[65535, 65534, 65533]), 0, 0, 0)),
        _ => {}
    }
    let width: u32 = draft.params.iter().map(|param| u32::from(param.0)).sum();
    let closure = u32::from(draft.closure);
    let implicit = u32::from(draft.receiver) + closure;
    draft.param_slots = match rng.below(10) {
        0..=4 => width.wrapping_add(implicit) as u16,
        5..=7 => width.wrapping_add(closure) as u16,
        8 => width as u16,
        _ => rng.below(8) as u16,
    };
}

fn param(rng: &mut Rng, y: u64) -> Param {
    let kind = if y == 0 { 0 } else { rng.pick(&[0, 1, 1, 2, 2]) };
    let width = rng.pick(&[0, 0, 1, 1, 1, 2, 3]);
    let [a, b] = [0; 2].map(|_: u8| if y == 0 { 0 } else { rng.below(y) as u16 });
    let unused = rng.pick(&[0, y as u16, 65535]);
    match kind {
        0 => (width, 0, unused, unused),
        1 => (width, 1, a, b),
        _ => (width, 2, a, unused),
    }
}

/// One damage, for refusals 1 to 5.
fn damaged(rng: &mut Rng, mut draft: Draft) -> Vec<u8> {
    let kind = rng.below(4);
    match rng.below(10) {
        0 | 1 => damaged_length(rng, draft.bytes()),
        2 | 3 => damaged_size(rng, draft.bytes()),
        4 | 5 => damaged_sum(rng, &draft),
        6 | 7 => {
            damage_kind(rng, &mut draft, kind);
            draft.bytes()
        }
        _ => {
            damage_layout(rng, &mut draft, kind);
            draft.bytes()
        }
    }
}

/// Cut by one or some, or longer by one.
fn damaged_length(rng: &mut Rng, mut bytes: Vec<u8>) -> Vec<u8> {
    match rng.below(4) {
        0 => bytes.truncate(rng.below(bytes.len() as u64) as usize),
        1 => bytes.push(rng.below(2) as u8),
        2 => bytes.truncate(rng.pick(&[0, 39, 40])),
        _ => bytes.truncate(bytes.len() - 1),
    }
    bytes
}

/// A size at its limit, one past it, far past it, or one more than it was.
fn damaged_size(rng: &mut Rng, mut bytes: Vec<u8>) -> Vec<u8> {
    let which = rng.below(10) as usize;
    let at = 4 * which..4 * which + 4;
    let was = u32::from_le_bytes(bytes[at.clone()].try_into().unwrap());
    let size = rng.pick(&[LIMITS[which], LIMITS[which] + 1, u32::MAX, 1 << 31, was + 1, was.saturating_sub(1)]);
    bytes[at].copy_from_slice(&size.to_le_bytes());
    bytes
}

/// A write count or a layout length that is one off.
fn damaged_sum(rng: &mut Rng, draft: &Draft) -> Vec<u8> {
    let mut bytes = draft.bytes();
    let (n, y) = (draft.lines.len() as u64, draft.layouts.len() as u64);
    if n + y == 0 {
        return bytes;
    }
    let which = rng.below(n + y);
    let at = if which < n {
        draft.write_counts_at() + 2 * which as usize
    } else {
        draft.layout_lengths_at() + 2 * (which - n) as usize
    };
    let was = u16::from_le_bytes([bytes[at], bytes[at + 1]]);
    let now = rng.pick(&[was.wrapping_add(1), was.wrapping_sub(1), 65535, 65534]);
    bytes[at..at + 2].copy_from_slice(&now.to_le_bytes());
    bytes
}

/// A kind byte one past its last, or far past it.
fn damage_kind(rng: &mut Rng, draft: &mut Draft, kind: u64) {
    let past = rng.pick(&[0, 0, 0, 200]);
    match kind {
        0 => draft.lines.push(line(0, 0, 0, 0).noted(4 + past, 0, 0)),
        1 => draft.constants.push((2 + past, 0)),
        2 => draft.params.push((1, 3 + past, 0, 0)),
        _ => draft.layouts.push(vec![0, 6 + past]),
    }
}

/// A used layout number at y; or only unused ones there, which is no damage.
fn damage_layout(rng: &mut Rng, draft: &mut Draft, kind: u64) {
    let y = draft.layouts.len() as u16;
    let good = y.saturating_sub(1);
    let op = rng.pick(&[89, 96, 8, 0]);
    match kind {
        0 => draft.lines.push(line(op, 0, 0, 0).noted(1, rng.pick(&[good, y]), y)),
        1 => draft.lines.push(line(op, 0, 0, 0).noted(rng.pick(&[2, 3]), rng.pick(&[good, y]), y)),
        2 => draft.params.push((1, 1, rng.pick(&[good, y]), rng.pick(&[good, y]))),
        _ => draft.params.push((1, 2, rng.pick(&[good, y]), y)),
    }
}

/// Fresh, wide, small, or such that a charge is one short or just covered.
fn any_budget(rng: &mut Rng, sheet: &[u8]) -> Budget {
    match rng.below(10) {
        0..=3 => fresh(),
        4 => Budget { bytes: wide_amount(rng), work: wide_amount(rng) },
        5 => Budget { bytes: rng.below(4000), work: rng.below(200) },
        _ => short(rng, sheet),
    }
}

fn wide_amount(rng: &mut Rng) -> u64 {
    let at_least = rng.next() | 1 << 32;
    rng.pick(&[u64::MAX, u64::MAX - 1, 1 << 63, 268435457, at_least])
}

/// A random charge of the run on an ample budget: one short of it, just enough for it, or in between.
fn short(rng: &mut Rng, sheet: &[u8]) -> Budget {
    let left = answer(sheet, fresh()).left;
    let of_bytes = rng.percent(50);
    let used = if of_bytes { fresh().bytes - left.bytes } else { fresh().work - left.work };
    // As many small amounts as large ones, so that early stages are met too.
    let bits = 64 - used.leading_zeros() as u64;
    let cap = (1u64 << rng.below(bits + 1)).min(used + 1);
    let amount = rng.below(cap);
    let limited = |amount| {
        if of_bytes {
            Budget { bytes: amount, ..fresh() }
        } else {
            Budget { work: amount, ..fresh() }
        }
    };
    let Outcome::Spent(spent) = answer(sheet, limited(amount)).outcome else {
        return limited(amount);
    };
    let enough = amount - spent.remaining + spent.requested;
    limited(rng.pick(&[amount, enough - 1, enough]))
}

/// Some charge of the run, one short of it or just enough for it.
fn at_charge(rng: &mut Rng, sheet: &[u8]) -> Budget {
    let budgets = boundaries(sheet);
    if budgets.is_empty() {
        fresh()
    } else {
        rng.pick(&budgets)
    }
}

/// Every charge of the run that is not 0: a budget one short of it and one that just covers it.
pub fn boundaries(sheet: &[u8]) -> Vec<Budget> {
    let mut found = Vec::new();
    for limited in [|amount| Budget { bytes: amount, ..fresh() }, |amount| Budget { work: amount, ..fresh() }] {
        let mut amount = 0;
        while let Outcome::Spent(spent) = answer(sheet, limited(amount)).outcome {
            amount += spent.requested - spent.remaining;
            found.extend([limited(amount - 1), limited(amount)]);
        }
    }
    found
}
