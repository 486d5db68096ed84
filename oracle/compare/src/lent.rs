//! The 17 buffers of a call, its answer, and the call.

use crate::memory::{After, Buffer, Element, Fill};
use oracle::expect::{Left, Lengths, MARKS, ROW_KINDS, ROW_VALUES, STACK, WORK_LIST};
use oracle::{Budget, Table, NAMES};
use vo_facts::raw::{vo_facts_analyze, ANSWER_LENGTH};

pub struct Output {
    pub slots: Buffer<u16>,
    pub present: Buffer<u8>,
    pub kinds: Buffer<u8>,
    pub values: Buffer<u64>,
}

pub struct Lent {
    pub outputs: [Output; 3],
    marks: Buffer<u8>,
    stack: Buffer<u16>,
    row_kinds: Buffer<u8>,
    row_values: Buffer<u64>,
    work_list: Buffer<u16>,
    pub answer: Buffer<u64>,
    pub sheet: Buffer<u8>,
}

fn output<'a, T>(left: &Left<'a>, which: usize, part: fn(&Table) -> &[T]) -> After<'a, T> {
    match left {
        Left::Kept => After::Kept,
        Left::Zero => After::ZERO,
        Left::Tables(tables) => After::Front(part(&tables[which])),
    }
}

fn scratch<T>(left: &Left<'_>) -> After<'static, T> {
    match left {
        Left::Kept => After::Kept,
        Left::Zero | Left::Tables(_) => After::ZERO,
    }
}

impl Output {
    fn new(bare: bool) -> Output {
        Output {
            slots: Buffer::new(bare),
            present: Buffer::new(bare),
            kinds: Buffer::new(bare),
            values: Buffer::new(bare),
        }
    }

    fn wrong(&self, left: &Left<'_>, which: usize) -> Vec<String> {
        let wrong = named([
            ("slots", self.slots.wrong(output(left, which, |table| &table.slots))),
            ("present", self.present.wrong(output(left, which, |table| &table.present))),
            ("kinds", self.kinds.wrong(output(left, which, |table| &table.kinds))),
            ("values", self.values.wrong(output(left, which, |table| &table.values))),
        ]);
        wrong.into_iter().map(|wrong| format!("{} {wrong}", NAMES[which])).collect()
    }
}

fn named<const N: usize>(all: [(&str, Option<String>); N]) -> Vec<String> {
    all.into_iter().filter_map(|(name, wrong)| wrong.map(|wrong| format!("{name} {wrong}"))).collect()
}

fn wide<T: Element>(buffer: &Buffer<T>) -> Vec<u64> {
    buffer.lent().iter().map(|element| element.wide()).collect()
}

impl Lent {
    pub fn new(bare: bool) -> Lent {
        Lent {
            outputs: [Output::new(bare), Output::new(bare), Output::new(bare)],
            marks: Buffer::new(bare),
            stack: Buffer::new(bare),
            row_kinds: Buffer::new(bare),
            row_values: Buffer::new(bare),
            work_list: Buffer::new(bare),
            answer: Buffer::new(bare),
            sheet: Buffer::new(bare),
        }
    }

    /// Fills every buffer, puts the sheet into its own, and calls.
    pub fn call(&mut self, sheet: &[u8], budget: Budget, lengths: &Lengths, answer_length: usize, fill: Fill) -> u8 {
        for (output, lengths) in self.outputs.iter_mut().zip(lengths.chunks(4)) {
            output.slots.fill_by(lengths[0], fill);
            output.present.fill_by(lengths[1], fill.other(1));
            output.kinds.fill_by(lengths[2], fill.other(2));
            output.values.fill_by(lengths[3], fill.other(3));
        }
        self.marks.fill_by(lengths[MARKS], fill.other(4));
        self.stack.fill_by(lengths[STACK], fill.other(5));
        self.row_kinds.fill_by(lengths[ROW_KINDS], fill.other(6));
        self.row_values.fill_by(lengths[ROW_VALUES], fill.other(7));
        self.work_list.fill_by(lengths[WORK_LIST], fill.other(8));
        self.answer.fill_by(answer_length, fill.other(9));
        self.sheet.fill_by(sheet.len(), fill);
        self.sheet.lend().copy_from_slice(sheet);
        self.lend(budget)
    }

    fn lend(&mut self, budget: Budget) -> u8 {
        let sheet = self.sheet.lent();
        let [constant, index, container] = &mut self.outputs;
        // Sound: every buffer is as long as told and overlaps with no other.
        unsafe {
            vo_facts_analyze(
                sheet.as_ptr(),
                sheet.len(),
                budget.bytes,
                budget.work,
                constant.slots.lend().as_mut_ptr(),
                constant.slots.len(),
                constant.present.lend().as_mut_ptr(),
                constant.present.len(),
                constant.kinds.lend().as_mut_ptr(),
                constant.kinds.len(),
                constant.values.lend().as_mut_ptr(),
                constant.values.len(),
                index.slots.lend().as_mut_ptr(),
                index.slots.len(),
                index.present.lend().as_mut_ptr(),
                index.present.len(),
                index.kinds.lend().as_mut_ptr(),
                index.kinds.len(),
                index.values.lend().as_mut_ptr(),
                index.values.len(),
                container.slots.lend().as_mut_ptr(),
                container.slots.len(),
                container.present.lend().as_mut_ptr(),
                container.present.len(),
                container.kinds.lend().as_mut_ptr(),
                container.kinds.len(),
                container.values.lend().as_mut_ptr(),
                container.values.len(),
                self.marks.lend().as_mut_ptr(),
                self.marks.len(),
                self.stack.lend().as_mut_ptr(),
                self.stack.len(),
                self.row_kinds.lend().as_mut_ptr(),
                self.row_kinds.len(),
                self.row_values.lend().as_mut_ptr(),
                self.row_values.len(),
                self.work_list.lend().as_mut_ptr(),
                self.work_list.len(),
                self.answer.lend().as_mut_ptr(),
                self.answer.len(),
            )
        }
    }

    /// What the last call told in `answer`; none where that was too short.
    pub fn answer_number(&self) -> u64 {
        self.answer.lent().first().copied().filter(|_| self.answer.len() >= ANSWER_LENGTH).unwrap_or(u64::MAX)
    }

    /// The buffers that do not hold what they must, and where first; the sheet holds what it held.
    pub fn wrong_after(&self, sheet: &[u8], left: &Left<'_>) -> Vec<String> {
        let outputs = self.outputs.iter().enumerate().flat_map(|(which, output)| output.wrong(left, which));
        let others = named([
            ("marks", self.marks.wrong(scratch(left))),
            ("stack", self.stack.wrong(scratch(left))),
            ("row kinds", self.row_kinds.wrong(scratch(left))),
            ("row values", self.row_values.wrong(scratch(left))),
            ("work list", self.work_list.wrong(scratch(left))),
            ("sheet", self.sheet.wrong(After::Written(sheet))),
        ]);
        outputs.chain(others).collect()
    }

    /// What the buffers hold, in the order of the call's parameters.
    pub fn held(&self) -> Vec<Vec<u64>> {
        let outputs = self
            .outputs
            .iter()
            .flat_map(|output| [wide(&output.slots), wide(&output.present), wide(&output.kinds), wide(&output.values)]);
        let closure = [wide(&self.marks), wide(&self.stack)];
        let run = [wide(&self.row_kinds), wide(&self.row_values), wide(&self.work_list)];
        outputs.chain(closure).chain(run).collect()
    }
}
