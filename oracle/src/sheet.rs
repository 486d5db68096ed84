//! The sheet: questions 1 to 5, and the stand-ins filled from its bytes.

use crate::outside::{
    Constant, FunctionDef, Instruction, InstructionMetadata, Layout, Module, RuntimeType, SlotType, TransferType,
    ValueRttid, Visit, WriteRange,
};

/// n, w, k, p, y, q, L, parameter slots, receiver slots, closure flag.
pub const LIMITS: [u32; 10] = [4096, 16384, 4096, 256, 1024, 16384, 65535, 65535, 65535, 1];

/// "65,535 says the effect visitor erred and takes no ranges"
const ERRED: u16 = 65535;

pub struct Sheet {
    pub func: FunctionDef,
    pub module: Module,
}

/// The arrays behind the ten sizes, as parts of the sheet.
struct Parts<'a> {
    code: &'a [u8],
    note_kinds: &'a [u8],
    note_layouts: [&'a [u8]; 2],
    write_counts: &'a [u8],
    range_starts: &'a [u8],
    range_lengths: &'a [u8],
    constant_kinds: &'a [u8],
    constant_values: &'a [u8],
    param_widths: &'a [u8],
    param_kinds: &'a [u8],
    param_layouts: [&'a [u8]; 2],
    layout_lengths: &'a [u8],
    slot_kinds: &'a [u8],
}

impl Sheet {
    /// The sheet, or the number of the first question that refuses it.
    pub fn load(bytes: &[u8]) -> Result<Sheet, u8> {
        let head = bytes.get(..40).ok_or(1)?;
        let sizes: [u32; 10] = std::array::from_fn(|i| u32::from_le_bytes(head[4 * i..4 * i + 4].try_into().unwrap()));
        if sizes.iter().zip(LIMITS).any(|(size, limit)| *size > limit) {
            return Err(2);
        }
        let parts = split(&bytes[40..], &sizes.map(|size| size as usize)).ok_or(3)?;
        if !sums_agree(&parts) {
            return Err(4);
        }
        if !kinds_and_layouts_named(&parts) {
            return Err(5);
        }
        Ok(filled(&parts, &sizes))
    }
}

/// None where the length is not exactly what the sizes give (question 3).
fn split<'a>(mut rest: &'a [u8], sizes: &[usize; 10]) -> Option<Parts<'a>> {
    let [n, w, k, p, y, q, ..] = *sizes;
    let mut next = |length: usize| {
        let (part, after) = rest.split_at_checked(length)?;
        rest = after;
        Some(part)
    };
    let parts = Parts {
        code: next(8 * n)?,
        note_kinds: next(n)?,
        note_layouts: [next(2 * n)?, next(2 * n)?],
        write_counts: next(2 * n)?,
        range_starts: next(2 * w)?,
        range_lengths: next(4 * w)?,
        constant_kinds: next(k)?,
        constant_values: next(8 * k)?,
        param_widths: next(2 * p)?,
        param_kinds: next(p)?,
        param_layouts: [next(2 * p)?, next(2 * p)?],
        layout_lengths: next(2 * y)?,
        slot_kinds: next(q)?,
    };
    rest.is_empty().then_some(parts)
}

fn halves(bytes: &[u8]) -> impl Iterator<Item = u16> + '_ {
    bytes.chunks_exact(2).map(|pair| u16::from_le_bytes([pair[0], pair[1]]))
}

fn half(bytes: &[u8], index: usize) -> u16 {
    u16::from_le_bytes([bytes[2 * index], bytes[2 * index + 1]])
}

/// "Do the write counts other than 65,535 sum to w, the layout lengths to q?"
fn sums_agree(parts: &Parts<'_>) -> bool {
    let ranges: usize = halves(parts.write_counts).filter(|count| *count != ERRED).map(usize::from).sum();
    let kinds: usize = halves(parts.layout_lengths).map(usize::from).sum();
    2 * ranges == parts.range_starts.len() && kinds == parts.slot_kinds.len()
}

/// "Is every kind byte named and every used layout number below y?"
fn kinds_and_layouts_named(parts: &Parts<'_>) -> bool {
    let y = parts.layout_lengths.len() / 2;
    let used_below_y = |kinds: &[u8], layouts: [&[u8]; 2]| {
        kinds.iter().enumerate().all(|(i, kind)| match kind {
            0 => true,
            1 => usize::from(half(layouts[0], i)) < y && usize::from(half(layouts[1], i)) < y,
            _ => usize::from(half(layouts[0], i)) < y,
        })
    };
    parts.note_kinds.iter().all(|kind| *kind <= 3)
        && parts.constant_kinds.iter().all(|kind| *kind <= 1)
        && parts.param_kinds.iter().all(|kind| *kind <= 2)
        && parts.slot_kinds.iter().all(|kind| *kind <= 5)
        && used_below_y(parts.note_kinds, parts.note_layouts)
        && used_below_y(parts.param_kinds, parts.param_layouts)
}

fn filled(parts: &Parts<'_>, sizes: &[u32; 10]) -> Sheet {
    let layouts = layouts(parts);
    let func = FunctionDef {
        name: String::new(),
        code: parts.code.chunks_exact(8).enumerate().map(instruction).collect(),
        instruction_metadata: notes(parts, &layouts),
        local_slots: sizes[6] as u16,
        param_slots: sizes[7] as u16,
        recv_slots: sizes[8] as u16,
        is_closure: sizes[9] == 1,
        param_types: halves(parts.param_widths)
            .zip(0..)
            .map(|(slots, rttid_raw)| TransferType { slots, rttid_raw })
            .collect(),
    };
    let module = Module {
        constants: constants(parts),
        externs: halves(parts.range_starts)
            .zip(parts.range_lengths.chunks_exact(4))
            .map(|(start, length)| WriteRange { start, length: u32::from_le_bytes(length.try_into().unwrap()) })
            .collect(),
        functions: visits(parts),
        runtime_types: runtime_types(parts),
        layouts,
    };
    Sheet { func, module }
}

fn instruction((pc, bytes): (usize, &[u8])) -> Instruction {
    let field = |i: usize| half(&bytes[2..], i);
    Instruction { op: bytes[0], flags: bytes[1], a: field(0), b: field(1), c: field(2), pc: pc as u16 }
}

fn layouts(parts: &Parts<'_>) -> Vec<Layout> {
    let mut rest = parts.slot_kinds;
    let mut numbered = |(number, length): (u16, u16)| {
        let (slots, after) = rest.split_at(usize::from(length));
        rest = after;
        Layout { number, slots: slots.iter().copied().map(SlotType).collect() }
    };
    (0..).zip(halves(parts.layout_lengths)).map(&mut numbered).collect()
}

fn notes(parts: &Parts<'_>, layouts: &[Layout]) -> Vec<InstructionMetadata> {
    let layout = |which: usize, pc: usize| layouts[usize::from(half(parts.note_layouts[which], pc))].clone();
    let note = |(pc, kind): (usize, &u8)| match kind {
        0 => InstructionMetadata::None,
        1 => InstructionMetadata::MapNew { key_layout: layout(0, pc), val_layout: layout(1, pc) },
        2 => InstructionMetadata::QueueLayout { elem_layout: layout(0, pc) },
        _ => InstructionMetadata::SlotLayout { elem_layout: layout(0, pc) },
    };
    parts.note_kinds.iter().enumerate().map(note).collect()
}

fn visits(parts: &Parts<'_>) -> Vec<Visit> {
    let mut first = 0;
    let mut visit = |count: u16| {
        if count == ERRED {
            return Visit::Erred;
        }
        let ranges = Visit::Ranges { first, count: usize::from(count) };
        first += usize::from(count);
        ranges
    };
    halves(parts.write_counts).map(&mut visit).collect()
}

fn constants(parts: &Parts<'_>) -> Vec<Constant> {
    let values = parts.constant_values.chunks_exact(8).map(|value| i64::from_le_bytes(value.try_into().unwrap()));
    let constant = |(kind, value): (&u8, i64)| if *kind == 1 { Constant::Int(value) } else { Constant::Other };
    parts.constant_kinds.iter().zip(values).map(constant).collect()
}

fn runtime_types(parts: &Parts<'_>) -> Vec<RuntimeType> {
    let layout = |which: usize, i: usize| ValueRttid::from_raw(u32::from(half(parts.param_layouts[which], i)));
    let runtime_type = |(i, kind): (usize, &u8)| match kind {
        0 => RuntimeType::Other,
        1 => RuntimeType::Map { key: layout(0, i), val: layout(1, i) },
        _ => RuntimeType::Chan { elem: layout(0, i) },
    };
    parts.param_kinds.iter().enumerate().map(runtime_type).collect()
}
