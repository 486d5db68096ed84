//! Stand-ins for what verifier.rs takes from other files. The sheet fills them; nothing here decides a fact.

use std::cell::Cell;
use std::ops::Deref;

/// The size of an iterator in slots: "MapIterNext covers 7 slots".
pub const MAP_ITER_SLOTS: usize = 7;

#[derive(Clone, Copy, PartialEq, Eq)]
#[rustfmt::skip]
pub enum Opcode {
    LoadInt, LoadConst, Copy, CopyN, SlotGet, SlotSet, SlotGetN, SlotSetN, PtrNew, Or, Shl,
    Jump, JumpIf, JumpIfNot, Return, ArrayNew, SliceNew, SliceAppend,
    MapNew, MapGet, MapSet, MapDelete, MapLen, MapIterInit, MapIterNext,
    QueueNew, QueueSend, QueueRecv, QueueClose, QueueLen, QueueCap, SelectSend, SelectRecv,
    Panic, IndexCheck, ForLoop, Other,
}

/// An instruction of the sheet and its own number, by which the effect visitor finds its ranges.
#[derive(Clone, Copy)]
pub struct Instruction {
    pub op: u8,
    pub flags: u8,
    pub a: u16,
    pub b: u16,
    pub c: u16,
    pub pc: u16,
}

impl Instruction {
    #[rustfmt::skip]
    pub fn opcode(self) -> Opcode {
        use Opcode::*;
        match self.op {
            1 => LoadInt, 2 => LoadConst, 3 => Copy, 4 => CopyN,
            5 => SlotGet, 6 => SlotSet, 7 => SlotGetN, 8 => SlotSetN,
            13 => PtrNew, 49 => Or, 53 => Shl,
            57 => Jump, 58 => JumpIf, 59 => JumpIfNot, 64 => Return,
            77 => ArrayNew, 81 => SliceNew, 87 => SliceAppend,
            89 => MapNew, 90 => MapGet, 91 => MapSet, 92 => MapDelete, 93 => MapLen,
            94 => MapIterInit, 95 => MapIterNext,
            96 => QueueNew, 97 => QueueSend, 98 => QueueRecv, 99 => QueueClose,
            100 => QueueLen, 101 => QueueCap, 103 => SelectSend, 104 => SelectRecv,
            111 => Panic, 121 => IndexCheck, 124 => ForLoop,
            _ => Other,
        }
    }

    /// "imm32 is b + 65,536 × c read as signed 32-bit."
    pub fn imm32(self) -> i32 {
        (u32::from(self.b) | u32::from(self.c) << 16) as i32
    }

    /// "CopyN's count is c."
    pub fn copy_n_count(self) -> u16 {
        self.c
    }
}

/// A slot kind: one byte, "slot kind 1" of the byte units.
#[derive(Clone, Copy, Debug, PartialEq, Eq)]
pub struct SlotType(pub u8);

thread_local! {
    /// The number of the layout that was lent last: the one that the next `Arc` is made from.
    static LENT: Cell<u16> = const { Cell::new(0) };
}

/// A layout of the sheet, with its number.
#[derive(Clone)]
pub struct Layout {
    pub number: u16,
    pub slots: std::sync::Arc<[SlotType]>,
}

impl Layout {
    pub fn len(&self) -> usize {
        self.slots.len()
    }

    pub fn is_empty(&self) -> bool {
        self.slots.is_empty()
    }
}

impl Deref for Layout {
    type Target = [SlotType];

    /// The text reads a layout as a slice only where it makes an `Arc` of it.
    fn deref(&self) -> &[SlotType] {
        LENT.set(self.number);
        &self.slots
    }
}

/// The standard library's `Arc` over a layout's slot kinds and, behind them, two bytes with the layout's number,
/// which equality leaves out: so a fact still tells which layout it was made from.
#[derive(Debug)]
pub struct Arc<T: ?Sized>(std::sync::Arc<T>);

impl<T: ?Sized> Clone for Arc<T> {
    fn clone(&self) -> Self {
        Arc(std::sync::Arc::clone(&self.0))
    }
}

impl From<Vec<SlotType>> for Arc<[SlotType]> {
    fn from(mut slots: Vec<SlotType>) -> Self {
        slots.extend(LENT.get().to_le_bytes().map(SlotType));
        Arc(slots.into())
    }
}

impl Arc<[SlotType]> {
    pub fn number(&self) -> u16 {
        let [.., low, high] = &self.0[..] else { unreachable!() };
        u16::from_le_bytes([low.0, high.0])
    }

    fn content(&self) -> &[SlotType] {
        &self.0[..self.0.len() - 2]
    }
}

impl PartialEq for Arc<[SlotType]> {
    /// The standard library's looks at the address first, too.
    fn eq(&self, other: &Self) -> bool {
        std::sync::Arc::ptr_eq(&self.0, &other.0) || self.content() == other.content()
    }
}

impl Eq for Arc<[SlotType]> {}

pub enum InstructionMetadata {
    None,
    MapNew { key_layout: Layout, val_layout: Layout },
    QueueLayout { elem_layout: Layout },
    SlotLayout { elem_layout: Layout },
}

pub enum Constant {
    Int(i64),
    Other,
}

#[derive(Clone, Copy)]
pub struct ValueRttid(u32);

impl ValueRttid {
    pub fn from_raw(raw: u32) -> Self {
        ValueRttid(raw)
    }

    pub fn rttid(self) -> u32 {
        self.0
    }
}

/// A parameter's type; the `ValueRttid` of a key, value or element is the number of its layout.
#[allow(dead_code)] // Port is named by the text alone: the sheet's kind 2 is filled in as Chan.
pub enum RuntimeType {
    Map { key: ValueRttid, val: ValueRttid },
    Chan { elem: ValueRttid },
    Port { elem: ValueRttid },
    Other,
}

/// A parameter; `rttid_raw` is its own number, that of its `RuntimeType`.
pub struct TransferType {
    pub slots: u16,
    pub rttid_raw: u32,
}

pub struct FunctionDef {
    pub name: String,
    pub code: Vec<Instruction>,
    pub instruction_metadata: Vec<InstructionMetadata>,
    pub local_slots: u16,
    pub param_slots: u16,
    pub recv_slots: u16,
    pub is_closure: bool,
    pub param_types: Vec<TransferType>,
}

/// `externs` and `functions` are what the text hands to the effect visitor: the ranges of the whole sheet, and
/// what the visitor does at each instruction.
pub struct Module {
    pub constants: Vec<Constant>,
    pub externs: Vec<WriteRange>,
    pub functions: Vec<Visit>,
    pub runtime_types: Vec<RuntimeType>,
    pub layouts: Vec<Layout>,
}

impl Module {
    pub fn slot_layout_for_value_rttid(&self, value: ValueRttid) -> Option<Layout> {
        self.layouts.get(value.rttid() as usize).cloned()
    }
}

pub struct WriteRange {
    pub start: u16,
    pub length: u32,
}

pub enum Visit {
    Erred,
    Ranges { first: usize, count: usize },
}

pub enum ModuleVerificationError {
    ResourceLimit {
        #[allow(dead_code)] // error texts are left out
        func: String,
        #[allow(dead_code)]
        resource: &'static str,
        requested: usize,
        remaining: usize,
    },
}

pub mod instruction_effects {
    use super::{Instruction, InstructionMetadata, Visit, WriteRange};

    pub struct Erred;

    pub fn visit_instruction_register_writes(
        inst: &Instruction,
        _metadata: Option<&InstructionMetadata>,
        ranges: &[WriteRange],
        visits: &[Visit],
        mut visit: impl FnMut(u16, u32),
    ) -> Result<(), Erred> {
        match visits[usize::from(inst.pc)] {
            Visit::Erred => Err(Erred),
            Visit::Ranges { first, count } => {
                for range in &ranges[first..first + count] {
                    visit(range.start, range.length);
                }
                Ok(())
            }
        }
    }

    /// "start up to but not including start + length, in whole numbers"
    pub fn register_range_contains(slot: u16, start: u16, count: u32) -> bool {
        slot >= start && u32::from(slot - start) < count
    }
}
