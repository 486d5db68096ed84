//! The constants and functions of `include/vo_facts.h`, declared once. A slice is a pointer and the number of its
//! elements.
//!
//! # Safety
//!
//! Of each function: every pointer is aligned and not null, that many elements lie behind it, no slice that is written
//! overlaps another of the same call, and nothing else uses what is lent until the call returns. Slices of Rust meet
//! this.

use crate::facts::Table;

/// The number of the interface that is declared here; [`vo_facts_version`] is the archive's.
pub const VERSION: u64 = 1;
/// A fresh budget, of bytes and of work each.
pub const FRESH_BUDGET: u64 = 268_435_456;

// What a function returns, with the header's names but for TOO_SHORT, which is VO_FACTS_ANSWER_TOO_SHORT there. 1 to 9
// are the numbers of document 01's questions.

/// The tables hold the facts.
pub const ANALYZED: u8 = 0;
/// The sheet has fewer than 40 bytes.
pub const NO_HEAD: u8 = 1;
/// A size is past its limit.
pub const SIZE_LIMIT: u8 = 2;
/// The length is not what the sizes give.
pub const LENGTH: u8 = 3;
/// Write counts or layout lengths do not sum to their sizes.
pub const SUMS: u8 = 4;
/// A kind byte is not named, or a used layout number names no layout.
pub const KINDS: u8 = 5;
/// `marks` or `stack` has fewer than L elements.
pub const CLOSURE_ROOM: u8 = 6;
/// What is left does not cover a charge.
pub const OVER_BUDGET: u8 = 7;
/// An output, the row scratch or the work list is too short.
pub const NO_ROOM: u8 = 8;
/// A lookup found what no analysis leaves (question 9).
pub const DAMAGED: u8 = 9;
/// A lookup has no fact, or a sheet no such layout, which is no refusal.
pub const NONE: u8 = 254;
/// `answer` or `out` is too short.
pub const TOO_SHORT: u8 = 255;

// The elements of `answer`.

/// What the function returns.
pub const NUMBER: usize = 0;
/// s of the constant analysis.
pub const CONSTANT_SLOTS: usize = 1;
/// Entries that it took from its work list.
pub const CONSTANT_POPS: usize = 2;
/// s of the index analysis.
pub const INDEX_SLOTS: usize = 3;
/// Entries that it took from its work list.
pub const INDEX_POPS: usize = 4;
/// s of the container analysis.
pub const CONTAINER_SLOTS: usize = 5;
/// Entries that it took from its work list.
pub const CONTAINER_POPS: usize = 6;
/// The bytes left.
pub const BYTES_LEFT: usize = 7;
/// The work left.
pub const WORK_LEFT: usize = 8;
/// Where a charge was not covered (7), 1 to 5 in charge order.
pub const STAGE: usize = 9;
/// The charge that was not covered.
pub const REQUESTED: usize = 10;
/// What was left for it.
pub const REMAINING: usize = 11;
/// The elements of `answer` that [`vo_facts_analyze`] writes.
pub const ANSWER_LENGTH: usize = 12;

// The elements of `out`.

/// n, of [`vo_facts_room`].
pub const ROOM_INSTRUCTIONS: usize = 0;
/// s of the constant analysis.
pub const ROOM_CONSTANT_SLOTS: usize = 1;
/// s of the index analysis.
pub const ROOM_INDEX_SLOTS: usize = 2;
/// s of the container analysis.
pub const ROOM_CONTAINER_SLOTS: usize = 3;
/// The elements of `out` that [`vo_facts_room`] writes.
pub const ROOM_LENGTH: usize = 4;
/// The elements of `out` that a lookup writes: kind and value.
pub const OUT_LENGTH: usize = 2;

// The kinds of facts.

/// Of all three analyses; the value is 0.
pub const UNKNOWN: u8 = 0;
/// Of all three analyses; the value is 0.
pub const CONFLICT: u8 = 1;
/// A constant from 0 up: the value.
pub const CONSTANT: u8 = 2;
/// A constant below 0: the value plus 2^64.
pub const CONSTANT_NEGATIVE: u8 = 3;
/// An index: the length that it was checked against.
pub const CHECKED: u8 = 2;
/// A container: layout of keys × 65,536 + layout of values.
pub const MAP: u8 = 2;
/// The same of a map's iterator.
pub const ITERATOR: u8 = 3;
/// A container: layout of elements × 65,536.
pub const QUEUE: u8 = 4;

/// The parameters of a lookup at an instruction.
pub type Lookup = unsafe extern "C" fn(
    *const u16,
    usize,
    *const u8,
    usize,
    *const u8,
    usize,
    *const u64,
    usize,
    u64,
    u16,
    *mut u64,
    usize,
) -> u8;

extern "C" {
    /// The three analyses of a sheet: sheet, bytes, work; slots, present, kinds and values of constant, index and
    /// container; marks, stack, row kinds, row values, work list; answer.
    pub fn vo_facts_analyze(
        sheet: *const u8,
        sheet_length: usize,
        bytes: u64,
        work: u64,
        constant_slots: *mut u16,
        constant_slots_length: usize,
        constant_present: *mut u8,
        constant_present_length: usize,
        constant_kinds: *mut u8,
        constant_kinds_length: usize,
        constant_values: *mut u64,
        constant_values_length: usize,
        index_slots: *mut u16,
        index_slots_length: usize,
        index_present: *mut u8,
        index_present_length: usize,
        index_kinds: *mut u8,
        index_kinds_length: usize,
        index_values: *mut u64,
        index_values_length: usize,
        container_slots: *mut u16,
        container_slots_length: usize,
        container_present: *mut u8,
        container_present_length: usize,
        container_kinds: *mut u8,
        container_kinds_length: usize,
        container_values: *mut u64,
        container_values_length: usize,
        marks: *mut u8,
        marks_length: usize,
        stack: *mut u16,
        stack_length: usize,
        row_kinds: *mut u8,
        row_kinds_length: usize,
        row_values: *mut u64,
        row_values_length: usize,
        work_list: *mut u16,
        work_list_length: usize,
        answer: *mut u64,
        answer_length: usize,
    ) -> u8;

    /// n and the s of each analysis, by the closures alone: sheet; marks, stack; out.
    pub fn vo_facts_room(
        sheet: *const u8,
        sheet_length: usize,
        marks: *mut u8,
        marks_length: usize,
        stack: *mut u16,
        stack_length: usize,
        out: *mut u64,
        out_length: usize,
    ) -> u8;

    /// The lowest number of a layout of equal content.
    pub fn vo_facts_lowest_layout(
        sheet: *const u8,
        sheet_length: usize,
        layout: u64,
        out: *mut u64,
        out_length: usize,
    ) -> u8;

    /// The constant fact of a slot before an instruction.
    pub fn vo_facts_constant(
        slots: *const u16,
        slots_length: usize,
        present: *const u8,
        present_length: usize,
        kinds: *const u8,
        kinds_length: usize,
        values: *const u64,
        values_length: usize,
        pc: u64,
        slot: u16,
        out: *mut u64,
        out_length: usize,
    ) -> u8;

    /// The index fact of a slot before an instruction.
    pub fn vo_facts_index_check(
        slots: *const u16,
        slots_length: usize,
        present: *const u8,
        present_length: usize,
        kinds: *const u8,
        kinds_length: usize,
        values: *const u64,
        values_length: usize,
        pc: u64,
        slot: u16,
        out: *mut u64,
        out_length: usize,
    ) -> u8;

    /// The container fact of a slot before an instruction.
    pub fn vo_facts_container(
        slots: *const u16,
        slots_length: usize,
        present: *const u8,
        present_length: usize,
        kinds: *const u8,
        kinds_length: usize,
        values: *const u64,
        values_length: usize,
        pc: u64,
        slot: u16,
        out: *mut u64,
        out_length: usize,
    ) -> u8;

    /// The one known constant of a slot before every present instruction but 0.
    pub fn vo_facts_fixed(
        slots: *const u16,
        slots_length: usize,
        present: *const u8,
        present_length: usize,
        kinds: *const u8,
        kinds_length: usize,
        values: *const u64,
        values_length: usize,
        slot: u16,
        out: *mut u64,
        out_length: usize,
    ) -> u8;

    /// 1 where an instruction was reached, 0 where not, 9 where its byte is neither.
    pub fn vo_facts_is_reachable(present: *const u8, present_length: usize, pc: u64) -> u8;

    /// The number of the archive's interface, to be held against [`VERSION`].
    pub fn vo_facts_version() -> u64;
}

/// A lookup over the four slices of a table, with what is asked.
macro_rules! look_up {
    ($lookup:expr, $table:expr, $out:expr; $($asked:expr),+) => {
        $lookup(
            $table.slots.as_ptr(),
            $table.slots.len(),
            $table.present.as_ptr(),
            $table.present.len(),
            $table.kinds.as_ptr(),
            $table.kinds.len(),
            $table.values.as_ptr(),
            $table.values.len(),
            $($asked,)+
            $out.as_mut_ptr(),
            $out.len(),
        )
    };
}

/// The number of a lookup at an instruction, which writes `out`.
///
/// # Safety
///
/// `lookup` is one of the three that are declared here.
pub unsafe fn look(lookup: Lookup, table: Table<'_>, pc: u64, slot: u16, out: &mut [u64]) -> u8 {
    look_up!(lookup, table, out; pc, slot)
}

/// The number of [`vo_facts_fixed`], which writes `out`.
pub fn fixed(table: Table<'_>, slot: u16, out: &mut [u64]) -> u8 {
    // Sound: slices have true lengths, and a `&mut` one overlaps with nothing.
    unsafe { look_up!(vo_facts_fixed, table, out; slot) }
}
