//! The call over slices that the caller owns.

use crate::answer::{read, Analyzed, Budget, Refused};
use crate::raw::{vo_facts_analyze, ANSWER_LENGTH};

/// The output of one analysis, s being the number of slots that it tracks and n that of instructions.
pub struct Output<'a> {
    /// At least s.
    pub slots: &'a mut [u16],
    /// At least n.
    pub present: &'a mut [u8],
    /// At least n × s.
    pub kinds: &'a mut [u8],
    /// At least n × s.
    pub values: &'a mut [u64],
}

/// All that a call is lent. Slices of any length do: one that is too short is refused by question 6 or 8.
pub struct Lent<'a> {
    pub constant: Output<'a>,
    pub index: Output<'a>,
    pub container: Output<'a>,
    /// At least L, the number of local slots.
    pub marks: &'a mut [u8],
    /// At least L.
    pub stack: &'a mut [u16],
    /// At least the largest s.
    pub row_kinds: &'a mut [u8],
    /// At least the largest s.
    pub row_values: &'a mut [u64],
    /// At least n × (1 + 2 × s) for the largest s, where n and s are above 0.
    pub work_list: &'a mut [u16],
}

/// The three analyses of a sheet.
///
/// After success the front of each output holds its table, and the rest of it and all scratch is 0. After refusals 1 to
/// 6 nothing lent has changed. After 7 and 8 all that was lent is 0.
pub fn analyze(sheet: &[u8], budget: Budget, lent: Lent<'_>) -> Result<Analyzed, Refused> {
    let Lent { constant, index, container, marks, stack, row_kinds, row_values, work_list } = lent;
    let mut answer = [0; ANSWER_LENGTH];
    // Sound: slices have true lengths, and `&mut` ones overlap with nothing.
    unsafe {
        vo_facts_analyze(
            sheet.as_ptr(),
            sheet.len(),
            budget.bytes,
            budget.work,
            constant.slots.as_mut_ptr(),
            constant.slots.len(),
            constant.present.as_mut_ptr(),
            constant.present.len(),
            constant.kinds.as_mut_ptr(),
            constant.kinds.len(),
            constant.values.as_mut_ptr(),
            constant.values.len(),
            index.slots.as_mut_ptr(),
            index.slots.len(),
            index.present.as_mut_ptr(),
            index.present.len(),
            index.kinds.as_mut_ptr(),
            index.kinds.len(),
            index.values.as_mut_ptr(),
            index.values.len(),
            container.slots.as_mut_ptr(),
            container.slots.len(),
            container.present.as_mut_ptr(),
            container.present.len(),
            container.kinds.as_mut_ptr(),
            container.kinds.len(),
            container.values.as_mut_ptr(),
            container.values.len(),
            marks.as_mut_ptr(),
            marks.len(),
            stack.as_mut_ptr(),
            stack.len(),
            row_kinds.as_mut_ptr(),
            row_kinds.len(),
            row_values.as_mut_ptr(),
            row_values.len(),
            work_list.as_mut_ptr(),
            work_list.len(),
            answer.as_mut_ptr(),
            answer.len(),
        )
    };
    read(&answer)
}
