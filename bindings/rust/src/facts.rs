//! The tables of a call, and lookups in them.

use crate::answer::Refusal;
use crate::raw::{
    self, vo_facts_constant, vo_facts_container, vo_facts_index_check, vo_facts_is_reachable, vo_facts_lowest_layout,
    Lookup, DAMAGED, NONE, OUT_LENGTH,
};
use std::fmt;

/// The used parts of an analysis's output: s slots, n present bytes, n × s kinds and values by rows.
///
/// Lookups ask question 9 of it, so it may hold anything.
#[derive(Clone, Copy, Debug)]
pub struct Table<'a> {
    pub slots: &'a [u16],
    pub present: &'a [u8],
    pub kinds: &'a [u8],
    pub values: &'a [u64],
}

/// Question 9: this is not what an analysis leaves.
#[derive(Clone, Copy, Debug, PartialEq, Eq)]
pub struct Damaged;

impl fmt::Display for Damaged {
    fn fmt(&self, out: &mut fmt::Formatter<'_>) -> fmt::Result {
        write!(out, "refused 9: the tables are not what an analysis leaves")
    }
}

impl std::error::Error for Damaged {}

/// What is known of a slot's number before an instruction.
#[derive(Clone, Copy, Debug, PartialEq, Eq)]
pub enum ConstantFact {
    Unknown,
    Conflict,
    Int(i128),
}

/// The length that a slot's index was checked against.
#[derive(Clone, Copy, Debug, PartialEq, Eq)]
pub enum IndexCheckFact {
    Unknown,
    Conflict,
    Checked { len: u64 },
}

/// The container in a slot, with the numbers of its layouts as the sheet stores them.
///
/// Layouts are equal by content, and equal ones may carry different numbers. So there is no `==` here, nor on the
/// tables: [`ContainerFact::same_content`] compares two facts of one sheet.
///
/// ```
/// use vo_facts::ContainerFact;
///
/// # let sheet = include_bytes!("../../../examples/flights.sheet");
/// let (one, two) = (ContainerFact::Queue { element: 1 }, ContainerFact::Queue { element: 2 });
/// assert!(one.same_content(&two, sheet)?); // layouts 1 and 2 have the same slot kinds
/// # Ok::<(), vo_facts::NotCompared>(())
/// ```
/// ```compile_fail,E0369
/// use vo_facts::ContainerFact;
///
/// let (one, two) = (ContainerFact::Queue { element: 1 }, ContainerFact::Queue { element: 2 });
/// assert!(one == two);
/// ```
#[derive(Clone, Copy, Debug)]
pub enum ContainerFact {
    Unknown,
    Conflict,
    Map { key: usize, value: usize },
    Iterator { key: usize, value: usize },
    Queue { element: usize },
}

/// Why two container facts cannot be compared: they are not facts of this sheet.
#[derive(Clone, Copy, Debug, PartialEq, Eq)]
pub enum NotCompared {
    /// The sheet is refused, so no fact is about it.
    Refused(Refusal),
    /// A fact names this layout, and the sheet has none of this number.
    NoLayout(usize),
}

impl fmt::Display for NotCompared {
    fn fmt(&self, out: &mut fmt::Formatter<'_>) -> fmt::Result {
        match self {
            NotCompared::Refused(refusal) => refusal.fmt(out),
            NotCompared::NoLayout(layout) => write!(out, "the sheet has no layout {layout}"),
        }
    }
}

impl std::error::Error for NotCompared {}

impl ContainerFact {
    /// Whether two facts of one sheet are the same: of one kind, with layouts of equal content.
    ///
    /// The sheet is asked for every layout that either fact names, also where the kinds differ: a fact with a layout
    /// that the sheet does not have is about another sheet, and neither answer would be true of it.
    pub fn same_content(&self, other: &ContainerFact, sheet: &[u8]) -> Result<bool, NotCompared> {
        Ok(self.content(sheet)? == other.content(sheet)?)
    }

    /// The kind and the lowest numbers of the layouts, which are equal exactly where the facts are the same.
    fn content(&self, sheet: &[u8]) -> Result<(u8, Vec<usize>), NotCompared> {
        let (kind, layouts) = match *self {
            ContainerFact::Unknown => (raw::UNKNOWN, vec![]),
            ContainerFact::Conflict => (raw::CONFLICT, vec![]),
            ContainerFact::Map { key, value } => (raw::MAP, vec![key, value]),
            ContainerFact::Iterator { key, value } => (raw::ITERATOR, vec![key, value]),
            ContainerFact::Queue { element } => (raw::QUEUE, vec![element]),
        };
        let lowest = |layout| match lowest_layout(sheet, layout) {
            Ok(Some(lowest)) => Ok(lowest),
            Ok(None) => Err(NotCompared::NoLayout(layout)),
            Err(refusal) => Err(NotCompared::Refused(refusal)),
        };
        Ok((kind, layouts.into_iter().map(lowest).collect::<Result<_, _>>()?))
    }
}

/// The lowest number of a layout with the content of this one, none where the sheet has no layout of this number. Two
/// layouts are equal exactly where it is the same.
pub fn lowest_layout(sheet: &[u8], layout: usize) -> Result<Option<usize>, Refusal> {
    let mut out = [0; 1];
    // Sound: slices have true lengths, and a `&mut` one overlaps with nothing.
    let number =
        unsafe { vo_facts_lowest_layout(sheet.as_ptr(), sheet.len(), layout as u64, out.as_mut_ptr(), out.len()) };
    match number {
        NONE => Ok(None),
        _ => Refusal::of_sheet(number).map_or(Ok(Some(out[0] as usize)), Err),
    }
}

/// The table of the constant analysis.
#[derive(Clone, Copy, Debug)]
pub struct Constants<'a>(pub Table<'a>);

/// The table of the index analysis.
#[derive(Clone, Copy, Debug)]
pub struct IndexChecks<'a>(pub Table<'a>);

/// The table of the container analysis. It has no `==`, for the reason that [`ContainerFact`] has none.
///
/// ```compile_fail,E0369
/// fn same(one: vo_facts::Containers<'_>, two: vo_facts::Containers<'_>) -> bool {
///     one == two
/// }
/// ```
#[derive(Clone, Copy, Debug)]
pub struct Containers<'a>(pub Table<'a>);

impl Constants<'_> {
    /// None for a slot that is not tracked, an absent instruction or one past the code.
    pub fn fact_for_slot(&self, pc: usize, slot: u16) -> Result<Option<ConstantFact>, Damaged> {
        Ok(self.0.look(vo_facts_constant, pc, slot)?.map(constant))
    }

    /// The one known number that the slot holds before every present instruction but 0.
    pub fn fixed(&self, slot: u16) -> Result<Option<ConstantFact>, Damaged> {
        let mut out = [0; OUT_LENGTH];
        let number = raw::fixed(self.0, slot, &mut out);
        Ok(found(number, out)?.map(constant))
    }

    /// Whether the analysis reached the instruction. Nothing is reached where no slot is tracked.
    pub fn is_reachable(&self, pc: usize) -> Result<bool, Damaged> {
        self.0.is_reachable(pc)
    }
}

impl IndexChecks<'_> {
    /// None for a slot that is not tracked, an absent instruction or one past the code.
    pub fn fact_for_slot(&self, pc: usize, slot: u16) -> Result<Option<IndexCheckFact>, Damaged> {
        Ok(self.0.look(vo_facts_index_check, pc, slot)?.map(|fact| match fact {
            (raw::UNKNOWN, _) => IndexCheckFact::Unknown,
            (raw::CONFLICT, _) => IndexCheckFact::Conflict,
            (raw::CHECKED, len) => IndexCheckFact::Checked { len },
            (kind, _) => unreachable!("an index of kind {kind}"),
        }))
    }

    /// Whether the analysis reached the instruction. Nothing is reached where no slot is tracked.
    pub fn is_reachable(&self, pc: usize) -> Result<bool, Damaged> {
        self.0.is_reachable(pc)
    }
}

impl Containers<'_> {
    /// None for a slot that is not tracked, an absent instruction or one past the code.
    pub fn fact_for_slot(&self, pc: usize, slot: u16) -> Result<Option<ContainerFact>, Damaged> {
        Ok(self.0.look(vo_facts_container, pc, slot)?.map(|(kind, value)| {
            // "value A × 65,536 + B"
            let (a, b) = ((value >> 16) as usize, (value & 65535) as usize);
            match kind {
                raw::UNKNOWN => ContainerFact::Unknown,
                raw::CONFLICT => ContainerFact::Conflict,
                raw::MAP => ContainerFact::Map { key: a, value: b },
                raw::ITERATOR => ContainerFact::Iterator { key: a, value: b },
                raw::QUEUE => ContainerFact::Queue { element: a },
                _ => unreachable!("a container of kind {kind}"),
            }
        }))
    }

    /// Whether the analysis reached the instruction. Nothing is reached where no slot is tracked.
    pub fn is_reachable(&self, pc: usize) -> Result<bool, Damaged> {
        self.0.is_reachable(pc)
    }
}

/// "2 known from zero up, 3 negative, value plus 2^64"
fn constant((kind, value): (u8, u64)) -> ConstantFact {
    match kind {
        raw::UNKNOWN => ConstantFact::Unknown,
        raw::CONFLICT => ConstantFact::Conflict,
        raw::CONSTANT => ConstantFact::Int(i128::from(value)),
        raw::CONSTANT_NEGATIVE => ConstantFact::Int(i128::from(value) - (1 << 64)),
        _ => unreachable!("a constant of kind {kind}"),
    }
}

/// A lookup's number and what it wrote: the kind, which is a byte of the table, and value, if any.
fn found(number: u8, out: [u64; OUT_LENGTH]) -> Result<Option<(u8, u64)>, Damaged> {
    match number {
        0 => Ok(Some((out[0] as u8, out[1]))),
        NONE => Ok(None),
        DAMAGED => Err(Damaged),
        _ => unreachable!("a lookup answered {number}"),
    }
}

impl Table<'_> {
    fn look(&self, lookup: Lookup, pc: usize, slot: u16) -> Result<Option<(u8, u64)>, Damaged> {
        let mut out = [0; OUT_LENGTH];
        // Sound: `lookup` is one of the three.
        let number = unsafe { raw::look(lookup, *self, pc as u64, slot, &mut out) };
        found(number, out)
    }

    fn is_reachable(&self, pc: usize) -> Result<bool, Damaged> {
        // Sound: a slice has its true length.
        match unsafe { vo_facts_is_reachable(self.present.as_ptr(), self.present.len(), pc as u64) } {
            0 => Ok(false),
            1 => Ok(true),
            _ => Err(Damaged),
        }
    }
}
