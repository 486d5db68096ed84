//! Buffers that the caller owns once and lends to call after call.

use crate::answer::{Analyzed, Budget, Refused};
use crate::facts::{Constants, Containers, IndexChecks, Table};
use crate::lent::{analyze, Lent, Output};
use crate::room::Room;
use std::collections::TryReserveError;
use std::fmt;

#[derive(Clone, Default)]
struct Owned {
    slots: Vec<u16>,
    present: Vec<u8>,
    kinds: Vec<u8>,
    values: Vec<u64>,
}

/// All buffers of a call. They grow and never shrink; a call is lent, and clears, as much of them as its sheet can use.
#[derive(Clone, Default)]
pub struct Buffers {
    room: Room,
    constant: Owned,
    index: Owned,
    container: Owned,
    marks: Vec<u8>,
    stack: Vec<u16>,
    row_kinds: Vec<u8>,
    row_values: Vec<u64>,
    work_list: Vec<u16>,
}

/// A sheet that can use more memory than its caller allows, or than there is.
#[derive(Clone, Copy, Debug, PartialEq, Eq)]
pub struct TooLarge {
    /// What its buffers would take.
    pub bytes: usize,
}

impl fmt::Display for TooLarge {
    fn fmt(&self, out: &mut fmt::Formatter<'_>) -> fmt::Result {
        write!(out, "the buffers of this sheet would take {} bytes", self.bytes)
    }
}

impl std::error::Error for TooLarge {}

/// What a call that ended with facts leaves, until its buffers are lent again.
#[derive(Clone, Copy)]
pub struct Facts<'a> {
    pub constant: Constants<'a>,
    pub index: IndexChecks<'a>,
    pub container: Containers<'a>,
    /// What each analysis counted, and the budget left.
    pub analyzed: Analyzed,
}

impl Buffers {
    /// Buffers for this sheet that take at most `most_bytes`: questions 6 and 8 will not refuse it.
    ///
    /// They are as long as [`Room::for_sheet`] tells, which is exactly what the call needs. Scripts take little (300
    /// instructions and 40 tracked registers: a third of a megabyte), but 4,096 instructions with a CopyN of 65,535
    /// registers could take 8 gigabytes, so say how much a sheet may cost.
    ///
    /// `most_bytes` is asked after [`Room::for_sheet`], which has no budget and may take seconds on the largest
    /// scripts, also on those that are [`TooLarge`] then.
    pub fn for_sheet(sheet: &[u8], most_bytes: usize) -> Result<Buffers, TooLarge> {
        let mut buffers = Buffers::default();
        buffers.fit(sheet, most_bytes)?;
        Ok(buffers)
    }

    /// Makes these buffers fit another sheet, at the cost of [`Room::for_sheet`]. They are as before where they cannot.
    pub fn fit(&mut self, sheet: &[u8], most_bytes: usize) -> Result<(), TooLarge> {
        self.fit_room(Room::for_sheet(sheet), most_bytes)
    }

    /// The same with lengths that the caller chose: with too little room a call is refused by 6 or 8.
    pub fn fit_room(&mut self, room: Room, most_bytes: usize) -> Result<(), TooLarge> {
        let bytes = room.bytes();
        if bytes > most_bytes || self.grow(room).is_err() {
            return Err(TooLarge { bytes });
        }
        self.room = room;
        Ok(())
    }

    fn grow(&mut self, room: Room) -> Result<(), TryReserveError> {
        self.constant.grow(room.instructions, room.constant)?;
        self.index.grow(room.instructions, room.index)?;
        self.container.grow(room.instructions, room.container)?;
        lengthen(&mut self.marks, room.locals)?;
        lengthen(&mut self.stack, room.locals)?;
        lengthen(&mut self.row_kinds, room.tracked())?;
        lengthen(&mut self.row_values, room.tracked())?;
        lengthen(&mut self.work_list, room.work_list())
    }

    /// What the next call is lent.
    pub fn room(&self) -> Room {
        self.room
    }

    /// The three analyses of a sheet, which is the one that these buffers were made to fit; another one may find them
    /// too short (6, 8).
    pub fn analyze(&mut self, sheet: &[u8], budget: Budget) -> Result<Facts<'_>, Refused> {
        let room = self.room;
        let lent = Lent {
            constant: self.constant.lend(room.instructions, room.constant),
            index: self.index.lend(room.instructions, room.index),
            container: self.container.lend(room.instructions, room.container),
            marks: &mut self.marks[..room.locals],
            stack: &mut self.stack[..room.locals],
            row_kinds: &mut self.row_kinds[..room.tracked()],
            row_values: &mut self.row_values[..room.tracked()],
            work_list: &mut self.work_list[..room.work_list()],
        };
        let analyzed = analyze(sheet, budget, lent)?;
        let n = instructions(sheet);
        Ok(Facts {
            constant: Constants(self.constant.used(n, analyzed.constant.tracked)),
            index: IndexChecks(self.index.used(n, analyzed.index.tracked)),
            container: Containers(self.container.used(n, analyzed.container.tracked)),
            analyzed,
        })
    }
}

/// The first size of a sheet that was not refused.
fn instructions(sheet: &[u8]) -> usize {
    u32::from_le_bytes(sheet[..4].try_into().unwrap()) as usize
}

fn lengthen<T: Clone + Default>(buffer: &mut Vec<T>, length: usize) -> Result<(), TryReserveError> {
    if buffer.len() < length {
        buffer.try_reserve_exact(length - buffer.len())?;
        buffer.resize(length, T::default());
    }
    Ok(())
}

impl Owned {
    fn grow(&mut self, n: usize, s: usize) -> Result<(), TryReserveError> {
        lengthen(&mut self.slots, s)?;
        lengthen(&mut self.present, n)?;
        lengthen(&mut self.kinds, n * s)?;
        lengthen(&mut self.values, n * s)
    }

    fn lend(&mut self, n: usize, s: usize) -> Output<'_> {
        Output {
            slots: &mut self.slots[..s],
            present: &mut self.present[..n],
            kinds: &mut self.kinds[..n * s],
            values: &mut self.values[..n * s],
        }
    }

    /// "the used parts"
    fn used(&self, n: usize, s: usize) -> Table<'_> {
        Table {
            slots: &self.slots[..s],
            present: &self.present[..n],
            kinds: &self.kinds[..n * s],
            values: &self.values[..n * s],
        }
    }
}
