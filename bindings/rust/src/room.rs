//! How long the buffers of a sheet have to be.

use crate::answer::Refusal;
use crate::raw::{self, vo_facts_room, ROOM_LENGTH};

/// Lengths of all buffers follow from these.
#[derive(Clone, Copy, Debug, Default, PartialEq, Eq)]
pub struct Room {
    /// n
    pub instructions: usize,
    /// L
    pub locals: usize,
    /// s of the constant analysis.
    pub constant: usize,
    /// s of the index analysis.
    pub index: usize,
    /// s of the container analysis.
    pub container: usize,
}

/// "L .. (65,535 ..)": the seventh of the ten sizes.
const MOST_LOCALS: usize = 65535;
const LOCALS_AT: usize = 24;

/// The L of a sheet, where question 2 does not refuse it.
fn locals(sheet: &[u8]) -> usize {
    let told = sheet.get(LOCALS_AT..LOCALS_AT + 4).map(|at| u32::from_le_bytes(at.try_into().unwrap()) as usize);
    told.filter(|locals| *locals <= MOST_LOCALS).unwrap_or(0)
}

impl Room {
    /// Exactly what a call on this sheet needs, so that questions 6 and 8 do not refuse it. A sheet that one of the
    /// questions 1 to 5 refuses needs no room: the call will say so.
    ///
    /// It takes three bytes for each local slot while it runs; [`Room::told`] is lent them.
    ///
    /// It has no budget that would end it early: each closure follows up to 2 × n × L edges, and the largest scripts
    /// may take seconds (2.6 measured at n 4,096 and L 65,535 with 4,093 CopyN that span all registers). A loader that
    /// cannot wait so long looks at n and L, the numbers at bytes 0 and 24, before it asks.
    pub fn for_sheet(sheet: &[u8]) -> Room {
        let locals = locals(sheet);
        Room::told(sheet, &mut vec![0; locals], &mut vec![0; locals]).unwrap_or_default()
    }

    /// The same, without a budget too, with marks and stack of the caller, at least L entries each, else it is refused
    /// by 6. After a refusal they are as they were, and else they are 0.
    pub fn told(sheet: &[u8], marks: &mut [u8], stack: &mut [u16]) -> Result<Room, Refusal> {
        let mut out = [0; ROOM_LENGTH];
        // Sound: slices have true lengths, and `&mut` ones overlap with nothing.
        let number = unsafe {
            vo_facts_room(
                sheet.as_ptr(),
                sheet.len(),
                marks.as_mut_ptr(),
                marks.len(),
                stack.as_mut_ptr(),
                stack.len(),
                out.as_mut_ptr(),
                out.len(),
            )
        };
        match Refusal::of_sheet(number) {
            Some(refusal) => Err(refusal),
            None => Ok(Room {
                instructions: out[raw::ROOM_INSTRUCTIONS] as usize,
                locals: locals(sheet),
                constant: out[raw::ROOM_CONSTANT_SLOTS] as usize,
                index: out[raw::ROOM_INDEX_SLOTS] as usize,
                container: out[raw::ROOM_CONTAINER_SLOTS] as usize,
            }),
        }
    }

    /// The largest s, which row scratch and work list are made for.
    pub fn tracked(&self) -> usize {
        self.constant.max(self.index).max(self.container)
    }

    /// "with s and n above zero, the work list n × (1 + 2 × s)"
    pub fn work_list(&self) -> usize {
        match self.tracked() {
            0 => 0,
            tracked => self.instructions * (1 + 2 * tracked),
        }
    }

    /// The bytes of all buffers together.
    pub fn bytes(&self) -> usize {
        let output = |s: usize| 2 * s + self.instructions + 9 * self.instructions * s;
        let outputs = output(self.constant) + output(self.index) + output(self.container);
        outputs + 3 * self.locals + 9 * self.tracked() + 2 * self.work_list()
    }
}

#[cfg(test)]
mod tests {
    use super::*;

    #[test]
    fn a_refused_sheet_needs_no_room() {
        let mut sheet = vec![0; 40];
        assert_eq!(Room::for_sheet(&sheet[..39]), Room::default());
        sheet[0] = 1;
        assert_eq!(Room::for_sheet(&sheet), Room::default());
        sheet[LOCALS_AT..LOCALS_AT + 4].copy_from_slice(&u32::MAX.to_le_bytes());
        assert_eq!(Room::for_sheet(&sheet), Room::default());
    }

    #[test]
    fn an_empty_script_needs_its_locals_alone() {
        let mut sheet = vec![0; 40];
        assert_eq!(Room::for_sheet(&sheet), Room::default());
        sheet[LOCALS_AT] = 3;
        assert_eq!(Room::for_sheet(&sheet), Room { locals: 3, ..Room::default() });
        assert_eq!(Room::told(&sheet, &mut [7; 3], &mut [7; 2]), Err(Refusal::ClosureRoom));
    }

    #[test]
    fn the_largest_room_is_a_number() {
        let room = Room { instructions: 4096, locals: 65535, constant: 65535, index: 65535, container: 65535 };
        assert_eq!(room.work_list(), 4096 * 131071);
        assert!(room.bytes() > 8_000_000_000);
    }
}
