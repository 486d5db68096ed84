//! What a loader asks beside the call: room, by the Rust's closures, and the lowest layout, by a plain search.

use crate::memory::{After, Buffer};
use oracle::expect::Sizes;
use oracle::generate::Rng;
use oracle::{answer, Answer, Budget, Outcome};
use vo_facts::raw::{vo_facts_lowest_layout, vo_facts_room, NONE, ROOM_LENGTH, TOO_SHORT};

/// A sheet whose closures did not all end is answered once more by the Rust, with a budget that they cannot spend, where
/// it has at most so many bytes.
const SMALL: usize = 4096;
const PLENTY: Budget = Budget { bytes: u64::MAX, work: u64::MAX };

pub struct Loader {
    sheet: Buffer<u8>,
    marks: Buffer<u8>,
    stack: Buffer<u16>,
    out: Buffer<u64>,
    /// How many calls answered each number.
    pub room: [u64; 256],
    pub lowest: [u64; 256],
}

impl Loader {
    pub fn new(bare: bool) -> Loader {
        Loader {
            sheet: Buffer::new(bare),
            marks: Buffer::new(bare),
            stack: Buffer::new(bare),
            out: Buffer::new(bare),
            room: [0; 256],
            lowest: [0; 256],
        }
    }

    pub fn wrong(&mut self, rng: &mut Rng, sheet: &[u8], rust: &Answer, sizes: Sizes) -> Option<String> {
        self.sheet.fill(sheet.len(), rng.below(u64::MAX));
        self.sheet.lend().copy_from_slice(sheet);
        let wrong = match closures(sheet, rust) {
            Some(tracked) => self.wrong_room(rng, rust, sizes, tracked),
            None => None,
        };
        let wrong = wrong.or_else(|| self.wrong_lowest(rng, sheet, rust));
        wrong.or_else(|| (self.sheet.lent() != sheet).then(|| "a loader's call changed the sheet".into()))
    }

    /// Lengths that are exact, longer, or one short.
    fn wrong_room(&mut self, rng: &mut Rng, rust: &Answer, sizes: Sizes, tracked: [u64; 3]) -> Option<String> {
        let mut near = |length: usize| match rng.below(8) {
            0 => length.saturating_sub(1),
            1 => length + 1 + rng.below(4) as usize,
            _ => length,
        };
        let (marks, stack, out) = (near(sizes.locals), near(sizes.locals), near(ROOM_LENGTH));
        let salt = rng.below(u64::MAX);
        self.marks.fill(marks, salt);
        self.stack.fill(stack, salt >> 1);
        self.out.fill(out, salt >> 2);
        let (sheet, marks, stack, out) = (self.sheet.lent(), self.marks.lend(), self.stack.lend(), self.out.lend());
        // Sound: every buffer is as long as told and overlaps with no other.
        let number = unsafe {
            vo_facts_room(
                sheet.as_ptr(),
                sheet.len(),
                marks.as_mut_ptr(),
                marks.len(),
                stack.as_mut_ptr(),
                stack.len(),
                out.as_mut_ptr(),
                out.len(),
            )
        };
        self.room[usize::from(number)] += 1;
        let must = match rust.outcome {
            _ if out.len() < ROOM_LENGTH => TOO_SHORT,
            Outcome::Refused(number) => number,
            _ if marks.len() < sizes.locals || stack.len() < sizes.locals => 6,
            _ => 0,
        };
        let [constant, index, container] = tracked;
        let told = [sizes.n as u64, constant, index, container];
        let wrong = if must == 0 {
            let wrong = self.marks.wrong(After::ZERO).or_else(|| self.stack.wrong(After::ZERO));
            wrong.or_else(|| self.out.wrong(After::Written(&told)))
        } else {
            let wrong = self.marks.wrong(After::Kept).or_else(|| self.stack.wrong(After::Kept));
            wrong.or_else(|| self.out.wrong(After::Kept))
        };
        let wrong = (number != must).then(|| format!("returned {number} and must be {must}")).or(wrong);
        wrong.map(|wrong| format!("room {wrong}"))
    }

    /// A layout of the sheet, or a number that is none.
    fn wrong_lowest(&mut self, rng: &mut Rng, sheet: &[u8], rust: &Answer) -> Option<String> {
        let layouts = match rust.outcome {
            Outcome::Refused(_) => Vec::new(),
            _ => layouts(sheet),
        };
        let layout = match rng.below(16) {
            0 => rng.below(u64::MAX),
            _ => rng.below(layouts.len() as u64 + 2),
        };
        self.out.fill(rng.below(4) as usize, rng.below(u64::MAX));
        let (sheet, out) = (self.sheet.lent(), self.out.lend());
        // Sound: as above.
        let number =
            unsafe { vo_facts_lowest_layout(sheet.as_ptr(), sheet.len(), layout, out.as_mut_ptr(), out.len()) };
        self.lowest[usize::from(number)] += 1;
        let own = usize::try_from(layout).ok().and_then(|layout| layouts.get(layout));
        let (must, told) = match (&rust.outcome, own) {
            _ if out.is_empty() => (TOO_SHORT, None),
            (Outcome::Refused(number), _) => (*number, None),
            (_, None) => (NONE, None),
            (_, Some(own)) => (0, layouts.iter().position(|layout| layout == own)),
        };
        let told = told.map(|told| [told as u64]);
        let after = told.as_ref().map_or(After::Kept, |told| After::Written(told));
        let wrong = (number != must).then(|| format!("returned {number} and must be {must}"));
        wrong.or_else(|| self.out.wrong(after)).map(|wrong| format!("lowest layout of {layout} {wrong}"))
    }
}

/// The s of each analysis, where the Rust tells all three.
fn closures(sheet: &[u8], rust: &Answer) -> Option<[u64; 3]> {
    let tracked = |rust: &Answer| match rust.closed[..] {
        [ref constant, ref index, ref container] => Some([constant, index, container].map(|it| it.slots as u64)),
        _ => None,
    };
    match rust.outcome {
        Outcome::Refused(_) => Some([0; 3]),
        _ if rust.closed.len() < 3 && sheet.len() <= SMALL => tracked(&answer(sheet, PLENTY)),
        _ => tracked(rust),
    }
}

/// "layout lengths (y, 16-bit), then q slot kinds", which end the sheet: the content of each.
fn layouts(sheet: &[u8]) -> Vec<&[u8]> {
    let size = |i: usize| u32::from_le_bytes(sheet[4 * i..4 * i + 4].try_into().unwrap()) as usize;
    let (lengths, mut kinds) = sheet[sheet.len() - 2 * size(4) - size(5)..].split_at(2 * size(4));
    let mut content = |length: &[u8]| {
        let (layout, rest) = kinds.split_at(u16::from_le_bytes([length[0], length[1]]).into());
        kinds = rest;
        layout
    };
    lengths.chunks_exact(2).map(&mut content).collect()
}
