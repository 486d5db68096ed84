//! Lent memory: filled with a pattern before a call, between guards, and compared element by element after it.

use std::fmt::Debug;

/// What stands on both sides of a buffer, in elements.
const GUARD: usize = 8;

pub trait Element: Copy + PartialEq + Debug {
    const ZERO: Self;

    /// Never 0, so that what was not cleared shows.
    fn pattern(at: usize, salt: u64) -> Self;

    /// The same byte in all its bytes.
    fn repeated(byte: u8) -> Self;

    fn wide(self) -> u64;
}

macro_rules! element {
    ($of:ty) => {
        impl Element for $of {
            const ZERO: Self = 0;

            fn pattern(at: usize, salt: u64) -> Self {
                (at as $of).wrapping_mul(37).wrapping_add(salt as $of) | 1
            }

            fn repeated(byte: u8) -> Self {
                <$of>::from_ne_bytes([byte; size_of::<$of>()])
            }

            fn wide(self) -> u64 {
                self.into()
            }
        }
    };
}
element!(u8);
element!(u16);
element!(u64);

/// What a buffer must hold after a call.
#[derive(Clone, Copy)]
pub enum After<'a, T> {
    /// What it held before.
    Kept,
    /// These elements, and zeros behind them.
    Front(&'a [T]),
    /// These elements, and behind them what it held before.
    Written(&'a [T]),
}

impl<T> After<'_, T> {
    pub const ZERO: Self = After::Front(&[]);
}

/// What lies in a buffer before a call: by a number of the call's own, or as in every call of crates/check_replay.
#[derive(Clone, Copy)]
pub enum Fill {
    Salt(u64),
    Replay,
}

impl Fill {
    /// Another one of a call, for another buffer.
    pub fn other(self, turn: u32) -> Fill {
        match self {
            Fill::Salt(salt) => Fill::Salt(salt >> turn),
            Fill::Replay => Fill::Replay,
        }
    }
}

pub struct Buffer<T> {
    cells: Vec<T>,
    guard: usize,
    fill: Fill,
}

impl<T: Element> Buffer<T> {
    /// A bare buffer has no guards and is allocated anew for each call, exactly as long as it is lent: a tool that
    /// watches the heap then sees every step past its ends, reading ones too.
    pub fn new(bare: bool) -> Buffer<T> {
        Buffer { cells: Vec::new(), guard: if bare { 0 } else { GUARD }, fill: Fill::Replay }
    }

    /// So long, and filled.
    pub fn fill(&mut self, length: usize, salt: u64) {
        self.fill_by(length, Fill::Salt(salt));
    }

    pub fn fill_by(&mut self, length: usize, fill: Fill) {
        let all = length + 2 * self.guard;
        if self.guard == 0 {
            self.cells = Vec::with_capacity(all);
        }
        self.fill = fill;
        let mut cells = std::mem::take(&mut self.cells);
        cells.clear();
        cells.extend((0..all).map(|at| self.filled(at)));
        self.cells = cells;
    }

    /// What lay there before the call.
    fn filled(&self, at: usize) -> T {
        match self.fill {
            Fill::Salt(salt) => T::pattern(at, salt),
            Fill::Replay => T::repeated((at.wrapping_sub(self.guard) % 128 + 1) as u8),
        }
    }

    pub fn lent(&self) -> &[T] {
        &self.cells[self.guard..self.cells.len() - self.guard]
    }

    pub fn lend(&mut self) -> &mut [T] {
        let end = self.cells.len() - self.guard;
        &mut self.cells[self.guard..end]
    }

    pub fn len(&self) -> usize {
        self.cells.len() - 2 * self.guard
    }

    /// What is not as it must be, if anything.
    pub fn wrong(&self, after: After<'_, T>) -> Option<String> {
        let (start, end) = (self.guard, self.cells.len() - self.guard);
        if !self.patterned(0, start) {
            return Some("has its guard before it overwritten".into());
        }
        if !self.patterned(end, self.cells.len()) {
            return Some("has its guard behind it overwritten".into());
        }
        let front = match after {
            After::Kept => &[],
            After::Front(front) | After::Written(front) => front,
        };
        if front.len() > self.len() {
            return Some(format!("has {} elements and must hold {}", self.len(), front.len()));
        }
        let rest = start + front.len();
        let as_it_must = match after {
            After::Front(_) => self.cells[rest..end].iter().all(|is| *is == T::ZERO),
            After::Kept | After::Written(_) => self.patterned(rest, end),
        };
        if as_it_must && self.cells[start..rest] == *front {
            return None;
        }
        let must = |at: usize| match after {
            _ if at < front.len() => front[at],
            After::Front(_) => T::ZERO,
            After::Kept | After::Written(_) => self.filled(start + at),
        };
        let at = (0..self.len()).find(|at| self.lent()[*at] != must(*at))?;
        Some(format!("[{at}] is {:?} and must be {:?}", self.lent()[at], must(at)))
    }

    fn patterned(&self, from: usize, to: usize) -> bool {
        self.cells[from..to].iter().zip(from..).all(|(is, at)| *is == self.filled(at))
    }
}
