//! What a call answers.

use crate::raw::{self, ANSWER_LENGTH, FRESH_BUDGET};
use std::fmt;

/// What is left to spend: bytes and work units of the analyses, any two numbers.
#[derive(Clone, Copy, Debug, PartialEq, Eq)]
pub struct Budget {
    pub bytes: u64,
    pub work: u64,
}

impl Budget {
    /// "a fresh one has 268,435,456 of each"
    pub const FRESH: Budget = Budget { bytes: FRESH_BUDGET, work: FRESH_BUDGET };
}

/// Of one analysis: how many slots it tracks, and how many entries it took from its work list.
#[derive(Clone, Copy, Debug, PartialEq, Eq)]
pub struct Counts {
    pub tracked: usize,
    pub pops: u64,
}

/// A call that ended with facts.
#[derive(Clone, Copy, Debug, PartialEq, Eq)]
pub struct Analyzed {
    pub constant: Counts,
    pub index: Counts,
    pub container: Counts,
    pub left: Budget,
}

/// A call that was refused, and the budget left.
#[derive(Clone, Copy, Debug, PartialEq, Eq)]
pub struct Refused {
    pub refusal: Refusal,
    pub left: Budget,
}

/// The first question that refuses, in the order in which they are asked.
#[derive(Clone, Copy, Debug, PartialEq, Eq)]
pub enum Refusal {
    /// 1: the sheet has fewer than 40 bytes.
    NoHead,
    /// 2: a size is past its limit.
    SizeLimit,
    /// 3: the length is not what the sizes give.
    Length,
    /// 4: the write counts do not sum to the number of ranges, or the layout lengths to the number of slot kinds.
    Sums,
    /// 5: a kind byte is not named, or a used layout number names no layout.
    Kinds,
    /// 6: marks or stack is shorter than the number of local slots.
    ClosureRoom,
    /// 7: what is left does not cover a charge. Both amounts are in the unit charged, bytes or work.
    OverBudget { stage: Stage, requested: u64, remaining: u64 },
    /// 8: an output, the row scratch or the work list is too short.
    NoRoom,
}

/// Where a charge was not covered, in charge order.
#[derive(Clone, Copy, Debug, PartialEq, Eq)]
pub enum Stage {
    FlowGraph = 1,
    Dependencies,
    Constant,
    Index,
    Container,
}

impl Refusal {
    /// The refusal of a sheet by one of the questions 1 to 6, none for 0. The library returns no other number to a
    /// caller whose memory for the answer is long enough.
    pub(crate) fn of_sheet(number: u8) -> Option<Refusal> {
        match number {
            raw::ANALYZED => None,
            raw::NO_HEAD => Some(Refusal::NoHead),
            raw::SIZE_LIMIT => Some(Refusal::SizeLimit),
            raw::LENGTH => Some(Refusal::Length),
            raw::SUMS => Some(Refusal::Sums),
            raw::KINDS => Some(Refusal::Kinds),
            raw::CLOSURE_ROOM => Some(Refusal::ClosureRoom),
            _ => unreachable!("a sheet was refused by {number}"),
        }
    }

    /// Document 01's number.
    pub fn number(&self) -> u8 {
        match self {
            Refusal::NoHead => raw::NO_HEAD,
            Refusal::SizeLimit => raw::SIZE_LIMIT,
            Refusal::Length => raw::LENGTH,
            Refusal::Sums => raw::SUMS,
            Refusal::Kinds => raw::KINDS,
            Refusal::ClosureRoom => raw::CLOSURE_ROOM,
            Refusal::OverBudget { .. } => raw::OVER_BUDGET,
            Refusal::NoRoom => raw::NO_ROOM,
        }
    }
}

impl fmt::Display for Refusal {
    fn fmt(&self, out: &mut fmt::Formatter<'_>) -> fmt::Result {
        write!(out, "refused {}: ", self.number())?;
        match self {
            Refusal::NoHead => write!(out, "the sheet has fewer than 40 bytes"),
            Refusal::SizeLimit => write!(out, "a size is past its limit"),
            Refusal::Length => write!(out, "the length is not what the sizes give"),
            Refusal::Sums => write!(out, "write counts or layout lengths do not add up"),
            Refusal::Kinds => write!(out, "a kind byte or a layout number has no meaning"),
            Refusal::ClosureRoom => write!(out, "marks or stack is shorter than the number of local slots"),
            Refusal::OverBudget { stage, requested, remaining } => {
                write!(out, "stage {stage:?} asks for {requested}, and {remaining} is left")
            }
            Refusal::NoRoom => write!(out, "an output, the row scratch or the work list is too short"),
        }
    }
}

impl std::error::Error for Refusal {}

impl fmt::Display for Refused {
    fn fmt(&self, out: &mut fmt::Formatter<'_>) -> fmt::Result {
        self.refusal.fmt(out)
    }
}

impl std::error::Error for Refused {}

/// The answer that the library wrote. It writes no others than those that its header names.
pub(crate) fn read(answer: &[u64; ANSWER_LENGTH]) -> Result<Analyzed, Refused> {
    let left = Budget { bytes: answer[raw::BYTES_LEFT], work: answer[raw::WORK_LEFT] };
    let counted = |slots: usize, pops: usize| Counts { tracked: answer[slots] as usize, pops: answer[pops] };
    let refusal = match answer[raw::NUMBER] as u8 {
        raw::OVER_BUDGET => Some(Refusal::OverBudget {
            stage: stage_of(answer[raw::STAGE]),
            requested: answer[raw::REQUESTED],
            remaining: answer[raw::REMAINING],
        }),
        raw::NO_ROOM => Some(Refusal::NoRoom),
        number => Refusal::of_sheet(number),
    };
    match refusal {
        Some(refusal) => Err(Refused { refusal, left }),
        None => Ok(Analyzed {
            constant: counted(raw::CONSTANT_SLOTS, raw::CONSTANT_POPS),
            index: counted(raw::INDEX_SLOTS, raw::INDEX_POPS),
            container: counted(raw::CONTAINER_SLOTS, raw::CONTAINER_POPS),
            left,
        }),
    }
}

fn stage_of(number: u64) -> Stage {
    match number {
        1 => Stage::FlowGraph,
        2 => Stage::Dependencies,
        3 => Stage::Constant,
        4 => Stage::Index,
        5 => Stage::Container,
        _ => unreachable!("vo_facts_analyze refused in stage {number}"),
    }
}
