//! The listed items of verifier.rs, as build.rs cut them out, and the order in which the verifier calls them.

#![allow(dead_code)]

use crate::answer::{Budget, Closed, Table};
use crate::outside::{
    Arc, Constant, FunctionDef, Instruction, InstructionMetadata, Module, ModuleVerificationError, Opcode, RuntimeType,
    SlotType, TransferType, ValueRttid, MAP_ITER_SLOTS,
};
use crate::sheet::Sheet;
use core::mem::size_of;
use std::collections::BTreeMap;
use std::hint::black_box;

include!(concat!(env!("OUT_DIR"), "/cut.rs"));

/// The types whose sizes document 01 gives, by themselves and with the standard library's own `Arc`.
mod units {
    use crate::outside::SlotType;
    use std::sync::Arc;

    include!(concat!(env!("OUT_DIR"), "/units.rs"));

    pub fn sizes() -> [usize; 5] {
        use core::mem::size_of;
        [
            size_of::<InstructionSuccessors>(),
            size_of::<FactDependency>(),
            size_of::<ConstantFact>(),
            size_of::<IndexCheckFact>(),
            size_of::<ContainerLayoutFact>(),
        ]
    }
}

/// Successor record, dependency, constant fact, index fact, container fact, mark, work slot: first of the Rust's own
/// types, then as the cut text charges them here.
pub fn sizes() -> [[usize; 7]; 2] {
    let [successor, dependency, constant, index, container] = units::sizes();
    let charged = [
        size_of::<InstructionSuccessors>(),
        size_of::<FactDependency>(),
        size_of::<ConstantFact>(),
        size_of::<IndexCheckFact>(),
        size_of::<ContainerLayoutFact>(),
        size_of::<bool>(),
        size_of::<u16>(),
    ];
    [[successor, dependency, constant, index, container, size_of::<bool>(), size_of::<u16>()], charged]
}

/// A charge that the budget did not cover.
pub struct Spent {
    pub stage: u8,
    pub requested: u64,
    pub remaining: u64,
}

/// The three ended analyses.
pub struct Facts {
    constant: ConstantFactAnalysis,
    index: IndexCheckAnalysis,
    container: ContainerLayoutAnalysis,
}

/// The five stages in charge order, as `verify_function_common` calls them (lines 2474 to 2487), and the budget
/// that they leave. This is the Rust alone: time it for a baseline.
pub fn analyze(sheet: &Sheet, budget: Budget) -> (Result<Facts, Spent>, Budget) {
    let mut resources = resources_of(budget);
    let facts = stages(sheet, &mut resources, |_, _, _| ());
    (facts, left_of(&resources))
}

/// The same, and what each closure that ended left, in the order constant, index, container.
pub fn analyze_watched(sheet: &Sheet, budget: Budget) -> (Result<Facts, Spent>, Budget, Vec<Closed>) {
    let mut resources = resources_of(budget);
    let mut closed = Vec::new();
    let facts = stages(sheet, &mut resources, |tracked, dependencies, resources| {
        let mut copy = resources_of(left_of(resources));
        let entered = left_of(&copy);
        if let Ok(slots) = tracked(&sheet.func, dependencies, &mut copy) {
            closed.push(Closed { slots: slots.len(), entered, left: left_of(&copy) });
        }
    });
    (facts, left_of(&resources), closed)
}

type Tracked =
    fn(&FunctionDef, &FactDependencyGraph, &mut VerifierResources) -> Result<Vec<u16>, ModuleVerificationError>;

/// `closing` is told of each closure right before the analysis makes it.
fn stages(
    sheet: &Sheet,
    resources: &mut VerifierResources,
    mut closing: impl FnMut(Tracked, &FactDependencyGraph, &VerifierResources),
) -> Result<Facts, Spent> {
    let Sheet { func, module } = sheet;
    let cfg = FunctionCfg::build(func, resources).map_err(spent_at(1))?;
    let dependencies = FactDependencyGraph::build(func, resources).map_err(spent_at(2))?;
    closing(tracked_constant_slots, &dependencies, resources);
    let constant = ConstantFactAnalysis::analyze(func, module, &cfg, &dependencies, resources).map_err(spent_at(3))?;
    closing(tracked_index_check_slots, &dependencies, resources);
    let index =
        IndexCheckAnalysis::analyze(func, module, &cfg, &dependencies, &constant, resources).map_err(spent_at(4))?;
    closing(tracked_container_slots, &dependencies, resources);
    let container =
        ContainerLayoutAnalysis::analyze(func, module, &cfg, &dependencies, resources).map_err(spent_at(5))?;
    Ok(Facts { constant, index, container })
}

/// The stages up to the closure of one analysis (0 constant, 1 index, 2 container), with that closure: its s and what
/// is left. This and `until_ended` are for the times of the parts.
pub fn until_closed(sheet: &Sheet, budget: Budget, which: usize) -> Result<(usize, Budget), Spent> {
    let tracked: [Tracked; 3] = [tracked_constant_slots, tracked_index_check_slots, tracked_container_slots];
    let mut resources = resources_of(budget);
    let begun = begun(sheet, &mut resources, which)?;
    let slots = tracked[which](&sheet.func, &begun.dependencies, &mut resources).map_err(spent_at(3 + which as u8))?;
    // So that the flow graph, which no closure reads, is made all the same.
    black_box(&begun);
    Ok((slots.len(), left_of(&resources)))
}

/// The stages up to the end of one analysis, and what is left.
pub fn until_ended(sheet: &Sheet, budget: Budget, which: usize) -> Result<Budget, Spent> {
    let mut resources = resources_of(budget);
    black_box(begun(sheet, &mut resources, which + 1)?);
    Ok(left_of(&resources))
}

struct Begun {
    cfg: FunctionCfg,
    dependencies: FactDependencyGraph,
    constant: Option<ConstantFactAnalysis>,
    index: Option<IndexCheckAnalysis>,
    container: Option<ContainerLayoutAnalysis>,
}

/// The first two stages, and this many of the three analyses.
fn begun(sheet: &Sheet, resources: &mut VerifierResources, analyses: usize) -> Result<Begun, Spent> {
    let Sheet { func, module } = sheet;
    let cfg = FunctionCfg::build(func, resources).map_err(spent_at(1))?;
    let dependencies = FactDependencyGraph::build(func, resources).map_err(spent_at(2))?;
    let mut begun = Begun { cfg, dependencies, constant: None, index: None, container: None };
    let Begun { cfg, dependencies, constant, index, container } = &mut begun;
    if analyses > 0 {
        let ended = ConstantFactAnalysis::analyze(func, module, cfg, dependencies, resources).map_err(spent_at(3))?;
        let ended = constant.insert(ended);
        if analyses > 1 {
            let checks = IndexCheckAnalysis::analyze(func, module, cfg, dependencies, ended, resources);
            *index = Some(checks.map_err(spent_at(4))?);
        }
    }
    if analyses > 2 {
        let ended = ContainerLayoutAnalysis::analyze(func, module, cfg, dependencies, resources);
        *container = Some(ended.map_err(spent_at(5))?);
    }
    Ok(begun)
}

fn spent_at(stage: u8) -> impl Fn(ModuleVerificationError) -> Spent {
    move |ModuleVerificationError::ResourceLimit { requested, remaining, .. }| Spent {
        stage,
        requested: requested as u64,
        remaining: remaining as u64,
    }
}

fn resources_of(budget: Budget) -> VerifierResources {
    VerifierResources { derived_bytes_left: budget.bytes as usize, work_left: budget.work as usize }
}

fn left_of(resources: &VerifierResources) -> Budget {
    Budget { bytes: resources.derived_bytes_left as u64, work: resources.work_left as u64 }
}

/// The budget of a fresh call.
pub fn fresh() -> Budget {
    left_of(&VerifierResources::new())
}

/// The successors of each instruction.
pub fn successors(sheet: &Sheet) -> Vec<Vec<usize>> {
    let cfg = FunctionCfg::build(&sheet.func, &mut resources_of(Budget { bytes: u64::MAX, work: u64::MAX }));
    let Ok(cfg) = cfg else { unreachable!() };
    (0..sheet.func.code.len()).map(|pc| cfg.successors(pc).collect()).collect()
}

/// Whether an instruction writes a slot, in the constant and container analyses.
pub fn writes(sheet: &Sheet, pc: usize, slot: u16) -> bool {
    instruction_writes_slot(Some(&sheet.module), &sheet.func, pc, sheet.func.code[pc], slot)
}

/// The same in the index analysis, with this kind and value in the instruction's b; None where the Rust has no such fact.
pub fn index_writes(sheet: &Sheet, pc: usize, (kind, value): (u8, u64), slot: u16) -> Option<bool> {
    let Sheet { func, module } = sheet;
    let before = match kind {
        0 => IndexCheckFact::Unknown,
        1 => IndexCheckFact::Conflict,
        _ => IndexCheckFact::Checked { len: value.try_into().ok()? },
    };
    let inst = func.code[pc];
    Some(index_check_instruction_writes_slot(func, module, pc, inst, slot, &[inst.b], &[before]))
}

impl Facts {
    /// The Rust's own lookups, in document 01's kinds and values.
    pub fn constant(&self, pc: usize, slot: u16) -> Option<(u8, u64)> {
        self.constant.fact_for_slot(pc, slot).map(|fact| match fact {
            ConstantFact::Unknown => (0, 0),
            ConstantFact::Conflict => (1, 0),
            ConstantFact::Int(value) if value < 0 => (3, (value + (1 << 64)) as u64),
            ConstantFact::Int(value) => (2, value as u64),
        })
    }

    pub fn index(&self, pc: usize, slot: u16) -> Option<(u8, u64)> {
        self.index.fact_for_slot(pc, slot).map(|fact| match fact {
            IndexCheckFact::Unknown => (0, 0),
            IndexCheckFact::Conflict => (1, 0),
            IndexCheckFact::Checked { len } => (2, u64::from(len)),
        })
    }

    pub fn container(&self, pc: usize, slot: u16) -> Option<(u8, u64)> {
        let pair = |a: &Arc<[SlotType]>, b: &Arc<[SlotType]>| u64::from(a.number()) << 16 | u64::from(b.number());
        self.container.fact_for_slot(pc, slot).map(|fact| match fact {
            ContainerLayoutFact::Unknown => (0, 0),
            ContainerLayoutFact::Conflict => (1, 0),
            ContainerLayoutFact::Map { key_layout, val_layout } => (2, pair(key_layout, val_layout)),
            ContainerLayoutFact::MapIter { key_layout, val_layout } => (3, pair(key_layout, val_layout)),
            ContainerLayoutFact::Queue { elem_layout } => (4, u64::from(elem_layout.number()) << 16),
        })
    }

    pub fn is_reachable(&self, pc: usize) -> bool {
        self.constant.is_reachable(pc)
    }

    /// The tables of constant, index and container, each cell through the Rust's own lookup. Pops are filled in later.
    pub fn tables(&self) -> [Table; 3] {
        let (constant, index, container) = (&self.constant, &self.index, &self.container);
        [
            table(&constant.slots, &constant.before, |pc, slot| self.constant(pc, slot)),
            table(&index.slots, &index.before, |pc, slot| self.index(pc, slot)),
            table(&container.slots, &container.before, |pc, slot| self.container(pc, slot)),
        ]
    }
}

/// "Absent rows are zero."
fn table<T>(slots: &[u16], rows: &[Option<T>], fact: impl Fn(usize, u16) -> Option<(u8, u64)>) -> Table {
    let cells = (0..rows.len()).flat_map(|pc| slots.iter().map(move |slot| (pc, *slot)));
    let (kinds, values) = cells.map(|(pc, slot)| fact(pc, slot).unwrap_or((0, 0))).unzip();
    let present = rows.iter().map(|row| u8::from(row.is_some())).collect();
    Table { slots: slots.to_vec(), pops: 0, present, kinds, values }
}
