//! Every refusal, the budget after it, and the lookups, on the worked sheet of document 01.

use vo_facts::{
    analyze, lowest_layout, raw, Budget, Buffers, ConstantFact, Constants, ContainerFact, Counts, Damaged, Lent,
    NotCompared, Output, Refusal, Refused, Room, Stage, Table, TooLarge,
};

const SHEET: &[u8] = include_bytes!("../../../examples/worked.sheet");
/// Its layouts 1 and 2 have the same slot kinds.
const FLIGHTS: &[u8] = include_bytes!("../../../examples/flights.sheet");
const MOST: usize = 1 << 28;

fn refused(sheet: &[u8], budget: Budget) -> Refused {
    Buffers::for_sheet(sheet, MOST).unwrap().analyze(sheet, budget).err().expect("a refusal")
}

fn changed(at: usize, byte: u8) -> Vec<u8> {
    let mut sheet = SHEET.to_vec();
    sheet[at] = byte;
    sheet
}

#[test]
fn the_worked_sheet_is_analyzed() {
    let mut buffers = Buffers::for_sheet(SHEET, MOST).unwrap();
    let facts = buffers.analyze(SHEET, Budget::FRESH).unwrap();
    assert_eq!(facts.analyzed.constant, Counts { tracked: 1, pops: 7 });
    assert_eq!(facts.analyzed.index, Counts { tracked: 0, pops: 0 });
    assert_eq!(facts.analyzed.left, Budget { bytes: 268_435_158, work: 268_435_444 });
    let shown: Vec<_> = (0..6).map(|pc| facts.constant.fact_for_slot(pc, 0).unwrap()).collect();
    let (seven, conflict) = (ConstantFact::Int(7), ConstantFact::Conflict);
    assert_eq!(shown[..3], [Some(ConstantFact::Unknown), Some(seven), Some(seven)]);
    assert_eq!(shown[3..], [Some(conflict), Some(conflict), None]);
    assert_eq!(facts.constant.fact_for_slot(1, 1), Ok(None));
    assert_eq!(facts.constant.fact_for_slot(usize::MAX, 0), Ok(None));
    assert_eq!(facts.constant.fixed(0), Ok(None));
    assert_eq!(facts.constant.is_reachable(4), Ok(true));
    assert_eq!(facts.constant.is_reachable(5), Ok(false));
    assert_eq!(facts.index.is_reachable(0), Ok(false));
}

#[test]
fn a_sheet_is_refused_by_1_to_5_with_the_budget_as_given() {
    let budget = Budget { bytes: 5, work: 6 };
    let cases = [
        (SHEET[..39].to_vec(), Refusal::NoHead),
        (changed(36, 2), Refusal::SizeLimit),
        ([SHEET, &[0]].concat(), Refusal::Length),
        (changed(40 + 13 * 5, 2), Refusal::Sums),
        (changed(40 + 8 * 5, 4), Refusal::Kinds),
    ];
    for (number, (sheet, refusal)) in (1..).zip(cases) {
        assert_eq!(refusal.number(), number);
        assert_eq!(refused(&sheet, budget), Refused { refusal, left: budget });
    }
}

#[test]
fn a_charge_that_is_not_covered_names_its_stage() {
    let refusal = Refusal::OverBudget { stage: Stage::FlowGraph, requested: 120, remaining: 119 };
    let left = Budget { bytes: 119, work: 9 };
    assert_eq!(refused(SHEET, left), Refused { refusal, left });
    // The closure of the constants: a byte for each of two marks.
    let refusal = Refusal::OverBudget { stage: Stage::Constant, requested: 2, remaining: 1 };
    assert_eq!(refused(SHEET, Budget { bytes: 121, work: 9 }), Refused { refusal, left: Budget { bytes: 1, work: 4 } });
}

#[test]
fn too_little_room_is_refused_by_6_and_8() {
    let whole = Room::for_sheet(SHEET);
    assert_eq!(whole, Room { instructions: 5, locals: 2, constant: 1, index: 0, container: 0 });
    let mut buffers = Buffers::default();
    let mut answer = |room| {
        buffers.fit_room(room, MOST).unwrap();
        buffers.analyze(SHEET, Budget::FRESH).map(|facts| facts.analyzed.constant)
    };
    assert_eq!(answer(Room { locals: 1, ..whole }).unwrap_err().refusal, Refusal::ClosureRoom);
    let left = Budget { bytes: 268_435_456 - 120 - 6, work: 268_435_456 - 5 };
    assert_eq!(answer(Room { constant: 0, ..whole }), Err(Refused { refusal: Refusal::NoRoom, left }));
    assert_eq!(answer(Room { instructions: 4, ..whole }).unwrap_err().refusal, Refusal::NoRoom);
    assert_eq!(answer(whole), Ok(Counts { tracked: 1, pops: 7 }));
}

#[test]
fn room_is_told_by_the_questions_in_order() {
    let refusal = |sheet: &[u8], marks: usize, stack: usize| {
        let (mut marks, mut stack) = (vec![9; marks], vec![9; stack]);
        let told = Room::told(sheet, &mut marks, &mut stack);
        let kept = marks.iter().all(|mark| *mark == 9) && stack.iter().all(|slot| *slot == 9);
        let zero = marks.iter().all(|mark| *mark == 0) && stack.iter().all(|slot| *slot == 0);
        assert!(if told.is_err() { kept } else { zero });
        told.err()
    };
    assert_eq!(refusal(&SHEET[..39], 0, 0), Some(Refusal::NoHead));
    assert_eq!(refusal(&changed(40 + 8 * 5, 4), 0, 0), Some(Refusal::Kinds));
    assert_eq!(refusal(SHEET, 1, 2), Some(Refusal::ClosureRoom));
    assert_eq!(refusal(SHEET, 2, 1), Some(Refusal::ClosureRoom));
    assert_eq!(refusal(SHEET, 2, 2), None);
    assert_eq!(refusal(SHEET, 5, 4), None);
}

#[test]
fn layouts_are_equal_by_content() {
    assert_eq!(lowest_layout(SHEET, 0), Ok(None));
    assert_eq!(lowest_layout(&SHEET[..39], 0), Err(Refusal::NoHead));
    let lowest: Vec<_> = (0..4).map(|layout| lowest_layout(FLIGHTS, layout)).collect();
    assert_eq!(lowest, [Ok(Some(0)), Ok(Some(1)), Ok(Some(1)), Ok(None)]);
    assert_eq!(lowest_layout(FLIGHTS, usize::MAX), Ok(None));
    let facts = [
        ContainerFact::Unknown,
        ContainerFact::Conflict,
        ContainerFact::Map { key: 0, value: 1 },
        ContainerFact::Map { key: 1, value: 0 },
        ContainerFact::Iterator { key: 0, value: 1 },
        ContainerFact::Iterator { key: 1, value: 0 },
        ContainerFact::Queue { element: 0 },
        ContainerFact::Queue { element: 1 },
    ];
    for (i, one) in facts.iter().enumerate() {
        for (j, two) in facts.iter().enumerate() {
            assert_eq!(one.same_content(two, FLIGHTS), Ok(i == j), "{one:?} {two:?}");
        }
    }
    let other = ContainerFact::Iterator { key: 0, value: 2 };
    assert_eq!(facts[4].same_content(&other, FLIGHTS), Ok(true));
    assert_eq!(facts[2].same_content(&other, FLIGHTS), Ok(false));
    assert_eq!(facts[7].same_content(&ContainerFact::Queue { element: 2 }, FLIGHTS), Ok(true));
}

/// No layout of either fact may be one that the sheet does not have, of whatever kinds they are.
#[test]
fn facts_of_another_sheet_are_not_compared() {
    let own = ContainerFact::Map { key: 0, value: 1 };
    let others = [
        (ContainerFact::Map { key: 3, value: 1 }, 3),
        (ContainerFact::Map { key: 0, value: 1024 }, 1024),
        (ContainerFact::Iterator { key: 4, value: 5 }, 4),
        (ContainerFact::Queue { element: usize::MAX }, usize::MAX),
    ];
    for (other, layout) in others {
        let missing = Err(NotCompared::NoLayout(layout));
        assert_eq!(other.same_content(&other, FLIGHTS), missing, "{other:?}");
        assert_eq!(own.same_content(&other, FLIGHTS), missing, "{other:?}");
        assert_eq!(other.same_content(&ContainerFact::Unknown, FLIGHTS), missing, "{other:?}");
    }
    assert_eq!(own.same_content(&own, &FLIGHTS[..39]), Err(NotCompared::Refused(Refusal::NoHead)));
    assert_eq!(NotCompared::NoLayout(3).to_string(), "the sheet has no layout 3");
}

#[test]
fn the_archive_has_this_interface() {
    assert_eq!(unsafe { raw::vo_facts_version() }, raw::VERSION);
}

#[test]
fn more_memory_than_allowed_is_not_taken() {
    let bytes = Room::for_sheet(SHEET).bytes();
    assert_eq!(Buffers::for_sheet(SHEET, bytes - 1).err(), Some(TooLarge { bytes }));
    assert!(Buffers::for_sheet(SHEET, bytes).is_ok());
}

/// Slices of the caller's own, longer than needed and filled: what lies behind the tables and all scratch is 0.
#[test]
fn slices_of_the_caller_hold_the_tables_and_zeros() {
    let (mut slots, mut present, mut kinds, mut values) =
        ([[9u16; 3]; 3], [[9u8; 6]; 3], [[9u8; 7]; 3], [[9u64; 8]; 3]);
    let (mut marks, mut stack, mut row_kinds, mut row_values) = ([9u8; 3], [9u16; 4], [9u8; 2], [9u64; 2]);
    let mut work_list = [9u16; 15];
    let mut outputs = slots
        .iter_mut()
        .zip(&mut present)
        .zip(&mut kinds)
        .zip(&mut values)
        .map(|(((slots, present), kinds), values)| Output { slots, present, kinds, values });
    let mut next = || outputs.next().unwrap();
    let lent = Lent {
        constant: next(),
        index: next(),
        container: next(),
        marks: &mut marks,
        stack: &mut stack,
        row_kinds: &mut row_kinds,
        row_values: &mut row_values,
        work_list: &mut work_list,
    };
    assert!(analyze(SHEET, Budget::FRESH, lent).is_ok());
    assert_eq!(slots, [[0; 3]; 3]);
    assert_eq!(present, [[1, 1, 1, 1, 1, 0], [0; 6], [0; 6]]);
    assert_eq!(kinds, [[0, 2, 2, 1, 1, 0, 0], [0; 7], [0; 7]]);
    assert_eq!(values, [[0, 7, 7, 0, 0, 0, 0, 0], [0; 8], [0; 8]]);
    assert_eq!((marks, stack, row_kinds, row_values, work_list), ([0; 3], [0; 4], [0; 2], [0; 2], [0; 15]));
}

#[test]
fn question_9_is_asked_of_any_table() {
    let good =
        Table { slots: &[3, 8], present: &[1, 0, 1], kinds: &[0, 0, 0, 0, 2, 3], values: &[0, 0, 0, 0, 5, u64::MAX] };
    let ask = |table, pc, slot| Constants(table).fact_for_slot(pc, slot);
    assert_eq!(ask(good, 2, 3), Ok(Some(ConstantFact::Int(5))));
    assert_eq!(ask(good, 2, 8), Ok(Some(ConstantFact::Int(-1))));
    assert_eq!(ask(good, 1, 8), Ok(None));
    assert_eq!(Constants(good).fixed(8), Ok(Some(ConstantFact::Int(-1))));
    for slots in [&[8, 3], &[3, 3]] {
        assert_eq!(ask(Table { slots, ..good }, 9, 9), Err(Damaged));
    }
    assert_eq!(ask(Table { values: &good.values[1..], ..good }, 9, 9), Err(Damaged));
    assert_eq!(ask(Table { kinds: &good.kinds[1..], ..good }, 9, 9), Err(Damaged));
    assert_eq!(ask(Table { present: &[1, 0, 2], ..good }, 2, 9), Err(Damaged));
    assert_eq!(ask(Table { present: &[1, 0, 2], ..good }, 0, 3), Ok(Some(ConstantFact::Unknown)));
    assert_eq!(ask(Table { kinds: &[0, 0, 0, 0, 4, 3], ..good }, 2, 3), Err(Damaged));
    assert_eq!(Constants(Table { kinds: &[4, 0, 0, 0, 2, 3], ..good }).fixed(3), Err(Damaged));
    assert_eq!(Constants(Table { present: &[1, 0, 2], ..good }).is_reachable(2), Err(Damaged));
}
