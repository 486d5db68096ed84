//! The sheets of examples/, listed from the facts that the library gives, against the listings beside them.

use std::fmt::Write;
use std::path::Path;
use vo_facts::{lowest_layout, Budget, Buffers, ConstantFact, ContainerFact, Facts, IndexCheckFact, Table};

const NAMES: [&str; 5] = ["worked", "chute", "trays", "flights", "bags"];
const MOST: usize = 1 << 28;

fn example(file: &str) -> Vec<u8> {
    let folder = Path::new(env!("CARGO_MANIFEST_DIR")).join("../../examples");
    std::fs::read(folder.join(file)).unwrap_or_else(|error| panic!("{file}: {error}"))
}

fn constant(fact: ConstantFact) -> String {
    match fact {
        ConstantFact::Unknown => "unknown".into(),
        ConstantFact::Conflict => "conflict".into(),
        ConstantFact::Int(value) => value.to_string(),
    }
}

fn index(fact: IndexCheckFact) -> String {
    match fact {
        IndexCheckFact::Unknown => "unknown".into(),
        IndexCheckFact::Conflict => "conflict".into(),
        IndexCheckFact::Checked { len } => format!("checked {len}"),
    }
}

/// "with the lowest layout number of equal content"
fn container(sheet: &[u8], fact: ContainerFact) -> String {
    let lowest = |number: usize| lowest_layout(sheet, number).unwrap().unwrap();
    match fact {
        ContainerFact::Unknown => "unknown".into(),
        ContainerFact::Conflict => "conflict".into(),
        ContainerFact::Map { key, value } => format!("map {} {}", lowest(key), lowest(value)),
        ContainerFact::Iterator { key, value } => format!("iter {} {}", lowest(key), lowest(value)),
        ContainerFact::Queue { element } => format!("queue {}", lowest(element)),
    }
}

fn rows(out: &mut String, name: &str, table: Table<'_>, pops: u64, fact: impl Fn(usize, u16) -> Option<String>) {
    writeln!(out, "{name} {} {} {pops}", table.present.len(), table.slots.len()).unwrap();
    for pc in 0..table.present.len() {
        for slot in table.slots {
            if let Some(fact) = fact(pc, *slot) {
                writeln!(out, "{pc} {slot} {fact}").unwrap();
            }
        }
    }
}

fn listing(sheet: &[u8], facts: Facts<'_>) -> String {
    let mut out = String::new();
    let counts = facts.analyzed;
    rows(&mut out, "constant", facts.constant.0, counts.constant.pops, |pc, slot| {
        facts.constant.fact_for_slot(pc, slot).unwrap().map(constant)
    });
    rows(&mut out, "index", facts.index.0, counts.index.pops, |pc, slot| {
        facts.index.fact_for_slot(pc, slot).unwrap().map(index)
    });
    rows(&mut out, "container", facts.container.0, counts.container.pops, |pc, slot| {
        facts.container.fact_for_slot(pc, slot).unwrap().map(|fact| container(sheet, fact))
    });
    writeln!(out, "left {} {}", counts.left.bytes, counts.left.work).unwrap();
    out
}

#[test]
fn each_example_has_its_listing() {
    for name in NAMES {
        let sheet = example(&format!("{name}.sheet"));
        let mut buffers = Buffers::for_sheet(&sheet, MOST).unwrap();
        let facts = buffers.analyze(&sheet, Budget::FRESH).unwrap();
        assert_eq!(listing(&sheet, facts).as_bytes(), example(&format!("{name}.facts")), "{name}");
    }
}

#[test]
fn buffers_are_used_again_for_larger_and_smaller_sheets() {
    let mut buffers = Buffers::default();
    for name in NAMES.iter().chain(NAMES.iter().rev()) {
        let sheet = example(&format!("{name}.sheet"));
        buffers.fit(&sheet, MOST).unwrap();
        let facts = buffers.analyze(&sheet, Budget::FRESH).unwrap();
        assert_eq!(listing(&sheet, facts).as_bytes(), example(&format!("{name}.facts")), "{name}");
    }
}
