//! Sheets of n instructions on which each of the three analyses tracks s slots, in six shapes.

use oracle::draft::{imm, line, Draft, Line};

pub struct Shape {
    pub name: &'static str,
    body: fn(n: usize, s: usize) -> Vec<Line>,
    layouts: fn() -> Vec<Vec<u8>>,
}

pub const SHAPES: [Shape; 6] = [
    Shape { name: "straight line", body: straight, layouts: Vec::new },
    Shape { name: "branches", body: branches, layouts: Vec::new },
    Shape { name: "nested loops", body: loops, layouts: Vec::new },
    Shape { name: "CopyN chains", body: copies, layouts: Vec::new },
    Shape { name: "many write ranges", body: ranges, layouts: Vec::new },
    Shape { name: "long layouts", body: containers, layouts: long_layouts },
];

/// Instructions behind the body.
const TAIL: usize = 5;
/// A register that no closure tracks, since it is not below L.
const NOWHERE: u16 = 60000;

impl Shape {
    pub fn sheet(&self, n: usize, s: usize) -> Vec<u8> {
        self.draft(n, s).bytes()
    }

    /// The body tracks nothing new: the tail's three uses of slot s − 1 and its CopyN, which shifts the slots by one,
    /// make every closure take all slots below s.
    pub fn draft(&self, n: usize, s: usize) -> Draft {
        let (last, beyond) = (s as u16 - 1, s as u16);
        let mut lines = (self.body)(n - TAIL, s);
        lines.truncate(n - TAIL);
        lines.resize(n - TAIL, line(0, 0, 0, 0));
        lines.extend([
            line(4, 1, 0, last),
            line(121, 0, last, 0),
            line(5, beyond, beyond, last),
            line(90, beyond, last, 0),
            line(64, 0, 0, 0),
        ]);
        Draft { layouts: (self.layouts)(), ..Draft::of(beyond + 2, lines) }
    }
}

fn slot(i: usize, s: usize) -> u16 {
    (i % s) as u16
}

/// Loads, a copy now and then, an index check now and then.
fn straight(n: usize, s: usize) -> Vec<Line> {
    let each = |i: usize| match i % 8 {
        3 => line(3, slot(i, s), slot(i + 1, s), 0),
        7 => line(121, slot(i, s), slot(i + 3, s), 0),
        _ => imm(1, slot(i, s), i as i32),
    };
    (0..n).map(each).collect()
}

/// Two ways that meet again, one behind the other. On every 16th they bring different numbers.
fn branches(n: usize, s: usize) -> Vec<Line> {
    let two_ways = |i: usize| {
        let other = if i % 16 == 0 { 1 } else { 0 };
        [imm(58, NOWHERE, 3), imm(1, slot(i, s), 7), imm(57, 0, 2), imm(1, slot(i, s), 7 + other)]
    };
    (0..n / 4).flat_map(two_ways).collect()
}

/// Three loops deep. An inner loop hands seven registers on, one each time round, behind loads of the same number into
/// all of them: so each time round one register more is seen to differ.
fn loops(n: usize, s: usize) -> Vec<Line> {
    let mut lines: Vec<Line> = Vec::new();
    let back = |lines: &[Line], start: usize| line(124, NOWHERE, 0, (start as i64 - lines.len() as i64 - 1) as u16);
    while lines.len() < n {
        let outer = lines.len();
        for _ in 0..4 {
            let middle = lines.len();
            for _ in 0..4 {
                lines.extend((0..7).map(|i| imm(1, slot(i, s), 7)));
                let inner = lines.len();
                lines.extend((0..6).rev().map(|i| line(3, slot(i + 1, s), slot(i, s), 0)));
                lines.push(imm(1, 0, 9));
                lines.push(back(&lines, inner));
            }
            lines.push(back(&lines, middle));
        }
        lines.push(back(&lines, outer));
    }
    lines
}

/// CopyN of all slots, each closure's edges being n for each slot.
fn copies(n: usize, s: usize) -> Vec<Line> {
    let each = |i: usize| match i % 4 {
        0 => imm(1, 0, i as i32),
        _ => line(4, 1, 0, s as u16 - 1),
    };
    (0..n).map(each).collect()
}

/// As many ranges as the limit of 16,384 and a call's arguments would make: most lie beyond what is tracked.
fn ranges(n: usize, s: usize) -> Vec<Line> {
    let many = (16384 / (n + TAIL) - 1).min(64);
    let each = |i: usize| {
        let beyond = (0..many as u16 - 1).map(|range| (1000 + 3 * range, 2));
        let all: Vec<(u16, u32)> = beyond.chain([(slot(i, s), 1)]).collect();
        imm(1, slot(i, s), i as i32).writing(&all)
    };
    (0..n).map(each).collect()
}

/// Two maps that are equal by content alone, made on two ways that meet.
fn containers(n: usize, s: usize) -> Vec<Line> {
    let two_ways = |i: usize| {
        let made = |layout: u16| line(89, slot(i, s), NOWHERE, 0).noted(1, layout, 3);
        [imm(58, NOWHERE, 3), made(0), imm(57, 0, 2), made(if i % 16 == 0 { 2 } else { 1 })]
    };
    (0..n / 4).flat_map(two_ways).collect()
}

/// 0 and 1 are equal, 2 differs from them in its last slot.
fn long_layouts() -> Vec<Vec<u8>> {
    let long: Vec<u8> = (0..4000).map(|i| (i % 6) as u8).collect();
    let mut other = long.clone();
    other[3999] ^= 1;
    vec![long.clone(), long, other, vec![1; 4000]]
}
