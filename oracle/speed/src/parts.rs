//! Closure and run of one analysis beside the same of the Rust, on the largest sheets: n 4,096 and L 65,535.
//!
//! A call cannot be stopped where one likes, but refusals 7 and 8 end it at known places. A part of the port is the
//! difference of two calls that end on either side of it, and are lent the same, so that questions 1 to 6 and all
//! clearing fall out:
//!
//! - closure: from the first charge of all, refused by 7, up to 8 behind the closure. The charges of the graphs are in
//!   it, as the Rust's graphs are in the Rust's time.
//! - run: from 8 behind the closure up to the first charge behind the run, refused by 7, or for containers, behind
//!   which there is none, up to the end. (Not up to the end for all: a refused call clears earlier tables once more.)
//!
//! On each sheet one analysis tracks s slots and the others none, so that no other run stands before a closure.

use crate::shapes::{Shape, SHAPES};
use oracle::draft::{line, Draft, Line};
use oracle::Sheet;
use std::hint::black_box;
use std::process::ExitCode;
use std::time::{Duration, Instant};
use vo_facts::{analyze, Analyzed, Budget, Counts, Lent, Output, Refusal, Refused};

const N: usize = 4096;
/// L, and as a slot one that no analysis tracks.
const LOCALS: u16 = 65535;
const TRACKED: [usize; 3] = [1, 64, 1024];
const SHAPES_TIMED: [&str; 2] = ["straight line", "CopyN chains"];
const CONSTANT: usize = 0;
const INDEX: usize = 1;
const CONTAINER: usize = 2;
/// Turns: at least and at most.
const TURNS: (usize, usize) = (5, 201);
const SECONDS: f64 = 0.5;

pub fn main(words: &[String]) -> ExitCode {
    let time = words.first().map_or(Ok(SECONDS), |word| word.parse()).map(Duration::from_secs_f64);
    let Ok(time) = time else {
        eprintln!("speed parts [SECONDS [FILTER]]");
        return ExitCode::FAILURE;
    };
    let filter = words.get(1).map_or("", String::as_str);
    let cases: Vec<Case> = cases().into_iter().filter(|case| case.shape.contains(filter)).collect();
    println!("| closure | shape | s | port µs | Rust µs | port / Rust |");
    println!("| --- | --- | ---: | ---: | ---: | ---: |");
    for case in &cases {
        let Row { port, rust } = closure(case, time);
        let (port, rust, ratio) = (port * 1e6, rust * 1e6, port / rust);
        println!("| {} | {} | {} | {port:.1} | {rust:.1} | {ratio:.2} |", case.analysis(), case.shape, case.s);
    }
    println!();
    println!("| step of the run | shape | s | port ns | Rust ns | port / Rust |");
    println!("| --- | --- | ---: | ---: | ---: | ---: |");
    for case in cases.iter().filter(|case| case.runs) {
        let Row { port, rust } = run(case, time);
        let (port, rust, ratio) = (port * 1e9 / N as f64, rust * 1e9 / N as f64, port / rust);
        println!("| {} | {} | {} | {port:.1} | {rust:.1} | {ratio:.2} |", case.analysis(), case.shape, case.s);
    }
    ExitCode::SUCCESS
}

/// Medians of the differences, in seconds.
struct Row {
    port: f64,
    rust: f64,
}

struct Case {
    shape: &'static str,
    which: usize,
    s: usize,
    /// Whether the matrix of n × s facts is within a fresh budget.
    runs: bool,
    bytes: Vec<u8>,
}

fn cases() -> Vec<Case> {
    let shapes: Vec<&Shape> = SHAPES.iter().filter(|shape| SHAPES_TIMED.contains(&shape.name)).collect();
    let mut cases = Vec::new();
    for which in [CONSTANT, INDEX, CONTAINER] {
        for shape in &shapes {
            for s in TRACKED {
                cases.push(Case { shape: shape.name, which, s, runs: true, bytes: alone(shape.draft(N, s), which) });
            }
        }
        // Almost all registers: the port reads the code once for each slot taken, the Rust only its edges.
        cases.push(long("one CopyN of 65,534", which, 65535, vec![line(4, 1, 0, LOCALS - 1)]));
        let chain = (0..N as u16 - 1).map(|i| (16 * i).min(65518 - 16));
        cases.push(long("chain of CopyN 16", which, 65519, chain.map(|b| line(4, b + 1, b, 16)).collect()));
    }
    cases
}

/// Copies down from slot s − 1, and behind them its use.
fn long(shape: &'static str, which: usize, s: usize, mut lines: Vec<Line>) -> Case {
    let last = s as u16 - 1;
    lines.resize(N - 1, line(0, 0, 0, 0));
    lines.push([line(121, LOCALS, last, 0), line(5, LOCALS, LOCALS, last), line(90, LOCALS, last, 0)][which].clone());
    Case { shape, which, s, runs: false, bytes: alone(Draft::of(LOCALS, lines), which) }
}

/// The sheet on which one analysis alone has seeds: those of the others become a slot from L up. For containers the
/// numbers loaded become maps, for else there were no facts to hand on.
fn alone(mut draft: Draft, which: usize) -> Vec<u8> {
    draft.locals = LOCALS;
    draft.layouts = vec![vec![0, 1]];
    for line in &mut draft.lines {
        match line.op {
            1 if which == CONTAINER => *line = map_new(line.a),
            121 if which != CONSTANT => line.b = LOCALS,
            5 if which != INDEX => line.c = LOCALS,
            90 if which != CONTAINER => line.b = LOCALS,
            _ => {}
        }
    }
    draft.bytes()
}

fn map_new(a: u16) -> Line {
    line(89, a, LOCALS, 0).noted(1, 0, 0)
}

impl Case {
    fn analysis(&self) -> &'static str {
        ["constant", "index", "container"][self.which]
    }

    fn name(&self) -> String {
        format!("{}, {}, s {}", self.analysis(), self.shape, self.s)
    }

    fn load(&self) -> Sheet {
        Sheet::load(&self.bytes).unwrap_or_else(|number| panic!("{}: refused {number}", self.name()))
    }

    /// What both have left behind the closure. Its s is the Rust's; where there is a run, the port answers it too.
    fn checked(&self, sheet: &Sheet) -> Budget {
        let Ok((s, left)) = oracle::until_closed(sheet, oracle::fresh(), self.which) else {
            panic!("{}: the closure is refused", self.name());
        };
        assert_eq!(s, self.s, "{}", self.name());
        let left = Budget { bytes: left.bytes, work: left.work };
        self.check_no_room(Buffers::of(self, 0).analyze(self, N - 1, Budget::FRESH), left);
        if self.runs {
            let answer = Buffers::of(self, self.s).analyze(self, N, Budget::FRESH);
            let analyzed = answer.unwrap_or_else(|refused| panic!("{}: {refused}", self.name()));
            let counts = [analyzed.constant, analyzed.index, analyzed.container];
            // A step is the run's time by n, so each instruction must be taken once.
            let mut wanted = [Counts { tracked: 0, pops: 0 }; 3];
            wanted[self.which] = Counts { tracked: self.s, pops: N as u64 };
            assert_eq!(counts, wanted, "{}", self.name());
        }
        left
    }

    /// Refused by 8, with what the Rust has left.
    fn check_no_room(&self, answer: Result<Analyzed, Refused>, left: Budget) {
        assert_eq!(answer, Err(Refused { refusal: Refusal::NoRoom, left }), "{}", self.name());
    }
}

/// With tables of no length, so that nothing but the closure's own is cleared.
fn closure(case: &Case, time: Duration) -> Row {
    let sheet = case.load();
    let left = case.checked(&sheet);
    let mut buffers = Buffers::of(case, 0);
    let nothing = Budget { bytes: 0, work: 0 };
    turns(time, || {
        let (before, answer) = settled(|| buffers.analyze(case, N - 1, nothing));
        let number = answer.map_err(|refused| refused.refusal.number());
        assert_eq!(number, Err(7), "{}", case.name());
        let (behind, answer) = timed(|| buffers.analyze(case, N - 1, Budget::FRESH));
        case.check_no_room(answer, left);
        let (rust, closed) = settled(|| oracle::until_closed(black_box(&sheet), oracle::fresh(), case.which));
        assert!(closed.is_ok_and(|(s, _)| s == case.s), "{}", case.name());
        (behind - before, rust)
    })
}

/// With room for all of it.
fn run(case: &Case, time: Duration) -> Row {
    let sheet = case.load();
    let left = case.checked(&sheet);
    let mut buffers = Buffers::of(case, case.s);
    let Ok(ended) = oracle::until_ended(&sheet, oracle::fresh(), case.which) else {
        panic!("{}: the Rust is refused", case.name());
    };
    // Behind constants and index the next charge is one for the marks: just enough bytes without it.
    let spent = Budget { bytes: Budget::FRESH.bytes - ended.bytes, ..Budget::FRESH };
    let budget = if case.which == CONTAINER { Budget::FRESH } else { spent };
    turns(time, || {
        let (closed, answer) = settled(|| buffers.analyze(case, N - 1, Budget::FRESH));
        case.check_no_room(answer, left);
        let (whole, answer) = timed(|| buffers.analyze(case, N, budget));
        let end = match answer {
            Ok(analyzed) if case.which == CONTAINER => analyzed.left,
            Err(Refused { refusal: Refusal::OverBudget { stage, requested, remaining: 0 }, left })
                if stage as usize == case.which + 4 && requested == u64::from(LOCALS) =>
            {
                Budget { bytes: ended.bytes + left.bytes, work: left.work }
            }
            _ => panic!("{}: {answer:?}", case.name()),
        };
        assert_eq!((end.bytes, end.work), (ended.bytes, ended.work), "{}", case.name());
        let (rust_closed, answer) = settled(|| oracle::until_closed(black_box(&sheet), oracle::fresh(), case.which));
        assert!(answer.is_ok(), "{}", case.name());
        let (rust_whole, answer) = timed(|| oracle::until_ended(black_box(&sheet), oracle::fresh(), case.which));
        assert!(answer.is_ok(), "{}", case.name());
        (whole - closed, rust_whole - rust_closed)
    })
}

/// In seconds, since a difference of times that vary may be below 0.
fn timed<T>(call: impl FnOnce() -> T) -> (f64, T) {
    let start = Instant::now();
    let answer = black_box(call());
    (start.elapsed().as_secs_f64(), answer)
}

/// The second of two calls, since the first finds the caches as the other side left them.
fn settled<T>(mut call: impl FnMut() -> T) -> (f64, T) {
    black_box(call());
    timed(call)
}

/// Port and Rust take turns, so that what else the machine does falls on both.
fn turns(time: Duration, mut turn: impl FnMut() -> (f64, f64)) -> Row {
    let (mut port, mut rust) = (Vec::new(), Vec::new());
    let begun = Instant::now();
    while rust.len() < TURNS.0 || (rust.len() < TURNS.1 && begun.elapsed() < 2 * time) {
        let (one, other) = turn();
        port.push(one);
        rust.push(other);
    }
    Row { port: median(port), rust: median(rust) }
}

fn median(mut times: Vec<f64>) -> f64 {
    times.sort_by(f64::total_cmp);
    times[times.len() / 2]
}

/// What a call is lent on whose sheet one analysis alone tracks slots. The other two have room for none.
struct Buffers {
    slots: Vec<u16>,
    present: [Vec<u8>; 3],
    kinds: Vec<u8>,
    values: Vec<u64>,
    marks: Vec<u8>,
    stack: Vec<u16>,
    row_kinds: Vec<u8>,
    row_values: Vec<u64>,
    work_list: Vec<u16>,
}

impl Buffers {
    /// Room for all slots of the closure, and for a run with this many.
    fn of(case: &Case, s: usize) -> Buffers {
        Buffers {
            slots: vec![0; case.s],
            present: [(); 3].map(|()| vec![0; N]),
            kinds: vec![0; N * s],
            values: vec![0; N * s],
            marks: vec![0; usize::from(LOCALS)],
            stack: vec![0; usize::from(LOCALS)],
            row_kinds: vec![0; s],
            row_values: vec![0; s],
            work_list: vec![0; if s == 0 { 0 } else { N * (1 + 2 * s) }],
        }
    }

    /// With fewer than N present bytes for the analysis, 8 refuses right behind its closure.
    fn analyze(&mut self, case: &Case, present: usize, budget: Budget) -> Result<Analyzed, Refused> {
        let Buffers { slots, kinds, values, marks, stack, row_kinds, row_values, work_list, .. } = self;
        let [wanted, first, second] = &mut self.present;
        let empty = |present| Output { slots: &mut [], present, kinds: &mut [], values: &mut [] };
        let mut outputs =
            [Output { slots, present: &mut wanted[..present], kinds, values }, empty(first), empty(second)];
        outputs.swap(0, case.which);
        let [constant, index, container] = outputs;
        let lent = Lent { constant, index, container, marks, stack, row_kinds, row_values, work_list };
        analyze(black_box(&case.bytes), budget, lent)
    }
}
