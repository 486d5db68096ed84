//! The recorded sheets of crates/check_replay and the lines that it must print: README.md says how they lie in the file,
//! what each call of one is lent, and what goes into the checksum.

use crate::answer::{answer, Answer, Budget};
use crate::expect::{expected, needed, Expected, Left, Lengths, Numbers, Sizes, BUFFERS, MARKS};

/// The bytes before the sheet.
const HEAD: usize = 20 + 4 * BUFFERS;

/// How many bytes an element of each buffer has.
const WIDTHS: [u32; BUFFERS] = [2, 1, 1, 8, 2, 1, 1, 8, 2, 1, 1, 8, 1, 2, 1, 8, 2];

/// Two polynomials over all numbers so far, modulo two primes.
pub struct Checksum {
    lanes: [u64; 2],
}

const FACTORS: [u64; 2] = [1_103_515_245, 1_812_433_253];
const PRIMES: [u64; 2] = [4_294_967_291, 4_294_967_279];

impl Checksum {
    pub fn start() -> Checksum {
        Checksum { lanes: [1, 1] }
    }

    fn number(&mut self, x: u64) {
        for ((lane, factor), prime) in self.lanes.iter_mut().zip(FACTORS).zip(PRIMES) {
            *lane = (*lane * factor + x % prime) % prime;
        }
    }

    /// The length, and every element.
    pub fn buffer(&mut self, elements: &[u64]) {
        self.number(elements.len() as u64);
        elements.iter().for_each(|x| self.number(*x));
    }

    pub fn value(&self) -> u64 {
        self.lanes[0] | self.lanes[1] << 32
    }
}

/// A sheet and a budget, and how long the buffers must be.
pub struct RecordedSheet {
    pub sheet: Vec<u8>,
    pub budget: Budget,
    needed: Lengths,
    rust: Answer,
}

impl RecordedSheet {
    pub fn of(sheet: &[u8], budget: Budget) -> RecordedSheet {
        let rust = answer(sheet, budget);
        RecordedSheet { sheet: sheet.to_vec(), budget, needed: needed(&rust, Sizes::of(sheet, &rust)), rust }
    }

    /// The next one of the input; none where it is cut short.
    pub fn next(input: &mut &[u8]) -> Option<RecordedSheet> {
        let (head, rest) = input.split_at_checked(HEAD)?;
        let u32_at = |at: usize| u32::from_le_bytes(head[at..at + 4].try_into().unwrap()) as usize;
        let u64_at = |at: usize| u64::from_le_bytes(head[at..at + 8].try_into().unwrap());
        let (sheet, rest) = rest.split_at_checked(u32_at(0))?;
        *input = rest;
        let budget = Budget { bytes: u64_at(4), work: u64_at(12) };
        Some(RecordedSheet {
            needed: std::array::from_fn(|which| u32_at(20 + 4 * which)),
            ..RecordedSheet::of(sheet, budget)
        })
    }

    pub fn bytes(&self) -> Vec<u8> {
        let mut out = (self.sheet.len() as u32).to_le_bytes().to_vec();
        out.extend(self.budget.bytes.to_le_bytes());
        out.extend(self.budget.work.to_le_bytes());
        out.extend(self.needed.iter().flat_map(|length| (*length as u32).to_le_bytes()));
        out.extend(&self.sheet);
        out
    }

    /// What each call is lent: what is needed; each buffer longer by another number; and each one in turn short by one,
    /// or longer by one where nothing is needed.
    fn lengths(&self) -> Vec<Lengths> {
        let needed = self.needed;
        let longer = std::array::from_fn(|which| needed[which] + which + 1);
        let short = (0..BUFFERS).map(|which| {
            let mut lengths = needed;
            lengths[which] = needed[which].checked_sub(1).unwrap_or(1);
            lengths
        });
        [needed, longer].into_iter().chain(short).collect()
    }

    /// The lengths of each call, and what it must answer and leave.
    pub fn calls(&self) -> Vec<(Lengths, Expected<'_>)> {
        let sizes = Sizes::of(&self.sheet, &self.rust);
        let must = |lengths| (lengths, expected(&self.rust, sizes, self.budget, &lengths));
        self.lengths().into_iter().map(must).collect()
    }

    /// The numbers of the first answer, and the checksum over the answers and all that is lent, call by call.
    pub fn line(&self) -> String {
        let calls = self.calls();
        let mut checksum = Checksum::start();
        for (lengths, must) in &calls {
            checksum.buffer(&must.answer);
            (0..BUFFERS).for_each(|which| checksum.buffer(&held(&must.left, which, lengths[which])));
        }
        line(&calls[0].1.answer, &checksum)
    }
}

pub fn line(numbers: &Numbers, checksum: &Checksum) -> String {
    let numbers: String = numbers.iter().map(|number| format!(" {number}")).collect();
    format!("answer{numbers} checksum {}\n", checksum.value())
}

/// What lies at a place of a buffer before a call: a byte from 1 to 128, by the place, as often as an element has bytes.
pub fn before(which: usize, at: usize) -> u64 {
    (0..WIDTHS[which]).fold(0, |element, _| element << 8 | (at as u64 % 128 + 1))
}

/// All that a buffer of this length must hold after a call.
pub fn held(left: &Left<'_>, which: usize, length: usize) -> Vec<u64> {
    let mut held = match left {
        Left::Kept => return (0..length).map(|at| before(which, at)).collect(),
        Left::Tables(tables) if which < MARKS => tables[which / 4].part(which % 4),
        Left::Zero | Left::Tables(_) => Vec::new(),
    };
    held.resize(length, 0);
    held
}

/// The lines of all of them; none where the input is cut short.
pub fn replay(mut input: &[u8]) -> Option<String> {
    let mut out = String::new();
    while !input.is_empty() {
        out += &RecordedSheet::next(&mut input)?.line();
    }
    Some(out)
}
