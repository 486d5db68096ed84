//! The commands; README.md says what each reads and writes.

use oracle::inputs::{fixed, recorded, short, worked, wrong_case, Request};
use oracle::replay::{replay, RecordedSheet};
use oracle::{answer, corners, generate::generated, generate::large, listing, record, request, sizes, Budget};
use std::io::{self, BufReader, BufWriter, Read, Write};
use std::process::ExitCode;

const USAGE: &str = "oracle facts | full BYTES WORK | batch | records | corners | lengths | replay | sizes | cases
       | worked | inputs (recorded | fixed | short STEP | generated SEED FIRST COUNT | large SEED COUNT)";

/// Successor record, dependency, constant fact, index fact, container fact, mark, work slot.
const UNITS: [usize; 7] = [24, 4, 32, 4, 40, 1, 2];

fn main() -> ExitCode {
    let words: Vec<String> = std::env::args().skip(1).collect();
    let words: Vec<&str> = words.iter().map(String::as_str).collect();
    match run(&words) {
        Ok(true) => ExitCode::SUCCESS,
        Ok(false) => ExitCode::FAILURE,
        Err(error) => {
            eprintln!("{error}");
            ExitCode::FAILURE
        }
    }
}

fn run(words: &[&str]) -> io::Result<bool> {
    match words {
        ["facts"] => print!("{}", listing(&input_bytes()?)),
        ["full", bytes, work] => {
            let budget = Budget { bytes: number(bytes)?, work: number(work)? };
            print!("{}", answer(&input_bytes()?, budget).text());
        }
        ["batch"] => answer_all(|sheet, budget| {
            let text = listing(sheet);
            let mut out = record(sheet, budget);
            out.extend((text.len() as u32).to_le_bytes());
            out.extend(text.as_bytes());
            out
        })?,
        ["records"] => answer_all(record)?,
        ["lengths"] => answer_all(|sheet, budget| RecordedSheet::of(sheet, budget).bytes())?,
        ["replay"] => print!("{}", replay(&input_bytes()?).ok_or(io::Error::other("a recorded sheet is cut short"))?),
        ["worked"] => io::stdout().write_all(&worked().bytes())?,
        ["corners"] => print!("{}", corners(&input_bytes()?)),
        ["sizes"] => return Ok(sizes_agree()),
        ["cases"] => return Ok(cases_agree()),
        ["inputs", list @ ..] => return inputs(list),
        _ => return Err(io::Error::other(USAGE)),
    }
    Ok(true)
}

fn inputs(list: &[&str]) -> io::Result<bool> {
    match list {
        ["recorded"] => write_requests(recorded())?,
        ["fixed"] => write_requests(fixed().into_iter())?,
        ["short", step] => write_requests(short(number(step)? as usize))?,
        ["generated", seed, first, count] => {
            let (seed, first, count) = (number(seed)?, number(first)?, number(count)?);
            write_requests((first..first + count).map(|i| generated(seed, i)))?;
        }
        ["large", seed, count] => {
            let seed = number(seed)?;
            write_requests((0..number(count)?).map(|i| (large(seed, i), oracle::fresh())))?;
        }
        _ => return Err(io::Error::other(USAGE)),
    }
    Ok(true)
}

fn number(word: &str) -> io::Result<u64> {
    word.parse().map_err(|_| io::Error::other(USAGE))
}

fn input_bytes() -> io::Result<Vec<u8>> {
    let mut bytes = Vec::new();
    io::stdin().lock().read_to_end(&mut bytes)?;
    Ok(bytes)
}

fn write_requests(requests: impl Iterator<Item = Request>) -> io::Result<()> {
    let mut output = BufWriter::new(io::stdout().lock());
    for (sheet, budget) in requests {
        output.write_all(&request(&sheet, budget))?;
    }
    output.flush()
}

/// Reads requests to the end of the input and writes what `answered` makes of each.
fn answer_all(answered: impl Fn(&[u8], Budget) -> Vec<u8>) -> io::Result<()> {
    let mut input = BufReader::new(io::stdin().lock());
    let mut output = BufWriter::new(io::stdout().lock());
    while let Some((sheet, budget)) = next_request(&mut input)? {
        output.write_all(&answered(&sheet, budget))?;
    }
    output.flush()
}

/// None at the end of the input; an error where a request is cut short.
fn next_request(input: &mut impl Read) -> io::Result<Option<Request>> {
    let mut length = [0; 4];
    if input.read(&mut length[..1])? == 0 {
        return Ok(None);
    }
    input.read_exact(&mut length[1..])?;
    let mut sheet = vec![0; u32::from_le_bytes(length) as usize];
    input.read_exact(&mut sheet)?;
    let mut amounts = [[0; 8]; 2];
    input.read_exact(amounts.as_flattened_mut())?;
    let [bytes, work] = amounts.map(u64::from_le_bytes);
    Ok(Some((sheet, Budget { bytes, work })))
}

fn sizes_agree() -> bool {
    let [own, charged] = sizes();
    println!("{own:?}");
    own == UNITS && charged == UNITS
}

fn cases_agree() -> bool {
    match wrong_case() {
        None => true,
        Some(name) => {
            eprintln!("the oracle does not show: {name}");
            false
        }
    }
}
