//! The lines of crates/check_corners, answered by the Rust. ../corners.py says how its cases lie in the input.

use crate::sheet::Sheet;
use crate::verifier::{index_writes, successors, writes};

/// The lines of all cases. The Rust has no answer for a length beyond 16 bits, and such a question gets no line.
pub fn corners(mut input: &[u8]) -> String {
    let mut out = String::new();
    while !input.is_empty() {
        let head = part(&mut input, 8);
        let (questions, length) = (u16_at(head, 2), u32::from(u16_at(head, 4)) | u32::from(u16_at(head, 6)) << 16);
        out += &String::from_utf8_lossy(part(&mut input, head[0].into()));
        let bytes = part(&mut input, length as usize);
        let loaded = Sheet::load(bytes);
        out += &match &loaded {
            Ok(_) => format!(": accepted{}\n", sizes(bytes)),
            Err(number) => format!(": refused {number}\n"),
        };
        for _ in 0..questions {
            let Ok(sheet) = &loaded else { unreachable!("a refused sheet is asked") };
            out += &line(sheet, part(&mut input, 16)).unwrap_or_default();
        }
    }
    out
}

fn sizes(sheet: &[u8]) -> String {
    sheet[..40].chunks(4).map(|size| format!(" {}", u32::from_le_bytes(size.try_into().unwrap()))).collect()
}

fn line(sheet: &Sheet, question: &[u8]) -> Option<String> {
    let (pc, slot) = (usize::from(u16_at(question, 2)), u16_at(question, 4));
    let (kind, value) = (question[1], u64::from_le_bytes(question[8..].try_into().unwrap()));
    let yes_or_no = |is_so| if is_so { "yes" } else { "no" };
    Some(match question[0] {
        1 => {
            let next = &successors(sheet)[pc];
            let at = |i| next.get(i).copied().unwrap_or(0);
            format!("successors {pc}: {} {} {}\n", next.len(), at(0), at(1))
        }
        2 => format!("writes {pc} {slot}: {}\n", yes_or_no(writes(sheet, pc, slot))),
        _ => {
            let is_written = index_writes(sheet, pc, (kind, value), slot)?;
            format!("index writes {pc} {kind} {value} {slot}: {}\n", yes_or_no(is_written))
        }
    })
}

/// The next bytes of the input, which is one that corners.py wrote.
fn part<'a>(input: &mut &'a [u8], length: usize) -> &'a [u8] {
    let (part, rest) = input.split_at(length);
    *input = rest;
    part
}

fn u16_at(bytes: &[u8], at: usize) -> u16 {
    u16::from_le_bytes([bytes[at], bytes[at + 1]])
}
