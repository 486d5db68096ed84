//! A sheet under construction, written out by document 01's section "The sheet".

#[derive(Clone, Default)]
pub struct Line {
    pub op: u8,
    pub flags: u8,
    pub a: u16,
    pub b: u16,
    pub c: u16,
    /// Kind, layout A, layout B.
    pub note: (u8, u16, u16),
    pub writes: Writes,
}

#[derive(Clone)]
pub enum Writes {
    Erred,
    Ranges(Vec<(u16, u32)>),
}

impl Default for Writes {
    fn default() -> Self {
        Writes::Ranges(Vec::new())
    }
}

/// Width, kind, layout A, layout B.
pub type Param = (u16, u8, u16, u16);

#[derive(Clone, Default)]
pub struct Draft {
    pub lines: Vec<Line>,
    /// Kind, value.
    pub constants: Vec<(u8, i64)>,
    pub params: Vec<Param>,
    pub layouts: Vec<Vec<u8>>,
    pub locals: u16,
    pub param_slots: u16,
    pub receiver: u16,
    pub closure: bool,
}

/// An instruction that writes what its opcode would write.
pub fn line(op: u8, a: u16, b: u16, c: u16) -> Line {
    let ranges = match op {
        1 | 2 | 3 | 5 | 13 | 49 | 53 | 77 | 81 | 87 | 89 | 90 | 93 | 96 | 98 | 100 | 101 | 124 => vec![(a, 1)],
        4 => vec![(a, u32::from(c))],
        94 => vec![(a, 7)],
        95 => vec![(a, 1), (b, 7)],
        _ => Vec::new(),
    };
    Line { op, a, b, c, writes: Writes::Ranges(ranges), ..Line::default() }
}

/// b and c of an instruction whose imm32 this is.
pub fn imm(op: u8, a: u16, value: i32) -> Line {
    line(op, a, value as u16, (value >> 16) as u16)
}

impl Line {
    pub fn noted(self, kind: u8, a: u16, b: u16) -> Line {
        Line { note: (kind, a, b), ..self }
    }

    pub fn writing(self, ranges: &[(u16, u32)]) -> Line {
        Line { writes: Writes::Ranges(ranges.to_vec()), ..self }
    }

    pub fn erring(self) -> Line {
        Line { writes: Writes::Erred, ..self }
    }

    pub fn flagged(self, flags: u8) -> Line {
        Line { flags, ..self }
    }

    fn count(&self) -> u16 {
        match &self.writes {
            Writes::Erred => 65535,
            Writes::Ranges(ranges) => ranges.len() as u16,
        }
    }

    fn ranges(&self) -> &[(u16, u32)] {
        match &self.writes {
            Writes::Erred => &[],
            Writes::Ranges(ranges) => ranges,
        }
    }
}

impl Draft {
    pub fn of(locals: u16, lines: Vec<Line>) -> Draft {
        Draft { lines, locals, ..Draft::default() }
    }

    pub fn sizes(&self) -> [u32; 10] {
        let ranges: usize = self.lines.iter().map(|line| line.ranges().len()).sum();
        let kinds: usize = self.layouts.iter().map(Vec::len).sum();
        let counts = [self.lines.len(), ranges, self.constants.len(), self.params.len(), self.layouts.len(), kinds];
        let [n, w, k, p, y, q] = counts.map(|count| count as u32);
        let slots = [self.locals, self.param_slots, self.receiver].map(u32::from);
        [n, w, k, p, y, q, slots[0], slots[1], slots[2], u32::from(self.closure)]
    }

    pub fn bytes(&self) -> Vec<u8> {
        let Draft { lines, constants, params, layouts, .. } = self;
        let mut out: Vec<u8> = self.sizes().iter().flat_map(|size| size.to_le_bytes()).collect();
        for line in lines {
            out.extend([line.op, line.flags]);
            out.extend([line.a, line.b, line.c].iter().flat_map(|field| field.to_le_bytes()));
        }
        out.extend(lines.iter().map(|line| line.note.0));
        out.extend(lines.iter().flat_map(|line| line.note.1.to_le_bytes()));
        out.extend(lines.iter().flat_map(|line| line.note.2.to_le_bytes()));
        out.extend(lines.iter().flat_map(|line| line.count().to_le_bytes()));
        out.extend(lines.iter().flat_map(Line::ranges).flat_map(|range| range.0.to_le_bytes()));
        out.extend(lines.iter().flat_map(Line::ranges).flat_map(|range| range.1.to_le_bytes()));
        out.extend(constants.iter().map(|constant| constant.0));
        out.extend(constants.iter().flat_map(|constant| constant.1.to_le_bytes()));
        out.extend(params.iter().flat_map(|param| param.0.to_le_bytes()));
        out.extend(params.iter().map(|param| param.1));
        out.extend(params.iter().flat_map(|param| param.2.to_le_bytes()));
        out.extend(params.iter().flat_map(|param| param.3.to_le_bytes()));
        out.extend(layouts.iter().flat_map(|layout| (layout.len() as u16).to_le_bytes()));
        out.extend(layouts.iter().flatten());
        out
    }

    /// Where the write counts begin.
    pub fn write_counts_at(&self) -> usize {
        40 + 13 * self.lines.len()
    }

    /// Where the layout lengths begin.
    pub fn layout_lengths_at(&self) -> usize {
        let [n, w, k, p, ..] = self.sizes().map(|size| size as usize);
        40 + 15 * n + 6 * w + 9 * k + 7 * p
    }
}
