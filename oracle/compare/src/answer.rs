//! Answers as values, and their bytes after document 01, "Answer forms": kinds 16 to 19 and 21 to 23.

use crate::book::Fields;

/// An uncertainty out: tag, two numbers, text.
#[derive(Debug, Clone, Copy, PartialEq, Eq)]
pub struct Doubt {
    pub tag: u8,
    pub first: i64,
    pub second: i64,
    pub text: u16,
}

#[derive(Debug, Clone, Copy, PartialEq, Eq)]
pub struct Boundary {
    pub at: i64,
    pub doubt: Doubt,
}

/// Kind 16, its events not among its fields: they follow it as records of their own.
#[derive(Debug, Clone, Copy, PartialEq, Eq)]
pub struct Phase {
    pub start: i64,
    pub end: i64,
    pub phase: u8,
    pub code: u8,
    pub label: u16,
    pub evidence: u16,
    pub derived: u16,
    pub from: Boundary,
    pub to: Boundary,
    pub whole: Doubt,
    pub events: u32,
}

pub type Coverage = Option<(i64, i64)>;

#[derive(Debug, Clone, Copy, PartialEq, Eq)]
pub enum Answer {
    Phase(Phase),
    Unknown {
        start: i64,
        end: i64,
        coverage: Coverage,
    },
    Event {
        code: u16,
        at: i64,
        doubt: Doubt,
        evidence: u16,
    },
    Missing {
        at: i64,
        coverage: Coverage,
    },
    Mark {
        row: u16,
    },
    Day {
        start: i64,
        end: i64,
        totals: [u64; 10],
    },
    Tally {
        start: i64,
        end: i64,
        totals: [u64; 10],
    },
}

impl Answer {
    pub fn kind(&self) -> u16 {
        match self {
            Self::Phase(_) => 16,
            Self::Unknown { .. } => 17,
            Self::Event { .. } => 18,
            Self::Missing { .. } => 19,
            Self::Mark { .. } => 21,
            Self::Day { .. } => 22,
            Self::Tally { .. } => 23,
        }
    }
}

fn put_doubt(d: &Doubt, out: &mut Vec<u8>) {
    out.push(d.tag);
    out.extend(d.first.to_le_bytes());
    out.extend(d.second.to_le_bytes());
    out.extend(d.text.to_le_bytes());
}

fn put_boundary(b: &Boundary, out: &mut Vec<u8>) {
    out.extend(b.at.to_le_bytes());
    put_doubt(&b.doubt, out);
}

fn put_coverage(coverage: &Coverage, out: &mut Vec<u8>) {
    let (start, end) = coverage.unwrap_or((0, 0));
    out.push(u8::from(coverage.is_some()));
    out.extend(start.to_le_bytes());
    out.extend(end.to_le_bytes());
}

fn put(answer: &Answer, out: &mut Vec<u8>) {
    let mut body = Vec::with_capacity(103);
    match answer {
        Answer::Phase(p) => {
            body.extend(p.start.to_le_bytes());
            body.extend(p.end.to_le_bytes());
            body.extend([p.phase, p.code]);
            for number in [p.label, p.evidence, p.derived] {
                body.extend(number.to_le_bytes());
            }
            put_boundary(&p.from, &mut body);
            put_boundary(&p.to, &mut body);
            put_doubt(&p.whole, &mut body);
            body.extend(p.events.to_le_bytes());
        }
        Answer::Unknown {
            start,
            end,
            coverage,
        } => {
            body.extend(start.to_le_bytes());
            body.extend(end.to_le_bytes());
            put_coverage(coverage, &mut body);
        }
        Answer::Event {
            code,
            at,
            doubt,
            evidence,
        } => {
            body.extend(code.to_le_bytes());
            body.extend(at.to_le_bytes());
            put_doubt(doubt, &mut body);
            body.extend(evidence.to_le_bytes());
        }
        Answer::Missing { at, coverage } => {
            body.extend(at.to_le_bytes());
            put_coverage(coverage, &mut body);
        }
        Answer::Mark { row } => body.extend(row.to_le_bytes()),
        Answer::Day { start, end, totals } | Answer::Tally { start, end, totals } => {
            body.extend(start.to_le_bytes());
            body.extend(end.to_le_bytes());
            for total in totals {
                body.extend(total.to_le_bytes());
            }
        }
    }
    out.extend((body.len() as u16 + 2).to_le_bytes());
    out.extend(answer.kind().to_le_bytes());
    out.extend(body);
}

pub fn encode(answers: &[Answer]) -> Vec<u8> {
    let mut out = Vec::new();
    for answer in answers {
        put(answer, &mut out);
    }
    out
}

fn doubt(fields: &mut Fields) -> Doubt {
    Doubt {
        tag: fields.u8(),
        first: fields.i64(),
        second: fields.i64(),
        text: fields.u16(),
    }
}

fn boundary(fields: &mut Fields) -> Boundary {
    Boundary {
        at: fields.i64(),
        doubt: doubt(fields),
    }
}

fn coverage(fields: &mut Fields) -> Coverage {
    let (present, start, end) = (fields.u8(), fields.i64(), fields.i64());
    (present != 0).then_some((start, end))
}

fn totals(fields: &mut Fields) -> [u64; 10] {
    std::array::from_fn(|_| fields.u64())
}

fn get(kind: u16, body: &[u8]) -> Option<Answer> {
    let length = match kind {
        16 => 101,
        17 => 33,
        18 => 31,
        19 => 25,
        21 => 2,
        22 | 23 => 96,
        _ => return None,
    };
    if body.len() != length {
        return None;
    }
    let mut f = Fields(body);
    let f = &mut f;
    Some(match kind {
        16 => Answer::Phase(Phase {
            start: f.i64(),
            end: f.i64(),
            phase: f.u8(),
            code: f.u8(),
            label: f.u16(),
            evidence: f.u16(),
            derived: f.u16(),
            from: boundary(f),
            to: boundary(f),
            whole: doubt(f),
            events: f.i32() as u32,
        }),
        17 => Answer::Unknown {
            start: f.i64(),
            end: f.i64(),
            coverage: coverage(f),
        },
        18 => Answer::Event {
            code: f.u16(),
            at: f.i64(),
            doubt: doubt(f),
            evidence: f.u16(),
        },
        19 => Answer::Missing {
            at: f.i64(),
            coverage: coverage(f),
        },
        21 => Answer::Mark { row: f.u16() },
        22 => Answer::Day {
            start: f.i64(),
            end: f.i64(),
            totals: totals(f),
        },
        _ => Answer::Tally {
            start: f.i64(),
            end: f.i64(),
            totals: totals(f),
        },
    })
}

/// The answers that the bytes hold; none where they are not whole records of these kinds.
pub fn decode(bytes: &[u8]) -> Option<Vec<Answer>> {
    let mut rest = bytes;
    let mut answers = Vec::new();
    while !rest.is_empty() {
        if rest.len() < 4 {
            return None;
        }
        let mut fields = Fields(rest);
        let (length, kind) = (usize::from(fields.u16()), fields.u16());
        if length < 2 || rest.len() < length + 2 {
            return None;
        }
        answers.push(get(kind, &rest[4..length + 2])?);
        rest = &rest[length + 2..];
    }
    Some(answers)
}
