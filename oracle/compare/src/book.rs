//! A book as values, and its bytes after document 01, "Book".

use crate::judge::DAYS;

/// What a rule or an event has published: tag, nanoseconds, text.
#[derive(Debug, Clone, Copy, PartialEq, Eq)]
pub struct Published {
    pub tag: u8,
    pub nanos: i64,
    pub text: u16,
}

impl Published {
    pub const EXACT: Self = Self::tagged(0);

    pub const fn tagged(tag: u8) -> Self {
        Self {
            tag,
            nanos: 0,
            text: 0,
        }
    }
}

#[derive(Debug, Clone, PartialEq, Eq)]
pub struct Rule {
    pub first: i32,
    pub last: i32,
    pub code: u8,
    pub mask: u8,
    pub label: u16,
    pub evidence: u16,
    pub derived: u16,
    pub published: Published,
    /// Nanoseconds of the day, and the phase from there on.
    pub points: Vec<(u64, u8)>,
}

impl Rule {
    /// A weekly rule, exact, for all days that a book may name.
    pub fn weekly(evidence: u16, mask: u8, points: Vec<(u64, u8)>) -> Self {
        Self {
            first: DAYS[0],
            last: DAYS[1],
            code: 0,
            mask,
            label: 0,
            evidence,
            derived: 0,
            published: Published::EXACT,
            points,
        }
    }
}

#[derive(Debug, Clone, PartialEq, Eq)]
pub struct Event {
    pub first: i32,
    pub last: i32,
    pub code: u16,
    pub evidence: u16,
    pub published: Published,
    pub times: Vec<u64>,
}

/// Kinds 1 to 4. The fields are as wide as the book's, so that a book may be wrong.
#[derive(Debug, Clone, PartialEq, Eq)]
pub enum Record {
    Head { start: i64, end: i64, offset: i32 },
    Change { at: i64, offset: i32 },
    Rule(Rule),
    Event(Event),
}

fn published(p: &Published, out: &mut Vec<u8>) {
    out.push(p.tag);
    out.extend(p.nanos.to_le_bytes());
    out.extend(p.text.to_le_bytes());
}

/// A record's bytes, its length and kind before them.
pub fn encode_record(record: &Record) -> Vec<u8> {
    let mut body = Vec::new();
    let kind: u16 = match record {
        Record::Head { start, end, offset } => {
            body.extend(start.to_le_bytes());
            body.extend(end.to_le_bytes());
            body.extend(offset.to_le_bytes());
            1
        }
        Record::Change { at, offset } => {
            body.extend(at.to_le_bytes());
            body.extend(offset.to_le_bytes());
            2
        }
        Record::Rule(rule) => {
            body.extend(rule.first.to_le_bytes());
            body.extend(rule.last.to_le_bytes());
            body.extend([rule.code, rule.mask]);
            body.extend(rule.label.to_le_bytes());
            body.extend(rule.evidence.to_le_bytes());
            body.extend(rule.derived.to_le_bytes());
            published(&rule.published, &mut body);
            body.push(rule.points.len() as u8);
            for (time, phase) in &rule.points {
                body.extend(time.to_le_bytes());
                body.push(*phase);
            }
            3
        }
        Record::Event(event) => {
            body.extend(event.first.to_le_bytes());
            body.extend(event.last.to_le_bytes());
            body.extend(event.code.to_le_bytes());
            body.extend(event.evidence.to_le_bytes());
            published(&event.published, &mut body);
            body.push(event.times.len() as u8);
            for time in &event.times {
                body.extend(time.to_le_bytes());
            }
            4
        }
    };
    let mut out = Vec::with_capacity(body.len() + 4);
    out.extend((body.len() as u16 + 2).to_le_bytes());
    out.extend(kind.to_le_bytes());
    out.extend(body);
    out
}

pub fn encode(records: &[Record]) -> Vec<u8> {
    records.iter().flat_map(encode_record).collect()
}

/// Reads little-endian fields one after the other.
pub struct Fields<'a>(pub &'a [u8]);

impl Fields<'_> {
    fn take<const N: usize>(&mut self) -> [u8; N] {
        let (head, rest) = self.0.split_at(N);
        self.0 = rest;
        head.try_into().expect("N bytes")
    }
    pub fn u8(&mut self) -> u8 {
        self.take::<1>()[0]
    }
    pub fn u16(&mut self) -> u16 {
        u16::from_le_bytes(self.take())
    }
    pub fn i32(&mut self) -> i32 {
        i32::from_le_bytes(self.take())
    }
    pub fn i64(&mut self) -> i64 {
        i64::from_le_bytes(self.take())
    }
    pub fn u64(&mut self) -> u64 {
        u64::from_le_bytes(self.take())
    }
    fn published(&mut self) -> Published {
        Published {
            tag: self.u8(),
            nanos: self.i64(),
            text: self.u16(),
        }
    }
}

/// The values of a book that `judge` accepts.
pub fn decode(book: &[u8]) -> Vec<Record> {
    let mut fields = Fields(book);
    let mut records = Vec::new();
    while !fields.0.is_empty() {
        let (_length, kind) = (fields.u16(), fields.u16());
        records.push(match kind {
            1 => Record::Head {
                start: fields.i64(),
                end: fields.i64(),
                offset: fields.i32(),
            },
            2 => Record::Change {
                at: fields.i64(),
                offset: fields.i32(),
            },
            3 => Record::Rule(Rule {
                first: fields.i32(),
                last: fields.i32(),
                code: fields.u8(),
                mask: fields.u8(),
                label: fields.u16(),
                evidence: fields.u16(),
                derived: fields.u16(),
                published: fields.published(),
                points: (0..fields.u8())
                    .map(|_| (fields.u64(), fields.u8()))
                    .collect(),
            }),
            4 => Record::Event(Event {
                first: fields.i32(),
                last: fields.i32(),
                code: fields.u16(),
                evidence: fields.u16(),
                published: fields.published(),
                times: (0..fields.u8()).map(|_| fields.u64()).collect(),
            }),
            _ => unreachable!("an accepted book has kinds 1 to 4"),
        });
    }
    records
}
