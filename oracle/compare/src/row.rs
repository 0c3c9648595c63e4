//! Document 01's number 15 for the bytes of a row and of marked rows, written from the document, and what good ones hold.

use crate::book::Fields;

/// A segment of a row: a phase, or unknown.
#[derive(Debug, Clone, Copy, PartialEq, Eq)]
pub struct Segment {
    pub start: i64,
    pub end: i64,
    pub phase: Option<u8>,
}

pub type Row = Vec<Segment>;

/// A record's kind and body.
type Record<'a> = (u16, &'a [u8]);

/// Kind and body of the first record, if it is of one of the four kinds, has that kind's length and is not cut short.
fn frame(rest: &[u8]) -> Option<Record<'_>> {
    let mut head = Fields(rest.get(..4)?);
    let (length, kind) = (usize::from(head.u16()), head.u16());
    let right = match kind {
        16 => 103,
        17 => 35,
        18 => 33,
        21 => 4,
        _ => return None,
    };
    let body = rest.get(4..right + 2)?;
    (length == right).then_some((kind, body))
}

fn records(bytes: &[u8]) -> Option<Vec<Record<'_>>> {
    let mut rest = bytes;
    let mut found = Vec::new();
    while !rest.is_empty() {
        let record = frame(rest)?;
        rest = &rest[4 + record.1.len()..];
        found.push(record);
    }
    Some(found)
}

/// The tag that an uncertainty begins with.
fn good_tag(tag: u8) -> bool {
    tag <= 5
}

fn good_phase(body: &[u8]) -> bool {
    let tags = [body[32], body[59], body[78]];
    body[16] <= 7 && body[17] <= 3 && tags.iter().all(|tag| good_tag(*tag))
}

/// The segments of one row's records.
fn segments(records: &[Record]) -> Option<Row> {
    let mut row: Row = Vec::new();
    let mut rest = records;
    while let Some((&(kind, body), behind)) = rest.split_first() {
        let good = match kind {
            16 => good_phase(body),
            17 => body[16] <= 1,
            // A mark, or an event behind no phase that counts it.
            _ => false,
        };
        if !good {
            return None;
        }
        let mut fields = Fields(body);
        let (start, end) = (fields.i64(), fields.i64());
        let before = row.last().is_some_and(|last| start < last.end);
        if start >= end || before {
            return None;
        }
        let counted = match kind {
            16 => u32::from_le_bytes(body[97..].try_into().expect("4 bytes")),
            _ => 0,
        };
        let events = behind.iter().take_while(|(kind, _)| *kind == 18);
        let events: Vec<&[u8]> = events.map(|(_, body)| *body).collect();
        if events.len() != counted as usize || !events.iter().all(|event| good_tag(event[10])) {
            return None;
        }
        rest = &behind[events.len()..];
        row.push(Segment {
            start,
            end,
            phase: (kind == 16).then_some(body[16]),
        });
    }
    Some(row)
}

/// What a row holds; none where it gets 15.
pub fn row(bytes: &[u8]) -> Option<Row> {
    segments(&records(bytes)?)
}

/// What marked rows hold; none where they get 15.
pub fn marked(bytes: &[u8]) -> Option<Vec<Row>> {
    let records = records(bytes)?;
    let mut rows = records.split(|(kind, _)| *kind == 21);
    // Before the first mark stands nothing.
    if !rows.next()?.is_empty() {
        return None;
    }
    rows.map(segments).collect()
}
