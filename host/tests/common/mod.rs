//! Books and rooms for the tests.
#![allow(dead_code)]

use market_time_host::{Nanos, Refusal, Window};

pub const SECOND: i64 = 1_000_000_000;
/// Monday 2026-01-05, midnight UTC, in seconds.
pub const MONDAY: i64 = 1_767_571_200;
pub const FIRST_DAY: i32 = 20_454;
pub const LAST_DAY: i32 = 20_818;
/// The first and the last instant that a query may have.
pub const EARLIEST: Nanos = Nanos::of_seconds(-2_177_452_800);
pub const LATEST: Nanos = Nanos::of_seconds(7_226_582_400);

/// Seconds from the midnight of that Monday.
pub fn at(seconds: i64) -> Nanos {
    Nanos::of_seconds(MONDAY + seconds)
}

pub fn from_to(start: i64, end: i64) -> Window {
    Window {
        start: at(start),
        end: at(end),
    }
}

pub fn record(kind: u16, body: &[u8]) -> Vec<u8> {
    let length = body.len() as u16 + 2;
    [&length.to_le_bytes(), &kind.to_le_bytes(), body].concat()
}

pub fn coverage(start: i64, end: i64, offset: i32) -> Vec<u8> {
    let (start, end) = (start * SECOND, end * SECOND);
    let body = [
        &start.to_le_bytes()[..],
        &end.to_le_bytes(),
        &offset.to_le_bytes(),
    ];
    record(1, &body.concat())
}

/// All of 2026, offset 0.
pub fn year() -> Vec<u8> {
    coverage(1_767_225_600, 1_798_761_600, 0)
}

pub fn change(at: i64, offset: i32) -> Vec<u8> {
    record(2, &[&at.to_le_bytes()[..], &offset.to_le_bytes()].concat())
}

pub struct Rule {
    pub days: (i32, i32),
    pub code: u8,
    pub mask: u8,
    pub label: u16,
    pub evidence: u16,
    pub derived: u16,
    pub uncertainty: (u8, i64, u16),
    /// Seconds and phases.
    pub points: Vec<(u64, u8)>,
}

impl Rule {
    /// Of all of 2026, evidence 1.
    pub fn weekly(mask: u8, points: &[(u64, u8)]) -> Self {
        Self {
            days: (FIRST_DAY, LAST_DAY),
            code: 0,
            mask,
            label: 0,
            evidence: 1,
            derived: 0,
            uncertainty: (0, 0, 0),
            points: points.to_vec(),
        }
    }

    pub fn bytes(&self) -> Vec<u8> {
        let (tag, nanos, text) = self.uncertainty;
        let mut body = Vec::new();
        body.extend(self.days.0.to_le_bytes());
        body.extend(self.days.1.to_le_bytes());
        body.extend([self.code, self.mask]);
        body.extend(self.label.to_le_bytes());
        body.extend(self.evidence.to_le_bytes());
        body.extend(self.derived.to_le_bytes());
        body.push(tag);
        body.extend(nanos.to_le_bytes());
        body.extend(text.to_le_bytes());
        body.push(self.points.len() as u8);
        for (time, phase) in &self.points {
            body.extend((time * SECOND as u64).to_le_bytes());
            body.push(*phase);
        }
        record(3, &body)
    }
}

/// Every date of 2026, exact, times in seconds.
pub fn event(code: u16, evidence: u16, times: &[u64]) -> Vec<u8> {
    let mut body = Vec::new();
    body.extend(FIRST_DAY.to_le_bytes());
    body.extend(LAST_DAY.to_le_bytes());
    body.extend(code.to_le_bytes());
    body.extend(evidence.to_le_bytes());
    body.extend([0; 11]);
    body.push(times.len() as u8);
    for time in times {
        body.extend((time * SECOND as u64).to_le_bytes());
    }
    record(4, &body)
}

/// Document 01's Book A: weekdays 08:00 to 16:30.
pub fn book_a() -> Vec<u8> {
    let weekdays = Rule::weekly(31, &[(0, 0), (28_800, 3), (59_400, 0)]);
    let weekend = Rule::weekly(96, &[(0, 0)]);
    [year(), weekdays.bytes(), weekend.bytes()].concat()
}

/// Document 01's window over Book A: 36 hours from Monday's midnight.
pub fn window_a() -> Window {
    from_to(0, 129_600)
}

/// A book for each number that a book can get.
pub fn bad_books() -> Vec<(u32, Vec<u8>)> {
    let shut = || Rule::weekly(127, &[(0, 0)]);
    let with = |more: Vec<u8>| [year(), more].concat();
    let mut reversed = shut();
    reversed.days = (LAST_DAY, FIRST_DAY);
    let mut labelled = shut();
    labelled.label = 1;
    let no_points = Rule::weekly(127, &[]);
    let late = Rule::weekly(127, &[(1, 0)]);
    let level = Rule::weekly(127, &[(0, 0), (3_600, 1), (3_600, 2)]);
    vec![
        (1, vec![0; 65_537]),
        (2, vec![22, 0, 1]),
        (2, shut().bytes()),
        (2, with(record(5, &[]))),
        (3, with(year())),
        (3, with(shut().bytes().repeat(257))),
        (4, coverage(-2_177_452_801, 0, 0)),
        (4, with(labelled.bytes())),
        (5, with(no_points.bytes())),
        (5, with(late.bytes())),
        (6, with(level.bytes())),
        (7, with(reversed.bytes())),
        (8, coverage(0, 0, 0)),
        (9, with([change(0, 60), change(172_799, 0)].concat())),
    ]
}

/// What a room holds before it is lent.
pub fn filled(length: usize) -> Vec<u8> {
    (0..length)
        .map(|at| (at as u8).wrapping_mul(31) ^ 0xa5)
        .collect()
}

/// Asks with a room of this length: the refusal must have this number, and the room must be as it was.
pub fn refused<T>(number: u32, length: usize, ask: impl Fn(&mut [u8]) -> Result<T, Refusal>) {
    let mut room = filled(length);
    let refusal = ask(&mut room).err().expect("a refusal");
    assert_eq!(refusal.number(), number, "{refusal}");
    assert_eq!(refusal, Refusal::of(number));
    assert!(room == filled(length), "the room was altered");
}

/// An answer of this many bytes fits a room of just so many, not one of a byte less, and leaves a longer one's end as it was.
pub fn fits<T>(bytes: usize, ask: impl Fn(&mut [u8]) -> Result<T, Refusal>) {
    let mut room = filled(bytes + 64);
    assert!(ask(&mut room).is_ok());
    assert!(
        room[bytes..] == filled(bytes + 64)[bytes..],
        "written past the answer"
    );
    assert!(ask(&mut room[..bytes]).is_ok());
    if bytes > 0 {
        refused(16, bytes - 1, &ask);
        refused(16, 0, &ask);
    }
}
