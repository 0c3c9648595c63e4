//! A book read into Rust values: for hosts that want to look inside. The library itself reads the bytes.

use crate::answer::{Phase, RuleCode, Uncertainty};
use crate::fields::{i32_at, i64_at, kind, take, u16_at, u64_at};
use crate::{Nanos, Refusal, Window, answered, ffi};

/// The kinds of a book's records.
const COVERAGE: u16 = 1;
const CLOCK_CHANGE: u16 = 2;
const RULE: u16 = 3;
const EVENTS: u16 = 4;

/// Days since 1970-01-01.
#[derive(Debug, Clone, Copy, PartialEq, Eq, PartialOrd, Ord, Hash)]
pub struct Day(pub i32);

impl Day {
    /// A Monday: 2026-01-05.
    const MONDAY: i32 = 20_458;

    /// 0 is Monday, 6 is Sunday.
    pub fn weekday(self) -> u8 {
        (self.0 - Self::MONDAY).rem_euclid(7) as u8
    }
}

/// A venue's data.
#[derive(Debug, Clone, PartialEq, Eq)]
pub struct Book {
    /// Of what the book speaks.
    pub coverage: Window,
    /// Seconds east of UTC before the first clock change.
    pub first_offset: i32,
    /// The clock changes, in order.
    pub changes: Vec<ClockChange>,
    /// The rules, as listed.
    pub rules: Vec<Rule>,
    /// The events, as listed.
    pub events: Vec<EventRule>,
}

/// From an instant on the venue's clock has this offset.
#[derive(Debug, Clone, Copy, PartialEq, Eq)]
pub struct ClockChange {
    /// The first instant of the new offset.
    pub at: Nanos,
    /// Seconds east of UTC.
    pub offset: i32,
}

/// The phases of the dates from a first to a last.
#[derive(Debug, Clone, PartialEq, Eq)]
pub struct Rule {
    /// Its first date.
    pub first: Day,
    /// Its last date, which belongs.
    pub last: Day,
    /// What sort of rule it is.
    pub code: RuleCode,
    /// Bit 0 is Monday. Only a weekly rule has one.
    pub weekdays: u8,
    /// The number of its name; 0 for a weekly rule.
    pub label: u16,
    /// The number of what it rests on.
    pub evidence: u16,
    /// The number of the reasoning; none where the venue said it itself.
    pub derived: Option<u16>,
    /// How well its times are known.
    pub uncertainty: Uncertainty,
    /// From which time of the day which phase: nanoseconds, the first 0, rising.
    pub points: Vec<(u64, Phase)>,
}

/// Times of day at which something happens, from a first date to a last.
#[derive(Debug, Clone, PartialEq, Eq)]
pub struct EventRule {
    /// Its first date.
    pub first: Day,
    /// Its last date, which belongs.
    pub last: Day,
    /// What happens; the host's own number.
    pub code: u16,
    /// The number of what it rests on.
    pub evidence: u16,
    /// How well its times are known.
    pub uncertainty: Uncertainty,
    /// Nanoseconds of the day.
    pub times: Vec<u64>,
}

impl Rule {
    fn read(record: &[u8]) -> Self {
        let derived = u16_at(record, 18);
        let points = record[32..].chunks_exact(9);
        Self {
            first: Day(i32_at(record, 4)),
            last: Day(i32_at(record, 8)),
            code: RuleCode::of(record[12]),
            weekdays: record[13],
            label: u16_at(record, 14),
            evidence: u16_at(record, 16),
            derived: (derived != 0).then_some(derived),
            uncertainty: uncertainty_at(record, 20),
            points: points
                .map(|point| (u64_at(point, 0), Phase::of(point[8])))
                .collect(),
        }
    }

    /// Whether the rule speaks of a date.
    pub fn applies(&self, day: Day) -> bool {
        let listed = self.code != RuleCode::Weekly || self.weekdays >> day.weekday() & 1 == 1;
        (self.first..=self.last).contains(&day) && listed
    }

    /// Holiday and shortened go before announced, announced before weekly.
    pub fn precedence(&self) -> u8 {
        match self.code {
            RuleCode::Holiday | RuleCode::Shortened => 30,
            RuleCode::Announced => 20,
            RuleCode::Weekly => 10,
        }
    }
}

impl EventRule {
    fn read(record: &[u8]) -> Self {
        let times = record[28..].chunks_exact(8);
        Self {
            first: Day(i32_at(record, 4)),
            last: Day(i32_at(record, 8)),
            code: u16_at(record, 12),
            evidence: u16_at(record, 14),
            uncertainty: uncertainty_at(record, 16),
            times: times.map(|time| u64_at(time, 0)).collect(),
        }
    }
}

/// In a book an uncertainty has 11 bytes.
fn uncertainty_at(record: &[u8], at: usize) -> Uncertainty {
    let (nanos, text) = (i64_at(record, at + 1), u16_at(record, at + 9));
    Uncertainty::of(record[at], nanos, 0, text)
}

impl Book {
    const SECOND: i64 = 1_000_000_000;

    /// Judges the bytes as the library does. With no room a good book gets `RoomTooSmall`, since no point answer is empty.
    pub fn judge(bytes: &[u8]) -> Result<(), Refusal> {
        match answered(ffi::point(bytes, 0, &mut [])) {
            Err(Refusal::RoomTooSmall) | Ok(_) => Ok(()),
            Err(refusal) => Err(refusal),
        }
    }

    /// Reads an accepted book; none of zero bytes, which is a venue without data.
    pub fn read(bytes: &[u8]) -> Result<Option<Self>, Refusal> {
        Self::judge(bytes)?;
        Self::read_accepted(bytes)
    }

    fn read_accepted(bytes: &[u8]) -> Result<Option<Self>, Refusal> {
        let mut rest = bytes;
        let Some(head) = take(&mut rest) else {
            return Ok(None);
        };
        if kind(head) != COVERAGE {
            return Err(Refusal::UnknownKind(kind(head)));
        }
        let mut book = Self {
            coverage: Window {
                start: Nanos(i64_at(head, 4)),
                end: Nanos(i64_at(head, 12)),
            },
            first_offset: i32_at(head, 20),
            changes: Vec::new(),
            rules: Vec::new(),
            events: Vec::new(),
        };
        while let Some(record) = take(&mut rest) {
            match kind(record) {
                CLOCK_CHANGE => book.changes.push(ClockChange {
                    at: Nanos(i64_at(record, 4) * Self::SECOND),
                    offset: i32_at(record, 12),
                }),
                RULE => book.rules.push(Rule::read(record)),
                EVENTS => book.events.push(EventRule::read(record)),
                other => return Err(Refusal::UnknownKind(other)),
            }
        }
        Ok(Some(book))
    }

    /// The rule that governs a date: the highest precedence, then first day; the last listed on a tie.
    pub fn governing(&self, day: Day) -> Option<&Rule> {
        let applying = self.rules.iter().filter(|rule| rule.applies(day));
        applying.max_by_key(|rule| (rule.precedence(), rule.first))
    }
}

#[cfg(test)]
mod tests {
    use super::*;

    #[test]
    fn a_kind_that_is_not_known_is_an_error() {
        let head = [&[22, 0, 1, 0][..], &[0; 20]].concat();
        assert!(matches!(Book::read_accepted(&head), Ok(Some(_))));
        for kind in [0, 1, 5, 6, 16, 65_535u16] {
            let strange = [&[18, 0][..], &kind.to_le_bytes(), &[0; 16]].concat();
            let book = [&head[..], &strange].concat();
            assert_eq!(Book::read_accepted(&book), Err(Refusal::UnknownKind(kind)));
        }
        assert_eq!(
            Book::read_accepted(&[2, 0, 2, 0]),
            Err(Refusal::UnknownKind(2))
        );
    }
}
