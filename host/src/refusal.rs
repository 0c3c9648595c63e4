//! Why there is no answer: the sixteen numbers of document 01, by name, and what only a library newer than this crate gives.

use std::fmt;

/// A refusal. Where it has a number nothing was written.
#[derive(Debug, Clone, Copy, PartialEq, Eq, Hash)]
pub enum Refusal {
    /// 1: the book is longer than 65,536 bytes.
    BookTooLong,
    /// 2: the book has a record of a bad length or an unknown kind, or does not begin with its coverage.
    BadRecord,
    /// 3: the book has too many records of a kind.
    TooManyOfAKind,
    /// 4: a field of the book is outside its range.
    FieldOutOfRange,
    /// 5: a rule has no points, or its first is not at 00:00.
    FirstPointNotMidnight,
    /// 6: a rule's points do not rise.
    PointsNotRising,
    /// 7: a rule or an event has its last day before its first.
    LastDayBeforeFirst,
    /// 8: the coverage does not end after its start.
    CoverageEndNotAfterStart,
    /// 9: a clock change is less than two days after the one before it, or before it.
    ClockChangeTooClose,
    /// 10: an instant of the query is outside 1901-01-01 to 2199-01-01 UTC.
    InstantOutOfRange,
    /// 11: the window ends before it starts.
    WindowReversed,
    /// 12: the window is empty.
    WindowEmpty,
    /// 13: the tally's window is longer than 400 days.
    TallyTooLong,
    /// 14: more than 512 columns are asked for.
    TooManyColumns,
    /// 15: the bytes are not those of a timeline.
    BadRow,
    /// 16: the answer is longer than the lent room.
    RoomTooSmall,
    /// A number that document 01 does not have: the library is newer than this crate.
    Unknown(u32),
    /// A record of a kind that this crate does not know, in an answer or in an accepted book: the library is newer than this
    /// crate. Nothing of it was taken for unknown hours, or for anything else.
    UnknownKind(u16),
}

/// Each refusal at its number less 1, with its words.
const TABLE: [(Refusal, &str); 16] = [
    (Refusal::BookTooLong, "the book is longer than 65,536 bytes"),
    (
        Refusal::BadRecord,
        "the book has a record of a bad length or an unknown kind, or does not begin with its coverage",
    ),
    (
        Refusal::TooManyOfAKind,
        "the book has too many records of a kind",
    ),
    (
        Refusal::FieldOutOfRange,
        "a field of the book is outside its range",
    ),
    (
        Refusal::FirstPointNotMidnight,
        "a rule has no points, or its first is not at 00:00",
    ),
    (Refusal::PointsNotRising, "a rule's points do not rise"),
    (
        Refusal::LastDayBeforeFirst,
        "a rule or an event has its last day before its first",
    ),
    (
        Refusal::CoverageEndNotAfterStart,
        "the coverage does not end after its start",
    ),
    (
        Refusal::ClockChangeTooClose,
        "a clock change is less than two days after the one before it, or before it",
    ),
    (
        Refusal::InstantOutOfRange,
        "an instant of the query is outside 1901-01-01 to 2199-01-01 UTC",
    ),
    (Refusal::WindowReversed, "the window ends before it starts"),
    (Refusal::WindowEmpty, "the window is empty"),
    (
        Refusal::TallyTooLong,
        "the tally's window is longer than 400 days",
    ),
    (
        Refusal::TooManyColumns,
        "more than 512 columns are asked for",
    ),
    (Refusal::BadRow, "the bytes are not those of a timeline"),
    (
        Refusal::RoomTooSmall,
        "the answer is longer than the lent room",
    ),
];

impl Refusal {
    /// The refusal that a number other than 0 means.
    pub fn of(number: u32) -> Self {
        let place = number.checked_sub(1).map(|place| place as usize);
        match place.and_then(|place| TABLE.get(place)) {
            Some((refusal, _)) => *refusal,
            None => Self::Unknown(number),
        }
    }

    /// Document 01's number; 0 where the library gave none.
    pub fn number(self) -> u32 {
        if let Self::Unknown(number) = self {
            return number;
        }
        let place = TABLE.iter().position(|(refusal, _)| *refusal == self);
        place.map_or(0, |place| place as u32 + 1)
    }

    /// Whether the book itself is at fault, whatever is asked of it.
    pub fn is_of_book(self) -> bool {
        (1..=9).contains(&self.number())
    }
}

impl fmt::Display for Refusal {
    fn fmt(&self, f: &mut fmt::Formatter<'_>) -> fmt::Result {
        if let Self::UnknownKind(kind) = self {
            return write!(f, "a record of kind {kind}, which this crate does not know");
        }
        match TABLE.iter().find(|(refusal, _)| refusal == self) {
            Some((_, words)) => write!(f, "{words} ({})", self.number()),
            None => write!(f, "a refusal unknown here ({})", self.number()),
        }
    }
}

impl std::error::Error for Refusal {}
