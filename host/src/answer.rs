//! Answers as Rust values, read from the bytes that the library wrote. docs/FORMAT.md has the tables.

use crate::fields::{i64_at, kind, take, u16_at, u32_at, u64_at};
use crate::{Nanos, Refusal, Window, class};

/// The kinds of an answer's records.
const PHASE: u16 = 16;
const GAP: u16 = 17;
const EVENT: u16 = 18;
const MISSING: u16 = 19;
const MARK: u16 = 21;
const DAY: u16 = 22;
const TALLY: u16 = 23;

/// Sees that every record of an answer is of a kind that it may have. A kind that this crate does not know is no stretch
/// of which nothing is known: it is an error.
fn known_kinds(bytes: &[u8], kinds: &[u16]) -> Result<(), Refusal> {
    let mut rest = bytes;
    while let Some(record) = take(&mut rest) {
        known_kind(record, kinds)?;
    }
    Ok(())
}

fn known_kind(record: &[u8], kinds: &[u16]) -> Result<(), Refusal> {
    let kind = kind(record);
    if kinds.contains(&kind) {
        Ok(())
    } else {
        Err(Refusal::UnknownKind(kind))
    }
}

/// What a venue does from one boundary to the next.
#[derive(Debug, Clone, Copy, PartialEq, Eq, Hash)]
pub enum Phase {
    /// 0: the venue is shut.
    Closed,
    /// 1: orders are taken, and none is matched.
    PreOpen,
    /// 2: the auction that opens the session. Trading.
    OpeningAuction,
    /// 3: continuous trading. Trading.
    ContinuousTrading,
    /// 4: a break inside the session.
    MidDayBreak,
    /// 5: the auction that closes the session. Trading.
    ClosingAuction,
    /// 6: after the close.
    PostClose,
    /// 7: trading is interrupted.
    NonTradingInterruption,
}

impl Phase {
    /// Each phase at its number.
    pub const ALL: [Self; 8] = [
        Self::Closed,
        Self::PreOpen,
        Self::OpeningAuction,
        Self::ContinuousTrading,
        Self::MidDayBreak,
        Self::ClosingAuction,
        Self::PostClose,
        Self::NonTradingInterruption,
    ];

    /// Document 01's number.
    pub fn number(self) -> u8 {
        self as u8
    }

    /// Trading are the two auctions and continuous trading, and nothing else.
    pub fn is_trading(self) -> bool {
        matches!(
            self,
            Self::OpeningAuction | Self::ContinuousTrading | Self::ClosingAuction
        )
    }

    pub(crate) fn of(number: u8) -> Self {
        Self::ALL[usize::from(number)]
    }
}

/// What sort of rule a phase comes from.
#[derive(Debug, Clone, Copy, PartialEq, Eq, Hash)]
pub enum RuleCode {
    /// 0: of the days of the week that its mask names.
    Weekly,
    /// 1: a holiday.
    Holiday,
    /// 2: a shortened session.
    Shortened,
    /// 3: an announced change.
    Announced,
}

impl RuleCode {
    pub(crate) fn of(number: u8) -> Self {
        [
            Self::Weekly,
            Self::Holiday,
            Self::Shortened,
            Self::Announced,
        ][usize::from(number)]
    }
}

/// How well an instant is known. Texts are the host's own numbers.
#[derive(Debug, Clone, Copy, PartialEq, Eq, Hash)]
pub enum Uncertainty {
    /// As published.
    Exact,
    /// Published in steps.
    Granularity {
        /// How long a step is, in nanoseconds.
        nanos: i64,
    },
    /// Within a bound, by the venue's own words.
    Bound {
        /// The bound, in nanoseconds.
        nanos: i64,
        /// The number of the words.
        text: u16,
    },
    /// The scheduled start of a process; how long it takes is not published.
    ProcessStart {
        /// The number of the process's name.
        text: u16,
    },
    /// The clock shows the time twice; the earlier was taken.
    Fold {
        /// The first of the two instants.
        earlier: Nanos,
        /// The second.
        later: Nanos,
    },
    /// The clock never shows the time; the later of the two was taken.
    Gap {
        /// The instant by the offset before the clock change.
        by_offset_before: Nanos,
        /// The instant by the offset after it.
        by_offset_after: Nanos,
    },
}

impl Uncertainty {
    /// The bytes that an uncertainty takes in an answer.
    const BYTES: usize = 19;

    /// In a book the second number is missing, and tags 4 and 5 too.
    pub(crate) fn of(tag: u8, first: i64, second: i64, text: u16) -> Self {
        match tag {
            0 => Self::Exact,
            1 => Self::Granularity { nanos: first },
            2 => Self::Bound { nanos: first, text },
            3 => Self::ProcessStart { text },
            4 => Self::Fold {
                earlier: Nanos(first),
                later: Nanos(second),
            },
            5 => Self::Gap {
                by_offset_before: Nanos(first),
                by_offset_after: Nanos(second),
            },
            _ => unreachable!("an uncertainty's tag is 0 to 5, not {tag}"),
        }
    }

    fn at(record: &[u8], at: usize) -> Self {
        let (first, second) = (i64_at(record, at + 1), i64_at(record, at + 9));
        Self::of(record[at], first, second, u16_at(record, at + 17))
    }
}

/// Where a phase begins or ends by its rule, before any clipping.
#[derive(Debug, Clone, Copy, PartialEq, Eq, Hash)]
pub struct Boundary {
    /// When it is.
    pub at: Nanos,
    /// How well that is known: the doubt of the clock, else what the rule has published.
    pub uncertainty: Uncertainty,
}

impl Boundary {
    const BYTES: usize = 8 + Uncertainty::BYTES;

    fn read(record: &[u8], at: usize) -> Self {
        Self {
            at: Nanos(i64_at(record, at)),
            uncertainty: Uncertainty::at(record, at + 8),
        }
    }
}

/// An event inside a phase.
#[derive(Debug, Clone, Copy, PartialEq, Eq, Hash)]
pub struct Event {
    /// What happens; the book's own number.
    pub code: u16,
    /// When it happens.
    pub at: Nanos,
    /// How well that is known.
    pub uncertainty: Uncertainty,
    /// The number of what it rests on.
    pub evidence: u16,
}

/// The events behind a phase, in the library's order.
#[derive(Debug, Clone, PartialEq, Eq)]
pub struct Events<'a> {
    rest: &'a [u8],
}

impl Events<'_> {
    const BYTES: usize = 35;
}

impl Iterator for Events<'_> {
    type Item = Event;

    fn next(&mut self) -> Option<Event> {
        let record = take(&mut self.rest)?;
        Some(Event {
            code: u16_at(record, 4),
            at: Nanos(i64_at(record, 6)),
            uncertainty: Uncertainty::at(record, 14),
            evidence: u16_at(record, 33),
        })
    }
}

/// A phase and what it rests on. Labels, evidence and derivations are the host's own numbers.
#[derive(Debug, Clone, PartialEq, Eq)]
pub struct PhaseAnswer<'a> {
    /// In a timeline as far as it shows, of a point the whole span.
    pub window: Window,
    /// What the venue does.
    pub phase: Phase,
    /// What sort of rule says so.
    pub code: RuleCode,
    /// The number of the rule's name; 0 for a weekly rule.
    pub label: u16,
    /// The number of what the rule rests on.
    pub evidence: u16,
    /// None where the venue said it itself.
    pub derived: Option<u16>,
    /// Where the phase begins by its rule.
    pub start: Boundary,
    /// Where it ends by its rule.
    pub end: Boundary,
    /// The wider of the two boundaries'.
    pub uncertainty: Uncertainty,
    /// What happens in it.
    pub events: Events<'a>,
}

impl<'a> PhaseAnswer<'a> {
    const START: usize = 28;
    const END: usize = Self::START + Boundary::BYTES;
    const WHOLE: usize = Self::END + Boundary::BYTES;
    const COUNT: usize = Self::WHOLE + Uncertainty::BYTES;

    /// Of a phase's record, and the records of its events, which are taken off the rest. Their kinds are known.
    fn read(record: &'a [u8], rest: &mut &'a [u8]) -> Self {
        let count = u32_at(record, Self::COUNT) as usize;
        let (events, behind) = rest.split_at(count * Events::BYTES);
        *rest = behind;
        let derived = u16_at(record, 26);
        Self {
            window: window_at(record),
            phase: Phase::of(record[20]),
            code: RuleCode::of(record[21]),
            label: u16_at(record, 22),
            evidence: u16_at(record, 24),
            derived: (derived != 0).then_some(derived),
            start: Boundary::read(record, Self::START),
            end: Boundary::read(record, Self::END),
            uncertainty: Uncertainty::at(record, Self::WHOLE),
            events: Events { rest: events },
        }
    }
}

fn window_at(record: &[u8]) -> Window {
    Window {
        start: Nanos(i64_at(record, 4)),
        end: Nanos(i64_at(record, 12)),
    }
}

/// None where the book is empty.
fn coverage_at(record: &[u8], at: usize) -> Option<Window> {
    (record[at] == 1).then(|| Window {
        start: Nanos(i64_at(record, at + 1)),
        end: Nanos(i64_at(record, at + 9)),
    })
}

/// What is known of an instant.
#[derive(Debug, Clone, PartialEq, Eq)]
pub enum Point<'a> {
    /// A phase holds it.
    Known(PhaseAnswer<'a>),
    /// Outside coverage, or on a date that no rule governs.
    Unknown {
        /// The instant that was asked.
        at: Nanos,
        /// What the book covers; none where it is empty.
        coverage: Option<Window>,
    },
}

impl<'a> Point<'a> {
    pub(crate) fn read(answer: &'a [u8]) -> Result<Self, Refusal> {
        let mut rest = answer;
        let record = take(&mut rest).expect("a point has an answer");
        match kind(record) {
            PHASE => {
                known_kinds(rest, &[EVENT])?;
                Ok(Self::Known(PhaseAnswer::read(record, &mut rest)))
            }
            MISSING => Ok(Self::Unknown {
                at: Nanos(i64_at(record, 4)),
                coverage: coverage_at(record, 12),
            }),
            other => Err(Refusal::UnknownKind(other)),
        }
    }
}

/// A stretch of a timeline.
#[derive(Debug, Clone, PartialEq, Eq)]
pub enum Segment<'a> {
    /// A phase, as far as it shows.
    Phase(PhaseAnswer<'a>),
    /// Outside coverage.
    Unknown {
        /// From where to where.
        window: Window,
        /// What the book covers; none where it is empty.
        coverage: Option<Window>,
    },
}

impl Segment<'_> {
    /// From where to where it stands.
    pub fn window(&self) -> Window {
        match self {
            Self::Phase(answer) => answer.window,
            Self::Unknown { window, .. } => *window,
        }
    }
}

/// A timeline's bytes, known to be good and to have no kind that this crate does not know. A server may keep them and draw
/// them later.
#[derive(Debug, Clone, Copy, PartialEq, Eq)]
pub struct Row<'a> {
    bytes: &'a [u8],
}

impl<'a> Row<'a> {
    pub(crate) fn answered(bytes: &'a [u8]) -> Result<Self, Refusal> {
        known_kinds(bytes, &[PHASE, GAP, EVENT])?;
        Ok(Self { bytes })
    }

    /// Bytes that were kept elsewhere, judged by the library: `BadRow` if they are not a timeline's.
    pub fn judged(bytes: &'a [u8]) -> Result<Self, Refusal> {
        class(bytes, Nanos(0))?;
        Self::answered(bytes)
    }

    /// The bytes themselves.
    pub fn bytes(&self) -> &'a [u8] {
        self.bytes
    }

    /// The segments in order. Where no rule governs a covered date there is a hole.
    pub fn segments(&self) -> Segments<'a> {
        Segments { rest: self.bytes }
    }
}

/// The segments of a row.
#[derive(Debug, Clone)]
pub struct Segments<'a> {
    rest: &'a [u8],
}

impl<'a> Iterator for Segments<'a> {
    type Item = Segment<'a>;

    fn next(&mut self) -> Option<Segment<'a>> {
        let record = take(&mut self.rest)?;
        Some(match kind(record) {
            PHASE => Segment::Phase(PhaseAnswer::read(record, &mut self.rest)),
            GAP => Segment::Unknown {
                window: window_at(record),
                coverage: coverage_at(record, 20),
            },
            other => unreachable!("a row's kinds were seen to be known, and {other} is not"),
        })
    }
}

/// Nanoseconds of a stretch, by what it was.
#[derive(Debug, Clone, Copy, PartialEq, Eq, Hash)]
pub struct Totals {
    phases: [u64; 8],
    /// Of these nothing is known. They are not closed hours.
    pub outside_coverage: u64,
    /// Covered, but in no segment: no rule governs the date.
    pub no_segment: u64,
}

impl Totals {
    /// Nanoseconds of a phase.
    pub fn phase(&self, phase: Phase) -> u64 {
        self.phases[usize::from(phase.number())]
    }

    /// Nanoseconds of trading: totals 2, 3 and 5, and nothing else.
    pub fn trading(&self) -> u64 {
        let trading = Phase::ALL.into_iter().filter(|phase| phase.is_trading());
        trading.map(|phase| self.phase(phase)).sum()
    }
}

/// The totals of a day, or of the whole window.
#[derive(Debug, Clone, Copy, PartialEq, Eq, Hash)]
pub struct TallyRow {
    /// From where to where it counts.
    pub window: Window,
    /// What it counted.
    pub totals: Totals,
}

impl TallyRow {
    const BYTES: usize = 100;

    fn read(record: &[u8]) -> Self {
        let total = |place: usize| u64_at(record, 20 + 8 * place);
        Self {
            window: window_at(record),
            totals: Totals {
                phases: std::array::from_fn(total),
                outside_coverage: total(8),
                no_segment: total(9),
            },
        }
    }
}

/// A window's totals, day by day and together.
#[derive(Debug, Clone, Copy, PartialEq, Eq)]
pub struct Tally<'a> {
    bytes: &'a [u8],
}

impl<'a> Tally<'a> {
    pub(crate) fn answered(bytes: &'a [u8]) -> Result<Self, Refusal> {
        let (days, whole) = bytes.split_at(bytes.len() - TallyRow::BYTES);
        known_kinds(days, &[DAY])?;
        known_kinds(whole, &[TALLY])?;
        Ok(Self { bytes })
    }

    /// A row for every 24 hours from the window's start; the last may be shorter.
    pub fn days(&self) -> impl Iterator<Item = TallyRow> + 'a {
        let days = self.bytes.len() - TallyRow::BYTES;
        self.bytes[..days]
            .chunks_exact(TallyRow::BYTES)
            .map(TallyRow::read)
    }

    /// The totals of the whole window.
    pub fn whole(&self) -> TallyRow {
        TallyRow::read(&self.bytes[self.bytes.len() - TallyRow::BYTES..])
    }
}

/// What a row shows at an instant.
#[derive(Debug, Clone, Copy, PartialEq, Eq, Hash)]
pub enum Class {
    /// A phase that trades stands there.
    Trading,
    /// Another phase stands there.
    NotTrading,
    /// An unknown segment stands there.
    NotKnown,
    /// No segment stands there.
    NotShown,
}

impl Class {
    pub(crate) fn of(shown: u32) -> Self {
        match shown {
            1 => Self::Trading,
            2 => Self::NotTrading,
            3 => Self::NotKnown,
            4 => Self::NotShown,
            _ => unreachable!("a row's class is 1 to 4, not {shown}"),
        }
    }
}

/// How many rows show what at an instant. A row without a segment there is a venue and nothing else.
#[derive(Debug, Clone, Copy, PartialEq, Eq, Hash, Default)]
pub struct Count {
    /// How many rows there are.
    pub venues: u64,
    /// How many of them show a phase that trades.
    pub trading: u64,
    /// How many show another phase.
    pub not_trading: u64,
    /// How many show that nothing is known.
    pub not_known: u64,
}

/// Rows together, as `count` takes them.
#[derive(Debug, Clone, Default, PartialEq, Eq)]
pub struct Rows {
    bytes: Vec<u8>,
}

impl Rows {
    const MARK_LENGTH: u16 = 4;

    /// No rows.
    pub fn new() -> Self {
        Self::default()
    }

    /// Adds a row under a number, which is free.
    pub fn push(&mut self, number: u16, row: Row<'_>) {
        for field in [Self::MARK_LENGTH, MARK, number] {
            self.bytes.extend_from_slice(&field.to_le_bytes());
        }
        self.bytes.extend_from_slice(row.bytes());
    }

    /// The bytes themselves.
    pub fn bytes(&self) -> &[u8] {
        &self.bytes
    }
}

#[cfg(test)]
mod tests {
    use super::*;

    /// A record of a kind and so many bytes in all, the others zeros.
    fn record(kind: u16, bytes: u16) -> Vec<u8> {
        let mut made = vec![0; usize::from(bytes)];
        made[..2].copy_from_slice(&(bytes - 2).to_le_bytes());
        made[2..4].copy_from_slice(&kind.to_le_bytes());
        made
    }

    #[test]
    fn a_kind_that_is_not_known_is_an_error_and_never_unknown_hours() {
        for kind in [0, 15, 20, 24, 25, 65_535] {
            let strange = record(kind, 107);
            let unknown = Refusal::UnknownKind(kind);
            assert_eq!(Point::read(&strange), Err(unknown));
            assert_eq!(Row::answered(&strange), Err(unknown));
            let behind = [record(PHASE, 105), strange.clone()].concat();
            assert_eq!(Point::read(&behind), Err(unknown));
            assert_eq!(Row::answered(&behind), Err(unknown));
            let rows = [record(kind, 100), record(TALLY, 100)].concat();
            assert_eq!(Tally::answered(&rows), Err(unknown));
            assert_eq!(Tally::answered(&record(kind, 100)), Err(unknown));
            assert_eq!(
                unknown.to_string(),
                format!("a record of kind {kind}, which this crate does not know")
            );
        }
    }

    #[test]
    fn a_known_kind_where_it_cannot_stand_is_an_error_too() {
        assert_eq!(
            Point::read(&record(GAP, 37)),
            Err(Refusal::UnknownKind(GAP))
        );
        assert_eq!(
            Row::answered(&record(MISSING, 29)),
            Err(Refusal::UnknownKind(MISSING))
        );
        assert_eq!(
            Tally::answered(&record(DAY, 100)),
            Err(Refusal::UnknownKind(DAY))
        );
    }
}
