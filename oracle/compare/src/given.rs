//! The original Rust behind document 01's boundary: a book's bytes, a query and a room in; a
//! number, a length and the room out. Numbers become texts one to one, and texts numbers again.

use crate::answer::{self, Answer, Boundary, Coverage, Doubt, Phase};
use crate::book::{self, Published, Record};
use crate::judge::{INSTANTS, judge};
use crate::tally;
use jiff::civil::{Date, Time, Weekday};
use jiff::tz::TimeZone;
use market_time_core as given;
use market_time_core::{
    CivilDaySchedule, CoverageRange, DatasetRevision, DatasetRevisionId, DateRange, DerivationNote,
    EventKind, EventOccurrence, EventRule, EvidenceRef, IanaZoneId, Interval, PhaseAnswer,
    PhaseOutcome, RuleKind, Ruleset, Timeline, TimelineSegment, Uncertainty, UtcInstant, VenueId,
    VenueProfile, VenueRuleset,
};
use std::cmp::Ordering;

#[derive(Debug, Clone, Copy, PartialEq, Eq)]
pub enum Query {
    Point { at: i64 },
    Window { start: i64, end: i64 },
    Tally { start: i64, end: i64 },
}

/// A book as the original has it.
pub struct Venue {
    ruleset: Ruleset,
    id: VenueId,
    /// What the book's changes are; for making instants and counting situations.
    pub changes: Vec<(i64, i32)>,
}

pub fn instant(at: i64) -> UtcInstant {
    UtcInstant::from_nanos_since_unix_epoch(i128::from(at))
}

pub fn nanos(at: UtcInstant) -> i64 {
    i64::try_from(at.as_nanos_since_unix_epoch()).expect("an instant of 64 bits")
}

pub fn date(day: i32) -> Date {
    Date::from_day_number(i64::from(day)).expect("a date")
}

pub fn time(nanos_of_day: u64) -> Time {
    let second = nanos_of_day / 1_000_000_000;
    Time::new(
        (second / 3600) as i8,
        (second / 60 % 60) as i8,
        (second % 60) as i8,
        (nanos_of_day % 1_000_000_000) as i32,
    )
    .expect("a time of day")
}

fn evidence(number: u16) -> EvidenceRef {
    EvidenceRef::new(format!("e{number}"), instant(0), "always").expect("evidence")
}

/// An event's has the event's code too, where the effective date stands: the Rust has one kind of event for all codes, and
/// hands its evidence through unread.
fn event_evidence(number: u16, code: u16) -> EvidenceRef {
    EvidenceRef::new(format!("e{number}"), instant(0), format!("c{code}")).expect("evidence")
}

fn uncertainty(published: &Published) -> Uncertainty {
    let (nanos, text) = (i128::from(published.nanos), format!("t{}", published.text));
    match published.tag {
        0 => Uncertainty::Exact,
        1 => Uncertainty::PublishedGranularity { nanos },
        2 => Uncertainty::PublishedBound {
            nanos,
            published_as: text,
        },
        3 => Uncertainty::ProcessStart { process: text },
        _ => unreachable!("an accepted book has tags 0 to 3"),
    }
}

const WEEK: [Weekday; 7] = [
    Weekday::Monday,
    Weekday::Tuesday,
    Weekday::Wednesday,
    Weekday::Thursday,
    Weekday::Friday,
    Weekday::Saturday,
    Weekday::Sunday,
];

fn rule(rule: &book::Rule, revision: &DatasetRevisionId) -> given::Rule {
    let name = format!("l{}", rule.label);
    given::Rule {
        kind: match rule.code {
            0 => RuleKind::WeeklyPattern {
                weekdays: (0..7)
                    .filter(|day| rule.mask >> day & 1 == 1)
                    .map(|day| WEEK[day])
                    .collect(),
            },
            1 => RuleKind::Holiday { name },
            2 => RuleKind::ShortenedSession { name },
            _ => RuleKind::AnnouncedChange { note: name },
        },
        // `new` tests again what numbers 5 and 6 say.
        schedule: CivilDaySchedule::new(
            rule.points
                .iter()
                .map(|&(at, phase)| (time(at), given::Phase::all()[usize::from(phase)]))
                .collect(),
        )
        .expect("a schedule"),
        applies: DateRange::new(date(rule.first), date(rule.last)).expect("a range"),
        boundary_uncertainty: uncertainty(&rule.published),
        evidence: evidence(rule.evidence),
        derived: (rule.derived != 0)
            .then(|| DerivationNote::new(format!("d{}", rule.derived)).expect("a note")),
        revision: revision.clone(),
    }
}

fn event(event: &book::Event, revision: &DatasetRevisionId) -> EventRule {
    EventRule {
        kind: EventKind::FundingSettlement,
        times: event.times.iter().map(|&at| time(at)).collect(),
        applies: DateRange::new(date(event.first), date(event.last)).expect("a range"),
        uncertainty: uncertainty(&event.published),
        evidence: event_evidence(event.evidence, event.code),
        revision: revision.clone(),
    }
}

/// The number in a text that is a letter and a number.
fn number(text: &str, letter: char) -> u16 {
    text.strip_prefix(letter)
        .and_then(|rest| rest.parse().ok())
        .expect("a text of ours")
}

pub fn doubt(uncertainty: &Uncertainty) -> Doubt {
    let of = |tag, first, second, text| Doubt {
        tag,
        first,
        second,
        text,
    };
    let width = |nanos: &i128| i64::try_from(*nanos).expect("a width of 64 bits");
    match uncertainty {
        Uncertainty::Exact => of(0, 0, 0, 0),
        Uncertainty::PublishedGranularity { nanos } => of(1, width(nanos), 0, 0),
        Uncertainty::PublishedBound {
            nanos,
            published_as,
        } => of(2, width(nanos), 0, number(published_as, 't')),
        Uncertainty::ProcessStart { process } => of(3, 0, 0, number(process, 't')),
        Uncertainty::AmbiguousLocalTime { earlier, later } => {
            of(4, nanos(*earlier), nanos(*later), 0)
        }
        Uncertainty::NonexistentLocalTime {
            as_if_before_shift,
            as_if_after_shift,
        } => of(5, nanos(*as_if_before_shift), nanos(*as_if_after_shift), 0),
        other => panic!("an uncertainty that document 01 does not name: {other:?}"),
    }
}

fn code(kind_name: &str) -> u8 {
    [
        "weekly_pattern",
        "holiday",
        "shortened_session",
        "announced_change",
    ]
    .iter()
    .position(|name| *name == kind_name)
    .expect("a rule's kind") as u8
}

fn phase_and_events(interval: Interval, answer: &PhaseAnswer, out: &mut Vec<Answer>) {
    let boundary = |b: &given::PhaseBoundary| Boundary {
        at: nanos(b.instant),
        doubt: doubt(&b.uncertainty),
    };
    let code = code(&answer.calendar_rule_kind);
    assert_eq!(
        answer.evidence.len(),
        1,
        "a venue's own evidence stays with the host"
    );
    out.push(Answer::Phase(Phase {
        start: nanos(interval.start),
        end: nanos(interval.end),
        phase: given::Phase::all()
            .iter()
            .position(|p| *p == answer.phase)
            .expect("a phase") as u8,
        code,
        label: if code == 0 {
            0
        } else {
            number(&answer.calendar_label, 'l')
        },
        evidence: number(answer.evidence[0].source_url(), 'e'),
        derived: answer
            .derived_reasoning
            .as_deref()
            .map_or(0, |text| number(text, 'd')),
        from: boundary(&answer.boundary_start),
        to: boundary(&answer.boundary_end),
        whole: doubt(&answer.uncertainty),
        events: answer.events.len() as u32,
    }));
    out.extend(answer.events.iter().map(event_answer));
}

fn event_answer(event: &EventOccurrence) -> Answer {
    assert_eq!(event.kind, EventKind::FundingSettlement);
    assert_eq!(event.evidence.len(), 1, "an event has its rule's evidence");
    Answer::Event {
        code: number(event.evidence[0].effective_from(), 'c'),
        at: nanos(event.instant),
        doubt: doubt(&event.uncertainty),
        evidence: number(event.evidence[0].source_url(), 'e'),
    }
}

fn coverage(range: Option<&CoverageRange>) -> Coverage {
    range.map(|range| (nanos(range.start()), nanos(range.end())))
}

fn of_dataset(id: DatasetRevisionId) -> DatasetRevision {
    DatasetRevision {
        id,
        supersedes: None,
        iana_tzdb_version: None,
        assembled_at: instant(0),
    }
}

impl Venue {
    /// The book's values, or its number.
    pub fn open(book: &[u8]) -> Result<Self, u32> {
        match judge(book) {
            0 => Ok(Self::of(&book::decode(book))),
            refused => Err(refused),
        }
    }

    fn of(records: &[Record]) -> Self {
        let id = VenueId::new("v").expect("a venue");
        let revision = DatasetRevisionId::new("r").expect("a revision");
        let mut venue = Self {
            ruleset: Ruleset::door_unchecked(Vec::new(), Vec::new()),
            id: id.clone(),
            changes: Vec::new(),
        };
        // A book of zero bytes: a venue that the ruleset has no entry for.
        let Some(&Record::Head { start, end, offset }) = records.first() else {
            return venue;
        };
        let (mut rules, mut events) = (Vec::new(), Vec::new());
        for record in records {
            match record {
                Record::Head { .. } => {}
                Record::Change { at, offset } => venue.changes.push((*at, *offset)),
                Record::Rule(r) => rules.push(rule(r, &revision)),
                Record::Event(e) => events.push(event(e, &revision)),
            }
        }
        let zone = TimeZone::from_transitions(offset, &venue.changes);
        let rules = VenueRuleset {
            venue: id,
            home_zone: IanaZoneId::new("z").expect("a zone"),
            profile: VenueProfile::default(),
            coverage: CoverageRange::new(
                Interval::new(instant(start), instant(end)).expect("coverage"),
            ),
            rules,
            events,
            evidence: Vec::new(),
        };
        venue.ruleset = Ruleset::door_unchecked(vec![of_dataset(revision)], vec![(rules, zone)]);
        venue
    }

    /// The name of the error that `from_parts` gives for these rules, if it gives one.
    pub fn refused_by_from_parts(&self) -> Option<String> {
        let (rules, zone) = self.parts()?;
        TimeZone::register("z", zone);
        let revision = DatasetRevisionId::new("r").expect("a revision");
        let error = Ruleset::from_parts(vec![of_dataset(revision)], vec![rules.clone()]).err()?;
        let told = format!("{error:?}");
        told.split(' ').next().map(str::to_owned)
    }

    /// The original's rules and zone; none for a book of zero bytes.
    pub fn parts(&self) -> Option<(&VenueRuleset, &TimeZone)> {
        self.ruleset
            .venue(&self.id)
            .zip(self.ruleset.zone(&self.id))
    }

    /// The answer's bytes, or the query's number.
    pub fn answer(&self, query: &Query) -> Result<Vec<u8>, u32> {
        match *query {
            Query::Point { at } if outside(at) => Err(10),
            Query::Point { at } => Ok(answer::encode(&self.point(at))),
            Query::Window { start, end } => {
                judge_window(start, end)?;
                Ok(answer::encode(&self.window(start, end)))
            }
            Query::Tally { start, end } => {
                judge_window(start, end)?;
                tally::judge_length(start, end)?;
                Ok(answer::encode(&tally::tally(&self.timeline(start, end))))
            }
        }
    }

    /// The original's own answer, as it gives it, for timing: how many segments it has.
    pub fn timed(&self, query: &Query) -> usize {
        match *query {
            Query::Point { at } => usize::from(
                !given::resolve_phase(instant(at), &self.id, &self.ruleset).is_unknown(),
            ),
            Query::Window { start, end } | Query::Tally { start, end } => {
                self.timeline(start, end).segments.len()
            }
        }
    }

    fn point(&self, at: i64) -> Vec<Answer> {
        let mut out = Vec::new();
        match given::resolve_phase(instant(at), &self.id, &self.ruleset) {
            PhaseOutcome::Known(answer) => {
                // A known point has its whole span as start and end.
                let (start, end) = (answer.boundary_start.instant, answer.boundary_end.instant);
                phase_and_events(Interval { start, end }, &answer, &mut out);
            }
            PhaseOutcome::Unknown(gap) => out.push(Answer::Missing {
                at: nanos(gap.queried_at),
                coverage: coverage(gap.coverage.as_ref()),
            }),
        }
        out
    }

    /// The Rust's timeline of a window.
    pub fn timeline(&self, start: i64, end: i64) -> Timeline {
        let asked = Interval {
            start: instant(start),
            end: instant(end),
        };
        given::resolve_timeline(asked, &self.id, &self.ruleset)
    }

    /// Whether the Rust's timeline has no hole, as the Rust says itself.
    pub fn tiles(&self, start: i64, end: i64) -> bool {
        self.timeline(start, end).tiles_interval()
    }

    /// The Rust's segments of a window, each phase with its events behind it.
    pub fn window(&self, start: i64, end: i64) -> Vec<Answer> {
        let mut out = Vec::new();
        for segment in self.timeline(start, end).segments {
            match segment {
                TimelineSegment::Phase { interval, answer } => {
                    phase_and_events(interval, &answer, &mut out);
                }
                TimelineSegment::Unknown { interval, gap } => out.push(Answer::Unknown {
                    start: nanos(interval.start),
                    end: nanos(interval.end),
                    coverage: coverage(gap.coverage.as_ref()),
                }),
            }
        }
        out
    }
}

/// A query's instant or a window's edge outside the range: number 10.
pub fn outside(at: i64) -> bool {
    !(INSTANTS[0]..=INSTANTS[1]).contains(&at)
}

/// A window's numbers: 10, 11, 12.
pub fn judge_window(start: i64, end: i64) -> Result<(), u32> {
    match end.cmp(&start) {
        _ if outside(start) || outside(end) => Err(10),
        Ordering::Less => Err(11),
        Ordering::Equal => Err(12),
        Ordering::Greater => Ok(()),
    }
}

/// Lends a room: the number and the length given back. The room is written only where the answer fits.
pub fn lend(answer: &Result<Vec<u8>, u32>, room: &mut [u8]) -> (u32, usize) {
    match answer {
        Err(number) => (*number, 0),
        Ok(bytes) if bytes.len() > room.len() => (16, 0),
        Ok(bytes) => {
            room[..bytes.len()].copy_from_slice(bytes);
            (0, bytes.len())
        }
    }
}
