//! What a run met: by number, kind, tag, phase, rule code and room, and situations that are easy to miss: ten of points
//! here, six of windows in `walk`.

use crate::answer::{self, Answer};
use crate::ask;
use crate::given::{Venue, instant, nanos};
use crate::judge::{DAY, SECOND};
use crate::walk;
use jiff::civil::{Date, Time};
use jiff::tz::TimeZone;
use market_time_core::resolve::doors;
use market_time_core::{Interval, Rule, Uncertainty, UtcInstant, VenueRuleset, civil};
use std::collections::{BTreeMap, BTreeSet};

/// The least of each that a long run must meet.
pub const LEAST: u64 = 1000;

/// The least windows that a long run must see answered.
pub const WINDOWS: u64 = 200_000;

/// Of a point query inside the range. "The date that answers" is the first of yesterday, today and
/// tomorrow with a span that holds the instant.
pub const SITUATIONS: [&str; 10] = [
    "fold over midnight",
    "gap over midnight",
    "raised boundary",
    "vanished span",
    "skipped date",
    "tie of rules",
    "ungoverned date",
    "event on the next date",
    "width tie between tags",
    "span beyond coverage",
];

/// Which of the ten hold, by their places in `SITUATIONS`.
pub type Met = [bool; 10];

/// A date's conversions, as they are before raising: its points, then the next midnight.
fn converted(rule: &Rule, zone: &TimeZone, date: Date) -> Vec<(UtcInstant, Option<Uncertainty>)> {
    let mut made: Vec<_> = rule
        .schedule
        .change_points()
        .iter()
        .map(|(at, _)| doors::to_utc(zone, date.to_datetime(*at)))
        .collect();
    let next = date.tomorrow().expect("a next date");
    made.push(doors::to_utc(zone, next.to_datetime(Time::midnight())));
    made
}

/// No instant reads this date: its first and its last reading are both jumped over.
fn skipped(zone: &TimeZone, date: Date) -> bool {
    let jumped = |time| {
        let (_, doubt) = doors::to_utc(zone, date.to_datetime(time));
        matches!(doubt, Some(Uncertainty::NonexistentLocalTime { .. }))
    };
    jumped(Time::midnight()) && jumped(Time::new(23, 59, 59, 999_999_999).expect("a time"))
}

/// Several applying rules share the highest precedence and first day.
fn tie(rules: &[Rule], governs: &Rule, date: Date) -> bool {
    let rank = |rule: &Rule| (rule.kind.precedence(), rule.applies.start);
    rules
        .iter()
        .filter(|rule| rule.applies_on(date) && rank(rule) == rank(governs))
        .count()
        > 1
}

/// An event of the span whose own date is later than the date that the span's start reads.
fn event_on_next(rules: &VenueRuleset, zone: &TimeZone, span: Interval) -> bool {
    let read = |at| civil::doors::datetime_at(zone, at).date();
    let (mut date, last) = (read(span.start), read(span.end));
    while date < last {
        date = date.tomorrow().expect("a next date");
        for event in rules
            .events
            .iter()
            .filter(|event| event.applies.contains(date))
        {
            for at in &event.times {
                if span.contains(doors::to_utc(zone, date.to_datetime(*at)).0) {
                    return true;
                }
            }
        }
    }
    false
}

pub fn situations(venue: &Venue, at: i64) -> Met {
    let mut met = [false; 10];
    let Some((rules, zone)) = venue.parts() else {
        return met;
    };
    let at = instant(at);
    if !rules.coverage.contains(at) {
        return met;
    }
    let today = civil::doors::datetime_at(zone, at).date();
    let three = [
        today.yesterday().expect("a date"),
        today,
        today.tomorrow().expect("a date"),
    ];
    met[4] = three.iter().any(|date| skipped(zone, *date));
    met[6] = doors::governing_rule(&rules.rules, today).is_none();
    let Some((date, spans, held)) = three.iter().find_map(|date| {
        let spans = doors::day_segments(rules, zone, *date);
        let held = spans.iter().position(|span| span.interval.contains(at))?;
        Some((*date, spans, held))
    }) else {
        return met;
    };
    let governs = doors::governing_rule(&rules.rules, date).expect("the date answers");
    let converted = converted(governs, zone, date);
    for (_, doubt) in [&converted[0], &converted[converted.len() - 1]] {
        met[0] |= matches!(doubt, Some(Uncertainty::AmbiguousLocalTime { .. }));
        met[1] |= matches!(doubt, Some(Uncertainty::NonexistentLocalTime { .. }));
    }
    let mut highest = converted[0].0;
    for (instant, _) in &converted {
        met[2] |= *instant < highest;
        highest = highest.max(*instant);
    }
    met[3] = spans.len() < governs.schedule.change_points().len();
    met[5] = tie(&rules.rules, governs, date);
    let span = &spans[held];
    met[7] = event_on_next(rules, zone, span.interval);
    // A span's two boundaries have one rule, so a tie here is of tag 3 with 4 or 5, or of 4 with 5.
    let (from, to) = (&span.start_uncertainty, &span.end_uncertainty);
    met[8] = std::mem::discriminant(from) != std::mem::discriminant(to)
        && from.bound_nanos() == to.bound_nanos();
    met[9] =
        span.interval.start < rules.coverage.start() || span.interval.end > rules.coverage.end();
    met
}

/// Which of `EDGES` an instant is.
fn edges(venue: &Venue, at: i64) -> [bool; 7] {
    let Some((rules, zone)) = venue.parts() else {
        return [false; 7];
    };
    let coverage = [nanos(rules.coverage.start()), nanos(rules.coverage.end())];
    let midnight = |at: i64| {
        let time = civil::doors::datetime_at(zone, instant(at)).time();
        time == Time::midnight()
    };
    let change = |at: i64| {
        let second = at.div_euclid(SECOND);
        at % SECOND == 0 && venue.changes.binary_search_by_key(&second, |c| c.0).is_ok()
    };
    let beside = [at - 1, at + 1];
    [
        coverage.contains(&at),
        beside.iter().any(|at| coverage.contains(at)),
        midnight(at),
        beside.iter().any(|at| midnight(*at)),
        change(at),
        beside.iter().any(|at| change(*at)),
        ask::second_passes(venue)
            .iter()
            .any(|(from, to)| (*from..*to).contains(&at)),
    ]
}

/// Counts by name, in the order of the names.
#[derive(Default)]
pub struct Counts {
    by: BTreeMap<(u8, String), u64>,
    pub points: u64,
    pub known: u64,
    pub windows: u64,
    pub answered: u64,
}

/// What is counted, in the order of the report.
#[derive(Clone, Copy)]
pub enum By {
    Books,
    Number,
    Kind,
    Tag,
    Phase,
    Code,
    Event,
    Room,
    Situation,
    Length,
    Edge,
}

const HEADINGS: [&str; 11] = [
    "books",
    "number",
    "kind",
    "tag",
    "phase",
    "rule code",
    "event code",
    "room",
    "situation",
    "length",
    "edge",
];

/// Whose tags are counted.
const TAGGED: [&str; 4] = ["of a start", "of an end", "of the whole", "of an event"];

/// Codes of events, and answers with several.
const EVENT_CODES: [&str; 3] = ["1", "another", "several in one answer"];

/// How long a window is: the upper bounds in nanoseconds, not included.
const LENGTHS: [(&str, i64); 7] = [
    ("1 ns", 2),
    ("below 1 s", SECOND),
    ("below 1 day", DAY as i64),
    ("to 40 days", 40 * DAY as i64 + 1),
    ("below 3,660 days", 3_660 * DAY as i64),
    ("3,660 to 3,700 days", ask::LONGEST_WINDOW + 1),
    ("longer", i64::MAX),
];

/// Where a window begins or ends.
const EDGES: [&str; 7] = [
    "at coverage",
    "beside coverage",
    "at a midnight",
    "beside a midnight",
    "at a clock change",
    "beside a clock change",
    "second pass of a fold over midnight",
];

impl Counts {
    pub fn add(&mut self, by: By, name: impl ToString) {
        self.add_many(by, name, 1);
    }

    fn add_many(&mut self, by: By, name: impl ToString, many: u64) {
        if many > 0 {
            *self.by.entry((by as u8, name.to_string())).or_default() += many;
        }
    }

    /// One reply: its number, and what its answer holds.
    pub fn reply(&mut self, number: u32, answer: &[u8]) {
        self.add(By::Number, format!("{number:2}"));
        let answers = answer::decode(answer).expect("records of ours");
        // Added up first: a window's answer may have thousands of records.
        let (mut kinds, mut phases, mut codes) = ([0; 24], [0; 8], [0; 4]);
        let mut tags = [[0; 6]; 4];
        let mut event_codes = BTreeSet::new();
        let mut events = [0; 2];
        for answer in &answers {
            kinds[usize::from(answer.kind())] += 1;
            match answer {
                Answer::Phase(phase) => {
                    let doubts = [phase.from.doubt, phase.to.doubt, phase.whole];
                    for (tags, doubt) in tags.iter_mut().zip(doubts) {
                        tags[usize::from(doubt.tag)] += 1;
                    }
                    phases[usize::from(phase.phase)] += 1;
                    codes[usize::from(phase.code)] += 1;
                }
                Answer::Event { doubt, code, .. } => {
                    tags[3][usize::from(doubt.tag)] += 1;
                    events[usize::from(*code != 1)] += 1;
                    event_codes.insert(*code);
                }
                _ => {}
            }
        }
        for (kind, many) in kinds.into_iter().enumerate() {
            self.add_many(By::Kind, kind, many);
        }
        for (place, tags) in TAGGED.iter().zip(tags) {
            for (tag, many) in tags.into_iter().enumerate() {
                self.add_many(By::Tag, format!("{tag} {place}"), many);
            }
        }
        for (phase, many) in phases.into_iter().enumerate() {
            self.add_many(By::Phase, phase, many);
        }
        for (code, many) in codes.into_iter().enumerate() {
            self.add_many(By::Code, code, many);
        }
        let several = u64::from(event_codes.len() > 1);
        for (name, many) in EVENT_CODES.iter().zip([events[0], events[1], several]) {
            self.add_many(By::Event, name, many);
        }
    }

    /// A window that was answered: its length, its edges and its situations.
    pub fn window(&mut self, venue: &Venue, start: i64, end: i64, answer: &[u8]) {
        self.answered += 1;
        let length = LENGTHS.iter().find(|(_, bound)| end - start < *bound);
        self.add(By::Length, length.expect("a length").0);
        let mut at = [false; 7];
        for edge in [start, end] {
            for (at, here) in at.iter_mut().zip(edges(venue, edge)) {
                *at |= here;
            }
        }
        for (name, _) in EDGES.iter().zip(at).filter(|(_, at)| *at) {
            self.add(By::Edge, name);
        }
        let answers = answer::decode(answer).expect("records of ours");
        let met = walk::situations(venue, start, end, &answers);
        for (name, _) in walk::SITUATIONS.iter().zip(met).filter(|(_, met)| *met) {
            self.add(By::Situation, name);
        }
    }

    pub fn room(&mut self, room: usize, answer: usize) {
        let name = match room {
            0 => "none",
            _ if room + 1 == answer => "one short",
            _ if room == answer => "exact",
            _ if room == answer + 1 => "one over",
            _ if room < answer => "shorter",
            _ => "longer",
        };
        self.add(By::Room, name);
    }

    /// What a book has the most of.
    pub fn shape(&mut self, venue: &Venue) {
        let Some((rules, _)) = venue.parts() else {
            self.add(By::Books, "of zero bytes");
            return;
        };
        let points = |rule: &Rule| rule.schedule.change_points().len();
        let shapes = [
            (
                "with 16 points of a rule",
                rules.rules.iter().any(|rule| points(rule) == 16),
            ),
            ("with 256 rules", rules.rules.len() == 256),
            ("with 32 events", rules.events.len() == 32),
            ("with 640 clock changes", venue.changes.len() == 640),
            (
                "with an event code other than 1",
                rules
                    .events
                    .iter()
                    .any(|event| event.evidence.effective_from() != "c1"),
            ),
            ("without a rule", rules.rules.is_empty()),
        ];
        for (name, _) in shapes.iter().filter(|(_, has)| *has) {
            self.add(By::Books, name);
        }
    }

    pub fn met(&mut self, met: Met) {
        for (name, met) in SITUATIONS.iter().zip(met) {
            if met {
                self.add(By::Situation, name);
            }
        }
    }

    /// Whether another's names are here less often than wanted, by what is counted.
    pub fn lacks(&self, other: &Self, wanted: fn(u8) -> u64) -> bool {
        other
            .by
            .keys()
            .any(|name| self.by.get(name).copied().unwrap_or(0) < wanted(name.0))
    }

    pub fn join(&mut self, other: &Self) {
        for (name, count) in &other.by {
            *self.by.entry(name.clone()).or_default() += count;
        }
        self.points += other.points;
        self.known += other.known;
        self.windows += other.windows;
        self.answered += other.answered;
    }

    pub fn print(&self) {
        for ((by, name), count) in &self.by {
            println!("{} {} {count}", HEADINGS[usize::from(*by)], name.trim());
        }
        if self.windows > 0 {
            println!("windows {}", self.windows);
            println!("windows answered {}", self.answered);
        } else {
            println!("point queries {}", self.points);
            println!("known points {}", self.known);
        }
    }

    /// Which of these, with what every long run should meet, were met too seldom.
    fn seldom(&self, mut wanted: Vec<(By, String)>) -> Vec<String> {
        for place in TAGGED {
            wanted.extend((0..6).map(|tag| (By::Tag, format!("{tag} {place}"))));
        }
        wanted.extend((0..8).map(|phase| (By::Phase, phase.to_string())));
        wanted.extend((0..4).map(|code| (By::Code, code.to_string())));
        wanted.extend(EVENT_CODES.map(|name| (By::Event, name.to_owned())));
        wanted.extend(
            ["none", "one short", "exact", "one over"].map(|room| (By::Room, room.to_owned())),
        );
        self.below(wanted, LEAST)
    }

    /// Which of these were met less often than so.
    pub fn below(&self, wanted: Vec<(By, String)>, least: u64) -> Vec<String> {
        wanted
            .into_iter()
            .filter_map(|(by, name)| {
                let count = self.by.get(&(by as u8, name.clone())).copied().unwrap_or(0);
                (count < least).then(|| {
                    format!(
                        "{} {}: {count}, below {least}",
                        HEADINGS[by as usize],
                        name.trim()
                    )
                })
            })
            .collect()
    }

    /// What a long run of points should have met and did not.
    pub fn missing_of_points(&self) -> Vec<String> {
        let mut wanted: Vec<(By, String)> = Vec::new();
        wanted.extend((0..=10).chain([16]).map(|n| (By::Number, format!("{n:2}"))));
        wanted.extend([16, 18, 19].map(|kind| (By::Kind, kind.to_string())));
        wanted.extend(SITUATIONS.map(|name| (By::Situation, name.to_owned())));
        let mut missing = self.seldom(wanted);
        if self.known * 2 < self.points {
            missing.push(format!(
                "known points: {} of {}, less than half",
                self.known, self.points
            ));
        }
        missing
    }

    /// What a long run of windows should have met and did not.
    pub fn missing_of_windows(&self) -> Vec<String> {
        let mut wanted: Vec<(By, String)> = Vec::new();
        wanted.extend((0..=12).chain([16]).map(|n| (By::Number, format!("{n:2}"))));
        wanted.extend([16, 17, 18].map(|kind| (By::Kind, kind.to_string())));
        wanted.extend(walk::SITUATIONS.map(|name| (By::Situation, name.to_owned())));
        wanted.extend(LENGTHS[..6].iter().map(|l| (By::Length, l.0.to_owned())));
        wanted.extend(EDGES.map(|name| (By::Edge, name.to_owned())));
        let mut missing = self.seldom(wanted);
        if self.answered < WINDOWS {
            missing.push(format!(
                "windows answered: {}, below {WINDOWS}",
                self.answered
            ));
        }
        missing
    }
}
