//! Document 01's sentence on plain windows, asked of the port's two entries: at every instant of such a window a phase
//! segment stands exactly where the point answer is known, with its phase and evidence; an unknown segment exactly outside
//! coverage; none exactly where coverage holds and no rule governs the date. Plainness, coverage and rules are judged by
//! `plain`.

use crate::answer::{Answer, decode};
use crate::book;
use crate::given::Query;
use crate::judge::judge;
use crate::lacking;
use crate::plain::{AFTER, BEFORE, DATE, FALLS, Lacks, MOST_DATES, ORDER, PARTS, Run, Venue};
use crate::plain_books;
use crate::port::{self, Room};
use crate::random::Random;
use std::collections::BTreeSet;
use std::process::exit;

/// A segment or a point: known with phase and evidence, or unknown.
#[derive(Debug, Clone, Copy, PartialEq, Eq)]
enum Shown {
    Phase(u8, u16),
    Unknown,
}

#[derive(Debug, Clone, Copy)]
struct Segment {
    start: i64,
    end: i64,
    shown: Shown,
}

/// The port, with one book and a room for every answer.
pub struct Port<'a> {
    book: &'a [u8],
    room: &'a mut Room,
}

impl<'a> Port<'a> {
    pub fn new(book: &'a [u8], room: &'a mut Room) -> Self {
        Self { book, room }
    }

    fn ask(&mut self, query: Query) -> Vec<Answer> {
        let (number, length) = port::ask(self.book, &query, self.room);
        assert_eq!(number, 0, "{query:?} is answered");
        assert!(self.room.guarded(), "the guards are as they were");
        decode(&self.room.bytes()[..length]).expect("records")
    }

    fn point(&mut self, at: i64) -> Shown {
        match self.ask(Query::Point { at }).first() {
            Some(Answer::Phase(p)) => Shown::Phase(p.phase, p.evidence),
            Some(Answer::Missing { .. }) => Shown::Unknown,
            other => panic!("no point: {other:?}"),
        }
    }

    fn window(&mut self, start: i64, end: i64) -> Vec<Segment> {
        let answers = self.ask(Query::Window { start, end });
        let segment = |answer: &Answer| match *answer {
            Answer::Phase(p) => Some((p.start, p.end, Shown::Phase(p.phase, p.evidence))),
            Answer::Unknown { start, end, .. } => Some((start, end, Shown::Unknown)),
            _ => None,
        };
        let told = answers.iter().filter_map(segment);
        told.map(|(start, end, shown)| Segment { start, end, shown })
            .collect()
    }
}

/// Segments that are not empty, in order, not over each other, and inside the window.
fn in_shape(segments: &[Segment], start: i64, end: i64) -> bool {
    let mut from = start;
    segments.iter().all(|one| {
        let good = from <= one.start && one.start < one.end && one.end <= end;
        from = one.end;
        good
    })
}

/// The edges of a window: its own, its segments', coverage's, the midnights of its run and beside it, the clock changes;
/// each and 1 ns either side, as far as they are inside.
fn instants(venue: &Venue, run: &Run, segments: &[Segment], start: i64, end: i64) -> BTreeSet<i64> {
    let mut edges = vec![start, end, venue.coverage.0, venue.coverage.1];
    edges.extend(segments.iter().flat_map(|one| [one.start, one.end]));
    edges.extend((run.first..=run.last + 1).map(|day| venue.midnight(day)));
    edges.extend(venue.changes.iter().map(|&(at, _)| at));
    let beside = edges.iter().flat_map(|edge| [edge - 1, *edge, edge + 1]);
    beside.filter(|at| start <= *at && *at < end).collect()
}

/// The sentence at one instant: nothing where it holds, else what stands there and what the point says.
fn disagrees(venue: &Venue, port: &mut Port, segments: &[Segment], at: i64) -> Option<String> {
    let next = segments.partition_point(|one| one.end <= at);
    let segment = segments.get(next).filter(|one| one.start <= at);
    let shown = segment.map(|one| one.shown);
    let point = port.point(at);
    let covered = venue.covers(at);
    let governed = venue.governing(venue.date_at(at)).is_some();
    let phase = match (shown, point) {
        (Some(Shown::Phase(..)), _) | (_, Shown::Phase(..)) => shown == Some(point),
        _ => true,
    };
    let unknown = (shown == Some(Shown::Unknown)) != covered;
    let hole = shown.is_none() == (covered && !governed);
    let agree = phase && unknown && hole;
    (!agree).then(|| {
        format!(
            "at {at}: segment {shown:?}, point {point:?}, covered {covered}, governed {governed}"
        )
    })
}

/// Of a window that was asked.
struct Asked {
    instants: usize,
    in_shape: bool,
    /// What is said at the first instant where the sentence is false.
    false_at: Option<String>,
}

/// Asks a window and its instants.
fn check(venue: &Venue, run: &Run, port: &mut Port, (start, end): (i64, i64)) -> Asked {
    let segments = port.window(start, end);
    let instants = instants(venue, run, &segments, start, end);
    Asked {
        instants: instants.len(),
        in_shape: in_shape(&segments, start, end),
        false_at: instants
            .iter()
            .find_map(|at| disagrees(venue, port, &segments, *at)),
    }
}

/// The sentence at one instant of a window.
pub fn check_at(
    venue: &Venue,
    port: &mut Port,
    (start, end): (i64, i64),
    at: i64,
) -> Option<String> {
    let segments = port.window(start, end);
    disagrees(venue, port, &segments, at)
}

/// What a plain window can have, and the least of each that a long run must meet.
const SITUATIONS: [(&str, u64); 13] = [
    ("a clock change inside", 1_000),
    ("an ungoverned date inside", 1_000),
    ("a skipped date inside", 200),
    ("a skipped date inside, with a rule", 200),
    ("a date read twice inside", 200),
    ("a point that clocks jump over", 200),
    ("an edge of coverage inside", 1_000),
    ("all outside coverage", 200),
    ("1 ns long", 1_000),
    ("100 days long or more", 1_000),
    ("a run of 3,660 dates, covered to a governed end", 50),
    ("from a midnight", 1_000),
    ("to a midnight", 1_000),
];
/// The least plain windows of a long run.
const WINDOWS: u64 = 20_000;

fn situations(venue: &Venue, run: &Run, (start, end): (i64, i64)) -> [bool; 13] {
    let inside = |at: i64| start < at && at < end;
    let length = |day: i64| venue.midnight(day + 1) - venue.midnight(day);
    let (from, to) = venue.coverage;
    let mut met = [false; 13];
    met[0] = venue.changes.iter().any(|&(at, _)| inside(at));
    for day in run.first..=run.last {
        let (midnight, next) = (venue.midnight(day), venue.midnight(day + 1));
        let governed = venue.governing(day).is_some();
        met[1] |= !governed && midnight.max(start).max(from) < next.min(end).min(to);
        met[2] |= length(day) == 0 && inside(midnight);
        met[3] |= length(day) == 0 && inside(midnight) && governed;
        met[4] |= length(day) == 2 * DATE;
        met[5] |= governed && length(day) > 0 && jumps(venue, day);
    }
    met[6] = inside(from) || inside(to);
    met[7] = end <= from || to <= start;
    met[8] = end - start == 1;
    met[9] = end - start >= 100 * DATE;
    met[10] = run.last - run.first + 1 == MOST_DATES
        && venue.covers(start)
        && venue.covers(end - 1)
        && venue.governing(run.last).is_some();
    met[11] = start == venue.midnight(run.first);
    met[12] = end == venue.midnight(run.last + 1);
    met
}

/// A point of the date is read by no instant.
fn jumps(venue: &Venue, day: i64) -> bool {
    let rule = venue.governing(day).expect("a governed date");
    rule.points
        .iter()
        .any(|&(time, _)| venue.read_at(venue.instant(day, time)) != (day, time))
}

/// What a run met.
#[derive(Default)]
struct Counts {
    plain: u64,
    instants: usize,
    situations: [u64; 13],
    /// Windows that lack one part and no other, or several of `IDLE`; and those of them where the sentence is false.
    lacking: [(u64, u64); 9],
    lacking_more: u64,
}

/// Without these the sentence still holds: docs/DIFFERENCES.md says why.
const IDLE: Lacks = FALLS | ORDER | BEFORE | AFTER;

impl Counts {
    fn print(&self) {
        println!("plain windows {}", self.plain);
        println!("instants {}", self.instants);
        for ((name, _), count) in SITUATIONS.iter().zip(self.situations) {
            println!("situation {name} {count}");
        }
        let names = PARTS.iter().chain([&"several that do not matter"]);
        for (name, (windows, failed)) in names.zip(self.lacking) {
            println!("lacking {name}: {windows}, without agreement {failed}");
        }
        println!("lacking more {}", self.lacking_more);
    }

    /// What a long run met too seldom.
    fn missing(&self) -> Vec<String> {
        let mut missing = Vec::new();
        if self.plain < WINDOWS {
            missing.push("plain windows".to_owned());
        }
        for ((name, least), count) in SITUATIONS.iter().zip(self.situations) {
            if count < *least {
                missing.push((*name).to_owned());
            }
        }
        for (place, name) in PARTS.iter().enumerate() {
            if IDLE >> place & 1 == 0 && self.lacking[place].1 == 0 {
                missing.push(format!("no agreement, lacking {name}"));
            }
        }
        missing
    }
}

/// A book's windows. Ends with 1 where a plain window, or one that lacks only what does not matter, has an instant without
/// agreement, and where the segments of any are out of shape.
fn book_and_windows(seed: u64, place: u64, room: &mut Room, counts: &mut Counts) {
    let mut random = Random::new(seed, place);
    let records = plain_books::book(&mut random);
    let Some(mut venue) = Venue::of(&records) else {
        return;
    };
    let bytes = book::encode(&records);
    assert_eq!(judge(&bytes), 0, "made to be accepted");
    let mut port = Port::new(&bytes, room);
    for window in plain_books::windows(&mut random, &venue) {
        let Some(run) = venue.window(window.0, window.1) else {
            continue;
        };
        let idle = run.lacks & !IDLE == 0;
        let alone = run.lacks.is_power_of_two();
        if !idle && !alone {
            counts.lacking_more += 1;
            continue;
        }
        let asked = check(&venue, &run, &mut port, window);
        let parts = asked.false_at.is_some();
        if !asked.in_shape || idle && parts {
            println!("DIFFERENCE: plain --seed {seed} --from {place} --books 1");
            println!("{records:?}\n{window:?} {run:?}");
            println!("in shape {}, {:?}", asked.in_shape, asked.false_at);
            exit(1);
        }
        if run.lacks != 0 {
            let several = usize::from(!alone) * PARTS.len();
            let part = several.max(run.lacks.trailing_zeros() as usize);
            counts.lacking[part].0 += 1;
            counts.lacking[part].1 += u64::from(parts);
            continue;
        }
        counts.plain += 1;
        counts.instants += asked.instants;
        let met = situations(&venue, &run, window);
        for (count, met) in counts.situations.iter_mut().zip(met) {
            *count += u64::from(met);
        }
    }
}

/// Room for the longest answer.
const ROOM: usize = 1 << 23;

pub fn run(seed: u64, from: u64, books: u64, long: bool) {
    let mut room = Room::new(ROOM);
    lacking::run(&mut room);
    let mut counts = Counts::default();
    for place in from..from + books {
        book_and_windows(seed, place, &mut room, &mut counts);
    }
    counts.print();
    println!("differences 0");
    let missing = counts.missing();
    if long && !missing.is_empty() {
        println!("met too seldom:\n{}", missing.join("\n"));
        exit(1);
    }
}
