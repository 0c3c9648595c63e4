//! The places of doubt that docs/DIFFERENCES.md lists, each with a small input, asked of both sides: what is said there
//! was run. Day 0 here is Monday 2026-01-05, and instants are seconds from its midnight in UTC.

use crate::answer::{Answer, decode};
use crate::book::{self, Event, Published, Record, Rule};
use crate::given::{Query, Venue, lend};
use crate::judge::{DAYS, INSTANTS, SECOND};
use crate::port::{self, Room};
use crate::row_places;
use std::process::exit;

const MONDAY: i64 = 20_458;
pub const DAY: i64 = 86_400;
pub const HOUR: i64 = 3_600;

pub fn at(seconds: i64) -> i64 {
    (MONDAY * DAY + seconds) * SECOND
}

/// Coverage from five days before Monday to twenty after, and a first offset.
pub fn head(offset: i64) -> Record {
    covering(-5 * DAY, 20 * DAY, offset)
}

pub fn covering(start: i64, end: i64, offset: i64) -> Record {
    Record::Head {
        start: at(start),
        end: at(end),
        offset: offset as i32,
    }
}

pub fn change(seconds: i64, offset: i64) -> Record {
    Record::Change {
        at: MONDAY * DAY + seconds,
        offset: offset as i32,
    }
}

/// A weekly rule of evidence 1, exact, with times in seconds of the day.
pub fn weekly(mask: u8, points: &[(i64, u8)]) -> Rule {
    let points = points
        .iter()
        .map(|&(time, phase)| ((time * SECOND) as u64, phase))
        .collect();
    Rule::weekly(1, mask, points)
}

/// Closed on every date, in one span.
pub fn closed() -> Record {
    Record::Rule(weekly(127, &[(0, 0)]))
}

/// A holiday on one day, counted from Monday.
fn holiday(day: i64, label: u16, points: &[(i64, u8)]) -> Record {
    let day = (MONDAY + day) as i32;
    Record::Rule(Rule {
        first: day,
        last: day,
        code: 1,
        label,
        ..weekly(0, points)
    })
}

/// Events on every date, evidence 7, granularity of 0 ns.
fn events(times: &[i64]) -> Record {
    Record::Event(Event {
        first: DAYS[0],
        last: DAYS[1],
        code: 7,
        evidence: 7,
        published: Published::tagged(1),
        times: times.iter().map(|time| (time * SECOND) as u64).collect(),
    })
}

fn point(seconds: i64) -> Query {
    Query::Point { at: at(seconds) }
}

fn window(start: i64, end: i64) -> Query {
    Query::Window {
        start: at(start),
        end: at(end),
    }
}

/// An instant in seconds from Monday's midnight, with the nanoseconds that are over or missing.
fn told_at(nanos: i64) -> String {
    let from = nanos - at(0);
    let (seconds, rest) = (from.div_euclid(SECOND), from.rem_euclid(SECOND));
    match rest {
        0 => seconds.to_string(),
        999_999_999 => format!("{}-1ns", seconds + 1),
        _ => format!("{seconds}+{rest}ns"),
    }
}

/// An answer in few words: tags with their two numbers where they are instants.
fn told(answer: &Answer) -> String {
    let doubt = |doubt: &crate::answer::Doubt| match doubt.tag {
        4 | 5 => format!(
            "{}({},{})",
            doubt.tag,
            told_at(doubt.first),
            told_at(doubt.second)
        ),
        tag => tag.to_string(),
    };
    let present = |coverage: &crate::answer::Coverage| u8::from(coverage.is_some());
    match answer {
        Answer::Phase(p) => format!(
            "P {}..{} phase {} code {} label {} evidence {} from {} tag {} to {} tag {} whole {} events {}",
            told_at(p.start),
            told_at(p.end),
            p.phase,
            p.code,
            p.label,
            p.evidence,
            told_at(p.from.at),
            doubt(&p.from.doubt),
            told_at(p.to.at),
            doubt(&p.to.doubt),
            doubt(&p.whole),
            p.events
        ),
        Answer::Unknown {
            start,
            end,
            coverage,
        } => format!(
            "U {}..{} coverage {}",
            told_at(*start),
            told_at(*end),
            present(coverage)
        ),
        Answer::Event { at, doubt: d, .. } => format!("E {} tag {}", told_at(*at), doubt(d)),
        Answer::Missing { at, coverage } => {
            format!("? {} coverage {}", told_at(*at), present(coverage))
        }
        other => format!("{other:?}"),
    }
}

/// One question: its place in DIFFERENCES, the book, the query, the room (as long as it takes where none is said), and
/// what both sides have to tell: the number, then the answer.
pub struct Doubtful {
    pub name: &'static str,
    pub book: Vec<Record>,
    pub query: Query,
    pub room: Option<usize>,
    pub expected: &'static [&'static str],
}

/// Asks both sides and tells what each said.
fn ask(one: &Doubtful) -> [Vec<String>; 2] {
    let bytes = book::encode(&one.book);
    let answer = Venue::open(&bytes).and_then(|venue| venue.answer(&one.query));
    let length = answer.as_ref().map_or(0, Vec::len);
    let room = one.room.unwrap_or(length);
    let (mut theirs, mut ours) = (Room::new(room), Room::new(room));
    let rust = lend(&answer, theirs.bytes_mut());
    let port = port::ask(&bytes, &one.query, &mut ours);
    if theirs.bytes() != ours.bytes() || !ours.guarded() {
        println!("{}: the rooms differ", one.name);
        exit(1);
    }
    [(rust, &theirs), (port, &ours)].map(|((number, length), room)| {
        let mut lines = vec![format!("number {number} length {length}")];
        let answers = decode(&room.bytes()[..length]).expect("records");
        lines.extend(answers.iter().map(told));
        lines
    })
}

fn places() -> Vec<Doubtful> {
    vec![
        Doubtful {
            name: "8: an edge outside the range, and reversed",
            book: vec![head(0), closed()],
            query: Query::Window {
                start: INSTANTS[1] + 1,
                end: at(0),
            },
            room: None,
            expected: &["number 10 length 0"],
        },
        Doubtful {
            name: "8: reversed",
            book: vec![head(0), closed()],
            query: window(1, 0),
            room: None,
            expected: &["number 11 length 0"],
        },
        Doubtful {
            name: "8: empty",
            book: vec![head(0), closed()],
            query: window(0, 0),
            room: None,
            expected: &["number 12 length 0"],
        },
        Doubtful {
            name: "8: a book that is refused, and an instant outside the range",
            book: vec![covering(0, 0, 0)],
            query: Query::Point {
                at: INSTANTS[1] + 1,
            },
            room: None,
            expected: &["number 8 length 0"],
        },
        Doubtful {
            name: "9: a room exactly as long",
            book: vec![head(0), closed()],
            query: point(0),
            room: Some(105),
            expected: &[
                "number 0 length 105",
                "P 0..86400 phase 0 code 0 label 0 evidence 1 from 0 tag 0 to 86400 tag 0 whole 0 events 0",
            ],
        },
        Doubtful {
            name: "9: a room one byte short",
            book: vec![head(0), closed()],
            query: point(0),
            room: Some(104),
            expected: &["number 16 length 0"],
        },
        Doubtful {
            name: "9: an answer of length 0, no room",
            book: vec![head(0)],
            query: window(0, DAY),
            room: Some(0),
            expected: &["number 0 length 0"],
        },
        Doubtful {
            name: "12: raised to the predecessor as raised",
            book: vec![
                head(0),
                change(10 * HOUR, 2 * HOUR),
                Record::Rule(weekly(
                    127,
                    &[
                        (0, 0),
                        (41_400, 1),
                        (12 * HOUR, 2),
                        (45_000, 3),
                        (14 * HOUR, 4),
                    ],
                )),
            ],
            query: point(42_300),
            room: None,
            expected: &[
                "number 0 length 105",
                "P 41400..43200 phase 3 code 0 label 0 evidence 1 from 41400 tag 0 to 43200 tag 0 whole 0 events 0",
            ],
        },
        Doubtful {
            name: "13: tag 5 is by the offset before, then after",
            book: vec![
                head(0),
                change(10 * HOUR, HOUR),
                Record::Rule(weekly(127, &[(0, 0), (37_800, 3)])),
            ],
            query: point(11 * HOUR),
            room: None,
            expected: &[
                "number 0 length 105",
                "P 37800..82800 phase 3 code 0 label 0 evidence 1 from 37800 tag 5(37800,34200) to 82800 tag 0 whole 5(37800,34200) events 0",
            ],
        },
        Doubtful {
            name: "13: tag 4 is the earlier, then the later",
            book: vec![
                head(0),
                change(10 * HOUR, -HOUR),
                Record::Rule(weekly(127, &[(0, 0), (34_200, 3)])),
            ],
            query: point(9 * HOUR),
            room: None,
            expected: &[
                "number 0 length 105",
                "P 0..34200 phase 0 code 0 label 0 evidence 1 from 0 tag 0 to 34200 tag 4(34200,37800) whole 4(34200,37800) events 0",
            ],
        },
        Doubtful {
            name: "14: exact, then 0 ns, joined",
            book: vec![
                head(0),
                Record::Rule(weekly(1, &[(0, 0)])),
                Record::Rule(Rule {
                    published: Published::tagged(1),
                    ..weekly(2, &[(0, 0)])
                }),
            ],
            query: window(0, 2 * DAY),
            room: None,
            expected: &[
                "number 0 length 105",
                "P 0..172800 phase 0 code 0 label 0 evidence 1 from 0 tag 0 to 172800 tag 1 whole 0 events 0",
            ],
        },
        Doubtful {
            name: "14: 0 ns, then exact, joined",
            book: vec![
                head(0),
                Record::Rule(Rule {
                    published: Published::tagged(1),
                    ..weekly(1, &[(0, 0)])
                }),
                Record::Rule(weekly(2, &[(0, 0)])),
            ],
            query: window(0, 2 * DAY),
            room: None,
            expected: &[
                "number 0 length 105",
                "P 0..172800 phase 0 code 0 label 0 evidence 1 from 0 tag 1 to 172800 tag 0 whole 1 events 0",
            ],
        },
        Doubtful {
            name: "14: a fold, then a process start",
            book: vec![
                head(0),
                change(10 * HOUR, -HOUR),
                Record::Rule(Rule {
                    published: Published::tagged(3),
                    ..weekly(127, &[(0, 0), (34_200, 3)])
                }),
            ],
            query: point(10 * HOUR),
            room: None,
            expected: &[
                "number 0 length 105",
                "P 34200..90000 phase 3 code 0 label 0 evidence 1 from 34200 tag 4(34200,37800) to 90000 tag 3 whole 4(34200,37800) events 0",
            ],
        },
        Doubtful {
            name: "14: a process start, then a fold",
            book: vec![
                head(0),
                change(10 * HOUR, -HOUR),
                Record::Rule(Rule {
                    published: Published::tagged(3),
                    ..weekly(127, &[(0, 0), (34_200, 3)])
                }),
            ],
            query: point(9 * HOUR),
            room: None,
            expected: &[
                "number 0 length 105",
                "P 0..34200 phase 0 code 0 label 0 evidence 1 from 0 tag 3 to 34200 tag 4(34200,37800) whole 3 events 0",
            ],
        },
        Doubtful {
            name: "15: unknown after coverage, where the walk stopped early",
            book: vec![covering(-DAY, 2 * DAY, 0), change(1_800, -HOUR), closed()],
            query: window(1_800, 3 * DAY),
            room: None,
            expected: &["number 0 length 37", "U 172800..259200 coverage 1"],
        },
        Doubtful {
            name: "15: a window on dates that no rule governs",
            book: vec![head(0)],
            query: window(0, DAY),
            room: None,
            expected: &["number 0 length 0"],
        },
        Doubtful {
            name: "16: a point that no rule governs",
            book: vec![head(0)],
            query: point(0),
            room: None,
            expected: &["number 0 length 29", "? 0 coverage 1"],
        },
        Doubtful {
            name: "16: a book of zero bytes, point",
            book: vec![],
            query: point(0),
            room: None,
            expected: &["number 0 length 29", "? 0 coverage 0"],
        },
        Doubtful {
            name: "16: a book of zero bytes, window",
            book: vec![],
            query: window(0, DAY),
            room: None,
            expected: &["number 0 length 37", "U 0..86400 coverage 0"],
        },
        Doubtful {
            name: "17: an event at the very end of the span",
            book: vec![head(0), closed(), events(&[0])],
            query: point(0),
            room: None,
            expected: &[
                "number 0 length 140",
                "P 0..86400 phase 0 code 0 label 0 evidence 1 from 0 tag 0 to 86400 tag 0 whole 0 events 1",
                "E 0 tag 1",
            ],
        },
        Doubtful {
            name: "17: an event's doubt, and its rule's",
            book: vec![
                head(0),
                change(10 * HOUR, -HOUR),
                closed(),
                events(&[34_200, 12 * HOUR]),
            ],
            query: point(0),
            room: None,
            expected: &[
                "number 0 length 175",
                "P 0..90000 phase 0 code 0 label 0 evidence 1 from 0 tag 0 to 90000 tag 0 whole 0 events 2",
                "E 34200 tag 4(34200,37800)",
                "E 46800 tag 1",
            ],
        },
        Doubtful {
            name: "17a: a span beyond coverage",
            book: vec![covering(6 * HOUR, 18 * HOUR, 0), closed()],
            query: point(12 * HOUR),
            room: None,
            expected: &[
                "number 0 length 105",
                "P 0..86400 phase 0 code 0 label 0 evidence 1 from 0 tag 0 to 86400 tag 0 whole 0 events 0",
            ],
        },
        Doubtful {
            name: "17a: the same as a window",
            book: vec![covering(6 * HOUR, 18 * HOUR, 0), closed()],
            query: window(0, DAY),
            room: None,
            expected: &[
                "number 0 length 179",
                "U 0..21600 coverage 1",
                "P 21600..64800 phase 0 code 0 label 0 evidence 1 from 0 tag 0 to 86400 tag 0 whole 0 events 0",
                "U 64800..86400 coverage 1",
            ],
        },
        Doubtful {
            name: "second pass: a window from its start",
            book: vec![head(0), change(1_800, -HOUR), closed()],
            query: window(1_800, DAY),
            room: None,
            expected: &["number 0 length 0"],
        },
        Doubtful {
            name: "second pass: 1 ns earlier",
            book: vec![head(0), change(1_800, -HOUR), closed()],
            query: Query::Window {
                start: at(1_800) - 1,
                end: at(DAY),
            },
            room: None,
            expected: &[
                "number 0 length 105",
                "P 1800-1ns..86400 phase 0 code 0 label 0 evidence 1 from 0 tag 4(0,3600) to 90000 tag 0 whole 4(0,3600) events 0",
            ],
        },
        Doubtful {
            name: "second pass: the point",
            book: vec![head(0), change(1_800, -HOUR), closed()],
            query: point(1_800),
            room: None,
            expected: &[
                "number 0 length 105",
                "P 0..90000 phase 0 code 0 label 0 evidence 1 from 0 tag 4(0,3600) to 90000 tag 0 whole 4(0,3600) events 0",
            ],
        },
        Doubtful {
            name: "second pass: coverage begins in it",
            book: vec![covering(1_800, 2 * DAY, 0), change(1_800, -HOUR), closed()],
            query: window(0, DAY),
            room: None,
            expected: &["number 0 length 37", "U 0..1800 coverage 1"],
        },
        Doubtful {
            name: "gap over midnight: a window from the change",
            book: vec![head(0), change(-1_800, HOUR), closed()],
            query: window(-1_800, HOUR),
            room: None,
            expected: &[
                "number 0 length 105",
                "P 0..3600 phase 0 code 0 label 0 evidence 1 from 0 tag 5(0,-3600) to 82800 tag 0 whole 5(0,-3600) events 0",
            ],
        },
        Doubtful {
            name: "gap over midnight: the point",
            book: vec![head(0), change(-1_800, HOUR), closed()],
            query: point(-1_800),
            room: None,
            expected: &[
                "number 0 length 105",
                "P -86400..0 phase 0 code 0 label 0 evidence 1 from -86400 tag 0 to 0 tag 5(0,-3600) whole 5(0,-3600) events 0",
            ],
        },
        Doubtful {
            name: "skipped date: a window over it",
            book: vec![
                head(-12 * HOUR),
                change(12 * HOUR, 12 * HOUR),
                closed(),
                holiday(0, 5, &[(0, 5), (12 * HOUR, 6)]),
            ],
            query: window(11 * HOUR, 25 * HOUR),
            room: None,
            expected: &[
                "number 0 length 105",
                "P 39600..90000 phase 0 code 0 label 0 evidence 1 from -43200 tag 0 to 129600 tag 0 whole 5(43200,-43200) events 0",
            ],
        },
        Doubtful {
            name: "skipped date: the point",
            book: vec![
                head(-12 * HOUR),
                change(12 * HOUR, 12 * HOUR),
                closed(),
                holiday(0, 5, &[(0, 5), (12 * HOUR, 6)]),
            ],
            query: point(12 * HOUR),
            room: None,
            expected: &[
                "number 0 length 105",
                "P 43200..86400 phase 5 code 1 label 5 evidence 1 from 43200 tag 5(43200,-43200) to 86400 tag 5(86400,0) whole 5(43200,-43200) events 0",
            ],
        },
        Doubtful {
            name: "fold of 32 hours: the point",
            book: vec![head(16 * HOUR), change(10 * HOUR, -16 * HOUR), closed()],
            query: point(10 * HOUR),
            room: None,
            expected: &["number 0 length 29", "? 36000 coverage 1"],
        },
        Doubtful {
            name: "fold of 32 hours: a window over it",
            book: vec![head(16 * HOUR), change(10 * HOUR, -16 * HOUR), closed()],
            query: window(9 * HOUR, 11 * HOUR),
            room: None,
            expected: &[
                "number 0 length 105",
                "P 32400..39600 phase 0 code 0 label 0 evidence 1 from 28800 tag 4(28800,144000) to 230400 tag 0 whole 4(28800,144000) events 0",
            ],
        },
        Doubtful {
            name: "gap of 32 hours: the point",
            book: vec![head(-16 * HOUR), change(0, 16 * HOUR), closed()],
            query: point(HOUR),
            room: None,
            expected: &[
                "number 0 length 105",
                "P -28800..57600 phase 0 code 0 label 0 evidence 1 from -28800 tag 0 to 57600 tag 5(57600,-57600) whole 5(57600,-57600) events 0",
            ],
        },
        Doubtful {
            name: "gap of 32 hours: a window from the change",
            book: vec![head(-16 * HOUR), change(0, 16 * HOUR), closed()],
            query: window(0, 9 * HOUR),
            room: None,
            expected: &[
                "number 0 length 105",
                "P 28800..32400 phase 0 code 0 label 0 evidence 1 from 28800 tag 0 to 115200 tag 0 whole 0 events 0",
            ],
        },
        Doubtful {
            name: "3,660 turns: a window of as many dates",
            book: vec![covering(0, 3_662 * DAY, 0), closed()],
            query: window(0, 3_660 * DAY),
            room: None,
            expected: &[
                "number 0 length 105",
                "P 0..316224000 phase 0 code 0 label 0 evidence 1 from 0 tag 0 to 316224000 tag 0 whole 0 events 0",
            ],
        },
        Doubtful {
            name: "3,660 turns: 1 ns more",
            book: vec![covering(0, 3_662 * DAY, 0), closed()],
            query: Query::Window {
                start: at(0),
                end: at(3_660 * DAY) + 1,
            },
            room: None,
            expected: &[
                "number 0 length 105",
                "P 0..316224000 phase 0 code 0 label 0 evidence 1 from 0 tag 0 to 316224000 tag 0 whole 0 events 0",
            ],
        },
        Doubtful {
            name: "3,660 turns: and beyond coverage",
            book: vec![covering(0, 3_662 * DAY, 0), closed()],
            query: window(0, 3_663 * DAY),
            room: None,
            expected: &[
                "number 0 length 142",
                "P 0..316224000 phase 0 code 0 label 0 evidence 1 from 0 tag 0 to 316224000 tag 0 whole 0 events 0",
                "U 316396800..316483200 coverage 1",
            ],
        },
        Doubtful {
            name: "3,660 turns: the point",
            book: vec![covering(0, 3_662 * DAY, 0), closed()],
            query: point(3_660 * DAY),
            room: None,
            expected: &[
                "number 0 length 105",
                "P 316224000..316310400 phase 0 code 0 label 0 evidence 1 from 316224000 tag 0 to 316310400 tag 0 whole 0 events 0",
            ],
        },
        Doubtful {
            name: "tile exactly: a date that no rule governs",
            book: vec![head(0), Record::Rule(weekly(1, &[(0, 0)]))],
            query: window(0, 2 * DAY),
            room: None,
            expected: &[
                "number 0 length 105",
                "P 0..86400 phase 0 code 0 label 0 evidence 1 from 0 tag 0 to 86400 tag 0 whole 0 events 0",
            ],
        },
        Doubtful {
            name: "same rule: two rules of one evidence",
            book: vec![head(0), closed(), holiday(1, 5, &[(0, 0)])],
            query: window(0, 2 * DAY),
            room: None,
            expected: &[
                "number 0 length 105",
                "P 0..172800 phase 0 code 0 label 0 evidence 1 from 0 tag 0 to 172800 tag 0 whole 0 events 0",
            ],
        },
        Doubtful {
            name: "same rule: two rules of two evidences",
            book: vec![
                head(0),
                Record::Rule(weekly(1, &[(0, 0)])),
                Record::Rule(Rule {
                    evidence: 2,
                    ..weekly(2, &[(0, 0)])
                }),
            ],
            query: window(0, 2 * DAY),
            room: None,
            expected: &[
                "number 0 length 210",
                "P 0..86400 phase 0 code 0 label 0 evidence 1 from 0 tag 0 to 86400 tag 0 whole 0 events 0",
                "P 86400..172800 phase 0 code 0 label 0 evidence 2 from 86400 tag 0 to 172800 tag 0 whole 0 events 0",
            ],
        },
        Doubtful {
            name: "overlap: the point",
            book: vec![
                head(0),
                change(23 * HOUR, HOUR),
                Record::Rule(weekly(127, &[(0, 0), (84_600, 0)])),
                events(&[300, 600]),
            ],
            query: point(83_400),
            room: None,
            expected: &[
                "number 0 length 245",
                "P 0..84600 phase 0 code 0 label 0 evidence 1 from 0 tag 0 to 84600 tag 5(84600,81000) whole 5(84600,81000) events 4",
                "E 300 tag 1",
                "E 600 tag 1",
                "E 83100 tag 1",
                "E 83400 tag 1",
            ],
        },
        Doubtful {
            name: "overlap: a window from there",
            book: vec![
                head(0),
                change(23 * HOUR, HOUR),
                Record::Rule(weekly(127, &[(0, 0), (84_600, 0)])),
                events(&[300, 600]),
            ],
            query: window(83_400, DAY),
            room: None,
            expected: &[
                "number 0 length 175",
                "P 83400..86400 phase 0 code 0 label 0 evidence 1 from 82800 tag 0 to 167400 tag 0 whole 0 events 2",
                "E 83100 tag 1",
                "E 83400 tag 1",
            ],
        },
        Doubtful {
            name: "overlap: a window over it, events twice and out of order",
            book: vec![
                head(0),
                change(23 * HOUR, HOUR),
                Record::Rule(weekly(127, &[(0, 0), (84_600, 0)])),
                events(&[300, 600]),
            ],
            query: window(22 * HOUR, DAY),
            room: None,
            expected: &[
                "number 0 length 315",
                "P 79200..86400 phase 0 code 0 label 0 evidence 1 from 0 tag 0 to 167400 tag 0 whole 5(84600,81000) events 6",
                "E 300 tag 1",
                "E 600 tag 1",
                "E 83100 tag 1",
                "E 83400 tag 1",
                "E 83100 tag 1",
                "E 83400 tag 1",
            ],
        },
    ]
}

/// Asks one of both sides; ends with 1 where one of them does not tell what is expected.
pub fn expect(one: &Doubtful) {
    let [rust, port] = ask(one);
    println!("{}", one.name);
    for line in &rust {
        println!("  {line}");
    }
    if rust != port || rust != one.expected {
        println!("DIFFERENCE\nport {port:#?}\nexpected {:#?}", one.expected);
        exit(1);
    }
}

/// Asks every place; the first that is not as expected, on either side, ends the run with 1.
pub fn run() {
    let places = places();
    places.iter().for_each(expect);
    // The Rust has a function that says whether a timeline tiles: it does not, beside a date that no rule governs.
    let hole = places.iter().find(|one| one.name.starts_with("tile"));
    let hole = hole.expect("the place");
    let venue = Venue::open(&book::encode(&hole.book)).expect("an accepted book");
    if venue.tiles(at(0), at(2 * DAY)) || !venue.tiles(at(0), at(DAY)) {
        println!("DIFFERENCE: tiles_interval");
        exit(1);
    }
    for (name, rules, expected) in unchecked() {
        let mut records = vec![covering(0, DAY, 0)];
        records.extend(rules.into_iter().map(Record::Rule));
        let bytes = book::encode(&records);
        let venue = Venue::open(&bytes).expect("an accepted book");
        let (number, _) = port::ask(&bytes, &point(0), &mut Room::new(105));
        assert_eq!(number, 0, "accepted by the port");
        let refused = venue.refused_by_from_parts();
        println!(
            "from_parts: {name}\n  {}",
            refused.as_deref().unwrap_or("taken")
        );
        if refused.as_deref() != expected {
            println!("DIFFERENCE: expected {expected:?}");
            exit(1);
        }
    }
    let of_rows = row_places::run();
    println!("places {}", places.len() + unchecked().len() + of_rows);
}

/// Books of Monday alone that document 01 accepts, and the error that the Rust's `from_parts` has for them.
fn unchecked() -> Vec<(&'static str, Vec<Rule>, Option<&'static str>)> {
    let until = |day: i64, mask| Rule {
        first: MONDAY as i32,
        last: (MONDAY + day) as i32,
        ..weekly(mask, &[(0, 0)])
    };
    vec![
        ("a rule for the date", vec![until(0, 127)], None),
        ("no rule", vec![], Some("UncoveredDate")),
        ("a mask of 0", vec![until(0, 0)], Some("UncoveredDate")),
        (
            "a rule for Tuesday too",
            vec![until(1, 127)],
            Some("RuleOutsideCoverage"),
        ),
    ]
}
