//! The places of doubt of docs/DIFFERENCES.md about tallies and rows, asked of both sides. Day 0 and instants are as in
//! `places`.

use crate::answer::{Answer, Boundary, Doubt, Phase, encode};
use crate::book::{self, Record};
use crate::drawn::{self, Cells};
use crate::given::{Query, Venue, lend};
use crate::judge::{INSTANTS, SECOND};
use crate::places::{DAY, HOUR, at, change, closed, covering, head, weekly};
use crate::port::{self, Room};
use std::process::exit;

/// Nanoseconds as seconds, with those that are over.
fn seconds(nanos: i128) -> String {
    let (whole, rest) = (
        nanos.div_euclid(i128::from(SECOND)),
        nanos.rem_euclid(i128::from(SECOND)),
    );
    match rest {
        0 => whole.to_string(),
        _ => format!("{whole}+{rest}ns"),
    }
}

/// A day row or the tally: its edges, and its totals that are not 0.
fn told(answer: &Answer) -> String {
    let (name, start, end, totals) = match answer {
        Answer::Day { start, end, totals } => ("day", start, end, totals),
        Answer::Tally { start, end, totals } => ("tally", start, end, totals),
        other => panic!("no row of a tally: {other:?}"),
    };
    let from = |edge: &i64| seconds(i128::from(*edge) - i128::from(at(0)));
    let mut line = format!("{name} {}..{}", from(start), from(end));
    for (place, total) in totals.iter().enumerate().filter(|(_, total)| **total > 0) {
        let of = match place {
            8 => "unknown".to_owned(),
            9 => "none".to_owned(),
            phase => format!("phase {phase}"),
        };
        line += &format!(", {of} {}", seconds(i128::from(*total)));
    }
    line
}

/// A tally: what both sides have to tell first, the number and length, then the rows.
struct Totals {
    name: &'static str,
    book: Vec<Record>,
    window: (i64, i64),
    room: Option<usize>,
    expected: &'static [&'static str],
}

fn expect_totals(one: &Totals) {
    let bytes = book::encode(&one.book);
    let (start, end) = one.window;
    let query = Query::Tally { start, end };
    let answer = Venue::open(&bytes).and_then(|venue| venue.answer(&query));
    let room = one.room.unwrap_or(answer.as_ref().map_or(0, Vec::len));
    let (mut theirs, mut ours) = (Room::new(room), Room::new(room));
    let rust = lend(&answer, theirs.bytes_mut());
    let port = port::ask(&bytes, &query, &mut ours);
    let same = rust == port && theirs.bytes() == ours.bytes() && ours.guarded();
    let mut lines = vec![format!("number {} length {}", rust.0, rust.1)];
    let answers = crate::answer::decode(&theirs.bytes()[..rust.1]).expect("records");
    lines.extend(answers.iter().map(told));
    lines.truncate(one.expected.len().max(1));
    println!("{}", one.name);
    for line in &lines {
        println!("  {line}");
    }
    if !same || lines != one.expected {
        println!("DIFFERENCE: port {port:?}, expected {:#?}", one.expected);
        exit(1);
    }
}

/// Book A of document 01: all of 2026, Monday to Friday 08:00 to 16:30 in phase 3.
fn book_a() -> Vec<Record> {
    vec![
        covering(-4 * DAY, 361 * DAY, 0),
        Record::Rule(weekly(31, &[(0, 0), (8 * HOUR, 3), (59_400, 0)])),
        Record::Rule(weekly(96, &[(0, 0)])),
    ]
}

fn totals() -> Vec<Totals> {
    let window = |start, end| (at(start), at(end));
    vec![
        Totals {
            name: "Book A, 36 hours",
            book: book_a(),
            window: window(0, 36 * HOUR),
            room: None,
            expected: &[
                "number 0 length 300",
                "day 0..86400, phase 0 55800, phase 3 30600",
                "day 86400..129600, phase 0 28800, phase 3 14400",
                "tally 0..129600, phase 0 84600, phase 3 45000",
            ],
        },
        Totals {
            name: "13: 400 days",
            book: vec![head(0), closed()],
            window: window(0, 400 * DAY),
            room: None,
            expected: &["number 0 length 40100"],
        },
        Totals {
            name: "13: 400 days and 1 ns",
            book: vec![head(0), closed()],
            window: (at(0), at(400 * DAY) + 1),
            room: Some(50_000),
            expected: &["number 13 length 0"],
        },
        Totals {
            name: "8: 400 days and 1 ns, the other way round",
            book: vec![head(0), closed()],
            window: (at(400 * DAY) + 1, at(0)),
            room: Some(50_000),
            expected: &["number 11 length 0"],
        },
        Totals {
            name: "8: longer than 400 days, to 1 ns past the range",
            book: vec![head(0), closed()],
            window: (INSTANTS[0], INSTANTS[1] + 1),
            room: Some(50_000),
            expected: &["number 10 length 0"],
        },
        Totals {
            name: "9: 400 days, room one short",
            book: vec![head(0), closed()],
            window: window(0, 400 * DAY),
            room: Some(40_099),
            expected: &["number 16 length 0"],
        },
        Totals {
            name: "18: rows are 24 hours, also where clocks change",
            book: vec![
                head(0),
                change(36 * HOUR, HOUR),
                Record::Rule(weekly(127, &[(0, 0), (12 * HOUR, 3)])),
            ],
            window: window(0, 2 * DAY),
            room: None,
            expected: &[
                "number 0 length 300",
                "day 0..86400, phase 0 43200, phase 3 43200",
                "day 86400..172800, phase 0 46800, phase 3 39600",
                "tally 0..172800, phase 0 90000, phase 3 82800",
            ],
        },
        Totals {
            name: "18: a day and 1 ns",
            book: vec![head(0), closed()],
            window: (at(0), at(DAY) + 1),
            room: None,
            expected: &[
                "number 0 length 300",
                "day 0..86400, phase 0 86400",
                "day 86400..86400+1ns, phase 0 0+1ns",
                "tally 0..86400+1ns, phase 0 86400+1ns",
            ],
        },
        Totals {
            name: "18: rows cut one timeline: a window from inside the second pass has no phase, its second day neither",
            book: vec![head(0), change(HOUR / 2, -HOUR), closed()],
            window: window(HOUR / 2, 2 * DAY),
            room: None,
            expected: &[
                "number 0 length 300",
                "day 1800..88200, none 86400",
                "day 88200..172800, none 84600",
                "tally 1800..172800, none 171000",
            ],
        },
        Totals {
            name: "18: that second day as a window of its own",
            book: vec![head(0), change(HOUR / 2, -HOUR), closed()],
            window: window(HOUR / 2 + DAY, 2 * DAY),
            room: None,
            expected: &[
                "number 0 length 200",
                "day 88200..172800, phase 0 84600",
                "tally 88200..172800, phase 0 84600",
            ],
        },
        Totals {
            name: "19: a book of zero bytes",
            book: vec![],
            window: window(0, HOUR),
            room: None,
            expected: &[
                "number 0 length 200",
                "day 0..3600, unknown 3600",
                "tally 0..3600, unknown 3600",
            ],
        },
        Totals {
            name: "an ungoverned date, and after coverage",
            book: vec![covering(0, 2 * DAY, 0), Record::Rule(weekly(1, &[(0, 0)]))],
            window: window(DAY / 2, 3 * DAY),
            room: None,
            expected: &[
                "number 0 length 400",
                "day 43200..129600, phase 0 43200, none 43200",
                "day 129600..216000, unknown 43200, none 43200",
                "day 216000..259200, unknown 43200",
                "tally 43200..259200, phase 0 43200, unknown 86400, none 86400",
            ],
        },
    ]
}

/// What is asked of bytes: cells with so much room, a class, or a count.
enum Asked {
    Cells(Cells, usize),
    Class(i64),
    Count(i64),
}

/// Rows: their bytes, the query, and what both sides have to tell.
struct OnRows {
    name: &'static str,
    bytes: Vec<u8>,
    asked: Asked,
    expected: &'static str,
}

fn told_cells((number, length): (u32, usize), room: &Room) -> String {
    let text = String::from_utf8_lossy(&room.bytes()[..length]);
    format!("{number} {text}").trim_end().to_owned()
}

/// The Rust's words and the port's.
fn ask(one: &OnRows) -> [String; 2] {
    let bytes = &one.bytes;
    match &one.asked {
        Asked::Cells(asked, room) => {
            let (mut theirs, mut ours) = (Room::new(*room), Room::new(*room));
            let rust = lend(&drawn::cells(bytes, asked), theirs.bytes_mut());
            let port = port::cells(bytes, asked, &mut ours);
            if theirs.bytes() != ours.bytes() || !ours.guarded() {
                println!("{}: the rooms differ", one.name);
                exit(1);
            }
            [told_cells(rust, &theirs), told_cells(port, &ours)]
        }
        Asked::Class(at) => {
            let rust = drawn::class(bytes, *at).map_or_else(|n| (n, 0), |class| (0, class));
            [rust, port::class(bytes, *at)].map(|(number, class)| format!("{number} class {class}"))
        }
        Asked::Count(at) => {
            let rust = drawn::count(bytes, *at).map_or_else(|n| (n, [0; 4]), |counts| (0, counts));
            [rust, port::count(bytes, *at)].map(|(number, counts)| format!("{number} {counts:?}"))
        }
    }
}

const ANY: Doubt = Doubt {
    tag: 5,
    first: i64::MIN,
    second: -1,
    text: 9,
};

/// A segment in seconds, with an uncertainty that no answer has.
fn segment(start: i64, end: i64, phase: u8) -> Answer {
    segment_at(at(start), at(end), phase, 0)
}

fn segment_at(start: i64, end: i64, phase: u8, events: u32) -> Answer {
    let boundary = Boundary { at: 0, doubt: ANY };
    Answer::Phase(Phase {
        start,
        end,
        phase,
        code: 0,
        label: 0,
        evidence: 0,
        derived: 0,
        from: boundary,
        to: boundary,
        whole: ANY,
        events,
    })
}

fn unknown(start: i64, end: i64) -> Answer {
    Answer::Unknown {
        start: at(start),
        end: at(end),
        coverage: None,
    }
}

/// Cells of a window of seconds, with room enough and no marker; the now is outside the range.
fn cells(start: i64, end: i64, columns: i64) -> Cells {
    Cells {
        start: at(start),
        end: at(end),
        columns,
        marked: false,
        now: i64::MIN,
    }
}

fn marked(cells: Cells, now: i64) -> Cells {
    Cells {
        marked: true,
        now,
        ..cells
    }
}

/// The rows of the document's example: 36 hours of Book A.
fn row_a() -> Vec<Answer> {
    vec![
        segment(0, 8 * HOUR, 0),
        segment(8 * HOUR, 59_400, 3),
        segment(59_400, 32 * HOUR, 0),
        segment(32 * HOUR, 36 * HOUR, 3),
    ]
}

fn on_cells(name: &'static str, of: &[Answer], asked: Cells, expected: &'static str) -> OnRows {
    OnRows {
        name,
        bytes: encode(of),
        asked: Asked::Cells(asked, 600),
        expected,
    }
}

fn on_class(name: &'static str, of: &[Answer], at: i64, expected: &'static str) -> OnRows {
    OnRows {
        name,
        bytes: encode(of),
        asked: Asked::Class(at),
        expected,
    }
}

fn on_count(name: &'static str, of: &[Answer], at: i64, expected: &'static str) -> OnRows {
    OnRows {
        name,
        bytes: encode(of),
        asked: Asked::Count(at),
        expected,
    }
}

/// Numbers in order, columns, and the marker.
fn cells_places() -> Vec<OnRows> {
    let a = row_a();
    let whole = cells(0, 36 * HOUR, 12);
    let wide = cells(0, 36 * HOUR, 513);
    let bad = [Answer::Mark { row: 0 }];
    let reversed = Cells {
        start: whole.end,
        end: whole.start,
        ..wide
    };
    let empty = Cells {
        end: whole.start,
        ..wide
    };
    let short = |room, expected| OnRows {
        name: "9: 12 columns, room 13, and 14",
        bytes: encode(&a),
        asked: Asked::Cells(whole, room),
        expected,
    };
    let few = |columns| Cells { columns, ..whole };
    let mark = |now| marked(whole, now);
    let tiny = Cells {
        end: at(8 * HOUR),
        start: at(8 * HOUR) - 1,
        ..whole
    };
    let range = Cells {
        start: INSTANTS[0],
        end: INSTANTS[1],
        ..whole
    };
    vec![
        on_cells("Book A, 12 columns", &a, whole, "0 [...###.....#]"),
        on_cells(
            "Book A, now at 10 hours",
            &a,
            mark(at(10 * HOUR)),
            "0 [...|##.....#]",
        ),
        on_cells(
            "8: a now outside the range, reversed, 513 columns",
            &bad,
            marked(reversed, INSTANTS[1] + 1),
            "10",
        ),
        on_cells("8: reversed, 513 columns, kind 21", &bad, reversed, "11"),
        on_cells("8: empty, 513 columns, kind 21", &bad, empty, "12"),
        on_cells("8: 513 columns, kind 21", &bad, wide, "14"),
        on_cells("8: kind 21", &bad, whole, "15"),
        on_cells(
            "8: a now outside the range that is not marked",
            &a,
            few(12),
            "0 [...###.....#]",
        ),
        short(13, "16"),
        short(14, "0 [...###.....#]"),
        on_cells("10: columns 11", &a, few(11), "0 [...###.....#]"),
        on_cells("10: columns 0", &a, few(0), "0 [...###.....#]"),
        on_cells(
            "10: the least i64 of columns",
            &a,
            few(i64::MIN),
            "0 [...###.....#]",
        ),
        on_cells("10: 13 columns", &a, few(13), "0 [...###......#]"),
        on_cells("10: the largest i64 of columns", &a, few(i64::MAX), "14"),
        on_cells(
            "11: a now 1 ns before the window",
            &a,
            mark(whole.start - 1),
            "0 [...###.....#]",
        ),
        on_cells(
            "11: a now at the start",
            &a,
            mark(whole.start),
            "0 [|..###.....#]",
        ),
        on_cells(
            "11: a now 1 ns before the end",
            &a,
            mark(whole.end - 1),
            "0 [...###.....|]",
        ),
        on_cells(
            "11: a now at the end",
            &a,
            mark(whole.end),
            "0 [...###.....#]",
        ),
        on_cells(
            "11: a now at the end of the range",
            &a,
            mark(INSTANTS[1]),
            "0 [...###.....#]",
        ),
        on_cells("a window of 1 ns", &a, tiny, "0 [............]"),
        on_cells("zero bytes", &[], marked(whole, at(0)), "0 [|           ]"),
        on_cells(
            "unknown, and a gap",
            &[unknown(0, 12 * HOUR), segment(24 * HOUR, 48 * HOUR, 7)],
            whole,
            "0 [????    !!!!]",
        ),
        on_cells(
            "19a: all that an i64 can say, and the whole range",
            &[segment_at(i64::MIN, 0, 1, 0), segment_at(0, i64::MAX, 6, 0)],
            range,
            "0 [---_________]",
        ),
    ]
}

/// What is a good row, and what a row shows and counts.
fn rows_places() -> Vec<OnRows> {
    let event = Answer::Event {
        code: 0,
        at: i64::MAX,
        doubt: ANY,
        evidence: 0,
    };
    let known = segment_at(at(0), at(DAY), 3, 1);
    let missing = Answer::Missing {
        at: at(0),
        coverage: None,
    };
    let mark = |row| Answer::Mark { row };
    let (early, late) = (segment(0, HOUR, 3), segment(HOUR, 2 * HOUR, 3));
    let half = at(HOUR / 2);
    let mut coverage = encode(&[unknown(0, HOUR)]);
    coverage[21] = 7;
    vec![
        on_class(
            "8: an instant outside the range, and kind 21",
            &[mark(0)],
            INSTANTS[0] - 1,
            "10 class 0",
        ),
        on_class(
            "19a: the end does not belong",
            &[early],
            at(HOUR),
            "0 class 4",
        ),
        on_class(
            "20: touching, one phase",
            &[early, late],
            at(HOUR),
            "0 class 1",
        ),
        on_class(
            "20: an event anywhere in time",
            &[known, event],
            half,
            "0 class 1",
        ),
        OnRows {
            name: "20: a coverage number under mark 0",
            bytes: coverage,
            asked: Asked::Class(half),
            expected: "0 class 3",
        },
        on_class("21: kind 19", &[missing], half, "15 class 0"),
        on_class(
            "21: kind 21 in a single row",
            &[mark(0), early],
            half,
            "15 class 0",
        ),
        on_class("15: an event too few", &[known], half, "15 class 0"),
        on_class(
            "15: an event elsewhere",
            &[early, event],
            half,
            "15 class 0",
        ),
        on_class(
            "15: an order that falls",
            &[late, early],
            half,
            "15 class 0",
        ),
        on_class("zero bytes", &[], half, "0 class 4"),
        on_count("zero bytes", &[], half, "0 [0, 0, 0, 0]"),
        on_count(
            "21: no mark at the front",
            &[early, mark(0)],
            half,
            "15 [0, 0, 0, 0]",
        ),
        on_count(
            "22: order begins anew at a mark, and row numbers fall and repeat",
            &[mark(9), late, mark(3), early, mark(3), early],
            half,
            "0 [3, 2, 0, 0]",
        ),
        on_count(
            "22: a mark with nothing behind it",
            &[mark(0)],
            half,
            "0 [1, 0, 0, 0]",
        ),
        on_count(
            "22: marks side by side, not known, not trading",
            &[
                mark(0),
                mark(1),
                unknown(0, HOUR),
                mark(2),
                segment(0, HOUR, 4),
            ],
            half,
            "0 [3, 0, 1, 1]",
        ),
        on_count(
            "15: an event too few before a mark",
            &[mark(0), known, mark(1), event],
            half,
            "15 [0, 0, 0, 0]",
        ),
    ]
}

/// The class of each phase: which are trading is the Rust's word.
const CLASSES: [&str; 8] = [
    "0 class 2",
    "0 class 2",
    "0 class 1",
    "0 class 1",
    "0 class 2",
    "0 class 1",
    "0 class 2",
    "0 class 2",
];

fn expect_rows(one: &OnRows) {
    let [rust, port] = ask(one);
    println!("{}\n  {rust}", one.name);
    if rust != port || rust != one.expected {
        println!("DIFFERENCE\nport {port}\nexpected {}", one.expected);
        exit(1);
    }
}

/// Asks every place and says how many there were.
pub fn run() -> usize {
    let totals = totals();
    totals.iter().for_each(expect_totals);
    let mut rows = cells_places();
    rows.extend(rows_places());
    rows.extend(CLASSES.iter().enumerate().map(|(phase, expected)| {
        let row = [segment(0, HOUR, phase as u8)];
        on_class("the class of a phase", &row, at(0), expected)
    }));
    rows.iter().for_each(expect_rows);
    totals.len() + rows.len()
}
