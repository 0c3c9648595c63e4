//! How fast the port answers, and how fast the original does from a prepared ruleset, in one run: the best of several.
//! The port checks and opens the whole book, or judges the whole row, at every call; its room is not cleared between calls. The
//! original has its values ready. It has no tally: beside the port's stands the time of its timeline alone. Rows are drawn and
//! counted twice over: from the book, which the original has as a ruleset, and from the rows, which it has as timelines.

use crate::book::{self, Event, Published, Record, Rule};
use crate::drawn::{self, Cells};
use crate::given::{Query, Venue};
use crate::make_rows;
use crate::port::{self, Room};
use crate::row;
use market_time_board::BoardRow;
use std::hint::black_box;
use std::time::Instant;

const SECOND: i64 = 1_000_000_000;
const DAY: i64 = 86_400 * SECOND;
/// 2026-01-01T00:00Z, and its day number.
const YEAR: i64 = 1_767_225_600 * SECOND;
const FIRST: i32 = 20_454;
/// How many rows are counted.
const ROWS: u16 = 100;

fn rule(code: u8, mask: u8, first: i32, last: i32, points: &[(i64, u8)]) -> Record {
    Record::Rule(Rule {
        first,
        last,
        code,
        mask,
        label: u16::from(code),
        evidence: 1,
        derived: 0,
        published: Published::EXACT,
        points: points
            .iter()
            .map(|&(second, phase)| ((second * SECOND) as u64, phase))
            .collect(),
    })
}

fn weekly(mask: u8, points: &[(i64, u8)], days: i32) -> Record {
    rule(0, mask, FIRST, FIRST + days - 1, points)
}

fn event(times: &[i64], days: i32) -> Record {
    Record::Event(Event {
        first: FIRST,
        last: FIRST + days - 1,
        code: 1,
        evidence: 1,
        published: Published::EXACT,
        times: times
            .iter()
            .map(|second| (second * SECOND) as u64)
            .collect(),
    })
}

/// The day number of a date after 1600.
fn day_number(year: i64, month: i64, day: i64) -> i64 {
    let (y, m) = if month > 2 {
        (year, month)
    } else {
        (year - 1, month + 12)
    };
    365 * y + y / 4 - y / 100 + y / 400 + (153 * (m - 3) + 2) / 5 + day - 719_469
}

/// The n-th Sunday of a month.
fn sunday(year: i64, month: i64, n: i64) -> i64 {
    let first = day_number(year, month, 1);
    first + (3 - first).rem_euclid(7) + 7 * (n - 1)
}

/// New York's clock, as it is now, over three centuries.
fn new_york() -> impl Iterator<Item = Record> {
    (1900..2200).flat_map(|year| {
        [
            (sunday(year, 3, 2) * 86_400 + 25_200, -14_400),
            (sunday(year, 11, 1) * 86_400 + 21_600, -18_000),
        ]
        .map(|(at, offset)| Record::Change { at, offset })
    })
}

/// Ten years with 134 rules, 600 clock changes and three events a day.
fn rich() -> Vec<u8> {
    let open = [(0, 0), (28_800, 1), (34_200, 3), (57_600, 6), (72_000, 0)];
    let mut records = vec![Record::Head {
        start: YEAR,
        end: YEAR + 3650 * DAY,
        offset: -18_000,
    }];
    records.extend(new_york());
    records.extend([weekly(31, &open, 3650), weekly(96, &[(0, 0)], 3650)]);
    records.extend([weekly(4, &open[..3], 365), weekly(64, &[(0, 0)], 365)]);
    for k in 0..130 {
        let day = FIRST + 28 * k + 7;
        let points = if k % 3 == 0 { &open[..4] } else { &[(0, 0)] };
        records.push(rule(1 + (k % 2) as u8, 0, day, day, points));
    }
    records.push(event(&[3600, 34_200, 57_600], 3650));
    book::encode(&records)
}

/// As much of everything as a book may have.
fn largest() -> Vec<u8> {
    let points: Vec<(i64, u8)> = (0..16).map(|i| (i * 5000, (i % 8) as u8)).collect();
    let mut records = vec![Record::Head {
        start: YEAR,
        end: YEAR + 3650 * DAY,
        offset: -18_000,
    }];
    records.extend((0..640).map(|i| Record::Change {
        at: day_number(1900, 1, 2) * 86_400 + i * 14_700_000,
        offset: if i % 2 == 0 { -14_400 } else { -18_000 },
    }));
    records.extend((0..256).map(|_| weekly(127, &points, 3650)));
    records.extend((0..32).map(|i| {
        event(
            &[0, 1, 2, 3, 4, 5, 6, 7].map(|k| k * 10_000 + i * 100),
            3650,
        )
    }));
    book::encode(&records)
}

/// Book A, over so many days.
fn book_a(days: i32) -> Vec<u8> {
    book::encode(&[
        Record::Head {
            start: YEAR,
            end: YEAR + i64::from(days) * DAY,
            offset: 0,
        },
        weekly(31, &[(0, 0), (28_800, 3), (59_400, 0)], days),
        weekly(96, &[(0, 0)], days),
    ])
}

/// The mean of so many calls, in nanoseconds.
fn mean(calls: u32, call: &mut dyn FnMut()) -> f64 {
    let from = Instant::now();
    for _ in 0..calls {
        call();
    }
    from.elapsed().as_nanos() as f64 / f64::from(calls)
}

/// Times both sides in turn, so that they have the same machine: the least of ten means or more, for half a second or longer. A mean is
/// of as many calls as a millisecond has room for, and of one where it has room for none.
fn compared(name: &str, length: usize, mut given: impl FnMut(), mut ours: impl FnMut()) {
    let from = Instant::now();
    let sides: [&mut dyn FnMut(); 2] = [&mut given, &mut ours];
    let mut sides = sides.map(|side| {
        let calls = (1e6 / mean(1, side)).max(1.0) as u32;
        (side, calls, f64::INFINITY)
    });
    let mut tries = 0;
    while tries < 10 || from.elapsed().as_millis() < 500 {
        for (side, calls, least) in &mut sides {
            *least = least.min(mean(*calls, side));
        }
        tries += 1;
    }
    let [given, ours] = sides.map(|(_, _, least)| least);
    println!(
        "{name:<32} {ours:>12.0} ns {given:>13.0} ns {:>8.1} {length:>9} bytes",
        given / ours
    );
}

fn answered(name: &str, book: &[u8], query: Query) {
    let venue = Venue::open(book).expect("a good book");
    let length = venue.answer(&query).expect("an answer").len();
    let mut room = Room::new(length);
    assert_eq!(port::ask(book, &query, &mut room), (0, length));
    let given = || {
        black_box(venue.timed(black_box(&query)));
    };
    let ours = || {
        black_box(port::ask(black_box(book), black_box(&query), &mut room));
    };
    compared(name, length, given, ours);
}

/// So many days in so many columns, now marked.
fn drawing(days: i64, columns: i64) -> Cells {
    Cells {
        start: YEAR,
        end: YEAR + days * DAY,
        columns,
        marked: true,
        now: YEAR + 1,
    }
}

fn drawn_cells(name: &str, bytes: &[u8], days: i64, columns: i64) {
    let asked = drawing(days, columns);
    let timeline = drawn::timeline(&row::row(bytes).expect("a good row"));
    let length = columns as usize + 2;
    let mut room = Room::new(length);
    assert_eq!(port::cells(bytes, &asked, &mut room), (0, length));
    let given = || {
        black_box(drawn::render(black_box(&timeline), &asked));
    };
    let ours = || {
        black_box(port::cells(black_box(bytes), &asked, &mut room));
    };
    compared(name, length, given, ours);
}

fn counted(name: &str, bytes: &[u8], days: i64) {
    let marked: Vec<u8> = (0..ROWS)
        .flat_map(|number| [make_rows::mark(number), bytes.to_vec()].concat())
        .collect();
    let rows = drawn::rows(&row::marked(&marked).expect("good rows"));
    let at = YEAR + days * DAY / 2;
    assert_eq!(port::count(&marked, at).0, 0);
    let given = || {
        black_box(drawn::counted(black_box(&rows), at));
    };
    let ours = || {
        black_box(port::count(black_box(&marked), at));
    };
    compared(name, marked.len(), given, ours);
}

/// A row from the book itself: the window resolved, then drawn. The original begins with its ruleset.
fn drawn_from_the_book(name: &str, book: &[u8], days: i64, columns: i64) {
    let asked = drawing(days, columns);
    let window = Query::Window {
        start: asked.start,
        end: asked.end,
    };
    let venue = Venue::open(book).expect("a good book");
    let mut row = Room::new(venue.answer(&window).expect("an answer").len());
    let length = columns as usize + 2;
    let mut room = Room::new(length);
    let given = || {
        let timeline = venue.timeline(black_box(asked.start), asked.end);
        black_box(drawn::render(&timeline, &asked));
    };
    let ours = || {
        let (_, written) = port::ask(black_box(book), &window, &mut row);
        black_box(port::cells(&row.bytes()[..written], &asked, &mut room));
    };
    compared(name, length, given, ours);
}

/// Rows of a day from the book itself, and their count.
fn counted_from_the_book(name: &str, book: &[u8]) {
    let window = Query::Window {
        start: YEAR,
        end: YEAR + DAY,
    };
    let at = YEAR + DAY / 2;
    let venue = Venue::open(book).expect("a good book");
    let length = venue.answer(&window).expect("an answer").len();
    let mut row = Room::new(length);
    let mut marked = Vec::new();
    let length = usize::from(ROWS) * (make_rows::mark(0).len() + length);
    let given = || {
        let rows: Vec<BoardRow> = (0..ROWS)
            .map(|_| BoardRow::new(venue.timeline(YEAR, black_box(YEAR + DAY)), None))
            .collect();
        black_box(drawn::counted(&rows, at));
    };
    let ours = || {
        marked.clear();
        for number in 0..ROWS {
            let (_, written) = port::ask(black_box(book), &window, &mut row);
            marked.extend(make_rows::mark(number));
            marked.extend_from_slice(&row.bytes()[..written]);
        }
        black_box(port::count(&marked, at));
    };
    compared(name, length, given, ours);
}

/// A year of a book with so many rules over ten years, of so many points, and so many clock changes in and around the year.
fn grown(rules: i32, changes: i64, points: i64) -> Vec<u8> {
    let points: Vec<(i64, u8)> = (0..points)
        .map(|i| (i * 86_400 / points, (i % 8) as u8))
        .collect();
    let mut records = vec![Record::Head {
        start: YEAR,
        end: YEAR + 3650 * DAY,
        offset: 0,
    }];
    records.extend((0..changes).map(|i| Record::Change {
        at: YEAR / SECOND + (i - changes / 2) * 7_000_000,
        offset: if i % 2 == 0 { 3600 } else { 0 },
    }));
    records.push(weekly(127, &points, 3650));
    records.extend((1..rules).map(|k| {
        let day = FIRST + 3650 * k / rules;
        rule(1, 0, day, day, &points)
    }));
    book::encode(&records)
}

/// How the cost of a window grows, one number at a time.
fn growth() {
    let days = |n: i64| Query::Window {
        start: YEAR,
        end: YEAR + n * DAY,
    };
    let asked = |name: String, book: &[u8], n: i64| answered(&name, book, days(n));
    for rules in [1, 4, 16, 64, 256] {
        asked(format!("a year, {rules} rules"), &grown(rules, 2, 4), 365);
    }
    for changes in [0, 10, 40, 160, 640] {
        asked(
            format!("a year, {changes} clock changes"),
            &grown(4, changes, 4),
            365,
        );
    }
    for points in [1, 2, 4, 8, 16] {
        asked(
            format!("a year, {points} points"),
            &grown(4, 2, points),
            365,
        );
    }
    for n in [1, 10, 100, 1000, 3650] {
        asked(format!("{n} days"), &grown(4, 2, 4), n);
    }
}

/// A book's rows of a day and of a year drawn, and a hundred of them counted: from the book, and from the rows themselves.
fn rows_of(name: &str, book: &[u8]) {
    for days in [1, 365] {
        let window = Query::Window {
            start: YEAR,
            end: YEAR + days * DAY,
        };
        let venue = Venue::open(book).expect("a good book");
        let row = venue.answer(&window).expect("an answer");
        for columns in [12, 512] {
            let what = format!("{name}, {days} d in {columns}");
            drawn_from_the_book(&format!("{what}, book"), book, days, columns);
            drawn_cells(&format!("{what}, row"), &row, days, columns);
        }
        let what = format!("{name}, {days} d, count of {ROWS}");
        if days == 1 {
            counted_from_the_book(&format!("{what}, book"), book);
        }
        // A hundred years of the largest book are 390 MB.
        if row.len() < 1 << 20 {
            counted(&format!("{what}, row"), &row, days);
        }
    }
}

pub fn run() {
    println!("what                                     port          Rust    ratio    bytes");
    let point = Query::Point {
        at: YEAR + 4 * DAY + 10 * 3600 * SECOND,
    };
    let window = |days: i64| Query::Window {
        start: YEAR,
        end: YEAR + days * DAY,
    };
    let tally = Query::Tally {
        start: YEAR,
        end: YEAR + 365 * DAY,
    };
    let (small, rich, largest) = (book_a(3650), rich(), largest());
    let books = [("A", &small), ("rich", &rich), ("largest", &largest)];
    for (name, book) in books {
        answered(&format!("{name}, a point"), book, point);
        answered(&format!("{name}, a day"), book, window(1));
        answered(&format!("{name}, a year"), book, window(365));
        answered(&format!("{name}, ten years"), book, window(3650));
        answered(&format!("{name}, a year's tally"), book, tally);
    }
    for (name, book) in books {
        rows_of(name, book);
    }
    growth();
}
