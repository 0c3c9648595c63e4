//! Plain windows, and the books that come with this crate.

mod common;

use common::*;
use market_time_host::book::{Book, Day};
use market_time_host::{Nanos, Phase, Point, Room, Segment, Window, is_plain};

const NIGHT: &[u8] = include_bytes!("../books/invented-night.book");
const SHIPPED: [&[u8]; 6] = [
    include_bytes!("../books/new-york.book"),
    include_bytes!("../books/london.book"),
    include_bytes!("../books/frankfurt.book"),
    include_bytes!("../books/tokyo.book"),
    include_bytes!("../books/hong-kong.book"),
    include_bytes!("../books/sydney.book"),
];

fn year_2026() -> Window {
    Window {
        start: Nanos::of_seconds(1_767_225_600),
        end: Nanos::of_seconds(1_798_761_600),
    }
}

fn plain(book: &[u8], start: i64, end: i64) -> bool {
    is_plain(book, from_to(start, end)).unwrap()
}

#[test]
fn a_book_reads_back() {
    let mut holiday = Rule::weekly(0, &[(0, 0)]);
    (holiday.code, holiday.days) = (1, (20_459, 20_459));
    let bytes = [book_a(), change(MONDAY, 3_600), holiday.bytes()].concat();
    let book = Book::read(&[&bytes[..], &event(7, 8, &[60])].concat());
    let book = book.unwrap().unwrap();
    assert_eq!(book.coverage, year_2026());
    assert_eq!(book.changes[0].at, at(0));
    assert_eq!(book.changes[0].offset, 3_600);
    assert_eq!(book.events[0].times, [60 * SECOND as u64]);
    let open = (28_800 * SECOND as u64, Phase::ContinuousTrading);
    assert_eq!(book.governing(Day(20_458)).unwrap().points[1], open);
    assert_eq!(book.governing(Day(20_459)), Some(&book.rules[2]));
    assert_eq!(book.governing(Day(20_453)), None);
    assert_eq!(Book::read(&[]), Ok(None));
    for (number, bad) in bad_books() {
        assert_eq!(Book::read(&bad).unwrap_err().number(), number);
        assert_eq!(is_plain(&bad, window_a()).unwrap_err().number(), number);
    }
}

#[test]
fn windows_that_cannot_be_asked_are_refused() {
    let number = |start, end| {
        is_plain(&book_a(), from_to(start, end))
            .unwrap_err()
            .number()
    };
    assert_eq!(number(1, 0), 11);
    assert_eq!(number(0, 0), 12);
    assert_eq!(number(0, i64::MAX / SECOND - MONDAY), 10);
}

#[test]
fn without_clock_changes_windows_are_plain_up_to_3_660_dates() {
    let dates = 86_400 * 3_660;
    assert!(plain(&book_a(), 0, 129_600));
    assert!(plain(&book_a(), 0, dates));
    assert!(plain(&book_a(), 86_399, dates));
    assert!(!plain(&book_a(), 0, dates + 1));
    assert!(!plain(&book_a(), 86_399, dates + 1));
    assert!(!plain(&[], 0, 1));
}

/// Clocks go back from Tuesday 00:30 to Monday 23:30.
#[test]
fn a_midnight_that_comes_twice_is_not_plain() {
    let shut = Rule::weekly(127, &[(0, 0)]);
    let turn = 86_400 + 1_800;
    let book = [year(), change(MONDAY + turn, -3_600), shut.bytes()].concat();
    // Tuesday is not plain, and a plain window has a plain date on each side.
    assert!(!plain(&book, 100_000, 100_001));
    assert!(!plain(&book, 80_000, 80_001));
    assert!(!plain(&book, 2 * 86_400 + 3_600, 2 * 86_400 + 3_601));
    assert!(plain(&book, 3 * 86_400 + 3_600, 3 * 86_400 + 3_601));
    assert!(plain(&book, -86_400, 0));
    assert!(!plain(&book, -86_400, 1));
}

/// Clocks go forward from Monday 02:00 to 03:00, over the rule's 02:15, which is taken at 03:15.
#[test]
fn points_that_fall_are_not_plain() {
    let falling = Rule::weekly(127, &[(0, 0), (8_100, 4), (10_800, 3)]);
    let level = Rule::weekly(127, &[(0, 0), (8_100, 4), (11_700, 3)]);
    let made = |rule: Rule| [year(), change(MONDAY + 7_200, 3_600), rule.bytes()].concat();
    assert!(!plain(&made(falling), 0, 1));
    assert!(plain(&made(level), 0, 1));
}

#[test]
fn the_books_that_ship_are_accepted_and_plain_over_the_year() {
    for book in SHIPPED {
        assert_eq!(Book::judge(book), Ok(()));
        assert_eq!(is_plain(book, year_2026()), Ok(true));
    }
    assert_eq!(Book::judge(NIGHT), Ok(()));
    assert_eq!(is_plain(NIGHT, year_2026()), Ok(false));
}

/// What is proved of plain windows, seen: timeline and points agree at and beside each edge.
#[test]
fn over_the_year_timeline_and_points_agree() {
    for book in SHIPPED {
        let mut room = Room::new();
        let mut point_room = Room::new();
        let row = room.window(book, year_2026()).unwrap();
        for segment in row.segments() {
            let Window { start, end } = segment.window();
            for instant in [start, Nanos(end.0 - 1)] {
                let point = point_room.point(book, instant).unwrap();
                match (&segment, point) {
                    (Segment::Phase(shown), Point::Known(known)) => {
                        assert_eq!(shown.phase, known.phase);
                        assert_eq!(shown.evidence, known.evidence);
                    }
                    (Segment::Unknown { .. }, Point::Unknown { .. }) => {}
                    other => panic!("{other:?}"),
                }
            }
        }
    }
}
