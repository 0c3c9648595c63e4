//! Timelines, answered and refused.

mod common;

use common::*;
use market_time_host::{Nanos, Phase, Room, Row, Segment, Window, window};

/// Start, end and phase of each segment in seconds from Monday's midnight; no phase where it is not known.
fn shown(row: Row<'_>) -> Vec<(i64, i64, Option<Phase>)> {
    let seconds = |instant: Nanos| instant.0 / SECOND - MONDAY;
    let phase = |segment: &Segment<'_>| match segment {
        Segment::Phase(answer) => Some(answer.phase),
        Segment::Unknown { .. } => None,
    };
    row.segments()
        .map(|segment| {
            let window = segment.window();
            (seconds(window.start), seconds(window.end), phase(&segment))
        })
        .collect()
}

const CLOSED: Option<Phase> = Some(Phase::Closed);
const OPEN: Option<Phase> = Some(Phase::ContinuousTrading);

#[test]
fn book_a_s_window_is_the_document_s() {
    let mut room = Room::new();
    let row = room.window(&book_a(), window_a()).unwrap();
    let expected = [
        (0, 28_800, CLOSED),
        (28_800, 59_400, OPEN),
        (59_400, 115_200, CLOSED),
        (115_200, 129_600, OPEN),
    ];
    assert_eq!(shown(row), expected);
}

#[test]
fn a_segment_is_clipped_and_its_boundaries_are_not() {
    let mut room = Room::new();
    let row = room.window(&book_a(), from_to(30_000, 40_000)).unwrap();
    let Some(Segment::Phase(answer)) = row.segments().next() else {
        panic!("no phase");
    };
    assert_eq!(answer.window, from_to(30_000, 40_000));
    assert_eq!((answer.start.at, answer.end.at), (at(28_800), at(59_400)));
}

#[test]
fn outside_coverage_it_is_unknown_and_where_no_rule_governs_there_is_a_hole() {
    let book = [coverage(MONDAY, MONDAY + 3 * 86_400, 0), {
        let mut tuesday = Rule::weekly(2, &[(0, 3)]);
        tuesday.days = (20_459, 20_459);
        tuesday.bytes()
    }]
    .concat();
    let mut room = Room::new();
    let row = room.window(&book, from_to(-3_600, 4 * 86_400)).unwrap();
    let expected = [
        (-3_600, 0, None),
        (86_400, 172_800, OPEN),
        (259_200, 345_600, None),
    ];
    assert_eq!(shown(row), expected);
    let Some(Segment::Unknown { coverage, .. }) = row.segments().next() else {
        panic!("no unknown segment");
    };
    assert_eq!(coverage, Some(from_to(0, 3 * 86_400)));
}

#[test]
fn events_stand_with_their_segment() {
    let book = [book_a(), event(5, 6, &[0, 30_000])].concat();
    let mut room = Room::new();
    let row = room.window(&book, window_a()).unwrap();
    let counts: Vec<usize> = row
        .segments()
        .map(|segment| match segment {
            Segment::Phase(answer) => answer.events.count(),
            Segment::Unknown { .. } => 0,
        })
        .collect();
    assert_eq!(counts, [1, 1, 1, 1]);
}

#[test]
fn an_empty_book_is_unknown_from_end_to_end() {
    let mut room = [0; 37];
    let all = Window {
        start: EARLIEST,
        end: LATEST,
    };
    let row = window(&[], all, &mut room).unwrap();
    let segments: Vec<Segment<'_>> = row.segments().collect();
    let coverage = None;
    assert_eq!(
        segments,
        [Segment::Unknown {
            window: all,
            coverage
        }]
    );
}

#[test]
fn every_refusal() {
    let asked = |book: &[u8], over: Window, room: &mut [u8]| window(book, over, room).map(|_| ());
    for (number, book) in bad_books() {
        refused(number, 256, |room| asked(&book, window_a(), room));
        refused(number, 0, |room| asked(&book, from_to(1, 0), room));
    }
    let out = |start, end| Window { start, end };
    let beyond = Nanos(LATEST.0 + 1);
    for over in [
        out(Nanos(EARLIEST.0 - 1), at(0)),
        out(at(0), beyond),
        // Also reversed: the smaller number is given.
        out(beyond, at(0)),
    ] {
        refused(10, 0, |room| asked(&book_a(), over, room));
    }
    refused(11, 0, |room| asked(&book_a(), from_to(1, 0), room));
    refused(12, 0, |room| asked(&book_a(), from_to(0, 0), room));
    refused(12, 64, |room| asked(&[], from_to(0, 0), room));
}

#[test]
fn a_room_fits_or_is_untouched() {
    fits(4 * 105, |room| {
        window(&book_a(), window_a(), room).map(|_| ())
    });
    // No rule governs: an answer of no bytes, which fits anywhere.
    fits(0, |room| window(&year(), window_a(), room).map(|_| ()));
    fits(37, |room| window(&[], window_a(), room).map(|_| ()));
}

#[test]
fn a_year_fits_a_growing_room() {
    let year = Window {
        start: Nanos::of_seconds(1_767_225_600),
        end: Nanos::of_seconds(1_798_761_600),
    };
    let mut room = Room::new();
    let row = room.window(&book_a(), year).unwrap();
    // 261 weekdays, closed around each and over weekends in one.
    assert_eq!(row.segments().count(), 261 * 2 + 1);
    assert_eq!(row.bytes().len(), 105 * (261 * 2 + 1));
    assert!(row.bytes().len() > Room::FIRST);
}
