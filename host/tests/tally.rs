//! Totals, answered and refused.

mod common;

use common::*;
use market_time_host::{Nanos, Phase, Room, TallyRow, Window, tally};

const DAY: i64 = 86_400;

fn seconds(nanos: u64) -> u64 {
    assert_eq!(nanos % SECOND as u64, 0);
    nanos / SECOND as u64
}

#[test]
fn book_a_s_totals_are_the_document_s() {
    let mut room = Room::new();
    let tally = room.tally(&book_a(), window_a()).unwrap();
    let whole = tally.whole();
    assert_eq!(whole.window, window_a());
    assert_eq!(seconds(whole.totals.phase(Phase::Closed)), 84_600);
    assert_eq!(
        seconds(whole.totals.phase(Phase::ContinuousTrading)),
        45_000
    );
    assert_eq!(seconds(whole.totals.trading()), 45_000);
    assert_eq!(
        (whole.totals.outside_coverage, whole.totals.no_segment),
        (0, 0)
    );
    let days: Vec<TallyRow> = tally.days().collect();
    let cut: Vec<Window> = days.iter().map(|day| day.window).collect();
    assert_eq!(cut, [from_to(0, DAY), from_to(DAY, 129_600)]);
    let trading: Vec<u64> = days
        .iter()
        .map(|day| seconds(day.totals.trading()))
        .collect();
    assert_eq!(trading, [30_600, 14_400]);
}

/// Each phase for an hour more than the one before.
#[test]
fn trading_is_phases_2_3_and_5_and_nothing_else() {
    let hour = 3_600;
    let starts: Vec<(u64, u8)> = [0, 0, 1, 3, 6, 10, 15, 21]
        .iter()
        .zip(0..8)
        .skip(1)
        .map(|(start, phase)| (start * 1_800, phase))
        .collect();
    let book = [year(), Rule::weekly(127, &starts).bytes()].concat();
    let mut room = Room::new();
    let totals = room.tally(&book, from_to(0, DAY)).unwrap().whole().totals;
    let by_phase: Vec<u64> = Phase::ALL
        .iter()
        .map(|phase| seconds(totals.phase(*phase)))
        .collect();
    let halves = [0, 1, 2, 3, 4, 5, 6, 27].map(|halves| halves * hour / 2);
    assert_eq!(by_phase, halves);
    assert_eq!(seconds(totals.trading()), (2 + 3 + 5) * hour / 2);
}

#[test]
fn what_is_not_known_and_what_no_rule_governs_stand_apart() {
    let mut tuesday = Rule::weekly(2, &[(0, 3)]);
    tuesday.days = (20_459, 20_459);
    let book = [coverage(MONDAY, MONDAY + 3 * DAY, 0), tuesday.bytes()].concat();
    let mut room = Room::new();
    let tally = room.tally(&book, from_to(-3_600, 4 * DAY)).unwrap();
    let totals = tally.whole().totals;
    assert_eq!(seconds(totals.outside_coverage), 3_600 + DAY as u64);
    assert_eq!(seconds(totals.no_segment), 2 * DAY as u64);
    assert_eq!(seconds(totals.trading()), DAY as u64);
    assert_eq!(tally.days().count(), 5);
}

#[test]
fn an_empty_book_is_outside_coverage_from_end_to_end() {
    let mut room = Room::new();
    let tally = room.tally(&[], from_to(0, DAY)).unwrap();
    let totals = tally.whole().totals;
    assert_eq!(seconds(totals.outside_coverage), DAY as u64);
    assert_eq!((totals.trading(), totals.no_segment), (0, 0));
}

#[test]
fn every_refusal() {
    let asked = |book: &[u8], over: Window, room: &mut [u8]| tally(book, over, room).map(|_| ());
    for (number, book) in bad_books() {
        refused(number, 256, |room| asked(&book, window_a(), room));
        refused(number, 0, |room| asked(&book, from_to(1, 0), room));
    }
    let beyond = |start, end| Window {
        start: Nanos(start),
        end: Nanos(end),
    };
    refused(10, 0, |room| {
        asked(&book_a(), beyond(EARLIEST.0 - 1, 0), room)
    });
    refused(10, 0, |room| {
        asked(&book_a(), beyond(0, LATEST.0 + 1), room)
    });
    refused(11, 0, |room| asked(&book_a(), from_to(1, 0), room));
    refused(12, 0, |room| asked(&book_a(), from_to(0, 0), room));
    let long = beyond(0, 400 * DAY * SECOND + 1);
    refused(13, 64, |room| asked(&book_a(), long, room));
    refused(13, 64, |room| {
        asked(&[], beyond(EARLIEST.0, LATEST.0), room)
    });
}

#[test]
fn a_room_fits_or_is_untouched() {
    fits(3 * 100, |room| {
        tally(&book_a(), window_a(), room).map(|_| ())
    });
    fits(401 * 100, |room| {
        tally(&book_a(), from_to(0, 400 * DAY), room).map(|_| ())
    });
    fits(2 * 100, |room| tally(&[], from_to(0, 1), room).map(|_| ()));
}
