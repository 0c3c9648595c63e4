//! Rows drawn, classed and counted, answered and refused.

mod common;

use common::*;
use market_time_host::{
    Class, Count, Nanos, Refusal, Room, Row, Rows, Window, cells, class, count,
};

/// The bytes of a book's row.
fn row(book: &[u8], over: Window) -> Vec<u8> {
    let mut room = Room::new();
    room.window(book, over).unwrap().bytes().to_vec()
}

fn row_a() -> Vec<u8> {
    row(&book_a(), window_a())
}

/// A row's cells as text.
fn drawn(row: &[u8], over: Window, columns: i64, now: Option<Nanos>) -> String {
    let mut room = Room::new();
    room.cells(row, over, columns, now).unwrap().to_owned()
}

fn marked(mut rows: Vec<Vec<u8>>) -> Vec<u8> {
    for (number, row) in rows.iter_mut().enumerate() {
        row.splice(0..0, record(21, &(number as u16).to_le_bytes()));
    }
    rows.concat()
}

/// Good rows with something wrong in them, each 15.
fn bad_rows() -> Vec<Vec<u8>> {
    let good = row_a();
    let altered = |at: usize, byte: u8| {
        let mut bytes = good.clone();
        bytes[at] = byte;
        bytes
    };
    let second = good[105..210].to_vec();
    let with_event = row(&[book_a(), event(1, 1, &[0])].concat(), from_to(0, 3_600));
    vec![
        vec![0],
        good[..104].to_vec(),
        // A length, a kind, a phase, a rule code, a tag.
        altered(0, 102),
        altered(2, 20),
        altered(20, 8),
        altered(21, 4),
        altered(36, 6),
        // An end not behind its start, a segment before the one before.
        altered(19, 0),
        [&second[..], &good[..105]].concat(),
        // An event that is counted and missing, one that is not counted, one alone.
        altered(101, 1),
        with_event[..105].to_vec(),
        [&good[..105], &with_event[105..]].concat(),
        with_event[105..].to_vec(),
        // Coverage neither there nor missing.
        {
            let mut unknown = row(&[], window_a());
            unknown[20] = 2;
            unknown
        },
        // A point that is not known is no segment.
        {
            let mut room = [0; 29];
            market_time_host::point(&[], at(0), &mut room).unwrap();
            room.to_vec()
        },
    ]
}

#[test]
fn book_a_s_cells_are_the_document_s() {
    assert_eq!(drawn(&row_a(), window_a(), 12, None), "[...###.....#]");
    let now = Some(at(36_000));
    assert_eq!(drawn(&row_a(), window_a(), 12, now), "[...|##.....#]");
}

#[test]
fn each_phase_has_its_glyph_and_the_unknown_too() {
    let starts: Vec<(u64, u8)> = (0..8).map(|phase| (phase * 3_600, phase as u8)).collect();
    let tuesday_on = Rule::weekly(127 - 1 - 4, &starts);
    let book = [year(), tuesday_on.bytes()].concat();
    let drawn_row = |start: i64, end: i64| {
        let over = from_to(start, end);
        drawn(&row(&book, over), over, (end - start) / 3_600, None)
    };
    let tuesday = 86_400;
    let text = drawn_row(tuesday - 4 * 3_600, tuesday + 8 * 3_600);
    assert_eq!(text, "[    .-=#:=_!]");
    let over = from_to(0, 12 * 3_600);
    assert_eq!(drawn(&row(&[], over), over, 12, None), "[????????????]");
    assert_eq!(drawn(&[], over, 12, None), "[            ]");
}

#[test]
fn few_columns_become_twelve() {
    for columns in [i64::MIN, -1, 0, 11, 12] {
        let text = drawn(&row_a(), window_a(), columns, None);
        assert_eq!(text, "[...###.....#]");
    }
    assert_eq!(drawn(&row_a(), window_a(), 512, None).len(), 514);
}

#[test]
fn a_now_outside_the_window_puts_no_mark() {
    for now in [at(-1), at(129_600), EARLIEST, LATEST] {
        let text = drawn(&row_a(), window_a(), 12, Some(now));
        assert_eq!(text, "[...###.....#]");
    }
    assert_eq!(
        drawn(&row_a(), window_a(), 12, Some(at(0))),
        "[|..###.....#]"
    );
}

/// The longest window has more nanoseconds than an i64 holds.
#[test]
fn the_longest_window_is_drawn() {
    let all = Window {
        start: EARLIEST,
        end: LATEST,
    };
    let last = Some(Nanos(LATEST.0 - 1));
    let text = drawn(&row(&[], all), all, 512, last);
    assert_eq!(text, format!("[{}|]", "?".repeat(511)));
}

#[test]
fn every_refusal_of_cells() {
    let good = row_a();
    let asked = |row: &[u8], over, columns, now, room: &mut [u8]| {
        cells(row, over, columns, now, room).map(|_| ())
    };
    let beyond = Some(Nanos(LATEST.0 + 1));
    let late = Window {
        start: at(0),
        end: Nanos(i64::MAX),
    };
    refused(10, 64, |room| asked(&good, window_a(), 12, beyond, room));
    refused(10, 64, |room| asked(&[0], late, 513, None, room));
    refused(11, 64, |room| asked(&[0], from_to(1, 0), 513, None, room));
    refused(12, 64, |room| asked(&[0], from_to(0, 0), 513, None, room));
    refused(14, 0, |room| asked(&[0], window_a(), 513, None, room));
    refused(14, 600, |room| {
        asked(&good, window_a(), i64::MAX, None, room)
    });
    for bad in bad_rows() {
        refused(15, 64, |room| asked(&bad, window_a(), 12, None, room));
        refused(15, 0, |room| asked(&bad, window_a(), 12, None, room));
    }
    fits(14, |room| asked(&good, window_a(), 12, None, room));
    fits(50, |room| asked(&good, window_a(), 48, Some(at(0)), room));
}

#[test]
fn a_row_has_a_class_at_every_instant() {
    let over = from_to(-5 * 86_400, 86_400);
    // Covers from 2026-01-01 on; the first of January is day -4 from that Monday.
    let shown = row(&book_a(), over);
    let class_at = |seconds| class(&shown, at(seconds)).unwrap();
    assert_eq!(class_at(36_000), Class::Trading);
    assert_eq!(class_at(0), Class::NotTrading);
    assert_eq!(class_at(-5 * 86_400), Class::NotKnown);
    assert_eq!(class_at(86_400), Class::NotShown);
    assert_eq!(class(&[], at(0)).unwrap(), Class::NotShown);
}

#[test]
fn trading_classes_are_of_phases_2_3_and_5() {
    for phase in 0..8 {
        let book = [year(), Rule::weekly(127, &[(0, phase)]).bytes()].concat();
        let shown = class(&row(&book, window_a()), at(0)).unwrap();
        let trading = [2, 3, 5].contains(&phase);
        assert_eq!(shown == Class::Trading, trading, "phase {phase}");
        assert_eq!(shown == Class::NotTrading, !trading, "phase {phase}");
    }
}

#[test]
fn every_refusal_of_class() {
    for instant in [i64::MIN, EARLIEST.0 - 1, LATEST.0 + 1] {
        assert_eq!(
            class(&row_a(), Nanos(instant)),
            Err(Refusal::InstantOutOfRange)
        );
        assert_eq!(class(&[0], Nanos(instant)), Err(Refusal::InstantOutOfRange));
    }
    for (place, bad) in bad_rows().iter().enumerate() {
        assert_eq!(class(bad, at(0)), Err(Refusal::BadRow), "row {place}");
        assert_eq!(Row::judged(bad), Err(Refusal::BadRow), "row {place}");
    }
    // A row mark belongs to a count.
    assert_eq!(class(&marked(vec![row_a()]), at(0)), Err(Refusal::BadRow));
    assert!(Row::judged(&row_a()).is_ok());
}

#[test]
fn rows_are_counted() {
    let nothing = row(&year(), window_a());
    let unknown = row(&[], window_a());
    let kept = [row_a(), unknown, nothing, row_a()];
    let mut rows = Rows::new();
    assert_eq!(count(rows.bytes(), at(0)), Ok(Count::default()));
    for (number, bytes) in kept.iter().enumerate() {
        rows.push(number as u16, Row::judged(bytes).unwrap());
    }
    assert_eq!(rows.bytes(), marked(kept.to_vec()));
    let at_ten = Count {
        venues: 4,
        trading: 2,
        not_trading: 0,
        not_known: 1,
    };
    assert_eq!(count(rows.bytes(), at(36_000)), Ok(at_ten));
    let at_midnight = Count {
        trading: 0,
        not_trading: 2,
        ..at_ten
    };
    assert_eq!(count(rows.bytes(), at(0)), Ok(at_midnight));
}

#[test]
fn every_refusal_of_count() {
    let good = marked(vec![row_a()]);
    for instant in [i64::MIN, EARLIEST.0 - 1, LATEST.0 + 1] {
        assert_eq!(
            count(&good, Nanos(instant)),
            Err(Refusal::InstantOutOfRange)
        );
        assert_eq!(count(&[0], Nanos(instant)), Err(Refusal::InstantOutOfRange));
    }
    for (place, bad) in bad_rows().into_iter().enumerate() {
        let rows = marked(vec![row_a(), bad]);
        assert_eq!(count(&rows, at(0)), Err(Refusal::BadRow), "row {place}");
    }
    // Rows must begin with a mark.
    assert_eq!(count(&row_a(), at(0)), Err(Refusal::BadRow));
    assert_eq!(
        count(&[&row_a()[..], &good].concat(), at(0)),
        Err(Refusal::BadRow)
    );
}
