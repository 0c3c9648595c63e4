//! Point queries, answered and refused.

mod common;

use common::*;
use market_time_host::answer::{Boundary, Event, RuleCode, Uncertainty};
use market_time_host::{Nanos, Phase, Point, Room, Window, point};

#[test]
fn a_known_instant_has_its_whole_span() {
    let mut room = [0; 105];
    let Ok(Point::Known(answer)) = point(&book_a(), at(36_000), &mut room) else {
        panic!("not known");
    };
    assert_eq!(answer.window, from_to(28_800, 59_400));
    assert_eq!(answer.phase, Phase::ContinuousTrading);
    assert!(answer.phase.is_trading());
    assert_eq!(answer.code, RuleCode::Weekly);
    assert_eq!(
        (answer.label, answer.evidence, answer.derived),
        (0, 1, None)
    );
    let exact = |seconds| Boundary {
        at: at(seconds),
        uncertainty: Uncertainty::Exact,
    };
    assert_eq!((answer.start, answer.end), (exact(28_800), exact(59_400)));
    assert_eq!(answer.uncertainty, Uncertainty::Exact);
    assert_eq!(answer.events.count(), 0);
}

#[test]
fn a_start_belongs_and_an_end_does_not() {
    let phase = |seconds| match Room::new().point(&book_a(), at(seconds)) {
        Ok(Point::Known(answer)) => answer.phase,
        other => panic!("{other:?}"),
    };
    assert_eq!(phase(28_799), Phase::Closed);
    assert_eq!(phase(28_800), Phase::ContinuousTrading);
    assert_eq!(phase(59_399), Phase::ContinuousTrading);
    assert_eq!(phase(59_400), Phase::Closed);
}

#[test]
fn events_and_a_rule_s_own_numbers_come_back() {
    let mut rule = Rule::weekly(0, &[(0, 7)]);
    (rule.code, rule.label, rule.evidence, rule.derived) = (2, 11, 12, 13);
    rule.uncertainty = (2, 250_000, 14);
    let book = [year(), rule.bytes(), event(21, 22, &[7_200, 3_600])].concat();
    let mut room = Room::new();
    let Ok(Point::Known(answer)) = room.point(&book, at(0)) else {
        panic!("not known");
    };
    assert_eq!(answer.phase, Phase::NonTradingInterruption);
    assert_eq!(answer.code, RuleCode::Shortened);
    assert_eq!(
        (answer.label, answer.evidence, answer.derived),
        (11, 12, Some(13))
    );
    let nanos = 250_000;
    assert_eq!(answer.uncertainty, Uncertainty::Bound { nanos, text: 14 });
    let happens = |seconds| Event {
        code: 21,
        at: at(seconds),
        uncertainty: Uncertainty::Exact,
        evidence: 22,
    };
    let events: Vec<Event> = answer.events.collect();
    assert_eq!(events, [happens(3_600), happens(7_200)]);
}

/// Document 01's clock: at 1,767,654,000 s, Monday 23:00, one hour forward over Tuesday's midnight.
#[test]
fn a_time_that_never_comes_is_a_gap() {
    let every_day = Rule::weekly(127, &[(0, 0), (84_600, 3)]);
    let book = [year(), change(1_767_654_000, 3_600), every_day.bytes()].concat();
    let mut room = Room::new();
    let Ok(Point::Known(answer)) = room.point(&book, Nanos::of_seconds(1_767_654_600)) else {
        panic!("not known");
    };
    assert_eq!(answer.window.start, Nanos::of_seconds(1_767_571_200));
    assert_eq!(answer.window.end, Nanos::of_seconds(1_767_655_800));
    let gap = Uncertainty::Gap {
        by_offset_before: Nanos::of_seconds(1_767_655_800),
        by_offset_after: Nanos::of_seconds(1_767_652_200),
    };
    assert_eq!(answer.end.uncertainty, gap);
    assert_eq!(answer.uncertainty, gap);
}

/// The same clock an hour back: Monday 22:30 comes twice.
#[test]
fn a_time_that_comes_twice_is_a_fold() {
    let every_day = Rule::weekly(127, &[(0, 0), (81_000, 3)]);
    let book = [year(), change(1_767_654_000, -3_600), every_day.bytes()].concat();
    let mut room = Room::new();
    let Ok(Point::Known(answer)) = room.point(&book, Nanos::of_seconds(1_767_654_600)) else {
        panic!("not known");
    };
    assert_eq!(answer.phase, Phase::ContinuousTrading);
    let fold = Uncertainty::Fold {
        earlier: at(81_000),
        later: at(84_600),
    };
    assert_eq!(
        answer.start,
        Boundary {
            at: at(81_000),
            uncertainty: fold
        }
    );
    assert_eq!(
        answer.end,
        Boundary {
            at: at(90_000),
            uncertainty: Uncertainty::Exact
        }
    );
    assert_eq!(answer.uncertainty, fold);
}

#[test]
fn outside_coverage_or_without_a_rule_it_is_not_known() {
    let coverage = |start, end| {
        Some(Window {
            start: Nanos::of_seconds(start),
            end: Nanos::of_seconds(end),
        })
    };
    let mut room = Room::new();
    let before = Nanos::of_seconds(1_767_225_600 - 1);
    let answer = room.point(&book_a(), before).unwrap();
    let coverage = coverage(1_767_225_600, 1_798_761_600);
    assert_eq!(
        answer,
        Point::Unknown {
            at: before,
            coverage
        }
    );
    let answer = room.point(&year(), at(0)).unwrap();
    assert_eq!(
        answer,
        Point::Unknown {
            at: at(0),
            coverage
        }
    );
}

#[test]
fn an_empty_book_is_a_venue_without_data() {
    for instant in [EARLIEST, Nanos(0), LATEST] {
        let mut room = [0; 29];
        let answer = point(&[], instant, &mut room).unwrap();
        assert_eq!(
            answer,
            Point::Unknown {
                at: instant,
                coverage: None
            }
        );
    }
}

#[test]
fn every_refusal() {
    for (number, book) in bad_books() {
        refused(number, 256, |room| point(&book, at(0), room).map(|_| ()));
        // The book comes before the instant and the room.
        refused(number, 0, |room| {
            point(&book, Nanos(i64::MIN), room).map(|_| ())
        });
    }
    for instant in [i64::MIN, EARLIEST.0 - 1, LATEST.0 + 1, i64::MAX] {
        refused(10, 256, |room| {
            point(&book_a(), Nanos(instant), room).map(|_| ())
        });
        refused(10, 0, |room| point(&[], Nanos(instant), room).map(|_| ()));
    }
}

#[test]
fn a_room_fits_or_is_untouched() {
    fits(29, |room| point(&[], at(0), room).map(|_| ()));
    fits(105, |room| point(&book_a(), at(0), room).map(|_| ()));
    let book = [book_a(), event(1, 1, &[30_000, 40_000])].concat();
    fits(105 + 2 * 35, |room| {
        point(&book, at(36_000), room).map(|_| ())
    });
}

#[test]
fn a_growing_room_stops_at_its_limit() {
    let mut small = Room::with_limit(104);
    let refusal = small.point(&book_a(), at(0)).unwrap_err();
    assert_eq!(refusal.number(), 16);
    assert!(Room::with_limit(105).point(&book_a(), at(0)).is_ok());
    assert_eq!(
        Room::with_limit(0).point(&[], at(0)).unwrap_err().number(),
        16
    );
}
