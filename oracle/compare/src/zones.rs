//! The stand-in for jiff put to an outside judge: prints every date of document 01, clock changes of
//! generated books, and what the stand-in says of instants and readings beside each. tzif_test.py writes the changes as TZif
//! files and asks Python's zoneinfo the same. All numbers are whole seconds.
//!
//!     D day year month day weekday      a date, Monday 0
//!     Z first offset
//!     T instant offset           a change
//!     R instant offset           the offset at an instant
//!     C reading instant          one instant
//!     F reading earlier later    two instants
//!     G reading before after     none: by the offset before the change, and after it

use crate::book::Record;
use crate::judge::{DAYS, SECOND};
use crate::make;
use crate::random::Random;
use jiff::Timestamp;
use jiff::civil::{Date, Time};
use jiff::tz::{AmbiguousOffset, TimeZone};
use std::collections::BTreeSet;

const DAY: i64 = 86_400;

fn print_reading(zone: &TimeZone, reading: i64) {
    let date = Date::from_day_number(reading.div_euclid(DAY)).expect("a date");
    let time = Time::from_second_of_day(reading.rem_euclid(DAY)).expect("a time");
    let by = |offset: jiff::tz::Offset| reading - i64::from(offset.seconds());
    match zone.to_ambiguous_timestamp(date.to_datetime(time)).offset() {
        AmbiguousOffset::Unambiguous { offset } => println!("C {reading} {}", by(offset)),
        AmbiguousOffset::Fold { before, after } => {
            println!("F {reading} {} {}", by(before), by(after))
        }
        AmbiguousOffset::Gap { before, after } => {
            println!("G {reading} {} {}", by(before), by(after))
        }
    }
}

fn print_zone(first: i32, changes: &[(i64, i32)]) {
    let zone = TimeZone::from_transitions(first, changes);
    println!("Z {first}");
    for (at, offset) in changes {
        println!("T {at} {offset}");
    }
    let (mut instants, mut readings) = (BTreeSet::new(), BTreeSet::new());
    let mut before = first;
    for &(at, after) in changes {
        let (low, high) = (
            at + i64::from(before.min(after)),
            at + i64::from(before.max(after)),
        );
        for beside in -1..=1 {
            instants.insert(at + beside);
            readings.extend([low + beside, high + beside]);
        }
        readings.extend([(low + high) / 2, low + (high - low) / 4]);
        // Midnights from a day before the stretch to a day after it.
        readings.extend((low / DAY - 1..=high / DAY + 1).map(|day| day * DAY));
        before = after;
    }
    // Far from every change.
    let (start, end) = (changes[0].0, changes[changes.len() - 1].0);
    for at in [
        start - 40 * DAY,
        start - 400 * DAY,
        end + 40 * DAY,
        end + 400 * DAY,
    ] {
        instants.insert(at);
        readings.insert(at);
    }
    for at in instants {
        let instant =
            Timestamp::from_nanosecond(i128::from(at) * i128::from(SECOND)).expect("an instant");
        println!("R {at} {}", zone.to_offset(instant).seconds());
    }
    for reading in readings {
        print_reading(&zone, reading);
    }
}

fn print_dates() {
    for day in DAYS[0]..=DAYS[1] {
        let date = Date::from_day_number(i64::from(day)).expect("a date");
        let (year, month, weekday) = (date.year(), date.month(), date.weekday());
        let weekday = weekday.to_monday_zero_offset();
        println!("D {day} {year} {month} {} {weekday}", date.day());
    }
}

/// The dates, and the changes of so many books that have some.
pub fn run(seed: u64, books: u64) {
    print_dates();
    let (mut place, mut printed) = (0, 0);
    while printed < books {
        let records = make::book(&mut Random::new(seed, place));
        place += 1;
        let changes: Vec<(i64, i32)> = records
            .iter()
            .filter_map(|record| match record {
                Record::Change { at, offset } => Some((*at, *offset)),
                _ => None,
            })
            .collect();
        if let (Some(Record::Head { offset, .. }), false) = (records.first(), changes.is_empty()) {
            print_zone(*offset, &changes);
            printed += 1;
        }
    }
}
