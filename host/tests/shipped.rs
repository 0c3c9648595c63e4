//! The trading hours of 2026 of the books that come with this crate, worked out by hand.

use market_time_host::{Nanos, Room, Window};

const MINUTE: u64 = 60_000_000_000;
/// 2026 has so many days from Monday to Friday.
const WEEKDAYS: u64 = 261;

fn trading_minutes(book: &[u8]) -> u64 {
    let year = Window {
        start: Nanos::of_seconds(1_767_225_600),
        end: Nanos::of_seconds(1_798_761_600),
    };
    let mut room = Room::new();
    let whole = room.tally(book, year).unwrap().whole();
    assert_eq!(whole.totals.no_segment, 0);
    assert_eq!(whole.totals.trading() % MINUTE, 0);
    whole.totals.trading() / MINUTE
}

/// Holidays, short days, and the trading minutes of a whole and of a short day.
fn worked(holidays: u64, short: u64, whole_minutes: u64, short_minutes: u64) -> u64 {
    (WEEKDAYS - holidays - short) * whole_minutes + short * short_minutes
}

#[test]
fn new_york_trades_from_half_past_nine_to_four() {
    let made = trading_minutes(include_bytes!("../books/new-york.book"));
    assert_eq!(made, worked(10, 2, 390, 210));
}

#[test]
fn london_trades_with_its_auctions_from_ten_to_eight_to_25_to_five() {
    let made = trading_minutes(include_bytes!("../books/london.book"));
    assert_eq!(made, worked(8, 2, 525, 285));
}

#[test]
fn frankfurt_trades_with_its_auctions_from_ten_to_nine_to_25_to_six() {
    let made = trading_minutes(include_bytes!("../books/frankfurt.book"));
    assert_eq!(made, worked(7, 1, 525, 315));
}

#[test]
fn tokyo_trades_from_nine_to_half_past_three_but_for_an_hour() {
    let made = trading_minutes(include_bytes!("../books/tokyo.book"));
    assert_eq!(made, worked(19, 0, 330, 0));
}

#[test]
fn hong_kong_trades_with_its_auctions_from_nine_to_ten_past_four_but_for_an_hour() {
    let made = trading_minutes(include_bytes!("../books/hong-kong.book"));
    assert_eq!(made, worked(14, 3, 370, 190));
}

#[test]
fn sydney_trades_from_ten_to_eleven_past_four() {
    let made = trading_minutes(include_bytes!("../books/sydney.book"));
    assert_eq!(made, worked(7, 2, 371, 250));
}
