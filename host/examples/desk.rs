//! The dashboard's question for a desk: how many calls for each hour that its venue trades in the year. Then the venues' rows for a day.
//!
//! ```text
//! cargo run --offline --example desk [YYYY-MM-DD [HH:MM]]
//! ```
//!
//! Trading is totals 2, 3 and 5 and nothing else. Hours of which nothing is known, and covered hours in no segment, stand beside it
//! and are never counted as trading. Dates and times are UTC. The calls are invented; so are the two last venues.

use market_time_host::{
    Class, Nanos, Refusal, Room, Rows, TallyRow, Window, class, count, is_plain,
};

struct Desk {
    venue: &'static str,
    book: &'static [u8],
    calls: u64,
}

const DESKS: [Desk; 8] = [
    Desk {
        venue: "New York",
        book: include_bytes!("../books/new-york.book"),
        calls: 5_310,
    },
    Desk {
        venue: "London",
        book: include_bytes!("../books/london.book"),
        calls: 4_120,
    },
    Desk {
        venue: "Frankfurt",
        book: include_bytes!("../books/frankfurt.book"),
        calls: 2_875,
    },
    Desk {
        venue: "Tokyo",
        book: include_bytes!("../books/tokyo.book"),
        calls: 3_644,
    },
    Desk {
        venue: "Hong Kong",
        book: include_bytes!("../books/hong-kong.book"),
        calls: 2_208,
    },
    Desk {
        venue: "Sydney",
        book: include_bytes!("../books/sydney.book"),
        calls: 1_530,
    },
    Desk {
        venue: "Night market",
        book: include_bytes!("../books/invented-night.book"),
        calls: 6_400,
    },
    Desk {
        venue: "Without data",
        book: &[],
        calls: 96,
    },
];

const SECOND: i64 = 1_000_000_000;
const DAY: i64 = 86_400 * SECOND;
const HOUR: f64 = 3_600e9;
const COLUMNS: i64 = 48;
/// 2026-01-01 to 2027-01-01.
const YEAR: Window = Window {
    start: Nanos(20_454 * DAY),
    end: Nanos(20_819 * DAY),
};

fn main() -> Result<(), String> {
    let words: Vec<String> = std::env::args().skip(1).collect();
    let day = words.first().map_or("2026-03-09", String::as_str);
    let time = words.get(1).map_or("14:30", String::as_str);
    let (Some(start), Some(time)) = (midnight(day), time_of_day(time)) else {
        return Err("usage: desk [YYYY-MM-DD [HH:MM]]".to_owned());
    };
    hours();
    println!();
    let window = Window {
        start: Nanos(start),
        end: Nanos(start + DAY),
    };
    println!("{day} UTC, a column for each half hour");
    rows(window, Nanos(start + time)).map_err(|refusal| refusal.to_string())
}

/// A line for each desk.
fn hours() {
    let days = (YEAR.end.0 - YEAR.start.0) / DAY;
    println!("2026 UTC, {days} days of 24 hours");
    println!(
        "{:<13}{:>10}{:>11}{:>14}{:>7}{:>13}  window",
        "venue", "trading h", "outside h", "no segment h", "calls", "calls per h"
    );
    let mut room = Room::new();
    for desk in &DESKS {
        let line = asked(desk, &mut room).unwrap_or_else(|refusal| format!("  refused: {refusal}"));
        println!("{:<13}{line}", desk.venue);
    }
    println!(
        "outside h: outside coverage, so nothing is known of them; no segment h: covered, but no rule governs the date"
    );
    println!(
        "not plain: near a clock change the timeline and the point answers can part; look at the hours there first"
    );
}

fn asked(desk: &Desk, room: &mut Room) -> Result<String, Refusal> {
    let TallyRow { totals, .. } = room.tally(desk.book, YEAR)?.whole();
    let plain = match is_plain(desk.book, YEAR)? {
        true => "plain",
        false if desk.book.is_empty() => "not plain: no data",
        false => "not plain",
    };
    Ok(format!(
        "{:>10.2}{:>11.2}{:>14.2}{:>7}{:>13}  {plain}",
        totals.trading() as f64 / HOUR,
        totals.outside_coverage as f64 / HOUR,
        totals.no_segment as f64 / HOUR,
        desk.calls,
        per_hour(desk.calls, totals.trading()),
    ))
}

/// A dash where there is no trading hour to divide by.
fn per_hour(calls: u64, trading: u64) -> String {
    match trading {
        0 => "-".to_owned(),
        _ => format!("{:.2}", calls as f64 * HOUR / trading as f64),
    }
}

/// Each venue's row of a day, what it shows now, and how many show what.
fn rows(window: Window, now: Nanos) -> Result<(), Refusal> {
    let (mut room, mut cell_room) = (Room::new(), Room::new());
    let mut rows = Rows::new();
    for (number, desk) in (0..).zip(&DESKS) {
        let row = room.window(desk.book, window)?;
        rows.push(number, row);
        let cells = cell_room.cells(row.bytes(), window, COLUMNS, Some(now))?;
        let shown = match class(row.bytes(), now)? {
            Class::Trading => "trading",
            Class::NotTrading => "not trading",
            Class::NotKnown => "not known",
            Class::NotShown => "no segment",
        };
        println!("{:<13}{cells} {shown}", desk.venue);
    }
    let found = count(rows.bytes(), now)?;
    println!(
        "venues {}, trading {}, not trading {}, not known {}",
        found.venues, found.trading, found.not_trading, found.not_known
    );
    println!(
        ". closed  - pre-open  = auction  # continuous  : break  _ post-close  ! interruption  ? unknown  | now"
    );
    Ok(())
}

/// The midnight of a date of the years 1901 to 2198; none where it is no date.
fn midnight(text: &str) -> Option<i64> {
    let mut parts = text.split('-').map(|part| part.parse::<i64>().ok());
    let (year, month, day) = (parts.next()??, parts.next()??, parts.next()??);
    let leap = |year: i64| year % 4 == 0 && year % 100 != 0 || year % 400 == 0;
    let february = if leap(year) { 29 } else { 28 };
    let months = [31, february, 31, 30, 31, 30, 31, 31, 30, 31, 30, 31];
    let good = parts.next().is_none()
        && (1901..2199).contains(&year)
        && (1..=12).contains(&month)
        && (1..=months[month as usize - 1]).contains(&day);
    let leaps = |year: i64| (year - 1) / 4 - (year - 1) / 100 + (year - 1) / 400;
    let before = 365 * (year - 1970) + leaps(year) - leaps(1970);
    let in_year: i64 = months.iter().take(month.max(1) as usize - 1).sum();
    good.then(|| (before + in_year + day - 1) * DAY)
}

fn time_of_day(text: &str) -> Option<i64> {
    let (hours, minutes) = text.split_once(':')?;
    let (hours, minutes): (i64, i64) = (hours.parse().ok()?, minutes.parse().ok()?);
    let good = (0..24).contains(&hours) && (0..60).contains(&minutes);
    good.then_some((hours * 3_600 + minutes * 60) * SECOND)
}
