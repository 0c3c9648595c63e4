//! Market time, proved: what a venue does at an instant and over a window, as safe Rust over the C functions of
//! libmarket_time.a, which is proved to meet document 01.
//!
//! A venue's data is a book, bytes in the form of docs/FORMAT.md. [`point`] answers for an instant, [`window`] gives the
//! timeline of a window, [`tally`] its totals; [`cells`] draws a timeline, [`class`] says what it shows at an instant, and
//! [`count`] does so for many. The functions that write take lent room; [`Room`] has the same ones and grows.
//!
//! Every byte string, instant and room is answered or refused. A [`Refusal`] says why, and nothing was written then.
//!
//! ```
//! use market_time_host::{Nanos, Point, Room};
//!
//! let no_data = [];
//! let mut room = Room::new();
//! let answer = room.point(&no_data, Nanos::of_seconds(1_767_571_200))?;
//! assert!(matches!(answer, Point::Unknown { coverage: None, .. }));
//! # Ok::<(), market_time_host::Refusal>(())
//! ```

#![deny(unsafe_code)]
#![warn(missing_docs)]

pub mod answer;
pub mod book;
#[allow(unsafe_code)]
mod ffi;
mod fields;
pub mod plain;
mod refusal;
mod room;

pub use answer::{Class, Count, Phase, Point, Row, Rows, Segment, Tally, TallyRow, Totals};
pub use plain::is_plain;
pub use refusal::Refusal;
pub use room::Room;

/// An instant: nanoseconds since 1970-01-01T00:00Z. A query's must be from 1901-01-01 to 2199-01-01 UTC, both included.
#[derive(Debug, Clone, Copy, PartialEq, Eq, PartialOrd, Ord, Hash)]
pub struct Nanos(pub i64);

impl Nanos {
    /// Of seconds since 1970. An instant too far away for 64 bits becomes the farthest, which every query refuses.
    pub const fn of_seconds(seconds: i64) -> Self {
        Self(seconds.saturating_mul(1_000_000_000))
    }
}

/// From an instant to before another.
#[derive(Debug, Clone, Copy, PartialEq, Eq, Hash)]
pub struct Window {
    /// The first instant that belongs.
    pub start: Nanos,
    /// The first behind it that does not.
    pub end: Nanos,
}

/// The phase at an instant with its events, or that it is not known.
pub fn point<'a>(book: &[u8], at: Nanos, room: &'a mut [u8]) -> Result<Point<'a>, Refusal> {
    let length = answered(ffi::point(book, at.0, room))?;
    Point::read(&room[..length])
}

/// The timeline of a window: its phases with their events, and what is not known.
pub fn window<'a>(book: &[u8], window: Window, room: &'a mut [u8]) -> Result<Row<'a>, Refusal> {
    let length = answered(ffi::window(book, window.start.0, window.end.0, room))?;
    Row::answered(&room[..length])
}

/// The totals of a window of at most 400 days, for every 24 hours and together.
pub fn tally<'a>(book: &[u8], window: Window, room: &'a mut [u8]) -> Result<Tally<'a>, Refusal> {
    let length = answered(ffi::tally(book, window.start.0, window.end.0, room))?;
    Tally::answered(&room[..length])
}

/// A row's bytes drawn over a window between brackets, one glyph a column, `|` where now is. Fewer than 12 columns,
/// negative ones too, become 12; more than 512 are refused. The text takes two bytes more than the columns.
pub fn cells<'a>(
    row: &[u8],
    window: Window,
    columns: i64,
    now: Option<Nanos>,
    room: &'a mut [u8],
) -> Result<&'a str, Refusal> {
    let (start, end) = (window.start.0, window.end.0);
    let (marked, now) = mark(now);
    let length = answered(ffi::cells(row, start, end, columns, marked, now, room))?;
    Ok(text(&room[..length]))
}

/// What a row's bytes show at an instant.
pub fn class(row: &[u8], at: Nanos) -> Result<Class, Refusal> {
    let reply = ffi::class(row, at.0);
    match reply.number {
        0 => Ok(Class::of(reply.shown)),
        number => Err(Refusal::of(number)),
    }
}

/// How many of the rows show what at an instant. [`Rows`] makes the bytes.
pub fn count(rows: &[u8], at: Nanos) -> Result<Count, Refusal> {
    let reply = ffi::count(rows, at.0);
    match reply.number {
        0 => Ok(Count {
            venues: reply.venues,
            trading: reply.trading,
            not_trading: reply.not_trading,
            not_known: reply.not_known,
        }),
        number => Err(Refusal::of(number)),
    }
}

/// The answer's length, or why there is none.
fn answered(reply: ffi::Reply) -> Result<usize, Refusal> {
    match reply.number {
        0 => Ok(reply.length),
        number => Err(Refusal::of(number)),
    }
}

/// Whether now is marked, and now: a number that is not judged where there is no mark.
fn mark(now: Option<Nanos>) -> (bool, i64) {
    (now.is_some(), now.map_or(0, |now| now.0))
}

fn text(cells: &[u8]) -> &str {
    std::str::from_utf8(cells).expect("glyphs are ASCII")
}

/// Tries the code of README.md.
#[cfg(doctest)]
#[doc = include_str!("../README.md")]
struct Readme;
