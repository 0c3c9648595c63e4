//! Room that grows until the answer fits.

use crate::answer::{Point, Row, Tally};
use crate::{Nanos, Refusal, Window, answered, ffi, mark, text};

/// A buffer of its own, to be used again and again. It grows while the library says that the answer is longer, up to
/// its limit; an answer longer than that is refused by `RoomTooSmall`.
#[derive(Debug, Clone)]
pub struct Room {
    bytes: Vec<u8>,
    limit: usize,
}

impl Room {
    /// The bytes that a new room has.
    pub const FIRST: usize = 4_096;
    /// The most that a room grows to if nothing else is said. A year's timeline of a usual venue takes some 200 KB.
    pub const LIMIT: usize = 16 << 20;

    /// Room that grows up to `LIMIT`.
    pub fn new() -> Self {
        Self::with_limit(Self::LIMIT)
    }

    /// Room that grows up to a limit of bytes.
    pub fn with_limit(limit: usize) -> Self {
        let bytes = vec![0; limit.min(Self::FIRST)];
        Self { bytes, limit }
    }

    /// As `point`, in this room.
    pub fn point(&mut self, book: &[u8], at: Nanos) -> Result<Point<'_>, Refusal> {
        self.fit(|room| ffi::point(book, at.0, room))
            .and_then(Point::read)
    }

    /// As `window`, in this room.
    pub fn window(&mut self, book: &[u8], window: Window) -> Result<Row<'_>, Refusal> {
        let (start, end) = (window.start.0, window.end.0);
        self.fit(|room| ffi::window(book, start, end, room))
            .and_then(Row::answered)
    }

    /// As `tally`, in this room.
    pub fn tally(&mut self, book: &[u8], window: Window) -> Result<Tally<'_>, Refusal> {
        let (start, end) = (window.start.0, window.end.0);
        self.fit(|room| ffi::tally(book, start, end, room))
            .and_then(Tally::answered)
    }

    /// As `cells`, in this room.
    pub fn cells(
        &mut self,
        row: &[u8],
        window: Window,
        columns: i64,
        now: Option<Nanos>,
    ) -> Result<&str, Refusal> {
        let (start, end) = (window.start.0, window.end.0);
        let (marked, now) = mark(now);
        self.fit(|room| ffi::cells(row, start, end, columns, marked, now, room))
            .map(text)
    }

    /// Asks with twice the room as long as there is too little.
    fn fit(&mut self, ask: impl Fn(&mut [u8]) -> ffi::Reply) -> Result<&[u8], Refusal> {
        loop {
            let length = self.bytes.len();
            match answered(ask(&mut self.bytes)) {
                Ok(length) => return Ok(&self.bytes[..length]),
                Err(Refusal::RoomTooSmall) if length < self.limit => {
                    let more = (2 * length).max(Self::FIRST).min(self.limit);
                    self.bytes.resize(more, 0);
                }
                Err(refusal) => return Err(refusal),
            }
        }
    }
}

impl Default for Room {
    fn default() -> Self {
        Self::new()
    }
}
