//! The port, as the C functions of libmarket_time.a.

use crate::drawn::Cells;
use crate::given::Query;

// The declarations of the crate that a server takes.
#[path = "../../../host/src/ffi.rs"]
mod ffi;

/// Bytes on each side of a lent room that nobody may touch.
const GUARD: usize = 64;

/// A room with guards around it.
pub struct Room(Vec<u8>);

impl Room {
    /// What a room and its guards hold before the query.
    pub fn fill(place: usize) -> u8 {
        (place as u8).wrapping_mul(31) ^ 0xa5
    }

    pub fn new(length: usize) -> Self {
        let guard = std::iter::repeat_n(0xc3, GUARD);
        Self(
            guard
                .clone()
                .chain((0..length).map(Self::fill))
                .chain(guard)
                .collect(),
        )
    }

    pub fn bytes(&self) -> &[u8] {
        &self.0[GUARD..self.0.len() - GUARD]
    }

    pub fn bytes_mut(&mut self) -> &mut [u8] {
        let end = self.0.len() - GUARD;
        &mut self.0[GUARD..end]
    }

    /// Whether the guards are as they were.
    pub fn guarded(&self) -> bool {
        let (front, back) = (&self.0[..GUARD], &self.0[self.0.len() - GUARD..]);
        front.iter().chain(back).all(|byte| *byte == 0xc3)
    }
}

/// Asks the port: the number and the length given back.
pub fn ask(book: &[u8], query: &Query, room: &mut Room) -> (u32, usize) {
    let out = room.bytes_mut();
    let reply = match *query {
        Query::Point { at } => ffi::point(book, at, out),
        Query::Window { start, end } => ffi::window(book, start, end, out),
        Query::Tally { start, end } => ffi::tally(book, start, end, out),
    };
    (reply.number, reply.length)
}

/// Asks the port for a row's cells: the number and the length given back.
pub fn cells(row: &[u8], asked: &Cells, room: &mut Room) -> (u32, usize) {
    let Cells {
        start,
        end,
        columns,
        marked,
        now,
    } = *asked;
    let reply = ffi::cells(row, start, end, columns, marked, now, room.bytes_mut());
    (reply.number, reply.length)
}

/// Asks the port for a row's class: the number and the class.
pub fn class(row: &[u8], at: i64) -> (u32, u32) {
    let reply = ffi::class(row, at);
    (reply.number, reply.shown)
}

/// Asks the port for the count over marked rows: the number; venues, trading, not trading, not known.
pub fn count(rows: &[u8], at: i64) -> (u32, [u64; 4]) {
    let reply = ffi::count(rows, at);
    let counts = [
        reply.venues,
        reply.trading,
        reply.not_trading,
        reply.not_known,
    ];
    (reply.number, counts)
}
