//! Plain dates and plain windows, judged in Rust from document 01's words on a book's values.
//!
//! Over a plain window the timeline, its totals and the point answers agree at every instant; that is proved. Over
//! another they may part near a clock change, so whoever shows a figure of such a window should say so.

use crate::book::{Book, Day};
use crate::{Nanos, Refusal, Window, answered, ffi};

const SECOND: i64 = 1_000_000_000;
const DATE: i64 = 86_400 * SECOND;
/// No offset is wider.
const WIDEST: i64 = 57_600 * SECOND;
/// The longest run of dates under a plain window.
const MOST_DATES: usize = 3_660;

/// What a wall clock shows: nanoseconds since 1970-01-01T00:00 on that clock.
#[derive(Debug, Clone, Copy, PartialEq, Eq)]
struct Reading(i64);

impl Reading {
    fn of(day: Day, time: u64) -> Self {
        Self(i64::from(day.0) * DATE + time as i64)
    }

    fn day(self) -> Day {
        Day(self.0.div_euclid(DATE) as i32)
    }
}

/// Whether a window of a book is plain. A book of zero bytes names no venue, and no window is plain for it. Refuses
/// what `window` refuses, but for the room.
pub fn is_plain(book: &[u8], window: Window) -> Result<bool, Refusal> {
    match answered(ffi::window(book, window.start.0, window.end.0, &mut [])) {
        Ok(_) | Err(Refusal::RoomTooSmall) => {}
        Err(refusal) => return Err(refusal),
    }
    let book = Book::read(book)?;
    Ok(book.is_some_and(|book| book.is_plain_window(window)))
}

impl Book {
    /// A run of plain dates that encloses a window has the date which the window's start reads, and all up to the first
    /// midnight not before its end. The date before and the date behind must be plain too.
    fn is_plain_window(&self, window: Window) -> bool {
        let first = self.read_at(window.start).day();
        let run = (first.0..).map(Day).take(MOST_DATES + 1);
        let mut reached = false;
        for day in run {
            if !self.is_plain_date(day) {
                return false;
            }
            if window.end <= self.midnight(day) {
                reached = true;
                break;
            }
        }
        reached && self.midnight(first) <= window.start && self.is_plain_date(Day(first.0 - 1))
    }

    fn is_plain_date(&self, day: Day) -> bool {
        let (from, to) = (self.midnight(day), self.midnight(Day(day.0 + 1)));
        let points = self.governing(day).map_or(&[][..], |rule| &rule.points);
        let mut edges = vec![from];
        edges.extend(
            points
                .iter()
                .map(|&(time, _)| self.taken(Reading::of(day, time))),
        );
        edges.push(to);
        edges.is_sorted() && self.reads_throughout(day, from, to)
    }

    /// Every instant from the first to before the second reads the date: between clock changes readings rise, so the
    /// ends of each stretch tell.
    fn reads_throughout(&self, day: Day, from: Nanos, to: Nanos) -> bool {
        let inside = |at: &Nanos| from < *at && *at < to;
        let mut edges = vec![from];
        edges.extend(self.changes.iter().map(|change| change.at).filter(inside));
        edges.push(to);
        edges.windows(2).all(|two| {
            let reads = |at| self.read_at(at).day() == day;
            two[0] >= two[1] || reads(two[0]) && reads(Nanos(two[1].0 - 1))
        })
    }

    /// The offset in force at an instant, in nanoseconds.
    fn offset_at(&self, at: Nanos) -> i64 {
        let passed = self.changes.partition_point(|change| change.at <= at);
        let offset = match passed {
            0 => self.first_offset,
            _ => self.changes[passed - 1].offset,
        };
        i64::from(offset) * SECOND
    }

    fn read_at(&self, at: Nanos) -> Reading {
        Reading(at.0 + self.offset_at(at))
    }

    fn midnight(&self, day: Day) -> Nanos {
        self.taken(Reading::of(day, 0))
    }

    /// The instant taken for a reading: the earlier of two, and where there is none the later by the offsets before and
    /// after. Clock changes are two days apart, so the offsets far before and far after the reading are all it can have.
    fn taken(&self, reading: Reading) -> Nanos {
        let by = |near: i64| Nanos(reading.0 - self.offset_at(Nanos(near)));
        let (before, after) = (by(reading.0 - WIDEST), by(reading.0 + WIDEST));
        let in_order = [before.min(after), before.max(after)];
        let read_back = in_order.into_iter().find(|at| self.read_at(*at) == reading);
        read_back.unwrap_or(before.max(after))
    }
}
