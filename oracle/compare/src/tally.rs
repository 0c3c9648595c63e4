//! Totals of a window, kinds 22 and 23 of document 01, counted from the Rust's segments, and number 13.

use crate::answer::Answer;
use crate::given::{instant, nanos};
use crate::judge::DAY;
use market_time_board::doors::segment_at;
use market_time_core::{Interval, Phase, Timeline, TimelineSegment};
use std::collections::BTreeSet;

/// The longest window of a tally.
pub const LONGEST: i64 = 400 * DAY as i64;

/// Nanoseconds in each phase, outside coverage, in no segment.
pub type Totals = [u64; 10];
/// The last two of them.
pub const UNKNOWN: usize = 8;
pub const NONE: usize = 9;

/// Number 13. In 128 bits: a window may be longer than 64 bits can say.
pub fn judge_length(start: i64, end: i64) -> Result<(), u32> {
    let length = i128::from(end) - i128::from(start);
    (length <= i128::from(LONGEST)).then_some(()).ok_or(13)
}

/// Which total a segment adds to.
fn place(segment: &TimelineSegment) -> usize {
    match segment.phase() {
        Some(phase) => {
            let of = Phase::all().iter().position(|one| *one == phase);
            of.expect("a phase")
        }
        None => UNKNOWN,
    }
}

fn length(of: Interval) -> u64 {
    u64::try_from(of.start.saturating_nanos_until(of.end)).expect("a length")
}

/// The totals of a part of the timeline: of each segment what is in the part, and the rest is in none.
fn totals(timeline: &Timeline, part: Interval) -> Totals {
    let mut made = [0; 10];
    let segments = &timeline.segments;
    let first = segments.partition_point(|one| one.interval().end <= part.start);
    let near = segments[first..].iter();
    for segment in near.take_while(|one| one.interval().start < part.end) {
        let inside = segment.interval().intersection(part);
        made[place(segment)] += inside.map_or(0, length);
    }
    made[NONE] = length(part) - made[..NONE].iter().sum::<u64>();
    made
}

/// The day rows, cut every 24 hours from the window's start, then the tally.
pub fn tally(timeline: &Timeline) -> Vec<Answer> {
    let whole = timeline.interval;
    let (start, end) = (nanos(whole.start), nanos(whole.end));
    let of = |from: i64, to: i64| Interval {
        start: instant(from),
        end: instant(to),
    };
    let cuts = (start..end).step_by(DAY as usize);
    let mut made: Vec<Answer> = cuts
        .map(|from| {
            let to = from.saturating_add(DAY as i64).min(end);
            Answer::Day {
                start: from,
                end: to,
                totals: totals(timeline, of(from, to)),
            }
        })
        .collect();
    made.push(Answer::Tally {
        start,
        end,
        totals: totals(timeline, whole),
    });
    made
}

/// The same totals counted in another way: between two neighbours of all edges nothing changes, so each such piece
/// belongs to the segment that the board's own `segment_at` finds at its first instant.
pub fn by_pieces(timeline: &Timeline, from: i64, to: i64) -> Totals {
    let mut edges = BTreeSet::from([from, to]);
    for segment in &timeline.segments {
        let held = segment.interval();
        edges.extend([nanos(held.start), nanos(held.end)]);
    }
    let inside: Vec<i64> = edges.range(from..=to).copied().collect();
    let mut made = [0; 10];
    for piece in inside.windows(2) {
        let found = segment_at(timeline, instant(piece[0]));
        made[found.map_or(NONE, place)] += piece[1].abs_diff(piece[0]);
    }
    made
}
