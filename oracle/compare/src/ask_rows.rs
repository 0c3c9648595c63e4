//! Queries on rows: windows and instants at and beside the edges of segments, columns, nows, and rows behind marks.

use crate::ask;
use crate::drawn::{Cells, LEAST_COLUMNS, MOST_COLUMNS};
use crate::given::outside;
use crate::judge::{DAY, INSTANTS};
use crate::make_rows::mark;
use crate::random::Random;
use crate::row::Row;

/// The edges of a row's segments.
pub fn edges(row: &Row) -> Vec<i64> {
    row.iter().flat_map(|one| [one.start, one.end]).collect()
}

/// An instant at an edge or 1 ns beside it, between two, or anywhere. Few are outside the range if the row is inside.
pub fn instant(random: &mut Random, edges: &[i64]) -> i64 {
    if edges.is_empty() || random.percent(4) {
        return ask::far(random);
    }
    let (one, other) = (*random.pick(edges), *random.pick(edges));
    let at = match random.below(4) {
        0 => random.from_to(one.min(other), one.max(other)),
        _ => one.saturating_add(random.from_to(-1, 1)),
    };
    // A row may have any instants, a query not: most that are outside are put inside.
    if outside(at) && random.percent(90) {
        return random.from_to(INSTANTS[0], INSTANTS[1]);
    }
    at
}

/// A window: between two instants, of few nanoseconds, of some days, all of the range; few are reversed or empty.
fn window(random: &mut Random, edges: &[i64]) -> (i64, i64) {
    let (one, other) = (instant(random, edges), instant(random, edges));
    let (low, high) = (one.min(other), one.max(other));
    match random.below(50) {
        0 => (one, one),
        1 => (high, low),
        2..12 => (one, one.saturating_add(random.from_to(1, 40))),
        12..24 => (
            one,
            one.saturating_add(random.from_to(1, 9 * DAY as i64 / 2)),
        ),
        24..26 => (INSTANTS[0], INSTANTS[1]),
        26 => (INSTANTS[0] + random.from_to(0, 9), INSTANTS[1]),
        _ => (low, high),
    }
}

fn columns(random: &mut Random) -> i64 {
    match random.below(14) {
        0 => *random.pick(&[i64::MIN, -1, 0]),
        1 => random.from_to(-20, LEAST_COLUMNS - 1),
        2 => *random.pick(&[513, 514, 768, i64::MAX]),
        3..9 => *random.pick(&[0, 11, 12, 13, 80, 511, 512]),
        _ => random.from_to(LEAST_COLUMNS, MOST_COLUMNS),
    }
}

/// A now: inside, at the window's edges and beside, where a cell begins and beside, or anywhere.
fn now(random: &mut Random, asked: &Cells) -> i64 {
    let Cells { start, end, .. } = *asked;
    if start >= end {
        return ask::far(random);
    }
    let columns = i128::from(asked.columns.clamp(LEAST_COLUMNS, MOST_COLUMNS));
    let span = i128::from(end) - i128::from(start);
    let cell = i128::from(random.from_to(0, columns as i64));
    let begins = (i128::from(start) + (span * cell + columns - 1) / columns) as i64;
    match random.below(12) {
        0 => ask::far(random),
        1 => *random.pick(&[start.saturating_sub(1), end, end.saturating_add(1)]),
        2 => *random.pick(&[start, end - 1]),
        3..8 => begins.saturating_add(random.from_to(-1, 1)),
        _ => random.from_to(start, end - 1),
    }
}

pub fn cells(random: &mut Random, edges: &[i64]) -> Cells {
    let (start, end) = window(random, edges);
    let mut made = Cells {
        start,
        end,
        columns: columns(random),
        marked: random.percent(65),
        now: 0,
    };
    made.now = now(random, &made);
    // Without a marker it is not judged.
    if !made.marked && random.percent(50) {
        made.now = *random.pick(&[i64::MIN, INSTANTS[0] - 1, INSTANTS[1] + 1, i64::MAX]);
    }
    made
}

/// The row numbers of marks: counted up, one repeated, falling, or any.
pub fn row_numbers(random: &mut Random, many: usize) -> Vec<u16> {
    let first = random.word() as u16;
    let shape = random.below(4);
    (0..many as u16)
        .map(|place| match shape {
            0 => place,
            1 => first,
            2 => first.wrapping_sub(place),
            _ => random.word() as u16,
        })
        .collect()
}

/// Rows behind their marks.
pub fn marked(rows: &[Vec<u8>], numbers: &[u16]) -> Vec<Vec<u8>> {
    let pairs = rows.iter().zip(numbers);
    pairs
        .flat_map(|(row, number)| [mark(*number), row.clone()])
        .collect()
}
