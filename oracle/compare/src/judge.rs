//! Document 01's numbers 1 to 9 for a book's bytes, written from the document. Each record's
//! numbers are gathered and the smallest is its number; the first record that has one decides.

use crate::book::Fields;

pub const SECOND: i64 = 1_000_000_000;
pub const DAY: u64 = 86_400 * SECOND as u64;
/// Queries and coverage.
pub const INSTANTS: [i64; 2] = [-2_177_452_800 * SECOND, 7_226_582_400 * SECOND];
/// Transitions.
pub const SECONDS: [i64; 2] = [-2_208_988_800, 7_258_118_400];
pub const OFFSETS: [i32; 2] = [-57_600, 57_600];
pub const DAYS: [i32; 2] = [-25_567, 84_005];
pub const WIDTHS: [i64; 2] = [0, 1_000_000_000_000_000];
/// The least seconds from one transition to the next.
pub const SPACING: i64 = 172_800;
pub const LONGEST: usize = 65_536;
/// How many records of kinds 1 to 4.
pub const MOST: [usize; 4] = [1, 640, 256, 32];
pub const MOST_POINTS: usize = 16;
pub const MOST_TIMES: usize = 8;

fn outside<T: PartialOrd>(value: T, range: [T; 2]) -> bool {
    value < range[0] || value > range[1]
}

/// What was read before a record: how many of each kind, and the last transition.
#[derive(Default)]
struct Before {
    seen: [usize; 4],
    change: Option<i64>,
}

pub fn judge(book: &[u8]) -> u32 {
    if book.len() > LONGEST {
        return 1;
    }
    let mut before = Before::default();
    let mut rest = book;
    while !rest.is_empty() {
        let Some((kind, body)) = frame(rest, rest.len() == book.len()) else {
            return 2;
        };
        let number = judge_record(kind, body, &mut before);
        if number != 0 {
            return number;
        }
        rest = &rest[body.len() + 4..];
    }
    0
}

/// The first record's kind and body, if its length and kind are good.
fn frame(rest: &[u8], first: bool) -> Option<(usize, &[u8])> {
    if rest.len() < 4 {
        return None;
    }
    let mut fields = Fields(rest);
    let (length, kind) = (usize::from(fields.u16()), usize::from(fields.u16()));
    if length < 2 || rest.len() < length + 2 || !(1..=4).contains(&kind) || first && kind != 1 {
        return None;
    }
    let body = &rest[4..length + 2];
    let (fixed, each) = [(20, 0), (12, 0), (28, 9), (24, 8)][kind - 1];
    if body.len() < fixed {
        return None;
    }
    let n = if each == 0 {
        0
    } else {
        usize::from(body[fixed - 1])
    };
    (body.len() == fixed + n * each).then_some((kind, body))
}

fn judge_record(kind: usize, body: &[u8], before: &mut Before) -> u32 {
    let mut numbers = Vec::new();
    let mut test = |number: u32, wrong: bool| {
        if wrong {
            numbers.push(number);
        }
    };
    test(3, before.seen[kind - 1] >= MOST[kind - 1]);
    before.seen[kind - 1] += 1;
    let mut fields = Fields(body);
    match kind {
        1 => {
            let (start, end, offset) = (fields.i64(), fields.i64(), fields.i32());
            test(
                4,
                outside(start, INSTANTS) || outside(end, INSTANTS) || outside(offset, OFFSETS),
            );
            test(8, end <= start);
        }
        2 => {
            let (at, offset) = (fields.i64(), fields.i32());
            test(4, outside(at, SECONDS) || outside(offset, OFFSETS));
            // In 128 bits: an instant outside its range may be any number.
            test(
                9,
                before
                    .change
                    .is_some_and(|b| i128::from(at) - i128::from(b) < i128::from(SPACING)),
            );
            before.change = Some(at);
        }
        _ => {
            let (first, last) = (fields.i32(), fields.i32());
            test(4, outside(first, DAYS) || outside(last, DAYS));
            test(7, last < first);
            if kind == 3 {
                let (code, mask, label) = (fields.u8(), fields.u8(), fields.u16());
                test(
                    4,
                    code > 3 || mask > 127 || code == 0 && label != 0 || code != 0 && mask != 0,
                );
                fields.u16();
            } else {
                fields.u16();
            }
            fields.u16();
            let (tag, nanos, text) = (fields.u8(), fields.i64(), fields.u16());
            test(4, tag > 3 || outside(nanos, WIDTHS));
            test(4, (tag == 0 || tag == 3) && nanos != 0);
            test(4, (tag == 0 || tag == 1) && text != 0);
            let n = usize::from(fields.u8());
            if kind == 3 {
                let points: Vec<(u64, u8)> = (0..n).map(|_| (fields.u64(), fields.u8())).collect();
                test(
                    4,
                    n > MOST_POINTS || points.iter().any(|&(t, phase)| t >= DAY || phase > 7),
                );
                test(5, points.first().is_none_or(|&(t, _)| t != 0));
                test(6, points.windows(2).any(|two| two[1].0 <= two[0].0));
            } else {
                test(4, n > MOST_TIMES || (0..n).any(|_| fields.u64() >= DAY));
            }
        }
    }
    numbers.into_iter().min().unwrap_or(0)
}
