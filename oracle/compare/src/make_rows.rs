//! Rows of every shape: any instants, phases, codes, tags and events; and rows with something wrong, in each way that
//! document 01's number 15 names.

use crate::answer::{Answer, Boundary, Doubt, Phase, encode};
use crate::judge::{DAY, INSTANTS, SECOND};
use crate::random::Random;

/// A row as records, each with its length and kind before it.
pub type Records = Vec<Vec<u8>>;

/// Where fields stand in a record.
const START: usize = 4;
const END: usize = 12;
const PHASE: usize = 20;
const CODE: usize = 21;
const TAGS: [usize; 3] = [36, 63, 82];
const EVENTS: usize = 101;
const TAG_OF_AN_EVENT: usize = 14;
const COVERAGE_MARK: usize = 20;

fn record(answer: Answer) -> Vec<u8> {
    encode(&[answer])
}

/// The records of whole bytes.
pub fn split(bytes: &[u8]) -> Records {
    let mut rest = bytes;
    let mut made = Vec::new();
    while !rest.is_empty() {
        let length = usize::from(u16::from_le_bytes([rest[0], rest[1]])) + 2;
        made.push(rest[..length].to_vec());
        rest = &rest[length..];
    }
    made
}

fn kind(record: &[u8]) -> u16 {
    u16::from_le_bytes([record[2], record[3]])
}

fn i64_at(record: &[u8], place: usize) -> i64 {
    i64::from_le_bytes(record[place..place + 8].try_into().expect("8 bytes"))
}

fn put_i64(record: &mut [u8], place: usize, value: i64) {
    record[place..place + 8].copy_from_slice(&value.to_le_bytes());
}

/// Any number, and the ones at the ends.
fn any(random: &mut Random) -> i64 {
    match random.below(4) {
        0 => *random.pick(&[i64::MIN, -1, 0, 1, i64::MAX]),
        1 => random.from_to(INSTANTS[0], INSTANTS[1]),
        _ => random.word() as i64,
    }
}

fn doubt(random: &mut Random) -> Doubt {
    Doubt {
        tag: random.below(6) as u8,
        first: any(random),
        second: any(random),
        text: random.word() as u16,
    }
}

fn boundary(random: &mut Random) -> Boundary {
    Boundary {
        at: any(random),
        doubt: doubt(random),
    }
}

pub fn event(random: &mut Random) -> Vec<u8> {
    record(Answer::Event {
        code: random.word() as u16,
        at: any(random),
        doubt: doubt(random),
        evidence: random.word() as u16,
    })
}

pub fn mark(row: u16) -> Vec<u8> {
    record(Answer::Mark { row })
}

/// Coverage numbers are any, under mark 0 too.
fn unknown(random: &mut Random, start: i64, end: i64) -> Vec<u8> {
    let coverage = Some((any(random), any(random)));
    let mut made = record(Answer::Unknown {
        start,
        end,
        coverage,
    });
    made[COVERAGE_MARK] = random.below(2) as u8;
    made
}

fn phase(random: &mut Random, start: i64, end: i64, phase: u8) -> Records {
    let events = match random.below(20) {
        0..12 => 0,
        12..19 => 1 + random.below(3),
        _ => random.below(20),
    };
    let mut made = vec![record(Answer::Phase(Phase {
        start,
        end,
        phase,
        code: random.below(4) as u8,
        label: random.word() as u16,
        evidence: random.word() as u16,
        derived: random.word() as u16,
        from: boundary(random),
        to: boundary(random),
        whole: doubt(random),
        events: events as u32,
    }))];
    made.extend((0..events).map(|_| event(random)));
    made
}

/// A good row: segments of one size, some touching, also with the same phase; some with a gap between.
pub fn row(random: &mut Random) -> Records {
    let many = match random.below(100) {
        0..5 => 0,
        5..20 => 1,
        20..85 => 2 + random.below(5),
        85..95 => random.below(30),
        95..98 => random.below(120),
        _ => 500 + random.below(200),
    };
    let size = *random.pick(&[
        3,
        1_000,
        3_600 * SECOND,
        3_600 * SECOND,
        DAY as i64,
        400 * DAY as i64,
        i64::MAX / 4,
        i64::MAX,
    ]);
    let first = match random.below(8) {
        0 => i64::MIN,
        1 => any(random),
        2 => INSTANTS[0] - random.from_to(0, 2 * size.min(DAY as i64)),
        3 => INSTANTS[1] - random.from_to(0, 4 * size.min(DAY as i64)),
        _ => random.from_to(INSTANTS[0], INSTANTS[1]),
    };
    let mut made = Vec::new();
    let (mut cursor, mut shown) = (i128::from(first), random.below(8) as u8);
    for _ in 0..many {
        let gap = random.from_to(1, size);
        cursor += i128::from(*random.pick(&[0, 0, 1, gap]));
        let end = (cursor + i128::from(random.from_to(1, size))).min(i128::from(i64::MAX));
        if cursor >= end {
            break;
        }
        let (start, end) = (cursor as i64, end as i64);
        if random.percent(20) {
            made.push(unknown(random, start, end));
        } else {
            if random.percent(70) {
                shown = random.below(8) as u8;
            }
            made.extend(phase(random, start, end, shown));
        }
        cursor = i128::from(end);
    }
    made
}

/// How a row is damaged. The last two may leave it good.
pub const WAYS: [&str; 23] = [
    "a record cut short",
    "a length that is wrong",
    "a record longer or shorter than its kind",
    "another kind",
    "a whole record of kind 19",
    "a whole record of kind 21",
    "a whole record of kind 22 or 23",
    "a phase above 7",
    "a rule code above 3",
    "a tag above 5, of a start",
    "a tag above 5, of an end",
    "a tag above 5, of the whole",
    "a tag above 5, of an event",
    "a coverage mark above 1",
    "a start not before its end",
    "a start before the previous end",
    "a kind 18 too few",
    "a kind 18 too many",
    "a kind 18 elsewhere",
    "stray bytes",
    "nothing but chance",
    "a bit turned",
    "records in another order",
];
/// The ways from here on may leave a row good.
pub const CERTAIN: usize = 21;
/// Whole records of kind 21: good inside marked rows.
pub const MARK: usize = 5;

/// The places of records of a kind.
fn places(records: &Records, wanted: u16) -> Vec<usize> {
    let has = |place: &usize| kind(&records[*place]) == wanted;
    (0..records.len()).filter(has).collect()
}

fn segments(records: &Records) -> Vec<usize> {
    let has = |place: &usize| kind(&records[*place]) != 18;
    (0..records.len()).filter(has).collect()
}

/// One of these, if there is one.
fn pick(random: &mut Random, of: &[usize]) -> Option<usize> {
    (!of.is_empty()).then(|| *random.pick(of))
}

/// A byte above a bound.
fn above(random: &mut Random, bound: u8) -> u8 {
    let any = random.from_to(i64::from(bound) + 1, 255) as u8;
    *random.pick(&[bound + 1, any, 255])
}

fn cut(random: &mut Random, records: &Records) -> Option<Vec<u8>> {
    let place = random.below(records.len().max(1));
    let last = records.get(place)?;
    let mut made = records[..place].concat();
    made.extend(&last[..1 + random.below(last.len() - 1)]);
    Some(made)
}

/// Another length in the record's head; with `whole` the record has that length.
fn relength(random: &mut Random, record: &mut Vec<u8>, whole: bool) {
    let is = record.len() as u16 - 2;
    let near = *random.pick(&[is - 1, is + 1, 0, 1, 2, 4, 27, 33, 35, 98, 103, u16::MAX]);
    let length = if near == is { is + 2 } else { near };
    record[..2].copy_from_slice(&length.to_le_bytes());
    if whole {
        record.resize((usize::from(length) + 2).max(4), 0);
    }
}

fn rekind(random: &mut Random, record: &mut [u8]) {
    let is = kind(record);
    let near = *random.pick(&[0, 1, 15, 16, 17, 18, 19, 20, 21, 22, 23, 33, 272, 65_535]);
    let other = if near == is { is + 256 } else { near };
    record[2..4].copy_from_slice(&other.to_le_bytes());
}

/// A whole record of a kind that no row has.
fn foreign(random: &mut Random, way: usize) -> Vec<u8> {
    let (start, end) = (any(random), any(random));
    let totals = [0; 10];
    record(match way {
        4 => Answer::Missing {
            at: start,
            coverage: Some((start, end)),
        },
        5 => Answer::Mark {
            row: random.word() as u16,
        },
        _ if random.percent(50) => Answer::Day { start, end, totals },
        _ => Answer::Tally { start, end, totals },
    })
}

/// A field of a record of this kind.
fn field(random: &mut Random, of: &mut Records, wanted: u16, at: usize, bound: u8) -> Option<()> {
    let place = pick(random, &places(of, wanted))?;
    of[place][at] = above(random, bound);
    Some(())
}

fn not_before_its_end(random: &mut Random, of: &mut Records) -> Option<()> {
    let place = pick(random, &segments(of))?;
    let start = i64_at(&of[place], START);
    let early = random.from_to(i64::MIN, start);
    let end = *random.pick(&[start, start.saturating_sub(1), early]);
    put_i64(&mut of[place], END, end);
    Some(())
}

fn before_the_previous_end(random: &mut Random, of: &mut Records) -> Option<()> {
    let segments = segments(of);
    let second = 1 + random.below(segments.len().checked_sub(1)?.max(1));
    let (place, previous) = (*segments.get(second)?, segments[second - 1]);
    let (start, end) = (i64_at(&of[previous], START), i64_at(&of[previous], END));
    let inside = random.from_to(start, end - 1);
    let early = random.from_to(i64::MIN, end - 1);
    let wrong = *random.pick(&[end - 1, start, inside, early]);
    put_i64(&mut of[place], START, wrong);
    Some(())
}

fn add_events(record: &mut [u8], by: i32) {
    let held = &mut record[EVENTS..EVENTS + 4];
    let count = i32::from_le_bytes(held.try_into().expect("4 bytes")).wrapping_add(by);
    held.copy_from_slice(&count.to_le_bytes());
}

/// One event fewer than counted, or counted one more.
fn too_few(random: &mut Random, of: &mut Records) -> Option<()> {
    let events = places(of, 18);
    if events.is_empty() || random.percent(30) {
        let place = pick(random, &places(of, 16))?;
        let by = *random.pick(&[1, 1, 256, i32::MIN, 1 << 24]);
        add_events(&mut of[place], by);
    } else {
        of.remove(pick(random, &events)?);
    }
    Some(())
}

/// One event more than counted, or counted one fewer.
fn too_many(random: &mut Random, of: &mut Records) -> Option<()> {
    let phase = pick(random, &places(of, 16))?;
    let has = of.get(phase + 1).is_some_and(|next| kind(next) == 18);
    if has && random.percent(50) {
        add_events(&mut of[phase], -1);
    } else {
        of.insert(phase + 1, event(random));
    }
    Some(())
}

/// An event before all segments or behind an unknown one.
fn elsewhere(random: &mut Random, of: &mut Records) -> Option<()> {
    let mut gaps: Vec<usize> = places(of, 17).iter().map(|place| place + 1).collect();
    gaps.push(0);
    let place = pick(random, &gaps)?;
    of.insert(place, event(random));
    Some(())
}

fn chance(random: &mut Random, most: usize) -> Vec<u8> {
    let many = 1 + random.below(most);
    let fill = *random.pick(&[0, 255, 16]);
    let same = random.percent(40);
    (0..many)
        .map(|_| if same { fill } else { random.word() as u8 })
        .collect()
}

/// A row damaged in one way; none where the row has nothing to damage so.
pub fn damaged(random: &mut Random, row: &Records, way: usize) -> Option<Vec<u8>> {
    let mut of = row.clone();
    let some = random.below(of.len().max(1));
    match way {
        0 => return cut(random, row),
        1 | 2 => relength(random, of.get_mut(some)?, way == 2),
        3 => rekind(random, of.get_mut(some)?),
        4..=6 => {
            let place = random.below(of.len() + 1);
            of.insert(place, foreign(random, way));
        }
        7 => field(random, &mut of, 16, PHASE, 7)?,
        8 => field(random, &mut of, 16, CODE, 3)?,
        9..=11 => field(random, &mut of, 16, TAGS[way - 9], 5)?,
        12 => field(random, &mut of, 18, TAG_OF_AN_EVENT, 5)?,
        13 => field(random, &mut of, 17, COVERAGE_MARK, 1)?,
        14 => not_before_its_end(random, &mut of)?,
        15 => before_the_previous_end(random, &mut of)?,
        16 => too_few(random, &mut of)?,
        17 => too_many(random, &mut of)?,
        18 => elsewhere(random, &mut of)?,
        19 => of.push(chance(random, 3)),
        20 => return Some(chance(random, 300)),
        21 => {
            let record = of.get_mut(some)?;
            let place = random.below(record.len());
            record[place] ^= 1 << random.below(8);
        }
        _ => random.shuffle(&mut of),
    }
    Some(of.concat())
}
