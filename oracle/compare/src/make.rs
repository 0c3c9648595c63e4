//! Generated books of every shape.

use crate::book::{Event, Published, Record, Rule};
use crate::judge::{DAY, DAYS, INSTANTS, OFFSETS, SECOND, SECONDS, SPACING, WIDTHS};
use crate::random::Random;
use std::collections::{BTreeMap, BTreeSet};

pub const DAY_SECONDS: i64 = 86_400;

/// How many changes, rules and events a book has.
struct Size {
    changes: usize,
    rules: usize,
    events: usize,
}

fn size(random: &mut Random) -> Size {
    let of = |changes, rules, events| Size {
        changes,
        rules,
        events,
    };
    match random.below(1000) {
        0 => of(0, 0, 0),
        1..5 => of(random.below(3), 0, random.below(3)),
        5..9 => of(640, 256, 32),
        9..20 => of(random.below(641), random.below(257), random.below(33)),
        20..100 => of(random.below(40), 1 + random.below(24), random.below(12)),
        _ => of(random.below(5), 1 + random.below(5), random.below(4)),
    }
}

/// The times of day of a book: points, events and clock changes meet because they share them.
fn times_of_day(random: &mut Random) -> Vec<u64> {
    const SECONDS: [u64; 14] = [
        0, 1, 59, 900, 1800, 3600, 5400, 7200, 34_200, 59_400, 79_200, 82_800, 84_600, 86_399,
    ];
    let mut pool = vec![0];
    for _ in 0..3 + random.below(7) {
        let second = if random.percent(80) {
            *random.pick(&SECONDS)
        } else {
            random.word() % 86_400
        };
        let rest = *random.pick(&[0, 0, 0, 1, 999_999_999]);
        pool.push(second * SECOND as u64 + rest);
    }
    pool
}

fn offset_after(random: &mut Random, before: i32) -> i32 {
    let [low, high] = OFFSETS;
    let near = |by: i32| (before + by).clamp(low, high);
    match random.below(16) {
        0..3 => near(3600),
        3..6 => near(-3600),
        6 => near(*random.pick(&[1, -1, 1800, -1800, 7200, -7200])),
        7 => near(*random.pick(&[86_400, -86_400, 86_399, -86_399, 86_401])),
        8 => before,
        // As far as it goes: shifts up to 32 hours.
        9..12 => {
            if before < 0 {
                high
            } else {
                low
            }
        }
        12 => *random.pick(&[low, high, 0]),
        _ => random.from_to(i64::from(low), i64::from(high)) as i32,
    }
}

/// Clock changes from a day on. Most are aimed: a midnight or a time of day in use lies in the
/// stretch of readings that the change repeats or jumps over, or at its edge.
fn changes(
    random: &mut Random,
    day: i64,
    many: usize,
    first: i32,
    pool: &[u64],
) -> Vec<(i64, i32)> {
    let (mut made, mut before) = (Vec::new(), first);
    let mut least = (day * DAY_SECONDS + random.from_to(0, DAY_SECONDS)).max(SECONDS[0]);
    for _ in 0..many {
        let after = offset_after(random, before);
        let (low, shift) = (
            i64::from(before.min(after)),
            i64::from((before - after).abs()),
        );
        let at = match random.below(10) {
            0 => least,
            1 => least + random.from_to(0, 2),
            2 => least + random.from_to(0, 300_000),
            _ => {
                let aim = if random.percent(60) {
                    0
                } else {
                    (*random.pick(pool) / SECOND as u64) as i64
                };
                let any = random.from_to(0, shift);
                let whole = (shift - DAY_SECONDS).max(0);
                let over = random.from_to(0, whole);
                let inside =
                    *random.pick(&[0, 1, any, any, shift / 2, shift - 1, shift, whole, over]);
                let base = aim - low - inside;
                let days = (least - base).div_euclid(DAY_SECONDS) + 1;
                base + (days + i64::from(random.percent(30))) * DAY_SECONDS
            }
        };
        if at > SECONDS[1] {
            break;
        }
        made.push((at, after));
        before = after;
        least = at + SPACING;
        if random.percent(25) {
            least += random.from_to(0, 30 * DAY_SECONDS);
        }
    }
    made
}

fn number16(random: &mut Random) -> u16 {
    match random.below(4) {
        0 => random.word() as u16,
        1 => *random.pick(&[0, 1, 255, 256, u16::MAX]),
        _ => random.below(4) as u16,
    }
}

fn published(random: &mut Random) -> Published {
    let tag = *random.pick(&[0, 1, 2, 3, 3]);
    let width = match random.below(4) {
        0 => *random.pick(&[0, 1, WIDTHS[1]]),
        1 => random.from_to(WIDTHS[0], WIDTHS[1]),
        _ => 60 * SECOND,
    };
    Published {
        tag,
        nanos: if tag == 1 || tag == 2 { width } else { 0 },
        text: if tag >= 2 { number16(random) } else { 0 },
    }
}

fn points(random: &mut Random, pool: &[u64]) -> Vec<(u64, u8)> {
    let many = match random.below(20) {
        0..3 => 1,
        3..12 => 2 + random.below(3),
        12..17 => 5 + random.below(11),
        _ => 16,
    };
    let mut times = BTreeSet::from([0]);
    let dense = random.percent(20).then(|| *random.pick(pool));
    for turn in 0..200 {
        if times.len() == many {
            break;
        }
        let at = match dense {
            Some(base) => base + turn,
            None if random.percent(60) => *random.pick(pool) + random.word() % 2,
            None if random.percent(20) => DAY - 1 - random.word() % 3,
            None => random.word() % 86_400 * SECOND as u64,
        };
        times.insert(at.min(DAY - 1));
    }
    times
        .into_iter()
        .map(|at| (at, random.below(8) as u8))
        .collect()
}

/// First and last day. Few first days in a book, so that rules tie on them.
fn applies(random: &mut Random, firsts: &[i32]) -> (i32, i32) {
    let first = *random.pick(firsts);
    let last = match random.below(6) {
        0 => first,
        1 => first.saturating_add(random.below(3) as i32),
        2 | 3 => first.saturating_add(random.below(30) as i32),
        _ => DAYS[1],
    };
    (first, last.clamp(first, DAYS[1]))
}

pub fn rule(random: &mut Random, firsts: &[i32], pool: &[u64]) -> Rule {
    let (first, last) = applies(random, firsts);
    let code = *random.pick(&[0, 0, 0, 1, 2, 3]);
    let some = random.word() as u8 & 127;
    Rule {
        first,
        last,
        code,
        mask: if code > 0 {
            0
        } else {
            *random.pick(&[127, 127, 31, 96, 1, some, 0])
        },
        label: if code == 0 { 0 } else { number16(random) },
        evidence: number16(random),
        derived: number16(random),
        published: published(random),
        points: points(random, pool),
    }
}

/// An event with any code, or with code 1 where all of a book have one.
pub fn event(random: &mut Random, firsts: &[i32], pool: &[u64], alike: bool) -> Event {
    let (first, last) = if random.percent(50) {
        (DAYS[0], DAYS[1])
    } else {
        applies(random, firsts)
    };
    let many = random.below(9);
    Event {
        first,
        last,
        code: if alike { 1 } else { number16(random) },
        evidence: number16(random),
        published: published(random),
        times: (0..many)
            .map(|_| match random.below(8) {
                0..4 => *random.pick(pool),
                // Shortly after a midnight, where a change over it puts the time into the day before.
                4..6 => random.word() % 7200 * SECOND as u64 + random.word() % 2,
                6 => DAY - 1 - random.word() % 2,
                _ => random.word() % DAY,
            })
            .collect(),
    }
}

fn anchor(random: &mut Random) -> i64 {
    match random.below(20) {
        0 => random.from_to(-25_567, -25_190),
        1 => random.from_to(83_630, 84_005),
        _ => random.from_to(-25_100, 83_400),
    }
}

fn coverage(random: &mut Random, day: i64, changes: &[(i64, i32)]) -> (i64, i64) {
    let mut edge = |day: i64| -> i64 {
        let near = if changes.is_empty() {
            day * DAY_SECONDS
        } else {
            random.pick(changes).0
        };
        let at = match random.below(12) {
            0 => near,
            1 => near + random.from_to(-60_000, 60_000),
            2..5 => day * DAY_SECONDS,
            _ => day * DAY_SECONDS + random.from_to(0, DAY_SECONDS),
        };
        let nanos = at.clamp(SECONDS[0], SECONDS[1]) * SECOND + *random.pick(&[0, 0, 0, 1, -1]);
        nanos.clamp(INSTANTS[0], INSTANTS[1])
    };
    let last = changes
        .last()
        .map_or(day, |&(at, _)| at / DAY_SECONDS)
        .min(day + 60);
    let start = edge(day - 3);
    let end = edge(last + 4);
    if random.percent(8) || start >= end {
        return (INSTANTS[0], INSTANTS[1]);
    }
    (start, end)
}

/// The records of a book that document 01 accepts.
pub fn book(random: &mut Random) -> Vec<Record> {
    if random.below(400) == 0 {
        return Vec::new();
    }
    let size = size(random);
    let day = anchor(random);
    let pool = times_of_day(random);
    let first = match random.below(4) {
        0 => *random.pick(&OFFSETS),
        1 => random.from_to(-57_600, 57_600) as i32,
        _ => random.from_to(-12, 14) as i32 * 3600,
    };
    let changes = changes(random, day, size.changes, first, &pool);
    let (start, end) = coverage(random, day, &changes);
    let on = |day: i64| day.clamp(i64::from(DAYS[0]), i64::from(DAYS[1])) as i32;
    let mut firsts = vec![DAYS[0], on(day - 5)];
    firsts.extend((0..2).map(|_| on(day + random.from_to(-4, 12))));

    let mut others = Vec::new();
    for place in 0..size.rules {
        let mut made = rule(random, &firsts, &pool);
        // Most books have a rule for every date.
        if place == 0 && random.percent(80) {
            (made.first, made.last) = (*random.pick(&firsts[..2]), DAYS[1]);
            (made.code, made.mask, made.label) = (0, 127, 0);
        }
        others.push(Record::Rule(made));
    }
    let alike = random.percent(20);
    for _ in 0..size.events {
        others.push(Record::Event(event(random, &firsts, &pool, alike)));
    }
    random.shuffle(&mut others);
    // Kinds come in any order; clock changes keep theirs.
    let mut records = vec![Record::Head {
        start,
        end,
        offset: first,
    }];
    let mut changes = changes
        .into_iter()
        .map(|(at, offset)| Record::Change { at, offset })
        .peekable();
    let early = random.percent(50);
    for other in others {
        while changes.peek().is_some() && (early || random.percent(50)) {
            records.extend(changes.next());
        }
        records.push(other);
    }
    records.extend(changes);
    records
}

/// A small book whose dates overlap: a gap ends at a midnight or shortly before, and a point inside it is put past that
/// midnight. The phase goes on over the midnight, so the spans join, and the overlap has events: they are listed
/// twice, and most are out of order.
pub fn overlap(random: &mut Random) -> Vec<Record> {
    let day = random.from_to(-25_000, 83_300);
    let before = random.from_to(-57_600, 50_000) as i32;
    let shift = match random.below(3) {
        0 => 3600,
        1 => 7200,
        _ => random.from_to(600, i64::from(57_600 - before).min(DAY_SECONDS)),
    };
    let shift = shift.min(i64::from(57_600 - before));
    // The stretch that is jumped over ends `rest` seconds before midnight; the point in it is `left` before midnight.
    let rest = (*random.pick(&[0, 0, 0, 1, 60])).min(shift / 2);
    let left = random.from_to(rest + 1, shift);
    let overlap = (shift - left).clamp(1, DAY_SECONDS - 1) as u64;
    let mut changes = Vec::new();
    let mut midnight = (day + 1) * DAY_SECONDS;
    for _ in 0..1 + random.below(3) {
        changes.push((
            midnight - rest - shift - i64::from(before),
            before + shift as i32,
        ));
        let back = changes[changes.len() - 1].0 + SPACING + random.from_to(0, SPACING);
        changes.push((back, before));
        midnight += 6 * DAY_SECONDS;
    }
    let phase = random.below(8) as u8;
    let evidence = number16(random);
    let point = (DAY_SECONDS - left) as u64 * SECOND as u64;
    let mut points = BTreeMap::from([(0, phase), (point, random.below(8) as u8)]);
    if point > 7200 * SECOND as u64 && random.percent(40) {
        // Another phase in the middle of the day.
        let third = point / 3;
        points.insert(third, random.below(8) as u8);
        points.insert(2 * third, phase);
    }
    let mut rules = vec![Rule::weekly(evidence, 127, points.into_iter().collect())];
    rules[0].published = published(random);
    if random.percent(40) {
        // Another rule of the same evidence on the next date: it joins all the same.
        let mut other = rule(random, &[(day + 1) as i32], &[0]);
        (other.first, other.last) = ((day + 1) as i32, (day + 1) as i32);
        (other.code, other.mask) = (1 + random.below(3) as u8, 0);
        other.evidence = if random.percent(80) {
            evidence
        } else {
            number16(random)
        };
        other.points = vec![(0, phase)];
        rules.push(other);
    }
    let alike = random.percent(20);
    let events = (0..1 + random.below(3)).map(|_| {
        let mut made = event(random, &[DAYS[0]], &[0], alike);
        (made.first, made.last) = (DAYS[0], DAYS[1]);
        let many = 1 + random.below(8);
        made.times = (0..many)
            .map(|_| random.word() % overlap * SECOND as u64 + random.word() % 2)
            .collect();
        Record::Event(made)
    });
    let events: Vec<Record> = events.collect();
    let start = (day - random.from_to(0, 8)) * DAY_SECONDS * SECOND + random.from_to(-1, 1);
    let end = start + random.from_to(6, 30) * DAY as i64;
    let mut records = vec![Record::Head {
        start,
        end,
        offset: before,
    }];
    let change = |&(at, offset): &(i64, i32)| Record::Change { at, offset };
    records.extend(changes.iter().map(change));
    records.extend(rules.into_iter().map(Record::Rule));
    records.extend(events);
    records
}

/// A small book that covers ten years and more, for walks that end by their turns.
pub fn years(random: &mut Random) -> Vec<Record> {
    let length = match random.below(4) {
        0 => 3_660,
        1 => random.from_to(3_655, 3_665),
        2 => random.from_to(3_661, 3_699),
        _ => random.from_to(3_700, 5_000),
    };
    let day = random.from_to(-25_100, 78_000);
    let start = day * DAY as i64 + random.from_to(0, DAY as i64 - 1) * (random.below(2) as i64);
    let first = random.from_to(-12, 12) as i32 * 3600;
    let pool = times_of_day(random);
    let many = random.below(4);
    let from = day + random.from_to(0, 3_000);
    let changes = changes(random, from, many, first, &pool);
    let two = vec![(0, random.below(8) as u8), (DAY / 3, random.below(8) as u8)];
    let one = vec![(0, random.below(8) as u8)];
    let mut rules = match random.below(8) {
        0 | 1 => vec![],
        2 => vec![Rule::weekly(1, 1, two)],
        3 => vec![Rule::weekly(1, 127, two)],
        4 => vec![Rule::weekly(1, 31, one.clone()), Rule::weekly(2, 96, one)],
        5 => vec![Rule::weekly(1, 31, one.clone()), Rule::weekly(1, 96, one)],
        _ => vec![Rule::weekly(1, 127, one)],
    };
    for rule in &mut rules {
        rule.published = published(random);
    }
    let mut records = vec![Record::Head {
        start,
        end: start + length * DAY as i64 + random.from_to(-1, 1),
        offset: first,
    }];
    let change = |&(at, offset): &(i64, i32)| Record::Change { at, offset };
    records.extend(changes.iter().map(change));
    records.extend(rules.into_iter().map(Record::Rule));
    if random.percent(25) {
        let mut made = event(random, &[DAYS[0]], &pool, true);
        made.times.truncate(1);
        records.push(Record::Event(made));
    }
    records
}
