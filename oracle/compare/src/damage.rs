//! Good books with something wrong with them.

use crate::book::{Published, Record, encode, encode_record};
use crate::judge::{DAY, DAYS, INSTANTS, LONGEST, OFFSETS, SECONDS, SPACING, WIDTHS};
use crate::make::{event, rule};
use crate::random::Random;

/// A field outside its range, or two fields that do not go together: numbers 4 to 9.
fn wrong_field(random: &mut Random, record: &mut Record) {
    let days = [DAYS[0] - 1, DAYS[1] + 1, i32::MIN, i32::MAX];
    let late = [DAY, DAY + 1, u64::MAX];
    let wrong_published = |random: &mut Random, p: &mut Published| match random.below(4) {
        0 => p.tag = 4 + random.below(252) as u8,
        1 => p.nanos = *random.pick(&[-1, WIDTHS[1] + 1, i64::MIN, i64::MAX]),
        2 => (p.tag, p.nanos) = (*random.pick(&[0, 3]), 1),
        _ => (p.tag, p.text) = (*random.pick(&[0, 1]), 1),
    };
    match record {
        Record::Head { start, end, offset } => match random.below(5) {
            0 => *start = *random.pick(&[INSTANTS[0] - 1, i64::MIN, INSTANTS[1] + 1]),
            1 => *end = *random.pick(&[INSTANTS[1] + 1, i64::MAX]),
            2 => *offset = *random.pick(&[OFFSETS[0] - 1, OFFSETS[1] + 1, i32::MIN, i32::MAX]),
            3 => *end = *start,
            _ => std::mem::swap(start, end),
        },
        Record::Change { at, offset } => match random.below(3) {
            0 => *at = *random.pick(&[SECONDS[0] - 1, SECONDS[1] + 1, i64::MIN, i64::MAX]),
            1 => *offset = *random.pick(&[OFFSETS[0] - 1, OFFSETS[1] + 1, i32::MIN, i32::MAX]),
            _ => *at -= SPACING,
        },
        Record::Rule(rule) => match random.below(14) {
            0 => rule.first = *random.pick(&days),
            1 => rule.last = *random.pick(&days),
            2 => rule.code = 4 + random.below(252) as u8,
            3 => rule.mask |= 128,
            4 => (rule.code, rule.label) = (0, 1),
            5 => (rule.code, rule.mask) = (1, 1),
            6 => wrong_published(random, &mut rule.published),
            7 => rule.points.clear(),
            8 => rule.points[0].0 = 1 + random.word() % 5,
            9 => {
                let at = rule.points[rule.points.len() - 1].0;
                rule.points.push((at.saturating_sub(random.word() % 2), 0));
            }
            10 => {
                let place = random.below(rule.points.len());
                rule.points[place].0 = *random.pick(&late);
            }
            11 => {
                let place = random.below(rule.points.len());
                rule.points[place].1 = 8 + random.below(248) as u8;
            }
            12 => rule.points = (0..17 + random.word() % 4).map(|at| (at, 0)).collect(),
            _ => {
                rule.first = rule.first.max(DAYS[0] + 1);
                rule.last = rule.first - 1;
            }
        },
        Record::Event(event) => match random.below(5) {
            0 => event.first = *random.pick(&days),
            1 => {
                event.first = event.first.max(DAYS[0] + 1);
                event.last = event.first - 1;
            }
            2 => wrong_published(random, &mut event.published),
            3 => event.times = vec![0; 9 + random.below(20)],
            _ => event.times.push(*random.pick(&late)),
        },
    }
}

/// One more of a kind than a book may have: number 3.
fn too_many(random: &mut Random, records: &[Record]) -> Vec<u8> {
    let mut records = records.to_vec();
    match random.below(40) {
        0 => {
            let last = records.iter().rev().find_map(|r| match r {
                Record::Change { at, .. } => Some(*at),
                _ => None,
            });
            let from = last.unwrap_or(SECONDS[0]) + SPACING;
            records.extend((0..641).map(|n| Record::Change {
                at: from + n * SPACING,
                offset: 0,
            }));
        }
        1 => {
            let extra = Record::Rule(rule(random, &[0], &[0]));
            records.extend(std::iter::repeat_n(extra, 257));
        }
        2..20 => {
            let extra = Record::Event(event(random, &[0], &[0], true));
            records.extend(std::iter::repeat_n(extra, 33));
        }
        _ => {
            let second = records[0].clone();
            records.insert(1 + random.below(records.len()), second);
        }
    }
    encode(&records)
}

/// A good book with something wrong with it, most times.
pub fn damaged(random: &mut Random, records: &[Record]) -> Vec<u8> {
    if records.is_empty() {
        return (0..random.below(40)).map(|_| random.word() as u8).collect();
    }
    let mut bytes = encode(records);
    let some = |random: &mut Random, bytes: &[u8]| random.below(bytes.len());
    match random.below(20) {
        0 => bytes.truncate(some(random, &bytes)),
        1 | 2 => {
            let place = some(random, &bytes);
            let any = random.word() as u8;
            bytes[place] = *random.pick(&[0, 1, 127, 128, 255, any]);
        }
        3 => {
            let mut records = records.to_vec();
            let (a, b) = (random.below(records.len()), random.below(records.len()));
            records.swap(a, b);
            bytes = encode(&records);
        }
        4 => {
            let mut records = records.to_vec();
            let copy = random.pick(&records).clone();
            records.insert(random.below(records.len() + 1), copy);
            bytes = encode(&records);
        }
        5 => {
            let mut records = records.to_vec();
            records.remove(random.below(records.len()));
            bytes = encode(&records);
        }
        6 => {
            // A record's length, one more or less, or another.
            let before: usize = records[..random.below(records.len())]
                .iter()
                .map(|r| encode_record(r).len())
                .sum();
            bytes[before] = *random.pick(&[
                bytes[before].wrapping_add(1),
                bytes[before].wrapping_sub(1),
                0,
                1,
                255,
            ]);
        }
        7 => bytes.extend((0..1 + random.below(5)).map(|_| random.word() as u8)),
        8 => bytes.resize(LONGEST + 1 + random.below(3), random.word() as u8),
        9 | 10 => bytes = too_many(random, records),
        11 | 12 => {
            // Two wrong fields: in one record or in two.
            let mut records = records.to_vec();
            for _ in 0..2 {
                let place = random.below(records.len());
                if !matches!(&records[place], Record::Rule(rule) if rule.points.is_empty()) {
                    wrong_field(random, &mut records[place]);
                }
            }
            bytes = encode(&records);
        }
        _ => {
            let mut records = records.to_vec();
            let mut place = random.below(records.len());
            // A rule has the most that can be wrong.
            if random.percent(50) {
                place = records
                    .iter()
                    .position(|r| matches!(r, Record::Rule(_)))
                    .unwrap_or(place);
            }
            wrong_field(random, &mut records[place]);
            bytes = encode(&records);
        }
    }
    bytes
}
