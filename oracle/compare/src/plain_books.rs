//! Books and windows for `agree`: most of their dates are plain, though clocks change on them.

use crate::book::{Record, Rule};
use crate::judge::{DAY, INSTANTS, SECOND, SECONDS, SPACING};
use crate::make::{self, DAY_SECONDS};
use crate::plain::{DATE, MOST_DATES, Venue};
use crate::random::Random;
use std::collections::BTreeMap;

/// The shift of the next clock change: within the widest offsets, 24 hours where dates are to be skipped or read twice.
fn shift(random: &mut Random, before: i64, whole_days: bool) -> i64 {
    if whole_days && before <= -28_800 {
        return DAY_SECONDS;
    }
    if whole_days && before >= 28_800 && random.percent(70) {
        return -DAY_SECONDS;
    }
    let wide = random.from_to(-DAY_SECONDS, DAY_SECONDS);
    let shift = *random.pick(&[
        3_600, -3_600, 3_600, -3_600, 1_800, -1_800, 7_200, 1, -1, wide,
    ]);
    (before + shift).clamp(-57_600, 57_600) - before
}

/// A stretch of readings that clocks jump over: its date, its first second of day and its seconds.
struct Jumped {
    date: i64,
    from: i64,
    seconds: i64,
}

/// Clock changes whose repeated or jumped-over stretch lies in one date, at its beginning, at its end or anywhere.
fn changes(
    random: &mut Random,
    day: i64,
    first: i64,
    whole_days: bool,
) -> (Vec<(i64, i64)>, Vec<Jumped>) {
    let (mut made, mut jumped) = (Vec::<(i64, i64)>::new(), Vec::new());
    let (mut before, mut date) = (first, day);
    for _ in 0..random.below(6) {
        let seconds = shift(random, before, whole_days);
        let after = before + seconds;
        let last = DAY_SECONDS - seconds.abs();
        let any = random.from_to(0, last);
        let from = *random.pick(&[0, last, any, any]);
        // The lower offset reads the stretch's first second at the change.
        let at = date * DAY_SECONDS + from - before.min(after);
        let near = made.last().is_some_and(|&(was, _)| at - was < SPACING);
        if !near && (SECONDS[0]..=SECONDS[1]).contains(&at) {
            if seconds > 0 {
                jumped.push(Jumped {
                    date,
                    from,
                    seconds,
                });
            }
            made.push((at, after));
            before = after;
        }
        let far = random.from_to(3, 200);
        date += *random.pick(&[2, 3, 3, 4, 7, far]);
    }
    (made, jumped)
}

/// A rule with few points, or one.
fn rule(random: &mut Random, evidence: u16, mask: u8) -> Rule {
    let mut points = BTreeMap::from([(0, random.below(8) as u8)]);
    for _ in 0..*random.pick(&[0, 0, 1, 1, 2, 3, 5]) {
        let second = *random.pick(&[1, 3_600, 5_400, 9_000, 34_200, 59_400, 82_800, 86_399]);
        let any = random.word() % 86_400;
        let time = *random.pick(&[second, any, any]) * SECOND as u64;
        points.insert(time, random.below(8) as u8);
    }
    Rule::weekly(evidence, mask, points.into_iter().collect())
}

/// Weekly rules, some dates of theirs without a rule, and special dates beside the clock changes and on skipped dates.
fn rules(random: &mut Random, day: i64, jumped: &[Jumped]) -> Vec<Rule> {
    let some = random.word() as u8 & 127;
    let masks: &[u8] = match random.below(8) {
        0..3 => &[127],
        3 | 4 => &[31],
        5 => &[31, 96],
        6 => &[1],
        _ => &[some],
    };
    let mut made = Vec::new();
    for mask in masks {
        let evidence = made.len() as u16 + 1;
        made.push(rule(random, evidence, *mask));
    }
    let mut special = |random: &mut Random, date: i64, days: i64, points: Option<usize>| {
        let evidence = random.from_to(1, 6) as u16;
        let mut holiday = rule(random, evidence, 0);
        holiday.points.truncate(points.unwrap_or(16));
        holiday.code = 1 + random.below(3) as u8;
        (holiday.first, holiday.last) = (date as i32, (date + days) as i32);
        made.push(holiday);
    };
    for gap in jumped {
        // A skipped date is plain with one point or none.
        if gap.seconds == DAY_SECONDS && random.percent(70) {
            special(random, gap.date, 0, Some(1));
        }
    }
    for _ in 0..random.below(3) {
        let near = jumped.first().map_or(day, |gap| gap.date);
        let (date, days) = (near + random.from_to(-3, 8), random.from_to(0, 3));
        special(random, date, days, None);
    }
    if let (Some(gap), true) = (jumped.last(), random.percent(25)) {
        points_in(random, gap, &mut made[0]);
    }
    made
}

/// Adds points inside a stretch that clocks jump over and at its end: they convert out of order.
fn points_in(random: &mut Random, gap: &Jumped, rule: &mut Rule) {
    let mut points: BTreeMap<u64, u8> = rule.points.iter().copied().collect();
    let inside = random.from_to(gap.from, gap.from + gap.seconds);
    for second in [inside, gap.from + gap.seconds] {
        let second = second.min(DAY_SECONDS - 1) as u64;
        points.insert(second * SECOND as u64, random.below(8) as u8);
    }
    rule.points = points.into_iter().collect();
}

fn coverage(random: &mut Random, day: i64, changes: &[(i64, i64)]) -> (i64, i64) {
    let mut edge = |day: i64| {
        let change = match changes {
            [] => day * DAY_SECONDS,
            _ => random.pick(changes).0,
        };
        let any = day * DAY_SECONDS + random.from_to(0, DAY_SECONDS);
        let at = *random.pick(&[any, any, any, day * DAY_SECONDS, change]);
        let nanos = at * SECOND + *random.pick(&[0, 0, 1, -1, 500]);
        nanos.clamp(INSTANTS[0], INSTANTS[1])
    };
    let last = changes.last().map_or(day, |&(at, _)| at / DAY_SECONDS);
    let (start, end) = (edge(day - 3), edge(last + 4));
    if start >= end || random.percent(20) {
        return (INSTANTS[0], INSTANTS[1]);
    }
    (start, end)
}

/// The records of a book that document 01 accepts and that names a venue. One in five is of those of points.
pub fn book(random: &mut Random) -> Vec<Record> {
    if random.percent(20) {
        let records = make::book(random);
        if (1..40).contains(&records.len()) {
            return records;
        }
    }
    let day = random.from_to(-25_150, 82_800);
    let whole_days = random.percent(35);
    let first = match random.below(3) {
        0 if !whole_days => 0,
        1 if !whole_days => random.from_to(-57_600, 57_600),
        _ => *random.pick(&[-57_600, -43_200, -39_600, -28_800]),
    };
    let (changes, jumped) = changes(random, day, first, whole_days);
    let (start, end) = coverage(random, day, &changes);
    let offset = first as i32;
    let mut records = vec![Record::Head { start, end, offset }];
    let change = |&(at, offset): &(i64, i64)| Record::Change {
        at,
        offset: offset as i32,
    };
    records.extend(changes.iter().map(change));
    let rules = rules(random, day, &jumped);
    records.extend(rules.into_iter().map(Record::Rule));
    records
}

/// The instants where windows begin and end: midnights and points of dates beside clock changes and the edges of
/// coverage, and these themselves.
fn edges(random: &mut Random, venue: &Venue) -> Vec<i64> {
    let (from, to) = venue.coverage;
    let mut found = vec![from, to];
    found.extend(venue.changes.iter().map(|&(at, _)| at));
    let mut dates: Vec<i64> = found.iter().map(|at| venue.date_at(*at)).collect();
    dates.push(venue.date_at(random.from_to(from, to)));
    for date in dates {
        for day in (date - 2..=date + 2).filter(|_| random.percent(60)) {
            found.push(venue.midnight(day));
            found.extend(venue.points(day));
        }
    }
    found
}

/// The end of a window from `start`.
fn end(random: &mut Random, venue: &Venue, edges: &[i64], start: i64) -> i64 {
    let later = |days: i64| venue.midnight(venue.date_at(start) + days);
    let wide = venue.coverage.1.saturating_sub(venue.coverage.0) > LONGEST;
    match random.below(100) {
        0..12 => start + 1,
        12..16 => start + random.from_to(2, 10),
        16..30 => *random.pick(edges) + random.from_to(-1, 1),
        30..50 => later(random.from_to(1, 6)) + *random.pick(&[0, 0, 1, -1]),
        50..60 => start + random.from_to(1, DATE),
        60..80 => start + random.from_to(DATE, 40 * DATE),
        80..94 => later(random.from_to(1, 40)),
        94..97 => start + random.from_to(100 * DATE, 400 * DATE),
        // The longest run, where coverage goes so far.
        97..100 if wide => later(MOST_DATES) + *random.pick(&[0, 0, 0, 1, -1, DATE]),
        _ => later(random.from_to(100, 1_000)),
    }
}

/// Windows are not longer.
const LONGEST: i64 = (MOST_DATES + 2) * DATE;

/// Windows inside the range, none empty.
pub fn windows(random: &mut Random, venue: &Venue) -> Vec<(i64, i64)> {
    let edges = edges(random, venue);
    let inside = |at: i64| at.clamp(INSTANTS[0], INSTANTS[1]);
    let mut made = Vec::new();
    for _ in 0..16 {
        let any = *random.pick(&edges) + random.from_to(-3 * DAY as i64, 3 * DAY as i64);
        let edge = *random.pick(&edges);
        let start = inside(*random.pick(&[any, edge, edge, edge - 1, edge + 1]));
        let end = inside(end(random, venue, &edges, start)).min(start.saturating_add(LONGEST));
        if start < end {
            made.push((start, end));
        }
    }
    made
}
