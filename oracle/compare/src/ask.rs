//! Queries: instants at and beside every edge of a book, windows between them, and rooms.

use crate::given::{Venue, date, instant, nanos, time};
use crate::judge::{DAY, INSTANTS, SECOND};
use crate::make::DAY_SECONDS;
use crate::random::Random;
use crate::tally;
use market_time_core::{Uncertainty, civil, resolve};
use std::collections::BTreeSet;

/// Instants of no book's: the range's ends and beyond, and chance.
pub fn far(random: &mut Random) -> i64 {
    let [low, high] = INSTANTS;
    match random.below(4) {
        0 => *random.pick(&[low - 1, high + 1, i64::MIN, i64::MAX]),
        1 => *random.pick(&[low, low + 1, high - 1, high]),
        2 => random.word() as i64,
        _ => random.from_to(low, high),
    }
}

/// Days where something happens: beside clock changes, at the ends of coverage, and some more.
fn days(random: &mut Random, venue: &Venue) -> BTreeSet<i64> {
    let Some((rules, zone)) = venue.parts() else {
        return BTreeSet::new();
    };
    let mut days = BTreeSet::new();
    let day_at = |at| civil::doors::datetime_at(zone, at).date().day_number();
    let mut near = |day: i64, by: i64| days.extend(day - by..=day + by);
    let many = venue.changes.len();
    let some: Vec<usize> = if many <= 5 {
        (0..many).collect()
    } else {
        (0..5).map(|_| random.below(many)).collect()
    };
    for place in some {
        let at = venue.changes[place].0 * SECOND;
        near(day_at(instant(at)), 1);
        near(day_at(instant(at - 1)), 1);
    }
    let (start, end) = (rules.coverage.start(), rules.coverage.end());
    if many == 0 || random.percent(30) {
        near(day_at(start), 0);
        near(day_at(end), 0);
        for _ in 0..2 {
            near(day_at(instant(random.from_to(nanos(start), nanos(end)))), 0);
        }
    }
    days
}

/// Every edge of these days: boundaries, midnights, clock changes, coverage, events.
fn edges(venue: &Venue, days: &BTreeSet<i64>) -> BTreeSet<i64> {
    let Some((rules, zone)) = venue.parts() else {
        return BTreeSet::new();
    };
    let mut edges = BTreeSet::from([nanos(rules.coverage.start()), nanos(rules.coverage.end())]);
    let mut reading = |day: i64, at: u64| {
        let day = date(day as i32).to_datetime(time(at));
        let (taken, doubt) = resolve::doors::to_utc(zone, day);
        let mut add = |at| edges.insert(nanos(at));
        add(taken);
        match doubt {
            Some(Uncertainty::AmbiguousLocalTime {
                earlier: a,
                later: b,
            })
            | Some(Uncertainty::NonexistentLocalTime {
                as_if_before_shift: a,
                as_if_after_shift: b,
            }) => {
                add(a);
                add(b);
            }
            _ => {}
        }
    };
    for &day in days {
        reading(day, 0);
        reading(day, DAY - 1);
        let on = date(day as i32);
        for event in rules
            .events
            .iter()
            .filter(|e| e.applies.contains(on))
            .take(4)
        {
            for at in &event.times {
                reading(day, at.nanosecond_of_day() as u64);
            }
        }
        if let Some(rule) = resolve::doors::governing_rule(&rules.rules, on) {
            for (at, _) in rule.schedule.change_points() {
                reading(day, at.nanosecond_of_day() as u64);
            }
        }
    }
    let (low, high) = (
        days.first().copied().unwrap_or(0) - 3,
        days.last().copied().unwrap_or(0) + 3,
    );
    edges.extend(
        venue
            .changes
            .iter()
            .map(|&(at, _)| at)
            .filter(|at| (low..=high).contains(&at.div_euclid(DAY_SECONDS)))
            .map(|at| at * SECOND),
    );
    edges
}

/// At every edge and 1 ns either side, and some instants between.
pub fn instants(random: &mut Random, venue: &Venue, wanted: usize) -> Vec<i64> {
    let Some((rules, _)) = venue.parts() else {
        return (0..4).map(|_| far(random)).collect();
    };
    let days = days(random, venue);
    let mut found: Vec<i64> = edges(venue, &days)
        .into_iter()
        .flat_map(|edge| [edge - 1, edge, edge + 1])
        .collect::<BTreeSet<i64>>()
        .into_iter()
        .collect();
    let (start, end) = (nanos(rules.coverage.start()), nanos(rules.coverage.end()));
    // What lies outside coverage is unknown and soon told.
    let outside = |at: i64| at < start - 1 || at > end + 1;
    found.retain(|&at| !outside(at) || random.percent(20));
    if let (Some(&low), Some(&high)) = (found.first(), found.last()) {
        found.extend((0..found.len() / 8).map(|_| random.from_to(low, high)));
    }
    random.shuffle(&mut found);
    found.truncate(wanted);
    if random.percent(40) {
        found.push(far(random));
    }
    found
}

/// The longest window that is asked often: 3,700 days.
pub const LONGEST_WINDOW: i64 = 3_700 * DAY as i64;
/// A walk takes so many turns, one a date.
const TURNS: i64 = 3_660;

/// Where clocks go back over a midnight: from the change to that midnight's second pass, which is not included.
/// There the date that a reading has is behind the midnight that has passed.
pub fn second_passes(venue: &Venue) -> Vec<(i64, i64)> {
    let Some((_, zone)) = venue.parts() else {
        return Vec::new();
    };
    let mut found = Vec::new();
    for &(at, after) in &venue.changes {
        let before = civil::doors::datetime_at(zone, instant(at * SECOND - 1));
        let before = before.date().day_number();
        let midnight = (at + i64::from(after)).div_euclid(DAY_SECONDS) + 1;
        // The last reading before the change has that midnight behind it.
        if before >= midnight {
            let second = midnight * DAY_SECONDS - i64::from(after);
            found.push((at * SECOND, second * SECOND));
        }
    }
    found
}

/// The lengths: of every size from 1 ns, whole days among them and 1 ns beside.
fn length(random: &mut Random, longest: i64) -> i64 {
    let size = random.below(64 - longest.leading_zeros() as usize);
    let any = random.from_to(1 << size, (2 << size) - 1);
    let days = (any / DAY as i64).max(1) * DAY as i64 + random.from_to(-1, 1);
    let few = random.from_to(1, 3);
    (*random.pick(&[any, any, days, few])).clamp(1, longest)
}

/// Windows on a book's edges and 1 ns beside them: coverage, midnights, changes, points, events, second passes of a
/// fold over midnight. Reversed and empty ones too. `far_too` allows a few of years, which takes the Rust long.
pub fn windows(
    random: &mut Random,
    venue: &Venue,
    wanted: usize,
    far_too: bool,
) -> Vec<(i64, i64)> {
    let mut found = instants(random, venue, 2000);
    let Some((rules, _)) = venue.parts() else {
        return vec![(found[0], far(random)), (found[1], found[2])];
    };
    let (first, last) = (nanos(rules.coverage.start()), nanos(rules.coverage.end()));
    found.extend([first - 1, first, first + 1, last - 1, last, last + 1]);
    found.sort_unstable();
    let passes = second_passes(venue);
    (0..wanted)
        .map(|_| {
            let place = random.below(found.len());
            let start = match random.below(100) {
                0..14 if !passes.is_empty() => {
                    let (from, to) = *random.pick(&passes);
                    let any = random.from_to(from, to);
                    *random.pick(&[from, from + 1, from - 1, to - 1, to, to + 1, any, any])
                }
                14..20 => *random.pick(&[first - 1, first, first + 1]),
                20..24 => first - length(random, 5 * DAY as i64),
                _ => found[place],
            };
            let longest = if far_too && random.percent(2) {
                LONGEST_WINDOW
            } else {
                40 * DAY as i64
            };
            let later = |by: usize| found[(place + by).min(found.len() - 1)];
            let end = match random.below(100) {
                0..3 => start,
                3..6 => return (start, found[random.below(place + 1)]),
                6..7 => far(random),
                7..35 => later(1 + random.below(30)),
                35..60 => start.saturating_add(length(random, longest)),
                60..75 => {
                    let beyond = length(random, longest);
                    last + *random.pick(&[-1, 0, 1, DAY as i64, beyond])
                }
                _ => later(random.below(found.len())),
            };
            (start, end.min(start.saturating_add(longest)))
        })
        .collect()
}

/// Windows of about 3,660 dates, where the walk's turns end; from the start of coverage, or beside a midnight.
pub fn long_windows(random: &mut Random, venue: &Venue, wanted: usize) -> Vec<(i64, i64)> {
    let (rules, zone) = venue.parts().expect("a book with coverage");
    let first = nanos(rules.coverage.start());
    (0..wanted)
        .map(|_| {
            let near = first + random.from_to(0, 30 * DAY as i64);
            let day = civil::doors::datetime_at(zone, instant(near)).date();
            let midnight = nanos(resolve::doors::to_utc(zone, day.at(0, 0, 0, 0)).0);
            let base = *random.pick(&[first, first, first - DAY as i64, near, midnight, midnight]);
            let start = (base + random.from_to(-1, 1)).max(INSTANTS[0]);
            let days = match random.below(6) {
                0 | 1 => TURNS + random.from_to(-1, 2),
                2 => TURNS,
                3 => LONGEST_WINDOW / DAY as i64,
                _ => random.from_to(TURNS, LONGEST_WINDOW / DAY as i64),
            };
            let length = (days * DAY as i64 + random.from_to(-1, 1)).min(LONGEST_WINDOW);
            (start, start + length)
        })
        .collect()
}

/// A tally's length: whole days and 1 ns beside, 400 days and a little over; without `far_too` few answered ones are long.
fn tally_length(random: &mut Random, far_too: bool) -> i64 {
    let day = DAY as i64;
    let beside = random.from_to(-1, 1);
    let over = random.from_to(1, 20 * day);
    match random.below(20) {
        0 => 1,
        1 => random.from_to(1, day),
        2 => tally::LONGEST + 1,
        3 => tally::LONGEST + over,
        4 if far_too => tally::LONGEST,
        5 if far_too => tally::LONGEST - over,
        6 if far_too => day * random.from_to(40, 400) + beside.min(0),
        7..10 => day * random.from_to(1, 40),
        10..15 => day * random.from_to(1, 6),
        _ => day * random.from_to(1, 6) + beside,
    }
}

/// Windows for tallies: half of these get another length.
pub fn tally_windows(random: &mut Random, of: &[(i64, i64)], far_too: bool) -> Vec<(i64, i64)> {
    of.iter()
        .map(|&(start, end)| match random.below(2) {
            0 => (start, end),
            _ => (start, start.saturating_add(tally_length(random, far_too))),
        })
        .collect()
}

/// A room's length, by the answer's: none, one short, exact, one over, or longer.
pub fn room(random: &mut Random, answer: Option<usize>) -> usize {
    let Some(length) = answer else {
        return random.below(200);
    };
    match random.below(100) {
        0..4 => 0,
        4..9 => length.saturating_sub(1),
        9..11 => random.below(length + 1),
        11..45 => length,
        45..70 => length + 1,
        _ => length + random.below(300),
    }
}
