//! The comparison of tallies: books and windows as for windows, with lengths around whole days and around 400.

use crate::answer::{self, Answer};
use crate::count::{By, Counts};
use crate::given::{Query, Venue};
use crate::judge::{self, DAY, SECOND};
use crate::list::{Case, List, Question};
use crate::plain;
use crate::random::Random;
use crate::tally::{self, LONGEST, NONE, Totals, UNKNOWN};
use crate::{Asked, Asking, Place, ask, book, books_and_windows, compare, walk};
use std::ops::Range;
use std::process::exit;

/// The least windows that a long run must see answered, and the least of each thing met.
const WINDOWS: u64 = 100_000;
const LEAST: u64 = 200;

/// Of a window that was answered, then of its rows; each counted once a window, once a row.
const SITUATIONS: [&str; 6] = [
    "plain",
    "not plain",
    "without a venue",
    "three or more joined",
    "stop because midnight is not later",
    "unknown after an early stop",
];
const ROWS: [&str; 6] = [
    "row with a clock change inside",
    "row with unknown",
    "row with a hole",
    "row with more than one phase",
    "row with phase, unknown and hole",
    "row of less than a day",
];

/// How long a window is.
const LENGTHS: [&str; 7] = [
    "1 ns",
    "below 1 day",
    "whole days",
    "1 ns beside whole days",
    "400 days",
    "others to 40 days",
    "others over 40 days",
];

fn length(start: i64, end: i64) -> &'static str {
    let (day, length) = (DAY as i64, end - start);
    let beside = (length + 1) % day;
    LENGTHS[match length {
        1 => 0,
        LONGEST => 4,
        _ if beside == 1 => 2,
        _ if length > day - 2 && (beside == 0 || beside == 2) => 3,
        _ if length < day => 1,
        _ if length <= 40 * day => 5,
        _ => 6,
    }]
}

/// Every total is counted again by pieces, where that is not too long.
fn counted_again(venue: &Venue, start: i64, end: i64, answers: &[Answer]) {
    let timeline = venue.timeline(start, end);
    if timeline.segments.len() * answers.len() > 2_000 {
        return;
    }
    for answer in answers {
        let (Answer::Day { start, end, totals } | Answer::Tally { start, end, totals }) = answer
        else {
            panic!("no row: {answer:?}");
        };
        let again = tally::by_pieces(&timeline, *start, *end);
        assert_eq!(*totals, again, "counted by pieces");
    }
}

fn row_situations(venue: &Venue, start: i64, end: i64, totals: &Totals) -> [bool; 6] {
    let inside = |at: i64| start < at && at < end;
    let near = venue.changes.partition_point(|c| c.0 * SECOND <= start);
    let phases = totals[..UNKNOWN].iter().filter(|total| **total > 0).count();
    let (unknown, hole) = (totals[UNKNOWN] > 0, totals[NONE] > 0);
    [
        venue
            .changes
            .get(near)
            .is_some_and(|c| inside(c.0 * SECOND)),
        unknown,
        hole,
        phases > 1,
        phases > 0 && unknown && hole,
        end - start < DAY as i64,
    ]
}

fn count(
    venue: &Venue,
    plain: &mut Option<plain::Venue>,
    (start, end): (i64, i64),
    answers: &[Answer],
    counts: &mut Counts,
) {
    counts.answered += 1;
    counts.add(By::Length, length(start, end));
    let is_plain = plain
        .as_mut()
        .map(|venue| venue.window(start, end).is_some_and(|run| run.lacks == 0));
    let walked = walk::situations(venue, start, end, &venue.window(start, end));
    let met = [
        is_plain == Some(true),
        is_plain == Some(false),
        is_plain.is_none(),
        walked[2],
        walked[4],
        walked[5],
    ];
    for (name, _) in SITUATIONS.iter().zip(met).filter(|(_, met)| *met) {
        counts.add(By::Situation, name);
    }
    for answer in answers {
        let Answer::Day { start, end, totals } = answer else {
            continue;
        };
        let met = row_situations(venue, *start, *end, totals);
        for (name, _) in ROWS.iter().zip(met).filter(|(_, met)| *met) {
            counts.add(By::Situation, name);
        }
        for (phase, _) in totals[..UNKNOWN]
            .iter()
            .enumerate()
            .filter(|(_, total)| **total > 0)
        {
            counts.add(By::Phase, phase);
        }
    }
}

/// A tally, compared and counted.
fn tally(
    place: Place,
    asking: &Asking,
    plain: &mut Option<plain::Venue>,
    (start, end): (i64, i64),
    random: &mut Random,
    counts: &mut Counts,
) -> Asked {
    let query = Query::Tally { start, end };
    let asked = compare(place, &asking.bytes, &asking.opened, &query, random, counts);
    counts.windows += 1;
    if let (Ok(venue), 0) = (&asking.opened, asked.number) {
        let answers = answer::decode(&asked.answer).expect("records of ours");
        counted_again(venue, start, end, &answers);
        count(venue, plain, (start, end), &answers, counts);
    }
    asked
}

/// What a long run should have met and did not.
fn missing(counts: &Counts) -> Vec<String> {
    let mut wanted: Vec<(By, String)> = Vec::new();
    wanted.extend((0..=13).chain([16]).map(|n| (By::Number, format!("{n:2}"))));
    wanted.extend([22, 23].map(|kind| (By::Kind, kind.to_string())));
    wanted.extend((0..8).map(|phase| (By::Phase, phase.to_string())));
    let rooms = ["none", "one short", "exact", "one over", "longer"];
    wanted.extend(rooms.map(|room| (By::Room, room.to_owned())));
    let named = SITUATIONS.iter().chain(&ROWS);
    // A book of zero bytes is rare.
    let named = named.filter(|name| **name != SITUATIONS[2]);
    wanted.extend(named.map(|name| (By::Situation, (*name).to_owned())));
    wanted.extend(LENGTHS.map(|name| (By::Length, name.to_owned())));
    let mut missing = counts.below(wanted, LEAST);
    if counts.answered < WINDOWS {
        missing.push(format!(
            "windows answered: {}, below {WINDOWS}",
            counts.answered
        ));
    }
    missing
}

/// A small book that covers as much as the longest tally has: there most long windows are asked, and some more.
fn covers_long(venue: &Venue) -> bool {
    venue.parts().is_some_and(|(rules, _)| {
        let (from, to) = (rules.coverage.start(), rules.coverage.end());
        from.saturating_nanos_until(to) >= i128::from(LONGEST)
    })
}

fn windows(random: &mut Random, asking: &Asking) -> Vec<(i64, i64)> {
    let (mut made, small) = (asking.windows.clone(), asking.bytes.len() < 400);
    let mut far_too = false;
    if let (Ok(venue), true) = (&asking.opened, small) {
        far_too = covers_long(venue);
        if far_too {
            made.extend(ask::windows(random, venue, 5, false));
        }
        far_too |= random.percent(15);
    }
    ask::tally_windows(random, &made, far_too)
}

/// Who judges the windows of an accepted book that names a venue.
fn plain_venue(asking: &Asking) -> Option<plain::Venue> {
    let records = asking.opened.is_ok().then(|| book::decode(&asking.bytes));
    records.and_then(|records| plain::Venue::of(&records))
}

pub fn run(seed: u64, from: u64, books: u64, long: bool) {
    let mut counts = Counts::default();
    for book in from..from + books {
        let place = Place { seed, book };
        let mut random = Random::new(seed, book);
        for asking in books_and_windows(&mut random) {
            let accepted = asking.opened.is_ok();
            counts.add(By::Books, if accepted { "accepted" } else { "refused" });
            let mut plain = plain_venue(&asking);
            for edges in windows(&mut random, &asking) {
                tally(place, &asking, &mut plain, edges, &mut random, &mut counts);
            }
        }
    }
    counts.print();
    println!("differences 0");
    let missing = missing(&counts);
    if long && !missing.is_empty() {
        println!("met too seldom:\n{}", missing.join("\n"));
        exit(1);
    }
}

/// A book of so many zeros: none is a venue without data, too many get 1.
fn zeros(random: &mut Random, many: usize) -> Asking {
    let bytes = vec![0; many];
    let opened = Venue::open(&bytes);
    let window = match &opened {
        Ok(_) => {
            let start = random.from_to(0, 1000 * DAY as i64);
            (start, start + random.from_to(1, 6 * DAY as i64))
        }
        Err(_) => (ask::far(random), ask::far(random)),
    };
    Asking {
        bytes,
        opened,
        windows: vec![window],
    }
}

/// The tallies of the list: as many as give each situation its share.
pub fn list(seed: u64, places: Range<u64>) -> List {
    let mut list = List::default();
    let first = places.start;
    for book in places {
        let place = Place { seed, book };
        let mut random = Random::new(seed, book);
        let mut all = books_and_windows(&mut random);
        if book - first < 12 {
            let too_many = judge::LONGEST + 1 + random.below(30_000);
            all.extend([0, too_many].map(|many| zeros(&mut random, many)));
        }
        for asking in all {
            let mut plain = plain_venue(&asking);
            let long = asking.bytes.len() > judge::LONGEST;
            let zeros = long && asking.bytes.iter().all(|byte| *byte == 0);
            list.next_book();
            for (start, end) in windows(&mut random, &asking) {
                let mut counts = Counts::default();
                let edges = (start, end);
                let asked = tally(place, &asking, &mut plain, edges, &mut random, &mut counts);
                list.offer_tally(
                    &Case {
                        book: &asking.bytes,
                        zeros,
                        question: Question::Book(Query::Tally { start, end }),
                        room: asked.room,
                        number: asked.number,
                        answer: &asked.answer,
                    },
                    &counts,
                );
            }
        }
    }
    list
}
