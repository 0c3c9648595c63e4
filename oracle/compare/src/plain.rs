//! Plain dates and plain windows, judged from document 01's words on a book's values: neither the port nor the Rust is asked.

use crate::book::{Record, Rule};
use crate::judge::{DAY, OFFSETS, SECOND};
use std::collections::BTreeMap;

/// A date's nanoseconds.
pub const DATE: i64 = DAY as i64;
/// A Monday.
const MONDAY: i64 = 20_458;
/// The longest run.
pub const MOST_DATES: i64 = 3_660;
/// No offset is wider, in nanoseconds.
const WIDEST: i64 = OFFSETS[1] as i64 * SECOND;

/// What a window can lack to be plain. The clause on points is two: their order, and that none is outside the midnights.
pub const PARTS: [&str; 8] = [
    "midnights that do not fall",
    "points in order",
    "points between the midnights",
    "every instant reads its date",
    "at most 3,660 dates",
    "the date before: its points between its midnights",
    "the date before: the rest",
    "the date after",
];
/// A set of `PARTS`, by their places.
pub type Lacks = u8;
pub const FALLS: Lacks = 1;
pub const ORDER: Lacks = 2;
pub const BETWEEN: Lacks = 4;
pub const READS: Lacks = 8;
pub const LONG: Lacks = 16;
pub const BEFORE_POINTS: Lacks = 32;
pub const BEFORE: Lacks = 64;
pub const AFTER: Lacks = 128;

/// The dates whose midnights enclose a window, and what is lacking there.
#[derive(Debug, Clone, Copy)]
pub struct Run {
    pub first: i64,
    pub last: i64,
    pub lacks: Lacks,
}

/// A book that names a venue. Instants and offsets are in nanoseconds.
pub struct Venue {
    pub coverage: (i64, i64),
    pub changes: Vec<(i64, i64)>,
    first_offset: i64,
    rules: Vec<Rule>,
    judged: BTreeMap<i64, Lacks>,
}

/// Holiday and shortened before announced before weekly.
fn precedence(rule: &Rule) -> u8 {
    [10, 30, 30, 20][usize::from(rule.code)]
}

fn applies(rule: &Rule, day: i64) -> bool {
    let weekday = (day - MONDAY).rem_euclid(7);
    (i64::from(rule.first)..=i64::from(rule.last)).contains(&day)
        && (rule.code != 0 || rule.mask >> weekday & 1 == 1)
}

impl Venue {
    /// Of the records of an accepted book; none where they are none.
    pub fn of(records: &[Record]) -> Option<Self> {
        let &Record::Head { start, end, offset } = records.first()? else {
            return None;
        };
        let mut made = Self {
            coverage: (start, end),
            changes: Vec::new(),
            first_offset: i64::from(offset) * SECOND,
            rules: Vec::new(),
            judged: BTreeMap::new(),
        };
        for record in records {
            match record {
                Record::Change { at, offset } => made
                    .changes
                    .push((at * SECOND, i64::from(*offset) * SECOND)),
                Record::Rule(rule) => made.rules.push(rule.clone()),
                _ => {}
            }
        }
        Some(made)
    }

    pub fn covers(&self, at: i64) -> bool {
        self.coverage.0 <= at && at < self.coverage.1
    }

    /// The offset once this many changes have passed.
    fn offset(&self, passed: usize) -> i64 {
        match passed {
            0 => self.first_offset,
            _ => self.changes[passed - 1].1,
        }
    }

    /// The date and the time of day that an instant reads.
    pub fn read_at(&self, at: i64) -> (i64, u64) {
        let passed = self.changes.partition_point(|&(change, _)| change <= at);
        let reading = at + self.offset(passed);
        (reading.div_euclid(DATE), reading.rem_euclid(DATE) as u64)
    }

    pub fn date_at(&self, at: i64) -> i64 {
        self.read_at(at).0
    }

    /// The instant taken for a time of a date: the earlier of two, and where there is none the later of the readings by
    /// the offsets before and after.
    pub fn instant(&self, day: i64, time: u64) -> i64 {
        let reading = day * DATE + time as i64;
        let far = self
            .changes
            .partition_point(|&(at, _)| at < reading - WIDEST);
        let near = self
            .changes
            .partition_point(|&(at, _)| at <= reading + WIDEST);
        let has = |passed: &usize| {
            let at = reading - self.offset(*passed);
            let begun = *passed == 0 || self.changes[*passed - 1].0 <= at;
            let over = self.changes.get(*passed).is_some_and(|next| next.0 <= at);
            begun && !over
        };
        let read = (far..=near)
            .filter(has)
            .map(|passed| reading - self.offset(passed));
        let jumped = |passed: &usize| {
            let at = self.changes[*passed].0;
            let (before, after) = (self.offset(*passed), self.offset(*passed + 1));
            at + before <= reading && reading < at + after
        };
        read.min().unwrap_or_else(|| {
            let gap = (far..near).find(jumped).expect("a change that jumps over");
            (reading - self.offset(gap)).max(reading - self.offset(gap + 1))
        })
    }

    pub fn midnight(&self, day: i64) -> i64 {
        self.instant(day, 0)
    }

    /// The highest precedence, then first day; the last listed on a tie.
    pub fn governing(&self, day: i64) -> Option<&Rule> {
        let applying = self.rules.iter().filter(|rule| applies(rule, day));
        applying.max_by_key(|rule| (precedence(rule), rule.first))
    }

    /// The instants of a date's points, before any is raised.
    pub fn points(&self, day: i64) -> Vec<i64> {
        let points = self.governing(day).map_or(&[][..], |rule| &rule.points);
        points
            .iter()
            .map(|&(time, _)| self.instant(day, time))
            .collect()
    }

    /// Every instant from the first to before the second reads the date: between changes readings rise, so the ends of
    /// each stretch tell.
    fn reads(&self, day: i64, from: i64, to: i64) -> bool {
        let mut edges = vec![from];
        let inside = |at: &i64| from < *at && *at < to;
        edges.extend(self.changes.iter().map(|&(at, _)| at).filter(inside));
        edges.push(to);
        edges.windows(2).all(|two| {
            let empty = two[0] >= two[1];
            empty || self.date_at(two[0]) == day && self.date_at(two[1] - 1) == day
        })
    }

    fn judge_date(&self, day: i64) -> Lacks {
        let (from, to) = (self.midnight(day), self.midnight(day + 1));
        let points = self.points(day);
        let mut lacks = 0;
        let mut test = |part, wrong| lacks |= if wrong { part } else { 0 };
        test(FALLS, from > to);
        test(ORDER, points.windows(2).any(|two| two[1] < two[0]));
        test(BETWEEN, points.iter().any(|at| *at < from || to < *at));
        test(READS, !self.reads(day, from, to));
        lacks
    }

    /// What a date lacks to be plain.
    pub fn date(&mut self, day: i64) -> Lacks {
        if let Some(&known) = self.judged.get(&day) {
            return known;
        }
        let found = self.judge_date(day);
        self.judged.insert(day, found);
        found
    }

    fn judge_run(&mut self, first: i64, last: i64) -> Run {
        let mut lacks = (first..=last).fold(0, |all, day| all | self.date(day));
        if last - first + 1 > MOST_DATES {
            lacks |= LONG;
        }
        let before = self.date(first - 1);
        if before & BETWEEN != 0 {
            lacks |= BEFORE_POINTS;
        } else if before != 0 {
            lacks |= BEFORE;
        }
        if self.date(last + 1) != 0 {
            lacks |= AFTER;
        }
        Run { first, last, lacks }
    }

    /// The run whose midnights enclose the window and that lacks the fewest parts, the shortest of these. Farther than
    /// three dates from what the window's edges read there is none that lacks fewer: more dates, more to lack.
    pub fn window(&mut self, start: i64, end: i64) -> Option<Run> {
        let (first, last) = (self.date_at(start), self.date_at(end - 1));
        let firsts: Vec<i64> = (first - 3..=first + 3)
            .filter(|day| self.midnight(*day) <= start)
            .collect();
        let lasts: Vec<i64> = (last - 3..=last + 3)
            .filter(|day| end <= self.midnight(*day + 1))
            .collect();
        let mut best: Option<Run> = None;
        for (first, last) in firsts
            .iter()
            .rev()
            .flat_map(|f| lasts.iter().map(move |l| (*f, *l)))
        {
            if first > last {
                continue;
            }
            let run = self.judge_run(first, last);
            if run.lacks == 0 {
                return Some(run);
            }
            let rank = |run: &Run| (run.lacks.count_ones(), run.last - run.first);
            if best.as_ref().is_none_or(|kept| rank(&run) < rank(kept)) {
                best = Some(run);
            }
        }
        best
    }
}
