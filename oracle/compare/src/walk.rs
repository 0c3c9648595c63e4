//! The walk over a window, done again as the Rust's `resolve_timeline` does it, by the Rust's own functions. It tells
//! what the answer does not show: how the walk stopped, and which spans of dates a joined segment is made of.

use crate::answer::Answer;
use crate::given::{Venue, instant, nanos};
use jiff::civil::Time;
use market_time_core::resolve::doors;
use market_time_core::{EvidenceRef, Interval, Phase, UtcInstant, civil};

/// Of a window query that was answered. Each is counted once a window.
pub const SITUATIONS: [&str; 6] = [
    "events listed twice",
    "events out of order after joining",
    "three or more joined",
    "stop by turns",
    "stop because midnight is not later",
    "unknown after an early stop",
];

/// Which of the six hold, by their places in `SITUATIONS`.
pub type Met = [bool; 6];

/// Touching spans of dates with one phase and one evidence.
struct Joined {
    visible: Interval,
    phase: Phase,
    evidence: EvidenceRef,
    spans: usize,
    /// Instant, evidence, and which of the spans lists it.
    events: Vec<(UtcInstant, String, usize)>,
}

impl Joined {
    /// Two of the spans list the same event. A book may also name a time twice: that is not meant.
    fn twice(&self) -> bool {
        let mut sorted: Vec<_> = self.events.iter().collect();
        sorted.sort();
        sorted
            .windows(2)
            .any(|two| (two[0].0, &two[0].1) == (two[1].0, &two[1].1) && two[0].2 != two[1].2)
    }

    fn out_of_order(&self) -> bool {
        self.events.windows(2).any(|two| two[1].0 < two[0].0)
    }
}

/// How a walk ended.
enum End {
    Reached,
    Turns,
    Midnight,
}

fn walk(venue: &Venue, covered: Interval) -> (Vec<Joined>, End) {
    let (rules, zone) = venue.parts().expect("coverage, so rules");
    let mut made: Vec<Joined> = Vec::new();
    let mut cursor = covered.start;
    let mut turns = 0;
    while cursor < covered.end {
        turns += 1;
        if turns > doors::MAX_TIMELINE_DAYS {
            return (made, End::Turns);
        }
        let date = civil::doors::datetime_at(zone, cursor).date();
        let mut advanced = false;
        for span in doors::day_segments(rules, zone, date) {
            let (start, end) = (
                span.interval.start.max(cursor),
                span.interval.end.min(covered.end),
            );
            if end <= start {
                continue;
            }
            cursor = end;
            advanced = true;
            let events = doors::events_in(&rules.events, zone, span.interval);
            let joins = made.last().is_some_and(|last| {
                last.visible.end == start
                    && last.phase == span.phase
                    && last.evidence == span.rule.evidence
            });
            if !joins {
                made.push(Joined {
                    visible: Interval { start, end },
                    phase: span.phase,
                    evidence: span.rule.evidence.clone(),
                    spans: 0,
                    events: Vec::new(),
                });
            }
            let last = made.last_mut().expect("one was made");
            last.visible.end = end;
            last.spans += 1;
            let place = last.spans;
            last.events.extend(events.iter().map(|event| {
                let evidence = event.evidence[0].source_url().to_owned();
                (event.instant, evidence, place)
            }));
        }
        if !advanced {
            let next = date.tomorrow().expect("a next date");
            let midnight = doors::to_utc(zone, next.to_datetime(Time::midnight())).0;
            if midnight <= cursor {
                return (made, End::Midnight);
            }
            cursor = midnight.min(covered.end);
        }
    }
    (made, End::Reached)
}

/// The phases of this walk are the answer's: the same edges, the same number of events.
fn same(joined: &[Joined], answers: &[Answer]) -> bool {
    let mut told = answers.iter().filter_map(|answer| match answer {
        Answer::Phase(phase) => Some((phase.start, phase.end, phase.events as usize)),
        _ => None,
    });
    let walked = joined.iter().map(|one| {
        let (start, end) = (nanos(one.visible.start), nanos(one.visible.end));
        (start, end, one.events.len())
    });
    walked.eq(told.by_ref())
}

/// What a window met that the Rust answered so.
pub fn situations(venue: &Venue, start: i64, end: i64, answers: &[Answer]) -> Met {
    let mut met = [false; 6];
    let Some((rules, _)) = venue.parts() else {
        return met;
    };
    let asked = Interval {
        start: instant(start),
        end: instant(end),
    };
    let Some(covered) = asked.intersection(rules.coverage.interval()) else {
        return met;
    };
    let (joined, stop) = walk(venue, covered);
    assert!(same(&joined, answers), "walked as the Rust does");
    met[0] = joined.iter().any(Joined::twice);
    met[1] = joined.iter().any(Joined::out_of_order);
    met[2] = joined.iter().any(|one| one.spans >= 3);
    met[3] = matches!(stop, End::Turns);
    met[4] = matches!(stop, End::Midnight);
    met[5] = !matches!(stop, End::Reached) && asked.end > rules.coverage.end();
    met
}
