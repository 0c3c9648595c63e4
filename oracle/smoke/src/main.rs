//! Ours: builds Book A for the original, asks it one instant, draws one row, and
//! ends with a panic if an answer is not the expected one.

use jiff::civil::{Time, Weekday, date, time};
use jiff::tz::TimeZone;
use market_time_board::{BoardRow, ClockDiscipline, NowMarker, doors as board};
use market_time_core::resolve::doors;
use market_time_core::{
    CivilDaySchedule, CoverageRange, DatasetRevision, DatasetRevisionId, DateRange, EvidenceRef,
    IanaZoneId, Interval, Phase, PhaseOutcome, Rule, RuleKind, Ruleset, Uncertainty, UtcInstant,
    VenueId, VenueProfile, VenueRuleset, resolve_phase, resolve_timeline,
};

fn second(at: i64) -> UtcInstant {
    UtcInstant::from_seconds_since_unix_epoch(at)
}

fn seconds(at: UtcInstant) -> i128 {
    at.as_nanos_since_unix_epoch() / market_time_core::NANOS_PER_SECOND
}

fn evidence(source: &str) -> EvidenceRef {
    EvidenceRef::new(source, second(0), "2026-01-01").expect("evidence")
}

fn weekly(weekdays: &[Weekday], points: Vec<(Time, Phase)>) -> Rule {
    Rule {
        kind: RuleKind::WeeklyPattern {
            weekdays: weekdays.to_vec(),
        },
        schedule: CivilDaySchedule::door_unchecked(points),
        applies: DateRange {
            start: date(2026, 1, 1),
            end: date(2026, 12, 31),
        },
        boundary_uncertainty: Uncertainty::minutes(1),
        evidence: evidence("weekly"),
        derived: None,
        revision: DatasetRevisionId::new("a").expect("revision"),
    }
}

fn book_a() -> Ruleset {
    use Weekday::{Friday, Monday, Saturday, Sunday, Thursday, Tuesday, Wednesday};
    let closed = (Time::midnight(), Phase::Closed);
    let venue = VenueRuleset {
        venue: VenueId::new("A").expect("venue"),
        home_zone: IanaZoneId::new("A").expect("zone"),
        profile: VenueProfile::default(),
        coverage: CoverageRange::new(Interval {
            start: second(1_767_225_600),
            end: second(1_798_761_600),
        }),
        rules: vec![
            weekly(
                &[Monday, Tuesday, Wednesday, Thursday, Friday],
                vec![
                    closed,
                    (time(8, 0, 0, 0), Phase::ContinuousTrading),
                    (time(16, 30, 0, 0), Phase::Closed),
                ],
            ),
            weekly(&[Saturday, Sunday], vec![closed]),
        ],
        events: Vec::new(),
        evidence: Vec::new(),
    };
    let revision = DatasetRevision {
        id: DatasetRevisionId::new("a").expect("revision"),
        supersedes: None,
        iana_tzdb_version: None,
        assembled_at: second(0),
    };
    Ruleset::door_unchecked(
        vec![revision],
        vec![(venue, TimeZone::from_transitions(0, &[]))],
    )
}

fn main() {
    let book = book_a();
    let venue = VenueId::new("A").expect("venue");
    let at = second(1_767_600_000);

    let PhaseOutcome::Known(answer) = resolve_phase(at, &venue, &book) else {
        panic!("the instant is covered");
    };
    let (start, end) = (answer.boundary_start.instant, answer.boundary_end.instant);
    println!("{:?} {} {}", answer.phase, seconds(start), seconds(end));
    println!("{} to {}", start, end);
    assert_eq!(answer.phase, Phase::ContinuousTrading);
    assert_eq!((seconds(start), seconds(end)), (1_767_600_000, 1_767_630_600));
    assert!(resolve_phase(second(1_798_761_600), &venue, &book).is_unknown());

    let rules = book.venue(&venue).expect("the venue");
    let day = doors::day_segments(rules, book.zone(&venue).expect("a zone"), date(2026, 1, 5));
    assert_eq!(day.len(), 3);
    let governing = doors::governing_rule(&rules.rules, date(2026, 1, 3));
    assert_eq!(governing, Some(&rules.rules[1]));

    // Monday 2026-01-05: one column an hour, the marker at 08:00.
    let interval = Interval {
        start: second(1_767_571_200),
        end: second(1_767_657_600),
    };
    let timeline = resolve_timeline(interval, &venue, &book);
    assert!(timeline.tiles_interval());
    let merged = doors::merge_adjacent(timeline.segments.clone());
    assert_eq!(merged, timeline.segments);
    let now = NowMarker {
        instant: at,
        discipline: ClockDiscipline::Given {
            source: "smoke".to_owned(),
        },
    };
    let row = board::render_row(&timeline, interval, 24, Some(&now));
    let status = board::status(&timeline, Some(&now));
    println!("{row} {status}");
    assert_eq!(row, "[........|########.......]");
    assert_eq!(status, "continuous_trading");
    let count = board::trading_count(&[BoardRow::new(timeline, None)], at);
    println!("{}", count.describe());
    assert_eq!((count.venues, count.trading), (1, 1));
}
