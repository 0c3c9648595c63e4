//! The original board behind document 01's boundary: a row's bytes and a query in; a number and cells, a class or counts
//! out. `row` judges the bytes. Of a segment the board looks at its edges and its phase, so the rest is filled in.

use crate::given::{instant, judge_window, outside};
use crate::row::{self, Row, Segment};
use market_time_board::{BoardRow, ClockDiscipline, NowMarker, doors};
use market_time_core::{
    CoverageGap, Interval, Phase, PhaseAnswer, PhaseBoundary, Timeline, TimelineSegment,
    Uncertainty, VenueId,
};

/// A query for cells.
#[derive(Debug, Clone, Copy)]
pub struct Cells {
    pub start: i64,
    pub end: i64,
    pub columns: i64,
    pub marked: bool,
    pub now: i64,
}

/// More columns get 14, fewer than the least become the least.
pub const MOST_COLUMNS: i64 = 512;
pub const LEAST_COLUMNS: i64 = 12;

/// The classes of the boundary. Beside a refusal stands 0.
pub const TRADING: u32 = 1;
pub const NOT_TRADING: u32 = 2;
pub const NOT_KNOWN: u32 = 3;
pub const NOT_SHOWN: u32 = 4;

/// Venues, trading, not trading, not known.
pub type Counted = [u64; 4];

fn interval(start: i64, end: i64) -> Interval {
    Interval {
        start: instant(start),
        end: instant(end),
    }
}

fn segment(venue: &VenueId, of: &Segment) -> TimelineSegment {
    let held = interval(of.start, of.end);
    let boundary = |instant| PhaseBoundary {
        instant,
        uncertainty: Uncertainty::Exact,
    };
    match of.phase {
        Some(phase) => TimelineSegment::Phase {
            interval: held,
            answer: Box::new(PhaseAnswer {
                venue: venue.clone(),
                phase: Phase::all()[usize::from(phase)],
                calendar_rule_kind: String::new(),
                calendar_label: String::new(),
                boundary_start: boundary(held.start),
                boundary_end: boundary(held.end),
                events: Vec::new(),
                evidence: Vec::new(),
                derived_reasoning: None,
                uncertainty: Uncertainty::Exact,
                dataset_revisions: Vec::new(),
            }),
        },
        None => TimelineSegment::Unknown {
            interval: held,
            gap: Box::new(CoverageGap {
                venue: venue.clone(),
                queried_at: held.start,
                coverage: None,
                dataset_revisions: Vec::new(),
            }),
        },
    }
}

/// A row as the original has it. The board does not look at the timeline's own interval.
pub fn timeline(row: &Row) -> Timeline {
    let venue = VenueId::new("v").expect("a venue");
    Timeline {
        interval: interval(0, 1),
        segments: row.iter().map(|one| segment(&venue, one)).collect(),
        venue,
    }
}

fn now_marker(at: i64) -> NowMarker {
    NowMarker {
        instant: instant(at),
        discipline: ClockDiscipline::Given {
            source: "the query".to_owned(),
        },
    }
}

/// `render_row` of a query that has none of the numbers up to 14.
pub fn render(timeline: &Timeline, asked: &Cells) -> String {
    let now = asked.marked.then(|| now_marker(asked.now));
    let columns = asked.columns.max(LEAST_COLUMNS) as usize;
    let window = interval(asked.start, asked.end);
    doors::render_row(timeline, window, columns, now.as_ref())
}

/// The numbers of a query for cells before the row is looked at: 10, 11, 12, 14.
pub fn judge_cells(asked: &Cells) -> Result<(), u32> {
    if asked.marked && outside(asked.now) {
        return Err(10);
    }
    judge_window(asked.start, asked.end)?;
    (asked.columns <= MOST_COLUMNS).then_some(()).ok_or(14)
}

/// The cells' bytes, or the query's number.
pub fn cells(row: &[u8], asked: &Cells) -> Result<Vec<u8>, u32> {
    judge_cells(asked)?;
    let held = row::row(row).ok_or(15_u32)?;
    Ok(render(&timeline(&held), asked).into_bytes())
}

/// What a row with this one segment or none counts, as a class.
fn class_of(counted: Counted) -> u32 {
    match counted {
        [1, 1, 0, 0] => TRADING,
        [1, 0, 1, 0] => NOT_TRADING,
        [1, 0, 0, 1] => NOT_KNOWN,
        [1, 0, 0, 0] => NOT_SHOWN,
        other => panic!("one row counted {other:?}"),
    }
}

pub fn counted(rows: &[BoardRow], at: i64) -> Counted {
    let count = doors::trading_count(rows, instant(at));
    let of = [
        count.venues,
        count.trading,
        count.not_trading,
        count.not_known,
    ];
    of.map(|one| one as u64)
}

/// The class, from `status` and from `trading_count` over this row alone, which must agree; or the query's number.
pub fn class(row: &[u8], at: i64) -> Result<u32, u32> {
    if outside(at) {
        return Err(10);
    }
    let held = timeline(&row::row(row).ok_or(15_u32)?);
    let told = match doors::status(&held, Some(&now_marker(at))).as_str() {
        "not known" => NOT_KNOWN,
        "not shown" => NOT_SHOWN,
        name => match Phase::from_str_exact(name).expect("a phase").is_trading() {
            true => TRADING,
            false => NOT_TRADING,
        },
    };
    let alone = class_of(counted(&[BoardRow::new(held, None)], at));
    assert_eq!(told, alone, "status and trading_count");
    Ok(told)
}

/// The counts over marked rows, or the query's number.
pub fn count(rows: &[u8], at: i64) -> Result<Counted, u32> {
    if outside(at) {
        return Err(10);
    }
    Ok(counted(&self::rows(&row::marked(rows).ok_or(15_u32)?), at))
}

/// Rows as the original's board has them.
pub fn rows(rows: &[Row]) -> Vec<BoardRow> {
    rows.iter()
        .map(|row| BoardRow::new(timeline(row), None))
        .collect()
}
