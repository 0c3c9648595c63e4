// Ours, not given: the original's own lib.rs was not among the given sources. It
// declares the given files as modules and re-exports the names that the given
// board imports from the crate's root.

//! The original core, over our stand-in for jiff. See each file's doors.

#![forbid(unsafe_code)]

pub mod catalog;
pub mod civil;
pub mod coverage;
pub mod event;
pub mod evidence;
pub mod ids;
pub mod instant;
pub mod phase;
pub mod query;
pub mod resolve;
pub mod rule;
pub mod ruleset;
pub mod uncertainty;

pub use catalog::{AssetFamily, VenueProfile};
pub use civil::{CivilError, CivilInstant, CivilResolution};
pub use coverage::{CoverageGap, CoverageRange};
pub use event::{EventKind, EventOccurrence, EventRule};
pub use evidence::{DerivationNote, EvidenceError, EvidenceRef};
pub use ids::{DatasetRevisionId, IanaZoneId, IdentifierError, VenueId};
pub use instant::{Interval, IntervalError, NANOS_PER_SECOND, UtcInstant};
pub use phase::Phase;
pub use query::{
    PhaseAnswer, PhaseBoundary, PhaseOutcome, Timeline, TimelineSegment, VenueOutcome,
};
pub use resolve::{resolve_phase, resolve_phases, resolve_timeline};
pub use rule::{CivilDaySchedule, DateRange, Rule, RuleError, RuleKind};
pub use ruleset::{DatasetRevision, Ruleset, RulesetError, VenueRuleset};
pub use uncertainty::Uncertainty;
