//! A stand-in for the date library jiff: ours, and not jiff.
//!
//! It covers the names that the given sources of market-time-core and
//! market-time-board use, and what a caller needs to build them:
//!
//! - [`Timestamp`]: `from_nanosecond`, `as_nanosecond`, `MIN`, `MAX`, `UNIX_EPOCH`,
//!   `to_zoned`, and `Display` as RFC 3339 in UTC;
//! - [`civil::Date`], [`civil::Time`], [`civil::DateTime`], [`civil::Weekday`]:
//!   the proleptic Gregorian calendar by day numbers, years -9999 to 9999;
//! - [`tz::Offset`], [`tz::AmbiguousOffset`], [`tz::AmbiguousTimestamp`],
//!   [`tz::TimeZone`]: readings from transitions, after RFC 9636;
//! - [`Zoned`]: `year`, `month`, `day`, `hour`, `minute`, `second`.
//!
//! It has no zone database. A zone is built by [`tz::TimeZone::from_transitions`],
//! which jiff does not have, and `TimeZone::get` finds UTC and the names that
//! [`tz::TimeZone::register`] was given, nothing else. There are no POSIX zone
//! strings, no leap seconds, no spans and no rounding.
//!
//! The bounds of `Timestamp` are written from our knowledge of jiff's documentation,
//! which was not at hand: nothing here was compared with jiff itself.

#![forbid(unsafe_code)]

use std::fmt;

const NANOS: i128 = 1_000_000_000;
const DAY: i64 = 86_400;

/// Why a value could not be made.
#[derive(Debug, Clone, PartialEq, Eq)]
pub struct Error(&'static str);

impl fmt::Display for Error {
    fn fmt(&self, f: &mut fmt::Formatter<'_>) -> fmt::Result {
        f.write_str(self.0)
    }
}

impl std::error::Error for Error {}

/// An instant, in nanoseconds since 1970-01-01T00:00:00Z.
#[derive(Debug, Clone, Copy, PartialEq, Eq, PartialOrd, Ord, Hash)]
pub struct Timestamp(i128);

impl Timestamp {
    /// -9999-01-02T01:59:59Z.
    pub const MIN: Self = Self(-377_705_023_201 * NANOS);
    /// 9999-12-30T22:00:00.999999999Z.
    pub const MAX: Self = Self(253_402_207_200 * NANOS + 999_999_999);
    /// 1970-01-01T00:00:00Z.
    pub const UNIX_EPOCH: Self = Self(0);

    /// The instant of this many nanoseconds, within `MIN` and `MAX`.
    pub fn from_nanosecond(nanos: i128) -> Result<Self, Error> {
        if nanos < Self::MIN.0 || nanos > Self::MAX.0 {
            return Err(Error("timestamp out of range"));
        }
        Ok(Self(nanos))
    }

    /// Nanoseconds since 1970.
    pub fn as_nanosecond(self) -> i128 {
        self.0
    }

    /// This instant as a zone's clocks read it.
    pub fn to_zoned(self, zone: tz::TimeZone) -> Zoned {
        Zoned {
            datetime: zone.to_datetime(self),
        }
    }
}

impl fmt::Display for Timestamp {
    fn fmt(&self, f: &mut fmt::Formatter<'_>) -> fmt::Result {
        write!(f, "{}Z", civil::DateTime::from_local_nanos(self.0))
    }
}

/// An instant as a zone's clocks read it.
#[derive(Debug, Clone, PartialEq, Eq)]
pub struct Zoned {
    datetime: civil::DateTime,
}

impl Zoned {
    /// The local reading.
    pub fn datetime(&self) -> civil::DateTime {
        self.datetime
    }
    /// The year.
    pub fn year(&self) -> i16 {
        self.datetime.date().year()
    }
    /// The month, 1 to 12.
    pub fn month(&self) -> i8 {
        self.datetime.date().month()
    }
    /// The day of the month, 1 to 31.
    pub fn day(&self) -> i8 {
        self.datetime.date().day()
    }
    /// The hour, 0 to 23.
    pub fn hour(&self) -> i8 {
        self.datetime.time().hour()
    }
    /// The minute, 0 to 59.
    pub fn minute(&self) -> i8 {
        self.datetime.time().minute()
    }
    /// The second, 0 to 59.
    pub fn second(&self) -> i8 {
        self.datetime.time().second()
    }
}

pub mod civil {
    //! Dates and times of day without a zone.

    use super::{DAY, Error, NANOS};
    use std::fmt;

    /// A day of the week.
    #[derive(Debug, Clone, Copy, PartialEq, Eq, Hash)]
    #[allow(missing_docs)]
    pub enum Weekday {
        Monday,
        Tuesday,
        Wednesday,
        Thursday,
        Friday,
        Saturday,
        Sunday,
    }

    const WEEK: [Weekday; 7] = [
        Weekday::Monday,
        Weekday::Tuesday,
        Weekday::Wednesday,
        Weekday::Thursday,
        Weekday::Friday,
        Weekday::Saturday,
        Weekday::Sunday,
    ];

    impl Weekday {
        /// The weekday this many days after Monday, 0 to 6.
        pub fn from_monday_zero_offset(offset: i8) -> Result<Self, Error> {
            usize::try_from(offset)
                .ok()
                .and_then(|at| WEEK.get(at).copied())
                .ok_or(Error("weekday out of range"))
        }

        /// Days after Monday, 0 to 6.
        pub fn to_monday_zero_offset(self) -> i8 {
            self as i8
        }
    }

    /// A date of the proleptic Gregorian calendar: days since 1970-01-01.
    #[derive(Clone, Copy, PartialEq, Eq, PartialOrd, Ord, Hash)]
    pub struct Date(i64);

    impl Date {
        /// -9999-01-01.
        pub const MIN: Self = Self(-4_371_587);
        /// 9999-12-31.
        pub const MAX: Self = Self(2_932_896);

        /// The date, refused where the calendar has none.
        pub fn new(year: i16, month: i8, day: i8) -> Result<Self, Error> {
            if !(-9999..=9999).contains(&year)
                || !(1..=12).contains(&month)
                || day < 1
                || i64::from(day) > month_length(i64::from(year), i64::from(month))
            {
                return Err(Error("no such date"));
            }
            Ok(Self(day_number(
                i64::from(year),
                i64::from(month),
                i64::from(day),
            )))
        }

        /// Ours, not jiff's: the date of this many days since 1970-01-01.
        pub fn from_day_number(days: i64) -> Result<Self, Error> {
            if days < Self::MIN.0 || days > Self::MAX.0 {
                return Err(Error("date out of range"));
            }
            Ok(Self(days))
        }

        /// Ours, not jiff's: days since 1970-01-01.
        pub fn day_number(self) -> i64 {
            self.0
        }

        /// The day before, refused before `MIN`.
        pub fn yesterday(self) -> Result<Self, Error> {
            Self::from_day_number(self.0 - 1)
        }

        /// The day after, refused past `MAX`.
        pub fn tomorrow(self) -> Result<Self, Error> {
            Self::from_day_number(self.0 + 1)
        }

        /// The day of the week; 1970-01-01 was a Thursday.
        pub fn weekday(self) -> Weekday {
            WEEK[(self.0 + 3).rem_euclid(7) as usize]
        }

        /// This date at a time of day. Panics where there is no such time, as jiff does.
        pub fn at(self, hour: i8, minute: i8, second: i8, nanos: i32) -> DateTime {
            self.to_datetime(Time::new(hour, minute, second, nanos).expect("a time of day"))
        }

        /// This date at a time of day.
        pub fn to_datetime(self, time: Time) -> DateTime {
            DateTime { date: self, time }
        }

        /// The year.
        pub fn year(self) -> i16 {
            parts(self.0).0 as i16
        }
        /// The month, 1 to 12.
        pub fn month(self) -> i8 {
            parts(self.0).1 as i8
        }
        /// The day of the month, 1 to 31.
        pub fn day(self) -> i8 {
            parts(self.0).2 as i8
        }
    }

    /// The date. Panics where there is no such date, as jiff's does.
    pub fn date(year: i16, month: i8, day: i8) -> Date {
        Date::new(year, month, day).expect("a date")
    }

    /// The time of day. Panics where there is no such time, as jiff's does.
    pub fn time(hour: i8, minute: i8, second: i8, nanos: i32) -> Time {
        Time::new(hour, minute, second, nanos).expect("a time of day")
    }

    fn is_leap(year: i64) -> bool {
        year.rem_euclid(4) == 0 && (year.rem_euclid(100) != 0 || year.rem_euclid(400) == 0)
    }

    fn month_length(year: i64, month: i64) -> i64 {
        match month {
            2 if is_leap(year) => 29,
            2 => 28,
            4 | 6 | 9 | 11 => 30,
            _ => 31,
        }
    }

    /// Days before 1 January of `year`, counted from 0000-01-01.
    fn days_before_year(year: i64) -> i64 {
        let last = year - 1;
        365 * year + last.div_euclid(4) - last.div_euclid(100) + last.div_euclid(400) + 1
    }

    /// 1970-01-01 counted from 0000-01-01.
    const EPOCH: i64 = 719_528;

    fn day_number(year: i64, month: i64, day: i64) -> i64 {
        let months: i64 = (1..month).map(|m| month_length(year, m)).sum();
        days_before_year(year) - EPOCH + months + day - 1
    }

    fn parts(days: i64) -> (i64, i64, i64) {
        let counted = days + EPOCH;
        let mut year = counted.div_euclid(366);
        if counted < 0 {
            year = counted.div_euclid(365) - 1;
        }
        while days_before_year(year + 1) <= counted {
            year += 1;
        }
        let mut rest = counted - days_before_year(year);
        let mut month = 1;
        while rest >= month_length(year, month) {
            rest -= month_length(year, month);
            month += 1;
        }
        (year, month, rest + 1)
    }

    impl fmt::Display for Date {
        fn fmt(&self, f: &mut fmt::Formatter<'_>) -> fmt::Result {
            let (year, month, day) = parts(self.0);
            if year < 0 {
                write!(f, "-{:06}-{month:02}-{day:02}", -year)
            } else {
                write!(f, "{year:04}-{month:02}-{day:02}")
            }
        }
    }

    impl fmt::Debug for Date {
        fn fmt(&self, f: &mut fmt::Formatter<'_>) -> fmt::Result {
            fmt::Display::fmt(self, f)
        }
    }

    /// A time of day: nanoseconds since midnight.
    #[derive(Clone, Copy, PartialEq, Eq, PartialOrd, Ord, Hash)]
    pub struct Time(i64);

    impl Time {
        /// 00:00.
        pub const fn midnight() -> Self {
            Self(0)
        }

        /// The time of day, refused where there is none.
        pub fn new(hour: i8, minute: i8, second: i8, nanos: i32) -> Result<Self, Error> {
            if !(0..24).contains(&hour)
                || !(0..60).contains(&minute)
                || !(0..60).contains(&second)
                || !(0..1_000_000_000).contains(&nanos)
            {
                return Err(Error("no such time of day"));
            }
            let seconds = i64::from(hour) * 3600 + i64::from(minute) * 60 + i64::from(second);
            Ok(Self(seconds * 1_000_000_000 + i64::from(nanos)))
        }

        /// Ours, not jiff's: the time of this second of the day, 0 to 86,399.
        pub fn from_second_of_day(second: i64) -> Result<Self, Error> {
            if !(0..DAY).contains(&second) {
                return Err(Error("no such second of the day"));
            }
            Ok(Self(second * 1_000_000_000))
        }

        /// Ours, not jiff's: nanoseconds since midnight.
        pub fn nanosecond_of_day(self) -> i64 {
            self.0
        }

        /// The hour, 0 to 23.
        pub fn hour(self) -> i8 {
            (self.0 / 3_600_000_000_000) as i8
        }
        /// The minute, 0 to 59.
        pub fn minute(self) -> i8 {
            (self.0 / 60_000_000_000 % 60) as i8
        }
        /// The second, 0 to 59.
        pub fn second(self) -> i8 {
            (self.0 / 1_000_000_000 % 60) as i8
        }
        /// The nanoseconds past the second.
        pub fn subsec_nanosecond(self) -> i32 {
            (self.0 % 1_000_000_000) as i32
        }
    }

    impl fmt::Display for Time {
        fn fmt(&self, f: &mut fmt::Formatter<'_>) -> fmt::Result {
            write!(
                f,
                "{:02}:{:02}:{:02}",
                self.hour(),
                self.minute(),
                self.second()
            )?;
            if self.subsec_nanosecond() != 0 {
                let digits = format!("{:09}", self.subsec_nanosecond());
                write!(f, ".{}", digits.trim_end_matches('0'))?;
            }
            Ok(())
        }
    }

    impl fmt::Debug for Time {
        fn fmt(&self, f: &mut fmt::Formatter<'_>) -> fmt::Result {
            fmt::Display::fmt(self, f)
        }
    }

    /// A date and a time of day.
    #[derive(Clone, Copy, PartialEq, Eq, PartialOrd, Ord, Hash)]
    pub struct DateTime {
        date: Date,
        time: Time,
    }

    impl DateTime {
        /// The date.
        pub fn date(self) -> Date {
            self.date
        }

        /// The time of day.
        pub fn time(self) -> Time {
            self.time
        }

        /// The reading as nanoseconds since 1970-01-01T00:00, as if it were UTC.
        pub(crate) fn local_nanos(self) -> i128 {
            i128::from(self.date.0) * i128::from(DAY) * NANOS + i128::from(self.time.0)
        }

        pub(crate) fn from_local_nanos(nanos: i128) -> Self {
            let day = i128::from(DAY) * NANOS;
            Self {
                date: Date(nanos.div_euclid(day) as i64),
                time: Time(nanos.rem_euclid(day) as i64),
            }
        }
    }

    impl fmt::Display for DateTime {
        fn fmt(&self, f: &mut fmt::Formatter<'_>) -> fmt::Result {
            write!(f, "{}T{}", self.date, self.time)
        }
    }

    impl fmt::Debug for DateTime {
        fn fmt(&self, f: &mut fmt::Formatter<'_>) -> fmt::Result {
            fmt::Display::fmt(self, f)
        }
    }

    impl std::str::FromStr for DateTime {
        type Err = Error;

        /// `YYYY-MM-DDTHH:MM[:SS]` and no other form; jiff reads more.
        fn from_str(text: &str) -> Result<Self, Error> {
            const NOT: Error = Error("not a civil datetime");
            let bytes = text.as_bytes();
            if bytes.len() != 16 && bytes.len() != 19 {
                return Err(NOT);
            }
            for (at, byte) in bytes.iter().enumerate() {
                let fits = match at {
                    4 | 7 => *byte == b'-',
                    10 => *byte == b'T',
                    13 | 16 => *byte == b':',
                    _ => byte.is_ascii_digit(),
                };
                if !fits {
                    return Err(NOT);
                }
            }
            let number = |from: usize, to: usize| -> i16 {
                bytes[from..to]
                    .iter()
                    .fold(0, |sum, byte| sum * 10 + i16::from(byte - b'0'))
            };
            let second = if bytes.len() == 19 { number(17, 19) } else { 0 };
            Ok(Date::new(number(0, 4), number(5, 7) as i8, number(8, 10) as i8)?.to_datetime(
                Time::new(number(11, 13) as i8, number(14, 16) as i8, second as i8, 0)?,
            ))
        }
    }
}

pub mod tz {
    //! Zones built from transitions.

    use super::civil::DateTime;
    use super::{Error, NANOS, Timestamp};
    use std::collections::BTreeMap;
    use std::sync::{Arc, Mutex};

    /// Seconds that local clocks are ahead of UTC.
    #[derive(Debug, Clone, Copy, PartialEq, Eq, PartialOrd, Ord, Hash)]
    pub struct Offset(i32);

    impl Offset {
        /// The offset of this many seconds, within 25:59:59 of UTC.
        pub fn from_seconds(seconds: i32) -> Result<Self, Error> {
            if !(-93_599..=93_599).contains(&seconds) {
                return Err(Error("offset out of range"));
            }
            Ok(Self(seconds))
        }

        /// Seconds ahead of UTC.
        pub fn seconds(self) -> i32 {
            self.0
        }

        /// The instant at which clocks with this offset show `datetime`.
        pub fn to_timestamp(self, datetime: DateTime) -> Result<Timestamp, Error> {
            Timestamp::from_nanosecond(self.instant_nanos(datetime))
        }

        fn instant_nanos(self, datetime: DateTime) -> i128 {
            datetime.local_nanos() - i128::from(self.0) * NANOS
        }
    }

    /// What a local reading says about its offset.
    #[derive(Debug, Clone, Copy, PartialEq, Eq)]
    pub enum AmbiguousOffset {
        /// One instant has this reading.
        Unambiguous {
            /// The offset at that instant.
            offset: Offset,
        },
        /// No instant has this reading.
        Gap {
            /// The offset before the transition.
            before: Offset,
            /// The offset after the transition.
            after: Offset,
        },
        /// Two instants have this reading.
        Fold {
            /// The offset at the earlier instant.
            before: Offset,
            /// The offset at the later instant.
            after: Offset,
        },
    }

    /// A local reading and what its zone says about it.
    #[derive(Debug, Clone, Copy, PartialEq, Eq)]
    pub struct AmbiguousTimestamp {
        offset: AmbiguousOffset,
    }

    impl AmbiguousTimestamp {
        /// What the zone says about the offset.
        pub fn offset(&self) -> AmbiguousOffset {
            self.offset
        }
    }

    /// A zone: an offset to begin with, and the instants at which it changes.
    #[derive(Debug, Clone, PartialEq, Eq)]
    pub struct TimeZone {
        first: Offset,
        /// `None` is no transitions: `UTC` must be a constant.
        transitions: Option<Arc<[(i64, Offset)]>>,
    }

    static NAMED: Mutex<BTreeMap<String, TimeZone>> = Mutex::new(BTreeMap::new());

    impl TimeZone {
        /// UTC.
        pub const UTC: Self = Self {
            first: Offset(0),
            transitions: None,
        };

        /// Ours, not jiff's: a zone from its first offset and its transitions, each a
        /// second since 1970 and the offset in seconds from there on.
        ///
        /// Panics when the seconds do not strictly increase or an offset is more than
        /// 25:59:59 from UTC.
        pub fn from_transitions(first_offset_seconds: i32, transitions: &[(i64, i32)]) -> Self {
            assert!(
                transitions.windows(2).all(|pair| pair[0].0 < pair[1].0),
                "transitions must strictly increase"
            );
            let offset = |seconds| Offset::from_seconds(seconds).expect("an offset");
            Self {
                first: offset(first_offset_seconds),
                transitions: (!transitions.is_empty())
                    .then(|| transitions.iter().map(|&(at, to)| (at, offset(to))).collect()),
            }
        }

        /// Ours, not jiff's: lets `get` find this zone by a name.
        pub fn register(name: &str, zone: &Self) {
            NAMED
                .lock()
                .unwrap_or_else(|held| held.into_inner())
                .insert(name.to_owned(), zone.clone());
        }

        /// UTC, or a zone that was registered. There is no database behind it.
        pub fn get(name: &str) -> Result<Self, Error> {
            let named = NAMED.lock().unwrap_or_else(|held| held.into_inner());
            match named.get(name) {
                Some(zone) => Ok(zone.clone()),
                None if name == "UTC" || name == "Etc/UTC" => Ok(Self::UTC),
                None => Err(Error("no such zone: the stand-in has no database")),
            }
        }

        fn transitions(&self) -> &[(i64, Offset)] {
            self.transitions.as_deref().unwrap_or(&[])
        }

        /// The offset at an instant: the last transition's at or before it, else the first.
        pub fn to_offset(&self, at: Timestamp) -> Offset {
            let passed = self
                .transitions()
                .partition_point(|&(second, _)| i128::from(second) * NANOS <= at.as_nanosecond());
            self.offset_after(passed)
        }

        /// The offset once this many transitions have passed.
        fn offset_after(&self, passed: usize) -> Offset {
            match passed {
                0 => self.first,
                _ => self.transitions()[passed - 1].1,
            }
        }

        /// What the zone's clocks show at an instant.
        pub fn to_datetime(&self, at: Timestamp) -> DateTime {
            DateTime::from_local_nanos(
                at.as_nanosecond() + i128::from(self.to_offset(at).seconds()) * NANOS,
            )
        }

        /// Which offset, or which two, a local reading may have.
        ///
        /// Every stretch between transitions is tried: the reading has an instant there
        /// if the reading less the stretch's offset lies in the stretch. One is clear,
        /// two are a fold, none is a gap at the transition that jumps over the reading.
        /// Transitions closer together than their shifts can give three instants or
        /// more, which RFC 9636 readings do not name: the fold is then of the first and
        /// the last.
        pub fn to_ambiguous_timestamp(&self, datetime: DateTime) -> AmbiguousTimestamp {
            let transitions = self.transitions();
            let start = |at: usize| i128::from(transitions[at].0) * NANOS;
            // `instant_nanos` differs from the reading by at most one offset: stretches
            // farther off than two days hold no instant of this reading.
            let near = 172_800 * NANOS;
            let local = datetime.local_nanos();
            let low = transitions.partition_point(|&(s, _)| i128::from(s) * NANOS < local - near);
            let high = transitions.partition_point(|&(s, _)| i128::from(s) * NANOS <= local + near);

            let mut found: Option<(Offset, Offset, bool)> = None;
            for passed in low..=high {
                let offset = self.offset_after(passed);
                let instant = offset.instant_nanos(datetime);
                let begun = passed == 0 || start(passed - 1) <= instant;
                let over = passed < transitions.len() && start(passed) <= instant;
                if begun && !over {
                    found = Some(match found {
                        None => (offset, offset, false),
                        Some((first, _, _)) => (first, offset, true),
                    });
                }
            }

            let offset = match found {
                Some((offset, _, false)) => AmbiguousOffset::Unambiguous { offset },
                Some((before, after, true)) => AmbiguousOffset::Fold { before, after },
                None => (low..high)
                    .map(|at| (at, self.offset_after(at), self.offset_after(at + 1)))
                    .find(|&(at, before, after)| {
                        before.instant_nanos(datetime) >= start(at)
                            && after.instant_nanos(datetime) < start(at)
                    })
                    .map(|(_, before, after)| AmbiguousOffset::Gap { before, after })
                    .expect("a reading without an instant is jumped over by a transition"),
            };
            AmbiguousTimestamp { offset }
        }
    }
}

#[cfg(test)]
mod tests {
    use super::civil::{Date, DateTime, Weekday, date, time};
    use super::tz::{AmbiguousOffset, Offset, TimeZone};
    use super::*;

    #[test]
    fn day_numbers() {
        assert_eq!(date(1970, 1, 1).day_number(), 0);
        assert_eq!(date(2000, 3, 1).day_number(), 11_017);
        assert_eq!(date(-9999, 1, 1), Date::MIN);
        assert_eq!(date(9999, 12, 31), Date::MAX);
        assert_eq!(date(2026, 1, 5).weekday(), Weekday::Monday);
        assert!(Date::MAX.tomorrow().is_err() && Date::MIN.yesterday().is_err());
        assert!(Date::new(2100, 2, 29).is_err() && Date::new(2000, 2, 29).is_ok());
        // Every day of the range comes back from its parts, one after the other.
        let mut day = Date::MIN;
        loop {
            assert_eq!(date(day.year(), day.month(), day.day()), day);
            match day.tomorrow() {
                Ok(next) => day = next,
                Err(_) => break,
            }
        }
    }

    #[test]
    fn shown() {
        let at = |n| Timestamp::from_nanosecond(n).unwrap().to_string();
        assert_eq!(at(1_767_600_000 * NANOS), "2026-01-05T08:00:00Z");
        assert_eq!(at(-1), "1969-12-31T23:59:59.999999999Z");
        assert_eq!(Timestamp::MIN.to_string(), "-009999-01-02T01:59:59Z");
        assert_eq!(Timestamp::MAX.to_string(), "9999-12-30T22:00:00.999999999Z");
        assert!(Timestamp::from_nanosecond(Timestamp::MAX.as_nanosecond() + 1).is_err());
        assert!("2026-01-05T08:00".parse::<DateTime>().is_ok());
        assert!("2026-02-29T08:00".parse::<DateTime>().is_err());
    }

    #[test]
    fn readings() {
        // London, 2026: forward on 29 March at 01:00Z, back on 25 October at 01:00Z.
        let zone = TimeZone::from_transitions(0, &[(1_774_746_000, 3600), (1_792_890_000, 0)]);
        let (utc, bst) = (Offset::from_seconds(0).unwrap(), Offset::from_seconds(3600).unwrap());
        let read = |d: Date, h, m, s, n| {
            zone.to_ambiguous_timestamp(d.to_datetime(time(h, m, s, n))).offset()
        };
        let (march, october) = (date(2026, 3, 29), date(2026, 10, 25));
        let gap = AmbiguousOffset::Gap { before: utc, after: bst };
        let fold = AmbiguousOffset::Fold { before: bst, after: utc };
        let clear = |offset| AmbiguousOffset::Unambiguous { offset };
        assert_eq!(read(march, 0, 59, 59, 999_999_999), clear(utc));
        assert_eq!(read(march, 1, 0, 0, 0), gap);
        assert_eq!(read(march, 1, 59, 59, 999_999_999), gap);
        assert_eq!(read(march, 2, 0, 0, 0), clear(bst));
        assert_eq!(read(october, 0, 59, 59, 999_999_999), clear(bst));
        assert_eq!(read(october, 1, 0, 0, 0), fold);
        assert_eq!(read(october, 1, 59, 59, 999_999_999), fold);
        assert_eq!(read(october, 2, 0, 0, 0), clear(utc));
        let at = |s: i64| Timestamp::from_nanosecond(i128::from(s) * NANOS).unwrap();
        assert_eq!(zone.to_offset(at(1_774_745_999)), utc);
        assert_eq!(zone.to_offset(at(1_774_746_000)), bst);
        assert_eq!(TimeZone::UTC, TimeZone::from_transitions(0, &[]));
    }
}
