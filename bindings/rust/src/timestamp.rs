use core::fmt;
#[cfg(feature = "std")]
use std::time::{Duration, SystemTime, UNIX_EPOCH};

/// A time: milliseconds since the start of 1970, UTC, without leap seconds.
///
/// `Display` and `Debug` print it as a date, with milliseconds where there are any.
///
/// ```
/// use afsungar::Timestamp;
///
/// assert_eq!(Timestamp(1_763_164_800_000).to_string(), "2025-11-15T00:00:00Z");
/// assert_eq!(Timestamp(-1).to_string(), "1969-12-31T23:59:59.999Z");
/// ```
///
/// A [`SystemTime`](std::time::SystemTime) is turned into one, rounded down to the millisecond, and back:
///
#[cfg_attr(feature = "std", doc = "```")]
#[cfg_attr(not(feature = "std"), doc = "```ignore")]
/// use std::time::SystemTime;
///
/// use afsungar::Timestamp;
///
/// let now = Timestamp::try_from(SystemTime::now())?;
/// let then = SystemTime::try_from(now)?;
/// assert_eq!(Timestamp::try_from(then), Ok(now));
/// # Ok::<(), afsungar::TimeOutside>(())
/// ```
#[derive(Clone, Copy, Default, PartialEq, Eq, PartialOrd, Ord, Hash)]
pub struct Timestamp(pub i64);

const DAY: i64 = 24 * 60 * 60 * 1000;

impl From<i64> for Timestamp {
    fn from(milliseconds: i64) -> Self {
        Timestamp(milliseconds)
    }
}

impl From<Timestamp> for i64 {
    fn from(time: Timestamp) -> Self {
        time.0
    }
}

impl fmt::Display for Timestamp {
    fn fmt(&self, f: &mut fmt::Formatter<'_>) -> fmt::Result {
        let (year, month, day) = date(self.0.div_euclid(DAY));
        let of_day = self.0.rem_euclid(DAY);
        let (seconds, milliseconds) = (of_day / 1000, of_day % 1000);
        match year {
            0..=9999 => write!(f, "{year:04}")?,
            _ => write!(f, "{year:+}")?,
        }
        write!(f, "-{month:02}-{day:02}T{:02}:{:02}:{:02}", seconds / 3600, seconds / 60 % 60, seconds % 60)?;
        match milliseconds {
            0 => f.write_str("Z"),
            _ => write!(f, ".{milliseconds:03}Z"),
        }
    }
}

impl fmt::Debug for Timestamp {
    fn fmt(&self, f: &mut fmt::Formatter<'_>) -> fmt::Result {
        fmt::Display::fmt(self, f)
    }
}

/// Year, month and day of a day counted from the start of 1970, by the Gregorian calendar.
///
/// Years are counted from March on, so that the day which comes only in some years is the last. 400 of them have 146,097 days.
const fn date(day: i64) -> (i64, i64, i64) {
    const DAYS_TO_1970: i64 = 719_468; // from the first of March of the year 0
    const ERA: i64 = 146_097;
    let day = day + DAYS_TO_1970;
    let (era, of_era) = (day.div_euclid(ERA), day.rem_euclid(ERA));
    let year = (of_era - of_era / 1460 + of_era / 36_524 - of_era / 146_096) / 365;
    let of_year = of_era - (365 * year + year / 4 - year / 100);
    let month = (5 * of_year + 2) / 153; // from March
    let of_month = of_year - (153 * month + 2) / 5 + 1;
    let after_december = month >= 10;
    let month = if after_december { month - 9 } else { month + 3 };
    (400 * era + year + after_december as i64, month, of_month)
}

/// Rounded down to the millisecond.
#[cfg(feature = "std")]
impl TryFrom<SystemTime> for Timestamp {
    type Error = TimeOutside;

    fn try_from(time: SystemTime) -> Result<Self, TimeOutside> {
        let milliseconds = match time.duration_since(UNIX_EPOCH) {
            Ok(since) => i64::try_from(since.as_millis()).ok(),
            Err(before) => {
                let nanoseconds = before.duration().as_nanos();
                i64::try_from(nanoseconds.div_ceil(1_000_000)).ok().map(|before| -before)
            }
        };
        milliseconds.map(Timestamp).ok_or(TimeOutside)
    }
}

#[cfg(feature = "std")]
impl TryFrom<Timestamp> for SystemTime {
    type Error = TimeOutside;

    fn try_from(time: Timestamp) -> Result<Self, TimeOutside> {
        let distance = Duration::from_millis(time.0.unsigned_abs());
        let found = if time.0 < 0 { UNIX_EPOCH.checked_sub(distance) } else { UNIX_EPOCH.checked_add(distance) };
        found.ok_or(TimeOutside)
    }
}

/// A time is too far from 1970 to be turned into the other type.
#[derive(Clone, Copy, Debug, PartialEq, Eq, Hash)]
pub struct TimeOutside;

impl fmt::Display for TimeOutside {
    fn fmt(&self, f: &mut fmt::Formatter<'_>) -> fmt::Result {
        f.write_str("the time is too far from 1970")
    }
}

impl core::error::Error for TimeOutside {}
