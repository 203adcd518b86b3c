use std::ops::Range;

use jiff::civil::DateTime;
use jiff::Timestamp;

use crate::ffi::{self, MARKED_PERIOD_SIZE, PERIOD_SIZE};
use crate::{numbers, schedule, zones, Error};

/// What the changes of a zone's clock did to a local time.
///
/// Where ends of work, breaks or holidays that are merged lie at one instant, the
/// greatest of their marks is kept.
///
/// # Examples
///
/// ```
/// use hirgwamo::Mark;
///
/// assert_eq!(Mark::Skipped.max(Mark::Repeated), Mark::Skipped);
/// ```
#[derive(Clone, Copy, Debug, PartialEq, Eq, PartialOrd, Ord, Hash)]
pub enum Mark {
    /// One instant reads so. An end of a period that is not a rule's own has this
    /// mark too: one that was moved to the instant given or to the search limit.
    Plain,
    /// More than one instant reads so, since the clock was set back. The earliest is
    /// given.
    Repeated,
    /// No instant reads so, since the clock was set forward over it. The time moves on
    /// by the gap.
    Skipped,
    /// The instant would lie beyond the range of [`Timestamp`]. Its first or its last
    /// instant is given.
    Beyond,
}

/// A working period, and the marks of both its ends: what
/// [`Schedule::next_period_marked`](crate::Schedule::next_period_marked) gives.
#[derive(Clone, Debug, PartialEq, Eq, Hash)]
pub struct MarkedPeriod {
    /// The period, as the call without marks gives it.
    pub span: Range<Timestamp>,
    /// The mark of its start.
    pub start: Mark,
    /// The mark of its end.
    pub end: Mark,
}

impl MarkedPeriod {
    pub(crate) fn of_numbers(told: [i64; MARKED_PERIOD_SIZE]) -> Self {
        let (span, marks) = told.split_at(PERIOD_SIZE);
        MarkedPeriod { span: numbers::period(span), start: numbers::mark(marks[0]), end: numbers::mark(marks[1]) }
    }
}

/// The instant of a local time, and the local time's mark: what [`resolve_marked`]
/// gives.
#[derive(Clone, Copy, Debug, PartialEq, Eq, Hash)]
pub struct MarkedInstant {
    /// The instant.
    pub instant: Timestamp,
    /// The mark of the local time.
    pub mark: Mark,
}

/// The instant of a local time in a zone, and whether the local time was skipped or
/// comes twice. Workclock has no such call.
///
/// Of a time that comes twice it is the earlier instant; one that is skipped moves on
/// by the gap. The zone is looked for as those of rules are, at each call.
///
/// # Errors
///
/// [`Error::UnknownZone`] if there is no zone of this name; [`Error::UnusableZone`] if
/// its file cannot be used.
///
/// # Examples
///
/// ```
/// use hirgwamo::{resolve_marked, Mark};
/// use jiff::civil::date;
///
/// let skipped = resolve_marked("Europe/Berlin", date(2026, 3, 29).at(2, 30, 0, 0))?;
/// assert_eq!(skipped.instant.to_string(), "2026-03-29T01:30:00Z"); // 03:30 in Berlin
/// assert_eq!(skipped.mark, Mark::Skipped);
/// let twice = resolve_marked("Europe/Berlin", date(2026, 10, 25).at(2, 30, 0, 0))?;
/// assert_eq!(twice.instant.to_string(), "2026-10-25T00:30:00Z");
/// assert_eq!(twice.mark, Mark::Repeated);
/// # Ok::<(), hirgwamo::Error>(())
/// ```
pub fn resolve_marked(zone: &str, local: DateTime) -> Result<MarkedInstant, Error> {
    let file = zones::file(zone).ok_or_else(|| Error::UnknownZone { name: zone.into() })?;
    let told = ffi::resolve_marked(&file, numbers::of_local(local));
    let [second, nanosecond, mark] = told.map_err(|refusal| schedule::zone_error(refusal, zone))?;
    Ok(MarkedInstant { instant: numbers::instant(&[second, nanosecond]), mark: numbers::mark(mark) })
}
