use std::fmt;

/// Why a schedule was not built, or a search in it has no result.
///
/// The first three are those of workclock, with its texts. The last two tell what
/// only this crate has: limits on the number of rules, and an answer of its own for
/// a zone file that is there but cannot be used.
///
/// # Examples
///
/// ```
/// use hirgwamo::{Error, Schedule};
///
/// let refused = Schedule::builder().time_zone("Atlantis/Centre").build();
/// let error = refused.unwrap_err();
/// assert_eq!(error, Error::UnknownZone { name: "Atlantis/Centre".into() });
/// assert_eq!(error.to_string(), "unknown time zone `Atlantis/Centre`");
/// ```
#[derive(Clone, Debug, PartialEq, Eq, Hash)]
#[non_exhaustive]
pub enum Error {
    /// There is no working time.
    ///
    /// From [`build`](crate::ScheduleBuilder::build): the work days without the
    /// breaks have no time in the 14 days from 2001-01-01. From a search: there is
    /// none within 366 days, and seven more for each holiday date.
    NoWorkingTime,
    /// The search met the first or the last instant of [`jiff::Timestamp`] before
    /// it had a result, or had to turn round a duration of -2^63 seconds, which has
    /// no opposite.
    OutOfRange,
    /// There is no zone of this name.
    UnknownZone {
        /// The name, as it was given to the builder or to a rule.
        name: String,
    },
    /// The rules pass a limit: 16 [`WorkDay`](crate::WorkDay), 16
    /// [`Break`](crate::Break) and 8 [`Holidays`](crate::Holidays) rules, and 512
    /// dates in all of these together.
    TooManyRules,
    /// There is a zone file of this name, but it is not one that the clock takes:
    /// it is damaged, or it counts leap seconds, say.
    UnusableZone {
        /// The name, as it was given to the builder or to a rule.
        name: String,
    },
}

impl fmt::Display for Error {
    fn fmt(&self, f: &mut fmt::Formatter<'_>) -> fmt::Result {
        match self {
            Error::NoWorkingTime => f.write_str("no working time found"),
            Error::OutOfRange => {
                f.write_str("result is outside the supported range -009999-01-02T01:59:59Z to 9999-12-30T22:00:00Z")
            }
            Error::UnknownZone { name } => write!(f, "unknown time zone `{name}`"),
            Error::TooManyRules => f.write_str(
                "too many rules: at most 16 work days, 16 breaks and 8 lists of holidays with 512 dates in all",
            ),
            Error::UnusableZone { name } => write!(f, "the zone file of time zone `{name}` is not usable"),
        }
    }
}

impl std::error::Error for Error {}
