use std::collections::BTreeSet;

use jiff::civil::{Date, Time};

use crate::book::{Record, BREAK, WORK};
use crate::Weekdays;

/// From one time of day to another on some days of the week, in a zone.
#[derive(Clone, Debug, PartialEq, Eq, Hash)]
struct Hours {
    start: Time,
    end: Time,
    days: Weekdays,
    zone: Option<String>,
}

impl Hours {
    fn new(start: Time, end: Time, days: Weekdays) -> Self {
        let zone = None;
        Hours { start, end, days, zone }
    }

    fn in_zone(self, name: String) -> Self {
        let zone = Some(name);
        Hours { zone, ..self }
    }

    fn record(&self, kind: u8) -> Record<'_> {
        Record::hours(kind, self.zone.as_deref(), self.days, [self.start, self.end])
    }
}

/// A rule that gives working time: from a start to an end on some days of the week.
///
/// Both are times on the clocks of the rule's zone. A day is one on which the shift
/// starts: with an end at or before the start the shift ends on the date after it,
/// and equal times are a shift of 24 hours. A time that the clocks jump over moves on
/// by the gap, and of a time that they show twice the first counts.
///
/// # Examples
///
/// A night shift in Tokyo, which ends at 05:00 on the next date:
///
/// ```
/// use hirgwamo::{Weekdays, WorkDay};
/// use jiff::civil::time;
///
/// let night = WorkDay::new(time(21, 0, 0, 0), time(5, 0, 0, 0), Weekdays::ALL).time_zone("Asia/Tokyo");
/// # let _ = night;
/// ```
#[derive(Clone, Debug, PartialEq, Eq, Hash)]
pub struct WorkDay(Hours);

impl WorkDay {
    /// Makes the rule, in the schedule's zone.
    #[must_use]
    pub fn new(start: Time, end: Time, days: Weekdays) -> Self {
        WorkDay(Hours::new(start, end, days))
    }

    /// Gives the rule a zone of its own.
    #[must_use]
    pub fn time_zone(self, name: impl Into<String>) -> Self {
        WorkDay(self.0.in_zone(name.into()))
    }
}

/// A rule that takes time away on some days of the week: lunch, say.
///
/// Its times and days are those of a [`WorkDay`]. What lies outside all work days
/// has no effect.
///
/// # Examples
///
/// ```
/// use hirgwamo::{Break, Weekdays};
/// use jiff::civil::time;
///
/// let tea = Break::new(time(16, 0, 0, 0), time(16, 15, 0, 0), Weekdays::MON_TO_FRI);
/// assert_eq!(tea.clone(), tea);
/// assert_ne!(tea.clone(), tea.time_zone("Europe/London"));
/// ```
#[derive(Clone, Debug, PartialEq, Eq, Hash)]
pub struct Break(Hours);

impl Break {
    /// Makes the rule, in the schedule's zone.
    #[must_use]
    pub fn new(start: Time, end: Time, days: Weekdays) -> Self {
        Break(Hours::new(start, end, days))
    }

    /// Gives the rule a zone of its own.
    #[must_use]
    pub fn time_zone(self, name: impl Into<String>) -> Self {
        Break(self.0.in_zone(name.into()))
    }
}

/// A rule that takes whole dates away.
///
/// Each date takes the time from its 00:00 to the next date's 00:00 in the rule's
/// zone, so a shift over midnight loses the part on the date and keeps the other.
///
/// # Examples
///
/// A date that is told twice counts once:
///
/// ```
/// use hirgwamo::Holidays;
/// use jiff::civil::date;
///
/// let (labour, unity) = (date(2026, 5, 1), date(2026, 10, 3));
/// assert_eq!(Holidays::new([unity, labour, unity]), Holidays::new([labour, unity]));
/// ```
#[derive(Clone, Debug, PartialEq, Eq, Hash)]
pub struct Holidays {
    dates: BTreeSet<Date>,
    zone: Option<String>,
}

impl Holidays {
    /// Makes the rule, in the schedule's zone.
    #[must_use]
    pub fn new(dates: impl IntoIterator<Item = Date>) -> Self {
        let dates = dates.into_iter().collect();
        let zone = None;
        Holidays { dates, zone }
    }

    /// Gives the rule a zone of its own.
    #[must_use]
    pub fn time_zone(self, name: impl Into<String>) -> Self {
        let zone = Some(name.into());
        Holidays { zone, ..self }
    }
}

/// Any of the three kinds of rules; each of them converts into it.
///
/// # Examples
///
/// ```
/// use hirgwamo::{Break, Rule, Schedule, Weekdays, WorkDay};
/// use jiff::civil::time;
///
/// let days = Weekdays::MON_TO_FRI;
/// let rules = [
///     Rule::from(WorkDay::new(time(7, 0, 0, 0), time(15, 30, 0, 0), days)),
///     Rule::from(Break::new(time(11, 0, 0, 0), time(11, 30, 0, 0), days)),
/// ];
/// let mut builder = Schedule::builder();
/// for rule in rules {
///     builder = builder.rule(rule);
/// }
/// assert!(builder.build().is_ok());
/// ```
#[derive(Clone, Debug, PartialEq, Eq, Hash)]
#[non_exhaustive]
pub enum Rule {
    /// Time that is worked.
    WorkDay(WorkDay),
    /// Time of the week that is not.
    Break(Break),
    /// Dates that are not.
    Holidays(Holidays),
}

impl Rule {
    /// The rule's record in a book; `None` where it has more dates than a record
    /// can count.
    pub(crate) fn record(&self) -> Option<Record<'_>> {
        match self {
            Rule::WorkDay(WorkDay(hours)) => Some(hours.record(WORK)),
            Rule::Break(Break(hours)) => Some(hours.record(BREAK)),
            Rule::Holidays(Holidays { dates, zone }) => Record::holidays(zone.as_deref(), dates.iter().copied()),
        }
    }
}

impl From<WorkDay> for Rule {
    fn from(rule: WorkDay) -> Self {
        Rule::WorkDay(rule)
    }
}

impl From<Break> for Rule {
    fn from(rule: Break) -> Self {
        Rule::Break(rule)
    }
}

impl From<Holidays> for Rule {
    fn from(rule: Holidays) -> Self {
        Rule::Holidays(rule)
    }
}
