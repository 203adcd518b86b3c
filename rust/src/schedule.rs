use std::fmt;
use std::ops::Range;
use std::sync::Arc;

use jiff::{SignedDuration, Timestamp};

use crate::batch::{self, Answer, Query};
use crate::book::{self, Record};
use crate::ffi::{self, Lent, Refusal, STRETCH_SIZE};
use crate::numbers::{duration, instant, of_duration, of_instant, period};
use crate::{zones, Error, MarkedPeriod, Rule};

const BOOK_LIMIT: u32 = 2;
const UNKNOWN_ZONE: u32 = 4;
const ZONE_UNUSABLE: u32 = 5;
const NO_WORKING_TIME: u32 = 6;
const OUT_OF_RANGE: u32 = 7;
const INSTANT_OUT_OF_RANGE: u32 = 8;
const TOO_FEW_NUMBERS: u32 = 10;

/// How many stretches a listing has room for at first.
const FIRST_ROOM: usize = 64;

/// Working time as rules define it, ready to be asked.
///
/// It is the time of all [`WorkDay`](crate::WorkDay) rules together, without that
/// of any [`Break`](crate::Break) and of any [`Holidays`](crate::Holidays) date; in
/// which order the rules were given makes no difference. A schedule keeps the rules
/// as the bytes of a rule book, and a copy of the zone files that they name. A clone
/// shares both, and any number of threads may ask one schedule at once.
///
/// # Examples
///
/// ```
/// use hirgwamo::{Break, Schedule, Weekdays, WorkDay};
/// use jiff::civil::time;
/// use jiff::{SignedDuration, Timestamp};
///
/// let days = Weekdays::MON_TO_FRI;
/// let workshop = Schedule::builder()
///     .time_zone("Europe/Berlin")
///     .rule(WorkDay::new(time(7, 0, 0, 0), time(16, 0, 0, 0), days))
///     .rule(Break::new(time(12, 0, 0, 0), time(13, 0, 0, 0), days))
///     .build()?;
/// let week: [Timestamp; 2] = ["2026-03-02T00:00:00Z".parse()?, "2026-03-09T00:00:00Z".parse()?];
/// assert_eq!(workshop.between(week[0], week[1]), SignedDuration::from_hours(5 * 8));
/// # Ok::<(), Box<dyn std::error::Error>>(())
/// ```
#[derive(Clone)]
pub struct Schedule {
    book: Arc<[u8]>,
    pack: Arc<[u8]>,
}

impl Schedule {
    /// Starts a schedule: a builder without rules, in UTC.
    ///
    /// # Examples
    ///
    /// ```
    /// use hirgwamo::{Schedule, Weekdays, WorkDay};
    /// use jiff::civil::time;
    ///
    /// let early = WorkDay::new(time(6, 0, 0, 0), time(14, 0, 0, 0), Weekdays::ALL);
    /// let schedule = Schedule::builder().rule(early).build()?;
    /// # let _ = schedule;
    /// # Ok::<(), hirgwamo::Error>(())
    /// ```
    #[must_use]
    pub fn builder() -> ScheduleBuilder {
        ScheduleBuilder::default()
    }

    fn lent(&self) -> Lent<'_> {
        Lent { book: &self.book, pack: &self.pack }
    }

    /// The working time from one instant to another: negative where `b` is the
    /// earlier one.
    ///
    /// # Panics
    ///
    /// If an instant lies outside the range from [`Timestamp::MIN`] to
    /// [`Timestamp::MAX`], which jiff means to keep every instant in.
    ///
    /// # Examples
    ///
    /// ```
    /// use hirgwamo::{Schedule, Weekdays, WorkDay};
    /// use jiff::civil::time;
    /// use jiff::{SignedDuration, Timestamp};
    ///
    /// let shop = WorkDay::new(time(10, 0, 0, 0), time(18, 0, 0, 0), Weekdays::MON_TO_FRI);
    /// let schedule = Schedule::builder().rule(shop).build()?;
    /// let thursday: Timestamp = "2026-06-04T17:30:00Z".parse()?;
    /// let friday: Timestamp = "2026-06-05T10:15:00Z".parse()?;
    /// assert_eq!(schedule.between(thursday, friday), SignedDuration::from_mins(45));
    /// assert_eq!(schedule.between(friday, thursday), SignedDuration::from_mins(-45));
    /// # Ok::<(), Box<dyn std::error::Error>>(())
    /// ```
    #[must_use]
    pub fn between(&self, a: impl Into<Timestamp>, b: impl Into<Timestamp>) -> SignedDuration {
        let (a, b) = (a.into(), b.into());
        match ffi::between(self.lent(), of_instant(a), of_instant(b)) {
            Ok(numbers) => duration(&numbers),
            Err(refusal) => refused(refusal),
        }
    }

    /// The earliest instant by which so much working time has passed since `t`.
    ///
    /// Without any duration that is `t` itself. Where the last of the duration ends
    /// with a working period, it is the period's end and not the next one's start. A
    /// negative duration goes back, as [`sub`](Self::sub) does.
    ///
    /// # Errors
    ///
    /// [`Error::NoWorkingTime`] if the search meets a gap in the working time that is
    /// longer than 366 days and seven more for each holiday date;
    /// [`Error::OutOfRange`] if it meets the end of [`Timestamp`]'s range, or if the
    /// duration has -2^63 seconds, which cannot be turned round.
    ///
    /// # Examples
    ///
    /// ```
    /// use hirgwamo::{Schedule, Weekdays, WorkDay};
    /// use jiff::civil::time;
    /// use jiff::{SignedDuration, Timestamp};
    ///
    /// let desk = WorkDay::new(time(8, 0, 0, 0), time(18, 0, 0, 0), Weekdays::MON_TO_FRI);
    /// let schedule = Schedule::builder().rule(desk).build()?;
    /// let reported: Timestamp = "2026-02-06T16:00:00Z".parse()?;
    /// let deadline = schedule.add(reported, SignedDuration::from_hours(4))?;
    /// assert_eq!(deadline.to_string(), "2026-02-09T10:00:00Z");
    /// # Ok::<(), Box<dyn std::error::Error>>(())
    /// ```
    pub fn add(&self, t: impl Into<Timestamp>, d: SignedDuration) -> Result<Timestamp, Error> {
        let numbers = ffi::add(self.lent(), of_instant(t.into()), of_duration(d)).map_err(search_error)?;
        Ok(instant(&numbers))
    }

    /// The latest instant from which so much working time passes up to `t`.
    ///
    /// Without any duration that is `t` itself. Where the first of the duration
    /// begins with a working period, it is the period's start. A negative duration
    /// goes forward, as [`add`](Self::add) does.
    ///
    /// # Errors
    ///
    /// Those of [`add`](Self::add).
    ///
    /// # Examples
    ///
    /// ```
    /// use hirgwamo::{Schedule, Weekdays, WorkDay};
    /// use jiff::civil::time;
    /// use jiff::{SignedDuration, Timestamp};
    ///
    /// let desk = WorkDay::new(time(8, 0, 0, 0), time(18, 0, 0, 0), Weekdays::MON_TO_FRI);
    /// let schedule = Schedule::builder().rule(desk).build()?;
    /// let delivery: Timestamp = "2026-02-09T10:00:00Z".parse()?;
    /// let begin = schedule.sub(delivery, SignedDuration::from_hours(12))?;
    /// assert_eq!(begin.to_string(), "2026-02-06T08:00:00Z");
    /// # Ok::<(), Box<dyn std::error::Error>>(())
    /// ```
    pub fn sub(&self, t: impl Into<Timestamp>, d: SignedDuration) -> Result<Timestamp, Error> {
        let numbers = ffi::sub(self.lent(), of_instant(t.into()), of_duration(d)).map_err(search_error)?;
        Ok(instant(&numbers))
    }

    /// The working period that `t` lies in, or the next one behind it.
    ///
    /// A period is working time without a gap. Inside one the result starts at `t`.
    /// It is cut where it gets longer than 366 days and seven more for each holiday
    /// date.
    ///
    /// # Errors
    ///
    /// Those of [`add`](Self::add).
    ///
    /// # Examples
    ///
    /// ```
    /// use hirgwamo::{Schedule, Weekdays, WorkDay};
    /// use jiff::civil::time;
    /// use jiff::Timestamp;
    ///
    /// let desk = WorkDay::new(time(8, 0, 0, 0), time(18, 0, 0, 0), Weekdays::MON_TO_FRI);
    /// let schedule = Schedule::builder().rule(desk).build()?;
    /// let evening: Timestamp = "2026-02-03T20:00:00Z".parse()?;
    /// let period = schedule.next_period(evening)?;
    /// assert_eq!(period.start.to_string(), "2026-02-04T08:00:00Z");
    /// assert_eq!(period.end.to_string(), "2026-02-04T18:00:00Z");
    /// # Ok::<(), Box<dyn std::error::Error>>(())
    /// ```
    pub fn next_period(&self, t: impl Into<Timestamp>) -> Result<Range<Timestamp>, Error> {
        let numbers = ffi::next_period(self.lent(), of_instant(t.into())).map_err(search_error)?;
        Ok(period(&numbers))
    }

    /// The last working period that begins before `t`.
    ///
    /// Where `t` lies inside it, the result ends at `t`. It is cut as that of
    /// [`next_period`](Self::next_period) is.
    ///
    /// # Errors
    ///
    /// Those of [`add`](Self::add).
    ///
    /// # Examples
    ///
    /// ```
    /// use hirgwamo::{Schedule, Weekdays, WorkDay};
    /// use jiff::civil::time;
    /// use jiff::Timestamp;
    ///
    /// let desk = WorkDay::new(time(8, 0, 0, 0), time(18, 0, 0, 0), Weekdays::MON_TO_FRI);
    /// let schedule = Schedule::builder().rule(desk).build()?;
    /// let noon: Timestamp = "2026-02-03T12:00:00Z".parse()?;
    /// let period = schedule.previous_period(noon)?;
    /// assert_eq!(period.start.to_string(), "2026-02-03T08:00:00Z");
    /// assert_eq!(period.end, noon);
    /// # Ok::<(), Box<dyn std::error::Error>>(())
    /// ```
    pub fn previous_period(&self, t: impl Into<Timestamp>) -> Result<Range<Timestamp>, Error> {
        let numbers = ffi::previous_period(self.lent(), of_instant(t.into())).map_err(search_error)?;
        Ok(period(&numbers))
    }

    /// The period of [`next_period`](Self::next_period), and the marks of both its
    /// ends: whether a change of the clock skipped or repeated the local time at which
    /// work, a break or a holiday begins or ends there. Workclock has no such call.
    ///
    /// An end that was moved to `t` or to the search limit is [`Mark::Plain`](crate::Mark::Plain).
    ///
    /// # Errors
    ///
    /// Those of [`add`](Self::add).
    ///
    /// # Examples
    ///
    /// ```
    /// use hirgwamo::{Break, Mark, Schedule, Weekdays, WorkDay};
    /// use jiff::civil::{time, Weekday};
    /// use jiff::Timestamp;
    ///
    /// let midnight = time(0, 0, 0, 0);
    /// let sunday = Weekdays::from_iter([Weekday::Sunday]);
    /// let plant = Schedule::builder()
    ///     .time_zone("Europe/Berlin")
    ///     .rule(WorkDay::new(midnight, midnight, Weekdays::ALL))
    ///     .rule(Break::new(time(2, 30, 0, 0), time(4, 0, 0, 0), sunday))
    ///     .build()?;
    /// let saturday: Timestamp = "2026-03-28T12:00:00Z".parse()?;
    /// let period = plant.next_period_marked(saturday)?;
    /// assert_eq!(period.span, plant.next_period(saturday)?);
    /// assert_eq!(period.span.end.to_string(), "2026-03-29T01:30:00Z"); // 02:30 is skipped
    /// assert_eq!((period.start, period.end), (Mark::Plain, Mark::Skipped));
    /// # Ok::<(), Box<dyn std::error::Error>>(())
    /// ```
    pub fn next_period_marked(&self, t: impl Into<Timestamp>) -> Result<MarkedPeriod, Error> {
        let numbers = ffi::next_period_marked(self.lent(), of_instant(t.into())).map_err(search_error)?;
        Ok(MarkedPeriod::of_numbers(numbers))
    }

    /// The period of [`previous_period`](Self::previous_period), and the marks of both
    /// its ends, as [`next_period_marked`](Self::next_period_marked) tells them.
    ///
    /// # Errors
    ///
    /// Those of [`add`](Self::add).
    ///
    /// # Examples
    ///
    /// ```
    /// use hirgwamo::{Mark, Schedule, Weekdays, WorkDay};
    /// use jiff::civil::{time, Weekday};
    /// use jiff::Timestamp;
    ///
    /// let night = WorkDay::new(time(22, 0, 0, 0), time(2, 30, 0, 0), Weekdays::from_iter([Weekday::Saturday]));
    /// let schedule = Schedule::builder().time_zone("Europe/Berlin").rule(night).build()?;
    /// let sunday: Timestamp = "2026-10-25T12:00:00Z".parse()?;
    /// let period = schedule.previous_period_marked(sunday)?;
    /// assert_eq!(period.span.end.to_string(), "2026-10-25T00:30:00Z"); // the first 02:30 of two
    /// assert_eq!((period.start, period.end), (Mark::Plain, Mark::Repeated));
    /// # Ok::<(), Box<dyn std::error::Error>>(())
    /// ```
    pub fn previous_period_marked(&self, t: impl Into<Timestamp>) -> Result<MarkedPeriod, Error> {
        let numbers = ffi::previous_period_marked(self.lent(), of_instant(t.into())).map_err(search_error)?;
        Ok(MarkedPeriod::of_numbers(numbers))
    }

    /// All working periods from `a` to `b` in their order, cut at `a` and at `b`
    /// and nowhere else; none where `b` is not behind `a`. Workclock has no such
    /// call.
    ///
    /// # Panics
    ///
    /// As [`between`](Self::between) does.
    ///
    /// # Examples
    ///
    /// ```
    /// use hirgwamo::{Schedule, Weekdays, WorkDay};
    /// use jiff::civil::time;
    /// use jiff::Timestamp;
    ///
    /// let desk = WorkDay::new(time(8, 0, 0, 0), time(18, 0, 0, 0), Weekdays::MON_TO_FRI);
    /// let schedule = Schedule::builder().rule(desk).build()?;
    /// let tuesday: Timestamp = "2026-02-03T17:00:00Z".parse()?;
    /// let thursday: Timestamp = "2026-02-05T09:00:00Z".parse()?;
    /// let periods = schedule.list(tuesday, thursday);
    /// let hours = periods.iter().map(|period| period.end.duration_since(period.start).as_hours());
    /// assert_eq!(hours.collect::<Vec<_>>(), [1, 10, 1]);
    /// # Ok::<(), Box<dyn std::error::Error>>(())
    /// ```
    #[must_use]
    pub fn list(&self, a: impl Into<Timestamp>, b: impl Into<Timestamp>) -> Vec<Range<Timestamp>> {
        let (a, b) = (of_instant(a.into()), of_instant(b.into()));
        let mut stretches = vec![0; FIRST_ROOM * STRETCH_SIZE];
        loop {
            match ffi::list(self.lent(), a, b, &mut stretches) {
                Ok([count]) => {
                    let count = usize::try_from(count).expect("the proved code counts from 0 on");
                    return stretches.chunks_exact(STRETCH_SIZE).take(count).map(period).collect();
                }
                Err(refusal) if refusal.number == TOO_FEW_NUMBERS => stretches.resize(2 * stretches.len(), 0),
                Err(refusal) => refused(refusal),
            }
        }
    }

    /// The answers to many queries, in their order, by one call of the proved code,
    /// which reads the rules and the zones once for all of them. Each is what the
    /// query's own call gives. Workclock has no such call.
    ///
    /// [`Error::OutOfRange`] also stands where [`between`](Self::between) panics.
    ///
    /// # Examples
    ///
    /// ```
    /// use hirgwamo::{Answer, Query, Schedule, Weekdays, WorkDay};
    /// use jiff::civil::time;
    /// use jiff::{SignedDuration, Timestamp};
    ///
    /// let desk = WorkDay::new(time(8, 0, 0, 0), time(18, 0, 0, 0), Weekdays::MON_TO_FRI);
    /// let schedule = Schedule::builder().rule(desk).build()?;
    /// let monday: Timestamp = "2026-02-02T08:00:00Z".parse()?;
    /// let hours = [1, 5, 10].map(SignedDuration::from_hours);
    /// let answers = schedule.answers(&hours.map(|hours| Query::Add(monday, hours)));
    /// for (answer, hours) in answers.into_iter().zip(hours) {
    ///     assert_eq!(answer, Ok(Answer::Instant(monday + hours)));
    /// }
    /// # Ok::<(), Box<dyn std::error::Error>>(())
    /// ```
    #[must_use]
    pub fn answers(&self, queries: &[Query]) -> Vec<Result<Answer, Error>> {
        batch::answers(self.lent(), queries)
    }

    /// The bytes of the rule book that was made of the rules: what the functions of
    /// the C header take as `book`.
    ///
    /// # Examples
    ///
    /// ```
    /// use hirgwamo::{Schedule, Weekdays, WorkDay};
    /// use jiff::civil::time;
    ///
    /// let day = WorkDay::new(time(0, 0, 0, 0), time(0, 0, 0, 0), Weekdays::ALL);
    /// let schedule = Schedule::builder().time_zone("UTC").rule(day).build()?;
    /// assert_eq!(schedule.book()[..4], [0, 0, 0, 2]); // two records: the zone, and the rule
    /// assert_eq!(schedule.pack()[..4], [0, 0, 0, 1]); // one zone
    /// # Ok::<(), hirgwamo::Error>(())
    /// ```
    #[must_use]
    pub fn book(&self) -> &[u8] {
        &self.book
    }

    /// The bytes of the pack with the zone files that the book needs: what the
    /// functions of the C header take as `pack`. See [`book`](Self::book).
    #[must_use]
    pub fn pack(&self) -> &[u8] {
        &self.pack
    }
}

/// How many bytes the book and the pack have, not the bytes, which are thousands.
impl fmt::Debug for Schedule {
    fn fmt(&self, f: &mut fmt::Formatter<'_>) -> fmt::Result {
        f.debug_struct("Schedule")
            .field("book_len", &self.book.len())
            .field("pack_len", &self.pack.len())
            .finish_non_exhaustive()
    }
}

/// Collects the rules of a [`Schedule`].
///
/// # Examples
///
/// ```
/// use hirgwamo::{Holidays, Schedule, Weekdays, WorkDay};
/// use jiff::civil::{date, time};
///
/// let schedule = Schedule::builder()
///     .time_zone("Australia/Sydney")
///     .rule(WorkDay::new(time(8, 30, 0, 0), time(17, 0, 0, 0), Weekdays::MON_TO_FRI))
///     .rule(Holidays::new([date(2026, 1, 26), date(2026, 4, 25)]))
///     .build()?;
/// # let _ = schedule;
/// # Ok::<(), hirgwamo::Error>(())
/// ```
#[derive(Clone, Debug, Default)]
pub struct ScheduleBuilder {
    zone: Option<String>,
    rules: Vec<Rule>,
}

impl ScheduleBuilder {
    /// Sets the zone of all rules that have none of their own. Without it that is
    /// UTC.
    #[must_use]
    pub fn time_zone(mut self, name: impl Into<String>) -> Self {
        self.zone = Some(name.into());
        self
    }

    /// Adds a rule of any kind.
    #[must_use]
    pub fn rule(mut self, rule: impl Into<Rule>) -> Self {
        self.rules.push(rule.into());
        self
    }

    /// Makes the schedule: writes the rule book, reads the zone files, and lets the
    /// proved code say whether it takes them.
    ///
    /// # Errors
    ///
    /// In this order: [`Error::TooManyRules`]; [`Error::UnknownZone`] or
    /// [`Error::UnusableZone`], of the schedule's zone first and then of the rules as
    /// they were added; [`Error::NoWorkingTime`] where the work days without the
    /// breaks have no time in the 14 days from 2001-01-01.
    ///
    /// # Examples
    ///
    /// ```
    /// use hirgwamo::{Error, Schedule, Weekdays, WorkDay};
    /// use jiff::civil::time;
    ///
    /// let never = WorkDay::new(time(9, 0, 0, 0), time(10, 0, 0, 0), Weekdays::EMPTY);
    /// assert_eq!(Schedule::builder().rule(never).build().unwrap_err(), Error::NoWorkingTime);
    /// ```
    pub fn build(self) -> Result<Schedule, Error> {
        let records = self.records().ok_or(Error::TooManyRules)?;
        let book = book::join(records.iter().map(|record| &record.bytes[..])).ok_or(Error::TooManyRules)?;
        let pack = zones::pack(records.iter().filter_map(|record| record.zone)).ok_or(Error::TooManyRules)?;
        let lent = Lent { book: &book, pack: &pack };
        ffi::build(lent).map_err(|refusal| build_error(refusal, &records))?;
        Ok(Schedule { book: book.into(), pack: pack.into() })
    }

    /// The book's records: the default zone and the rules; `None` where one of them
    /// cannot be written.
    fn records(&self) -> Option<Vec<Record<'_>>> {
        let zone = self.zone.as_deref().map(Record::default_zone);
        let rules = self.rules.iter().map(Rule::record);
        zone.map(Some).into_iter().chain(rules).collect()
    }
}

/// The error that a refusal of a book stands for.
fn build_error(refusal: Refusal, records: &[Record<'_>]) -> Error {
    let zone = book::record_at(records, refusal.place).and_then(|place| records[place].zone);
    match (refusal.number, zone.map(String::from)) {
        (BOOK_LIMIT, _) => Error::TooManyRules,
        (UNKNOWN_ZONE, Some(name)) => Error::UnknownZone { name },
        (ZONE_UNUSABLE, Some(name)) => Error::UnusableZone { name },
        (NO_WORKING_TIME, _) => Error::NoWorkingTime,
        _ => refused(refusal),
    }
}

/// The error that a refusal of a call on a zone file stands for.
pub(crate) fn zone_error(refusal: Refusal, zone: &str) -> Error {
    match refusal.number {
        ZONE_UNUSABLE => Error::UnusableZone { name: zone.into() },
        _ => refused(refusal),
    }
}

/// The error that a refusal of a search stands for.
pub(crate) fn search_error(refusal: Refusal) -> Error {
    match refusal.number {
        NO_WORKING_TIME => Error::NoWorkingTime,
        OUT_OF_RANGE | INSTANT_OUT_OF_RANGE => Error::OutOfRange,
        _ => refused(refusal),
    }
}

/// A refusal that no book, pack and question of this crate can have, but for an
/// instant outside its range.
fn refused(refusal: Refusal) -> ! {
    let Refusal { number, place } = refusal;
    if number == INSTANT_OUT_OF_RANGE {
        panic!("hirgwamo: an instant lies outside the range of jiff::Timestamp");
    }
    panic!("hirgwamo: the proved code refuses what this crate wrote, with number {number} at place {place}: a defect of this crate");
}

#[cfg(test)]
mod tests {
    use super::*;

    fn refusal(number: u32) -> Refusal {
        Refusal { number, place: 0 }
    }

    #[test]
    fn refusals_of_a_search_are_errors() {
        assert_eq!(search_error(refusal(6)), Error::NoWorkingTime);
        assert_eq!(search_error(refusal(7)), Error::OutOfRange);
        assert_eq!(search_error(refusal(8)), Error::OutOfRange);
    }

    #[test]
    fn a_zone_file_is_not_usable() {
        assert_eq!(zone_error(refusal(5), "A/B"), Error::UnusableZone { name: "A/B".into() });
    }

    #[test]
    #[should_panic = "with number 1 at place 0"]
    fn other_refusals_stop() {
        search_error(refusal(1));
    }

    #[test]
    #[should_panic = "outside the range of jiff::Timestamp"]
    fn an_instant_outside_the_range_stops() {
        refused(refusal(8));
    }

    #[test]
    fn the_error_has_the_name_of_the_refused_record() {
        let records = [Record::default_zone("A/B"), Record::default_zone("c")];
        let (first, second) = (20, 20 + 5);
        let told = |number, place| build_error(Refusal { number, place }, &records);
        assert_eq!(told(4, first), Error::UnknownZone { name: "A/B".into() });
        assert_eq!(told(4, second), Error::UnknownZone { name: "c".into() });
        assert_eq!(told(5, second), Error::UnusableZone { name: "c".into() });
        assert_eq!(told(2, 0), Error::TooManyRules);
        assert_eq!(told(6, 0), Error::NoWorkingTime);
    }
}
