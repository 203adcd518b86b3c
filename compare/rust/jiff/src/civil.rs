//! Dates of the proleptic Gregorian calendar and times of day. A date is kept
//! as its day number from 1970-01-01.

use crate::Error;

pub(crate) const DAY: i64 = 86_400;

/// Day number of -9999-01-01.
const FIRST: i32 = -4_371_587;
/// Day number of 9999-12-31.
const LAST: i32 = 2_932_896;

#[derive(Clone, Copy, Debug, PartialEq, Eq, PartialOrd, Ord, Hash)]
pub struct Date(i32);

impl Date {
    pub fn new(year: i16, month: i8, day: i8) -> Result<Date, Error> {
        let good = (-9999..=9999).contains(&year)
            && (1..=12).contains(&month)
            && (1..=month_days(year.into(), month.into())).contains(&day.into());
        let number = day_number(year.into(), month.into(), day.into());
        good.then_some(Date(number as i32)).ok_or(Error)
    }

    /// For day numbers of existing dates.
    pub(crate) fn of_number(number: i64) -> Date {
        debug_assert!((i64::from(FIRST)..=i64::from(LAST)).contains(&number));
        Date(number as i32)
    }

    pub(crate) fn number(self) -> i64 {
        self.0.into()
    }

    pub fn year(self) -> i16 {
        year_of(self.0.into()) as i16
    }

    pub fn weekday(self) -> Weekday {
        WEEK[(self.0 + 3).rem_euclid(7) as usize]
    }

    pub fn tomorrow(self) -> Result<Date, Error> {
        (self.0 < LAST).then_some(Date(self.0 + 1)).ok_or(Error)
    }

    pub fn yesterday(self) -> Result<Date, Error> {
        (self.0 > FIRST).then_some(Date(self.0 - 1)).ok_or(Error)
    }

    pub fn to_datetime(self, time: Time) -> DateTime {
        DateTime { date: self, time }
    }
}

/// A time of day: second 0 to 86,399 and nanoseconds.
#[derive(Clone, Copy, Debug, PartialEq, Eq, PartialOrd, Ord, Hash)]
pub struct Time {
    pub(crate) second: i32,
    pub(crate) nano: i32,
}

impl Time {
    pub fn midnight() -> Time {
        Time { second: 0, nano: 0 }
    }

    pub fn new(hour: i8, minute: i8, second: i8, nano: i32) -> Result<Time, Error> {
        let good = (0..24).contains(&hour)
            && (0..60).contains(&minute)
            && (0..60).contains(&second)
            && (0..1_000_000_000).contains(&nano);
        let second = 3600 * i32::from(hour) + 60 * i32::from(minute) + i32::from(second);
        good.then_some(Time { second, nano }).ok_or(Error)
    }
}

#[derive(Clone, Copy, Debug, PartialEq, Eq)]
pub struct DateTime {
    pub(crate) date: Date,
    pub(crate) time: Time,
}

impl DateTime {
    pub fn date(self) -> Date {
        self.date
    }
}

#[derive(Clone, Copy, Debug, PartialEq, Eq, Hash)]
pub enum Weekday {
    Monday,
    Tuesday,
    Wednesday,
    Thursday,
    Friday,
    Saturday,
    Sunday,
}

const WEEK: [Weekday; 7] = [
    Weekday::Monday,
    Weekday::Tuesday,
    Weekday::Wednesday,
    Weekday::Thursday,
    Weekday::Friday,
    Weekday::Saturday,
    Weekday::Sunday,
];

impl Weekday {
    pub fn to_monday_zero_offset(self) -> i8 {
        self as i8
    }
}

pub(crate) fn is_leap(year: i64) -> bool {
    year % 4 == 0 && (year % 100 != 0 || year % 400 == 0)
}

pub(crate) fn month_days(year: i64, month: i64) -> i64 {
    match month {
        2 if is_leap(year) => 29,
        2 => 28,
        4 | 6 | 9 | 11 => 30,
        _ => 31,
    }
}

/// Days since 1970-01-01, counted in years that begin in March.
pub(crate) fn day_number(year: i64, month: i64, day: i64) -> i64 {
    let (year, month) = if month > 2 { (year, month - 3) } else { (year - 1, month + 9) };
    let era = year.div_euclid(400);
    let in_era = year.rem_euclid(400);
    let in_year = (153 * month + 2) / 5 + day - 1;
    era * 146_097 + in_era * 365 + in_era / 4 - in_era / 100 + in_year - 719_468
}

/// The year that a day number lies in.
pub(crate) fn year_of(number: i64) -> i64 {
    let shifted = number + 719_468;
    let era = shifted.div_euclid(146_097);
    let day = shifted.rem_euclid(146_097);
    let year = (day - day / 1_460 + day / 36_524 - day / 146_096) / 365;
    let in_year = day - (365 * year + year / 4 - year / 100);
    // Days from 1 March on: January starts at day 306.
    era * 400 + year + i64::from(in_year >= 306)
}
