//! Rules as records of a book.

use jiff::civil::{Date, Time, Weekday};

use crate::ask::{Case, Refusal};

const WORK: u8 = 1;
const BREAK: u8 = 2;
const HOLIDAYS: u8 = 3;
const DAY: i64 = 86_400;
/// Monday 2026-01-05T00:00:00Z.
const MONDAY: i64 = 1_767_571_200;
/// A far instant, from which a period round the clock is cut to the search limit.
const FAR: &str = "next 4102444800 0";

/// A record: kind, the zone's name and what the kind says.
fn record(kind: u8, zone: &str, body: &[u8]) -> Vec<u8> {
    let length = u8::try_from(zone.len()).expect("a short name");
    [&[kind, length], zone.as_bytes(), body].concat()
}

/// The default zone's record.
pub(crate) fn default(zone: &str) -> Vec<u8> {
    record(0, zone, &[])
}

/// Whatever the original makes a rule of, the program takes: its record breaks
/// neither layout nor limit.
fn taken(record: &[u8]) {
    let refused = Case::new(&[record.to_vec()]).builds().err();
    let of_zone_or_work = |refusal: Refusal| [4, 5, 6].contains(&refusal.0);
    assert!(refused.is_none_or(of_zone_or_work), "{refused:?}");
}

#[derive(Clone, Copy, Debug, Default, PartialEq, Eq)]
pub struct Weekdays(u8);

impl Weekdays {
    pub const EMPTY: Self = Self(0);
    pub const MON_TO_FRI: Self = Self(0x1F);
    pub const ALL: Self = Self(0x7F);

    /// Work from midnight to midnight on these days.
    fn case(self) -> Case {
        Case::new(&[record(WORK, "", &hours(self, Time::midnight(), Time::midnight()))])
    }

    pub fn contains(self, day: Weekday) -> bool {
        let start = MONDAY + DAY * i64::from(day.to_monday_zero_offset());
        match self.case().ask(&format!("between {start} 0 {} 0", start + DAY)) {
            Ok(time) => time[0] == DAY,
            Err(refusal) => {
                assert_eq!(refusal, Refusal(6, 0));
                false
            }
        }
    }

    pub fn is_empty(self) -> bool {
        self.case().builds() == Err(Refusal(6, 0))
    }
}

impl FromIterator<Weekday> for Weekdays {
    fn from_iter<I: IntoIterator<Item = Weekday>>(days: I) -> Self {
        Self(days.into_iter().fold(0, |set, day| set | 1 << day.to_monday_zero_offset()))
    }
}

fn hours(days: Weekdays, start: Time, end: Time) -> Vec<u8> {
    let mut body = vec![days.0];
    for time in [start, end] {
        let second = 3600 * i32::from(time.hour()) + 60 * i32::from(time.minute()) + i32::from(time.second());
        body.extend([second, time.subsec_nanosecond()].map(i32::to_be_bytes).concat());
    }
    body
}

/// A rule: its kind, its zone and the rest of its record.
#[derive(Clone, Debug)]
pub struct Rule {
    kind: u8,
    zone: String,
    body: Vec<u8>,
}

impl Rule {
    fn new(kind: u8, zone: String, body: Vec<u8>) -> Rule {
        let rule = Rule { kind, zone, body };
        taken(&rule.record());
        rule
    }

    pub(crate) fn record(&self) -> Vec<u8> {
        record(self.kind, &self.zone, &self.body)
    }

    fn in_zone(self, zone: String) -> Rule {
        Rule::new(self.kind, zone, self.body)
    }
}

macro_rules! shift {
    ($name:ident, $kind:ident) => {
        #[derive(Clone, Debug)]
        pub struct $name(Rule);

        impl $name {
            pub fn new(start: Time, end: Time, days: Weekdays) -> Self {
                Self(Rule::new($kind, String::new(), hours(days, start, end)))
            }
        }
    };
}

macro_rules! rule {
    ($name:ident) => {
        impl $name {
            pub fn time_zone(self, name: impl Into<String>) -> Self {
                Self(self.0.in_zone(name.into()))
            }
        }

        impl From<$name> for Rule {
            fn from(rule: $name) -> Rule {
                rule.0
            }
        }
    };
}

shift!(WorkDay, WORK);
shift!(Break, BREAK);

#[derive(Clone, Debug)]
pub struct Holidays(Rule);

rule!(WorkDay);
rule!(Break);
rule!(Holidays);

impl Holidays {
    pub fn new(dates: impl IntoIterator<Item = Date>) -> Self {
        let dates: Vec<Date> = dates.into_iter().collect();
        let count = u16::try_from(dates.len()).expect("a short list");
        let mut body = count.to_be_bytes().to_vec();
        for date in dates {
            body.extend(date.year().to_be_bytes());
            body.extend([date.month(), date.day()].map(i8::to_be_bytes).concat());
        }
        Self(Rule::new(HOLIDAYS, String::new(), body))
    }

    /// Work round the clock but for these dates, in UTC.
    fn case(&self) -> Case {
        let round = hours(Weekdays::ALL, Time::midnight(), Time::midnight());
        Case::new(&[record(WORK, "", &round), self.0.record()])
    }
}

/// Equal where the program can't tell them apart: by their search limit, and by
/// the working time over all years that dates can have here.
impl PartialEq for Holidays {
    fn eq(&self, other: &Self) -> bool {
        let years = (1900..2200).map(|year| Date::constant(year, 1, 1).to_datetime(Time::midnight()));
        let starts = years.map(|start| start.in_tz("UTC").expect("an instant").timestamp().as_second());
        let starts: Vec<i64> = starts.step_by(10).collect();
        let mut lines: Vec<String> = starts.windows(2).map(|pair| format!("between {} 0 {} 0", pair[0], pair[1])).collect();
        lines.push(FAR.to_string());
        let (one, two) = (self.case(), other.case());
        lines.iter().all(|line| one.ask(line) == two.ask(line))
    }
}
