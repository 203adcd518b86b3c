//! Schedules as values of their own, from which those of both crates are built.

use std::collections::BTreeSet;

use jiff::civil::{Date, Time, Weekday};
use jiff::tz::TimeZone;
use jiff::Timestamp;

use crate::rng::Rng;

pub const WORK_LIMIT: usize = 16;
pub const BREAK_LIMIT: usize = 16;
pub const HOLIDAY_LIMIT: usize = 8;
pub const DATE_LIMIT: usize = 512;

/// A schedule of so few rules may be asked about long spans.
const LIGHT: usize = 3;

const NANOS: i128 = 1_000_000_000;
/// Monday 2001-01-08T12:00:00Z, in the fortnight that `build` looks at.
const BUILD: Timestamp = Timestamp::constant(978_955_200, 0);
const DAYS: [Weekday; 7] = [
    Weekday::Monday,
    Weekday::Tuesday,
    Weekday::Wednesday,
    Weekday::Thursday,
    Weekday::Friday,
    Weekday::Saturday,
    Weekday::Sunday,
];
const NO_ZONES: [&str; 12] = [
    "",
    "Mars/Olympus_Mons",
    "Europe",
    "Europe/",
    "/Europe/Berlin",
    "../zoneinfo/Europe/Berlin",
    "Europe//Berlin",
    "posix/Europe/Berlin",
    "right/Europe/Berlin",
    "zone.tab",
    "Europe/Berlin\0",
    "a name that is longer than the sixty-four bytes that a rule book has room for",
];

#[derive(Clone, Debug)]
pub enum Days {
    Empty,
    MonToFri,
    All,
    Some(Vec<Weekday>),
}

#[derive(Clone, Debug)]
pub enum PlanRule {
    Work([Time; 2], Days, Option<String>),
    Break([Time; 2], Days, Option<String>),
    Holidays(Vec<Date>, Option<String>),
}

#[derive(Clone, Debug, Default)]
pub struct Plan {
    pub zone: Option<String>,
    pub rules: Vec<PlanRule>,
}

impl Plan {
    /// Whether this crate has to refuse it, though the original does not.
    pub fn passes_limit(&self) -> bool {
        let (mut work, mut breaks, mut holidays, mut count) = (0, 0, 0, 0);
        for rule in &self.rules {
            match rule {
                PlanRule::Work(..) => work += 1,
                PlanRule::Break(..) => breaks += 1,
                PlanRule::Holidays(dates, _) => {
                    holidays += 1;
                    count += dates.iter().collect::<BTreeSet<_>>().len();
                }
            }
        }
        work > WORK_LIMIT || breaks > BREAK_LIMIT || holidays > HOLIDAY_LIMIT || count > DATE_LIMIT
    }

    /// Two shifts in one zone: by day, and over midnight to a time that is skipped or
    /// read twice in many zones.
    pub fn plain(name: &str) -> Plan {
        let day = [Time::constant(9, 0, 0, 0), Time::constant(17, 0, 0, 0)];
        let night = [Time::constant(23, 15, 0, 0), Time::constant(2, 30, 0, 0)];
        Plan {
            zone: Some(name.to_string()),
            rules: vec![PlanRule::Work(day, Days::MonToFri, None), PlanRule::Work(night, Days::All, None)],
        }
    }

    pub fn is_light(&self) -> bool {
        self.rules.len() <= LIGHT
    }
}

/// Makes plans in some zones about some instants.
pub struct Planner<'a> {
    pub rng: &'a mut Rng,
    /// The zones of this plan.
    pub names: Vec<String>,
    /// All zones there are.
    pub all: &'a [String],
    pub abouts: &'a [Timestamp],
}

impl Planner<'_> {
    pub fn plan(&mut self) -> Plan {
        let mut plan = match self.rng.below(20) {
            0..=8 => self.rules(1, 2, 2, 1),
            9..=11 => self.rules(WORK_LIMIT, BREAK_LIMIT, HOLIDAY_LIMIT, HOLIDAY_LIMIT),
            12..=14 => self.round_the_clock(),
            15..=16 => self.at_the_ends(),
            17..=18 => self.two_zones(),
            _ => self.past_a_limit(),
        };
        if self.rng.once_in(2) {
            plan.zone = Some(self.name());
        }
        if self.rng.once_in(25) {
            self.with_no_zone(&mut plan);
        }
        self.rng.shuffle(&mut plan.rules);
        plan
    }

    /// One of the zones' names, now and then in other case.
    fn name(&mut self) -> String {
        let name = self.rng.pick(&self.names).clone();
        match self.rng.below(12) {
            0 => name.to_ascii_uppercase(),
            1 => name.to_ascii_lowercase(),
            _ => name,
        }
    }

    fn zone(&mut self) -> Option<String> {
        (!self.rng.once_in(3)).then(|| self.name())
    }

    fn time(&mut self) -> Time {
        let hour = self.rng.below(24) as i8;
        let minute = self.rng.below(60) as i8;
        match self.rng.below(8) {
            0 => Time::midnight(),
            1 => Time::MAX,
            2 => Time::constant(2, 30, 0, 0),
            3 | 4 => Time::constant(hour, 0, 0, 0),
            5 | 6 => Time::constant(hour, minute, 0, 0),
            _ => Time::constant(hour, minute, self.rng.below(60) as i8, self.rng.below(NANOS as usize) as i32),
        }
    }

    fn times(&mut self) -> [Time; 2] {
        let (start, end) = (self.time(), self.time());
        [start, if self.rng.once_in(8) { start } else { end }]
    }

    fn days(&mut self) -> Days {
        match self.rng.below(12) {
            0 => Days::Empty,
            1..=4 => Days::MonToFri,
            5..=7 => Days::All,
            _ => Days::Some((0..self.rng.below(5)).map(|_| *self.rng.pick(&DAYS)).collect()),
        }
    }

    /// A date up to `spread` days from one of the instants.
    fn date(&mut self, spread: i128) -> Date {
        let day = self.rng.within(-spread, spread) * 86_400;
        let about = i128::from(self.rng.pick(self.abouts).as_second());
        let second = (about + day).clamp(Timestamp::MIN.as_second().into(), Timestamp::MAX.as_second().into());
        TimeZone::UTC.to_datetime(Timestamp::new(second as i64, 0).expect("an instant in range")).date()
    }

    fn holidays(&mut self, count: usize) -> PlanRule {
        let spread = *self.rng.pick(&[3, 20, 300, 3_000]);
        let dates = (0..count).map(|_| self.date(spread)).collect();
        PlanRule::Holidays(dates, self.zone())
    }

    /// Up to so many rules of each kind.
    fn rules(&mut self, least: usize, work: usize, breaks: usize, holidays: usize) -> Plan {
        let mut plan = Plan::default();
        let least = if self.rng.once_in(30) { 0 } else { least.min(work) };
        for _ in 0..self.rng.within(least as i128, work as i128) {
            plan.rules.push(PlanRule::Work(self.times(), self.days(), self.zone()));
        }
        for _ in 0..self.rng.below(breaks + 1) {
            plan.rules.push(PlanRule::Break(self.times(), self.days(), self.zone()));
        }
        let lists = self.rng.below(holidays + 1);
        for _ in 0..lists {
            let count = self.rng.below(DATE_LIMIT / HOLIDAY_LIMIT + 1);
            plan.rules.push(self.holidays(count));
        }
        plan
    }

    /// Work at all times, but for some dates and perhaps a break.
    fn round_the_clock(&mut self) -> Plan {
        let mut plan = Plan::default();
        let time = self.time();
        plan.rules.push(PlanRule::Work([time, time], Days::All, self.zone()));
        let count = self.rng.below(4);
        plan.rules.push(self.holidays(count));
        if self.rng.once_in(3) {
            plan.rules.push(PlanRule::Break(self.times(), self.days(), self.zone()));
        }
        plan
    }

    /// Holidays on the first and the last dates.
    fn at_the_ends(&mut self) -> Plan {
        let mut plan = self.rules(1, 2, 1, 1);
        let (first, last) =
            ([1, 2, 3].map(|day| Date::constant(-9999, 1, day)), [29, 30, 31].map(|day| Date::constant(9999, 12, day)));
        let mut dates = [first, last].concat();
        self.rng.shuffle(&mut dates);
        dates.truncate(1 + self.rng.below(6));
        plan.rules.push(PlanRule::Holidays(dates, self.zone()));
        plan
    }

    /// Work in one zone and a break at the same times in another, which differ when
    /// `build` looks: where their offsets agree there is no working time.
    fn two_zones(&mut self) -> Plan {
        let work = self.names[0].clone();
        let about = *self.rng.pick(self.abouts);
        let offsets = |name: &str| {
            TimeZone::get(name)
                .map(|zone| [zone.to_offset(BUILD), zone.to_offset(about)])
                .expect("a zone of the database")
        };
        let own = offsets(&work);
        let tried: Vec<String> = (0..40).map(|_| self.rng.pick(self.all).clone()).collect();
        let agrees = |name: &&String| offsets(name)[0] != own[0] && offsets(name)[1] == own[1];
        let other = tried.iter().find(agrees).unwrap_or(&tried[0]).clone();
        let (times, days) = ([Time::constant(9, 0, 0, 0), Time::constant(9, 40, 0, 0)], Days::MonToFri);
        let mut plan = Plan::default();
        plan.rules.push(PlanRule::Work(times, days.clone(), Some(work)));
        plan.rules.push(PlanRule::Break(times, days, Some(other)));
        plan
    }

    /// One of the limits, passed by one.
    fn past_a_limit(&mut self) -> Plan {
        let mut plan = self.rules(1, 2, 1, 0);
        match self.rng.below(4) {
            0 => plan.rules.extend((0..=WORK_LIMIT).map(|_| PlanRule::Work(self.times(), Days::All, None))),
            1 => plan.rules.extend((0..=BREAK_LIMIT).map(|_| PlanRule::Break(self.times(), Days::MonToFri, None))),
            2 => plan.rules.extend((0..=HOLIDAY_LIMIT).map(|_| PlanRule::Holidays(Vec::new(), None))),
            _ => {
                let first = Date::constant(1990, 1, 1);
                let dates = (0..=DATE_LIMIT as i64).map(|day| first + jiff::Span::new().days(day));
                plan.rules.push(PlanRule::Holidays(dates.collect(), None));
            }
        }
        plan
    }

    /// Somewhere a name of no zone.
    fn with_no_zone(&mut self, plan: &mut Plan) {
        let name = Some((*self.rng.pick(&NO_ZONES)).to_string());
        let place = self.rng.below(plan.rules.len() + 1);
        match plan.rules.get_mut(place) {
            None => plan.zone = name,
            Some(PlanRule::Work(_, _, zone) | PlanRule::Break(_, _, zone) | PlanRule::Holidays(_, zone)) => {
                *zone = name
            }
        }
    }
}
