//! A schedule as a book and its pack; calls as query lines.

use std::ops::Range;

use jiff::{SignedDuration, Timestamp};

use crate::ask::{name_at, Case, Refusal};
use crate::rules::default;
use crate::{Error, Rule};

const NANO: i128 = 1_000_000_000;

#[derive(Clone, Debug)]
pub struct Schedule(Case);

#[derive(Clone, Debug, Default)]
pub struct ScheduleBuilder {
    zone: Option<String>,
    rules: Vec<Rule>,
}

impl ScheduleBuilder {
    pub fn time_zone(mut self, name: impl Into<String>) -> Self {
        self.zone = Some(name.into());
        self
    }

    pub fn rule(mut self, rule: impl Into<Rule>) -> Self {
        self.rules.push(rule.into());
        self
    }

    pub fn build(self) -> Result<Schedule, Error> {
        let zone = self.zone.as_deref().map(default);
        let records: Vec<Vec<u8>> = zone.into_iter().chain(self.rules.iter().map(Rule::record)).collect();
        let case = Case::new(&records);
        case.builds().map_err(|refusal| match refusal {
            Refusal(6, 0) => Error::NoWorkingTime,
            Refusal(4, place) => Error::UnknownZone {
                name: name_at(&case.book, place),
            },
            _ => panic!("{refusal:?}"),
        })?;
        Ok(Schedule(case))
    }
}

/// Seconds and nanoseconds of an instant, as a query line has them.
fn shown(instant: Timestamp) -> String {
    let nanos = instant.as_nanosecond();
    format!("{} {}", nanos.div_euclid(NANO), nanos.rem_euclid(NANO))
}

fn instant(numbers: &[i64]) -> Timestamp {
    Timestamp::new(numbers[0], numbers[1] as i32).expect("an instant")
}

fn error(refusal: Refusal) -> Error {
    match refusal {
        Refusal(6, 0) => Error::NoWorkingTime,
        Refusal(7, 0) => Error::OutOfRange,
        _ => panic!("{refusal:?}"),
    }
}

impl Schedule {
    pub fn builder() -> ScheduleBuilder {
        ScheduleBuilder::default()
    }

    pub fn between(&self, a: impl Into<Timestamp>, b: impl Into<Timestamp>) -> SignedDuration {
        let line = format!("between {} {}", shown(a.into()), shown(b.into()));
        let numbers = self.0.ask(&line).expect("a time");
        SignedDuration::new(numbers[0], numbers[1] as i32)
    }

    pub fn add(&self, t: impl Into<Timestamp>, d: SignedDuration) -> Result<Timestamp, Error> {
        self.moved("add", t.into(), d)
    }

    pub fn sub(&self, t: impl Into<Timestamp>, d: SignedDuration) -> Result<Timestamp, Error> {
        self.moved("sub", t.into(), d)
    }

    fn moved(&self, word: &str, t: Timestamp, d: SignedDuration) -> Result<Timestamp, Error> {
        let line = format!("{word} {} {} {}", shown(t), d.as_secs(), d.subsec_nanos());
        self.0.ask(&line).map(|numbers| instant(&numbers)).map_err(error)
    }

    pub fn next_period(&self, t: impl Into<Timestamp>) -> Result<Range<Timestamp>, Error> {
        self.period("next", t.into())
    }

    pub fn previous_period(&self, t: impl Into<Timestamp>) -> Result<Range<Timestamp>, Error> {
        self.period("previous", t.into())
    }

    fn period(&self, word: &str, t: Timestamp) -> Result<Range<Timestamp>, Error> {
        let numbers = self.0.ask(&format!("{word} {}", shown(t))).map_err(error)?;
        Ok(instant(&numbers[..2])..instant(&numbers[2..]))
    }
}
