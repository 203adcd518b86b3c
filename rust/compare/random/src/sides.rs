//! The same calls on both crates: one text for both, so that neither is asked
//! anything else.

use std::ops::Range;

use jiff::{SignedDuration, Timestamp};

/// What a call gives, in values that both crates share. An error is its
/// `Debug` and `Display` texts.
#[derive(Clone, Debug, PartialEq)]
pub enum Told {
    Time(SignedDuration),
    Instant(Timestamp),
    Period(Range<Timestamp>),
    Error(String),
}

macro_rules! side {
    ($side:ident, $library:ident) => {
        pub mod $side {
            use ::$library::{Break, Error, Holidays, Rule, Schedule, ScheduleBuilder, Weekdays, WorkDay};
            use hirgwamo::Query;
            use jiff::civil::Weekday;

            use super::Told;
            use crate::plan::{Days, Plan, PlanRule};

            fn weekdays(days: &Days) -> Weekdays {
                match days {
                    Days::Empty => Weekdays::EMPTY,
                    Days::MonToFri => Weekdays::MON_TO_FRI,
                    Days::All => Weekdays::ALL,
                    Days::Some(days) => days.iter().copied().collect(),
                }
            }

            /// All that a set of days tells of itself.
            pub fn shown(days: &Days) -> String {
                let set = weekdays(days);
                let monday_on = Weekday::Monday.cycle_forward().take(7);
                let inside: Vec<bool> = monday_on.map(|day| set.contains(day)).collect();
                format!("{set:?} {inside:?} {} {}", set.is_empty(), set == Weekdays::default())
            }

            /// A rule with the zone that it may have.
            fn rule(rule: &PlanRule) -> Rule {
                match rule.clone() {
                    PlanRule::Work([start, end], days, None) => WorkDay::new(start, end, weekdays(&days)).into(),
                    PlanRule::Work([start, end], days, Some(zone)) => {
                        WorkDay::new(start, end, weekdays(&days)).time_zone(zone).into()
                    }
                    PlanRule::Break([start, end], days, None) => Break::new(start, end, weekdays(&days)).into(),
                    PlanRule::Break([start, end], days, Some(zone)) => {
                        Break::new(start, end, weekdays(&days)).time_zone(zone).into()
                    }
                    PlanRule::Holidays(dates, None) => Holidays::new(dates).into(),
                    PlanRule::Holidays(dates, Some(zone)) => Holidays::new(dates).time_zone(zone).into(),
                }
            }

            fn error(error: Error) -> String {
                format!("{error:?}: {error}")
            }

            pub fn build(plan: &Plan) -> Result<Schedule, String> {
                let builder = match &plan.zone {
                    Some(zone) => Schedule::builder().time_zone(zone),
                    None => Schedule::builder(),
                };
                plan.rules.iter().map(rule).fold(builder, ScheduleBuilder::rule).build().map_err(error)
            }

            pub fn ask(schedule: &Schedule, query: Query) -> Told {
                let told = match query {
                    Query::Between(a, b) => Ok(Told::Time(schedule.between(a, b))),
                    Query::Add(t, d) => schedule.add(t, d).map(Told::Instant),
                    Query::Sub(t, d) => schedule.sub(t, d).map(Told::Instant),
                    Query::Next(t) => schedule.next_period(t).map(Told::Period),
                    Query::Previous(t) => schedule.previous_period(t).map(Told::Period),
                };
                told.unwrap_or_else(|refused| Told::Error(error(refused)))
            }
        }
    };
}

side!(original, workclock);
side!(ours, hirgwamo);
