//! The seven source files of workclock, unchanged, under the names that they
//! use for each other. `jiff` is the stand-in beside them, or with the feature
//! `real`, as `../../jiff` builds it, jiff itself.

#[path = "../original/engine.rs"]
mod engine;
#[path = "../original/error.rs"]
mod error;
#[path = "../original/holiday.rs"]
mod holiday;
#[path = "../original/rule.rs"]
mod rule;
#[path = "../original/weekdays.rs"]
mod weekdays;
#[path = "../original/workday.rs"]
mod workday;

mod schedule {
    include!("../original/schedule.rs");

    impl Schedule {
        /// The listing of document 01 over the file's own `working_time`,
        /// which only this module can call.
        pub fn listing(&self, lo: Timestamp, hi: Timestamp) -> Vec<(Timestamp, Timestamp)> {
            let mut found: Vec<(Timestamp, Timestamp)> = Vec::new();
            let mut lo = lo;
            while lo < hi {
                let border = lo.checked_add(CHUNK).unwrap_or(Timestamp::MAX).min(hi);
                for block in self.working_time(lo, border) {
                    match found.last_mut() {
                        Some(last) if last.1 == block.start => last.1 = block.end,
                        _ => found.push((block.start, block.end)),
                    }
                }
                lo = border;
            }
            found
        }
    }
}

pub mod book;
#[cfg_attr(feature = "real", path = "../../jiff/src/zones.rs")]
mod zones;

pub use error::Error;
pub use holiday::Holidays;
pub use rule::Rule;
pub use schedule::{Schedule, ScheduleBuilder};
pub use weekdays::Weekdays;
pub use workday::{Break, WorkDay};
