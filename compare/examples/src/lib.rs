//! The names of workclock over a program that answers query lines: its doc
//! examples run with these, so that what they assert is what the program says.
//!
//! Values of jiff (instants, durations, dates) are jiff's own. A rule is a record
//! of a rule book, a schedule a book with its pack; each call is a query line.
//! `error.rs` is the original's file, unchanged: the program tells a refusal's
//! number and place, not its text.

mod ask;
#[path = "../../rust/original/error.rs"]
mod error;
mod rules;
mod schedule;

pub use error::Error;
pub use rules::{Break, Holidays, Rule, Weekdays, WorkDay};
pub use schedule::{Schedule, ScheduleBuilder};

/// The doc comments of the original's files, as ../examples.sh takes them from
/// there; those of `error.rs` come with the module.
#[cfg(doctest)]
mod examples {
    #[doc = include_str!(concat!(env!("EXAMPLES"), "/engine.md"))]
    mod engine {}
    #[doc = include_str!(concat!(env!("EXAMPLES"), "/holiday.md"))]
    mod holiday {}
    #[doc = include_str!(concat!(env!("EXAMPLES"), "/rule.md"))]
    mod rule {}
    #[doc = include_str!(concat!(env!("EXAMPLES"), "/schedule.md"))]
    mod schedule {}
    #[doc = include_str!(concat!(env!("EXAMPLES"), "/weekdays.md"))]
    mod weekdays {}
    #[doc = include_str!(concat!(env!("EXAMPLES"), "/workday.md"))]
    mod workday {}
}
