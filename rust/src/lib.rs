//! A working-hours clock: how much working time lies between two instants, when so
//! much of it has passed, and when the next working period begins.
//!
//! The clock itself is Hirgwamo, whose code is proved to answer as its definitions
//! say, for all inputs. This crate is its Rust side. It writes the rules as a rule
//! book, packs the zone files that they name, hands both to the proved code, and
//! puts the numbers that come back into the types of [`jiff`]; it computes no time
//! itself. Its names and signatures are those of the crate workclock, so that a
//! program moves over by writing `use hirgwamo::..` where it has `use workclock::..`.
//!
//! ```
//! use hirgwamo::{Holidays, Schedule, Weekdays, WorkDay};
//! use jiff::{civil::{date, time}, SignedDuration, Timestamp};
//!
//! let site = Schedule::builder()
//!     .time_zone("Europe/Berlin")
//!     .rule(WorkDay::new(time(8, 0, 0, 0), time(18, 0, 0, 0), Weekdays::MON_TO_FRI))
//!     .rule(Holidays::new([date(2026, 4, 3), date(2026, 4, 6)])) // Easter
//!     .build()?;
//! let call: Timestamp = "2026-04-02T15:00:00+02:00".parse()?;
//! let answer_due = site.add(call, SignedDuration::from_hours(8))?;
//! assert_eq!(answer_due, "2026-04-07T13:00:00+02:00".parse()?);
//! # Ok::<(), Box<dyn std::error::Error>>(())
//! ```
//!
//! # Zones
//!
//! Zone files are looked for in the folder that the environment variable `TZDIR`
//! names, or else in `/usr/share/zoneinfo`, `/usr/share/lib/zoneinfo` or
//! `/etc/zoneinfo`; the first that has a file is the only one that is looked in. They
//! are read when a schedule is built, and a schedule keeps what was read. Names are
//! found as jiff finds them: without regard to the case of ASCII letters, and only
//! among the entries of the folder and of the folders in it. So `..` or a leading `/`
//! leads nowhere; the copies in `posix` and `right` are passed over, and so are links
//! to folders, while links to files are followed. A name of more than 64 bytes is
//! unknown, and so is one whose file is not a regular file that begins with `TZif`. A
//! zone file of more than 1 MiB counts as not usable.
//!
//! `UTC` is built in, in any case of its letters, and works without a zone folder.
//! So is `Etc/Unknown`, with the offset 0: jiff has it built in too, as the zone of a
//! system whose own zone it cannot tell, and a program that hands that name on keeps
//! working.
//!
//! # What differs from workclock
//!
//! - Rules have limits: [`Error::TooManyRules`].
//! - A zone file that is there and cannot be used is [`Error::UnusableZone`]. The
//!   proved code takes files of the versions 2 and 3 without leap seconds.
//! - Zone files come from a folder alone, not from a database that jiff has compiled
//!   in. `UTC` and `Etc/Unknown` work on a system without zone files too, where jiff
//!   0.2.37 knows no name.
//! - [`Schedule::list`], [`Schedule::answers`], [`Schedule::next_period_marked`],
//!   [`Schedule::previous_period_marked`], [`resolve_marked`], [`Schedule::book`],
//!   [`Schedule::pack`] and [`version`] are added.
//!
//! On the zones of the tz database no answer was seen to differ. `docs/DIFFERENCES.md`
//! of the repository tells what was compared, and which zone files that are not of the
//! tz database make a difference.
//!
//! # Time
//!
//! Each call reads the rules and the zones anew; [`Schedule::answers`] reads them once
//! for many queries. Long spans take long: one over all the years of
//! [`jiff::Timestamp`] can take many seconds where there are many rules. A program that
//! takes instants or durations from untrusted input should limit them.
//!
//! # Platform
//!
//! The proved code is a static archive for x86-64 Linux (processors with the
//! instructions of x86-64-v2), `libhirgwamo.a`. The
//! build looks for it in the folder that the environment variable
//! `HIRGWAMO_LIB_DIR` names, then in `target/part` of the repository, then where
//! pkg-config tells.

#![deny(unsafe_code)]
#![warn(missing_docs)]

#[cfg(not(all(target_arch = "x86_64", target_os = "linux", target_pointer_width = "64")))]
compile_error!("hirgwamo: the proved code is there for 64-bit x86-64 Linux alone");

mod batch;
mod book;
mod error;
#[allow(unsafe_code)]
mod ffi;
mod marks;
mod numbers;
mod rules;
mod schedule;
mod weekdays;
mod zones;

pub use batch::{Answer, Query};
pub use error::Error;
pub use marks::{resolve_marked, Mark, MarkedInstant, MarkedPeriod};
pub use rules::{Break, Holidays, Rule, WorkDay};
pub use schedule::{Schedule, ScheduleBuilder};
pub use weekdays::Weekdays;

/// The version of the proved code: 1,000,000 times its major number, 1,000 times its
/// minor number and its patch number, added up.
///
/// # Examples
///
/// ```
/// assert_eq!(hirgwamo::version() / 1_000_000, 1);
/// ```
#[must_use]
pub fn version() -> u32 {
    ffi::version()
}
