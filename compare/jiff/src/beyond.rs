//! What the original does with an instant that jiff makes beyond its range:
//! `beyond WORD SEC`.
//!
//! The instant is made by `Timestamp::from_nanosecond` from SEC seconds.
//!
//! | word | answer |
//! |---|---|
//! | `make` | `ok SEC`: the instant's second as jiff tells it |
//! | `next`, `previous` | the period of office hours from there: `ok SEC SEC` |
//! | `add` | one second of work added to it: `ok SEC` |
//! | `between` | `ok SECONDS`: working time from the last instant to it |
//!
//! or `no`, where jiff or the original returns an error. Office hours are 09:00
//! to 17:00 from Monday to Friday in UTC.

use jiff::civil::time;
use jiff::{SignedDuration, Timestamp};
use workclock::{Error, Schedule, Weekdays, WorkDay};

/// Nanoseconds of a second.
const NANO: i128 = 1_000_000_000;

fn office() -> Schedule {
    let (opens, closes) = (time(9, 0, 0, 0), time(17, 0, 0, 0));
    let rule = WorkDay::new(opens, closes, Weekdays::MON_TO_FRI);
    Schedule::builder().rule(rule).build().expect("office hours build")
}

fn answer(word: &str, instant: Timestamp) -> Result<String, Error> {
    let shown = |instant: Timestamp| instant.as_second().to_string();
    Ok(match word {
        "make" => shown(instant),
        "add" => shown(office().add(instant, SignedDuration::from_secs(1))?),
        "between" => office().between(Timestamp::MAX, instant).as_secs().to_string(),
        _ => {
            let period = match word {
                "next" => office().next_period(instant)?,
                _ => office().previous_period(instant)?,
            };
            format!("{} {}", shown(period.start), shown(period.end))
        }
    })
}

fn main() {
    let arguments: Vec<String> = std::env::args().skip(1).collect();
    let [word, second] = &arguments[..] else {
        eprintln!("usage: beyond WORD SEC");
        std::process::exit(2);
    };
    let nanos = second.parse::<i64>().map(|second| i128::from(second) * NANO);
    let instant = Timestamp::from_nanosecond(nanos.expect("a number of seconds"));
    match instant.map(|instant| answer(word, instant)) {
        Ok(Ok(text)) => println!("ok {text}"),
        _ => println!("no"),
    }
}
