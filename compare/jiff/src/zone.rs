//! Answers lines about one zone file with jiff: `zone FILE`.
//!
//! | line | answer |
//! |---|---|
//! | `offset SEC [NS]` | `ok OFFSET`: the offset at an instant, in seconds east |
//! | `change SEC [NS]` | `ok SEC [NS]`: the first change after an instant, as jiff's `following` tells it; `none` |
//! | `local YEAR MONTH DAY SECOND [NS]` | `ok SEC [NS]`: the instant of a date and a second of the day by the compatible strategy; `beyond`: out of the range |
//!
//! Nanoseconds NS are answered where they are asked. Without them an instant's
//! second is the one that jiff's `as_second` tells, which cuts towards 0.
//!
//! `no 5` to each line where jiff refuses the file, with the reason on standard
//! error; `no 8` where an instant, a date or a second of the day does not exist;
//! `bad` for any other line.

use std::io::{BufRead, BufReader, Write};

use jiff::civil::Date;
use jiff::tz::TimeZone;
use jiff::Timestamp;

/// Nanoseconds of a second.
const NANO: i128 = 1_000_000_000;

/// The words, and how many numbers each takes before the nanoseconds.
const WORDS: [(&str, usize); 3] = [("offset", 1), ("change", 1), ("local", 4)];

fn shown(instant: Timestamp, exact: bool) -> String {
    if !exact {
        return format!("ok {}", instant.as_second());
    }
    let nanos = instant.as_nanosecond();
    format!("ok {} {}", nanos.div_euclid(NANO), nanos.rem_euclid(NANO))
}

fn local(zone: &TimeZone, numbers: &[i64], nano: i32, exact: bool) -> Option<String> {
    let date = Date::new(
        numbers[0].try_into().ok()?,
        numbers[1].try_into().ok()?,
        numbers[2].try_into().ok()?,
    );
    let second = numbers[3];
    let hour = i8::try_from(second / 3600).ok()?;
    let time = jiff::civil::Time::new(hour, (second / 60 % 60) as i8, (second % 60) as i8, nano);
    let read = zone.to_ambiguous_zoned(date.ok()?.to_datetime(time.ok()?)).compatible();
    Some(read.map_or("beyond".to_string(), |zoned| shown(zoned.timestamp(), exact)))
}

/// `None` where an instant, a date or a second of the day does not exist.
fn answer(zone: &TimeZone, word: &str, numbers: &[i64], nano: Option<i64>) -> Option<String> {
    let exact = nano.is_some();
    let nano = nano.unwrap_or(0);
    if !(0..NANO as i64).contains(&nano) {
        return None;
    }
    if word == "local" {
        return local(zone, numbers, nano as i32, exact);
    }
    let instant = Timestamp::new(numbers[0], nano as i32).ok()?;
    Some(match word {
        "offset" => format!("ok {}", zone.to_offset(instant).seconds()),
        _ => {
            let change = zone.following(instant).next();
            change.map_or("none".to_string(), |change| shown(change.timestamp(), exact))
        }
    })
}

/// Word, numbers and nanoseconds of a line; `None` for any other line.
fn question(line: &str) -> Option<(&str, Vec<i64>, Option<i64>)> {
    let (word, rest) = line.split_once(' ')?;
    let (_, wanted) = WORDS.into_iter().find(|(known, _)| *known == word)?;
    let numbers: Result<Vec<i64>, _> = rest.split(' ').map(str::parse).collect();
    let mut numbers = numbers.ok()?;
    let nano = (numbers.len() == wanted + 1).then(|| numbers.pop()).flatten();
    (numbers.len() == wanted).then_some((word, numbers, nano))
}

fn main() -> std::io::Result<()> {
    let Some(path) = std::env::args().nth(1) else {
        eprintln!("usage: zone FILE < lines");
        std::process::exit(2);
    };
    let zone = TimeZone::tzif("file", &std::fs::read(path)?);
    if let Err(reason) = &zone {
        eprintln!("{reason}");
    }
    let mut out = std::io::BufWriter::new(std::io::stdout().lock());
    let mut input = BufReader::new(std::io::stdin());
    let mut read = String::new();
    while input.read_line(&mut read)? > 0 {
        let line = read.strip_suffix('\n').unwrap_or(&read);
        let answered = match (question(line), &zone) {
            (None, _) => "bad".to_string(),
            (_, Err(_)) => "no 5".to_string(),
            (Some((word, numbers, nano)), Ok(zone)) => {
                answer(zone, word, &numbers, nano).unwrap_or("no 8".to_string())
            }
        };
        writeln!(out, "{answered}")?;
        read.clear();
        if input.buffer().is_empty() {
            out.flush()?; // whoever asks may wait for the answer
        }
    }
    out.flush()
}
