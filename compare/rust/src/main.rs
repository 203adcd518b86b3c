//! Answers query lines with the original: `answer BOOK ZONES [--listing]`.
//!
//! The lines are those of document 01, but for the window count, which the
//! original does not report: `-` stands in its place.

use std::io::{Read, Write};

use jiff::{SignedDuration, Timestamp};
use workclock::book::{build, Refusal};
use workclock::{Error, Schedule};

/// Nanoseconds of a second.
const NANO: i64 = 1_000_000_000;

fn read_file(path: &str) -> Vec<u8> {
    let data = std::fs::read(path).unwrap_or_default();
    if data.len() > 65_536 {
        Vec::new()
    } else {
        data
    }
}

/// A decimal number of any length that fits signed 64 bits.
fn number(field: &[u8]) -> Option<i64> {
    let (negative, digits) = match field.strip_prefix(b"-") {
        Some(digits) => (true, digits),
        None => (false, field),
    };
    if digits.is_empty() || !digits.iter().all(u8::is_ascii_digit) {
        return None;
    }
    digits.iter().try_fold(0_i64, |value, digit| {
        let digit = i64::from(digit - b'0');
        value.checked_mul(10)?.checked_add(if negative { -digit } else { digit })
    })
}

/// jiff takes nanoseconds below 0 too, document 01 does not.
fn instant(second: i64, nano: i64) -> Result<Timestamp, Refusal> {
    if !(0..NANO).contains(&nano) {
        return Err(Refusal(8, 0));
    }
    Timestamp::new(second, nano as i32).map_err(|_| Refusal(8, 0))
}

fn duration(second: i64, nano: i64) -> Result<SignedDuration, Refusal> {
    let opposite = (second > 0 && nano < 0) || (second < 0 && nano > 0);
    if opposite || !(1 - NANO..NANO).contains(&nano) {
        return Err(Refusal(9, 0));
    }
    Ok(SignedDuration::new(second, nano as i32))
}

fn refusal(error: Error) -> Refusal {
    match error {
        Error::NoWorkingTime => Refusal(6, 0),
        _ => Refusal(7, 0),
    }
}

fn shown(instant: Timestamp) -> String {
    let nanos = instant.as_nanosecond();
    let second = i128::from(NANO);
    format!("{} {}", nanos.div_euclid(second), nanos.rem_euclid(second))
}

fn answer(schedule: &Schedule, word: &[u8], numbers: &[i64]) -> Result<String, Refusal> {
    let first = instant(numbers[0], numbers[1])?;
    match word {
        b"between" => {
            let time = schedule.between(first, instant(numbers[2], numbers[3])?);
            Ok(format!("{} {} -", time.as_secs(), time.subsec_nanos()))
        }
        b"add" | b"sub" => {
            let by = duration(numbers[2], numbers[3])?;
            let moved = match word {
                b"add" => schedule.add(first, by),
                _ => schedule.sub(first, by),
            };
            Ok(format!("{} -", shown(moved.map_err(refusal)?)))
        }
        b"list" => {
            let found = schedule.listing(first, instant(numbers[2], numbers[3])?);
            if 4 * found.len() as i64 > numbers[4] {
                return Err(Refusal(10, 0));
            }
            let stretches = found.iter().map(|(a, b)| format!(" {} {}", shown(*a), shown(*b)));
            Ok(format!("{}{}", found.len(), stretches.collect::<String>()))
        }
        _ => {
            let period = match word {
                b"next" => schedule.next_period(first),
                _ => schedule.previous_period(first),
            };
            let period = period.map_err(refusal)?;
            Ok(format!("{} {}", shown(period.start), shown(period.end)))
        }
    }
}

/// Word and numbers of a query line; `None` for any other line.
fn query(line: &[u8], listing: bool) -> Option<(&[u8], Vec<i64>)> {
    let mut fields = line.split(|&byte| byte == b' ');
    let word = fields.next()?;
    let wanted = match word {
        b"between" | b"add" | b"sub" => 4,
        b"next" | b"previous" => 2,
        b"list" if listing => 5,
        _ => return None,
    };
    let numbers: Option<Vec<i64>> = fields.map(number).collect();
    let numbers = numbers.filter(|numbers| numbers.len() == wanted)?;
    (wanted < 5 || numbers[4] >= 0).then_some((word, numbers))
}

fn main() -> std::io::Result<()> {
    let arguments: Vec<String> = std::env::args().skip(1).collect();
    let listing = arguments.iter().any(|argument| argument == "--listing");
    let paths: Vec<&String> = arguments.iter().filter(|a| !a.starts_with("--")).collect();
    let [book, zones] = paths[..] else {
        eprintln!("usage: answer BOOK ZONES [--listing] < queries");
        std::process::exit(2);
    };
    let built = build(&read_file(book), &read_file(zones));
    let mut lines = Vec::new();
    std::io::stdin().read_to_end(&mut lines)?;
    let mut lines: Vec<&[u8]> = lines.split(|&byte| byte == b'\n').collect();
    if lines.last().is_some_and(|last| last.is_empty()) {
        lines.pop();
    }
    let mut out = std::io::BufWriter::new(std::io::stdout().lock());
    for line in lines {
        let Some((word, numbers)) = query(line, listing) else {
            writeln!(out, "bad")?;
            continue;
        };
        let answered = match &built {
            Ok(schedule) => answer(schedule, word, &numbers),
            Err(refused) => Err(*refused),
        };
        match answered {
            Ok(text) => writeln!(out, "ok {text}")?,
            Err(Refusal(number, place)) => writeln!(out, "no {number} {place}")?,
        }
    }
    out.flush()
}
