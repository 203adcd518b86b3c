//! Rule books and zone packs as document 01 lays them out, made into a
//! `Schedule` of the original. The original has no byte layouts, no limits and
//! no places: these are written here.

use jiff::civil::{Date, Time, Weekday};

pub use crate::zones::lend;
use crate::zones::{asked, look_up, Lack};
use crate::{Break, Error, Holidays, Rule, Schedule, ScheduleBuilder, Weekdays, WorkDay};

/// A refusal's number and place.
#[derive(Clone, Copy, Debug, PartialEq, Eq)]
pub struct Refusal(pub u8, pub usize);

/// A record: where it starts, and its bytes.
type Record<'a> = (usize, &'a [u8]);

fn number(bytes: &[u8], at: usize) -> Option<usize> {
    let four = bytes.get(at..at + 4)?;
    Some(u32::from_be_bytes(four.try_into().ok()?) as usize)
}

fn directory(bytes: &[u8]) -> Option<Vec<Record<'_>>> {
    let count = number(bytes, 0)?;
    let mut free = 4 + 8 * count;
    if free > bytes.len() {
        return None;
    }
    let mut records = Vec::new();
    for place in 0..count {
        let start = number(bytes, 4 + 8 * place)?;
        let end = start + number(bytes, 8 + 8 * place)?;
        if start < free || end == start {
            return None;
        }
        records.push((start, bytes.get(start..end)?));
        free = end;
    }
    Some(records)
}

/// Names and files of a pack.
pub fn read_pack(bytes: &[u8]) -> Option<Vec<(Vec<u8>, Vec<u8>)>> {
    let records = directory(bytes)?;
    if records.len() > 1024 {
        return None;
    }
    let mut pairs = Vec::new();
    for (_, record) in records {
        let (&length, rest) = record.split_first()?;
        if !(1..=64).contains(&length) || rest.len() < length.into() {
            return None;
        }
        let (name, file) = rest.split_at(length.into());
        pairs.push((name.to_vec(), file.to_vec()));
    }
    Some(pairs)
}

/// A book's record: its place, its zone's name and what it says.
struct Entry<'a> {
    place: usize,
    name: &'a [u8],
    body: Body,
}

enum Body {
    Default,
    Work(Time, Time, Weekdays),
    Break(Time, Time, Weekdays),
    Dates(Vec<Date>),
}

fn read_entry<'a>((place, record): Record<'a>) -> Option<Entry<'a>> {
    let (&kind, rest) = record.split_first()?;
    let (&length, rest) = rest.split_first()?;
    if length > 64 || rest.len() < length.into() {
        return None;
    }
    let (name, body) = rest.split_at(length.into());
    let body = match kind {
        0 if body.is_empty() => Body::Default,
        1 | 2 => {
            let (days, start, end) = read_shift(body)?;
            match kind {
                1 => Body::Work(start, end, days),
                _ => Body::Break(start, end, days),
            }
        }
        3 => Body::Dates(read_dates(body)?),
        _ => return None,
    };
    Some(Entry { place, name, body })
}

fn read_shift(body: &[u8]) -> Option<(Weekdays, Time, Time)> {
    if body.len() != 17 || body[0] > 127 {
        return None;
    }
    let week = [
        Weekday::Monday,
        Weekday::Tuesday,
        Weekday::Wednesday,
        Weekday::Thursday,
        Weekday::Friday,
        Weekday::Saturday,
        Weekday::Sunday,
    ];
    let days = week.into_iter().enumerate();
    let days = days.filter(|(place, _)| body[0] >> place & 1 == 1).map(|(_, day)| day);
    let time = |at: usize| {
        let second = number(body, at)?;
        let hour = i8::try_from(second / 3600).ok()?;
        let nano = i32::try_from(number(body, at + 4)?).ok()?;
        Time::new(hour, (second / 60 % 60) as i8, (second % 60) as i8, nano).ok()
    };
    Some((days.collect(), time(1)?, time(9)?))
}

fn read_dates(body: &[u8]) -> Option<Vec<Date>> {
    let count = usize::from(u16::from_be_bytes(body.get(..2)?.try_into().ok()?));
    let dates = &body[2..];
    if dates.len() != 4 * count {
        return None;
    }
    let read = |date: &[u8]| {
        let year = i16::from_be_bytes([date[0], date[1]]);
        let month = i8::try_from(date[2]).ok()?;
        let day = i8::try_from(date[3]).ok()?;
        Date::new(year, month, day).ok()
    };
    dates.chunks_exact(4).map(read).collect()
}

fn within_limits(entries: &[Entry<'_>]) -> bool {
    let (mut work, mut breaks, mut holidays, mut dates) = (0, 0, 0, 0);
    for entry in entries {
        match &entry.body {
            Body::Default => {}
            Body::Work(..) => work += 1,
            Body::Break(..) => breaks += 1,
            Body::Dates(list) => {
                holidays += 1;
                dates += list.len();
            }
        }
    }
    entries.len() <= 64 && work <= 16 && breaks <= 16 && holidays <= 8 && dates <= 512
}

fn usable(entry: &Entry<'_>) -> Result<(), Refusal> {
    match look_up(entry.name) {
        Ok(()) => Ok(()),
        Err(Lack::Unknown) => Err(Refusal(4, entry.place)),
        Err(Lack::Unusable) => Err(Refusal(5, entry.place)),
    }
}

fn rule(entry: &Entry<'_>) -> Option<Rule> {
    let named = (!entry.name.is_empty()).then(|| asked(entry.name));
    Some(match &entry.body {
        Body::Default => return None,
        Body::Work(start, end, days) => {
            let made = WorkDay::new(*start, *end, *days);
            named.map_or(made.clone(), |name| made.time_zone(name)).into()
        }
        Body::Break(start, end, days) => {
            let made = Break::new(*start, *end, *days);
            named.map_or(made.clone(), |name| made.time_zone(name)).into()
        }
        Body::Dates(dates) => {
            let made = Holidays::new(dates.iter().copied());
            named.map_or(made.clone(), |name| made.time_zone(name)).into()
        }
    })
}

/// The first record whose zone can't be had: the default first, then the rules
/// in book order.
fn refused_zone(entries: &[Entry<'_>], default: Option<&Entry<'_>>) -> Refusal {
    let named = |entry: &&Entry<'_>| !matches!(entry.body, Body::Default) && !entry.name.is_empty();
    let asked = default.into_iter().chain(entries.iter().filter(named));
    let mut refusals = asked.filter_map(|entry| usable(entry).err());
    refusals.next().expect("a zone that can't be had")
}

fn entries_of(book: &[u8]) -> Result<Vec<Entry<'_>>, Refusal> {
    let entries: Option<Vec<Entry<'_>>> =
        directory(book).and_then(|records| records.into_iter().map(read_entry).collect());
    let entries = entries.ok_or(Refusal(1, 0))?;
    if !within_limits(&entries) {
        return Err(Refusal(2, 0));
    }
    Ok(entries)
}

fn schedule_of(entries: &[Entry<'_>]) -> Result<Schedule, Refusal> {
    let default = entries.iter().rev().find(|entry| matches!(entry.body, Body::Default));
    let mut builder = Schedule::builder();
    if let Some(entry) = default {
        builder = builder.time_zone(asked(entry.name));
    }
    builder = entries.iter().filter_map(rule).fold(builder, ScheduleBuilder::rule);
    builder.build().map_err(|error| match error {
        Error::NoWorkingTime => Refusal(6, 0),
        Error::UnknownZone { .. } => refused_zone(entries, default),
        Error::OutOfRange => unreachable!("build never gives {error}"),
    })
}

/// Builds a book over a pack, which is lent to jiff for the names in it.
pub fn build(book: &[u8], pack: &[u8]) -> Result<Schedule, Refusal> {
    let entries = entries_of(book)?;
    let _lent = lend(read_pack(pack).ok_or(Refusal(3, 0))?);
    schedule_of(&entries)
}

/// Builds a book over the zones that were lent before.
pub fn build_lent(book: &[u8]) -> Result<Schedule, Refusal> {
    schedule_of(&entries_of(book)?)
}
