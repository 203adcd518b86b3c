//! The bytes of a rule book: records behind a directory.

use jiff::civil::{Date, Time};

use crate::{numbers, Weekdays};

const DEFAULT_ZONE: u8 = 0;
pub(crate) const WORK: u8 = 1;
pub(crate) const BREAK: u8 = 2;
const HOLIDAYS: u8 = 3;

/// The longest name of a zone that a book or a pack can have, in bytes.
pub(crate) const NAME_MAX: usize = 64;

/// Stands in a book for a name that no book can have. No zone has this name, since
/// no file has, so the record is refused in its turn.
const NO_NAME: &[u8] = b"\0";

const COUNT_BYTES: usize = 4;
const ENTRY_BYTES: usize = 8;

/// A record of a book, and the zone that it names.
pub(crate) struct Record<'a> {
    pub(crate) zone: Option<&'a str>,
    pub(crate) bytes: Vec<u8>,
}

impl<'a> Record<'a> {
    fn new(kind: u8, zone: Option<&'a str>) -> Self {
        let name = zone.map_or(&[][..], written);
        let length = u8::try_from(name.len()).expect("a written name is short");
        Record { zone, bytes: [&[kind, length], name].concat() }
    }

    pub(crate) fn default_zone(zone: &'a str) -> Self {
        Record::new(DEFAULT_ZONE, Some(zone))
    }

    /// Work or a break.
    pub(crate) fn hours(kind: u8, zone: Option<&'a str>, days: Weekdays, times: [Time; 2]) -> Self {
        let mut record = Record::new(kind, zone);
        record.bytes.push(days.byte());
        for time in times {
            record.bytes.extend(numbers::second_of_day(time).to_be_bytes());
            record.bytes.extend(time.subsec_nanosecond().to_be_bytes());
        }
        record
    }

    /// Holidays; `None` where there are more dates than a record can count.
    pub(crate) fn holidays(zone: Option<&'a str>, dates: impl ExactSizeIterator<Item = Date>) -> Option<Self> {
        let mut record = Record::new(HOLIDAYS, zone);
        let count = u16::try_from(dates.len()).ok()?;
        record.bytes.extend(count.to_be_bytes());
        for date in dates {
            record.bytes.extend(date.year().to_be_bytes());
            record.bytes.extend(date.month().to_be_bytes());
            record.bytes.extend(date.day().to_be_bytes());
        }
        Some(record)
    }
}

/// Whether a book can have this name, and a pack a zone of it.
pub(crate) fn can_be_written(name: &str) -> bool {
    (1..=NAME_MAX).contains(&name.len())
}

fn written(name: &str) -> &[u8] {
    if can_be_written(name) {
        name.as_bytes()
    } else {
        NO_NAME
    }
}

/// A file of records behind their directory, as a book and a pack are; `None` where
/// it is too long for the directory's numbers.
pub(crate) fn join<'a>(records: impl ExactSizeIterator<Item = &'a [u8]> + Clone) -> Option<Vec<u8>> {
    let count = u32::try_from(records.len()).ok()?;
    let mut bytes = count.to_be_bytes().to_vec();
    let mut place = COUNT_BYTES.checked_add(ENTRY_BYTES.checked_mul(records.len())?)?;
    for record in records.clone() {
        bytes.extend(u32::try_from(place).ok()?.to_be_bytes());
        bytes.extend(u32::try_from(record.len()).ok()?.to_be_bytes());
        place = place.checked_add(record.len())?;
    }
    u32::try_from(place).ok()?;
    bytes.extend(records.flatten());
    Some(bytes)
}

/// Which of the records that were joined to a file begins at a place.
pub(crate) fn record_at(records: &[Record<'_>], place: i64) -> Option<usize> {
    let place = usize::try_from(place).ok()?;
    let mut start = COUNT_BYTES + ENTRY_BYTES * records.len();
    records.iter().position(|record| {
        let found = start == place;
        start += record.bytes.len();
        found
    })
}

#[cfg(test)]
mod tests {
    use super::*;
    use jiff::civil::{date, time};

    /// The book of docs/FORMATS.md.
    #[test]
    fn a_book_is_written_as_documented() {
        let noon = [time(12, 0, 0, 0), time(12, 30, 0, 0)];
        let dates = [date(2026, 12, 25), date(2027, 1, 1)];
        let records = [
            Record::default_zone("Europe/Berlin"),
            Record::hours(WORK, None, Weekdays::MON_TO_FRI, [time(8, 0, 0, 0), time(18, 0, 0, 0)]),
            Record::hours(BREAK, None, Weekdays::MON_TO_FRI, noon),
            Record::holidays(None, dates.into_iter()).unwrap(),
        ];
        let book = join(records.iter().map(|record| &record.bytes[..])).unwrap();
        let documented = "00000004000000240000000F0000003300000013000000460000001300000059\
                          0000000C000D4575726F70652F4265726C696E01001F0000708000000000\
                          0000FD200000000002001F0000A8C0000000000000AFC800000000\
                          0300000207EA0C1907EB0101";
        let hexadecimal: String = book.iter().map(|byte| format!("{byte:02X}")).collect();
        assert_eq!(hexadecimal, documented);
        let places = [0x24, 0x33, 0x46, 0x59, 0x25, -1].map(|place| record_at(&records, place));
        assert_eq!(places, [Some(0), Some(1), Some(2), Some(3), None, None]);
    }

    #[test]
    fn times_have_nanoseconds_and_years_a_sign() {
        let last = time(23, 59, 59, 999_999_999);
        let record = Record::hours(WORK, Some("UTC"), Weekdays::ALL, [last, time(0, 0, 0, 1)]);
        assert_eq!(record.bytes, b"\x01\x03UTC\x7F\x00\x01\x51\x7F\x3B\x9A\xC9\xFF\x00\x00\x00\x00\x00\x00\x00\x01");
        let record = Record::holidays(None, [date(-9999, 1, 1)].into_iter()).unwrap();
        assert_eq!(record.bytes, b"\x03\x00\x00\x01\xD8\xF1\x01\x01");
    }

    #[test]
    fn names_that_no_book_can_have_are_replaced() {
        let (longest, too_long) = ("x".repeat(NAME_MAX), "x".repeat(NAME_MAX + 1));
        assert_eq!(Record::default_zone(&longest).bytes[1..], [&[64], longest.as_bytes()].concat());
        for name in ["", &too_long] {
            let record = Record::default_zone(name);
            assert_eq!((record.zone, &record.bytes[..]), (Some(name), &b"\x00\x01\x00"[..]));
        }
    }

    #[test]
    fn more_dates_than_a_record_can_count_are_none() {
        let most = usize::from(u16::MAX);
        for (count, fits) in [(most, true), (most + 1, false)] {
            let dates = vec![date(2026, 1, 1); count];
            assert_eq!(Record::holidays(None, dates.into_iter()).is_some(), fits);
        }
    }
}
