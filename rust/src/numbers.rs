//! jiff's values as the numbers of the proved code, and back.

use std::ops::Range;

use jiff::civil::{DateTime, Time};
use jiff::{SignedDuration, Timestamp};

use crate::ffi::{Local, Pair};
use crate::Mark;

const NANOS: i64 = 1_000_000_000;
const MINUTE: i32 = 60;
const HOUR: i32 = 60 * MINUTE;

/// Seconds rounded down, and nanoseconds that are not negative. jiff's own two
/// numbers have one sign.
pub(crate) fn of_instant(instant: Timestamp) -> Pair {
    let (second, nanosecond) = (instant.as_second(), i64::from(instant.subsec_nanosecond()));
    if nanosecond < 0 {
        [second - 1, nanosecond + NANOS]
    } else {
        [second, nanosecond]
    }
}

pub(crate) fn of_duration(duration: SignedDuration) -> Pair {
    [duration.as_secs(), i64::from(duration.subsec_nanos())]
}

pub(crate) fn second_of_day(time: Time) -> i32 {
    HOUR * i32::from(time.hour()) + MINUTE * i32::from(time.minute()) + i32::from(time.second())
}

pub(crate) fn of_local(local: DateTime) -> Local {
    let (date, time) = (local.date(), local.time());
    let second = second_of_day(time).into();
    [date.year().into(), date.month().into(), date.day().into(), second, time.subsec_nanosecond().into()]
}

/// Nanoseconds as jiff takes them.
fn nanosecond(number: i64) -> i32 {
    i32::try_from(number).expect("the proved code gives nanoseconds below a second")
}

pub(crate) fn instant(numbers: &[i64]) -> Timestamp {
    Timestamp::new(numbers[0], nanosecond(numbers[1])).expect("the proved code gives instants in jiff's range")
}

pub(crate) fn duration(numbers: &[i64]) -> SignedDuration {
    SignedDuration::new(numbers[0], nanosecond(numbers[1]))
}

pub(crate) fn period(numbers: &[i64]) -> Range<Timestamp> {
    instant(&numbers[..2])..instant(&numbers[2..])
}

pub(crate) fn mark(number: i64) -> Mark {
    const MARKS: [Mark; 4] = [Mark::Plain, Mark::Repeated, Mark::Skipped, Mark::Beyond];
    let place = usize::try_from(number).ok();
    *place.and_then(|place| MARKS.get(place)).expect("the proved code gives marks from 0 to 3")
}

#[cfg(test)]
mod tests {
    use super::*;
    use jiff::civil::date;

    #[test]
    fn instants_go_there_and_back() {
        let cases = [
            (Timestamp::MIN, [-377_705_023_201, 0]),
            (Timestamp::MIN + SignedDuration::from_nanos(1), [-377_705_023_201, 1]),
            (Timestamp::MAX, [253_402_207_200, 999_999_999]),
            (Timestamp::UNIX_EPOCH, [0, 0]),
            (Timestamp::new(0, -1).unwrap(), [-1, 999_999_999]),
            (Timestamp::new(-1, 500_000_000).unwrap(), [-1, 500_000_000]),
            (Timestamp::new(-3, -1).unwrap(), [-4, 999_999_999]),
            (Timestamp::new(7, 1).unwrap(), [7, 1]),
        ];
        for (value, numbers) in cases {
            assert_eq!(of_instant(value), numbers);
            assert_eq!(instant(&numbers), value);
        }
    }

    #[test]
    fn local_times_are_dates_and_seconds_of_the_day() {
        let cases = [
            (DateTime::MIN, [-9999, 1, 1, 0, 0]),
            (DateTime::MAX, [9999, 12, 31, 86_399, 999_999_999]),
            (date(2026, 3, 29).at(2, 30, 1, 7), [2026, 3, 29, 9_001, 7]),
        ];
        for (value, numbers) in cases {
            assert_eq!(of_local(value), numbers);
        }
    }

    #[test]
    fn marks_have_numbers() {
        assert_eq!([0, 1, 2, 3].map(mark), [Mark::Plain, Mark::Repeated, Mark::Skipped, Mark::Beyond]);
    }

    #[test]
    #[should_panic = "marks from 0 to 3"]
    fn other_numbers_are_no_marks() {
        mark(4);
    }

    #[test]
    fn durations_go_there_and_back() {
        let cases = [
            (SignedDuration::MIN, [i64::MIN, -999_999_999]),
            (SignedDuration::MAX, [i64::MAX, 999_999_999]),
            (SignedDuration::ZERO, [0, 0]),
            (SignedDuration::from_millis(-500), [0, -500_000_000]),
            (SignedDuration::from_millis(-1_500), [-1, -500_000_000]),
        ];
        for (value, numbers) in cases {
            assert_eq!(of_duration(value), numbers);
            assert_eq!(duration(&numbers), value);
        }
    }
}
