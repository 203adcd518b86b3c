//! Instants, durations and queries.

use hirgwamo::Query;
use jiff::tz::TimeZone;
use jiff::{SignedDuration, Timestamp};

use crate::rng::Rng;

const NANOS: i128 = 1_000_000_000;
const HOUR: i128 = 3_600 * NANOS;
const DAY: i128 = 24 * HOUR;
const YEAR: i128 = 366 * DAY;

fn instant(nanos: i128) -> Timestamp {
    let (first, last) = (Timestamp::MIN.as_nanosecond(), Timestamp::MAX.as_nanosecond());
    Timestamp::from_nanosecond(nanos.clamp(first, last)).expect("an instant in range")
}

fn new_year(year: i128) -> i128 {
    (year - 1970) * 31_556_952 * NANOS
}

/// An instant of about now, of the years that have changes in the tz database, of
/// the whole range, or at one of its ends.
fn any_instant(rng: &mut Rng) -> Timestamp {
    let (first, last) = (Timestamp::MIN.as_nanosecond(), Timestamp::MAX.as_nanosecond());
    let nanos = match rng.below(10) {
        0..=4 => rng.within(new_year(2015), new_year(2045)),
        5..=7 => rng.within(new_year(1900), new_year(2200)),
        8 => rng.within(first, last),
        _ => *rng.pick(&[first, last]),
    };
    instant(nanos)
}

/// Some instants, and the changes of the zones beside them.
pub fn abouts(rng: &mut Rng, names: &[String]) -> Vec<Timestamp> {
    let mut abouts: Vec<Timestamp> = (0..3).map(|_| any_instant(rng)).collect();
    for center in abouts.clone() {
        for name in names {
            let zone = TimeZone::get(name).expect("a zone of the database");
            abouts.extend(zone.following(center).next().map(|change| change.timestamp()));
            abouts.extend(zone.preceding(center).next().map(|change| change.timestamp()));
        }
    }
    abouts
}

/// Asks about a schedule.
pub struct Asker<'a> {
    pub rng: &'a mut Rng,
    pub abouts: &'a [Timestamp],
    /// Whether spans of decades may be asked about.
    pub long: bool,
}

/// The working time of a schedule from one instant to another. Durations are taken
/// from it, so that none leads through thousands of years.
pub type Worked<'a> = &'a dyn Fn(Timestamp, Timestamp) -> SignedDuration;

impl Asker<'_> {
    /// At one of the instants, or near it.
    pub fn instant(&mut self) -> Timestamp {
        let about = self.rng.pick(self.abouts).as_nanosecond();
        let near = match self.rng.below(8) {
            0 => 0,
            1 => *self.rng.pick(&[-1, 1]),
            2 => *self.rng.pick(&[-NANOS, NANOS, -HOUR, HOUR, -DAY, DAY]),
            3 | 4 => self.rng.within(-3 * DAY, 3 * DAY),
            5 => self.rng.within(-3 * DAY / NANOS, 3 * DAY / NANOS) * NANOS,
            _ => self.rng.within(-40 * DAY, 40 * DAY),
        };
        instant(about + near)
    }

    /// How far another instant lies.
    fn span(&mut self) -> i128 {
        match self.rng.below(40) {
            0 => 0,
            1..=20 => self.rng.within(-12 * DAY, 12 * DAY),
            21..=37 => self.rng.within(-YEAR, YEAR),
            _ if self.long => self.rng.within(-30 * YEAR, 30 * YEAR),
            _ => self.rng.within(-2 * YEAR, 2 * YEAR),
        }
    }

    /// An instant and a duration from there. `sign` is 1 where durations lead forward,
    /// and -1 where they lead back.
    fn walk(&mut self, sign: i128, worked: Worked<'_>) -> (Timestamp, SignedDuration) {
        let t = self.instant();
        match self.rng.below(20) {
            0 => (t, SignedDuration::ZERO),
            1 => (t, SignedDuration::from_nanos(*self.rng.pick(&[-1, 1]))),
            2 => (t, SignedDuration::MIN),
            3 => self.huge(sign),
            _ => (t, self.duration(t, worked)),
        }
    }

    /// A part of the working time of a span, or all of it, by a nanosecond more or less.
    fn duration(&mut self, t: Timestamp, worked: Worked<'_>) -> SignedDuration {
        let time = worked(t, instant(t.as_nanosecond() + self.span())).as_nanos();
        let nanos = match self.rng.below(4) {
            0 => time + *self.rng.pick(&[-1, 0, 1]),
            1 => self.rng.within(-time.abs(), time.abs()) / HOUR * HOUR,
            _ => self.rng.within(-time.abs(), time.abs()),
        };
        SignedDuration::new((nanos / NANOS) as i64, (nanos % NANOS) as i32)
    }

    /// Longer than there is time, near the end of the range that the duration leads to.
    fn huge(&mut self, sign: i128) -> (Timestamp, SignedDuration) {
        let almost = SignedDuration::MIN + SignedDuration::from_nanos(1);
        let (d, forward) =
            *self.rng.pick(&[(SignedDuration::MAX, sign), (-SignedDuration::MAX, -sign), (almost, -sign)]);
        let back = self.rng.within(0, YEAR);
        let t = if forward > 0 { Timestamp::MAX.as_nanosecond() - back } else { Timestamp::MIN.as_nanosecond() + back };
        (instant(t), d)
    }

    pub fn query(&mut self, worked: Worked<'_>) -> Query {
        match self.rng.below(10) {
            0..=2 => {
                let a = self.instant();
                Query::Between(a, instant(a.as_nanosecond() + self.span()))
            }
            3 | 4 => {
                let (t, d) = self.walk(1, worked);
                Query::Add(t, d)
            }
            5 | 6 => {
                let (t, d) = self.walk(-1, worked);
                Query::Sub(t, d)
            }
            7 | 8 => Query::Next(self.instant()),
            _ => Query::Previous(self.instant()),
        }
    }

    /// A span to be listed: days, or months, so that the first room is too little.
    pub fn listed(&mut self) -> [Timestamp; 2] {
        let a = self.instant();
        let most = *self.rng.pick(&[10 * DAY, 100 * DAY, YEAR]);
        let length = self.rng.within(-DAY, most);
        [a, instant(a.as_nanosecond() + length)]
    }
}
