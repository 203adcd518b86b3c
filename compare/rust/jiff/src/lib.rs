//! A stand-in for the parts of the crate jiff that workclock uses, written
//! from document 01 and RFC 8536, RFC 5545. It is not jiff and shares no code
//! with it. Zones come from a lent pack (`tz::lend`), not from the system.

pub mod civil;
pub mod tz;

use std::iter::Sum;
use std::ops::{Add, AddAssign, Neg, Sub, SubAssign};

const NANO: i32 = 1_000_000_000;

/// What jiff's failing calls hand back; its texts are not kept.
#[derive(Clone, Debug, PartialEq, Eq)]
pub struct Error;

/// An instant: whole seconds rounded down, and nanoseconds.
#[derive(Clone, Copy, Debug, PartialEq, Eq, PartialOrd, Ord, Hash)]
pub struct Timestamp {
    second: i64,
    nano: i32,
}

impl Timestamp {
    pub const MIN: Timestamp = Timestamp::constant(-377_705_023_201, 0);
    pub const MAX: Timestamp = Timestamp::constant(253_402_207_200, NANO - 1);

    /// Unlike jiff's, for nanoseconds from 0 to 999,999,999 only.
    pub const fn constant(second: i64, nano: i32) -> Timestamp {
        Timestamp { second, nano }
    }

    pub fn new(second: i64, nano: i32) -> Result<Timestamp, Error> {
        let made = Timestamp { second, nano };
        let good = (0..NANO).contains(&nano) && Self::MIN <= made && made <= Self::MAX;
        good.then_some(made).ok_or(Error)
    }

    /// Whole seconds, rounded down (jiff's rounds towards zero).
    pub fn floor_second(self) -> i64 {
        self.second
    }

    /// Nanoseconds behind `floor_second`.
    pub fn floor_nanosecond(self) -> i32 {
        self.nano
    }

    pub fn as_nanosecond(self) -> i128 {
        i128::from(self.second) * i128::from(NANO) + i128::from(self.nano)
    }

    pub fn checked_add(self, duration: SignedDuration) -> Result<Timestamp, Error> {
        let second = self.second.checked_add(duration.second).ok_or(Error)?;
        let nano = self.nano + duration.nano;
        if nano < 0 {
            Timestamp::new(second.checked_sub(1).ok_or(Error)?, nano + NANO)
        } else if nano >= NANO {
            Timestamp::new(second.checked_add(1).ok_or(Error)?, nano - NANO)
        } else {
            Timestamp::new(second, nano)
        }
    }

    pub fn checked_sub(self, duration: SignedDuration) -> Result<Timestamp, Error> {
        let second = self.second.checked_sub(duration.second).ok_or(Error)?;
        let nano = self.nano - duration.nano;
        if nano < 0 {
            Timestamp::new(second.checked_sub(1).ok_or(Error)?, nano + NANO)
        } else if nano >= NANO {
            Timestamp::new(second.checked_add(1).ok_or(Error)?, nano - NANO)
        } else {
            Timestamp::new(second, nano)
        }
    }

    /// From `other` to `self`.
    pub fn duration_since(self, other: Timestamp) -> SignedDuration {
        SignedDuration::matched(self.second - other.second, self.nano - other.nano)
    }
}

impl Add<SignedDuration> for Timestamp {
    type Output = Timestamp;
    fn add(self, duration: SignedDuration) -> Timestamp {
        self.checked_add(duration).expect("instant in range")
    }
}

impl Sub<SignedDuration> for Timestamp {
    type Output = Timestamp;
    fn sub(self, duration: SignedDuration) -> Timestamp {
        self.checked_sub(duration).expect("instant in range")
    }
}

/// Seconds and nanoseconds that never have opposite signs.
#[derive(Clone, Copy, Debug, PartialEq, Eq, PartialOrd, Ord, Hash)]
pub struct SignedDuration {
    second: i64,
    nano: i32,
}

impl SignedDuration {
    pub const ZERO: SignedDuration = SignedDuration { second: 0, nano: 0 };
    pub const MAX: SignedDuration = SignedDuration {
        second: i64::MAX,
        nano: NANO - 1,
    };

    pub const fn from_hours(hours: i64) -> SignedDuration {
        SignedDuration::from_secs(hours * 3600)
    }

    pub const fn from_secs(second: i64) -> SignedDuration {
        SignedDuration { second, nano: 0 }
    }

    /// Unlike jiff's, for parts below 10^9 that don't have opposite signs only.
    pub const fn new(second: i64, nano: i32) -> SignedDuration {
        SignedDuration { second, nano }
    }

    pub fn as_secs(&self) -> i64 {
        self.second
    }

    pub fn subsec_nanos(&self) -> i32 {
        self.nano
    }

    pub fn is_zero(&self) -> bool {
        self.second == 0 && self.nano == 0
    }

    pub fn is_positive(&self) -> bool {
        self.second > 0 || self.nano > 0
    }

    pub fn is_negative(&self) -> bool {
        self.second < 0 || self.nano < 0
    }

    pub fn checked_neg(self) -> Option<SignedDuration> {
        Some(SignedDuration {
            second: self.second.checked_neg()?,
            nano: -self.nano,
        })
    }

    /// From parts whose nanoseconds lie between -2 * 10^9 and 2 * 10^9.
    fn matched(mut second: i64, mut nano: i32) -> SignedDuration {
        if nano >= NANO {
            nano -= NANO;
            second = second.checked_add(1).expect("duration in range");
        } else if nano <= -NANO {
            nano += NANO;
            second = second.checked_sub(1).expect("duration in range");
        }
        if second > 0 && nano < 0 {
            second -= 1;
            nano += NANO;
        } else if second < 0 && nano > 0 {
            second += 1;
            nano -= NANO;
        }
        SignedDuration { second, nano }
    }
}

impl Neg for SignedDuration {
    type Output = SignedDuration;
    fn neg(self) -> SignedDuration {
        self.checked_neg().expect("duration in range")
    }
}

impl Add for SignedDuration {
    type Output = SignedDuration;
    fn add(self, other: SignedDuration) -> SignedDuration {
        let second = self.second.checked_add(other.second);
        SignedDuration::matched(second.expect("duration in range"), self.nano + other.nano)
    }
}

impl Sub for SignedDuration {
    type Output = SignedDuration;
    fn sub(self, other: SignedDuration) -> SignedDuration {
        let second = self.second.checked_sub(other.second);
        SignedDuration::matched(second.expect("duration in range"), self.nano - other.nano)
    }
}

impl AddAssign for SignedDuration {
    fn add_assign(&mut self, other: SignedDuration) {
        *self = *self + other;
    }
}

impl SubAssign for SignedDuration {
    fn sub_assign(&mut self, other: SignedDuration) {
        *self = *self - other;
    }
}

impl Sum for SignedDuration {
    fn sum<I: Iterator<Item = SignedDuration>>(parts: I) -> SignedDuration {
        parts.fold(SignedDuration::ZERO, Add::add)
    }
}
