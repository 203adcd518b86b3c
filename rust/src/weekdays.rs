use std::fmt;

use jiff::civil::Weekday;

/// A set of days of the week.
///
/// # Examples
///
/// ```
/// use hirgwamo::Weekdays;
/// use jiff::civil::Weekday;
///
/// let market: Weekdays = [Weekday::Wednesday, Weekday::Saturday].into_iter().collect();
/// assert!(market.contains(Weekday::Saturday));
/// assert!(!market.contains(Weekday::Friday));
/// assert_eq!(format!("{market:?}"), "{Wednesday, Saturday}");
/// ```
#[derive(Clone, Copy, Default, PartialEq, Eq, Hash)]
pub struct Weekdays(u8);

const MONDAY_ON: [Weekday; 7] = [
    Weekday::Monday,
    Weekday::Tuesday,
    Weekday::Wednesday,
    Weekday::Thursday,
    Weekday::Friday,
    Weekday::Saturday,
    Weekday::Sunday,
];

impl Weekdays {
    /// The empty set, which is also the default.
    pub const EMPTY: Self = Self(0x00);
    /// Monday, Tuesday, Wednesday, Thursday and Friday.
    pub const MON_TO_FRI: Self = Self(0x1F);
    /// All seven days.
    pub const ALL: Self = Self(0x7F);

    /// Tells whether a day is in the set.
    #[must_use]
    pub fn contains(self, day: Weekday) -> bool {
        self.0 & bit(day) != 0
    }

    /// Tells whether there is no day in the set.
    #[must_use]
    pub fn is_empty(self) -> bool {
        self == Self::EMPTY
    }

    /// The byte that a rule book has for the set.
    pub(crate) fn byte(self) -> u8 {
        self.0
    }
}

/// A day's bit in the byte of a rule book: bit 0 is Monday, bit 6 Sunday.
fn bit(day: Weekday) -> u8 {
    1 << day.to_monday_zero_offset()
}

impl FromIterator<Weekday> for Weekdays {
    fn from_iter<I: IntoIterator<Item = Weekday>>(days: I) -> Self {
        let mut set = Self::EMPTY;
        for day in days {
            set.0 |= bit(day);
        }
        set
    }
}

/// The days in their order from Monday on, `{Monday, Friday}` say.
impl fmt::Debug for Weekdays {
    fn fmt(&self, f: &mut fmt::Formatter<'_>) -> fmt::Result {
        let days = MONDAY_ON.iter().filter(|day| self.contains(**day));
        f.debug_set().entries(days).finish()
    }
}
