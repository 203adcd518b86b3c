//! Time zones: TZif files (RFC 8536) with the limits of document 01, out of a
//! lent pack of names and files.
//!
//! A zone is a row of segments, each with one offset. Those up to the last
//! transition are a table; behind it the footer's changes are worked out year
//! by year.

use std::cell::{OnceCell, RefCell};
use std::sync::Arc;

use crate::civil::{day_number, is_leap, month_days, year_of, Date, DateTime, Time, DAY};
use crate::{Error, Timestamp};

/// The largest offset, either way.
const FARTHEST: i64 = 93_599;

/// A name and its file, with the zone once it was asked for.
struct Lent {
    name: Vec<u8>,
    file: Vec<u8>,
    zone: OnceCell<Option<Arc<Zone>>>,
}

thread_local! {
    static PACK: RefCell<Vec<Lent>> = const { RefCell::new(Vec::new()) };
}

/// Lends the names and files that `TimeZone::get` looks in.
pub fn lend(pack: Vec<(Vec<u8>, Vec<u8>)>) {
    let lent = pack.into_iter().map(|(name, file)| Lent {
        name,
        file,
        zone: OnceCell::new(),
    });
    PACK.with(|pack| *pack.borrow_mut() = lent.collect());
}

/// Why a name gives no zone.
#[derive(Clone, Copy, Debug, PartialEq, Eq)]
pub enum Lack {
    Unknown,
    Unusable,
}

/// Looks a name up: the first match without regard to ASCII case decides.
pub fn find(name: &[u8]) -> Result<TimeZone, Lack> {
    PACK.with(|pack| {
        let pack = pack.borrow();
        let found = pack.iter().find(|lent| lent.name.eq_ignore_ascii_case(name));
        let lent = found.ok_or(Lack::Unknown)?;
        let zone = lent.zone.get_or_init(|| Zone::read(&lent.file).map(Arc::new));
        zone.clone().map(|zone| TimeZone(Some(zone))).ok_or(Lack::Unusable)
    })
}

#[derive(Clone, Debug)]
pub struct TimeZone(Option<Arc<Zone>>);

impl TimeZone {
    pub const UTC: TimeZone = TimeZone(None);

    /// The name's characters stand for its bytes (0 to 255).
    pub fn get(name: &str) -> Result<TimeZone, Error> {
        let bytes: Vec<u8> = name.chars().map(|c| u8::try_from(c).unwrap_or(b'?')).collect();
        find(&bytes).map_err(|_| Error)
    }

    pub fn to_datetime(&self, instant: Timestamp) -> DateTime {
        let second = instant.floor_second();
        let offset = self.0.as_ref().map_or(0, |zone| zone.segment(second).offset);
        let local = second + offset;
        let time = Time {
            second: local.rem_euclid(DAY) as i32,
            nano: instant.floor_nanosecond(),
        };
        Date::of_number(local.div_euclid(DAY)).to_datetime(time)
    }

    pub fn to_ambiguous_zoned(&self, local: DateTime) -> AmbiguousZoned {
        let second = local.date.number() * DAY + i64::from(local.time.second);
        let second = self.0.as_ref().map_or(second, |zone| zone.reading(second));
        AmbiguousZoned {
            second,
            nano: local.time.nano,
        }
    }

    /// The changes of offset after an instant.
    pub fn following(&self, instant: Timestamp) -> Following<'_> {
        Following {
            zone: self.0.as_deref(),
            second: instant.floor_second(),
        }
    }
}

/// A local time with its compatible reading already made.
pub struct AmbiguousZoned {
    second: i64,
    nano: i32,
}

impl AmbiguousZoned {
    /// Fails beyond the range of instants.
    pub fn compatible(self) -> Result<Zoned, Error> {
        Timestamp::new(self.second, self.nano).map(Zoned)
    }
}

pub struct Zoned(Timestamp);

impl Zoned {
    pub fn timestamp(&self) -> Timestamp {
        self.0
    }
}

pub struct Following<'a> {
    zone: Option<&'a Zone>,
    second: i64,
}

pub struct Transition(Timestamp);

impl Transition {
    pub fn timestamp(&self) -> Timestamp {
        self.0
    }
}

impl Iterator for Following<'_> {
    type Item = Transition;

    fn next(&mut self) -> Option<Transition> {
        let next = self.zone?.segment(self.second).end;
        self.second = next;
        Timestamp::new(next, 0).ok().map(Transition)
    }
}

/// A stretch of seconds with one offset: `start` included, `end` excluded. The
/// neighbours have other offsets. The ends of the zone are the ends of i64.
#[derive(Clone, Copy, Debug)]
struct Segment {
    start: i64,
    end: i64,
    offset: i64,
}

#[derive(Debug)]
pub struct Zone {
    /// Where the table's segments start, the first one left out.
    starts: Vec<i64>,
    /// The table's offsets, one more than starts.
    offsets: Vec<i64>,
    /// Rules of daylight time that hold from `since` on.
    rules: Option<Rules>,
    since: i64,
    greatest: i64,
    least: i64,
}

impl Zone {
    fn new(types: &[i64], changes: &[(i64, i64)], footer: Option<Footer>) -> Zone {
        let mut zone = Zone {
            starts: Vec::new(),
            offsets: vec![types[0]],
            rules: None,
            since: changes.last().map_or(i64::MIN, |change| change.0),
            greatest: 0,
            least: 0,
        };
        for (place, &(second, offset)) in changes.iter().enumerate() {
            let last = place + 1 == changes.len();
            match &footer {
                Some(footer) if last => zone.push(second, footer.offset(near(second))),
                _ => zone.push(second, offset),
            }
        }
        match footer {
            Some(Footer::Fixed(offset)) if changes.is_empty() => zone.offsets = vec![offset],
            Some(Footer::Rules(rules)) => zone.rules = Some(rules),
            _ => {}
        }
        let of_rules = zone.rules.as_ref().map(|rules| [rules.standard, rules.daylight]);
        let all = || zone.offsets.iter().chain(of_rules.iter().flatten()).copied();
        (zone.greatest, zone.least) = (all().max().unwrap_or(0), all().min().unwrap_or(0));
        zone
    }

    /// Adds a table segment, if its offset is another one.
    fn push(&mut self, start: i64, offset: i64) {
        if self.offsets.last() != Some(&offset) {
            self.starts.push(start);
            self.offsets.push(offset);
        }
    }

    /// The segment that holds a second.
    fn segment(&self, second: i64) -> Segment {
        match &self.rules {
            Some(rules) if second >= self.since => self.ruled(rules, second),
            _ => {
                let place = self.starts.partition_point(|&start| start <= second);
                let mut found = self.of_table(place);
                // The last one has the offset that the rules have at `since`.
                if let (i64::MAX, Some(rules)) = (found.end, &self.rules) {
                    found.end = rules.segment(near(self.since)).end.max(self.since);
                }
                found
            }
        }
    }

    fn of_table(&self, place: usize) -> Segment {
        Segment {
            start: place.checked_sub(1).map_or(i64::MIN, |before| self.starts[before]),
            end: self.starts.get(place).copied().unwrap_or(i64::MAX),
            offset: self.offsets[place],
        }
    }


    /// The segment of a second from `since` on.
    fn ruled(&self, rules: &Rules, second: i64) -> Segment {
        let found = rules.segment(second);
        if found.start > self.since {
            return found;
        }
        // It began in the table, or is the whole zone.
        let start = self.starts.last().copied().unwrap_or(i64::MIN);
        Segment { start, ..found }
    }

    /// The second that a local second means: the earliest one that reads so,
    /// or, jumped over, by the offset before the earliest such jump.
    fn reading(&self, local: i64) -> i64 {
        let mut segment = self.segment(local - self.greatest);
        let mut jumped = None;
        loop {
            let second = local - segment.offset;
            if segment.start <= second && second < segment.end {
                return second;
            }
            if segment.end > local - self.least {
                // Nothing further on can read or jump over it.
                return jumped.expect("a reading or a jump");
            }
            let next = self.segment(segment.end);
            let jump = segment.end + segment.offset..segment.end + next.offset;
            if jumped.is_none() && jump.contains(&local) {
                jumped = Some(second);
            }
            segment = next;
        }
    }

    /// Reads a TZif file; `None` where it isn't usable.
    fn read(file: &[u8]) -> Option<Zone> {
        let first = Header::read(file, 0)?;
        let second = Header::read(file, first.end(4, 8)?)?;
        let end = second.end(8, 12)?;
        let good = first.version == second.version
            && (1..=256).contains(&second.types)
            && second.times <= 2048
            && second.leaps == 0
            && (second.uts == 0 || second.uts == second.types)
            && (second.stds == 0 || second.stds == second.types)
            && second.letters > 0;
        if !good || end > file.len() {
            return None;
        }
        let mut rest = &file[second.at + 44..];
        let mut part = |size: usize| {
            let (part, behind) = rest.split_at(size);
            rest = behind;
            part
        };
        let times: Vec<i64> = part(8 * second.times).chunks_exact(8).map(signed).collect();
        let numbers = part(second.times);
        let kinds = part(6 * second.types);
        part(second.letters);
        let flags = part(second.stds + second.uts);
        let footer = Footer::read(rest, second.version)?;
        let good = times.windows(2).all(|pair| pair[0] < pair[1])
            && numbers.iter().all(|&number| usize::from(number) < second.types)
            && kinds.chunks_exact(6).all(|kind| {
                signed(&kind[..4]).abs() <= FARTHEST
                    && kind[4] < 2
                    && usize::from(kind[5]) < second.letters
            })
            && flags.iter().all(|&flag| flag < 2);
        if !good {
            return None;
        }
        let types: Vec<i64> = kinds.chunks_exact(6).map(|kind| signed(&kind[..4])).collect();
        let offsets = numbers.iter().map(|&number| types[usize::from(number)]);
        let changes: Vec<(i64, i64)> = times.iter().copied().zip(offsets).collect();
        Some(Zone::new(&types, &changes, footer))
    }
}

/// The second itself, or one just as far beyond the range of instants, from
/// where nothing can be seen in it: transitions go to both ends of i64.
fn near(second: i64) -> i64 {
    second.clamp(-1_000_000_000_000, 1_000_000_000_000)
}

/// A big-endian two's complement number of at most eight bytes.
fn signed(bytes: &[u8]) -> i64 {
    let start = if bytes[0] > 127 { -1 } else { 0 };
    bytes.iter().fold(start, |value, &byte| value << 8 | i64::from(byte))
}

struct Header {
    at: usize,
    version: u8,
    uts: usize,
    stds: usize,
    leaps: usize,
    times: usize,
    types: usize,
    letters: usize,
}

impl Header {
    fn read(file: &[u8], at: usize) -> Option<Header> {
        let header = file.get(at..at.checked_add(44)?)?;
        let version = header[4];
        if &header[..4] != b"TZif" || (version != b'2' && version != b'3') {
            return None;
        }
        let count = |place: usize| {
            let start = 20 + 4 * place;
            u32::from_be_bytes([
                header[start],
                header[start + 1],
                header[start + 2],
                header[start + 3],
            ]) as usize
        };
        Some(Header {
            at,
            version,
            uts: count(0),
            stds: count(1),
            leaps: count(2),
            times: count(3),
            types: count(4),
            letters: count(5),
        })
    }

    /// Where the data block behind the header ends (64-bit `usize`).
    fn end(&self, time_size: usize, leap_size: usize) -> Option<usize> {
        let sizes = [
            (time_size + 1) * self.times,
            6 * self.types,
            self.letters,
            leap_size * self.leaps,
            self.stds,
            self.uts,
        ];
        Some(self.at + 44 + sizes.iter().sum::<usize>())
    }
}

enum Footer {
    Fixed(i64),
    Rules(Rules),
}

impl Footer {
    fn offset(&self, second: i64) -> i64 {
        match self {
            Footer::Fixed(offset) => *offset,
            Footer::Rules(rules) => rules.segment(second).offset,
        }
    }

    /// The rest of a file of some version: newline, footer, newline. `None`
    /// where unusable, `Some(None)` where empty.
    fn read(rest: &[u8], version: u8) -> Option<Option<Footer>> {
        let text = rest.strip_prefix(b"\n")?.strip_suffix(b"\n")?;
        if text.is_empty() {
            return Some(None);
        }
        let mut text = text;
        name(&mut text)?;
        let standard = offset(&mut text)?;
        if text.is_empty() {
            return Some(Some(Footer::Fixed(standard)));
        }
        name(&mut text)?;
        let daylight = if text.first() == Some(&b',') {
            standard + 3600
        } else {
            offset(&mut text)?
        };
        byte(&mut text, b',')?;
        let start = Rule::read(&mut text, version)?;
        byte(&mut text, b',')?;
        let end = Rule::read(&mut text, version)?;
        let rules = Rules::new(standard, daylight, start, end);
        text.is_empty().then_some(Some(Footer::Rules(rules)))
    }
}

fn byte(text: &mut &[u8], wanted: u8) -> Option<()> {
    *text = text.strip_prefix(&[wanted])?;
    Some(())
}

/// Letters, at least three; or in angle brackets letters, digits, + and -.
fn name(text: &mut &[u8]) -> Option<()> {
    let quoted = byte(text, b'<').is_some();
    let belongs = |c: &u8| match quoted {
        true => c.is_ascii_alphanumeric() || *c == b'+' || *c == b'-',
        false => c.is_ascii_alphabetic(),
    };
    let length = text.iter().take_while(|c| belongs(c)).count();
    *text = &text[length..];
    if quoted {
        byte(text, b'>')?;
    }
    (length >= 3).then_some(())
}

/// `least` to `most` digits, as many as there are.
fn digits(text: &mut &[u8], least: usize, most: usize) -> Option<i64> {
    let length = text.iter().take(most).take_while(|c| c.is_ascii_digit()).count();
    let (number, rest) = text.split_at(length);
    *text = rest;
    let value = number.iter().fold(0, |value, c| 10 * value + i64::from(c - b'0'));
    (length >= least).then_some(value)
}

/// hh[:mm[:ss]] with hours from 0 to `most`, in as many digits as that has or
/// fewer.
fn clock(text: &mut &[u8], most: i64) -> Option<i64> {
    let hours = digits(text, 1, if most > 99 { 3 } else { 2 })?;
    let mut rest = [0, 0];
    for part in &mut rest {
        if byte(text, b':').is_none() {
            break;
        }
        *part = digits(text, 2, 2)?;
    }
    let good = hours <= most && rest[0] < 60 && rest[1] < 60;
    good.then_some(hours * 3600 + rest[0] * 60 + rest[1])
}

/// Takes a sign, if there is one; whether it is a minus.
fn minus(text: &mut &[u8]) -> bool {
    let found = byte(text, b'-').is_some();
    if !found {
        let _ = byte(text, b'+');
    }
    found
}

/// Seconds east of UTC; the text tells them west.
fn offset(text: &mut &[u8]) -> Option<i64> {
    let east = minus(text);
    let value = clock(text, 24)?;
    Some(if east { value } else { -value })
}

/// The time of a rule in seconds from midnight: in version 3 up to 167 hours,
/// with a sign or without (RFC 8536, 3.3.1).
fn rule_time(text: &mut &[u8], version: u8) -> Option<i64> {
    if version != b'3' {
        return clock(text, 24);
    }
    let before = minus(text);
    let value = clock(text, 167)?;
    Some(if before { -value } else { value })
}

#[derive(Clone, Copy, Debug)]
enum Day {
    /// 1 to 365, without 29 February.
    Julian(i64),
    /// 0 to 365.
    Plain(i64),
    /// Month, week (5 is the last), weekday (0 is Sunday).
    Week(i64, i64, i64),
}

#[derive(Clone, Copy, Debug)]
struct Rule {
    day: Day,
    time: i64,
}

impl Rule {
    fn read(text: &mut &[u8], version: u8) -> Option<Rule> {
        let (day, good) = if byte(text, b'J').is_some() {
            let day = digits(text, 1, 3)?;
            (Day::Julian(day), (1..=365).contains(&day))
        } else if byte(text, b'M').is_some() {
            let month = digits(text, 1, 2)?;
            byte(text, b'.')?;
            let week = digits(text, 1, 1)?;
            byte(text, b'.')?;
            let day = digits(text, 1, 1)?;
            let good = (1..=12).contains(&month) && (1..=5).contains(&week) && day <= 6;
            (Day::Week(month, week, day), good)
        } else {
            let day = digits(text, 1, 3)?;
            (Day::Plain(day), day <= 365)
        };
        let time = match byte(text, b'/') {
            Some(()) => rule_time(text, version)?,
            None => 2 * 3600,
        };
        good.then_some(Rule { day, time })
    }

    /// The local second at which it strikes in a year.
    fn second(&self, year: i64) -> i64 {
        let day = match self.day {
            Day::Julian(day) => {
                let behind = is_leap(year) && day > 59;
                day_number(year, 1, 1) + day - 1 + i64::from(behind)
            }
            Day::Plain(day) => day_number(year, 1, 1) + day,
            Day::Week(month, week, day) => {
                let first = day_number(year, month, 1);
                let weekday = (first + 4).rem_euclid(7);
                let mut date = 1 + (day - weekday).rem_euclid(7) + 7 * (week - 1);
                if date > month_days(year, month) {
                    date -= 7;
                }
                first + date - 1
            }
        };
        day * DAY + self.time
    }

    /// The month of its day in every year, if the change, at most nine days
    /// from that day, stays inside that year: February to November.
    fn quiet_month(&self) -> Option<i64> {
        match self.day {
            Day::Week(month, _, _) => Some(month).filter(|month| (2..=11).contains(month)),
            _ => None,
        }
    }
}

/// Standard and daylight time with their two changes a year.
#[derive(Debug)]
struct Rules {
    standard: i64,
    daylight: i64,
    start: Rule,
    end: Rule,
    /// Both changes always lie inside their year, in one order: at least a
    /// month lies between the months of their days.
    plain: bool,
}

impl Rules {
    fn new(standard: i64, daylight: i64, start: Rule, end: Rule) -> Rules {
        let plain = match (start.quiet_month(), end.quiet_month()) {
            (Some(a), Some(b)) => (a - b).abs() >= 2,
            _ => false,
        };
        Rules {
            standard,
            daylight,
            start,
            end,
            plain,
        }
    }

    fn start_of(&self, year: i64) -> i64 {
        self.start.second(year) - self.standard
    }

    fn end_of(&self, year: i64) -> i64 {
        self.end.second(year) - self.daylight
    }

    /// The segment of a second, as if the rules held for all time. An end that
    /// lies over two years off may be told as an end of i64: with a tie in
    /// each year daylight time goes on and on.
    fn segment(&self, second: i64) -> Segment {
        if self.standard == self.daylight {
            return Segment {
                start: i64::MIN,
                end: i64::MAX,
                offset: self.standard,
            };
        }
        let year = year_of(second.div_euclid(DAY));
        if self.plain {
            return self.plain_segment(second, year);
        }
        // Changes of a year stray by less than nine days beyond it.
        let mut changes = [(0, false); 14];
        for (place, year) in (year - 3..year + 4).enumerate() {
            changes[2 * place] = (self.start_of(year), true);
            changes[2 * place + 1] = (self.end_of(year), false);
        }
        changes.sort_unstable();
        let mut held = Vec::with_capacity(changes.len());
        // Of changes at one second the last counts, daylight's start; one to
        // the time that holds already is none.
        for (place, &(at, daylight)) in changes.iter().enumerate() {
            let overruled = changes.get(place + 1).is_some_and(|next| next.0 == at);
            if !overruled && held.last().is_none_or(|&(_, before)| before != daylight) {
                held.push((at, daylight));
            }
        }
        let next = held.partition_point(|&(at, _)| at <= second);
        let (start, daylight) = held[next - 1];
        Segment {
            start: if next == 1 { i64::MIN } else { start },
            end: held.get(next).map_or(i64::MAX, |&(at, _)| at),
            offset: if daylight { self.daylight } else { self.standard },
        }
    }

    fn plain_segment(&self, second: i64, year: i64) -> Segment {
        let (start, end) = (self.start_of(year), self.end_of(year));
        let (first, last, summer) = match start < end {
            true => (start, end, self.daylight),
            false => (end, start, self.standard),
        };
        let winter = self.standard + self.daylight - summer;
        let first_of = |year| match start < end {
            true => self.start_of(year),
            false => self.end_of(year),
        };
        let last_of = |year| match start < end {
            true => self.end_of(year),
            false => self.start_of(year),
        };
        if second < first {
            Segment {
                start: last_of(year - 1),
                end: first,
                offset: winter,
            }
        } else if second < last {
            Segment {
                start: first,
                end: last,
                offset: summer,
            }
        } else {
            Segment {
                start: last,
                end: first_of(year + 1),
                offset: winter,
            }
        }
    }
}
