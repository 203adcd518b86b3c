//! Rule books, zone packs and calls to measure on.

pub const BERLIN: &str = "Europe/Berlin";
pub const NEW_YORK: &str = "America/New_York";
pub const MON_TO_FRI: u8 = 0b001_1111;
pub const MON_TO_SAT: u8 = 0b011_1111;
pub const HOUR: u32 = 3600;
pub const DAY: i64 = 86_400;

/// Wednesday 2026-01-07T10:30:00Z.
pub const WEDNESDAY: i64 = 1_767_781_800;
/// Saturday 2026-01-10T10:00:00Z.
pub const SATURDAY: i64 = 1_768_039_200;
/// Wednesday 2026-10-28T04:00:00Z: less than four days after the clock change in Berlin, and less than four days before that in New York.
pub const CLOCK_CHANGE: i64 = 1_793_160_000;

/// A directory with its records behind it.
pub fn join(records: &[Vec<u8>]) -> Vec<u8> {
    let mut out = (records.len() as u32).to_be_bytes().to_vec();
    let mut at = 4 + 8 * records.len();
    for record in records {
        out.extend((at as u32).to_be_bytes());
        out.extend((record.len() as u32).to_be_bytes());
        at += record.len();
    }
    out.extend(records.concat());
    out
}

pub fn named(kind: u8, name: &str) -> Vec<u8> {
    let mut record = vec![kind, name.len() as u8];
    record.extend(name.bytes());
    record
}

pub fn shift(kind: u8, name: &str, days: u8, start: u32, end: u32) -> Vec<u8> {
    let mut record = named(kind, name);
    record.push(days);
    for number in [start, 0, end, 0] {
        record.extend(number.to_be_bytes());
    }
    record
}

pub fn holidays(name: &str, dates: &[(i16, u8, u8)]) -> Vec<u8> {
    let mut record = named(3, name);
    record.extend((dates.len() as u16).to_be_bytes());
    for &(year, month, day) in dates {
        record.extend(year.to_be_bytes());
        record.extend([month, day]);
    }
    record
}

/// Thirty dates: ten in each of three years.
pub fn thirty() -> Vec<(i16, u8, u8)> {
    let year = [
        (1, 1),
        (1, 6),
        (4, 3),
        (4, 6),
        (5, 1),
        (5, 14),
        (5, 25),
        (10, 3),
        (12, 25),
        (12, 26),
    ];
    let of = |number: i16| year.map(|(month, day)| (number, month, day));
    [of(2026), of(2027), of(2028)].concat()
}

/// 16 work, 16 break and 8 holiday records, 512 dates, in two zones. The dates
/// are four a month over more than ten years.
pub fn all_limits() -> Vec<Vec<u8>> {
    let zone = |place: u32| if place % 2 == 0 { "" } else { NEW_YORK };
    let mut records = vec![named(0, BERLIN)];
    for place in 0..16 {
        let start = place * HOUR + 1800;
        let days = 0b111_1111 ^ 1 << (place % 7);
        records.push(shift(1, zone(place), days, start, start + 3000));
        records.push(shift(2, zone(place / 2), days, start + 1200, start + 1500));
    }
    let dates: Vec<(i16, u8, u8)> = (0..512)
        .map(|place| (2026 + place / 48, (place / 4 % 12) as u8 + 1, (place % 4) as u8 * 7 + 3))
        .collect();
    for (place, part) in dates.chunks(64).enumerate() {
        records.push(holidays(zone(place as u32), part));
    }
    records
}

/// A pack of names and zone files.
pub fn packed(zones: &[(&str, Vec<u8>)]) -> Vec<u8> {
    let record = |(name, file): &(&str, Vec<u8>)| [&[name.len() as u8], name.as_bytes(), file].concat();
    join(&zones.iter().map(record).collect::<Vec<_>>())
}

/// The two zones, from the files below ZONEINFO.
pub fn zones(zoneinfo: &str) -> std::io::Result<Vec<(&'static str, Vec<u8>)>> {
    let read = |name| Ok((name, std::fs::read(std::path::Path::new(zoneinfo).join(name))?));
    [BERLIN, NEW_YORK].into_iter().map(read).collect()
}

/// A pack of the two zones.
pub fn pack(zoneinfo: &str) -> std::io::Result<Vec<u8>> {
    Ok(packed(&zones(zoneinfo)?))
}

/// Four books and their names.
pub fn books() -> Vec<(&'static str, Vec<Vec<u8>>)> {
    let office = shift(1, "", MON_TO_FRI, 9 * HOUR, 17 * HOUR);
    vec![
        ("office-utc", vec![office.clone()]),
        (
            "office-berlin-30",
            vec![named(0, BERLIN), office, holidays("", &thirty())],
        ),
        (
            "shifts-new-york-30",
            vec![
                named(0, NEW_YORK),
                shift(1, "", MON_TO_SAT, 6 * HOUR, 14 * HOUR),
                shift(1, "", MON_TO_SAT, 14 * HOUR, 22 * HOUR),
                shift(2, "", MON_TO_SAT, 10 * HOUR, 10 * HOUR + 1800),
                shift(2, "", MON_TO_SAT, 18 * HOUR, 18 * HOUR + 1800),
                holidays("", &thirty()),
            ],
        ),
        ("all-limits", all_limits()),
    ]
}

/// Numbers at random, the same in every run.
pub struct Random(u64);

impl Random {
    pub fn new(seed: u64) -> Random {
        Random(seed)
    }

    /// A number below MOST.
    pub fn below(&mut self, most: u64) -> u64 {
        self.0 = self.0.wrapping_mul(6_364_136_223_846_793_005).wrapping_add(1_442_695_040_888_963_407);
        (self.0 >> 24) % most
    }
}

/// Made-up zones whose offset changes as often as a file may tell it, 1 to 400 s
/// apart, in less than five days from the day before the Wednesday on.
pub const CLOSE_TWO: &str = "Close/Two";
pub const CLOSE_ANY: &str = "Close/Any";
pub const MOST_CHANGES: usize = 2048;
pub const MOST_APART: u64 = 400;
const CLOSE_START: i64 = WEDNESDAY - DAY;
/// As many offsets as a file may have, and the largest one either way.
const MOST_TYPES: usize = 256;
const FARTHEST: i32 = 93_599;

/// The header of a data block that has no leap records and no indicators.
fn header(times: usize, types: usize, letters: usize) -> Vec<u8> {
    let counts = [0, 0, 0, times, types, letters];
    let counts = counts.map(|count| (count as u32).to_be_bytes()).concat();
    [b"TZif2".as_slice(), &[0; 15], &counts].concat()
}

/// A zone file with an empty footer: when the offset changes, and to which of OFFSETS; the first of them holds before.
fn zone_file(changes: &[(i64, u8)], offsets: &[i32]) -> Vec<u8> {
    const NAME: &[u8] = b"AAA\0";
    let kind = |offset: &i32| [offset.to_be_bytes().as_slice(), &[0, 0]].concat();
    let mut file = [header(0, 1, NAME.len()), kind(&0), NAME.to_vec()].concat();
    file.extend(header(changes.len(), offsets.len(), NAME.len()));
    file.extend(changes.iter().flat_map(|(second, _)| second.to_be_bytes()));
    file.extend(changes.iter().map(|(_, number)| number));
    file.extend(offsets.iter().flat_map(kind));
    file.extend(NAME);
    file.extend(b"\n\n");
    file
}

/// Changes to types that NUMBER tells for each place.
fn close_changes(random: &mut Random, number: impl Fn(&mut Random, usize) -> u8) -> Vec<(i64, u8)> {
    let mut second = CLOSE_START;
    let change = |place| {
        second += 1 + random.below(MOST_APART) as i64;
        (second, number(random, place))
    };
    (0..MOST_CHANGES).map(change).collect()
}

/// The made-up zones: two offsets that take turns, and offsets at random.
pub fn close_zones() -> Vec<(&'static str, Vec<u8>)> {
    let two = close_changes(&mut Random::new(1), |_, place| (place as u8 + 1) % 2);
    let mut random = Random::new(2);
    let span = 2 * FARTHEST as u64 + 1;
    let offsets: Vec<i32> = (0..MOST_TYPES).map(|_| random.below(span) as i32 - FARTHEST).collect();
    let any = close_changes(&mut random, |random, _| random.below(MOST_TYPES as u64) as u8);
    vec![(CLOSE_TWO, zone_file(&two, &[3600, 7200])), (CLOSE_ANY, zone_file(&any, &offsets))]
}

/// Office hours in the made-up zones.
pub fn close_books() -> Vec<(&'static str, Vec<Vec<u8>>)> {
    let office = |zone| vec![named(0, zone), shift(1, "", MON_TO_FRI, 9 * HOUR, 17 * HOUR)];
    vec![("office-close-two", office(CLOSE_TWO)), ("office-close-any", office(CLOSE_ANY))]
}

/// An instant: its second, rounded down, and its nanoseconds.
pub type Instant = [i64; 2];

/// Both ends of the range.
pub const FIRST: Instant = [-377_705_023_201, 0];
pub const LAST: Instant = [253_402_207_200, 999_999_999];

/// What a call asks, as a query line has it; durations in hours.
#[derive(Clone, Copy)]
pub enum Call {
    Between(Instant, Instant),
    Add(Instant, i64),
    Sub(Instant, i64),
    Next(Instant),
    Previous(Instant),
}

impl Call {
    pub fn line(self) -> String {
        let told = |[second, nano]: Instant| format!("{second} {nano}");
        match self {
            Call::Between(a, b) => format!("between {} {}\n", told(a), told(b)),
            Call::Add(at, hours) => format!("add {} {} 0\n", told(at), hours * 3600),
            Call::Sub(at, hours) => format!("sub {} {} 0\n", told(at), hours * 3600),
            Call::Next(at) => format!("next {}\n", told(at)),
            Call::Previous(at) => format!("previous {}\n", told(at)),
        }
    }
}

/// The calls that look at one or two weeks.
pub const SHORT: [&str; 5] = ["between-1-week", "add-8-h", "sub-8-h", "next", "previous"];

/// The calls and their names.
pub fn calls() -> Vec<(&'static str, Call)> {
    let start = [WEDNESDAY, 0];
    let until = |days: i64| [WEDNESDAY + days * DAY, 0];
    let saturday = [SATURDAY, 0];
    vec![
        ("between-1-week", Call::Between(start, until(7))),
        ("between-1-year", Call::Between(start, until(365))),
        ("between-10-years", Call::Between(start, until(3_652))),
        ("between-100-years", Call::Between(start, until(36_525))),
        ("between-whole-range", Call::Between(FIRST, LAST)),
        ("add-8-h", Call::Add(start, 8)),
        ("add-4000-h", Call::Add(start, 4_000)),
        ("sub-8-h", Call::Sub(start, 8)),
        ("sub-4000-h", Call::Sub(start, 4_000)),
        ("next", Call::Next(saturday)),
        ("previous", Call::Previous(saturday)),
        ("next-clock-change", Call::Next([CLOCK_CHANGE, 0])),
        ("previous-clock-change", Call::Previous([CLOCK_CHANGE + 14 * i64::from(HOUR), 0])),
    ]
}
