//! What a user of the crate can rely on: traits, limits, errors and their order.

use std::collections::hash_map::DefaultHasher;
use std::fmt::Debug;
use std::hash::{Hash, Hasher};

use hirgwamo::{
    resolve_marked, Answer, Break, Error, Holidays, Mark, MarkedInstant, MarkedPeriod, Query, Rule, Schedule,
    ScheduleBuilder, Weekdays, WorkDay,
};
use jiff::civil::{date, time, Date, Weekday};
use jiff::{SignedDuration, Timestamp, ToSpan, Zoned};

fn office() -> WorkDay {
    WorkDay::new(time(9, 0, 0, 0), time(17, 0, 0, 0), Weekdays::MON_TO_FRI)
}

fn lunch() -> Break {
    Break::new(time(12, 0, 0, 0), time(13, 0, 0, 0), Weekdays::MON_TO_FRI)
}

fn instant(text: &str) -> Timestamp {
    text.parse().unwrap()
}

fn dates(count: i32) -> Vec<Date> {
    (0..count).map(|day| date(1900, 1, 1) + day.days()).collect()
}

fn unknown(name: &str) -> Error {
    Error::UnknownZone { name: name.to_string() }
}

#[test]
fn types_have_the_traits_of_the_original() {
    fn shared<T: Clone + Debug + Send + Sync + Unpin + 'static>() {}
    fn compared<T: Clone + Debug + Eq + Hash + Send + Sync + 'static>() {}
    fn copied<T: Copy + Default>() {}
    shared::<Schedule>();
    shared::<ScheduleBuilder>();
    compared::<Rule>();
    compared::<WorkDay>();
    compared::<Break>();
    compared::<Holidays>();
    compared::<Weekdays>();
    compared::<Error>();
    compared::<Query>();
    compared::<Answer>();
    compared::<Mark>();
    compared::<MarkedInstant>();
    compared::<MarkedPeriod>();
    copied::<Weekdays>();
    let _: ScheduleBuilder = ScheduleBuilder::default();
    let _: Box<dyn std::error::Error + Send + Sync> = Box::new(Error::NoWorkingTime);
}

#[test]
fn equal_rules_have_equal_hashes() {
    let hash = |rule: &Rule| {
        let mut hasher = DefaultHasher::new();
        rule.hash(&mut hasher);
        hasher.finish()
    };
    let [one, two] = [[1, 2, 1], [2, 1, 2]].map(|days| Rule::from(Holidays::new(days.map(|day| date(2026, 1, day)))));
    assert_eq!(one, two);
    assert_eq!(hash(&one), hash(&two));
    assert_ne!(Rule::from(office()), Rule::from(office().time_zone("UTC")));
}

#[test]
fn weekdays_are_sets() {
    let every: Weekdays = Weekday::Monday.cycle_forward().take(7).collect();
    assert_eq!(every, Weekdays::ALL);
    let five: Weekdays = Weekday::Monday.cycle_forward().take(5).collect();
    assert_eq!(five, Weekdays::MON_TO_FRI);
    assert_eq!(Weekdays::default(), Weekdays::EMPTY);
    assert_eq!(format!("{five:?} {:?}", Weekdays::EMPTY), "{Monday, Tuesday, Wednesday, Thursday, Friday} {}");
}

#[test]
fn calls_take_zoned_instants() {
    let schedule = Schedule::builder().rule(office()).build().unwrap();
    let monday: Zoned = "2026-01-05T10:00[Europe/Berlin]".parse().unwrap();
    assert_eq!(schedule.add(&monday, SignedDuration::from_hours(1)), Ok(instant("2026-01-05T10:00Z")));
    assert_eq!(schedule.between(&monday, instant("2026-01-05T12:00Z")), SignedDuration::from_hours(3));
    assert_eq!(schedule.list(&monday, monday.clone()), []);
}

#[test]
fn errors_have_texts() {
    let texts = [
        (Error::NoWorkingTime, "no working time found"),
        (Error::OutOfRange, "result is outside the supported range -009999-01-02T01:59:59Z to 9999-12-30T22:00:00Z"),
        (unknown("A/B"), "unknown time zone `A/B`"),
        (
            Error::TooManyRules,
            "too many rules: at most 16 work days, 16 breaks and 8 lists of holidays with 512 dates in all",
        ),
        (Error::UnusableZone { name: "C".into() }, "the zone file of time zone `C` is not usable"),
    ];
    for (error, text) in texts {
        assert_eq!(error.to_string(), text);
    }
}

/// So many rules build, and one more does not.
fn limit(most: usize, rule: impl Fn(usize) -> Rule) {
    let with = |count: usize| {
        (0..count).map(&rule).fold(Schedule::builder().rule(lunch()).rule(office()), ScheduleBuilder::rule).build()
    };
    assert!(with(most).is_ok());
    assert_eq!(with(most + 1).unwrap_err(), Error::TooManyRules);
}

#[test]
fn rules_have_limits() {
    limit(15, |_| office().into());
    limit(15, |_| lunch().into());
    limit(8, |_| Holidays::new([]).into());
}

#[test]
fn dates_have_limits() {
    let with = |lists: &[i32]| {
        let holidays = lists.iter().map(|count| Holidays::new(dates(*count)));
        holidays.fold(Schedule::builder().rule(office()), ScheduleBuilder::rule).build().map(|_| ())
    };
    assert_eq!(with(&[512]), Ok(()));
    assert_eq!(with(&[64; 8]), Ok(()));
    for count in [513, 65_535, 65_536, 70_000] {
        assert_eq!(with(&[count]), Err(Error::TooManyRules), "{count}");
    }
    assert_eq!(with(&[64, 64, 64, 64, 64, 64, 64, 65]), Err(Error::TooManyRules));
    let twice = Holidays::new([dates(512), dates(512)].concat());
    assert!(Schedule::builder().rule(office()).rule(twice).build().is_ok());
}

#[test]
fn errors_come_in_order() {
    let with = |zone: &str, rules: Vec<Rule>| {
        rules.into_iter().fold(Schedule::builder().time_zone(zone), ScheduleBuilder::rule).build().unwrap_err()
    };
    let (long, never) = ("x".repeat(65), WorkDay::new(time(0, 0, 0, 0), time(0, 0, 0, 0), Weekdays::EMPTY));
    let in_zone = |zone: &str| Rule::from(never.clone().time_zone(zone));
    assert_eq!(with("No/1", vec![in_zone("No/2")]), unknown("No/1"));
    assert_eq!(with("UTC", vec![in_zone("no/2"), in_zone("No/3")]), unknown("no/2"));
    assert_eq!(with("UTC", vec![in_zone(""), in_zone(&long)]), unknown(""));
    assert_eq!(with("UTC", vec![in_zone(&long), in_zone("")]), unknown(&long));
    assert_eq!(with("", vec![in_zone("No/2")]), unknown(""));
    assert_eq!(with("UTC", vec![Holidays::new([]).time_zone("No/4").into()]), unknown("No/4"));
    assert_eq!(with("UTC", vec![lunch().time_zone("No/5").into()]), unknown("No/5"));
    assert_eq!(with("No/1", vec![office().into(); 17]), Error::TooManyRules);
    assert_eq!(with("UTC", vec![in_zone("utc")]), Error::NoWorkingTime);
    assert_eq!(with("UTC", vec![]), Error::NoWorkingTime);
}

#[test]
fn the_range_has_ends() {
    let schedule = Schedule::builder().rule(office()).build().unwrap();
    let nano = SignedDuration::from_nanos(1);
    assert_eq!(schedule.add(Timestamp::MAX, nano), Err(Error::OutOfRange));
    assert_eq!(schedule.sub(Timestamp::MIN, nano), Err(Error::OutOfRange));
    assert_eq!(schedule.add(Timestamp::MAX, SignedDuration::ZERO), Ok(Timestamp::MAX));
    assert_eq!(schedule.add(Timestamp::MAX, SignedDuration::MIN), Err(Error::OutOfRange));
    assert_eq!(schedule.next_period(Timestamp::MAX), Err(Error::OutOfRange));
    assert_eq!(schedule.previous_period(Timestamp::MIN), Err(Error::OutOfRange));
    assert_eq!(schedule.next_period_marked(Timestamp::MAX), Err(Error::OutOfRange));
    assert_eq!(schedule.previous_period_marked(Timestamp::MIN), Err(Error::OutOfRange));
}

#[test]
fn many_queries_are_answered_as_single_ones_are() {
    let schedule = Schedule::builder().rule(office()).build().unwrap();
    let (monday, hour) = (instant("2026-01-05T08:00Z"), SignedDuration::from_hours(1));
    let answers = schedule.answers(&[
        Query::Add(monday, hour),
        Query::Next(Timestamp::MAX),
        Query::Between(monday, monday + 24.hours()),
        Query::Sub(monday, hour),
        Query::Next(monday),
        Query::Previous(monday),
    ]);
    let (friday, office) = (instant("2026-01-02T09:00Z"), instant("2026-01-05T09:00Z"));
    let expected = [
        Ok(Answer::Instant(office + hour)),
        Err(Error::OutOfRange),
        Ok(Answer::Time(8 * hour)),
        Ok(Answer::Instant(friday + 7 * hour)),
        Ok(Answer::Period(office..office + 8 * hour)),
        Ok(Answer::Period(friday..friday + 8 * hour)),
    ];
    assert_eq!(answers, expected);
    assert_eq!(schedule.answers(&[]), []);
}

/// The worked examples of docs/FORMATS.md: work all day, and a break on Sundays from
/// 02:30 to 04:00.
#[test]
fn periods_have_marks() {
    let (midnight, sunday) = (time(0, 0, 0, 0), Weekdays::from_iter([Weekday::Sunday]));
    let rest = Break::new(time(2, 30, 0, 0), time(4, 0, 0, 0), sunday);
    let always = WorkDay::new(midnight, midnight, Weekdays::ALL);
    let schedule = Schedule::builder().time_zone("Europe/Berlin").rule(always.clone()).rule(rest).build().unwrap();
    let marked = |start: &str, end: &str, marks: [Mark; 2]| {
        Ok(MarkedPeriod { span: instant(start)..instant(end), start: marks[0], end: marks[1] })
    };
    let (saturday, skipped) = ("2026-03-28T12:00Z", "2026-03-29T01:30Z");
    let week = marked("2026-03-22T03:00Z", skipped, [Mark::Plain, Mark::Skipped]);
    let cut = marked(saturday, skipped, [Mark::Plain, Mark::Skipped]);
    assert_eq!(schedule.next_period_marked(instant(saturday)), cut);
    assert_eq!(schedule.next_period_marked(instant("2026-03-22T01:30Z")), week);
    assert_eq!(schedule.previous_period_marked(instant(skipped)), week);
    assert_eq!(schedule.previous_period_marked(instant("2026-03-29T01:33:20Z")), week);
    let inside = "2026-03-29T01:29:59Z";
    let before = marked("2026-03-22T03:00Z", inside, [Mark::Plain, Mark::Plain]);
    assert_eq!(schedule.previous_period_marked(instant(inside)), before);
    let evening = "2026-10-24T20:00Z";
    let twice = marked(evening, "2026-10-25T00:30Z", [Mark::Plain, Mark::Repeated]);
    assert_eq!(schedule.next_period_marked(instant(evening)), twice);
    let utc = Schedule::builder().rule(always).build().unwrap();
    let last = Timestamp::MAX - 1.hours();
    let beyond = MarkedPeriod { span: last..Timestamp::MAX, start: Mark::Plain, end: Mark::Beyond };
    assert_eq!(utc.next_period_marked(last), Ok(beyond));
}

/// Two shifts that start at one instant, of which one was skipped.
#[test]
fn of_two_marks_the_greater_is_kept() {
    let sunday = Weekdays::from_iter([Weekday::Sunday]);
    let from = |hour, minute| WorkDay::new(time(hour, minute, 0, 0), time(6, 0, 0, 0), sunday);
    let builder = Schedule::builder().time_zone("Europe/Berlin").rule(from(3, 30)).rule(from(2, 30));
    let schedule = builder.build().unwrap();
    let (start, end) = (instant("2026-03-29T01:30Z"), instant("2026-03-29T04:00Z"));
    for t in [instant("2026-03-28T12:00Z"), start] {
        let told = MarkedPeriod { span: start..end, start: Mark::Skipped, end: Mark::Plain };
        assert_eq!(schedule.next_period_marked(t), Ok(told));
    }
    let later = start + 1.second();
    let told = MarkedPeriod { span: later..end, start: Mark::Plain, end: Mark::Plain };
    assert_eq!(schedule.next_period_marked(later), Ok(told));
}

#[test]
fn local_times_have_marks() {
    let told = |local| resolve_marked("europe/BERLIN", local);
    let expected = |text: &str, mark| Ok(MarkedInstant { instant: instant(text), mark });
    let (march, october) = (date(2026, 3, 29), date(2026, 10, 25));
    assert_eq!(told(march.at(2, 30, 0, 0)), expected("2026-03-29T01:30Z", Mark::Skipped));
    assert_eq!(told(march.at(3, 0, 0, 0)), expected("2026-03-29T01:00Z", Mark::Plain));
    assert_eq!(told(march.at(1, 59, 59, 7)), expected("2026-03-29T00:59:59.000000007Z", Mark::Plain));
    assert_eq!(told(october.at(2, 30, 0, 0)), expected("2026-10-25T00:30Z", Mark::Repeated));
    assert_eq!(told(october.at(3, 0, 0, 0)), expected("2026-10-25T02:00Z", Mark::Plain));
    for (date, instant) in [(Date::MIN, Timestamp::MIN), (Date::MAX, Timestamp::MAX)] {
        assert_eq!(resolve_marked("UTC", date.at(0, 0, 0, 0)), Ok(MarkedInstant { instant, mark: Mark::Beyond }));
    }
    let long = "x".repeat(65);
    for name in ["", "No/Such", "../zoneinfo/Europe/Berlin", &long] {
        assert_eq!(resolve_marked(name, march.at(0, 0, 0, 0)), Err(unknown(name)));
    }
}

/// A listing that needs far more room than the first one has.
#[test]
fn a_list_grows() {
    let schedule = Schedule::builder().rule(office()).rule(lunch()).build().unwrap();
    let (from, to) = (instant("2000-01-01T00:00Z"), instant("2010-01-01T00:00Z"));
    let list = schedule.list(from, to);
    assert_eq!(list.len(), 2 * 2_609);
    assert!(list.windows(2).all(|pair| pair[0].end < pair[1].start));
    let sum: SignedDuration = list.iter().map(|period| period.end.duration_since(period.start)).sum();
    assert_eq!(sum, schedule.between(from, to));
}

#[test]
fn a_clone_shares_the_bytes() {
    let schedule = Schedule::builder().time_zone("utc").rule(office()).build().unwrap();
    let other = schedule.clone();
    assert!(std::ptr::eq(schedule.book(), other.book()) && std::ptr::eq(schedule.pack(), other.pack()));
    let shown = format!("Schedule {{ book_len: {}, pack_len: {}, .. }}", schedule.book().len(), schedule.pack().len());
    assert_eq!(format!("{other:?}"), shown);
}

#[test]
fn a_zone_is_packed_once() {
    let office = |zone: &str| office().time_zone(zone);
    let builder =
        Schedule::builder().time_zone("Europe/Berlin").rule(office("europe/berlin")).rule(office("EUROPE/BERLIN"));
    let schedule = builder.rule(office("Etc/Unknown")).rule(lunch().time_zone("UTC")).build().unwrap();
    assert_eq!(schedule.pack()[..4], [0, 0, 0, 3]);
    let alone = Schedule::builder().rule(office("UTC").time_zone("Asia/Tokyo")).build().unwrap();
    assert_eq!(alone.pack()[..4], [0, 0, 0, 1]);
}

#[test]
fn the_version_is_that_of_the_crate() {
    let numbers: Vec<u32> = env!("CARGO_PKG_VERSION").split('.').map(|number| number.parse().unwrap()).collect();
    assert_eq!(hirgwamo::version(), numbers.iter().fold(0, |version, number| version * 1_000 + number));
}
