//! Random schedules of both crates, asked the same.

use std::ops::Range;
use std::thread;

use hirgwamo::{Answer, Mark, Query, Schedule};
use jiff::{SignedDuration, Timestamp};

use crate::compared::Compared;
use crate::local;
use crate::plan::{Days, Plan, PlanRule, Planner};
use crate::questions::{abouts, Asker};
use crate::rng::Rng;
use crate::sides::{original, ours, Told};

/// How many queries a random schedule is asked, and a plain one, beside those at the
/// edges of a period.
const QUERIES: usize = 50;
const PLAIN_QUERIES: usize = 10;
const LISTS: usize = 2;
const THREADS: usize = 8;
/// One schedule in so many is asked by several threads.
const THREADED: usize = 8;
/// Seeds of neighbouring runs have no schedule in common.
const SEEDS_APART: u64 = 1_000_003;
/// So many random schedules show all that has to be seen.
const WHOLE_RUN: usize = 300;
const ANSWERS: &str = "answers of single calls compared";
const UNKNOWN: &str = "schedules refused by both: UnknownZone";
const NO_WORK: &str = "schedules refused by both: NoWorkingTime";
const LIMITS: &str = "known difference: schedules refused here alone, TooManyRules";
const LEAST_ANSWERS: usize = 20_000;
const EXPECTED: [&str; 20] = [
    ANSWERS,
    "answers: times",
    "answers: instants",
    "answers: periods",
    "answers: NoWorkingTime",
    "answers: OutOfRange",
    "schedules built by both",
    UNKNOWN,
    NO_WORK,
    LIMITS,
    "lists compared",
    "lists of more stretches than the first room",
    "ends of periods: plain",
    "ends of periods: repeated",
    "ends of periods: skipped",
    "ends of periods: beyond the range",
    "local times: plain",
    "local times: repeated",
    "local times: skipped",
    "local times: beyond the range",
];
const FIRST_ROOM: usize = 64;
const TOO_MANY: &str = "TooManyRules: ";

/// Compares a plain schedule in each zone, and `count` random ones; tells whether all
/// is the same, and whether all was seen that has to be.
pub fn run(seed: u64, count: usize) -> bool {
    let all: Vec<String> = jiff::tz::db().available().map(|name| name.to_string()).collect();
    let mut compared = Compared::default();
    compared.count("zones of the system", all.len());
    for (number, name) in all.iter().enumerate() {
        let mut rng = Rng::new(seed.wrapping_add(number as u64));
        let abouts = abouts(&mut rng, std::slice::from_ref(name));
        local::compare(name, &abouts, &mut compared);
        let asker = Asker { rng: &mut rng, abouts: &abouts, long: false };
        one(&Plan::plain(name), &format!("plain schedule {number}"), PLAIN_QUERIES, asker, &mut compared);
    }
    for number in 0..count {
        let mut rng = Rng::new(seed.wrapping_mul(SEEDS_APART).wrapping_add(number as u64));
        let names: Vec<String> = (0..*rng.pick(&[1, 1, 2, 2, 3, 6])).map(|_| rng.pick(&all).clone()).collect();
        let abouts = abouts(&mut rng, &names);
        let plan = Planner { rng: &mut rng, names, all: &all, abouts: &abouts }.plan();
        let asker = Asker { rng: &mut rng, abouts: &abouts, long: plan.is_light() };
        one(&plan, &format!("random schedule {number}"), QUERIES, asker, &mut compared);
    }
    let whole = count < WHOLE_RUN || seen(&compared);
    compared.end() && whole
}

/// Whether all was seen that has to be.
fn seen(compared: &Compared) -> bool {
    for what in EXPECTED.iter().filter(|what| compared.number(what) == 0) {
        println!("NOT SEEN: {what}");
    }
    EXPECTED.iter().all(|what| compared.number(what) > 0) && compared.number(ANSWERS) >= LEAST_ANSWERS
}

/// Compares one schedule.
fn one(plan: &Plan, title: &str, queries: usize, mut asker: Asker<'_>, compared: &mut Compared) {
    for rule in &plan.rules {
        if let PlanRule::Work(_, days, _) | PlanRule::Break(_, days, _) = rule {
            compare_days(days, compared);
        }
    }
    let Some((theirs, mine)) = build(plan, title, compared) else { return };
    let mut queries: Vec<Query> = (0..queries).map(|_| asker.query(&|a, b| theirs.between(a, b))).collect();
    queries.extend(border_queries(&theirs, &mut asker));
    let about = |what: String| format!("{title}, {what}: {plan:?}");
    let told = compare_queries(&theirs, &mine, &queries, compared, &about);
    compare_answers(&mine, &queries, &told, compared, &about);
    compare_marked(&mine, &queries, &told, compared, &about);
    for _ in 0..LISTS {
        compare_list(&theirs, &mine, asker.listed(), compared, &about);
    }
    if asker.rng.once_in(THREADED) {
        compare_threads(&mine, &queries, &told, compared, &about);
    }
}

fn compare_days(days: &Days, compared: &mut Compared) {
    compared.count("sets of weekdays compared", 1);
    compared.same(&original::shown(days), &ours::shown(days), || format!("{days:?}"));
}

/// Both schedules, where both are built.
fn build(plan: &Plan, title: &str, compared: &mut Compared) -> Option<(workclock::Schedule, Schedule)> {
    let about = || format!("{title}: {plan:?}");
    match (original::build(plan), ours::build(plan)) {
        (Ok(theirs), Ok(mine)) if !plan.passes_limit() => {
            compared.count("schedules built by both", 1);
            return Some((theirs, mine));
        }
        (_, Err(mine)) if plan.passes_limit() && mine.starts_with(TOO_MANY) => compared.count(LIMITS, 1),
        (Err(theirs), Err(mine)) if !plan.passes_limit() => {
            compared.count(if theirs.starts_with("UnknownZone") { UNKNOWN } else { NO_WORK }, 1);
            compared.same(&theirs, &mine, about);
        }
        (theirs, mine) => compared.wrong(format!("{}: {:?} (none: built)", about(), [theirs.err(), mine.err()])),
    }
    None
}

/// Durations that end where a working period ends, and the period's edges, by a
/// nanosecond more and less.
fn border_queries(theirs: &workclock::Schedule, asker: &mut Asker<'_>) -> Vec<Query> {
    let mut queries = Vec::new();
    let t = asker.instant();
    for period in [theirs.next_period(t), theirs.previous_period(t)].into_iter().flatten() {
        for nano in [-1, 0, 1].map(SignedDuration::from_nanos) {
            let d = theirs.between(t, period.end) + nano;
            queries.extend([Query::Add(t, d), Query::Sub(period.end, d)]);
            for edge in [period.start, period.end] {
                let near = edge.checked_add(nano).unwrap_or(edge);
                queries.extend([Query::Next(near), Query::Previous(near)]);
            }
        }
    }
    queries
}

type About<'a> = &'a dyn Fn(String) -> String;

fn compare_queries(
    theirs: &workclock::Schedule,
    mine: &Schedule,
    queries: &[Query],
    compared: &mut Compared,
    about: About<'_>,
) -> Vec<Told> {
    let mut told = Vec::new();
    for &query in queries {
        let (expected, given) = (original::ask(theirs, query), ours::ask(mine, query));
        compared.count(ANSWERS, 1);
        compared.count(
            match &given {
                Told::Time(_) => "answers: times",
                Told::Instant(_) => "answers: instants",
                Told::Period(_) => "answers: periods",
                Told::Error(error) if error.starts_with("NoWorkingTime") => "answers: NoWorkingTime",
                Told::Error(error) if error.starts_with("OutOfRange") => "answers: OutOfRange",
                Told::Error(_) => "answers: other errors",
            },
            1,
        );
        compared.same(&expected, &given, || about(format!("{query:?}")));
        told.push(given);
    }
    told
}

/// One call for all queries, against the single calls.
fn compare_answers(mine: &Schedule, queries: &[Query], told: &[Told], compared: &mut Compared, about: About<'_>) {
    let answers: Vec<Told> = mine
        .answers(queries)
        .into_iter()
        .map(|answer| match answer {
            Ok(Answer::Time(time)) => Told::Time(time),
            Ok(Answer::Instant(instant)) => Told::Instant(instant),
            Ok(Answer::Period(period)) => Told::Period(period),
            Err(error) => Told::Error(format!("{error:?}: {error}")),
        })
        .collect();
    compared.count("answers of `answers` compared with single calls", answers.len());
    if answers.len() != told.len() {
        compared.wrong(about(format!("{} answers to {} queries", answers.len(), told.len())));
    }
    for ((query, single), answer) in queries.iter().zip(told).zip(&answers) {
        compared.same(single, answer, || about(format!("`answers` on {query:?}")));
    }
}

/// The calls for periods that tell marks, against those that do not.
fn compare_marked(mine: &Schedule, queries: &[Query], told: &[Told], compared: &mut Compared, about: About<'_>) {
    for (query, single) in queries.iter().zip(told) {
        let marked = match *query {
            Query::Next(t) => mine.next_period_marked(t),
            Query::Previous(t) => mine.previous_period_marked(t),
            _ => continue,
        };
        for mark in marked.iter().flat_map(|period| [period.start, period.end]) {
            compared.count(
                match mark {
                    Mark::Plain => "ends of periods: plain",
                    Mark::Repeated => "ends of periods: repeated",
                    Mark::Skipped => "ends of periods: skipped",
                    Mark::Beyond => "ends of periods: beyond the range",
                },
                1,
            );
        }
        let given = match marked {
            Ok(period) => Told::Period(period.span),
            Err(error) => Told::Error(format!("{error:?}: {error}")),
        };
        compared.same(single, &given, || about(format!("with marks, {query:?}")));
    }
}

/// The list against that of the original's `working_time`, and its sum against
/// `between`.
fn compare_list(
    theirs: &workclock::Schedule,
    mine: &Schedule,
    [a, b]: [Timestamp; 2],
    compared: &mut Compared,
    about: About<'_>,
) {
    let expected: Vec<Range<Timestamp>> = theirs.listing(a, b).into_iter().map(|(start, end)| start..end).collect();
    let given = mine.list(a, b);
    compared.count("lists compared", 1);
    compared.count("stretches of lists compared", given.len());
    if given.len() > FIRST_ROOM {
        compared.count("lists of more stretches than the first room", 1);
    }
    compared.same(&expected, &given, || about(format!("list {a} {b}")));
    let sum: SignedDuration = given.iter().map(|period| period.end.duration_since(period.start)).sum();
    if a <= b {
        compared.same(&mine.between(a, b), &sum, || about(format!("sum of list {a} {b}")));
    }
}

/// Several threads at once, each with the queries in another order.
fn compare_threads(mine: &Schedule, queries: &[Query], told: &[Told], compared: &mut Compared, about: About<'_>) {
    let ask = |thread: usize| -> Vec<Told> {
        let from = thread * queries.len() / THREADS;
        let places = (from..queries.len()).chain(0..from);
        let mut answers: Vec<(usize, Told)> = places.map(|place| (place, ours::ask(mine, queries[place]))).collect();
        answers.sort_by_key(|(place, _)| *place);
        answers.into_iter().map(|(_, told)| told).collect()
    };
    let ask = &ask;
    let all: Vec<Vec<Told>> = thread::scope(|scope| {
        let running: Vec<_> = (0..THREADS).map(|thread| scope.spawn(move || ask(thread))).collect();
        running.into_iter().map(|thread| thread.join().expect("a thread that ends")).collect()
    });
    for answers in all {
        compared.count("answers of 8 threads compared with single calls", answers.len());
        compared.same(&told, &answers.as_slice(), || about("a thread".to_string()));
    }
}
