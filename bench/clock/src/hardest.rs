//! The hardest stretch of a log at its limit, ours and the plain form: for each
//! window one `between` for each of its parts, by the same code.

use bench::{Random, DAY};

use super::{spent, Book};

/// Monday 2026-01-05T08:00:00Z, the instant from which the log counts.
const START: i64 = 1_767_600_000;
/// As many runs as a log may have, and the days over which they lie.
const RUNS: usize = 4096;
const DAYS: i64 = 400;
/// A run starts less than so many seconds into its slot, at random from a fixed seed, and ends with it.
const LATE: u64 = 1800;
const SEED: u64 = 3;
/// In days: as wide as a window may be, and a month.
const WIDTHS: [i64; 2] = [400, 30];
const TITLES: [&str; 2] = ["office-berlin-30", "all-limits"];
/// Of so many calls of ours the best counts. The plain form is timed once.
const OFTEN: usize = 10;
/// The kind of a question that asks for `between`.
const BETWEEN: u8 = 0;
/// Numbers of a question, and of an answer.
const GROUP: usize = 4;
const NANO: i64 = 1_000_000_000;
/// Nanoseconds of a millisecond.
const MILLI: f64 = 1e6;

#[link(name = "bench_clock", kind = "static")]
extern "C" {
    fn bench_clock_hardest(
        book: *const u8,
        book_len: usize,
        pack: *const u8,
        pack_len: usize,
        a: i64,
        b: i64,
        log: *const i64,
        log_len: usize,
        width: i64,
        numbers: *mut i64,
        count: usize,
    );
}

/// From one second to another, counted from the log's instant.
type Run = (i64, i64);

/// Each run lies in a slot of its own; all slots are equally long.
fn log() -> Vec<Run> {
    let mut random = Random::new(SEED);
    let slot = |place: usize| place as i64 * DAYS * DAY / RUNS as i64;
    let run = |place| (slot(place) + random.below(LATE) as i64, slot(place + 1));
    (0..RUNS).map(run).collect()
}

/// An answer: seconds and nanoseconds of the time, then of the window's start.
type Answer = [i64; GROUP];

/// The parts of runs in the window that starts with run FIRST.
fn parts(runs: &[Run], width: i64, first: usize) -> impl Iterator<Item = Run> + '_ {
    let end = runs[first].0 + width;
    let inside = runs[first..].iter().take_while(move |run| run.0 < end);
    inside.map(move |&(from, to)| (from, to.min(end)))
}

/// All windows, each in a batch of its own; of equal ones the earliest stays. The time that it took, how many `between` it asked, and its answer.
fn plain(on: &Book, runs: &[Run], width: i64) -> (f64, usize, Answer) {
    let since = spent();
    let (mut most, mut start, mut asked) = (-1, 0, 0);
    for first in 0..runs.len() {
        let question = |(from, to): Run| [START + from, 0, START + to, 0];
        let mut numbers: Vec<i64> = parts(runs, width, first).flat_map(question).collect();
        super::answers(on, BETWEEN, &mut numbers);
        let time: i64 = numbers.chunks(GROUP).map(|told| told[0] * NANO + told[1]).sum();
        if most < time {
            (most, start) = (time, START + runs[first].0);
        }
        asked += numbers.len() / GROUP;
    }
    (spent() - since, asked, [most / NANO, most % NANO, start, 0])
}

/// One call: the time that it took, and its answer.
fn hardest(on: &Book, runs: &[Run], width: i64) -> (f64, Answer) {
    let (book, pack) = (&on.book, &on.pack);
    let log: Vec<i64> = runs.iter().flat_map(|&(from, to)| [from, to - from]).collect();
    let mut answer = [-1; GROUP];
    let since = spent();
    unsafe {
        bench_clock_hardest(
            book.as_ptr(),
            book.len(),
            pack.as_ptr(),
            pack.len(),
            START,
            0,
            log.as_ptr(),
            log.len(),
            width,
            answer.as_mut_ptr(),
            answer.len(),
        );
    }
    (spent() - since, answer)
}

/// One row of the table. The answers must be equal.
fn show_row(on: &Book, runs: &[Run], days: i64) {
    let (mut time, answer) = hardest(on, runs, days * DAY);
    for _ in 1..OFTEN {
        time = time.min(hardest(on, runs, days * DAY).0);
    }
    let (plain_time, asked, plain_answer) = plain(on, runs, days * DAY);
    if answer != plain_answer {
        eprintln!("clock: {}: {answer:?}, and by the plain form {plain_answer:?}", on.title);
        std::process::exit(1);
    }
    println!(
        "| {} | {days} days | {asked} | {:.1} | {:.1} | {:.0} |",
        on.title,
        plain_time / MILLI,
        time / MILLI,
        plain_time / time
    );
}

/// The books that are asked about, of those that were chosen, each with each width.
fn rows<'a>(books: &'a [&Book]) -> impl Iterator<Item = (&'a Book, i64)> {
    let chosen = books.iter().filter(|on| TITLES.contains(&on.title));
    chosen.flat_map(|&on| WIDTHS.map(|days| (on, days)))
}

/// Times both forms on the books, with each width.
pub fn show(books: &[&Book]) {
    let runs = log();
    println!("| Book | Width | `between`, plain form | Plain form, ms | `hardest`, ms | Plain form / `hardest` |");
    println!("|{}", "---|".repeat(6));
    for (on, days) in rows(books) {
        show_row(on, &runs, days);
    }
}

/// One call of ours with windows of so many days, for a debugger that counts what it does.
pub fn call_once(books: &[&Book], days: &str) {
    let runs = log();
    for (on, wide) in rows(books).filter(|(_, wide)| wide.to_string() == days) {
        println!("{:?}", hardest(on, &runs, wide * DAY).1);
    }
}
