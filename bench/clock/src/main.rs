//! Times every call, ours and the original's, on the same books and questions:
//! the original over the stand-in for jiff, and with the feature `real` over
//! jiff itself too.
//!
//! Usage: clock MILLISECONDS [ZONEINFO [BOOK [CALL [WHO]]]]
//!        clock part MILLISECONDS [ZONEINFO [BOOK [CALL]]]
//!        clock write FOLDER [ZONEINFO [BOOK [CALL]]]
//!        clock hardest [ZONEINFO [BOOK [DAYS]]]
//!
//! A batch asks one question again and again. The book is built once in a
//! batch, by each, except where building is what is timed; a batch is so long
//! that this is at most a fiftieth of it. The best batch counts, in processor
//! time: batches are repeated for MILLISECONDS of it, two at least, and those
//! that are timed take turns; and all rows are gone through eight times. BOOK
//! and CALL choose rows; WHO (`ours`, `jiff` or `stand-in`) runs only that one,
//! in one batch. Ends with 1 where answers differ, but for jiff's on made-up
//! zones with changes a few minutes apart, which it reads in a way of its own.
//!
//! The second form times the functions that other languages link in the same way,
//! and the third writes the books and questions of that table (part.rs). The last
//! one times the hardest stretch of a log (hardest.rs); with DAYS it makes one call
//! of ours, with windows so wide, and times nothing.

mod hardest;
mod part;

use std::hint::black_box;

use bench::{books, calls, close_books, close_zones, join, packed, zones, Call, Instant, DAY, SHORT, WEDNESDAY};

/// Processor time that a batch takes at least, in nanoseconds.
const BATCH: f64 = 1e6;
/// The most questions of a batch: their numbers stay in the nearer caches.
const MOST: usize = 8192;
/// How often all rows are gone through, so that a while in which the machine is slow spoils no row.
const ROUNDS: usize = 8;
/// Rows that take longer than this, in nanoseconds, are timed in the first round only.
const LONG: f64 = 1e8;
/// Four numbers for each stretch that 40 records can have in the 53 windows of a year: 14 a record and window.
const SPARE: usize = 4 * 14 * 40 * 53;
/// Questions of the one batch that WHO runs.
const FEW: usize = 512;

#[link(name = "bench_clock", kind = "static")]
extern "C" {
    // Our code: a slice is a pointer and a length.
    fn bench_clock_answers(book: *const u8, book_len: usize, pack: *const u8, pack_len: usize, kind: u8, numbers: *mut i64, count: usize);
    fn bench_clock_builds(book: *const u8, book_len: usize, pack: *const u8, pack_len: usize, lengths: *mut u64, count: usize);
    fn bench_clock_lists(
        book: *const u8,
        book_len: usize,
        pack: *const u8,
        pack_len: usize,
        times: usize,
        a: i64,
        b: i64,
        c: i64,
        d: i64,
        numbers: *mut i64,
        count: usize,
    );
}

#[repr(C)]
struct Spent {
    seconds: i64,
    nanoseconds: i64,
}

extern "C" {
    fn clock_gettime(clock: i32, spent: *mut Spent) -> i32;
}

/// Nanoseconds of processor time that this thread has spent.
fn spent() -> f64 {
    const CLOCK_THREAD_CPUTIME_ID: i32 = 3;
    let mut t = Spent {
        seconds: 0,
        nanoseconds: 0,
    };
    assert_eq!(unsafe { clock_gettime(CLOCK_THREAD_CPUTIME_ID, &mut t) }, 0);
    t.seconds as f64 * 1e9 + t.nanoseconds as f64
}

/// What is timed on a book.
#[derive(Clone, Copy)]
enum Task {
    Ask(Call),
    Build,
    /// The same, but what jiff has kept of the zones is thrown away before; ours and the stand-in keep nothing.
    BuildAnew,
    /// From one instant to another, and how many numbers are lent to us beyond those that the stretches need.
    List(Instant, Instant, usize),
}

struct Book {
    title: &'static str,
    book: Vec<u8>,
    pack: Vec<u8>,
    /// Its zone has changes a few minutes apart.
    is_close: bool,
}

/// A call as our function takes it: its kind and four numbers.
fn asked(call: Call) -> (u8, [i64; 4]) {
    let four = |[a, b]: Instant, [c, d]: Instant| [a, b, c, d];
    match call {
        Call::Between(a, b) => (0, four(a, b)),
        Call::Add(at, hours) => (1, four(at, [hours * 3600, 0])),
        Call::Sub(at, hours) => (2, four(at, [hours * 3600, 0])),
        Call::Next(at) => (3, four(at, [0, 0])),
        Call::Previous(at) => (4, four(at, [0, 0])),
    }
}

/// Our answers to questions of one kind, four numbers each, in their place.
fn answers(on: &Book, kind: u8, numbers: &mut [i64]) {
    let (book, pack) = (&on.book, &on.pack);
    unsafe {
        bench_clock_answers(book.as_ptr(), book.len(), pack.as_ptr(), pack.len(), kind, numbers.as_mut_ptr(), numbers.len());
    }
}

/// A batch of COUNT: its time, and the numbers of the last answer.
type Batch = (f64, Vec<i64>);

fn ours(on: &Book, task: Task, count: usize, room: usize) -> Batch {
    let (book, pack) = (&on.book, &on.pack);
    match task {
        Task::Ask(call) => {
            let (kind, numbers) = asked(call);
            let mut work = numbers.repeat(count);
            let since = spent();
            answers(on, kind, &mut work);
            (spent() - since, work.split_off(4 * (count - 1)))
        }
        Task::Build | Task::BuildAnew => {
            let mut work = vec![book.len() as u64; count];
            let since = spent();
            unsafe {
                bench_clock_builds(book.as_ptr(), book.len(), pack.as_ptr(), pack.len(), work.as_mut_ptr(), work.len());
            }
            // The original does not tell its search limit: that it builds is all that is compared.
            (spent() - since, vec![i64::from(work.iter().all(|&limit| limit > 10))])
        }
        Task::List(a, b, spare) => {
            let ([a, b], [c, d]) = (a, b);
            let mut work = vec![-1; room + spare];
            let since = spent();
            unsafe {
                bench_clock_lists(book.as_ptr(), book.len(), pack.as_ptr(), pack.len(), count, a, b, c, d, work.as_mut_ptr(), work.len());
            }
            let time = spent() - since;
            // A number behind the stretches that is not as it was makes the answer differ.
            while work.len() > room && work.last() == Some(&-1) {
                work.pop();
            }
            (time, work)
        }
    }
}

/// The original over the stand-in: book and pack are read for each build.
mod over_stand_in {
    use jiff::{SignedDuration, Timestamp};
    use workclock::book::Refusal;
    use workclock::{Error, Schedule};

    use super::{asked, black_box, spent, Batch, Book, Task};

    fn build(on: &Book) -> Result<Schedule, Refusal> {
        workclock::book::build(&on.book, &on.pack)
    }

    fn forget() {}

    fn pair(at: Timestamp) -> [i64; 2] {
        [at.floor_second(), at.floor_nanosecond().into()]
    }

    include!("original.rs");
}

/// The original over jiff, which has the zones of all packs in its database: a build finds them there, read before.
#[cfg(feature = "real")]
mod over_jiff {
    use jiff_real::{SignedDuration, Timestamp};
    pub use workclock_real::book::lend;
    use workclock_real::book::Refusal;
    use workclock_real::{Error, Schedule};

    use super::{asked, black_box, spent, Batch, Book, Task};

    const NANO: i64 = 1_000_000_000;

    fn build(on: &Book) -> Result<Schedule, Refusal> {
        workclock_real::book::build_lent(&on.book)
    }

    fn forget() {
        jiff_real::tz::db().reset();
    }

    /// jiff rounds seconds towards zero.
    fn pair(at: Timestamp) -> [i64; 2] {
        let (second, nano) = (at.as_second(), at.subsec_nanosecond().into());
        if nano < 0 { [second - 1, nano + NANO] } else { [second, nano] }
    }

    /// A batch in which the schedule is built anew for each question.
    pub fn run_building(on: &Book, task: Task, count: usize, room: usize) -> Batch {
        let Task::Ask(call) = task else { return run(on, task, count, room) };
        let (kind, numbers) = asked(call);
        let mut work = numbers.repeat(count);
        let since = spent();
        for place in work.chunks_mut(4) {
            reply(&built(on), kind, place);
        }
        (spent() - since, work.split_off(4 * (count - 1)))
    }

    include!("original.rs");
}

type Run = fn(&Book, Task, usize, usize) -> Batch;

/// The name of the original over jiff itself.
const JIFF: &str = "jiff";

/// Those that are timed, by their names.
type Runs = &'static [(&'static str, Run)];

/// Those of the table of all calls; the last one's answers are what the others are compared with.
const RUNS: Runs = &[
    ("ours", ours),
    #[cfg(feature = "real")]
    (JIFF, over_jiff::run),
    ("stand-in", over_stand_in::run),
];

/// How many make a batch that is long enough.
fn count_of(run: Run, on: &Book, task: Task, room: usize) -> usize {
    let build = (0..3).map(|_| run(on, Task::Build, 1, 0).0).fold(f64::INFINITY, f64::min);
    let long = BATCH.max(50.0 * build);
    let mut count = 1;
    while count < MOST && run(on, task, count, room).0 < long {
        count *= 2;
    }
    count
}

/// The best of one's batches so far, and whether all its answers were the ones wanted.
struct Best {
    name: &'static str,
    run: Run,
    count: usize,
    time: f64,
    same: bool,
}

/// A row of the table: what is timed, what the answer is, and what each has done.
struct Row<'a> {
    on: &'a Book,
    call: &'static str,
    task: Task,
    answer: Vec<i64>,
    each: Vec<Best>,
}

impl<'a> Row<'a> {
    fn new(on: &'a Book, call: &'static str, task: Task, runs: Runs) -> Row<'a> {
        let (_, answer) = over_stand_in::run(on, task, 1, 0);
        let best = |&(name, run): &(&'static str, Run)| Best {
            name,
            run,
            count: count_of(run, on, task, answer.len()),
            time: f64::INFINITY,
            same: true,
        };
        let each = runs.iter().map(best).collect();
        Row { on, call, task, answer, each }
    }

    /// Batches for so many nanoseconds of processor time each, two at least.
    fn time(&mut self, budget: f64) {
        let parts = self.each.len() as f64;
        let mut total = 0.0;
        let mut batches = 0;
        while total < budget || batches < 2 {
            for best in &mut self.each {
                let (time, numbers) = (best.run)(self.on, self.task, best.count, self.answer.len());
                best.same &= numbers == self.answer;
                best.time = best.time.min(time / best.count as f64);
                total += time / parts;
            }
            batches += 1;
        }
    }

    /// No answer differs that should not.
    fn is_fine(&self) -> bool {
        self.each.iter().all(|best| best.same || self.on.is_close && best.name == JIFF)
    }

    fn show(&self) {
        let ours = &self.each[0];
        print!("| {} | {} | {:.0} |", self.on.title, self.call, ours.time);
        for best in &self.each[1..] {
            let differ = if ours.same && best.same { "" } else { " (answers differ)" };
            print!(" {:.0} | {}{differ} |", best.time, ratio_text(ours.time / best.time));
        }
        println!();
    }
}

/// Two digits behind the point, more where these would be zeros.
fn ratio_text(ratio: f64) -> String {
    if ratio < 0.005 { format!("{ratio:.5}") } else { format!("{ratio:.2}") }
}

fn tasks() -> Vec<(&'static str, Task)> {
    let (from, until) = ([WEDNESDAY, 0], [WEDNESDAY + 365 * DAY, 0]);
    let mut all = vec![("build", Task::Build), ("build-anew", Task::BuildAnew)];
    all.extend(calls().into_iter().map(|(name, call)| (name, Task::Ask(call))));
    // With room for all stretches that 40 records can have, we need not count them before we write; with just enough we must.
    all.push(("list-1-year", Task::List(from, until, SPARE)));
    all.push(("list-1-year-just-enough", Task::List(from, until, 0)));
    all
}

/// Books over the real zones, and over the made-up ones.
fn all_books(real: &[u8], close: &[u8]) -> Vec<Book> {
    let made = |title, records: Vec<Vec<u8>>, pack: &[u8], is_close| Book {
        title,
        book: join(&records),
        pack: pack.to_vec(),
        is_close,
    };
    let mut all: Vec<Book> = books().into_iter().map(|(title, records)| made(title, records, real, false)).collect();
    all.extend(close_books().into_iter().map(|(title, records)| made(title, records, close, true)));
    all
}

/// The made-up zones change for five days only, so that longer calls show nothing of it.
fn is_row(on: &Book, call: &str) -> bool {
    !on.is_close || call.starts_with("build") || SHORT.contains(&call)
}

fn show_head() {
    print!("| Book | Call | Ours, ns |");
    for (name, _) in &RUNS[1..] {
        print!(" Over {name}, ns | Ours / over {name} |");
    }
    println!("\n|{}", "---|".repeat(1 + 2 * RUNS.len()));
}

/// One batch of each, by WHO alone.
fn run_once<'a>(chosen: impl Iterator<Item = (&'a Book, &'static str, Task)>, who: &str) {
    let Some((_, run)) = RUNS.iter().find(|(name, _)| *name == who) else {
        eprintln!("clock: no {who} here");
        std::process::exit(2);
    };
    for (on, name, task) in chosen {
        println!("{} {name} {:.0}", on.title, run(on, task, FEW, 4096).0 / FEW as f64);
    }
}

/// Goes through all rows in each round: batches for so many milliseconds each.
fn time_rows(rows: &mut [Row], budget: f64) {
    for round in 0..ROUNDS {
        for row in rows.iter_mut().filter(|row| round == 0 || row.each[0].time < LONG) {
            row.time(budget * 1e6);
        }
    }
}

/// All rows, or those of one call: batches for so many milliseconds each, or one by WHO alone.
fn time_calls(books: &[&Book], budget: f64, call: Option<&String>, who: Option<&String>) {
    let chosen = books.iter().flat_map(|&on| tasks().into_iter().map(move |(name, task)| (on, name, task)));
    let chosen = chosen.filter(|(on, name, _)| is_row(on, name) && call.is_none_or(|word| word == name));
    if let Some(who) = who {
        return run_once(chosen, who);
    }
    let mut rows: Vec<Row> = chosen.map(|(on, name, task)| Row::new(on, name, task, RUNS)).collect();
    time_rows(&mut rows, budget);
    show_head();
    rows.iter().for_each(Row::show);
    if !rows.iter().all(Row::is_fine) {
        std::process::exit(1);
    }
}

/// What is to be done.
enum Form {
    /// All calls, for so many milliseconds.
    Calls(f64),
    Part(f64),
    /// To this folder.
    Write(String),
    Hardest,
}

const USAGE: &str = "usage: clock MILLISECONDS [ZONEINFO [BOOK [CALL [WHO]]]]
       clock part MILLISECONDS [ZONEINFO [BOOK [CALL]]]
       clock write FOLDER [ZONEINFO [BOOK [CALL]]]
       clock hardest [ZONEINFO [BOOK [DAYS]]]";

/// What the first words say; ZONEINFO and those behind it are left.
fn form(words: &mut impl Iterator<Item = String>) -> Option<Form> {
    match words.next()?.as_str() {
        "part" => words.next()?.parse().ok().map(Form::Part),
        "write" => words.next().map(Form::Write),
        "hardest" => Some(Form::Hardest),
        budget => budget.parse().ok().map(Form::Calls),
    }
}

fn main() -> std::io::Result<()> {
    let mut words = std::env::args().skip(1);
    let Some(form) = form(&mut words) else {
        eprintln!("{USAGE}");
        std::process::exit(2);
    };
    let told: Vec<String> = words.collect();
    let (real, close) = (zones(told.first().map_or("/usr/share/zoneinfo", String::as_str))?, close_zones());
    #[cfg(feature = "real")]
    let _lent = {
        let owned = |(name, file): &(&str, Vec<u8>)| (name.as_bytes().to_vec(), file.clone());
        over_jiff::lend(real.iter().chain(&close).map(owned).collect())
    };
    let books = all_books(&packed(&real), &packed(&close));
    let chosen: Vec<&Book> = books.iter().filter(|on| told.get(1).is_none_or(|word| word == on.title)).collect();
    match (form, told.get(2)) {
        (Form::Calls(budget), call) => time_calls(&chosen, budget, call, told.get(3)),
        (Form::Part(budget), call) => part::show(&chosen, budget, call),
        (Form::Write(folder), call) => part::write(&chosen, &folder, call)?,
        (Form::Hardest, Some(days)) => hardest::call_once(&chosen, days),
        (Form::Hardest, None) => hardest::show(&chosen),
    }
    Ok(())
}
