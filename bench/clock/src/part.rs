//! The functions that other languages link (part/hirgwamo.h), timed beside the
//! calls of bench_clock and beside the original over jiff:
//!
//! - calls: bench_clock's, a batch on a schedule that is built once;
//! - batch: `hirgwamo_answers` on as many queries, which builds the book once too;
//! - single: one function for each question, which builds the book each time;
//! - over jiff: the original, on a schedule that is built once in a batch;
//! - build and call over jiff: the original, with a schedule for each question.
//!
//! All answers are compared with those of the original over the stand-in. Ends
//! with 1 where one differs, or where a batch is too slow beside the calls.

use std::path::Path;

use bench::{calls, Call};

use super::{asked, ours, ratio_text, spent, time_rows, Batch, Best, Book, Row, Runs, Task};

/// A batch may take so many times what bench_clock's calls take for as many questions.
const MOST_SLOWER: f64 = 1.10;
/// Numbers of a query of `hirgwamo_answers`, and of its answer.
const QUERY: usize = 5;
const ANSWER: usize = 6;
/// Where the numbers of the answer itself begin, behind the refusal's number and the windows.
const VALUE: usize = 2;
/// What a function returns where it answers, and what stands first in one of many answers.
const ANSWERED: i64 = 0;
/// The first kind of question whose answer is a period, of four numbers; those before it have two.
const NEXT: u8 = 3;
/// Stands where an answer is to be written. Memory that is filled with zeros may be given page by page as it is first used, and that would be timed.
const UNWRITTEN: i64 = -1;

/// The numbers of a question, and the most of an answer.
type Four = [i64; 4];

// Book and pack, then the queries or the numbers of one question, then the memory for the answer. A slice is a pointer and a length.
#[rustfmt::skip]
#[link(name = "hirgwamo", kind = "static")]
extern "C" {
    fn hirgwamo_answers(_: *const u8, _: usize, _: *const u8, _: usize, _: *const i64, _: usize, _: *mut i64, _: usize) -> u32;
    fn hirgwamo_between(_: *const u8, _: usize, _: *const u8, _: usize, _: i64, _: i64, _: i64, _: i64, _: *mut i64, _: usize) -> u32;
    fn hirgwamo_add(_: *const u8, _: usize, _: *const u8, _: usize, _: i64, _: i64, _: i64, _: i64, _: *mut i64, _: usize) -> u32;
    fn hirgwamo_sub(_: *const u8, _: usize, _: *const u8, _: usize, _: i64, _: i64, _: i64, _: i64, _: *mut i64, _: usize) -> u32;
    fn hirgwamo_next_period(_: *const u8, _: usize, _: *const u8, _: usize, _: i64, _: i64, _: *mut i64, _: usize) -> u32;
    fn hirgwamo_previous_period(_: *const u8, _: usize, _: *const u8, _: usize, _: i64, _: i64, _: *mut i64, _: usize) -> u32;
}

/// The answer as `ours` tells it: its numbers in the place of the question's. No numbers where a question was refused, or answers to one question differ.
fn as_ours<'a>(kind: u8, question: Four, told: impl Iterator<Item = (i64, &'a [i64])>) -> Vec<i64> {
    let size = if kind < NEXT { 2 } else { 4 };
    let mut told = told.map(|(returned, numbers)| (returned, &numbers[..size]));
    match told.next() {
        Some(first) if first.0 == ANSWERED && told.all(|other| other == first) => [first.1, &question[size..]].concat(),
        _ => Vec::new(),
    }
}

/// All queries in one call.
fn batch(on: &Book, task: Task, count: usize, room: usize) -> Batch {
    let Task::Ask(call) = task else { return ours(on, task, count, room) };
    let (kind, question) = asked(call);
    let query: [i64; QUERY] = [i64::from(kind), question[0], question[1], question[2], question[3]];
    let queries = query.repeat(count);
    let mut answers = vec![UNWRITTEN; ANSWER * count];
    let (book, pack) = (&on.book, &on.pack);
    let since = spent();
    let returned = unsafe {
        hirgwamo_answers(
            book.as_ptr(),
            book.len(),
            pack.as_ptr(),
            pack.len(),
            queries.as_ptr(),
            queries.len(),
            answers.as_mut_ptr(),
            answers.len(),
        )
    };
    let time = spent() - since;
    // Where the call itself is refused, that is what each of its queries was told.
    let told = answers.chunks(ANSWER).map(|told| (told[0].max(returned.into()), &told[VALUE..]));
    (time, as_ours(kind, question, told))
}

/// One question by its own function: what that returns.
fn ask(on: &Book, kind: u8, [a, b, c, d]: Four, answer: &mut Four) -> u32 {
    let (book, book_len, pack, pack_len) = (on.book.as_ptr(), on.book.len(), on.pack.as_ptr(), on.pack.len());
    let (to, to_len) = (answer.as_mut_ptr(), answer.len());
    unsafe {
        match kind {
            0 => hirgwamo_between(book, book_len, pack, pack_len, a, b, c, d, to, to_len),
            1 => hirgwamo_add(book, book_len, pack, pack_len, a, b, c, d, to, to_len),
            2 => hirgwamo_sub(book, book_len, pack, pack_len, a, b, c, d, to, to_len),
            NEXT => hirgwamo_next_period(book, book_len, pack, pack_len, a, b, to, to_len),
            _ => hirgwamo_previous_period(book, book_len, pack, pack_len, a, b, to, to_len),
        }
    }
}

/// A call for each question.
fn single(on: &Book, task: Task, count: usize, room: usize) -> Batch {
    let Task::Ask(call) = task else { return ours(on, task, count, room) };
    let (kind, question) = asked(call);
    let mut answers = vec![(UNWRITTEN, [UNWRITTEN; 4]); count];
    let since = spent();
    for (returned, numbers) in &mut answers {
        *returned = ask(on, kind, question, numbers).into();
    }
    let time = spent() - since;
    let told = answers.iter().map(|(returned, numbers)| (*returned, numbers.as_slice()));
    (time, as_ours(kind, question, told))
}

const RUNS: Runs = &[
    ("calls", ours),
    ("batch", batch),
    ("single", single),
    #[cfg(feature = "real")]
    ("over jiff", super::over_jiff::run),
    #[cfg(feature = "real")]
    ("build and call over jiff", super::over_jiff::run_building),
];

/// Places in RUNS. The last two are there only with jiff.
const CALLS: usize = 0;
const BATCH: usize = 1;
const SINGLE: usize = 2;
const OVER_JIFF: usize = 3;
const BUILDING: usize = 4;

/// What is divided by what.
fn ratios() -> impl Iterator<Item = (usize, usize)> {
    let all = [(BATCH, CALLS), (BATCH, OVER_JIFF), (SINGLE, OVER_JIFF), (SINGLE, BUILDING)];
    all.into_iter().filter(|&(_, under)| under < RUNS.len())
}

fn ratio(row: &Row, over: usize, under: usize) -> f64 {
    row.each[over].time / row.each[under].time
}

/// The questions, all or the one of this name.
fn questions(call: Option<&String>) -> impl Iterator<Item = (&'static str, Call)> + '_ {
    calls().into_iter().filter(move |(name, _)| call.is_none_or(|word| word == name))
}

/// Books over the real zones.
fn real<'a>(books: &'a [&Book]) -> impl Iterator<Item = &'a Book> {
    books.iter().copied().filter(|on| !on.is_close)
}

fn new_row<'a>(on: &'a Book, name: &'static str, call: Call) -> Row<'a> {
    let mut row = Row::new(on, name, Task::Ask(call), RUNS);
    row.each[BATCH].count = row.each[CALLS].count;
    row
}

fn show_head() {
    print!("| Book | Call |");
    for (name, _) in RUNS {
        print!(" {name}, ns |");
    }
    for (over, under) in ratios() {
        print!(" {} / {} |", RUNS[over].0, RUNS[under].0);
    }
    println!("\n|{}", "---|".repeat(2 + RUNS.len() + ratios().count()));
}

fn show_row(row: &Row) {
    print!("| {} | {} |", row.on.title, row.call);
    for best in &row.each {
        let differs = if best.same { "" } else { " (answer differs)" };
        print!(" {:.0}{differs} |", best.time);
    }
    for (over, under) in ratios() {
        print!(" {} |", ratio_text(ratio(row, over, under)));
    }
    println!();
}

/// Says where an answer differs. Whether none does.
fn are_same(rows: &[Row]) -> bool {
    for row in rows {
        let differing: Vec<&str> = row.each.iter().filter(|best| !best.same).map(|best: &Best| best.name).collect();
        if !differing.is_empty() {
            println!("answers differ: {} {}: {}", row.on.title, row.call, differing.join(", "));
        }
    }
    rows.iter().all(Row::is_fine)
}

/// Says which batches are too slow beside the calls, or how slow the slowest is. Whether none is too slow.
fn are_fast(rows: &[Row]) -> bool {
    let slow = |row: &Row| ratio(row, BATCH, CALLS);
    let told = |row: &Row| format!("{} {} {:.3}", row.on.title, row.call, slow(row));
    let over: Vec<String> = rows.iter().filter(|row| slow(row) > MOST_SLOWER).map(told).collect();
    if over.is_empty() {
        let most = rows.iter().max_by(|one, other| slow(one).total_cmp(&slow(other)));
        let most = most.map_or(String::new(), told);
        println!("batch / calls: at most {MOST_SLOWER:.2} in all {} rows; the highest is {most}", rows.len());
    } else {
        let (count, names) = (over.len(), over.join(", "));
        println!("batch / calls: above {MOST_SLOWER:.2} in {count} of {} rows: {names}", rows.len());
    }
    over.is_empty()
}

/// Times all rows of the books, or those of one call: batches for so many milliseconds each.
pub fn show(books: &[&Book], budget: f64, call: Option<&String>) {
    let new = |on| questions(call).map(move |(name, call)| new_row(on, name, call));
    let mut rows: Vec<Row> = real(books).flat_map(new).collect();
    if rows.is_empty() {
        eprintln!("clock: there is no such book or call");
        std::process::exit(2);
    }
    time_rows(&mut rows, budget);
    show_head();
    rows.iter().for_each(show_row);
    let is_fine = are_same(&rows) & are_fast(&rows);
    if !is_fine {
        std::process::exit(1);
    }
}

/// Writes FOLDER/BOOK/book.bin, zones.bin and CALL.txt (one query line) for each row, so that another program can be timed on the same.
pub fn write(books: &[&Book], folder: &str, call: Option<&String>) -> std::io::Result<()> {
    for on in real(books) {
        let place = Path::new(folder).join(on.title);
        std::fs::create_dir_all(&place)?;
        std::fs::write(place.join("book.bin"), &on.book)?;
        std::fs::write(place.join("zones.bin"), &on.pack)?;
        for (name, call) in questions(call) {
            std::fs::write(place.join(format!("{name}.txt")), call.line())?;
        }
    }
    Ok(())
}
