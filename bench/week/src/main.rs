//! Times the working time of one week, ours and the original's, on the same
//! books and the same weeks.
//!
//! Usage: week COUNT BATCHES [ZONEINFO [BOOK WHO]]
//!
//! COUNT weeks begin at seconds at random in 2026 to 2028. A batch builds the
//! book once and asks for every week; the best of BATCHES counts, in
//! processor time, and the two take turns. With BOOK and WHO (`ours` or
//! `original`) only that one is run. Ends with 1 where answers differ.

use bench::{all_limits, holidays, join, named, pack, shift, thirty, Random, BERLIN, HOUR, MON_TO_FRI};
use jiff::Timestamp;
use workclock::book::build;

const WEEK: i64 = 7 * 86_400;
/// From 1970 to our count from -10400.
const FIRST: i64 = 390_359_520_000;
/// 2026-01-01T00:00:00Z, and three years of seconds.
const START: i64 = 1_767_225_600;
const SPAN: u64 = 3 * 365 * 86_400;

#[link(name = "bench_week", kind = "static")]
extern "C" {
    /// Our code: a slice is a pointer and a length.
    fn bench_week_times(
        book: *const u8,
        book_len: usize,
        pack: *const u8,
        pack_len: usize,
        weeks: *mut u64,
        count: usize,
    );
}

#[repr(C)]
struct Spent {
    seconds: i64,
    nanoseconds: i64,
}

extern "C" {
    fn clock_gettime(clock: i32, spent: *mut Spent) -> i32;
}

/// Nanoseconds of processor time that this thread has spent.
fn spent() -> f64 {
    const CLOCK_THREAD_CPUTIME_ID: i32 = 3;
    let mut t = Spent {
        seconds: 0,
        nanoseconds: 0,
    };
    assert_eq!(unsafe { clock_gettime(CLOCK_THREAD_CPUTIME_ID, &mut t) }, 0);
    t.seconds as f64 * 1e9 + t.nanoseconds as f64
}

fn ours(book: &[u8], pack: &[u8], weeks: &[i64]) -> (f64, Vec<i64>) {
    let mut work: Vec<u64> = weeks.iter().map(|&second| (second + FIRST) as u64).collect();
    let since = spent();
    unsafe {
        bench_week_times(book.as_ptr(), book.len(), pack.as_ptr(), pack.len(), work.as_mut_ptr(), work.len());
    }
    (spent() - since, work.iter().map(|&time| time as i64).collect())
}

fn original(book: &[u8], pack: &[u8], weeks: &[i64]) -> (f64, Vec<i64>) {
    let mut work = weeks.to_vec();
    let since = spent();
    let schedule = build(book, pack).unwrap_or_else(|refusal| panic!("{refusal:?}"));
    for place in &mut work {
        let (lo, hi) = (Timestamp::constant(*place, 0), Timestamp::constant(*place + WEEK, 0));
        *place = schedule.between(lo, hi).as_secs();
    }
    (spent() - since, work)
}

/// Seconds at random, the same in every run.
fn weeks(count: usize) -> Vec<i64> {
    let mut random = Random::new(1);
    (0..count).map(|_| START + random.below(SPAN) as i64).collect()
}

fn main() -> std::io::Result<()> {
    let told: Vec<String> = std::env::args().skip(1).collect();
    let number = |place: usize| told.get(place).and_then(|text| text.parse::<usize>().ok());
    let (Some(count), Some(batches)) = (number(0), number(1)) else {
        eprintln!("usage: week COUNT BATCHES [ZONEINFO [BOOK WHO]]");
        std::process::exit(2);
    };
    let pack = pack(told.get(2).map_or("/usr/share/zoneinfo", String::as_str))?;
    let office = vec![named(0, BERLIN), shift(1, "", MON_TO_FRI, 8 * HOUR, 18 * HOUR), holidays("", &thirty())];
    let books = [("office-berlin-30", office), ("all-limits", all_limits())];
    let weeks = weeks(count);
    let wanted = |place: usize, name: &str| told.get(place).is_none_or(|word| word == name);
    println!("{:<18} {:>10} {:>10}", "book", "ours", "original");
    let mut bad = false;
    for (title, records) in books.iter().filter(|(title, _)| wanted(3, title)) {
        let book = join(records);
        let mut best = [f64::INFINITY; 2];
        let mut answers = [Vec::new(), Vec::new()];
        for _ in 0..batches {
            for (place, (name, run)) in [("ours", ours as fn(&[u8], &[u8], &[i64]) -> _), ("original", original)].into_iter().enumerate() {
                if wanted(4, name) {
                    let (time, answer): (f64, Vec<i64>) = run(&book, &pack, &weeks);
                    best[place] = best[place].min(time);
                    answers[place] = answer;
                }
            }
        }
        println!("{title:<18} {:>10.0} {:>10.0}", best[0] / count as f64, best[1] / count as f64);
        bad |= told.len() < 5 && answers[0] != answers[1];
    }
    if bad {
        eprintln!("answers differ");
        std::process::exit(1);
    }
    Ok(())
}
