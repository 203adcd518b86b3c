//! Nanoseconds a call of the original, best of several batches.
//!
//! Usage: bench FOLDER [ZONEINFO]
//!
//! Writes FOLDER/BOOK/book.bin, zones.bin and CALL.txt (one query line) for
//! each book and call, so that another program can be measured on the same,
//! then measures the original on what was written. Zone files are taken from
//! ZONEINFO, /usr/share/zoneinfo (Debian's tzdata) if not told otherwise.

use std::hint::black_box;
use std::path::Path;
use std::time::{Duration, Instant};

use bench::{books, calls, join, pack, Call};
use jiff::{SignedDuration, Timestamp};
use workclock::book::build;
use workclock::Schedule;

/// How long a batch takes at least: short, so that some batch runs undisturbed.
const BATCH: Duration = Duration::from_millis(1);
/// How long all batches of a call take together; there are two at least.
const TOTAL: Duration = Duration::from_millis(800);

/// Nanoseconds a call: the best batch.
fn measure(mut call: impl FnMut()) -> u128 {
    let mut timed = |count: u32| {
        let since = Instant::now();
        for _ in 0..count {
            call();
        }
        since.elapsed()
    };
    let mut count = 1;
    let mut best = timed(count);
    while best < BATCH {
        count *= 2;
        best = timed(count);
    }
    let since = Instant::now();
    loop {
        best = best.min(timed(count));
        if since.elapsed() > TOTAL {
            return best.as_nanos() / u128::from(count);
        }
    }
}

/// Makes a call, for its time alone.
fn make(call: Call, schedule: &Schedule) {
    let at = |[second, nano]: [i64; 2]| Timestamp::constant(second, nano as i32);
    let hours = SignedDuration::from_hours;
    match call {
        Call::Between(a, b) => drop(black_box(schedule.between(at(a), at(b)))),
        Call::Add(a, time) => drop(black_box(schedule.add(at(a), hours(time)))),
        Call::Sub(a, time) => drop(black_box(schedule.sub(at(a), hours(time)))),
        Call::Next(a) => drop(black_box(schedule.next_period(at(a)))),
        Call::Previous(a) => drop(black_box(schedule.previous_period(at(a)))),
    }
}

fn main() -> std::io::Result<()> {
    let arguments: Vec<String> = std::env::args().skip(1).collect();
    let Some(folder) = arguments.first() else {
        eprintln!("usage: bench FOLDER [ZONEINFO]");
        std::process::exit(2);
    };
    let zoneinfo = arguments.get(1).map_or("/usr/share/zoneinfo", String::as_str);
    let pack = pack(zoneinfo)?;
    println!("{:<20} {:<20} {:>14}", "book", "call", "ns");
    for (title, records) in books() {
        let book = join(&records);
        let place = Path::new(folder).join(title);
        std::fs::create_dir_all(&place)?;
        std::fs::write(place.join("book.bin"), &book)?;
        std::fs::write(place.join("zones.bin"), &pack)?;
        let schedule = match build(&book, &pack) {
            Ok(schedule) => schedule,
            Err(refusal) => panic!("{title}: {refusal:?}"),
        };
        let show = |call: &str, ns: u128| println!("{title:<20} {call:<20} {ns:>14}");
        show("layout-and-build", measure(|| drop(black_box(build(&book, &pack)))));
        for (name, call) in calls() {
            std::fs::write(place.join(format!("{name}.txt")), call.line())?;
            show(name, measure(|| make(call, &schedule)));
        }
    }
    Ok(())
}
