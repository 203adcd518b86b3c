// A batch of the original's. The module around this text says which `jiff` and
// which `workclock` are meant, how a book is built (`build`), how what was kept
// of zones goes (`forget`), and which numbers stand for an instant (`pair`).

fn at([second, nano]: [i64; 2]) -> Timestamp {
    Timestamp::constant(second, nano as i32)
}

fn refusal(error: &Error) -> i64 {
    if matches!(error, Error::NoWorkingTime) { 6 } else { 7 }
}

/// The numbers of the original's answer, as ours writes them.
fn answer(schedule: &Schedule, kind: u8, numbers: &mut [i64]) -> Result<(), Error> {
    let first = at([numbers[0], numbers[1]]);
    let by = SignedDuration::new(numbers[2], numbers[3] as i32);
    let moved = match kind {
        0 => {
            let time = schedule.between(first, at([numbers[2], numbers[3]]));
            [time.as_secs(), time.subsec_nanos().into()]
        }
        1 => pair(schedule.add(first, by)?),
        2 => pair(schedule.sub(first, by)?),
        _ => {
            let period = if kind == 3 { schedule.next_period(first)? } else { schedule.previous_period(first)? };
            numbers[2..].copy_from_slice(&pair(period.end));
            pair(period.start)
        }
    };
    numbers[..2].copy_from_slice(&moved);
    Ok(())
}

/// Puts the answer in the question's place; of a refusal its number.
fn reply(schedule: &Schedule, kind: u8, place: &mut [i64]) {
    if let Err(error) = answer(schedule, kind, place) {
        place[0] = refusal(&error);
    }
}

fn built(on: &Book) -> Schedule {
    build(on).unwrap_or_else(|refusal| panic!("{refusal:?}"))
}

pub fn run(on: &Book, task: Task, count: usize, _: usize) -> Batch {
    match task {
        Task::Ask(call) => {
            let (kind, numbers) = asked(call);
            let mut work = numbers.repeat(count);
            let since = spent();
            let schedule = built(on);
            for place in work.chunks_mut(4) {
                reply(&schedule, kind, place);
            }
            (spent() - since, work.split_off(4 * (count - 1)))
        }
        Task::Build | Task::BuildAnew => {
            let since = spent();
            for _ in 0..count {
                if matches!(task, Task::BuildAnew) {
                    forget();
                }
                drop(black_box(build(black_box(on))));
            }
            (spent() - since, vec![1])
        }
        Task::List(a, b, _) => {
            let since = spent();
            let schedule = built(on);
            let mut found = Vec::new();
            for _ in 0..count {
                found = black_box(schedule.listing(black_box(at(a)), black_box(at(b))));
            }
            let time = spent() - since;
            let numbers = found.iter().flat_map(|&(start, end)| [pair(start), pair(end)].concat());
            (time, numbers.collect())
        }
    }
}
