use std::ops::Range;

use jiff::{SignedDuration, Timestamp};

use crate::ffi::{self, Lent, Refusal, ANSWERED, ANSWER_SIZE, QUERY_SIZE};
use crate::{numbers, schedule, Error};

const BETWEEN: i64 = 0;
const ADD: i64 = 1;
const SUB: i64 = 2;
const NEXT: i64 = 3;
const PREVIOUS: i64 = 4;

const NOTHING: ffi::Pair = [0, 0];

/// Where an answer's own numbers begin: behind the refusal's number, and its place
/// or how many windows were worked out.
const ANSWER_HEAD: usize = 2;

/// A question for [`Schedule::answers`](crate::Schedule::answers), named after the
/// call that answers it alone.
#[derive(Clone, Copy, Debug, PartialEq, Eq, Hash)]
pub enum Query {
    /// [`between`](crate::Schedule::between) these two instants.
    Between(Timestamp, Timestamp),
    /// [`add`](crate::Schedule::add) this duration to this instant.
    Add(Timestamp, SignedDuration),
    /// [`sub`](crate::Schedule::sub) this duration from this instant.
    Sub(Timestamp, SignedDuration),
    /// [`next_period`](crate::Schedule::next_period) from this instant on.
    Next(Timestamp),
    /// [`previous_period`](crate::Schedule::previous_period) before this instant.
    Previous(Timestamp),
}

impl Query {
    fn numbers(&self) -> [i64; QUERY_SIZE] {
        let (kind, t, other) = match *self {
            Query::Between(a, b) => (BETWEEN, a, numbers::of_instant(b)),
            Query::Add(t, d) => (ADD, t, numbers::of_duration(d)),
            Query::Sub(t, d) => (SUB, t, numbers::of_duration(d)),
            Query::Next(t) => (NEXT, t, NOTHING),
            Query::Previous(t) => (PREVIOUS, t, NOTHING),
        };
        let [second, nanosecond] = numbers::of_instant(t);
        [kind, second, nanosecond, other[0], other[1]]
    }

    /// What the proved code's numbers say about this query.
    fn answer(&self, written: &[i64]) -> Result<Answer, Error> {
        let (number, place, told) = (written[0], written[1], &written[ANSWER_HEAD..]);
        let number = u32::try_from(number).expect("the proved code numbers refusals from 0 on");
        if number != ANSWERED {
            return Err(schedule::search_error(Refusal { number, place }));
        }
        Ok(match self {
            Query::Between(..) => Answer::Time(numbers::duration(told)),
            Query::Add(..) | Query::Sub(..) => Answer::Instant(numbers::instant(told)),
            Query::Next(_) | Query::Previous(_) => Answer::Period(numbers::period(told)),
        })
    }
}

/// The answer to a [`Query`].
#[derive(Clone, Debug, PartialEq, Eq, Hash)]
pub enum Answer {
    /// The working time, to [`Query::Between`].
    Time(SignedDuration),
    /// The instant, to [`Query::Add`] and [`Query::Sub`].
    Instant(Timestamp),
    /// The working period, to [`Query::Next`] and [`Query::Previous`].
    Period(Range<Timestamp>),
}

pub(crate) fn answers(lent: Lent<'_>, queries: &[Query]) -> Vec<Result<Answer, Error>> {
    let asked: Vec<i64> = queries.iter().flat_map(Query::numbers).collect();
    let mut written = vec![0; ANSWER_SIZE * queries.len()];
    ffi::answers(lent, &asked, &mut written);
    let answers = written.chunks_exact(ANSWER_SIZE);
    queries.iter().zip(answers).map(|(query, answer)| query.answer(answer)).collect()
}
