//! The functions of the proved code, and the only unsafe code of this crate.
//!
//! What C asks of a caller (`hirgwamo.h`): no pointer is null, each is aligned for
//! its type, each length ends inside the memory behind its pointer, and memory to
//! be written overlaps no other memory lent to the same call. Slices have all of
//! it: a slice's pointer is never null and always aligned, also where the slice is
//! empty, and a `&mut` slice overlaps nothing that is lent beside it. The functions
//! keep no pointer when they return, write only inside the slices lent as `&mut`,
//! and may be called by several threads at once.

/// Two numbers: an instant's or a duration's seconds and nanoseconds.
pub(crate) type Pair = [i64; 2];

/// A local time: year, month, day, second of the day and nanoseconds.
pub(crate) type Local = [i64; 5];

pub(crate) const VERDICT_SIZE: usize = 1;
pub(crate) const TIME_SIZE: usize = 3;
pub(crate) const INSTANT_SIZE: usize = 3;
pub(crate) const PERIOD_SIZE: usize = 4;
pub(crate) const COUNT_SIZE: usize = 1;
pub(crate) const STRETCH_SIZE: usize = 4;
pub(crate) const QUERY_SIZE: usize = 5;
pub(crate) const ANSWER_SIZE: usize = 6;
pub(crate) const MARKED_PERIOD_SIZE: usize = 6;
pub(crate) const MARKED_INSTANT_SIZE: usize = 3;

/// What a call returns where it answers; any other number is a refusal's.
pub(crate) const ANSWERED: u32 = 0;

/// A rule book and a zone pack, lent to a call.
#[derive(Clone, Copy)]
pub(crate) struct Lent<'a> {
    pub(crate) book: &'a [u8],
    pub(crate) pack: &'a [u8],
}

/// A refusal's number, and where the refused record begins in the book.
#[derive(Clone, Copy, Debug, PartialEq, Eq)]
pub(crate) struct Refusal {
    pub(crate) number: u32,
    pub(crate) place: i64,
}

type OnInstant = unsafe extern "C" fn(*const u8, usize, *const u8, usize, i64, i64, *mut i64, usize) -> u32;
type OnPairs = unsafe extern "C" fn(*const u8, usize, *const u8, usize, i64, i64, i64, i64, *mut i64, usize) -> u32;

extern "C" {
    fn hirgwamo_version() -> u32;
    fn hirgwamo_build(
        book: *const u8,
        book_len: usize,
        pack: *const u8,
        pack_len: usize,
        answer: *mut i64,
        answer_len: usize,
    ) -> u32;
    fn hirgwamo_between(
        book: *const u8,
        book_len: usize,
        pack: *const u8,
        pack_len: usize,
        a_sec: i64,
        a_ns: i64,
        b_sec: i64,
        b_ns: i64,
        answer: *mut i64,
        answer_len: usize,
    ) -> u32;
    fn hirgwamo_add(
        book: *const u8,
        book_len: usize,
        pack: *const u8,
        pack_len: usize,
        t_sec: i64,
        t_ns: i64,
        d_sec: i64,
        d_ns: i64,
        answer: *mut i64,
        answer_len: usize,
    ) -> u32;
    fn hirgwamo_sub(
        book: *const u8,
        book_len: usize,
        pack: *const u8,
        pack_len: usize,
        t_sec: i64,
        t_ns: i64,
        d_sec: i64,
        d_ns: i64,
        answer: *mut i64,
        answer_len: usize,
    ) -> u32;
    fn hirgwamo_next_period(
        book: *const u8,
        book_len: usize,
        pack: *const u8,
        pack_len: usize,
        sec: i64,
        ns: i64,
        answer: *mut i64,
        answer_len: usize,
    ) -> u32;
    fn hirgwamo_previous_period(
        book: *const u8,
        book_len: usize,
        pack: *const u8,
        pack_len: usize,
        sec: i64,
        ns: i64,
        answer: *mut i64,
        answer_len: usize,
    ) -> u32;
    fn hirgwamo_next_period_marked(
        book: *const u8,
        book_len: usize,
        pack: *const u8,
        pack_len: usize,
        sec: i64,
        ns: i64,
        answer: *mut i64,
        answer_len: usize,
    ) -> u32;
    fn hirgwamo_previous_period_marked(
        book: *const u8,
        book_len: usize,
        pack: *const u8,
        pack_len: usize,
        sec: i64,
        ns: i64,
        answer: *mut i64,
        answer_len: usize,
    ) -> u32;
    fn hirgwamo_list(
        book: *const u8,
        book_len: usize,
        pack: *const u8,
        pack_len: usize,
        a_sec: i64,
        a_ns: i64,
        b_sec: i64,
        b_ns: i64,
        stretches: *mut i64,
        stretches_len: usize,
        answer: *mut i64,
        answer_len: usize,
    ) -> u32;
    fn hirgwamo_resolve_marked(
        file: *const u8,
        file_len: usize,
        year: i64,
        month: i64,
        day: i64,
        second: i64,
        ns: i64,
        answer: *mut i64,
        answer_len: usize,
    ) -> u32;
    fn hirgwamo_answers(
        book: *const u8,
        book_len: usize,
        pack: *const u8,
        pack_len: usize,
        queries: *const i64,
        queries_len: usize,
        answers: *mut i64,
        answers_len: usize,
    ) -> u32;
}

/// The answer, or the refusal whose place stands in its first number.
fn told<const N: usize>(number: u32, answer: [i64; N]) -> Result<[i64; N], Refusal> {
    if number == ANSWERED {
        Ok(answer)
    } else {
        Err(Refusal { number, place: answer[0] })
    }
}

pub(crate) fn version() -> u32 {
    // SAFETY: the function takes nothing and touches no memory of the caller.
    unsafe { hirgwamo_version() }
}

pub(crate) fn build(lent: Lent<'_>) -> Result<[i64; VERDICT_SIZE], Refusal> {
    let mut answer = [0; VERDICT_SIZE];
    let Lent { book, pack } = lent;
    // SAFETY: pointers and lengths are those of two slices and of an array of this
    // function, which overlaps neither.
    let number = unsafe {
        hirgwamo_build(book.as_ptr(), book.len(), pack.as_ptr(), pack.len(), answer.as_mut_ptr(), answer.len())
    };
    told(number, answer)
}

/// A call on one instant. `call` is one of the functions above.
fn on_instant<const N: usize>(call: OnInstant, lent: Lent<'_>, [sec, ns]: Pair) -> Result<[i64; N], Refusal> {
    let mut answer = [0; N];
    let Lent { book, pack } = lent;
    // SAFETY: pointers and lengths are those of two slices and of an array of this
    // function, which overlaps neither; any numbers are allowed.
    let number = unsafe {
        call(book.as_ptr(), book.len(), pack.as_ptr(), pack.len(), sec, ns, answer.as_mut_ptr(), answer.len())
    };
    told(number, answer)
}

/// A call on an instant and another instant or a duration. `call` is one of the
/// functions above.
fn on_pairs<const N: usize>(call: OnPairs, lent: Lent<'_>, a: Pair, b: Pair) -> Result<[i64; N], Refusal> {
    let mut answer = [0; N];
    let Lent { book, pack } = lent;
    // SAFETY: pointers and lengths are those of two slices and of an array of this
    // function, which overlaps neither; any numbers are allowed.
    let number = unsafe {
        call(
            book.as_ptr(),
            book.len(),
            pack.as_ptr(),
            pack.len(),
            a[0],
            a[1],
            b[0],
            b[1],
            answer.as_mut_ptr(),
            answer.len(),
        )
    };
    told(number, answer)
}

pub(crate) fn between(lent: Lent<'_>, a: Pair, b: Pair) -> Result<[i64; TIME_SIZE], Refusal> {
    on_pairs(hirgwamo_between, lent, a, b)
}

pub(crate) fn add(lent: Lent<'_>, t: Pair, d: Pair) -> Result<[i64; INSTANT_SIZE], Refusal> {
    on_pairs(hirgwamo_add, lent, t, d)
}

pub(crate) fn sub(lent: Lent<'_>, t: Pair, d: Pair) -> Result<[i64; INSTANT_SIZE], Refusal> {
    on_pairs(hirgwamo_sub, lent, t, d)
}

pub(crate) fn next_period(lent: Lent<'_>, t: Pair) -> Result<[i64; PERIOD_SIZE], Refusal> {
    on_instant(hirgwamo_next_period, lent, t)
}

pub(crate) fn previous_period(lent: Lent<'_>, t: Pair) -> Result<[i64; PERIOD_SIZE], Refusal> {
    on_instant(hirgwamo_previous_period, lent, t)
}

pub(crate) fn next_period_marked(lent: Lent<'_>, t: Pair) -> Result<[i64; MARKED_PERIOD_SIZE], Refusal> {
    on_instant(hirgwamo_next_period_marked, lent, t)
}

pub(crate) fn previous_period_marked(lent: Lent<'_>, t: Pair) -> Result<[i64; MARKED_PERIOD_SIZE], Refusal> {
    on_instant(hirgwamo_previous_period_marked, lent, t)
}

pub(crate) fn resolve_marked(file: &[u8], local: Local) -> Result<[i64; MARKED_INSTANT_SIZE], Refusal> {
    let mut answer = [0; MARKED_INSTANT_SIZE];
    let [year, month, day, second, ns] = local;
    // SAFETY: pointers and lengths are those of a slice and of an array of this
    // function, which does not overlap it; any numbers are allowed.
    let number = unsafe {
        hirgwamo_resolve_marked(
            file.as_ptr(),
            file.len(),
            year,
            month,
            day,
            second,
            ns,
            answer.as_mut_ptr(),
            answer.len(),
        )
    };
    told(number, answer)
}

/// Writes the stretches to the front of `stretches` and tells how many there are.
pub(crate) fn list(lent: Lent<'_>, a: Pair, b: Pair, stretches: &mut [i64]) -> Result<[i64; COUNT_SIZE], Refusal> {
    let mut answer = [0; COUNT_SIZE];
    let Lent { book, pack } = lent;
    // SAFETY: pointers and lengths are those of three slices and of an array of this
    // function; `stretches` is lent as `&mut`, so neither of the two that are written
    // overlaps anything; any numbers are allowed.
    let number = unsafe {
        hirgwamo_list(
            book.as_ptr(),
            book.len(),
            pack.as_ptr(),
            pack.len(),
            a[0],
            a[1],
            b[0],
            b[1],
            stretches.as_mut_ptr(),
            stretches.len(),
            answer.as_mut_ptr(),
            answer.len(),
        )
    };
    told(number, answer)
}

/// Writes the answers to queries of five numbers each, six numbers each.
pub(crate) fn answers(lent: Lent<'_>, queries: &[i64], answers: &mut [i64]) {
    let Lent { book, pack } = lent;
    // SAFETY: pointers and lengths are those of four slices; `answers` is lent as
    // `&mut`, so it overlaps none of the others; any numbers are allowed.
    let number = unsafe {
        hirgwamo_answers(
            book.as_ptr(),
            book.len(),
            pack.as_ptr(),
            pack.len(),
            queries.as_ptr(),
            queries.len(),
            answers.as_mut_ptr(),
            answers.len(),
        )
    };
    assert_eq!(number, ANSWERED, "hirgwamo: the proved code does not take the queries as this crate wrote them");
}
