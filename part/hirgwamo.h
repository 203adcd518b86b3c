/* Hirgwamo, a working-hours clock: the functions that C can call.
 *
 * Every function is proved, for all inputs, to answer as its definition says, to read only inside the ends of what is lent to it, and to write only the
 * numbers that are told here (crates `hirgwamo`, `query_numbers` and `query_numbers_c` of the repository). Nothing is kept from one call to the next and
 * nothing is allocated, so any number of threads may call at once, each with answers of its own; books, packs, zone files, logs and queries may be shared.
 *
 * Platform: x86-64 Linux on processors with the instructions of x86-64-v2, System V calling convention, with the C library's memcpy and memset.
 *
 * WHO OWNS WHAT. All memory is the caller's. A call reads what is lent as `const`, writes to what is lent as `int64_t *`, and keeps no pointer to either
 * when it returns. `book` is a rule book and `pack` a zone pack, `file` one zone file (TZif); docs/FORMATS.md has their bytes. A `.._len` counts elements:
 * bytes of a `const uint8_t *`, numbers of an `int64_t *`.
 *
 * NOT ALLOWED, and not found out by the functions:
 *  - NULL, even with a length of 0: lend any address that is aligned for its type instead;
 *  - a pointer that is not aligned for its type, or a length that passes the end of the memory behind it;
 *  - memory to be written that overlaps other memory lent to the same call, or that another thread uses meanwhile.
 *
 * NUMBERS. An instant is two numbers: whole seconds from 1970-01-01T00:00:00Z, rounded down, and nanoseconds from 0 to 999,999,999; from
 * -377,705,023,201 s to 253,402,207,200.999999999 s. A duration is two numbers of one sign or zero: seconds, and nanoseconds below 10^9 in size.
 *
 * MARKS. A function whose name ends with `_marked` answers as the one without that word does, and tells behind it, for each local time that an answer comes
 * from, whether a change of the clock skipped or repeated it: HIRGWAMO_PLAIN, _REPEATED, _SKIPPED or _BEYOND. docs/FORMATS.md has examples.
 *
 * WHAT IS RETURNED. 0 where the call answers; then its numbers stand at the front of `answer`, as many as told at each function. Else the number of a
 * refusal, and `answer[0]` is its place: where the record that is refused begins in the book for 4 and 5, else 0; the other numbers stay. Where `answer` has
 * fewer numbers than the function asks for, the return is HIRGWAMO_TOO_SHORT and nothing is written. Numbers behind the answer always stay.
 *
 * STACK. 256 KiB (262,144 bytes) of free stack are enough for every call. docs/PERFORMANCE.md has a bound for each of the calls underneath.
 *
 * EXAMPLE. Eight working hours from 2026-04-02T14:30:00Z on, by a book and a pack whose files are named on the command line:
 *
 *     #include <stdio.h>
 *     #include <hirgwamo.h>
 *
 *     static size_t load(const char *name, uint8_t *to, size_t most) {
 *         FILE *file = fopen(name, "rb");
 *         size_t length = file ? fread(to, 1, most, file) : 0;
 *         if (file) fclose(file);
 *         return length;
 *     }
 *
 *     int main(int argc, char **argv) {
 *         static uint8_t book[65536], pack[65536];
 *         int64_t answer[HIRGWAMO_INSTANT_SIZE] = {0};
 *         size_t book_len = argc > 1 ? load(argv[1], book, sizeof book) : 0;
 *         size_t pack_len = argc > 2 ? load(argv[2], pack, sizeof pack) : 0;
 *         uint32_t refusal = hirgwamo_add(book, book_len, pack, pack_len, 1775140200, 0, 8 * 3600, 0, answer, HIRGWAMO_INSTANT_SIZE);
 *         if (refusal == HIRGWAMO_OK) printf("%lld s %lld ns\n", (long long)answer[0], (long long)answer[1]);
 *         else printf("refusal %lu at %lld\n", (unsigned long)refusal, (long long)answer[0]);
 *         return refusal != HIRGWAMO_OK;
 *     }
 */
#ifndef HIRGWAMO_H
#define HIRGWAMO_H

#include <stddef.h>
#include <stdint.h>

#ifdef __cplusplus
extern "C" {
#endif

/* The version of this header: major * 1,000,000 + minor * 1,000 + patch. */
#define HIRGWAMO_VERSION 1001000u

/* Refusals. The first that applies in this order is given: 1, 2, 3; 4 or 5 of the default zone, then of the rules in the book's order; 6 of building; 8;
 * 9; 11; 12; then 6, 7 or 10 of the operation. The calls on a zone file give 5, then 8. */
enum {
    HIRGWAMO_OK = 0,
    HIRGWAMO_BOOK_LAYOUT = 1,          /* the book breaks its layout */
    HIRGWAMO_BOOK_LIMIT = 2,           /* the book passes a limit */
    HIRGWAMO_PACK_LAYOUT = 3,          /* the pack breaks its layout */
    HIRGWAMO_UNKNOWN_ZONE = 4,         /* a zone that the book names is not in the pack */
    HIRGWAMO_ZONE_UNUSABLE = 5,        /* a zone's file is not usable */
    HIRGWAMO_NO_WORKING_TIME = 6,      /* no working time: the book has none, or a gap is longer than the search limit */
    HIRGWAMO_OUT_OF_RANGE = 7,         /* the search meets the range's end, or -2^63 s is to be negated */
    HIRGWAMO_INSTANT_OUT_OF_RANGE = 8, /* an instant, a date or a time of day that there is not */
    HIRGWAMO_DURATION_MALFORMED = 9,   /* a duration's two numbers are of two signs, or its nanoseconds too many */
    HIRGWAMO_TOO_FEW_NUMBERS = 10,     /* the stretches do not fit the numbers lent to the listing */
    HIRGWAMO_LOG_MALFORMED = 11,       /* a log of runs is not one */
    HIRGWAMO_WIDTH_OUT_OF_RANGE = 12,  /* a window's width is below 1 s or above 34,560,000 s */

    /* Not refusals of the clock: the call itself is not whole. A call that returns one of them writes nothing. */
    HIRGWAMO_TOO_SHORT = 100, /* the numbers lent for the answer are fewer than it needs */
    HIRGWAMO_NO_QUERY = 101   /* queries that are no multiple of five numbers; in one of many answers: a query of a kind that there is not */
};

/* How many numbers each answer needs. */
enum {
    HIRGWAMO_VERDICT_SIZE = 1,
    HIRGWAMO_TIME_SIZE = 3,    /* between */
    HIRGWAMO_INSTANT_SIZE = 3, /* add, sub */
    HIRGWAMO_PERIOD_SIZE = 4,
    HIRGWAMO_COUNT_SIZE = 1,   /* list */
    HIRGWAMO_STRETCH_SIZE = 4, /* each stretch of a listing; and hardest */
    HIRGWAMO_OFFSET_SIZE = 1,
    HIRGWAMO_CHANGE_SIZE = 3,
    HIRGWAMO_RESOLVED_SIZE = 2,
    HIRGWAMO_QUERY_SIZE = 5,
    HIRGWAMO_ANSWER_SIZE = 6,
    HIRGWAMO_MARKED_PERIOD_SIZE = 6,
    HIRGWAMO_MARKED_INSTANT_SIZE = 3 /* resolve_marked */
};

/* Marks. Where ends that are merged lie at the same instant, the greatest mark is kept. */
enum {
    HIRGWAMO_PLAIN = 0,    /* one instant reads so; or the end is no rule's own */
    HIRGWAMO_REPEATED = 1, /* more than one instant reads so: the clock was set back; the earliest is given */
    HIRGWAMO_SKIPPED = 2,  /* no instant reads so: the clock was set forward over it; the time moves on by the gap */
    HIRGWAMO_BEYOND = 3    /* the instant would lie beyond the range; the first or the last instant is given */
};

/* The kinds of queries. */
enum {
    HIRGWAMO_BETWEEN = 0,
    HIRGWAMO_ADD = 1,
    HIRGWAMO_SUB = 2,
    HIRGWAMO_NEXT = 3,
    HIRGWAMO_PREVIOUS = 4
};

/* The version of the library, as HIRGWAMO_VERSION tells the header's. */
uint32_t hirgwamo_version(void);

/* Whether a book builds. answer: 0. Refusals 1 to 6. */
uint32_t hirgwamo_build(const uint8_t *book, size_t book_len, const uint8_t *pack, size_t pack_len, int64_t *answer, size_t answer_len);

/* The working time from the instant a to the instant b, negative where b is earlier. answer: seconds, nanoseconds, windows resolved. Refusals 1 to 6, 8. */
uint32_t hirgwamo_between(const uint8_t *book, size_t book_len, const uint8_t *pack, size_t pack_len, int64_t a_sec, int64_t a_ns, int64_t b_sec,
                          int64_t b_ns, int64_t *answer, size_t answer_len);

/* The instant that is a duration of working time after the instant t: the earliest by which so much has passed. A negative duration goes back.
 * answer: seconds, nanoseconds, windows resolved. Refusals 1 to 9. */
uint32_t hirgwamo_add(const uint8_t *book, size_t book_len, const uint8_t *pack, size_t pack_len, int64_t t_sec, int64_t t_ns, int64_t d_sec,
                      int64_t d_ns, int64_t *answer, size_t answer_len);

/* The same before the instant t: a negative duration goes on. Answer and refusals are those of hirgwamo_add. */
uint32_t hirgwamo_sub(const uint8_t *book, size_t book_len, const uint8_t *pack, size_t pack_len, int64_t t_sec, int64_t t_ns, int64_t d_sec,
                      int64_t d_ns, int64_t *answer, size_t answer_len);

/* The working period about an instant or the next one after it; it starts at the instant where that lies inside, and is cut to the search limit.
 * answer: start second, nanoseconds, end second, nanoseconds. Refusals 1 to 8. */
uint32_t hirgwamo_next_period(const uint8_t *book, size_t book_len, const uint8_t *pack, size_t pack_len, int64_t sec, int64_t ns, int64_t *answer,
                              size_t answer_len);

/* The last working period that begins before an instant; it ends at the instant where that lies inside, and is cut to the search limit. Answer and
 * refusals are those of hirgwamo_next_period. */
uint32_t hirgwamo_previous_period(const uint8_t *book, size_t book_len, const uint8_t *pack, size_t pack_len, int64_t sec, int64_t ns, int64_t *answer,
                                  size_t answer_len);

/* As hirgwamo_next_period, and the marks of both ends: each has the mark of the local time at which work, a break or a holiday begins or ends there. An end
 * that was moved to the instant given or to the search limit is plain. One that would lie on the day after 9999-12-31 is beyond the range.
 * answer: start second, nanoseconds, end second, nanoseconds, the start's mark, the end's mark. Refusals 1 to 8. */
uint32_t hirgwamo_next_period_marked(const uint8_t *book, size_t book_len, const uint8_t *pack, size_t pack_len, int64_t sec, int64_t ns,
                                     int64_t *answer, size_t answer_len);

/* As hirgwamo_previous_period, and the marks of both ends. Answer and refusals are those of hirgwamo_next_period_marked. */
uint32_t hirgwamo_previous_period_marked(const uint8_t *book, size_t book_len, const uint8_t *pack, size_t pack_len, int64_t sec, int64_t ns,
                                         int64_t *answer, size_t answer_len);

/* All maximal working stretches from the instant a to the instant b, four numbers each: start second, nanoseconds, end second, nanoseconds.
 * answer: how many stretches. `stretches` changes only where the call answers, and behind the last stretch it stays. Refusals 1 to 6, 8, 10. */
uint32_t hirgwamo_list(const uint8_t *book, size_t book_len, const uint8_t *pack, size_t pack_len, int64_t a_sec, int64_t a_ns, int64_t b_sec,
                       int64_t b_ns, int64_t *stretches, size_t stretches_len, int64_t *answer, size_t answer_len);

/* The hardest stretch of a log of runs: of the windows of `width` seconds that start with a run, the earliest of those with the most running time that was
 * working time. The log is pairs of numbers: a run's offset from the instant t and its length, in whole seconds.
 * answer: the time's seconds and nanoseconds, then those of the window's start. Refusals 1 to 6, 8, 11, 12. */
uint32_t hirgwamo_hardest(const uint8_t *book, size_t book_len, const uint8_t *pack, size_t pack_len, int64_t t_sec, int64_t t_ns, const int64_t *log,
                          size_t log_len, int64_t width, int64_t *answer, size_t answer_len);

/* The offset of a zone at an instant. answer: seconds east of Greenwich. Refusals 5, 8. */
uint32_t hirgwamo_offset(const uint8_t *file, size_t file_len, int64_t sec, int64_t ns, int64_t *answer, size_t answer_len);

/* The next change of a zone's offset after an instant. answer: 1 and the change's seconds and nanoseconds, or three zeros where the offset stays to the
 * range's end. Refusals 5, 8. */
uint32_t hirgwamo_next_change(const uint8_t *file, size_t file_len, int64_t sec, int64_t ns, int64_t *answer, size_t answer_len);

/* The instant of a local time: a date (years before 0 are negative, as in ISO 8601), a second of its day (0 to 86,399) and nanoseconds. Of a time that is
 * read twice it is the earlier one; a time that is skipped moves on by the gap. answer: seconds, nanoseconds. Refusals 5, 8. */
uint32_t hirgwamo_resolve(const uint8_t *file, size_t file_len, int64_t year, int64_t month, int64_t day, int64_t second, int64_t ns, int64_t *answer,
                          size_t answer_len);

/* As hirgwamo_resolve, and the local time's mark. answer: seconds, nanoseconds, mark. Refusals 5, 8. */
uint32_t hirgwamo_resolve_marked(const uint8_t *file, size_t file_len, int64_t year, int64_t month, int64_t day, int64_t second, int64_t ns,
                                 int64_t *answer, size_t answer_len);

/* Many queries of one book and pack, which is built once. A query is five numbers: its kind (0 between, 1 add, 2 sub, 3 next, 4 previous), an instant, and
 * the other instant, a duration, or two zeros that are not looked at. An answer is six numbers, in the order of the queries:
 *  - the number that the single call returns; of another kind HIRGWAMO_NO_QUERY;
 *  - the refusal's place, or the windows resolved; 0 for a period;
 *  - the answer's two or four numbers, and zeros behind them.
 * A book that is refused gives its refusal to each query of these five kinds. Returns 0 where all answers are written; HIRGWAMO_NO_QUERY where `queries_len`
 * is no multiple of five, else HIRGWAMO_TOO_SHORT where there are fewer than six numbers for each query; then nothing is written. Numbers behind the last
 * answer stay. */
uint32_t hirgwamo_answers(const uint8_t *book, size_t book_len, const uint8_t *pack, size_t pack_len, const int64_t *queries, size_t queries_len,
                          int64_t *answers, size_t answers_len);

#ifdef __cplusplus
}
#endif

#endif
