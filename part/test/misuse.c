/* Calls that are not whole, which the functions tell apart from refusals; and the version.
 *
 * usage: misuse
 *
 * Ends with 1 where one is told otherwise than hirgwamo.h says. */
#include <stdio.h>
#include <string.h>

#include "../hirgwamo.h"
#include "guard.h"

enum { QUERY = HIRGWAMO_QUERY_SIZE, ANSWER = HIRGWAMO_ANSWER_SIZE };

/* Monday to Friday, 09:00 to 17:00 in UTC, and a pack without zones. */
static const uint8_t OFFICE[] = {0, 0, 0, 1, 0, 0, 0, 12, 0, 0, 0, 19, 1, 0, 0x1F, 0, 0, 0x7E, 0x90, 0, 0, 0, 0, 0, 0, 0xEF, 0x10, 0, 0, 0, 0};
static const uint8_t NO_ZONES[] = {0, 0, 0, 0};

/* A book that breaks its layout. */
static const uint8_t BROKEN[] = {0, 0, 0};

/* Monday 2026-01-05T09:00Z, and the end of work on that day. */
#define MONDAY INT64_C(1767603600)
#define EVENING INT64_C(1767632400)

static int different = 0;

/* Says whether something is as it should be. */
static void expect(int is, const char *what) {
    printf("%s: %s\n", is ? "as told" : "NOT AS TOLD", what);
    different += !is;
}

/* Queries of a book, how many numbers are lent for the answers, and what is expected. */
struct trial {
    const uint8_t *book;
    size_t book_len;
    const int64_t *queries;
    size_t queries_len;
    size_t answers_len;
    uint32_t returned;
    const int64_t *answers;
    size_t written;
};

/* Whether a trial ends as expected with the memory against a page on this side. */
static int is_so_on(const struct trial *trial, enum side side) {
    struct room room = room_of_numbers(trial->answers_len);
    const uint8_t *book = guarded_copy(trial->book, trial->book_len, side);
    const uint8_t *pack = guarded_copy(NO_ZONES, sizeof NO_ZONES, side);
    const int64_t *queries = guarded_copy(trial->queries, trial->queries_len * sizeof *queries, side);
    struct numbers to = lend(&room, trial->answers_len, side);
    uint32_t returned = hirgwamo_answers(book, trial->book_len, pack, sizeof NO_ZONES, queries, trial->queries_len, to.at, to.len);
    if (returned != trial->returned || !others_stay(&to, trial->written)) {
        return 0;
    }
    return trial->written == 0 || memcmp(to.at, trial->answers, trial->written * sizeof *to.at) == 0;
}

/* Whether a trial ends as expected on both sides. */
static int is_so(const struct trial *trial) {
    return is_so_on(trial, BEHIND) && is_so_on(trial, BEFORE);
}

/* ---- trials */

/* Four queries of a book, and their answers. */
static int four_are(const uint8_t *book, size_t book_len, const int64_t *queries, const int64_t *answers) {
    struct trial trial = {book, book_len, queries, 4 * QUERY, 4 * ANSWER, HIRGWAMO_OK, answers, 4 * ANSWER};
    return is_so(&trial);
}

/* Kinds that there are not, beside kinds that there are. */
static void other_kinds(void) {
    static const int64_t QUERIES[] = {
        HIRGWAMO_NEXT, MONDAY, 0, 0, 0, 5, MONDAY, 0, 0, 0, -1, MONDAY, 0, 0, 0, HIRGWAMO_PREVIOUS, EVENING, 0, 0, 0,
    };
    static const int64_t ANSWERS[] = {
        HIRGWAMO_OK, 0, MONDAY, 0, EVENING, 0, HIRGWAMO_NO_QUERY, 0, 0, 0, 0, 0,
        HIRGWAMO_NO_QUERY, 0, 0, 0, 0, 0, HIRGWAMO_OK, 0, MONDAY, 0, EVENING, 0,
    };
    static const int64_t LARGE[] = {
        INT64_MIN, MONDAY, 0, 0, 0, INT64_MAX, MONDAY, 0, 0, 0, INT64_C(4294967296), MONDAY, 0, 0, 0, 256, MONDAY, 0, 0, 0,
    };
    static const int64_t NO_QUERIES[4 * ANSWER] = {
        [0] = HIRGWAMO_NO_QUERY, [ANSWER] = HIRGWAMO_NO_QUERY, [2 * ANSWER] = HIRGWAMO_NO_QUERY, [3 * ANSWER] = HIRGWAMO_NO_QUERY,
    };
    static const int64_t REFUSED[4 * ANSWER] = {
        [0] = HIRGWAMO_BOOK_LAYOUT, [ANSWER] = HIRGWAMO_NO_QUERY, [2 * ANSWER] = HIRGWAMO_NO_QUERY, [3 * ANSWER] = HIRGWAMO_BOOK_LAYOUT,
    };
    expect(four_are(OFFICE, sizeof OFFICE, QUERIES, ANSWERS), "the kinds 5 and -1 are no queries, and those beside them are answered");
    expect(four_are(OFFICE, sizeof OFFICE, LARGE, NO_QUERIES), "kinds that end with the bits of others are no queries");
    expect(four_are(BROKEN, sizeof BROKEN, QUERIES, REFUSED), "a book that is refused gives its refusal to queries, and not to the kinds 5 and -1");
}

/* Numbers that are no whole queries, and answers that do not fit. */
static void not_whole(void) {
    static const int64_t QUERIES[3 * QUERY] = {0};
    int is = 1;
    for (size_t len = 1; len <= 3 * QUERY; len++) {
        struct trial trial = {OFFICE, sizeof OFFICE, QUERIES, len, (len / QUERY + 1) * ANSWER, HIRGWAMO_NO_QUERY, NULL, 0};
        if (len % QUERY == 0) {
            trial.answers_len = len / QUERY * ANSWER - 1;
            trial.returned = HIRGWAMO_TOO_SHORT;
        }
        is = is && is_so(&trial);
    }
    struct trial both = {OFFICE, sizeof OFFICE, QUERIES, QUERY + 1, 0, HIRGWAMO_NO_QUERY, NULL, 0};
    expect(is_so(&both), "six numbers are no queries, also where no number is lent for an answer");
    expect(is, "1 to 15 numbers are queries only where they are a multiple of five, and need six numbers for each answer");
}

/* No queries. */
static void none(void) {
    static const int64_t NOTHING[1] = {0};
    struct trial trial = {OFFICE, sizeof OFFICE, NOTHING, 0, 0, HIRGWAMO_OK, NULL, 0};
    expect(is_so(&trial), "no queries have no answers");
    trial.answers_len = ANSWER;
    expect(is_so(&trial), "no queries write nothing");
    trial.book = BROKEN;
    trial.book_len = sizeof BROKEN;
    expect(is_so(&trial), "no queries of a book that is refused write nothing");
}

/* ---- answers with marks */

typedef uint32_t period_function(const uint8_t *, size_t, const uint8_t *, size_t, int64_t, int64_t, int64_t *, size_t);

/* Whether a call for a marked period says that so many numbers are too few, and writes nothing. */
static int period_is_refused(period_function *call, const uint8_t *book, size_t book_len, size_t len, enum side side) {
    struct room room = room_of_numbers(len);
    struct numbers to = lend(&room, len, side);
    uint32_t returned = call(book, book_len, NO_ZONES, sizeof NO_ZONES, MONDAY, 0, to.at, to.len);
    return returned == HIRGWAMO_TOO_SHORT && others_stay(&to, 0);
}

/* The same of a call for a marked local time. The zone file is not usable, which comes behind. */
static int local_is_refused(size_t len, enum side side) {
    struct room room = room_of_numbers(len);
    struct numbers to = lend(&room, len, side);
    uint32_t returned = hirgwamo_resolve_marked(BROKEN, sizeof BROKEN, 2026, 1, 5, 0, 0, to.at, to.len);
    return returned == HIRGWAMO_TOO_SHORT && others_stay(&to, 0);
}

/* Each number of numbers below what an answer with marks needs. */
static void too_short_for_marks(void) {
    period_function *const CALLS[] = {hirgwamo_next_period_marked, hirgwamo_previous_period_marked};
    int periods = 1, local = 1;
    for (int side = 0; side < SIDES; side++) {
        for (size_t len = 0; len < HIRGWAMO_MARKED_PERIOD_SIZE; len++) {
            for (size_t i = 0; i < sizeof CALLS / sizeof *CALLS; i++) {
                periods = periods && period_is_refused(CALLS[i], OFFICE, sizeof OFFICE, len, (enum side)side);
                periods = periods && period_is_refused(CALLS[i], BROKEN, sizeof BROKEN, len, (enum side)side);
            }
        }
        for (size_t len = 0; len < HIRGWAMO_MARKED_INSTANT_SIZE; len++) {
            local = local && local_is_refused(len, (enum side)side);
        }
    }
    expect(periods, "0 to 5 numbers are too few for a period with marks, whether the book builds or not");
    expect(local, "0 to 2 numbers are too few for a local time with its mark, also where the zone file is not usable");
}

int main(void) {
    other_kinds();
    not_whole();
    none();
    too_short_for_marks();
    expect(hirgwamo_version() == HIRGWAMO_VERSION, "the library's version is the header's");
    printf(different == 0 ? "all as told\n" : "NOT all as told\n");
    return different == 0 ? 0 : 1;
}
