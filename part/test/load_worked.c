/* The worked examples of marks (docs/FORMATS.md, crates/laws_marks/specs/Examples.antt). */
#include "../hirgwamo.h"
#include "load.h"

/* ---- zones: the rule of Central Europe, and no zones */

#define HEADER "TZif2\0\0\0\0\0\0\0\0\0\0\0\0\0\0\0" "\0\0\0\0" "\0\0\0\0" "\0\0\0\0" "\0\0\0\0" "\0\0\0\1" "\0\0\0\4"
#define TYPE "\0\0\x0E\x10" "\0" "\0" "CET\0"
#define CET HEADER TYPE HEADER TYPE "\nCET-1CEST,M3.5.0,M10.5.0/3\n"

static const char CET_FILE[] = CET;
static const char CET_PACK[] = "\0\0\0\1" "\0\0\0\x0C" "\0\0\0\x8C" "\3CET" CET;
static const char NO_ZONES[] = "\0\0\0\0";
static const char NO_FILE[] = "TZif";

/* ---- books */

/* A directory of three records: the default zone and two of work or breaks. */
#define THREE "\0\0\0\3" "\0\0\0\x1C" "\0\0\0\5" "\0\0\0\x21" "\0\0\0\x13" "\0\0\0\x34" "\0\0\0\x13"
#define ONE "\0\0\0\1" "\0\0\0\x0C" "\0\0\0\x13"
#define IN_CET "\0\3CET"

/* A time of day without nanoseconds. */
#define AT_0000 "\0\0\0\0" "\0\0\0\0"
#define AT_0230 "\0\0\x23\x28" "\0\0\0\0"
#define AT_0330 "\0\0\x31\x38" "\0\0\0\0"
#define AT_0400 "\0\0\x38\x40" "\0\0\0\0"
#define AT_0600 "\0\0\x54\x60" "\0\0\0\0"
#define AT_0900 "\0\0\x7E\x90" "\0\0\0\0"
#define AT_1700 "\0\0\xEF\x10" "\0\0\0\0"

/* Work and breaks on some weekdays. */
#define ALL_DAYS "\x7F"
#define WORKDAYS "\x1F"
#define SUNDAY "\x40"
#define WORK "\1\0"
#define BREAK "\2\0"

/* All days from 00:00 to 00:00, and a break on Sundays from 02:30 to 04:00. */
static const char SUNDAYS[] = THREE IN_CET WORK ALL_DAYS AT_0000 AT_0000 BREAK SUNDAY AT_0230 AT_0400;

/* Two shifts on Sundays, from 03:30 and from 02:30 to 06:00: on 29 March 2026 both start at 01:30Z. */
static const char COINCIDING[] = THREE IN_CET WORK SUNDAY AT_0330 AT_0600 WORK SUNDAY AT_0230 AT_0600;

/* All days from 00:00 to 00:00 in UTC; the office of document 01; and a book that breaks its layout. */
static const char ALWAYS[] = ONE WORK ALL_DAYS AT_0000 AT_0000;
static const char OFFICE[] = ONE WORK WORKDAYS AT_0900 AT_1700;
static const char BROKEN[] = "\0\0\0";

/* ---- examples */

#define LENT(text) {(const uint8_t *)(text), sizeof(text) - 1}
#define IN_SUNDAYS LENT(SUNDAYS), LENT(CET_PACK)
#define IN_COINCIDING LENT(COINCIDING), LENT(CET_PACK)
#define IN_ALWAYS LENT(ALWAYS), LENT(NO_ZONES)
#define IN_OFFICE LENT(OFFICE), LENT(NO_ZONES)
#define IN_CET_FILE LENT(CET_FILE), LENT(NO_ZONES)

/* A question, the number that is returned, and the answer's numbers or the refusal's place. */
struct example {
    enum call call;
    struct bytes book, pack;
    int64_t asked[MOST_ASKED];
    uint32_t returned;
    int64_t answer[MOST_ANSWERED];
};

#define PLAIN HIRGWAMO_PLAIN
#define REPEATED HIRGWAMO_REPEATED
#define SKIPPED HIRGWAMO_SKIPPED
#define BEYOND HIRGWAMO_BEYOND
#define FIRST INT64_C(-377705023201), 0
#define LAST INT64_C(253402207200), 999999999

/* Local times in Central Europe. On 29 March 2026 the clock is set from 02:00 to 03:00, on 25 October from 03:00 to 02:00. */
static const struct example LOCAL_TIMES[] = {
    {RESOLVE_MARKED, IN_CET_FILE, {2026, 3, 29, 9000, 0}, HIRGWAMO_OK, {1774747800, 0, SKIPPED}},
    {RESOLVE_MARKED, IN_CET_FILE, {2026, 3, 29, 7199, 999999999}, HIRGWAMO_OK, {1774745999, 999999999, PLAIN}},
    {RESOLVE_MARKED, IN_CET_FILE, {2026, 3, 29, 7200, 0}, HIRGWAMO_OK, {1774746000, 0, SKIPPED}},
    {RESOLVE_MARKED, IN_CET_FILE, {2026, 3, 29, 10800, 0}, HIRGWAMO_OK, {1774746000, 0, PLAIN}},
    {RESOLVE_MARKED, IN_CET_FILE, {2026, 10, 25, 9000, 0}, HIRGWAMO_OK, {1792888200, 0, REPEATED}},
    {RESOLVE_MARKED, IN_CET_FILE, {2026, 10, 25, 7200, 0}, HIRGWAMO_OK, {1792886400, 0, REPEATED}},
    {RESOLVE_MARKED, IN_CET_FILE, {2026, 10, 25, 10799, 0}, HIRGWAMO_OK, {1792889999, 0, REPEATED}},
    {RESOLVE_MARKED, IN_CET_FILE, {2026, 10, 25, 10800, 0}, HIRGWAMO_OK, {1792893600, 0, PLAIN}},
    {RESOLVE_MARKED, IN_CET_FILE, {9999, 12, 31, 0, 0}, HIRGWAMO_OK, {LAST, BEYOND}},
    {RESOLVE_MARKED, IN_CET_FILE, {-9999, 1, 1, 0, 0}, HIRGWAMO_OK, {FIRST, BEYOND}},
    {RESOLVE_MARKED, IN_CET_FILE, {2026, 2, 29, 0, 0}, HIRGWAMO_INSTANT_OUT_OF_RANGE, {0}},
    {RESOLVE_MARKED, LENT(NO_FILE), LENT(NO_ZONES), {2026, 2, 28, 0, 0}, HIRGWAMO_ZONE_UNUSABLE, {0}},
};

/* Periods: from Saturday 28 March 12:00Z; from 22 March 01:30Z, so that a window of the search ends where the period does; back from there, from behind it
 * and from inside; 25 October; two starts at one instant; the end of the range; the office. */
static const struct example PERIODS[] = {
    {NEXT_MARKED, IN_SUNDAYS, {1774699200, 0}, HIRGWAMO_OK, {1774699200, 0, 1774747800, 0, PLAIN, SKIPPED}},
    {NEXT_MARKED, IN_SUNDAYS, {1774747800, 0}, HIRGWAMO_OK, {1774749600, 0, 1775349000, 0, PLAIN, PLAIN}},
    {NEXT_MARKED, IN_SUNDAYS, {1774143000, 0}, HIRGWAMO_OK, {1774148400, 0, 1774747800, 0, PLAIN, SKIPPED}},
    {PREVIOUS_MARKED, IN_SUNDAYS, {1774747800, 0}, HIRGWAMO_OK, {1774148400, 0, 1774747800, 0, PLAIN, SKIPPED}},
    {PREVIOUS_MARKED, IN_SUNDAYS, {1774748000, 0}, HIRGWAMO_OK, {1774148400, 0, 1774747800, 0, PLAIN, SKIPPED}},
    {PREVIOUS_MARKED, IN_SUNDAYS, {1774747799, 0}, HIRGWAMO_OK, {1774148400, 0, 1774747799, 0, PLAIN, PLAIN}},
    {NEXT_MARKED, IN_SUNDAYS, {1792872000, 0}, HIRGWAMO_OK, {1792872000, 0, 1792888200, 0, PLAIN, REPEATED}},
    {NEXT_MARKED, IN_COINCIDING, {1774699200, 0}, HIRGWAMO_OK, {1774747800, 0, 1774756800, 0, SKIPPED, PLAIN}},
    {NEXT_MARKED, IN_COINCIDING, {1774747800, 0}, HIRGWAMO_OK, {1774747800, 0, 1774756800, 0, SKIPPED, PLAIN}},
    {NEXT_MARKED, IN_COINCIDING, {1774747801, 0}, HIRGWAMO_OK, {1774747801, 0, 1774756800, 0, PLAIN, PLAIN}},
    {PREVIOUS_MARKED, IN_COINCIDING, {1774756800, 0}, HIRGWAMO_OK, {1774747800, 0, 1774756800, 0, SKIPPED, PLAIN}},
    {NEXT_MARKED, IN_ALWAYS, {INT64_C(253402120800), 0}, HIRGWAMO_OK, {INT64_C(253402120800), 0, LAST, PLAIN, BEYOND}},
    {NEXT_MARKED, IN_OFFICE, {1768039200, 0}, HIRGWAMO_OK, {1768208400, 0, 1768237200, 0, PLAIN, PLAIN}},
    {PREVIOUS_MARKED, IN_OFFICE, {1768039200, 0}, HIRGWAMO_OK, {1767949200, 0, 1767978000, 0, PLAIN, PLAIN}},
    {NEXT_MARKED, IN_OFFICE, {LAST}, HIRGWAMO_OUT_OF_RANGE, {0}},
    {PREVIOUS_MARKED, IN_OFFICE, {FIRST}, HIRGWAMO_OUT_OF_RANGE, {0}},
    {NEXT_MARKED, IN_OFFICE, {0, 1000000000}, HIRGWAMO_INSTANT_OUT_OF_RANGE, {0}},
    {NEXT_MARKED, LENT(BROKEN), LENT(NO_ZONES), {0, 0}, HIRGWAMO_BOOK_LAYOUT, {0}},
    {PREVIOUS_MARKED, LENT(SUNDAYS), LENT(NO_ZONES), {0, 0}, HIRGWAMO_UNKNOWN_ZONE, {28}},
};

/* Adds examples. */
static void add_examples(struct stored *stored, const struct example *examples, size_t count, enum side side) {
    for (size_t i = 0; i < count; i++) {
        const struct example *e = &examples[i];
        struct question question = {.call = e->call, .number = i + 1, .book = guarded(e->book, side), .pack = guarded(e->pack, side)};
        for (int k = 0; k < MOST_ASKED; k++) {
            question.asked[k] = e->asked[k];
        }
        if (e->returned != HIRGWAMO_OK) {
            expect_refusal(&question, e->returned, e->answer[0]);
        } else {
            expect_answer(&question, e->answer, need_of(e->call));
        }
        add_question(stored, &question);
    }
}

void load_worked(struct stored *stored, enum side side) {
    add_examples(stored, LOCAL_TIMES, sizeof LOCAL_TIMES / sizeof *LOCAL_TIMES, side);
    add_examples(stored, PERIODS, sizeof PERIODS / sizeof *PERIODS, side);
}
