/* The questions about zone files: tools/zone_questions.py tells their layout. */
#include <stdio.h>
#include <stdlib.h>
#include <string.h>

#include "../hirgwamo.h"
#include "load.h"

static const char *const FOLDER = "test_zone_calls/data";

/* The calls by their numbers in the file of questions, which begin with 1: their words in the lines that are expected, and how many numbers they take. The
 * line of a local time tells its mark. */
enum { WORDS = 3 };
static const struct {
    enum call call;
    const char *word;
    int asked;
} ZONE_CALL[WORDS] = {{OFFSET, "offset", 2}, {CHANGE, "change", 2}, {RESOLVE_MARKED, "resolve", 5}};

static void fail(const char *what, const char *line) {
    fprintf(stderr, "%s: %s\n", what, line);
    exit(2);
}

/* Reads the answer in a line: ` never`, ` no` with a refusal's number and place, or the answer's numbers. */
static void read_answer(struct question *question, const char *text) {
    int64_t numbers[MOST_ANSWERED] = {0};
    if (strcmp(text, " never") == 0 && question->call == CHANGE) {
        expect_answer(question, numbers, HIRGWAMO_CHANGE_SIZE);
    } else if (strncmp(text, " no", 3) == 0 && numbers_in(text + 3, numbers, MOST_ANSWERED) == 2) {
        expect_refusal(question, (uint32_t)numbers[0], numbers[1]);
    } else if (question->call == CHANGE && numbers_in(text, numbers + 1, MOST_ANSWERED - 1) == HIRGWAMO_CHANGE_SIZE - 1) {
        numbers[0] = 1;
        expect_answer(question, numbers, HIRGWAMO_CHANGE_SIZE);
    } else if (question->call != CHANGE && numbers_in(text, numbers, MOST_ANSWERED) == (int)need_of(question->call)) {
        expect_answer(question, numbers, need_of(question->call));
    } else {
        fail("this should be an answer", text);
    }
}

/* Reads a line that is expected. It must begin with the question's call and numbers. */
static void read_line(struct question *question, size_t which, char line[LINE]) {
    int64_t numbers[MOST_ASKED];
    char *colon = strchr(line, ':');
    size_t word = strlen(ZONE_CALL[which].word);
    int asked = ZONE_CALL[which].asked;
    if (colon == NULL || strncmp(line, ZONE_CALL[which].word, word) != 0) {
        fail("this line is about another question", line);
    }
    *colon = '\0';
    if (numbers_in(line + word, numbers, MOST_ASKED) != asked || memcmp(numbers, question->asked, (size_t)asked * sizeof *numbers) != 0) {
        fail("this line is about another question", line);
    }
    read_answer(question, colon + 1);
}

/* Adds a question, and one about a local time also by the call that tells no mark. */
static void add_with_older(struct stored *stored, const struct question *question) {
    add_question(stored, question);
    if (question->call != RESOLVE_MARKED) {
        return;
    }
    struct question older = *question;
    older.call = RESOLVE;
    if (question->returned == HIRGWAMO_OK) {
        expect_answer(&older, question->answer, need_of(RESOLVE));
    }
    add_question(stored, &older);
}

/* The part of the zone files that a question is about. */
static struct bytes part_of(struct bytes zones, size_t place, size_t len) {
    take(&zones, place);
    return take(&zones, len);
}

void load_zones(struct stored *stored, const char *root, enum side side) {
    struct bytes zones = file_of_crate(root, FOLDER, "zones.bin");
    struct bytes asked = file_of_crate(root, FOLDER, "questions.bin");
    struct bytes lines = file_of_crate(root, "test_zone_calls", "stdout");
    char line[LINE];
    for (size_t number = 1; asked.len > 0; number++) {
        size_t which = take_size(&asked) - 1;
        if (which >= WORDS || !take_line(&lines, line)) {
            fail("a question about a zone file", "it has no such call, or no line");
        }
        struct question question = {.call = ZONE_CALL[which].call, .number = number};
        size_t place = take_size(&asked);
        question.book = guarded(part_of(zones, place, take_size(&asked)), side);
        for (int i = 0; i < MOST_ASKED; i++) {
            question.asked[i] = take_signed(&asked);
        }
        read_line(&question, which, line);
        add_with_older(stored, &question);
    }
    if (lines.len > 0) {
        fail("the questions about zone files", "there are more lines than questions");
    }
}
