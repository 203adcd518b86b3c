/* The cases of query lines: tools/vector_cases.py tells their layout. */
#include <stdio.h>
#include <stdlib.h>
#include <string.h>

#include "../hirgwamo.h"
#include "load.h"

/* The parts of a case. */
enum { BOOK, PACK, LINES, ANSWERS, PARTS };

/* The most files of cases that there can be: their names have two digits. */
enum { MOST_FILES = 100, NAME = 16, PATH = 4096 };

static const char *const WORDS[QUERIES] = {"between", "add", "sub", "next", "previous"};

/* How many numbers stand in a query line and in its answer. */
static const int ASKED[QUERIES] = {4, 4, 4, 2, 2};
static const int ANSWERED[QUERIES] = {3, 3, 3, 4, 4};

static void fail(const char *what, const char *line) {
    fprintf(stderr, "%s: %s\n", what, line);
    exit(2);
}

/* Reads a query line. */
static void read_query(struct question *question, const char *line) {
    for (int kind = 0; kind < QUERIES; kind++) {
        size_t word = strlen(WORDS[kind]);
        if (strncmp(line, WORDS[kind], word) == 0 && numbers_in(line + word, question->asked, MOST_ASKED) == ASKED[kind]) {
            question->call = (enum call)kind;
            return;
        }
    }
    fail("this line should be a query", line);
}

/* Reads the line of an answer: `ok` and its numbers, or `no` and a refusal's number and place. */
static void read_answer(struct question *question, const char *line) {
    int64_t numbers[MOST_ANSWERED];
    int count = numbers_in(line + 2, numbers, MOST_ANSWERED);
    if (strncmp(line, "ok", 2) == 0 && count == ANSWERED[question->call]) {
        expect_answer(question, numbers, (size_t)count);
    } else if (strncmp(line, "no", 2) == 0 && count == 2) {
        expect_refusal(question, (uint32_t)numbers[0], numbers[1]);
    } else {
        fail("this line should be an answer", line);
    }
}

/* Adds the questions of a case's lines. */
static void add_lines(struct stored *stored, struct question question, struct bytes lines, struct bytes answers) {
    char line[LINE], answer[LINE];
    while (take_line(&lines, line)) {
        if (!take_line(&answers, answer)) {
            fail("this line has no answer", line);
        }
        if (strcmp(answer, "bad") == 0) {
            stored->bad_lines++;
            continue;
        }
        memset(question.asked, 0, sizeof question.asked);
        read_query(&question, line);
        read_answer(&question, answer);
        add_question(stored, &question);
    }
    if (answers.len > 0) {
        fail("a case", "there are more answers than lines");
    }
}

/* ---- the same questions for one call */

/* The five numbers of a query. What stands behind the instant of a period is not looked at: numbers stand there that no call would take. */
static void write_query(const struct question *question, int64_t to[HIRGWAMO_QUERY_SIZE]) {
    int64_t unused[] = {question->call, 0, 0, INT64_MIN, INT64_MAX};
    memcpy(to, unused, sizeof unused);
    memcpy(to + 1, question->asked, (size_t)ASKED[question->call] * sizeof *to);
}

/* The six numbers of an answer. */
static void write_answer(const struct question *question, int64_t to[HIRGWAMO_ANSWER_SIZE]) {
    memset(to, 0, HIRGWAMO_ANSWER_SIZE * sizeof *to);
    to[0] = question->returned;
    if (question->returned != HIRGWAMO_OK) {
        to[1] = question->answer[0];
        return;
    }
    size_t instants = question->call < NEXT ? 2 : 4;
    to[1] = question->call < NEXT ? question->answer[2] : 0;
    memcpy(to + 2, question->answer, instants * sizeof *to);
}

/* Adds the batch of a case's questions, which are those from `first` on. */
static void add_queries(struct stored *stored, const struct question *of, size_t first, enum side side) {
    size_t count = stored->count - first;
    int64_t *queries = memory_for(NULL, count * HIRGWAMO_QUERY_SIZE, sizeof *queries);
    int64_t *answers = memory_for(NULL, count * HIRGWAMO_ANSWER_SIZE, sizeof *answers);
    for (size_t i = 0; i < count; i++) {
        write_query(&stored->questions[first + i], queries + i * HIRGWAMO_QUERY_SIZE);
        write_answer(&stored->questions[first + i], answers + i * HIRGWAMO_ANSWER_SIZE);
    }
    struct batch batch = {.number = of->number, .book = of->book, .pack = of->pack};
    batch.queries_len = count * HIRGWAMO_QUERY_SIZE;
    batch.queries = guarded_copy(queries, batch.queries_len * sizeof *queries, side);
    batch.answers = answers;
    batch.answers_len = count * HIRGWAMO_ANSWER_SIZE;
    free(queries);
    add_batch(stored, &batch);
}

/* ---- files */

/* Adds the cases of a file; `number` is that of the case before it. */
static void add_file(struct stored *stored, struct bytes file, enum side side, size_t *number) {
    while (file.len > 0) {
        struct bytes parts[PARTS];
        take_case(&file, parts, PARTS);
        struct question question = {.number = ++*number};
        size_t first = stored->count;
        question.book = guarded(parts[BOOK], side);
        question.pack = guarded(parts[PACK], side);
        add_lines(stored, question, parts[LINES], parts[ANSWERS]);
        add_queries(stored, &question, first, side);
        add_build(stored, first);
        add_marked(stored, first);
    }
}

void load_lines(struct stored *stored, const char *root, enum side side) {
    char folder[PATH], name[NAME];
    size_t number = 0;
    if (snprintf(folder, sizeof folder, "%s/crates/test_replay/data", root) >= (int)sizeof folder) {
        fail("the path is too long", root);
    }
    for (unsigned k = 0; k < MOST_FILES; k++) {
        struct bytes file;
        snprintf(name, sizeof name, "cases-%02u.bin", k);
        if (file_found(folder, name, &file)) {
            add_file(stored, file, side, &number);
            free((void *)file.at);
        }
    }
}
