#include "question.h"

#include <stdio.h>
#include <stdlib.h>
#include <string.h>

#include "../hirgwamo.h"

/* How many questions or batches there is memory for grows by this number. */
enum { STEP = 1024 };

static const struct {
    const char *name;
    size_t need;
} CALL[CALLS] = {
    [BETWEEN] = {"between", HIRGWAMO_TIME_SIZE},
    [ADD] = {"add", HIRGWAMO_INSTANT_SIZE},
    [SUB] = {"sub", HIRGWAMO_INSTANT_SIZE},
    [NEXT] = {"next_period", HIRGWAMO_PERIOD_SIZE},
    [PREVIOUS] = {"previous_period", HIRGWAMO_PERIOD_SIZE},
    [BUILD] = {"build", HIRGWAMO_VERDICT_SIZE},
    [LIST] = {"list", HIRGWAMO_COUNT_SIZE},
    [HARDEST] = {"hardest", HIRGWAMO_STRETCH_SIZE},
    [OFFSET] = {"offset", HIRGWAMO_OFFSET_SIZE},
    [CHANGE] = {"next_change", HIRGWAMO_CHANGE_SIZE},
    [RESOLVE] = {"resolve", HIRGWAMO_RESOLVED_SIZE},
    [NEXT_MARKED] = {"next_period_marked", HIRGWAMO_MARKED_PERIOD_SIZE},
    [PREVIOUS_MARKED] = {"previous_period_marked", HIRGWAMO_MARKED_PERIOD_SIZE},
    [RESOLVE_MARKED] = {"resolve_marked", HIRGWAMO_MARKED_INSTANT_SIZE},
};

const char *name_of(enum call call) {
    return CALL[call].name;
}

size_t need_of(enum call call) {
    return CALL[call].need;
}

/* ---- asking */

/* Asks a question that is a query. */
static uint32_t ask_query(const struct question *q, const struct numbers *to) {
    const struct bytes *book = &q->book, *pack = &q->pack;
    const int64_t *n = q->asked;
    switch (q->call) {
    case BETWEEN:
        return hirgwamo_between(book->at, book->len, pack->at, pack->len, n[0], n[1], n[2], n[3], to->at, to->len);
    case ADD:
        return hirgwamo_add(book->at, book->len, pack->at, pack->len, n[0], n[1], n[2], n[3], to->at, to->len);
    case SUB:
        return hirgwamo_sub(book->at, book->len, pack->at, pack->len, n[0], n[1], n[2], n[3], to->at, to->len);
    case NEXT:
        return hirgwamo_next_period(book->at, book->len, pack->at, pack->len, n[0], n[1], to->at, to->len);
    default:
        return hirgwamo_previous_period(book->at, book->len, pack->at, pack->len, n[0], n[1], to->at, to->len);
    }
}

/* Asks any other question about a book, or one about a zone file. */
static uint32_t ask_other(const struct question *q, const struct numbers *stretches, const struct numbers *to) {
    const struct bytes *book = &q->book, *pack = &q->pack;
    const int64_t *n = q->asked;
    switch (q->call) {
    case BUILD:
        return hirgwamo_build(book->at, book->len, pack->at, pack->len, to->at, to->len);
    case LIST:
        return hirgwamo_list(book->at, book->len, pack->at, pack->len, n[0], n[1], n[2], n[3], stretches->at, stretches->len, to->at, to->len);
    case HARDEST:
        return hirgwamo_hardest(book->at, book->len, pack->at, pack->len, n[0], n[1], q->log, q->log_len, n[2], to->at, to->len);
    case OFFSET:
        return hirgwamo_offset(book->at, book->len, n[0], n[1], to->at, to->len);
    case CHANGE:
        return hirgwamo_next_change(book->at, book->len, n[0], n[1], to->at, to->len);
    default:
        return hirgwamo_resolve(book->at, book->len, n[0], n[1], n[2], n[3], n[4], to->at, to->len);
    }
}

/* Asks a question whose answer tells marks. */
static uint32_t ask_marked(const struct question *q, const struct numbers *to) {
    const struct bytes *book = &q->book, *pack = &q->pack;
    const int64_t *n = q->asked;
    switch (q->call) {
    case NEXT_MARKED:
        return hirgwamo_next_period_marked(book->at, book->len, pack->at, pack->len, n[0], n[1], to->at, to->len);
    case PREVIOUS_MARKED:
        return hirgwamo_previous_period_marked(book->at, book->len, pack->at, pack->len, n[0], n[1], to->at, to->len);
    default:
        return hirgwamo_resolve_marked(book->at, book->len, n[0], n[1], n[2], n[3], n[4], to->at, to->len);
    }
}

uint32_t ask(const struct question *question, const struct numbers *stretches, const struct numbers *answer) {
    if (question->call >= NEXT_MARKED) {
        return ask_marked(question, answer);
    }
    return question->call <= PREVIOUS ? ask_query(question, answer) : ask_other(question, stretches, answer);
}

/* ---- storing */

void *memory_for(void *old, size_t count, size_t size) {
    void *memory = realloc(old, (count > 0 ? count : 1) * size);
    if (memory == NULL) {
        fprintf(stderr, "no memory\n");
        exit(2);
    }
    return memory;
}

void add_question(struct stored *stored, const struct question *question) {
    if (stored->count % STEP == 0) {
        stored->questions = memory_for(stored->questions, stored->count + STEP, sizeof *question);
    }
    stored->questions[stored->count++] = *question;
}

void add_batch(struct stored *stored, const struct batch *batch) {
    if (stored->batch_count % STEP == 0) {
        stored->batches = memory_for(stored->batches, stored->batch_count + STEP, sizeof *batch);
    }
    stored->batches[stored->batch_count++] = *batch;
}

void expect_refusal(struct question *question, uint32_t number, int64_t place) {
    question->returned = number;
    question->answer[0] = place;
    question->written = question->known = 1;
}

void expect_answer(struct question *question, const int64_t *numbers, size_t count) {
    question->returned = HIRGWAMO_OK;
    memcpy(question->answer, numbers, count * sizeof *numbers);
    question->written = question->known = count;
}

/* Whether a question is refused because of its book or pack. Refusal 6 of a search may be one of the operation, and is not told to be either. */
static int is_of_the_book(const struct question *question) {
    int searches = question->call != BETWEEN && question->call != LIST && question->call != HARDEST;
    return question->returned != HIRGWAMO_OK && question->returned <= (searches ? HIRGWAMO_ZONE_UNUSABLE : HIRGWAMO_NO_WORKING_TIME);
}

void add_build(struct stored *stored, size_t first) {
    static const int64_t BUILDS[] = {0};
    for (size_t i = first; i < stored->count; i++) {
        const struct question *told = &stored->questions[i];
        struct question question = {.call = BUILD, .number = told->number, .book = told->book, .pack = told->pack};
        if (is_of_the_book(told)) {
            expect_refusal(&question, told->returned, told->answer[0]);
        } else if (told->returned != HIRGWAMO_NO_WORKING_TIME) {
            expect_answer(&question, BUILDS, HIRGWAMO_VERDICT_SIZE);
        } else {
            continue;
        }
        add_question(stored, &question);
        return;
    }
}

/* The call that answers as this query does and tells marks too; CALLS where there is none. */
static enum call marked_of(enum call call) {
    switch (call) {
    case NEXT:
        return NEXT_MARKED;
    case PREVIOUS:
        return PREVIOUS_MARKED;
    default:
        return CALLS;
    }
}

void add_marked(struct stored *stored, size_t first) {
    size_t end = stored->count;
    for (size_t i = first; i < end; i++) {
        struct question question = stored->questions[i];
        question.call = marked_of(question.call);
        if (question.call == CALLS) {
            continue;
        }
        if (question.returned == HIRGWAMO_OK) {
            question.written = need_of(question.call);
        }
        add_question(stored, &question);
    }
}
