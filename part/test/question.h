/* Stored questions with the answers that are expected, and the calls that answer them. */
#ifndef QUESTION_H
#define QUESTION_H

#include <stddef.h>
#include <stdint.h>

#include "bytes.h"
#include "guard.h"

/* The calls. The first five have the numbers of the queries' kinds. */
enum call {
    BETWEEN, ADD, SUB, NEXT, PREVIOUS, BUILD, LIST, HARDEST, OFFSET, CHANGE, RESOLVE, NEXT_MARKED, PREVIOUS_MARKED, RESOLVE_MARKED, CALLS
};

enum { QUERIES = PREVIOUS + 1, MOST_ASKED = 5, MOST_ANSWERED = 6 };

/* A question, and what is expected. */
struct question {
    enum call call;
    size_t number;               /* of its case, counted from 1 in its files */
    struct bytes book, pack;     /* of a call on a zone file the book is that file */
    int64_t asked[MOST_ASKED];   /* the call's numbers, in their order */
    const int64_t *log;          /* of the hardest stretch */
    size_t log_len;
    size_t stretches_len;        /* how many numbers are lent to a listing */
    const int64_t *stretches;    /* the numbers that a listing writes */
    size_t stretches_written;
    uint32_t returned;
    int64_t answer[MOST_ANSWERED];
    size_t written;              /* how many numbers of the answer are written */
    size_t known;                /* how many of these are known; those behind them are marks */
};

/* The queries of one case, to be asked in one call, and all numbers of the answers. */
struct batch {
    size_t number;
    struct bytes book, pack;
    const int64_t *queries;
    size_t queries_len;
    const int64_t *answers;
    size_t answers_len;
};

/* All that is stored. */
struct stored {
    struct question *questions;
    size_t count;
    struct batch *batches;
    size_t batch_count;
    size_t bad_lines;            /* lines that are no queries: no call can ask them */
    size_t list_cases;
    size_t hardest_cases;
    size_t marks_cases;
    size_t marks_answers;        /* of these cases, with those about windows, which no call can ask */
    size_t marks_refusals;
};

/* The call's name in the header, without `hirgwamo_`. */
const char *name_of(enum call call);

/* How many numbers the call's answer needs. */
size_t need_of(enum call call);

/* Asks a question with this memory lent for the stretches and for the answer. */
uint32_t ask(const struct question *question, const struct numbers *stretches, const struct numbers *answer);

/* One question more. */
void add_question(struct stored *stored, const struct question *question);

/* One batch more. */
void add_batch(struct stored *stored, const struct batch *batch);

/* One question more: whether the book of a case builds, where the case's questions, which are those from `first` on, tell it. */
void add_build(struct stored *stored, size_t first);

/* More questions: of those from `first` on that ask for a period, the same by the call which tells marks too. The marks are not known. */
void add_marked(struct stored *stored, size_t first);

/* Sets what is expected: a refusal with its place. */
void expect_refusal(struct question *question, uint32_t number, int64_t place);

/* Sets what is expected: an answer of some numbers. */
void expect_answer(struct question *question, const int64_t *numbers, size_t count);

/* Memory for so many of something. Where there is none the program ends. */
void *memory_for(void *old, size_t count, size_t size);

#endif
