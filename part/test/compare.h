/* Asks stored questions and compares the answers with those that are expected. */
#ifndef COMPARE_H
#define COMPARE_H

#include <stdio.h>

#include "question.h"

/* The refusals have the numbers from 1 to this one. */
enum { LAST_REFUSAL = 12 };

/* What was compared and found equal, and what differs. */
struct seen {
    size_t answers[CALLS];
    size_t refusals[CALLS];
    size_t by_refusal[LAST_REFUSAL + 1];
    size_t batches;
    size_t batch_answers;
    size_t different;
};

/* The memory of one thread of questions, and what it has seen. */
struct asker {
    enum side side;
    struct room answer;
    struct room stretches;
    struct seen seen;
};

/* An asker for all questions that are stored. */
struct asker asker_for(const struct stored *stored, enum side side);

/* Asks a question with as many numbers lent for the answer as it needs, and so many more, or fewer where `more` is below 0: then the call must say that they
 * are too few, and write nothing. Whether all is as expected; a line says what is not. */
int question_agrees(struct asker *asker, const struct question *question, int more);

/* The same of a batch. */
int batch_agrees(struct asker *asker, const struct batch *batch, int more);

/* Counts a question or a batch, as equal or as different. */
void count_question(struct seen *seen, const struct question *question, int equal);
void count_batch(struct seen *seen, const struct batch *batch, int equal);

/* Adds what was seen by one to what was seen by all. */
void add_seen(struct seen *all, const struct seen *one);

/* Writes what was seen, call by call; and in one line. */
void tell_seen(const struct seen *seen);
void tell_sums(const struct seen *seen);

/* Whether nothing differs, and whether of each call at least one answer and one refusal was compared, of each refusal at least one, and at least one batch.
 * A line says what is missing. */
int is_whole(const struct seen *seen);

#endif
