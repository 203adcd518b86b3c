#include "compare.h"

#include <string.h>

#include "../hirgwamo.h"
#include "fault.h"

/* Of one asker at most so many differences are written in full. */
enum { MOST_TOLD = 10 };

/* ---- memory */

static size_t greater(size_t a, size_t b) {
    return a > b ? a : b;
}

struct asker asker_for(const struct stored *stored, enum side side) {
    size_t answer = MOST_ANSWERED, stretches = 0;
    for (size_t i = 0; i < stored->batch_count; i++) {
        answer = greater(answer, stored->batches[i].answers_len);
    }
    for (size_t i = 0; i < stored->count; i++) {
        stretches = greater(stretches, stored->questions[i].stretches_len);
    }
    struct asker asker = {.side = side, .answer = room_of_numbers(answer + 1), .stretches = room_of_numbers(stretches)};
    return asker;
}

/* ---- one question */

/* Says what differs in a question's answer. */
static int differs(const struct asker *asker, const struct question *q, const struct numbers *to, uint32_t returned, const char *what) {
    if (asker->seen.different < MOST_TOLD) {
        printf("%s, case %zu, asked", name_of(q->call), q->number);
        for (int i = 0; i < MOST_ASKED; i++) {
            printf(" %lld", (long long)q->asked[i]);
        }
        printf(", %zu numbers lent: %s; returned %lu, expected %lu;", to->len, what, (unsigned long)returned, (unsigned long)q->returned);
        for (size_t i = 0; i < q->written && i < to->len; i++) {
            printf(" %lld (%lld)", (long long)to->at[i], (long long)q->answer[i]);
        }
        printf("\n");
    }
    return 0;
}

/* Whether numbers are those that are expected. */
static int are_equal(const int64_t *numbers, const int64_t *expected, size_t count) {
    return count == 0 || memcmp(numbers, expected, count * sizeof *numbers) == 0;
}

/* Whether numbers are marks. */
static int are_marks(const int64_t *numbers, size_t count) {
    for (size_t i = 0; i < count; i++) {
        if (numbers[i] < HIRGWAMO_PLAIN || numbers[i] > HIRGWAMO_BEYOND) {
            return 0;
        }
    }
    return 1;
}

/* How many numbers a call lends with so many more or fewer than it needs. */
static size_t with_more(size_t need, int more) {
    return more < 0 ? need - (size_t)-more : need + (size_t)more;
}

int question_agrees(struct asker *asker, const struct question *question, int more) {
    struct numbers to = lend(&asker->answer, with_more(need_of(question->call), more), asker->side);
    struct numbers stretches = lend(&asker->stretches, question->stretches_len, asker->side);
    now_asking(name_of(question->call), question->number);
    uint32_t returned = ask(question, &stretches, &to);
    size_t written = more < 0 ? 0 : question->written, known = more < 0 ? 0 : question->known;
    size_t stretches_written = more < 0 ? 0 : question->stretches_written;
    if (returned != (more < 0 ? (uint32_t)HIRGWAMO_TOO_SHORT : question->returned)) {
        return differs(asker, question, &to, returned, "the returned number differs");
    }
    if (!are_equal(to.at, question->answer, known)) {
        return differs(asker, question, &to, returned, "the answer differs");
    }
    if (!are_marks(to.at + known, written - known)) {
        return differs(asker, question, &to, returned, "a number should be a mark");
    }
    if (!others_stay(&to, written)) {
        return differs(asker, question, &to, returned, "a number that is not the answer's was written");
    }
    if (!are_equal(stretches.at, question->stretches, stretches_written)) {
        return differs(asker, question, &to, returned, "the stretches differ");
    }
    if (!others_stay(&stretches, stretches_written)) {
        return differs(asker, question, &to, returned, "a number that is not the stretches' was written");
    }
    return 1;
}

/* ---- one batch */

/* Says what differs in a batch. */
static int batch_differs(const struct asker *asker, const struct batch *batch, const struct numbers *to, uint32_t returned, const char *what) {
    if (asker->seen.different < MOST_TOLD) {
        printf("answers, case %zu, %zu numbers lent: %s; returned %lu\n", batch->number, to->len, what, (unsigned long)returned);
    }
    return 0;
}

int batch_agrees(struct asker *asker, const struct batch *batch, int more) {
    struct numbers to = lend(&asker->answer, with_more(batch->answers_len, more), asker->side);
    now_asking("answers", batch->number);
    uint32_t returned = hirgwamo_answers(batch->book.at, batch->book.len, batch->pack.at, batch->pack.len, batch->queries, batch->queries_len, to.at, to.len);
    size_t written = more < 0 ? 0 : batch->answers_len;
    if (returned != (more < 0 ? HIRGWAMO_TOO_SHORT : HIRGWAMO_OK)) {
        return batch_differs(asker, batch, &to, returned, "the returned number differs");
    }
    for (size_t i = 0; i < written; i++) {
        if (to.at[i] != batch->answers[i]) {
            char what[LINE];
            snprintf(what, sizeof what, "number %zu is %lld and should be %lld", i, (long long)to.at[i], (long long)batch->answers[i]);
            return batch_differs(asker, batch, &to, returned, what);
        }
    }
    if (!others_stay(&to, written)) {
        return batch_differs(asker, batch, &to, returned, "a number that is not the answers' was written");
    }
    return 1;
}

/* ---- counts */

void count_question(struct seen *seen, const struct question *question, int equal) {
    if (!equal) {
        seen->different++;
    } else if (question->returned == HIRGWAMO_OK) {
        seen->answers[question->call]++;
    } else {
        seen->refusals[question->call]++;
        seen->by_refusal[question->returned <= LAST_REFUSAL ? question->returned : 0]++;
    }
}

void count_batch(struct seen *seen, const struct batch *batch, int equal) {
    if (!equal) {
        seen->different++;
        return;
    }
    seen->batches++;
    seen->batch_answers += batch->answers_len / HIRGWAMO_ANSWER_SIZE;
}

void add_seen(struct seen *all, const struct seen *one) {
    for (int i = 0; i < CALLS; i++) {
        all->answers[i] += one->answers[i];
        all->refusals[i] += one->refusals[i];
    }
    for (int i = 0; i <= LAST_REFUSAL; i++) {
        all->by_refusal[i] += one->by_refusal[i];
    }
    all->batches += one->batches;
    all->batch_answers += one->batch_answers;
    all->different += one->different;
}

void tell_seen(const struct seen *seen) {
    for (int i = 0; i < CALLS; i++) {
        printf("  %s: %zu answers and %zu refusals equal\n", name_of((enum call)i), seen->answers[i], seen->refusals[i]);
    }
    printf("  answers: %zu calls with %zu answers equal\n", seen->batches, seen->batch_answers);
    printf("  refusals by number:");
    for (int i = 1; i <= LAST_REFUSAL; i++) {
        printf(" %d: %zu%s", i, seen->by_refusal[i], i < LAST_REFUSAL ? "," : "\n");
    }
}

static size_t sum(const size_t *numbers, size_t count) {
    size_t total = 0;
    for (size_t i = 0; i < count; i++) {
        total += numbers[i];
    }
    return total;
}

void tell_sums(const struct seen *seen) {
    printf("%zu answers and %zu refusals of single calls equal, %zu answers of many queries equal, %zu different\n", sum(seen->answers, CALLS),
           sum(seen->refusals, CALLS), seen->batch_answers, seen->different);
}

int is_whole(const struct seen *seen) {
    int whole = seen->different == 0;
    for (int i = 0; i < CALLS; i++) {
        if (seen->answers[i] == 0 || seen->refusals[i] == 0) {
            printf("of %s no answer or no refusal was compared\n", name_of((enum call)i));
            whole = 0;
        }
    }
    for (int i = 1; i <= LAST_REFUSAL; i++) {
        if (seen->by_refusal[i] == 0) {
            printf("refusal %d was not compared\n", i);
            whole = 0;
        }
    }
    if (seen->batch_answers == 0 || seen->by_refusal[0] != 0) {
        printf("no answers of many queries were compared, or a refusal has no such number\n");
        whole = 0;
    }
    return whole;
}
