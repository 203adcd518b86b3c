/* Asks all stored questions by the functions that C can call, and compares the answers.
 *
 * usage: replay ROOT
 *
 * ROOT is the repository's folder. Two passes: in one all memory that is lent ends at a page which may not be touched, in the other it begins behind one. Each
 * question is asked with exactly as many numbers lent for the answer as it needs, with one fewer and with one more. The queries of a case are asked one by one
 * and in one call. Ends with 1 where an answer differs, where of a call or of a refusal nothing was compared, or where other numbers of cases and answers were
 * compared than the repository's own programs compare. */
#include <stdio.h>
#include <stdlib.h>
#include <string.h>

#include "compare.h"
#include "fault.h"
#include "load.h"

/* Whether a question is answered as expected with each number of numbers lent. */
static int asked_three_times(struct asker *asker, const struct question *question) {
    return question_agrees(asker, question, 0) && question_agrees(asker, question, -1) && question_agrees(asker, question, 1);
}

/* The same of a batch. One without queries needs no numbers, so there cannot be one fewer. */
static int batch_three_times(struct asker *asker, const struct batch *batch) {
    int can_be_fewer = batch->answers_len > 0;
    return batch_agrees(asker, batch, 0) && (!can_be_fewer || batch_agrees(asker, batch, -1)) && batch_agrees(asker, batch, 1);
}

/* Whether a crate's program, which asks the same cases, writes this line. */
static int is_counted(const char *root, const char *crate, const char *line) {
    struct bytes told = file_of_crate(root, crate, "stdout");
    int is = told.len == strlen(line) && memcmp(told.at, line, told.len) == 0;
    if (!is) {
        printf("%s compares others: %.*s here: %s", crate, (int)told.len, (const char *)told.at, line);
    }
    free((void *)told.at);
    return is;
}

/* Whether as much was compared as the crates' programs compare. Of marks, what is stored is counted; is_whole tells whether all that was asked is equal. */
static int all_are_counted(const char *root, const struct stored *stored, const struct seen *seen) {
    char lines[LINE], lists[LINE], hardest[LINE], marks[LINE];
    snprintf(lines, LINE, "%zu cases, %zu lines equal, 0 cases different\n", seen->batches, seen->batch_answers + stored->bad_lines);
    snprintf(lists, LINE, "%zu cases, %zu listings and %zu refusals equal, 0 different\n", stored->list_cases, seen->answers[LIST], seen->refusals[LIST]);
    snprintf(hardest, LINE, "%zu cases, %zu answers and %zu refusals equal, 0 different\n", stored->hardest_cases, seen->answers[HARDEST],
             seen->refusals[HARDEST]);
    snprintf(marks, LINE, "%zu cases, %zu answers and %zu refusals equal, 0 different\n", stored->marks_cases, stored->marks_answers, stored->marks_refusals);
    int is = is_counted(root, "test_replay", lines);
    is = is_counted(root, "test_replay_lists", lists) && is;
    is = is_counted(root, "test_replay_hardest", hardest) && is;
    return is_counted(root, "test_replay_marks", marks) && is;
}

/* Asks all with the memory against a page on this side, and adds what was seen. Whether all is as expected. */
static int replay(const char *root, enum side side, struct seen *all) {
    struct stored stored = {0};
    load_all(&stored, root, side);
    struct asker asker = asker_for(&stored, side);
    for (size_t i = 0; i < stored.count; i++) {
        count_question(&asker.seen, &stored.questions[i], asked_three_times(&asker, &stored.questions[i]));
    }
    for (size_t i = 0; i < stored.batch_count; i++) {
        count_batch(&asker.seen, &stored.batches[i], batch_three_times(&asker, &stored.batches[i]));
    }
    int whole = is_whole(&asker.seen);
    whole = all_are_counted(root, &stored, &asker.seen) && whole;
    printf("memory %s a page that may not be touched:\n", side == BEHIND ? "that ends at" : "that begins behind");
    tell_seen(&asker.seen);
    printf("  %zu questions, %zu lines that are no queries left out, %zu different\n", stored.count, stored.bad_lines, asker.seen.different);
    add_seen(all, &asker.seen);
    return whole;
}

int main(int argc, char **argv) {
    struct seen all = {0};
    int whole = 1;
    if (argc != 2) {
        fprintf(stderr, "usage: replay ROOT\n");
        return 2;
    }
    tell_faults();
    for (int side = 0; side < SIDES; side++) {
        whole = replay(argv[1], (enum side)side, &all) && whole;
    }
    tell_sums(&all);
    return whole ? 0 : 1;
}
