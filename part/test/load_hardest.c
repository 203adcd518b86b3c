/* The cases of hardest stretches: compare/hardest.py tells their layout. */
#include <stdlib.h>

#include "../hirgwamo.h"
#include "load.h"

/* The parts of a case. */
enum { BOOK, PACK, QUESTIONS, PARTS };

/* The numbers of a question before its answer: an instant and a width. */
enum { ASKED = 3 };

/* Takes a log of runs. */
static void take_log(struct question *question, struct bytes *from, enum side side) {
    question->log_len = take_size(from);
    int64_t *log = memory_for(NULL, question->log_len, sizeof *log);
    for (size_t i = 0; i < question->log_len; i++) {
        log[i] = take_signed(from);
    }
    question->log = guarded_copy(log, question->log_len * sizeof *log, side);
    free(log);
}

/* Takes a question. */
static void take_question(struct question *question, struct bytes *from, enum side side) {
    int64_t stretch[HIRGWAMO_STRETCH_SIZE];
    for (int i = 0; i < ASKED; i++) {
        question->asked[i] = take_signed(from);
    }
    uint32_t refusal = take_size(from);
    int64_t place = take_size(from);
    for (int i = 0; i < HIRGWAMO_STRETCH_SIZE; i++) {
        stretch[i] = take_signed(from);
    }
    if (refusal != HIRGWAMO_OK) {
        expect_refusal(question, refusal, place);
    } else {
        expect_answer(question, stretch, HIRGWAMO_STRETCH_SIZE);
    }
    take_log(question, from, side);
}

void load_hardest(struct stored *stored, const char *root, enum side side) {
    struct bytes file = file_of_crate(root, "test_replay_hardest/data", "hardest.bin");
    for (size_t number = 1; file.len > 0; number++) {
        struct bytes parts[PARTS];
        take_case(&file, parts, PARTS);
        struct question question = {.call = HARDEST, .number = number};
        size_t first = stored->count;
        question.book = guarded(parts[BOOK], side);
        question.pack = guarded(parts[PACK], side);
        while (parts[QUESTIONS].len > 0) {
            take_question(&question, &parts[QUESTIONS], side);
            add_question(stored, &question);
        }
        add_build(stored, first);
        stored->hardest_cases = number;
    }
}
