/* The cases of listings: tools/list_cases.py tells their layout. */
#include "../hirgwamo.h"
#include "load.h"

/* The parts of a case. */
enum { BOOK, PACK, QUESTIONS, PARTS };

/* The numbers that a question has: two instants. */
enum { INSTANTS = 4 };

/* Takes the numbers of so many stretches, which are expected. */
static void take_stretches(struct question *question, struct bytes *from, size_t count) {
    size_t len = count * HIRGWAMO_STRETCH_SIZE;
    int64_t *stretches = memory_for(NULL, len, sizeof *stretches);
    for (size_t i = 0; i < len; i++) {
        stretches[i] = take_signed(from);
    }
    question->stretches = stretches;
    question->stretches_written = len;
}

/* Takes a question. */
static void take_question(struct question *question, struct bytes *from) {
    for (int i = 0; i < INSTANTS; i++) {
        question->asked[i] = take_signed(from);
    }
    question->stretches_len = take_size(from);
    uint32_t refusal = take_size(from);
    int64_t place_or_count = take_size(from);
    if (refusal != HIRGWAMO_OK) {
        expect_refusal(question, refusal, place_or_count);
        question->stretches_written = 0;
        return;
    }
    expect_answer(question, &place_or_count, HIRGWAMO_COUNT_SIZE);
    take_stretches(question, from, (size_t)place_or_count);
}

void load_lists(struct stored *stored, const char *root, enum side side) {
    struct bytes file = file_of_crate(root, "test_replay_lists/data", "lists.bin");
    for (size_t number = 1; file.len > 0; number++) {
        struct bytes parts[PARTS];
        take_case(&file, parts, PARTS);
        struct question question = {.call = LIST, .number = number};
        size_t first = stored->count;
        question.book = guarded(parts[BOOK], side);
        question.pack = guarded(parts[PACK], side);
        while (parts[QUESTIONS].len > 0) {
            take_question(&question, &parts[QUESTIONS]);
            add_question(stored, &question);
        }
        add_build(stored, first);
        stored->list_cases = number;
    }
}
