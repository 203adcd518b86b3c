/* The cases of marks: tools/marks_cases.py tells their layout. */
#include "../hirgwamo.h"
#include "load.h"

/* The parts of a case. A question about a zone file has it in place of the pack. */
enum { BOOK, PACK, QUESTIONS, PARTS };

/* The kinds of questions that a function answers, with their calls, and how many numbers each has before its answer. Others are left out. */
enum { KINDS = 3 };
static const struct {
    enum call call;
    int asked;
} KIND[KINDS] = {{RESOLVE_MARKED, 5}, {NEXT_MARKED, 2}, {PREVIOUS_MARKED, 2}};

/* The bytes of a question before its refusal: its kind, and how many bytes all of it has. */
enum { HEAD = 2 * sizeof(uint32_t) };

/* Takes what stands behind the head of a question of this kind. */
static void take_question(struct question *question, uint32_t kind, struct bytes of) {
    int64_t answer[MOST_ANSWERED];
    uint32_t refusal = take_size(&of);
    int64_t place = take_size(&of);
    question->call = KIND[kind].call;
    for (int i = 0; i < KIND[kind].asked; i++) {
        question->asked[i] = take_number(&of);
    }
    if (refusal != HIRGWAMO_OK) {
        expect_refusal(question, refusal, place);
        return;
    }
    for (size_t i = 0; i < need_of(question->call); i++) {
        answer[i] = take_number(&of);
    }
    expect_answer(question, answer, need_of(question->call));
}

/* Counts a question by what stands behind its head. */
static void count_stored(struct stored *stored, struct bytes of) {
    if (take_size(&of) == HIRGWAMO_OK) {
        stored->marks_answers++;
    } else {
        stored->marks_refusals++;
    }
}

/* Adds the questions of a case, but for those that no function answers, and counts all. */
static void add_questions(struct stored *stored, struct question question, const struct bytes parts[PARTS], enum side side) {
    struct bytes book = guarded(parts[BOOK], side), pack = guarded(parts[PACK], side), rest = parts[QUESTIONS];
    while (rest.len > 0) {
        uint32_t kind = take_size(&rest), length = take_size(&rest);
        struct bytes of = take(&rest, length - HEAD);
        count_stored(stored, of);
        if (kind >= KINDS) {
            continue;
        }
        take_question(&question, kind, of);
        question.book = question.call == RESOLVE_MARKED ? pack : book;
        question.pack = pack;
        add_question(stored, &question);
    }
}

void load_marks(struct stored *stored, const char *root, enum side side) {
    struct bytes file = file_of_crate(root, "test_replay_marks/data", "marks.bin");
    for (size_t number = 1; file.len > 0; number++) {
        struct bytes parts[PARTS];
        take_case(&file, parts, PARTS);
        struct question question = {.number = number};
        add_questions(stored, question, parts, side);
        stored->marks_cases = number;
    }
}
