/* Eight threads ask all stored questions at the same time, over the same books, packs, zone files, logs and queries, each with memory of its own for the
 * answers, and compare every answer.
 *
 * usage: threads ROOT
 *
 * ROOT is the repository's folder. Each thread has a stack of the size that hirgwamo.h tells to be enough, except in a build that watches memory, whose own
 * code needs more. Every second thread asks in the other order. Ends with 1 where an answer differs, or where of a call nothing was compared. */
#define _POSIX_C_SOURCE 200809L
#include <pthread.h>
#include <stdio.h>
#include <stdlib.h>

#include "compare.h"
#include "fault.h"
#include "load.h"

enum { THREADS = 8, STACK = 256 * 1024 };

#if defined(__SANITIZE_THREAD__) || defined(__SANITIZE_ADDRESS__)
enum { HAS_OWN_STACK = 0 };
#else
enum { HAS_OWN_STACK = 1 };
#endif

/* One thread. */
struct worker {
    pthread_t thread;
    const struct stored *stored;
    struct asker asker;
    int is_reversed;
};

static pthread_barrier_t start;

static void fail(const char *what, int error) {
    fprintf(stderr, "%s: error %d\n", what, error);
    exit(2);
}

/* The place of number i of so many, in the worker's order. */
static size_t in_order(const struct worker *worker, size_t i, size_t count) {
    return worker->is_reversed ? count - 1 - i : i;
}

/* Waits until all threads are there, and asks everything once. */
static void *work(void *argument) {
    struct worker *worker = argument;
    const struct stored *stored = worker->stored;
    struct asker *asker = &worker->asker;
    pthread_barrier_wait(&start);
    for (size_t i = 0; i < stored->count; i++) {
        const struct question *question = &stored->questions[in_order(worker, i, stored->count)];
        count_question(&asker->seen, question, question_agrees(asker, question, 0));
    }
    for (size_t i = 0; i < stored->batch_count; i++) {
        const struct batch *batch = &stored->batches[in_order(worker, i, stored->batch_count)];
        count_batch(&asker->seen, batch, batch_agrees(asker, batch, 0));
    }
    return NULL;
}

/* Starts a thread. */
static void begin(struct worker *worker) {
    pthread_attr_t attributes;
    int error = pthread_attr_init(&attributes);
    if (error == 0 && HAS_OWN_STACK) {
        error = pthread_attr_setstacksize(&attributes, STACK);
    }
    if (error == 0) {
        error = pthread_create(&worker->thread, &attributes, work, worker);
    }
    if (error != 0) {
        fail("a thread cannot be made", error);
    }
    pthread_attr_destroy(&attributes);
}

/* Runs all threads to their ends. Whether each saw all questions, and all as expected. */
static int run(struct worker *workers, const struct stored *stored, struct seen *all) {
    int whole = 1;
    int error = pthread_barrier_init(&start, NULL, THREADS);
    if (error != 0) {
        fail("the barrier cannot be made", error);
    }
    for (int i = 0; i < THREADS; i++) {
        struct worker worker = {.stored = stored, .asker = asker_for(stored, BEHIND), .is_reversed = i % 2};
        workers[i] = worker;
        begin(&workers[i]);
    }
    for (int i = 0; i < THREADS; i++) {
        error = pthread_join(workers[i].thread, NULL);
        if (error != 0) {
            fail("a thread does not end", error);
        }
        whole = is_whole(&workers[i].asker.seen) && whole;
        add_seen(all, &workers[i].asker.seen);
    }
    return whole;
}

int main(int argc, char **argv) {
    static struct worker workers[THREADS];
    struct stored stored = {0};
    struct seen all = {0};
    if (argc != 2) {
        fprintf(stderr, "usage: threads ROOT\n");
        return 2;
    }
    tell_faults();
    load_all(&stored, argv[1], BEHIND);
    int whole = run(workers, &stored, &all);
    printf("%d threads, stacks of %s:\n", THREADS, HAS_OWN_STACK ? "262144 bytes" : "the usual size");
    tell_seen(&all);
    tell_sums(&all);
    return whole ? 0 : 1;
}
