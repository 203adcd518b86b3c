#define _DEFAULT_SOURCE
#include "guard.h"

#include <stdio.h>
#include <stdlib.h>
#include <string.h>
#include <sys/mman.h>
#include <unistd.h>

/* How many numbers beside those lent are marked. */
enum { NEIGHBOURS = 8 };

/* The mark of number 0; number i has i more. No stored answer is near it. */
static const int64_t FIRST_MARK = INT64_C(0x5A5A5A5A5A5A0000);

static void fail(const char *what) {
    perror(what);
    exit(2);
}

/* Bytes rounded up to whole pages, and at least one. */
static size_t in_pages(size_t bytes, size_t page) {
    return bytes == 0 ? page : (bytes + page - 1) / page * page;
}

struct room room_of(size_t bytes) {
    size_t page = (size_t)sysconf(_SC_PAGESIZE);
    struct room room = {NULL, in_pages(bytes, page)};
    uint8_t *all = mmap(NULL, room.size + 2 * page, PROT_NONE, MAP_PRIVATE | MAP_ANONYMOUS, -1, 0);
    if (all == MAP_FAILED) {
        fail("mmap");
    }
    room.start = all + page;
    if (mprotect(room.start, room.size, PROT_READ | PROT_WRITE) != 0) {
        fail("mprotect");
    }
    return room;
}

struct room room_of_numbers(size_t len) {
    return room_of((len + NEIGHBOURS) * sizeof(int64_t));
}

/* The address of so many bytes of a room, against the page on this side. */
static void *against(const struct room *room, size_t bytes, enum side side) {
    return side == BEHIND ? room->start + room->size - bytes : room->start;
}

const void *guarded_copy(const void *data, size_t bytes, enum side side) {
    struct room room = room_of(bytes);
    void *copy = against(&room, bytes, side);
    if (bytes > 0) {
        memcpy(copy, data, bytes);
    }
    if (mprotect(room.start, room.size, PROT_READ) != 0) {
        fail("mprotect");
    }
    return copy;
}

static int64_t mark(size_t i) {
    return FIRST_MARK + (int64_t)i;
}

struct numbers lend(const struct room *room, size_t len, enum side side) {
    struct numbers lent = {NULL, len, NULL, len + NEIGHBOURS};
    if (lent.marked_len * sizeof(int64_t) > room->size) {
        fprintf(stderr, "a room is too small\n");
        exit(2);
    }
    lent.at = against(room, len * sizeof(int64_t), side);
    lent.marked = against(room, lent.marked_len * sizeof(int64_t), side);
    for (size_t i = 0; i < lent.marked_len; i++) {
        lent.marked[i] = mark(i);
    }
    return lent;
}

int others_stay(const struct numbers *lent, size_t written) {
    size_t first = (size_t)(lent->at - lent->marked);
    for (size_t i = 0; i < lent->marked_len; i++) {
        int is_written = first <= i && i < first + written;
        if (!is_written && lent->marked[i] != mark(i)) {
            return 0;
        }
    }
    return 1;
}
