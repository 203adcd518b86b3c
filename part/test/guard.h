/* Memory that lies between two pages which may not be touched: a read or a write past its end, or before its start, ends the program. */
#ifndef GUARD_H
#define GUARD_H

#include <stddef.h>
#include <stdint.h>

/* Which end of lent memory lies exactly against a page that may not be touched. */
enum side { BEHIND, BEFORE, SIDES };

/* Whole pages between two such pages. */
struct room {
    uint8_t *start;
    size_t size;
};

/* Numbers that are lent to be written, and the marked numbers, which are those and some more on the side without a page against it. */
struct numbers {
    int64_t *at;
    size_t len;
    int64_t *marked;
    size_t marked_len;
};

/* A room of at least so many bytes. */
struct room room_of(size_t bytes);

/* A room from which so many numbers can be lent. */
struct room room_of_numbers(size_t len);

/* A copy of some bytes in a room of its own, against a page on this side, which cannot be written. */
const void *guarded_copy(const void *data, size_t bytes, enum side side);

/* Lends numbers of a room, against a page on this side. Each has a mark. */
struct numbers lend(const struct room *room, size_t len, enum side side);

/* Whether all marked numbers but the first `written` of those lent have their marks still. */
int others_stay(const struct numbers *lent, size_t written);

#endif
