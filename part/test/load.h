/* Reads the stored cases. All that is lent to calls lies against a page that may not be touched, on the side that is given. */
#ifndef LOAD_H
#define LOAD_H

#include "question.h"

/* Each of these adds the questions of the stored cases of one kind; `root` is the repository's folder. */
void load_lines(struct stored *stored, const char *root, enum side side);
void load_lists(struct stored *stored, const char *root, enum side side);
void load_hardest(struct stored *stored, const char *root, enum side side);
void load_zones(struct stored *stored, const char *root, enum side side);
void load_marks(struct stored *stored, const char *root, enum side side);

/* Adds the worked examples of marks, which stand in the program itself. */
void load_worked(struct stored *stored, enum side side);

/* All of them. */
void load_all(struct stored *stored, const char *root, enum side side);

/* A file of a crate's folder. */
struct bytes file_of_crate(const char *root, const char *folder, const char *name);

/* The most parts that a case has. */
enum { MOST_PARTS = 4 };

/* Takes a case from a file: the lengths of its parts, 4 bytes each, and then the parts. */
void take_case(struct bytes *file, struct bytes *parts, size_t count);

/* A copy of bytes against a page that may not be touched. */
struct bytes guarded(struct bytes bytes, enum side side);

#endif
