#include "load.h"

#include <stdio.h>
#include <stdlib.h>

enum { PATH = 4096 };

struct bytes file_of_crate(const char *root, const char *folder, const char *name) {
    char path[PATH];
    if (snprintf(path, sizeof path, "%s/crates/%s", root, folder) >= (int)sizeof path) {
        fprintf(stderr, "the path is too long\n");
        exit(2);
    }
    return file_of(path, name);
}

void take_case(struct bytes *file, struct bytes *parts, size_t count) {
    size_t lengths[MOST_PARTS];
    for (size_t i = 0; i < count; i++) {
        lengths[i] = take_size(file);
    }
    for (size_t i = 0; i < count; i++) {
        parts[i] = take(file, lengths[i]);
    }
}

struct bytes guarded(struct bytes bytes, enum side side) {
    struct bytes copy = {guarded_copy(bytes.at, bytes.len, side), bytes.len};
    return copy;
}

void load_all(struct stored *stored, const char *root, enum side side) {
    load_lines(stored, root, side);
    load_lists(stored, root, side);
    load_hardest(stored, root, side);
    load_zones(stored, root, side);
    load_marks(stored, root, side);
    load_worked(stored, side);
}
