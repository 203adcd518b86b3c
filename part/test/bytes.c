#include "bytes.h"

#include <errno.h>
#include <stdio.h>
#include <stdlib.h>
#include <string.h>

enum { PATH = 4096, MOST_BYTES = 1 << 20, DECIMAL = 10 };

static void fail(const char *what, const char *which) {
    fprintf(stderr, "%s: %s\n", what, which);
    exit(2);
}

int file_found(const char *folder, const char *name, struct bytes *found) {
    char path[PATH];
    if (snprintf(path, sizeof path, "%s/%s", folder, name) >= (int)sizeof path) {
        fail("the path is too long", name);
    }
    FILE *file = fopen(path, "rb");
    if (file == NULL) {
        return 0;
    }
    uint8_t *data = malloc(MOST_BYTES);
    if (data == NULL) {
        fail("no memory for the file", path);
    }
    found->at = data;
    found->len = fread(data, 1, MOST_BYTES, file);
    if (ferror(file) != 0 || found->len == MOST_BYTES) {
        fail("the file cannot be read or is too long", path);
    }
    fclose(file);
    return 1;
}

struct bytes file_of(const char *folder, const char *name) {
    struct bytes found = {NULL, 0};
    if (!file_found(folder, name, &found)) {
        fail("there is no such file", name);
    }
    return found;
}

struct bytes take(struct bytes *from, size_t len) {
    if (from->len < len) {
        fail("a file of cases", "it ends inside a case");
    }
    struct bytes taken = {from->at, len};
    from->at += len;
    from->len -= len;
    return taken;
}

static uint64_t take_big_endian(struct bytes *from, size_t len) {
    struct bytes taken = take(from, len);
    uint64_t number = 0;
    for (size_t i = 0; i < len; i++) {
        number = number << 8 | taken.at[i];
    }
    return number;
}

uint32_t take_size(struct bytes *from) {
    return (uint32_t)take_big_endian(from, sizeof(uint32_t));
}

/* 2^63. */
static const uint64_t HALF = UINT64_C(1) << 63;

int64_t take_signed(struct bytes *from) {
    uint64_t stored = take_big_endian(from, sizeof(uint64_t));
    return stored >= HALF ? (int64_t)(stored - HALF) : (int64_t)stored + INT64_MIN;
}

int64_t take_number(struct bytes *from) {
    uint64_t stored = take_big_endian(from, sizeof(uint64_t));
    return stored < HALF ? (int64_t)stored : (int64_t)(stored - HALF) + INT64_MIN;
}

int take_line(struct bytes *from, char line[LINE]) {
    if (from->len == 0) {
        return 0;
    }
    size_t len = 0;
    while (len < from->len && from->at[len] != '\n') {
        len++;
    }
    if (len >= LINE) {
        fail("a file of cases", "a line is too long");
    }
    memcpy(line, from->at, len);
    line[len] = '\0';
    take(from, len < from->len ? len + 1 : len);
    return 1;
}

int numbers_in(const char *text, int64_t *numbers, int most) {
    int count = 0;
    while (*text != '\0') {
        const char *digits = text + 1;
        char *end = NULL;
        if (*text != ' ' || count == most || strchr("-0123456789", *digits) == NULL || *digits == '\0') {
            return -1;
        }
        errno = 0;
        numbers[count++] = strtoll(digits, &end, DECIMAL);
        if (errno != 0 || end == digits) {
            return -1;
        }
        text = end;
    }
    return count;
}
