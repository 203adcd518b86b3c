/* Files, the numbers that are stored in them, and lines of text. */
#ifndef BYTES_H
#define BYTES_H

#include <stddef.h>
#include <stdint.h>

/* Bytes that are somewhere in memory. */
struct bytes {
    const uint8_t *at;
    size_t len;
};

/* A file's bytes. Where it cannot be read the program ends. */
struct bytes file_of(const char *folder, const char *name);

/* A file's bytes; 0 where there is no such file. */
int file_found(const char *folder, const char *name, struct bytes *found);

/* Takes so many bytes from the front of others. Where there are fewer the program ends. */
struct bytes take(struct bytes *from, size_t len);

/* Takes a number of 4 bytes, big-endian. */
uint32_t take_size(struct bytes *from);

/* Takes a signed number: 8 bytes, big-endian, stored with 2^63 added. */
int64_t take_signed(struct bytes *from);

/* Takes a signed number: 8 bytes, big-endian, two's complement. */
int64_t take_number(struct bytes *from);

/* The longest line that is read, with the byte behind it. */
enum { LINE = 256 };

/* Takes a line without its newline, as a string of at most LINE - 1 bytes; a last line without a newline counts. 0 where none is left, and the program ends
 * where a line is longer. */
int take_line(struct bytes *from, char line[LINE]);

/* Reads decimal numbers, each behind one space, up to the end of a string. How many there are; -1 where something else stands there, a number that
 * is outside 64 bits, or more numbers than `most`. */
int numbers_in(const char *text, int64_t *numbers, int most);

#endif
