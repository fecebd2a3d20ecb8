/* Files as bytes, numbers and names in them, and bytes in print. Examples and tools include it. */
#ifndef BYTES_H
#define BYTES_H

#include <errno.h>
#include <stdint.h>
#include <stdio.h>
#include <stdlib.h>
#include <string.h>

struct bytes {
    const uint8_t *at;
    size_t len;
};

/* Says what is wrong with a file, and ends with status 2. */
static inline void cannot(const char *name, const char *otherwise)
{
    fprintf(stderr, "%s: %s\n", name, errno != 0 ? strerror(errno) : otherwise);
    exit(2);
}

/* Reads a stream to its end, into a block of just its size; where it cannot be read, or has 1 GB or more, says so and ends with
 * status 2. */
static inline struct bytes read_stream(FILE *from, const char *name)
{
    size_t room = 1 << 16, len = 0;
    uint8_t *at = malloc(room);
    errno = 0;
    while (at != NULL && (len += fread(at + len, 1, room - len, from)) == room && room < 1 << 30)
        at = realloc(at, room *= 2);
    if (at == NULL || len == room || ferror(from))
        cannot(name, "it cannot be read");
    at = realloc(at, len + (len == 0));
    if (at == NULL)
        cannot(name, "it cannot be read");
    return (struct bytes){at, len};
}

/* Reads a whole file. */
static inline struct bytes read_file(const char *name)
{
    errno = 0;
    FILE *from = fopen(name, "rb");
    if (from == NULL)
        cannot(name, "it cannot be opened");
    struct bytes file = read_stream(from, name);
    fclose(from);
    return file;
}

/* Writes a whole file; where it cannot be written, says so and ends with status 2. */
static inline void write_file(const char *name, struct bytes bytes)
{
    errno = 0;
    FILE *to = fopen(name, "wb");
    if (to == NULL)
        cannot(name, "it cannot be opened");
    int wrong = fwrite(bytes.at, 1, bytes.len, to) != bytes.len;
    if (fclose(to) != 0 || wrong)
        cannot(name, "it cannot be written");
}

/* The status that a program ends with: 2 where not all that it printed could be written. */
static inline int printed(int status)
{
    errno = 0;
    if (fflush(stdout) != 0 || ferror(stdout))
        cannot("stdout", "it cannot be written");
    return status;
}

/* A little-endian number of n bytes. */
static inline uint64_t little(const uint8_t *at, int n)
{
    uint64_t x = 0;
    while (n-- > 0)
        x = x << 8 | at[n];
    return x;
}

/* So many bytes at an offset, or none where there are not so many. */
static inline struct bytes part(struct bytes of, uint64_t offset, uint64_t size)
{
    struct bytes none = {NULL, 0};
    if (of.at == NULL || offset > of.len || size > of.len - offset)
        return none;
    return (struct bytes){of.at + offset, (size_t)size};
}

/* The bytes from an offset to the next zero, or none where no zero follows. */
static inline struct bytes string_at(struct bytes of, uint64_t offset)
{
    struct bytes none = {NULL, 0};
    if (of.at == NULL || offset >= of.len)
        return none;
    const uint8_t *end = memchr(of.at + offset, 0, of.len - offset);
    return end == NULL ? none : part(of, offset, (uint64_t)(end - of.at) - offset);
}

/* Whether bytes are those of a word. */
static inline int is_word(struct bytes name, const char *word)
{
    return name.len == strlen(word) && memcmp(name.at, word, name.len) == 0;
}

/* Prints a name between two words, or nothing where there is none. Spaces, and bytes that are no printable ASCII, are escaped. */
static inline void print_name(FILE *to, const char *before, struct bytes name, const char *after)
{
    if (name.len == 0)
        return;
    fputs(before, to);
    for (size_t i = 0; i < name.len; i++)
        fprintf(to, name.at[i] > 0x20 && name.at[i] < 0x7f ? "%c" : "\\x%02x", name.at[i]);
    fputs(after, to);
}

/* Prints bytes in hexadecimal, each after a space. */
static inline void print_hex(FILE *to, struct bytes bytes)
{
    for (size_t i = 0; i < bytes.len; i++)
        fprintf(to, " %02x", bytes.at[i]);
}

#endif
