/* What the files of urddolwy-symbols share. */
#ifndef SYMBOLS_H
#define SYMBOLS_H

#include "bytes.h"

/* Names with their addresses. The names are parts of the input. */
struct named {
    struct bytes name;
    uint64_t address;
};

struct table {
    struct named *at;
    size_t count, room;
};

/* Names that a list cannot have. */
struct left_out {
    size_t with_addresses, too_long; /* more than one address; more than 127 bytes */
};

void add_name(struct table *table, struct bytes name, uint64_t address);

/* Sorts the names bytewise and keeps each once, without those that a list cannot have; says these on stderr where asked. */
struct left_out settle(struct table *table, int aloud);

/* Reads the input into the table; what is wrong with it, or NULL. */
const char *read_nm(struct table *table, struct bytes input);
const char *read_elf(struct table *table, struct bytes input);

/* The symbol list of a settled table with at most 65,535 names; the caller frees it. */
struct bytes encode(const struct table *table);

/* Prints a symbol list that urddolwy_check_symbols accepts, in nm's form. */
void print_list(struct bytes list);

#endif
