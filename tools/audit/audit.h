/* What the files of urddolwy-audit share. */
#ifndef AUDIT_H
#define AUDIT_H

#include "refusal.h"

/* What the command line gives; image and objdump are NULL where they are not asked for. */
struct arguments {
    const char *payload, *symbols, *image, *objdump;
    uint64_t text_base, text_len, slot;
};

/* What urddolwy_prepare writes. */
struct prepared {
    uint8_t image[URDDOLWY_IMAGE_SIZE];
    uint8_t edits[URDDOLWY_EDITS * URDDOLWY_EDIT_SIZE];
    uint8_t summary[URDDOLWY_SUMMARY_SIZE];
};

/* Reads the command line; where it is wrong, says so and ends with status 2. */
struct arguments read_arguments(int argc, char **argv);

/* Writes the files that are asked for, of an accepted payload. */
void write_results(const struct arguments *given, const struct prepared *prepared);

/* Prints what an accepted payload places and changes. */
void print_accepted(const struct arguments *given, struct bytes file, const struct prepared *prepared);

/* Prints what the file has at the place of a refusal, and the rule group of its number. */
void print_details(FILE *to, struct bytes file, uint64_t answer);

/* Prints a function record as the file has it, after a word; nothing where the file does not have it. */
void print_record(FILE *to, const char *before, struct bytes file, unsigned record);

#endif
