/* The host of the native runs: text and arena as executable memory at addresses of its choice, the other buffers, the symbol list, and the
 * calls, each with the answer that it must give. */
#ifndef HOST_H
#define HOST_H

#include "urddolwy.h"

enum { CPUS = 4 };

struct bytes {
    uint8_t *at;
    size_t len;
};

/* ---- checks: what fails is printed, under the part of the run that it belongs to */

void part(const char *name);
void check(int right, const char *what, ...) __attribute__((format(printf, 2, 3)));
void expect(const char *what, uint64_t got, uint64_t want);
/* Prints the counts; the exit status of the program. */
int closing_line(void);

/* ---- memory and names */

struct bytes read_file(const char *name);
/* Memory that may be written and run, at this address, with these bytes at its front. Where the system refuses such memory, prints why and
 * ends the program with status 77. */
uint8_t *executable(uint64_t address, struct bytes contents);
/* Takes the names of the file: lines `address name`, the addresses hexadecimal and the names in bytewise order. `shift` is added to
 * each address. */
void take_symbols(const char *file, uint64_t shift);
/* These names as the loader takes them. */
struct bytes symbol_list(void);
/* The address of a name, as a function to be called. */
void (*function(const char *name))(void);

/* ---- the loader */

/* Maps a text and an arena and starts the loader. */
void start(uint64_t text_base, struct bytes text, uint64_t arena_base, struct bytes build_id);
void upload(const char *name, struct bytes file);
void refused_action(enum urddolwy_command command, const char *name, unsigned number);
void unload(const char *name);
/* Begins a job, brings all CPUs but one, and lets the time run out. */
void time_out(enum urddolwy_command command, const char *name, void (*look)(unsigned step));
/* Begins a job and works it to its end, which comes with the last of `steps` work steps. `look` sees the text before the first (step 0) and
 * after each of them. */
void job(enum urddolwy_command command, const char *name, unsigned steps, void (*look)(unsigned step));
void expect_state(const char *name, enum urddolwy_status status, enum urddolwy_result result);
/* The top build-id: is it this one? */
void expect_top(struct bytes id);
/* Is the text as at start-up? */
void expect_original(void);
/* Are arena and both stores all zero, and is nothing loaded? */
void expect_empty(void);

#endif
