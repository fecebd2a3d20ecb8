/* What the tests of the calls use: all buffers in one block, so that a byte written anywhere is seen, and each call with the buffers and
 * numbers that stand in variables. */
#ifndef LENT_H
#define LENT_H

#include "expect.h"
#include "payload.h"
#include "urddolwy.h"

#include <stdio.h>

/* ---- the buffers */

enum { RECORDS, CODE, ARENA, UNDO, IDS, HOST_ID, NAME, LIST, OBJECT, STATUSES, NAMES, LENGTHS, GET_OUT, LIST_OUT, TOP_OUT, BUFFERS };
enum { CODE_SIZE = 64, CPUS = 3, ROOM = 64 /* behind each buffer */, FILLED = 0xa5 };

struct buffer {
    const char *name;
    size_t size, len; /* as it should be, and as it is passed */
    uint8_t *at;
};

static struct buffer lent[BUFFERS] = {
    {"records", URDDOLWY_RECORDS_SIZE, 0, NULL},       {"text", CODE_SIZE, 0, NULL},
    {"arena", URDDOLWY_ARENA_SIZE, 0, NULL},           {"undo", URDDOLWY_UNDO_SIZE, 0, NULL},
    {"ids", URDDOLWY_IDS_SIZE, 0, NULL},               {"build_id", ID_SIZE, 0, NULL},
    {"name", URDDOLWY_NAME_SIZE, 0, NULL},              {"symbols", 27, 0, NULL},
    {"file", PAYLOAD_MAX, 0, NULL},                    {"statuses", 8 * URDDOLWY_STATUS_SIZE, 0, NULL},
    {"names", 8 * URDDOLWY_NAME_SIZE, 0, NULL},        {"lengths", 8 * URDDOLWY_LENGTH_SIZE, 0, NULL},
    {"out", URDDOLWY_GET_OUT_SIZE, 0, NULL},           {"out", URDDOLWY_LIST_OUT_SIZE, 0, NULL},
    {"out", URDDOLWY_TOP_BUILD_ID_OUT_SIZE, 0, NULL},
};

static uint8_t memory[98304], before[sizeof memory];

/* Where the payloads begin in the records, the size of one, and in it: dependency, number of edits, edits, and the size of an edit. */
enum { PAYLOAD = 164, PAYLOAD_SIZE = 860, DEPENDENCY = 152, EDIT_COUNT = 216, EDIT = 220, EDIT_SIZE = 20 };

/* The numbers of the calls. */
static uint64_t text_base, arena_base;
static uint32_t cpus, cpu, idx, nr, command, ticks;

static void set_name(const char *word)
{
    lent[NAME].len = strlen(word) + 1;
    memcpy(lent[NAME].at, word, lent[NAME].len);
}

/* The payload with this id, on that one: new code for f, 9 no-ops for g. */
static void set_payload(const char *id, const char *depends)
{
    struct patch patch = {{0}, {0}, 2, {{"f", 8, (const uint8_t *)"\xb8\x02\0\0\0\xc3", 6}, {"g", 16, NULL, 9}}};
    memcpy(patch.id, id, ID_SIZE);
    memcpy(patch.depends, depends, ID_SIZE);
    lent[OBJECT].len = make_payload(lent[OBJECT].at, &patch);
}

/* Buffers and numbers as they should be. Nothing is started: what is to be written holds a pattern. */
static void fresh(void)
{
    static const char symbols[] = "\0\0\0\x17\x01\0\x02\xff\xff\x82\xd0\x80\x20\0\0\x01" "f\xff\xff\x82\xd0\x80\x20\0\x10\x01" "g";
    uint8_t *at = memory;
    memset(memory, FILLED, sizeof memory);
    for (int i = 0; i < BUFFERS; i++) {
        lent[i].at = at;
        lent[i].len = lent[i].size;
        at += lent[i].size + ROOM;
    }
    text_base = 0xffff82d080200000, arena_base = 0xffff82d080400000;
    cpus = CPUS, cpu = 0, idx = 0, nr = 8, command = URDDOLWY_APPLY, ticks = 0;
    memcpy(lent[HOST_ID].at, "hype", ID_SIZE);
    memcpy(lent[LIST].at, symbols, lent[LIST].size);
    set_name("p1");
    set_payload("one!", "hype");
}

/* ---- the calls */

#define LENT(i) lent[i].at, lent[i].len

static uint64_t start(void)
{
    return urddolwy_start(LENT(RECORDS), LENT(CODE), text_base, LENT(ARENA), arena_base, LENT(UNDO), LENT(IDS), LENT(HOST_ID), cpus);
}

static uint64_t upload(void)
{
    return urddolwy_upload(LENT(RECORDS), LENT(ARENA), LENT(IDS), LENT(NAME), LENT(LIST), LENT(OBJECT));
}

static uint64_t get(void)
{
    return urddolwy_get(LENT(RECORDS), LENT(NAME), LENT(GET_OUT));
}

static uint64_t list(void)
{
    return urddolwy_list(LENT(RECORDS), idx, nr, LENT(STATUSES), LENT(NAMES), LENT(LENGTHS), LENT(LIST_OUT));
}

static uint64_t action(void)
{
    return urddolwy_action(LENT(RECORDS), LENT(ARENA), LENT(UNDO), LENT(IDS), LENT(HOST_ID), LENT(NAME), command, ticks);
}

static uint64_t report(void)
{
    return urddolwy_report(LENT(RECORDS), cpu);
}

static uint64_t tick(void)
{
    return urddolwy_tick(LENT(RECORDS));
}

static uint64_t work(void)
{
    return urddolwy_work(LENT(RECORDS), LENT(CODE), LENT(UNDO));
}

static uint64_t top_build_id(void)
{
    return urddolwy_top_build_id(LENT(RECORDS), LENT(HOST_ID), LENT(IDS), LENT(TOP_OUT));
}

/* A refused call leaves every byte as it was. */
static void refused(const char *call, const char *what, uint64_t (*make)(void), uint64_t want)
{
    char words[160];
    snprintf(words, sizeof words, "%s: %s", call, what);
    memcpy(before, memory, sizeof memory);
    expect(words, make(), want);
    snprintf(words, sizeof words, "%s: %s: a byte was changed", call, what);
    expect(words, memcmp(before, memory, sizeof memory) != 0, 0);
}

static inline uint64_t little(const uint8_t *at, int n)
{
    uint64_t x = 0;
    while (n-- > 0)
        x = x << 8 | at[n];
    return x;
}

/* A number of the records. */
static inline void field(const char *what, unsigned at, int n, uint64_t want)
{
    expect(what, little(lent[RECORDS].at + at, n), want);
}

/* Bytes of a buffer. */
static inline void same(const char *what, int buffer, size_t at, const void *want, size_t n)
{
    expect(what, memcmp(lent[buffer].at + at, want, n) != 0, 0);
}

static inline int all_zero(int buffer, size_t at, size_t n)
{
    while (n > 0 && lent[buffer].at[at + n - 1] == 0)
        n--;
    return n == 0;
}

/* p1 is loaded, and the job that applies it can be worked. The name is now p2, which is not loaded. */
static inline void ready(void)
{
    fresh();
    expect("start", start(), 0);
    expect("upload", upload(), 0);
    expect("action", action(), 0);
    for (cpu = 0; cpu < CPUS; cpu++)
        expect("report", report(), 0);
    cpu = 0;
    set_name("p2");
}

#endif
