/* loader PAYLOAD BOUND..: calls every function of the loader, from start-up on, as harness.h has it: a payload is uploaded, applied, timed
 * out, reverted and unloaded. */
#define _GNU_SOURCE
#include "urddolwy.h"

struct buffers {
    uint8_t records[URDDOLWY_RECORDS_SIZE], arena[URDDOLWY_ARENA_SIZE], undo[URDDOLWY_UNDO_SIZE], ids[URDDOLWY_IDS_SIZE];
    uint8_t text[URDDOLWY_TEXT_MAX];
    uint8_t statuses[8 * URDDOLWY_STATUS_SIZE], names[8 * URDDOLWY_NAME_SIZE], lengths[8 * URDDOLWY_LENGTH_SIZE];
    uint8_t got[URDDOLWY_GET_OUT_SIZE], listed[URDDOLWY_LIST_OUT_SIZE], top[URDDOLWY_TOP_BUILD_ID_OUT_SIZE];
};

#include "harness.h"

enum { RECORDS_SIZE, START, UPLOAD, GET, LISTING, ACTION, REPORT, TICK, WORK, TOP_BUILD_ID, FUNCTIONS };

#define FUNCTION(name, arguments, stack) {#name, (void (*)(void))name, (arguments) > 6 ? 8 * ((arguments)-6) : 0, stack, 0, 0}

static struct function functions[FUNCTIONS] = {
    FUNCTION(urddolwy_records_size, 0, URDDOLWY_RECORDS_SIZE_STACK),
    FUNCTION(urddolwy_start, 15, URDDOLWY_START_STACK),
    FUNCTION(urddolwy_upload, 12, URDDOLWY_UPLOAD_STACK),
    FUNCTION(urddolwy_get, 6, URDDOLWY_GET_STACK),
    FUNCTION(urddolwy_list, 12, URDDOLWY_LIST_STACK),
    FUNCTION(urddolwy_action, 14, URDDOLWY_ACTION_STACK),
    FUNCTION(urddolwy_report, 3, URDDOLWY_REPORT_STACK),
    FUNCTION(urddolwy_tick, 2, URDDOLWY_TICK_STACK),
    FUNCTION(urddolwy_work, 6, URDDOLWY_WORK_STACK),
    FUNCTION(urddolwy_top_build_id, 8, URDDOLWY_TOP_BUILD_ID_STACK),
};

/* ---- the calls: each made plainly, then as a hypervisor would; what it left is what the next one begins with */

static const uint8_t build_id[1] = {0x77}; /* the payload depends on it */
static const uint8_t name[3] = "p1";
static const uint64_t text_base = 0xffff82d080000000, arena_base = 0xffff82d0a0000000;

/* A buffer and its length: as arguments of a plain call, and as numbers. */
#define B(a) a, sizeof a
#define N(a) (uintptr_t)(a), sizeof a

static void ended(int function, const char *what, const uint64_t *arguments, uint64_t got, uint64_t want)
{
    same(&functions[function], what, arguments, got, want);
    initial = buffers = wanted;
}

static void records_size(void)
{
    static const uint64_t arguments[ARGUMENTS];
    ended(RECORDS_SIZE, "the size", arguments, urddolwy_records_size(), URDDOLWY_RECORDS_SIZE);
}

static void start(const char *what, uint32_t cpus, uint64_t want)
{
    uint64_t arguments[ARGUMENTS] = {N(buffers.records), N(buffers.text), text_base, N(buffers.arena), arena_base, N(buffers.undo),
                                     N(buffers.ids), N(build_id), cpus};
    ended(START, what, arguments,
          urddolwy_start(B(buffers.records), B(buffers.text), text_base, B(buffers.arena), arena_base, B(buffers.undo),
                         B(buffers.ids), B(build_id), cpus), want);
}

static void upload(const char *what, size_t len, uint64_t want)
{
    uint64_t arguments[ARGUMENTS] = {N(buffers.records), N(buffers.arena), N(buffers.ids), N(name), (uintptr_t)list, LIST,
                                     (uintptr_t)file, len};
    ended(UPLOAD, what, arguments,
          urddolwy_upload(B(buffers.records), B(buffers.arena), B(buffers.ids), B(name), list, LIST, file, len), want);
}

static void get(const char *what, uint64_t want)
{
    uint64_t arguments[ARGUMENTS] = {N(buffers.records), N(name), N(buffers.got)};
    ended(GET, what, arguments, urddolwy_get(B(buffers.records), B(name), B(buffers.got)), want);
}

static void listing(const char *what, uint32_t nr, uint64_t want)
{
    uint64_t arguments[ARGUMENTS] = {N(buffers.records), 0, nr, N(buffers.statuses), N(buffers.names), N(buffers.lengths),
                                     N(buffers.listed)};
    ended(LISTING, what, arguments,
          urddolwy_list(B(buffers.records), 0, nr, B(buffers.statuses), B(buffers.names), B(buffers.lengths), B(buffers.listed)),
          want);
}

static void action(const char *what, enum urddolwy_command command, uint64_t want)
{
    uint64_t arguments[ARGUMENTS] = {N(buffers.records), N(buffers.arena), N(buffers.undo), N(buffers.ids), N(build_id), N(name),
                                     command, 1};
    ended(ACTION, what, arguments,
          urddolwy_action(B(buffers.records), B(buffers.arena), B(buffers.undo), B(buffers.ids), B(build_id), B(name), command, 1),
          want);
}

static void report(const char *what, uint32_t cpu, uint64_t want)
{
    uint64_t arguments[ARGUMENTS] = {N(buffers.records), cpu};
    ended(REPORT, what, arguments, urddolwy_report(B(buffers.records), cpu), want);
}

static void tick(const char *what, uint64_t want)
{
    uint64_t arguments[ARGUMENTS] = {N(buffers.records)};
    ended(TICK, what, arguments, urddolwy_tick(B(buffers.records)), want);
}

static void work(const char *what, uint64_t want)
{
    uint64_t arguments[ARGUMENTS] = {N(buffers.records), N(buffers.text), N(buffers.undo)};
    ended(WORK, what, arguments, urddolwy_work(B(buffers.records), B(buffers.text), B(buffers.undo)), want);
}

static void top_build_id(const char *what, uint64_t want)
{
    uint64_t arguments[ARGUMENTS] = {N(buffers.records), N(build_id), N(buffers.ids), N(buffers.top)};
    ended(TOP_BUILD_ID, what, arguments, urddolwy_top_build_id(B(buffers.records), B(build_id), B(buffers.ids), B(buffers.top)), want);
}

/* ---- the run */

static void job(enum urddolwy_command command)
{
    action("a job begins", command, 0);
    work("a CPU is missing", nowhere(URDDOLWY_BUSY));
    report("the only CPU", 0, 0);
    tick("complete", 0);
    for (int i = 0; i < URDDOLWY_EDITS; i++)
        work("a step", 0);
    work("no job", nowhere(URDDOLWY_INVALID));
}

int main(int argc, char **argv)
{
    take(argc, argv, functions, FUNCTIONS);
    memset(&initial, 0xa5, sizeof initial);
    buffers = initial;
    records_size();
    get("not started", nowhere(URDDOLWY_INVALID));
    start("no CPU", 0, nowhere(URDDOLWY_INVALID));
    start("accepted", 1, 0);
    upload("a file cut short", 63, nowhere(URDDOLWY_BAD_HEADER));
    upload("accepted", file_len, 0);
    upload("loaded", file_len, nowhere(URDDOLWY_LOADED));
    action("not applied", URDDOLWY_REVERT, nowhere(URDDOLWY_INVALID));
    action("a job that times out", URDDOLWY_APPLY, 0);
    report("no such CPU", 1, nowhere(URDDOLWY_INVALID));
    tick("the last", 0);
    job(URDDOLWY_APPLY);
    get("applied", 0);
    listing("nine", 9, nowhere(URDDOLWY_TOO_MANY));
    listing("eight", 8, 0);
    top_build_id("a payload's", 0);
    job(URDDOLWY_REVERT);
    action("unload", URDDOLWY_UNLOAD, 0);
    top_build_id("the hypervisor's", 0);
    stacks(functions, FUNCTIONS);
    return closing_line();
}
