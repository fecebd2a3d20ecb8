/* The host of the native runs: the calls of the loader, each with the answer that it must give. */
#include "host.h"

#include <stdlib.h>
#include <string.h>

static struct bytes text, original, arena, build_id;
static uint8_t undo[URDDOLWY_UNDO_SIZE], ids[URDDOLWY_IDS_SIZE], records[URDDOLWY_RECORDS_SIZE];

static uint32_t little(const uint8_t *at)
{
    return at[0] | (uint32_t)at[1] << 8 | (uint32_t)at[2] << 16 | (uint32_t)at[3] << 24;
}

void start(uint64_t text_base, struct bytes bytes, uint64_t arena_base, struct bytes id)
{
    static uint8_t zeros[URDDOLWY_ARENA_SIZE];
    text = (struct bytes){executable(text_base, bytes), bytes.len};
    arena = (struct bytes){executable(arena_base, (struct bytes){zeros, sizeof zeros}), sizeof zeros};
    original = bytes;
    build_id = id;
    expect("start", urddolwy_start(records, sizeof records, text.at, text.len, text_base, arena.at, arena.len, arena_base, undo,
                                   sizeof undo, ids, sizeof ids, build_id.at, build_id.len, CPUS), 0);
}

void upload(const char *name, struct bytes file)
{
    struct bytes list = symbol_list();
    expect(name, urddolwy_upload(records, sizeof records, arena.at, arena.len, ids, sizeof ids, (const uint8_t *)name,
                                 strlen(name) + 1, list.at, list.len, file.at, file.len), 0);
    expect_state(name, URDDOLWY_CHECKED, URDDOLWY_DONE);
}

static uint64_t action(enum urddolwy_command command, const char *name, uint32_t time)
{
    return urddolwy_action(records, sizeof records, arena.at, arena.len, undo, sizeof undo, ids, sizeof ids, build_id.at,
                           build_id.len, (const uint8_t *)name, strlen(name) + 1, command, time);
}

void refused_action(enum urddolwy_command command, const char *name, unsigned number)
{
    expect(name, action(command, name, 0), number);
}

void unload(const char *name)
{
    uint8_t out[URDDOLWY_GET_OUT_SIZE];
    expect(name, action(URDDOLWY_UNLOAD, name, 0), 0);
    expect("get after unload", urddolwy_get(records, sizeof records, (const uint8_t *)name, strlen(name) + 1, out, sizeof out),
           URDDOLWY_NOT_LOADED);
}

static void report(uint32_t cpu)
{
    expect("report", urddolwy_report(records, sizeof records, cpu), 0);
}

static void tick(void)
{
    expect("tick", urddolwy_tick(records, sizeof records), 0);
}

static uint64_t work(void)
{
    return urddolwy_work(records, sizeof records, text.at, text.len, undo, sizeof undo);
}

/* The status that a payload has before the command is done, and after it. */
static enum urddolwy_status status_of(enum urddolwy_command command, int done)
{
    return (command == URDDOLWY_REVERT) == done ? URDDOLWY_CHECKED : URDDOLWY_APPLIED;
}

/* A job begins, and all CPUs but the last are held: there is no work yet. */
static void begin(enum urddolwy_command command, const char *name, uint32_t time, void (*look)(unsigned step))
{
    expect(name, action(command, name, time), 0);
    for (uint32_t cpu = 0; cpu + 1 < CPUS; cpu++) {
        expect("work while CPUs are missing", work(), URDDOLWY_BUSY);
        report(cpu);
    }
    expect("work while a CPU is missing", work(), URDDOLWY_BUSY);
    expect_state(name, status_of(command, 0), URDDOLWY_UNDER_WAY);
    look(0);
}

void time_out(enum urddolwy_command command, const char *name, void (*look)(unsigned step))
{
    begin(command, name, 2, look);
    tick();
    expect_state(name, status_of(command, 0), URDDOLWY_UNDER_WAY);
    tick();
    expect_state(name, status_of(command, 0), URDDOLWY_TIMED_OUT);
    expect("work after a time-out", work(), URDDOLWY_INVALID);
    look(0);
}

void job(enum urddolwy_command command, const char *name, unsigned steps, void (*look)(unsigned step))
{
    begin(command, name, 1, look);
    report(CPUS - 1);
    tick(); /* which does nothing any more */
    for (unsigned step = 1; step <= steps; step++) {
        expect("work", work(), 0);
        expect_state(name, status_of(command, step == steps), step == steps ? URDDOLWY_DONE : URDDOLWY_UNDER_WAY);
        look(step);
    }
    expect("work after the job", work(), URDDOLWY_INVALID);
}

void expect_state(const char *name, enum urddolwy_status status, enum urddolwy_result result)
{
    uint8_t out[URDDOLWY_GET_OUT_SIZE] = {0};
    expect("get", urddolwy_get(records, sizeof records, (const uint8_t *)name, strlen(name) + 1, out, sizeof out), 0);
    check(little(out) == (uint32_t)status && little(out + 4) == (uint32_t)result, "%s has status %u, result %d, and not %d, %d",
          name, little(out), (int)little(out + 4), (int)status, (int)result);
}

void expect_top(struct bytes id)
{
    uint8_t out[URDDOLWY_TOP_BUILD_ID_OUT_SIZE] = {0};
    expect("top build-id", urddolwy_top_build_id(records, sizeof records, build_id.at, build_id.len, ids, sizeof ids, out,
                                                 sizeof out), 0);
    const uint8_t *top = (little(out) == 0 ? build_id.at : ids) + little(out + 4);
    check(little(out + 8) == id.len && memcmp(top, id.at, id.len) == 0, "the top build-id is another");
}

void expect_original(void)
{
    check(memcmp(text.at, original.at, text.len) == 0, "the text is not as it was");
}

static int all_zero(const uint8_t *at, size_t n)
{
    while (n > 0 && at[n - 1] == 0)
        n--;
    return n == 0;
}

void expect_empty(void)
{
    uint8_t out[URDDOLWY_LIST_OUT_SIZE] = {0};
    check(all_zero(arena.at, arena.len), "the arena is not zero");
    check(all_zero(undo, sizeof undo), "the undo store is not zero");
    check(all_zero(ids, sizeof ids), "the id store is not zero");
    expect("list", urddolwy_list(records, sizeof records, 0, 0, NULL, 0, NULL, 0, NULL, 0, out, sizeof out), 0);
    expect("loaded", little(out + 4), 0);
}
