/* The calls of the C boundary, called from C: the layout of the records, and known answers with all that they write. */
#include "lent.h"

/* The records as docs/integrators.md has them, with a job of two steps of which one is done. */
static void layout(void)
{
    ready();
    expect("work", work(), 0);
    field("text base", 0, 8, text_base);
    field("text length", 8, 8, CODE_SIZE);
    field("arena base", 16, 8, arena_base);
    field("build-id length", 24, 4, ID_SIZE);
    field("CPUs", 28, 4, CPUS);
    field("loaded", 32, 8, 1);
    field("applied", 40, 8, 0);
    field("version", 48, 4, 1);
    field("action", 52, 4, URDDOLWY_APPLY);
    field("slot of the job", 56, 4, 0);
    field("ticks left", 60, 4, 30);
    field("steps done", 64, 4, 1);
    field("CPUs held", 68, 8, 0x010101);
    same("name", RECORDS, PAYLOAD, "p1\0", 4);
    field("length of the name", PAYLOAD + 128, 4, 3);
    field("slot", PAYLOAD + 132, 4, 0);
    field("status", PAYLOAD + 136, 4, URDDOLWY_CHECKED);
    field("last result", PAYLOAD + 140, 4, 11);
    field("length of the id", PAYLOAD + 144, 4, ID_SIZE);
    field("length of the dependency", PAYLOAD + 148, 4, ID_SIZE);
    same("dependency", RECORDS, PAYLOAD + DEPENDENCY, "hype\0", 5);
    field("edits", PAYLOAD + EDIT_COUNT, 4, 2);
    field("offset of the first edit", PAYLOAD + EDIT, 4, 0);
    field("its length", PAYLOAD + EDIT + 4, 4, 5);
    field("its kind", PAYLOAD + EDIT + 8, 4, 1);
    field("its displacement", PAYLOAD + EDIT + 12, 8, arena_base - (text_base + 5));
    field("offset of the second edit", PAYLOAD + EDIT + EDIT_SIZE, 4, 16);
    field("its length", PAYLOAD + EDIT + EDIT_SIZE + 4, 4, 9);
    field("its kind", PAYLOAD + EDIT + EDIT_SIZE + 8, 4, 0);
    field("the second payload", PAYLOAD + PAYLOAD_SIZE, 8, 0);
}

/* Applies p1; then p2, on it, is loaded, and K10 of document 01 is asked. */
static void session(void)
{
    ready();
    same("the text is not patched", CODE, 0, "\xa5\xa5\xa5\xa5\xa5", 5);
    expect("work", work(), 0);
    same("the jump", CODE, 0, "\xe9\xfb\xff\x1f\x00\xa5", 6);
    same("the bytes that it covers", UNDO, 0, "\xa5\xa5\xa5\xa5\xa5\0", 6);
    expect("work", work(), 0);
    same("the no-ops", CODE, 16, "\x90\x90\x90\x90\x90\x90\x90\x90\x90\xa5", 10);
    refused("work", "no job", work, URDDOLWY_INVALID);
    field("applied", 40, 8, 1);
    set_payload("two!", "one!");
    expect("upload p2", upload(), 0);
    same("the id store", IDS, 0, "one!\0", 5);
    same("the id store", IDS, URDDOLWY_BUILD_ID_MAX, "two!\0", 5);
    command = URDDOLWY_REVERT;
    expect("revert p2", action(), URDDOLWY_INVALID);
    expect("list", list(), 0);
    same("K10: entries written and left, version", LIST_OUT, 0, "\x02\0\0\0\0\0\0\0\x02\0\0\0", 12);
    same("K10: statuses", STATUSES, 0, "\x02\0\0\0\0\0\0\0\x01\0\0\0\xea\xff\xff\xff\xa5", 17);
    same("names", NAMES, 0, "p1\0\0", 4);
    same("names", NAMES, 128, "p2\0\0", 4);
    same("lengths", LENGTHS, 0, "\x03\0\0\0\x03\0\0\0\xa5", 9);
    expect("get p2", get(), 0);
    same("get p2", GET_OUT, 0, "\x01\0\0\0\xea\xff\xff\xff\xa5", 9);
    expect("top build-id", top_build_id(), 0);
    same("top build-id", TOP_OUT, 0, "\x01\0\0\0\0\0\0\0\x04\0\0\0\xa5", 13);
}

/* A time-out, and what is only read may overlap: a name in the records. */
static void time_out(void)
{
    ready();
    expect("upload p2", upload(), 0);
    while (little(lent[RECORDS].at + 52, 4) != 0)
        expect("work", work(), 0);
    set_name("p1");
    command = URDDOLWY_REVERT, ticks = 1;
    expect("revert p1", action(), 0);
    refused("action", "a job stands", action, URDDOLWY_BUSY);
    refused("work", "CPUs are missing", work, URDDOLWY_BUSY);
    cpu = CPUS;
    refused("report", "no such CPU", report, URDDOLWY_INVALID);
    expect("tick", tick(), 0);
    refused("tick", "no job", tick, URDDOLWY_INVALID);
    cpu = 0;
    refused("report", "no job", report, URDDOLWY_INVALID);
    lent[NAME].at = lent[RECORDS].at + PAYLOAD;
    expect("get by the name in the records", get(), 0);
    same("get p1", GET_OUT, 0, "\x02\0\0\0\xf0\xff\xff\xff\xa5", 9);
}

/* An unload frees the slot, and the next upload takes it: last in the list, and in slot 0. */
static void unloads(void)
{
    fresh();
    expect("start", start(), 0);
    expect("upload p1", upload(), 0);
    set_name("p2");
    expect("upload p2", upload(), 0);
    refused("upload", "the name is loaded", upload, URDDOLWY_LOADED);
    command = URDDOLWY_UNLOAD;
    set_name("p1");
    expect("unload p1", action(), 0);
    expect("its slot is not zero", all_zero(ARENA, 0, 8192), 1);
    expect("its id entry is not zero", all_zero(IDS, 0, URDDOLWY_BUILD_ID_MAX), 1);
    expect("the other slot is zero", all_zero(ARENA, 8192, 8192), 0);
    refused("action", "not loaded", action, URDDOLWY_NOT_LOADED);
    refused("get", "not loaded", get, URDDOLWY_NOT_LOADED);
    same("p2 moves up", RECORDS, PAYLOAD, "p2\0\0", 4);
    field("p2 stays in its slot", PAYLOAD + 132, 4, 1);
    expect("the place behind it is not zero", all_zero(RECORDS, PAYLOAD + PAYLOAD_SIZE, 7 * PAYLOAD_SIZE), 1);
    expect("upload p1 again", upload(), 0);
    field("its slot", PAYLOAD + PAYLOAD_SIZE + 132, 4, 0);
    idx = 1, nr = 1;
    expect("list", list(), 0);
    same("the list from 1", NAMES, 0, "p1\0\0", 4);
    same("entries written and left, version", LIST_OUT, 0, "\x01\0\0\0\0\0\0\0\x04\0\0\0", 12);
}

int main(void)
{
    layout();
    session();
    time_out();
    unloads();
    return closing_line();
}
