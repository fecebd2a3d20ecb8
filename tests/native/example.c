/* example FOLDER ARENA: patches the functions of text.c with the payloads that `run` made in the folder, placed in an arena at this address,
 * and calls them before, between and after the steps of each job. The processor itself says which code runs. */
#define _GNU_SOURCE
#include "host.h"

#include <stdlib.h>
#include <unistd.h>

/* What the functions return. */
struct seen {
    int version, scaled, total, letter, admitted, counted;
};

/* Before the first step of each job, and after each step. */
static const struct seen first_applied[] = {
    {1, 22, 39, 'c', 0, 0}, {2, 22, 39, 'c', 0, 0}, {2, 22, 1016, 'c', 0, 0}, {2, 22, 1016, 'c', 1, 0}};
static const struct seen second_applied[] = {
    {2, 22, 1016, 'c', 1, 0}, {3, 22, 1016, 'c', 1, 0}, {3, 22, 1016, 'v', 1, 0}, {3, 22, 1016, 'v', 1, 1}};
static const struct seen replaced[] = {
    {3, 22, 1016, 'v', 1, 1}, /* of the second payload, the last record first */
    {3, 22, 1016, 'v', 1, 0}, {3, 22, 1016, 'c', 1, 0}, {2, 22, 1016, 'c', 1, 0},
    /* of the first */
    {2, 22, 1016, 'c', 0, 0}, {2, 22, 39, 'c', 0, 0}, {1, 22, 39, 'c', 0, 0},
    /* the third is laid; the text's `total` calls its `scaled` */
    {4, 22, 39, 'c', 0, 0}, {4, 6, 9, 'c', 0, 0}};
static const struct seen third_reverted[] = {{4, 6, 9, 'c', 0, 0}, {4, 22, 39, 'c', 0, 0}, {1, 22, 39, 'c', 0, 0}};

/* ---- the functions, called */

static int with_none(const char *name)
{
    return ((int (*)(void))function(name))();
}

static int with(const char *name, int x)
{
    return ((int (*)(int))function(name))(x);
}

/* The last number that the new `count` gave: its data remember it. */
static int counted;

/* Calls `count` and says whether its new code ran. */
static int counting(void)
{
    int n = with_none("count");
    if (n == 50)
        return 0;
    expect("count", (uint64_t)n, (uint64_t)++counted);
    return 1;
}

static void look_for(const struct seen *want, unsigned step)
{
    struct seen got = {with_none("version"), with("scaled", 5), with("total", 3), with("letter", 2), with_none("admitted"), counting()};
    check(got.version == want->version, "step %u: version() is %d, and not %d", step, got.version, want->version);
    check(got.scaled == want->scaled, "step %u: scaled(5) is %d, and not %d", step, got.scaled, want->scaled);
    check(got.total == want->total, "step %u: total(3) is %d, and not %d", step, got.total, want->total);
    check(got.letter == want->letter, "step %u: letter(2) is %d, and not %d", step, got.letter, want->letter);
    check(got.admitted == want->admitted, "step %u: admitted() is %d, and not %d", step, got.admitted, want->admitted);
    check(got.counted == want->counted, "step %u: the code of count() is %s", step, want->counted ? "old" : "new");
}

/* What the job under way shows: step k, or k steps before the end where it goes back. */
static const struct seen *shown;
static unsigned last;

static void forth(unsigned step)
{
    look_for(&shown[step], step);
}

static void back(unsigned step)
{
    look_for(&shown[last - step], step);
}

static void apply(const char *name, const struct seen *table)
{
    shown = table;
    job(URDDOLWY_APPLY, name, 3, forth);
}

static void revert(const char *name, const struct seen *table)
{
    shown = table;
    last = 3;
    job(URDDOLWY_REVERT, name, 3, back);
}

/* ---- the run */

static struct bytes build_id, first, second, third, first_id, second_id, third_id;

static void refused(void)
{
    part("uploads, refusals and a time-out change nothing that runs");
    upload("first", first);
    upload("second", second);
    look_for(&first_applied[0], 0);
    refused_action(URDDOLWY_APPLY, "second", URDDOLWY_WRONG_BASE);
    expect_state("second", URDDOLWY_CHECKED, URDDOLWY_WRONG_TOP);
    refused_action(URDDOLWY_REVERT, "first", URDDOLWY_INVALID);
    shown = first_applied;
    time_out(URDDOLWY_APPLY, "first", forth);
    expect_original();
}

static void stacked(void)
{
    part("the first payload applied, the second on top of it");
    expect_top(build_id);
    apply("first", first_applied);
    expect_top(first_id);
    counted = 100;
    apply("second", second_applied);
    expect_top(second_id);
    refused_action(URDDOLWY_REVERT, "first", URDDOLWY_WRONG_BASE);
    refused_action(URDDOLWY_UNLOAD, "second", URDDOLWY_INVALID);
    expect_state("second", URDDOLWY_APPLIED, URDDOLWY_WRONG_STATUS);
    look_for(&second_applied[3], 3);
}

static void replaced_by_third(void)
{
    part("a revert that times out; then both replaced by the third payload, and this reverted");
    shown = replaced;
    time_out(URDDOLWY_REVERT, "second", forth);
    upload("third", third);
    job(URDDOLWY_REPLACE, "third", 8, forth);
    expect_top(third_id);
    shown = third_reverted;
    job(URDDOLWY_REVERT, "third", 2, forth);
    expect_top(build_id);
    expect_original();
}

static void again(void)
{
    part("both applied again: the second payload's data are as its code left them; uploaded anew they are fresh");
    apply("first", first_applied);
    apply("second", second_applied);
    revert("second", second_applied);
    unload("second");
    upload("second", second);
    counted = 100;
    apply("second", second_applied);
    revert("second", second_applied);
    revert("first", first_applied);
    expect_original();
}

int main(int argc, char **argv)
{
    if (argc != 3 || chdir(argv[1]) != 0)
        return 2;
    take_symbols("symbols", 0);
    build_id = read_file("text.id");
    first = read_file("first.payload");
    first_id = read_file("first.id");
    second = read_file("second.payload");
    second_id = read_file("second.id");
    third = read_file("third.payload");
    third_id = read_file("third.id");
    part("start-up");
    start(0x10000000, read_file("text.bin"), strtoull(argv[2], NULL, 16), build_id);
    refused();
    stacked();
    replaced_by_third();
    again();
    part("unloaded");
    unload("third");
    unload("first");
    unload("second");
    expect_empty();
    expect_original();
    look_for(&first_applied[0], 0);
    return closing_line();
}
