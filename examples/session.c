/* session: drives the loader on a hypervisor of 48 bytes, call by call, and shows the answers. Fixes are uploaded, refused, applied, stacked,
 * replaced and reverted, with a time-out between. Exit status 0 only where every answer is the one that is expected.
 *
 *   ./build
 *   cc -Iinclude examples/session.c target/lib/liburddolwy.a -o target/session
 */
#include "calls.h"

/* ---- the fixes: new code is `mov $n,%eax; ret` */

#define RETURN(n) (const uint8_t *)"\xb8" n "\0\0\0\xc3", 6

static const struct patch first = {
    "one", "hype", 2, {{"version", 6, RETURN("\x02")}, {"denied", 5, NULL, 5}}};
static const struct patch second = {"two", "one", 2, {{"version", 6, RETURN("\x03")}, {"limit", 6, RETURN("\x14")}}};
static const struct patch third = {"tri", "hype", 1, {{"version", 6, RETURN("\x04")}}};

/* ---- the day */

static void starting(void)
{
    struct bytes p1 = named("p1");
    uint8_t out[URDDOLWY_GET_OUT_SIZE];
    printf("A hypervisor of %d bytes at 0x%llx, payload memory at 0x%llx, %d CPUs\n", TEXT_LEN, (unsigned long long)text_base,
           (unsigned long long)arena_base, CPUS);
    memcpy(text, original, TEXT_LEN);
    answered(urddolwy_get(records, sizeof records, p1.at, p1.len, out, sizeof out), URDDOLWY_INVALID,
             "records of zeros: not started", "get p1");
    answered(urddolwy_start(records, sizeof records, text, sizeof text, text_base, arena, sizeof arena, arena_base, undo,
                            sizeof undo, ids, sizeof ids, build_id, sizeof build_id, CPUS),
             0, "", "start");
    top_build_id("hype");
    functions(1, 10, 0);
}

static void uploading(void)
{
    uint8_t file[PAYLOAD_MAX];
    size_t len = make_payload(file, &first);
    printf("\nUploads: the text stays as it is\n");
    upload("p1", &first, 0);
    list("version 1, 1 of 1: p1 checked 0");
    upload("p1", &first, URDDOLWY_LOADED);
    upload_file("bad", (struct bytes){file, 63}, URDDOLWY_BAD_HEADER);
    file[little(file + 40, 8) + 64 * RODATA + 9] = 4; /* flag 0x400 of section 2 */
    upload_file("bad", (struct bytes){file, len}, URDDOLWY_UNSUPPORTED | URDDOLWY_SECTION << 8 | RODATA << 16);
    upload("p2", &second, 0);
    list("version 2, 2 of 2: p1 checked 0, p2 checked 0");
    functions(1, 10, 0);
}

static void timing_out(void)
{
    printf("\nAn apply that times out: one CPU does not come\n");
    action("apply", URDDOLWY_APPLY, "p1", 2, 0, "");
    report(0);
    work(URDDOLWY_BUSY, "1 of 2 CPUs held");
    action("unload", URDDOLWY_UNLOAD, "p1", 0, URDDOLWY_BUSY, "its job stands");
    tick();
    get("p1", URDDOLWY_CHECKED, URDDOLWY_UNDER_WAY);
    tick();
    get("p1", URDDOLWY_CHECKED, URDDOLWY_TIMED_OUT);
    functions(1, 10, 0);
}

static void applying(void)
{
    printf("\nApplied: p1, then p2, which depends on it\n");
    action("apply", URDDOLWY_APPLY, "p2", 0, URDDOLWY_WRONG_BASE, "it depends on p1");
    action("apply", URDDOLWY_APPLY, "p1", 0, 0, "");
    gather();
    finish_job("p1", 2, URDDOLWY_APPLIED);
    functions(2, 10, 1);
    list("version 2, 2 of 2: p1 applied 0, p2 checked -33");
    action("apply", URDDOLWY_APPLY, "p2", 0, 0, "");
    gather();
    finish_job("p2", 2, URDDOLWY_APPLIED);
    functions(3, 20, 1);
    top_build_id("two");
}

static void replacing(void)
{
    printf("\nReplaced by p3: the edits of p2 and p1 come off, the last first\n");
    action("revert", URDDOLWY_REVERT, "p1", 0, URDDOLWY_WRONG_BASE, "p2 stands on it");
    upload("p3", &third, 0);
    action("replace", URDDOLWY_REPLACE, "p3", 0, 0, "");
    gather();
    finish_job("p3", 5, URDDOLWY_APPLIED);
    functions(4, 10, 0);
    list("version 3, 3 of 3: p1 checked -33, p2 checked 0, p3 applied 0");
}

static void leaving(void)
{
    printf("\nReverted and unloaded\n");
    action("unload", URDDOLWY_UNLOAD, "p3", 0, URDDOLWY_INVALID, "it is applied");
    get("p3", URDDOLWY_APPLIED, URDDOLWY_WRONG_STATUS);
    action("revert", URDDOLWY_REVERT, "p3", 0, 0, "");
    gather();
    finish_job("p3", 1, URDDOLWY_CHECKED);
    functions(1, 10, 0);
    action("unload", URDDOLWY_UNLOAD, "p1", 0, 0, "");
    action("unload", URDDOLWY_UNLOAD, "p2", 0, 0, "");
    action("unload", URDDOLWY_UNLOAD, "p3", 0, 0, "");
    action("unload", URDDOLWY_UNLOAD, "p3", 0, URDDOLWY_NOT_LOADED, "no payload of that name");
    list("version 6, 0 of 0");
    printf("    the text is %s\n", memcmp(text, original, TEXT_LEN) == 0 ? "as it was" : "another");
    expect(memcmp(text, original, TEXT_LEN) == 0);
}

int main(void)
{
    starting();
    uploading();
    timing_out();
    applying();
    replacing();
    leaving();
    if (unexpected == 0)
        printf("\nsession: every answer as expected\n");
    else
        printf("\nsession: %d answers not as expected\n", unexpected);
    return unexpected != 0;
}
