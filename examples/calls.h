/* The calls of the loader on the example hypervisor, each shown with its answer and held against the one that is expected. */
#ifndef CALLS_H
#define CALLS_H

#include "common.h"
#include "hypervisor.h"
#include "payload.h"

#include <stdarg.h>

/* ---- what is shown */

static int unexpected;

static void expect(int as_expected)
{
    if (as_expected)
        return;
    unexpected++;
    printf("    THIS IS NOT AS EXPECTED\n");
}

/* Shows what was called and the answer, which is to be `want`: accepted, or a refusal and its reason. */
static void answered(uint64_t answer, uint64_t want, const char *why, const char *call, ...)
{
    va_list words;
    va_start(words, call);
    vprintf(call, words);
    va_end(words);
    if (answer == 0)
        printf(": accepted\n");
    else
        printf(": refused with %u: %s\n", URDDOLWY_NUMBER(answer), why);
    expect(answer == want);
}

static const char *status_word(uint64_t status)
{
    return status == URDDOLWY_APPLIED ? "applied" : status == URDDOLWY_CHECKED ? "checked" : "?";
}

static void functions(int version, int limit, int allowed)
{
    int got[3] = {returned(text_base), returned(text_base + 16), returned(text_base + 32)};
    printf("    version() = %d, limit() = %d, allowed() = %d\n", got[0], got[1], got[2]);
    expect(got[0] == version && got[1] == limit && got[2] == allowed);
}

/* ---- the calls */

static struct bytes named(const char *name)
{
    return (struct bytes){(const uint8_t *)name, strlen(name) + 1};
}

static void upload_file(const char *name, struct bytes file, uint64_t want)
{
    struct bytes n = named(name);
    uint64_t answer = urddolwy_upload(records, sizeof records, arena, sizeof arena, ids, sizeof ids, n.at, n.len, symbols,
                                      sizeof symbols - 1, file.at, file.len);
    printf("upload %s: ", name);
    if (answer == 0)
        printf("accepted\n");
    else
        print_refusal(stdout, file, answer);
    expect(answer == want);
}

static void upload(const char *name, const struct patch *patch, uint64_t want)
{
    static uint8_t file[PAYLOAD_MAX];
    size_t len = make_payload(file, patch);
    upload_file(name, (struct bytes){file, len}, want);
}

static void list(const char *want)
{
    uint8_t statuses[8 * URDDOLWY_STATUS_SIZE], names[8 * URDDOLWY_NAME_SIZE], lengths[8 * URDDOLWY_LENGTH_SIZE];
    uint8_t out[URDDOLWY_LIST_OUT_SIZE];
    char line[512];
    uint64_t answer = urddolwy_list(records, sizeof records, 0, 8, statuses, sizeof statuses, names, sizeof names, lengths,
                                    sizeof lengths, out, sizeof out);
    if (answer != 0) {
        answered(answer, 0, "", "list");
        return;
    }
    unsigned written = (unsigned)little(out, 4), left = (unsigned)little(out + 4, 4);
    int at = snprintf(line, sizeof line, "version %u, %u of %u", (unsigned)little(out + 8, 4), written, written + left);
    for (unsigned i = 0; i < written && at < 400; i++)
        at += snprintf(line + at, 100, "%s %.32s %s %d", i == 0 ? ":" : ",", (const char *)names + 128 * i,
                       status_word(little(statuses + 8 * i, 4)), (int)little(statuses + 8 * i + 4, 4));
    printf("list: %s\n", line);
    expect(strcmp(line, want) == 0);
}

static void get(const char *name, unsigned status, int result)
{
    uint8_t out[URDDOLWY_GET_OUT_SIZE] = {0};
    struct bytes n = named(name);
    uint64_t answer = urddolwy_get(records, sizeof records, n.at, n.len, out, sizeof out);
    int got = (int)little(out + 4, 4);
    if (answer != 0)
        answered(answer, 0, "", "get %s", name);
    else
        printf("    get %s: %s %d\n", name, status_word(little(out, 4)), got);
    expect(answer == 0 && little(out, 4) == status && got == result);
}

/* The top build-id; the ids here are words. */
static void top_build_id(const char *want)
{
    uint8_t out[URDDOLWY_TOP_BUILD_ID_OUT_SIZE] = {0};
    uint64_t answer = urddolwy_top_build_id(records, sizeof records, build_id, sizeof build_id, ids, sizeof ids, out, sizeof out);
    const uint8_t *id = (little(out, 4) == 0 ? build_id : ids) + little(out + 4, 4);
    printf("    top build-id: %.*s\n", (int)little(out + 8, 4), (const char *)id);
    expect(answer == 0 && little(out + 8, 4) == ID_SIZE && memcmp(id, want, strlen(want)) == 0);
}

static void action(const char *verb, enum urddolwy_command command, const char *name, uint32_t time, uint64_t want,
                   const char *why)
{
    struct bytes n = named(name);
    answered(urddolwy_action(records, sizeof records, arena, sizeof arena, undo, sizeof undo, ids, sizeof ids, build_id,
                             sizeof build_id, n.at, n.len, command, time),
             want, why, "%s %s", verb, name);
}

/* CPUs are reported in their order. */
static void report(uint32_t cpu)
{
    answered(urddolwy_report(records, sizeof records, cpu), 0, "", "  report CPU %u, %u of %u held", cpu, cpu + 1, CPUS);
}

static void tick(void)
{
    answered(urddolwy_tick(records, sizeof records), 0, "", "  tick");
}

/* One work step, and the instruction of the text that it changes. */
static void work(uint64_t want, const char *why)
{
    uint8_t before[TEXT_LEN];
    unsigned at = 0;
    memcpy(before, text, TEXT_LEN);
    answered(urddolwy_work(records, sizeof records, text, sizeof text, undo, sizeof undo), want, why, "  work");
    while (at < TEXT_LEN && text[at] == before[at])
        at++;
    expect((at < TEXT_LEN) == (want == 0));
    if (at == TEXT_LEN)
        return;
    at -= (at >= 37 ? at - 37 : at % 16); /* where `denied` or a function begins */
    printf("    text at 0x%llx is now", (unsigned long long)text_base + at);
    for (unsigned i = 0; i < 5; i++)
        printf(" %02x", text[at + i]);
    printf("\n");
}

/* The rendezvous: every CPU reports. */
static void gather(void)
{
    for (uint32_t cpu = 0; cpu < CPUS; cpu++)
        report(cpu);
}

/* Work steps until the job has ended, which `get` shows. */
static void finish_job(const char *name, int steps, unsigned status)
{
    for (int i = 1; i <= steps; i++) {
        work(0, "");
        get(name, i < steps ? 3 - status : status, i < steps ? URDDOLWY_UNDER_WAY : URDDOLWY_DONE);
    }
}

#endif
