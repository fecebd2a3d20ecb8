/* The calls of the C boundary, called from C with what they refuse: buffers of wrong sizes, null pointers, wrong numbers at start-up, records
 * that are no state. */
#include "lent.h"

/* A call; the buffers whose size is fixed; those that may have other sizes, and not 0; its answer in the state of `ready`. */
struct call {
    const char *name;
    uint64_t (*make)(void);
    unsigned fixed, some;
    uint64_t answer;
};

#define BIT(i) (1u << (i))

static const struct call calls[] = {
    {"start", start, BIT(RECORDS) | BIT(ARENA) | BIT(UNDO) | BIT(IDS), BIT(CODE) | BIT(HOST_ID), 0},
    {"upload", upload, BIT(RECORDS) | BIT(ARENA) | BIT(IDS), BIT(NAME) | BIT(LIST), 0},
    {"get", get, BIT(RECORDS) | BIT(GET_OUT), BIT(NAME), URDDOLWY_NOT_LOADED},
    {"list", list, BIT(RECORDS) | BIT(LIST_OUT), BIT(STATUSES) | BIT(NAMES) | BIT(LENGTHS), 0},
    {"action", action, BIT(RECORDS) | BIT(ARENA) | BIT(UNDO) | BIT(IDS) | BIT(HOST_ID), BIT(NAME), URDDOLWY_NOT_LOADED},
    {"report", report, BIT(RECORDS), 0, 0},
    {"tick", tick, BIT(RECORDS), 0, 0},
    {"work", work, BIT(RECORDS) | BIT(CODE) | BIT(UNDO), 0, 0},
    {"top_build_id", top_build_id, BIT(RECORDS) | BIT(HOST_ID) | BIT(IDS) | BIT(TOP_OUT), 0, 0},
};

enum { CALLS = sizeof calls / sizeof calls[0] };

/* ---- sizes */

static void with_length(const struct call *c, int i, uint8_t *at, size_t len, const char *what)
{
    struct buffer right = lent[i];
    char words[64];
    lent[i].at = at;
    lent[i].len = len;
    snprintf(words, sizeof words, "%s %s", right.name, what);
    refused(c->name, words, c->make, URDDOLWY_INVALID);
    lent[i] = right;
}

static void sizes(void)
{
    for (const struct call *c = calls; c < calls + CALLS; c++) {
        ready();
        for (int i = 0; i < BUFFERS; i++) {
            if ((c->fixed | c->some) & BIT(i))
                with_length(c, i, NULL, 0, "of no byte");
            if (c->fixed & BIT(i)) {
                with_length(c, i, lent[i].at, lent[i].size - 1, "too short");
                with_length(c, i, lent[i].at, lent[i].size + 1, "too long");
            }
        }
        expect(c->name, c->make(), c->answer); /* with all sizes right */
    }
    ready();
    lent[OBJECT].at = NULL;
    lent[OBJECT].len = 0;
    refused("upload", "no file", upload, URDDOLWY_BAD_HEADER);
}

/* Buffers of a list that have room for nr entries and less, and none at all. */
static void list_room(void)
{
    static const int buffers[3] = {STATUSES, NAMES, LENGTHS};
    ready();
    for (int i = 0; i < 3; i++)
        with_length(&calls[3], buffers[i], lent[buffers[i]].at, lent[buffers[i]].size - 1, "too short");
    idx = 2;
    refused("list", "idx over the count", list, URDDOLWY_INVALID);
    nr = 9;
    refused("list", "nr over 8 and idx over the count", list, URDDOLWY_TOO_MANY);
    idx = 1, nr = 0;
    for (int i = 0; i < 3; i++) {
        lent[buffers[i]].at = NULL;
        lent[buffers[i]].len = 0;
    }
    expect("list of none into no buffers", list(), 0);
    expect("list of none: the numbers", memcmp(lent[LIST_OUT].at, "\0\0\0\0\0\0\0\0\x01\0\0\0", 12) != 0, 0);
}

/* ---- start-up */

static void start_refused(const char *what)
{
    refused("start", what, start, URDDOLWY_INVALID);
    fresh();
}

static void starts(void)
{
    static uint8_t large[URDDOLWY_TEXT_MAX + 1];
    fresh();
    cpus = 0, start_refused("no CPU");
    cpus = URDDOLWY_CPUS_MAX + 1, start_refused("65 CPUs");
    arena_base = 0, start_refused("an arena at 0");
    arena_base += 2048, start_refused("an arena at no multiple of 4,096");
    arena_base = 0 - (uint64_t)4096, start_refused("an arena past 2^64");
    arena_base = text_base - 4096, start_refused("an arena over the text");
    text_base = 0 - (uint64_t)CODE_SIZE + 1, start_refused("a text past 2^64");
    lent[HOST_ID].len = URDDOLWY_BUILD_ID_MAX + 1, start_refused("a build-id of 65 bytes");
    arena_base = text_base - URDDOLWY_ARENA_SIZE;
    lent[CODE].at = large, lent[CODE].len = sizeof large, start_refused("a text over 16,777,216 bytes");
    arena_base = text_base - URDDOLWY_ARENA_SIZE;
    lent[CODE].at = large, lent[CODE].len = sizeof large - 1;
    expect("start: a text of 16,777,216 bytes", start(), 0);
    fresh();
    text_base = 0 - (uint64_t)CODE_SIZE;
    expect("start: a text that ends at 2^64", start(), 0);
}

/* ---- records that no call returns */

static void not_a_state(const char *what)
{
    for (const struct call *c = calls + 1; c < calls + CALLS; c++)
        refused(c->name, what, c->make, URDDOLWY_INVALID);
}

static void forged(void)
{
    enum { FIRST_EDIT = PAYLOAD + EDIT, SECOND_EDIT = FIRST_EDIT + EDIT_SIZE };
    static const struct {
        const char *what;
        unsigned at, value;
    } wrong[] = {
        {"an arena at no multiple of 4,096", 16, 1},
        {"a build-id of 65 bytes", 24, 65},
        {"no CPU", 28, 0},
        {"nine payloads", 32, 9},
        {"more applied than loaded", 40, 2},
        {"an action 1", 52, 1},
        {"a job of a slot that is free", 56, 1},
        {"no tick left", 60, 0},
        {"no step left", 64, 2},
        {"a CPU held twice", 68, 2},
        {"a name without its end", PAYLOAD + 2, 'x'},
        {"a name of 2 bytes and no zero", PAYLOAD + 128, 2},
        {"slot 8", PAYLOAD + 132, 8},
        {"status 3", PAYLOAD + 136, 3},
        {"an id of no byte", PAYLOAD + 144, 0},
        {"an id of 65 bytes", PAYLOAD + 144, 65},
        {"a dependency of 65 bytes", PAYLOAD + 148, 65},
        {"no edit", PAYLOAD + EDIT_COUNT, 0},
        {"33 edits", PAYLOAD + EDIT_COUNT, 33},
        {"an edit past the text", FIRST_EDIT, 60},
        {"a jump of 6 bytes", FIRST_EDIT + 4, 6},
        {"an edit of kind 2", FIRST_EDIT + 8, 2},
        {"no-ops with a displacement", SECOND_EDIT + 12, 1},
        {"an edit of kind 2 behind the last payload", PAYLOAD + 7 * PAYLOAD_SIZE + EDIT + 31 * EDIT_SIZE + 8, 2},
    };
    fresh();
    memset(lent[RECORDS].at, 0, lent[RECORDS].len);
    not_a_state("records of zeros");
    for (unsigned i = 0; i < sizeof wrong / sizeof wrong[0]; i++) {
        ready();
        lent[RECORDS].at[wrong[i].at] = (uint8_t)wrong[i].value;
        not_a_state(wrong[i].what);
    }
    ready();
    memset(lent[RECORDS].at + 48, 0xff, 4);
    memset(lent[RECORDS].at + PAYLOAD + 140, 0xff, 4);
    set_name("p1");
    expect("get: version and last result have no range", get(), 0);
}

int main(void)
{
    expect("the size of the records", urddolwy_records_size(), URDDOLWY_RECORDS_SIZE);
    sizes();
    list_room();
    starts();
    forged();
    return closing_line();
}
