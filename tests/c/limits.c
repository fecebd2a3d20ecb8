/* The limits of the header, held against the library: their numbers, the sizes that follow from them, and payloads with the most records,
 * the longest ids and the longest file, which are accepted, while one more is refused. calls.c has what is refused of start-up's numbers
 * and of the buffers that the loader's calls are lent. */
#include "lent.h"

/* The longest file of a payload. */
enum { FILE_MAX = 32768 };

static void numbers(void)
{
    expect("function records", URDDOLWY_EDITS, 32);
    expect("bytes of an id", URDDOLWY_BUILD_ID_MAX, 64);
    expect("bytes of a slot", URDDOLWY_IMAGE_SIZE, 8192);
    expect("bytes of a name", URDDOLWY_NAME_SIZE, 128);
    expect("bytes of the text", URDDOLWY_TEXT_MAX, 16777216);
    expect("payloads", URDDOLWY_PAYLOADS, 8);
    expect("CPUs", URDDOLWY_CPUS_MAX, 64);
    expect("bytes of the edits", URDDOLWY_EDITS * URDDOLWY_EDIT_SIZE, 1536);
    expect("bytes of the summary", URDDOLWY_SUMMARY_SIZE, 144);
    expect("bytes of the arena", URDDOLWY_ARENA_SIZE, 65536);
    expect("bytes of the undo store", URDDOLWY_UNDO_SIZE, 7936);
    expect("bytes of the id store", URDDOLWY_IDS_SIZE, 512);
    expect("bytes of the records", URDDOLWY_RECORDS_SIZE, 7044);
    expect("bytes of a payload in the records", (URDDOLWY_RECORDS_SIZE - PAYLOAD) / URDDOLWY_PAYLOADS, PAYLOAD_SIZE);
    expect("the edits end a payload in the records", EDIT + URDDOLWY_EDITS * EDIT_SIZE, PAYLOAD_SIZE);
}

/* ---- a text of 32 functions, and payloads that change them all */

enum { FUNCTION_SIZE = 16, JUMP = 5, NO_OPS = 9, LAST = URDDOLWY_EDITS - 1 };

static char names[URDDOLWY_EDITS][4];
static uint8_t text[URDDOLWY_EDITS * FUNCTION_SIZE], original[sizeof text], symbols[7 + URDDOLWY_EDITS * (8 + 1 + 3)];
static uint8_t host_id[URDDOLWY_BUILD_ID_MAX + 1], file[FILE_MAX + 1];

static void lend(int buffer, uint8_t *at, size_t len)
{
    lent[buffer].at = at;
    lent[buffer].len = len;
}

/* The functions f00 to f31, one after the other, and the symbol list with them. */
static void set_text(void)
{
    uint8_t *entry = symbols + 7;
    memcpy(symbols, "\0\0\x01\x83\x01\0\x20", 7);
    for (unsigned i = 0; i < URDDOLWY_EDITS; i++, entry += 8 + 1 + 3) {
        uint64_t address = text_base + i * FUNCTION_SIZE;
        snprintf(names[i], sizeof names[i], "f%02u", i);
        for (int byte = 0; byte < 8; byte++)
            entry[byte] = (uint8_t)(address >> (56 - 8 * byte));
        entry[8] = 3;
        memcpy(entry + 9, names[i], 3);
    }
    for (size_t i = 0; i < sizeof text; i++)
        text[i] = original[i] = (uint8_t)(i + i / 256);
}

/* Starts on a host with the longest build-id and the most CPUs. */
static void full_host(void)
{
    fresh();
    set_text();
    memset(host_id, 'h', sizeof host_id);
    lend(CODE, text, sizeof text);
    lend(LIST, symbols, sizeof symbols);
    lend(HOST_ID, host_id, URDDOLWY_BUILD_ID_MAX);
    cpus = URDDOLWY_CPUS_MAX;
    expect("start: a build-id of 64 bytes and 64 CPUs", start(), 0);
}

/* Gives a note section of the file an id, `len` times the same byte, in a note at the file's end. */
static void set_id(unsigned section, int byte, unsigned len)
{
    uint8_t *header = file + little(file + 40, 8) + 64 * section, *note = file + lent[OBJECT].len;
    unsigned size = (16 + len + 3) / 4 * 4;
    memset(note, 0, size);
    memcpy(note, "\x04\0\0\0\0\0\0\0\x03\0\0\0GNU", 16);
    note[4] = (uint8_t)len;
    memset(note + 16, byte, len);
    header[24] = (uint8_t)lent[OBJECT].len;
    header[25] = (uint8_t)(lent[OBJECT].len >> 8);
    header[32] = (uint8_t)size;
    lent[OBJECT].len += size;
}

/* The payload of a slot, with its name: jumps and no-ops in turn, ids of so many bytes. The first and the last depend on the hypervisor,
 * the others each on the one before. */
static void set_full_payload(int slot, unsigned id_len, unsigned depends_len)
{
    static const uint8_t code[6] = "\xb8\x02\0\0\0\xc3";
    const char name[3] = {'p', (char)('0' + slot), 0};
    struct patch patch = {{0}, {0}, URDDOLWY_EDITS, {{NULL, 0, NULL, 0}}};
    for (unsigned i = 0; i < URDDOLWY_EDITS; i++)
        patch.changes[i] = i % 2 == 0 ? (struct change){names[i], FUNCTION_SIZE, code, sizeof code}
                                      : (struct change){names[i], FUNCTION_SIZE, NULL, NO_OPS};
    lend(OBJECT, file, make_payload(file, &patch));
    set_id(BUILD_ID, 'a' + slot, id_len);
    set_id(DEPENDS, slot % 7 == 0 ? 'h' : 'a' + slot - 1, depends_len);
    set_name(name);
}

/* ---- upload: the most is accepted, one more is refused */

static void file_refused(const char *what, uint64_t want)
{
    expect(what, urddolwy_check_file(file, lent[OBJECT].len), want);
    refused("upload", what, upload, want);
}

static void uploads(void)
{
    const uint64_t invalid = URDDOLWY_INVALID | URDDOLWY_SECTION << 8;
    full_host();
    set_full_payload(0, 65, 64);
    file_refused("an id of 65 bytes", invalid | BUILD_ID << 16);
    set_full_payload(0, 64, 65);
    file_refused("a dependency of 65 bytes", invalid | DEPENDS << 16);
    set_full_payload(0, 64, 64);
    uint8_t *size = file + little(file + 40, 8) + 64 * FUNCS + 32;
    expect("32 records", little(size, 8), 64 * 32);
    size[0] = 64;
    file_refused("33 records", invalid | FUNCS << 16);
    size[0] = 0;
    memset(file + lent[OBJECT].len, 0, sizeof file - lent[OBJECT].len);
    lent[OBJECT].len = FILE_MAX + 1;
    file_refused("a file of 32,769 bytes", URDDOLWY_BAD_HEADER);
    lent[OBJECT].len = FILE_MAX;
    expect("a file of 32,768 bytes", urddolwy_check_file(file, FILE_MAX), 0);
    expect("upload: 32 records, ids of 64 bytes, a file of 32,768 bytes", upload(), 0);
}

/* ---- the buffers of a preparation */

static struct {
    uint8_t image[URDDOLWY_IMAGE_SIZE + 1], edits[URDDOLWY_EDITS * URDDOLWY_EDIT_SIZE + 1], summary[URDDOLWY_SUMMARY_SIZE + 1];
} out, out_before;

static const size_t out_sizes[3] = {sizeof out.image - 1, sizeof out.edits - 1, sizeof out.summary - 1};

static uint64_t prepare(const size_t sizes[3])
{
    memset(&out, FILLED, sizeof out);
    out_before = out;
    return urddolwy_prepare(LENT(OBJECT), LENT(LIST), text_base, sizeof text, arena_base, out.image, sizes[0], out.edits, sizes[1],
                            out.summary, sizes[2]);
}

static void prepare_refused(int buffer, size_t size)
{
    static const char *const buffers[3] = {"image", "edits", "summary"};
    char words[64];
    size_t sizes[3] = {out_sizes[0], out_sizes[1], out_sizes[2]};
    snprintf(words, sizeof words, "prepare: %s of %zu bytes", buffers[buffer], size);
    sizes[buffer] = size;
    expect(words, prepare(sizes), URDDOLWY_INVALID);
    expect("prepare: a byte was changed", memcmp(&out, &out_before, sizeof out) != 0, 0);
}

static void prepares(void)
{
    full_host();
    set_full_payload(0, 64, 64);
    for (int i = 0; i < 3; i++) {
        prepare_refused(i, out_sizes[i] - 1);
        prepare_refused(i, out_sizes[i] + 1);
    }
    expect("prepare", prepare(out_sizes), 0);
    const uint8_t *last = out.edits + LAST * URDDOLWY_EDIT_SIZE, *summary = out.summary;
    expect("the last edit's address", little(last, 8), text_base + LAST * FUNCTION_SIZE);
    expect("its length", little(last + 8, 4), NO_OPS);
    expect("its last byte, and one behind it", little(last + 12 + NO_OPS - 1, 2), 0x90);
    expect("the end of the edits", little(out.edits + out_sizes[1] - 1, 2), FILLED << 8);
    expect("edits and lengths of the ids", memcmp(summary + 4, "\x20\0\0\0\x40\0\0\0\x40\0\0", 12) != 0, 0);
    for (int i = 0; i < URDDOLWY_BUILD_ID_MAX; i++)
        expect("the ids in the summary", summary[16 + i] == 'a' && summary[80 + i] == 'h', 1);
    expect("the byte behind the summary", summary[out_sizes[2]], FILLED);
}

/* ---- eight such payloads: records and stores are full, and a replace has 256 steps */

/* Works the job of the payload that is named to its end, which gives it this status. */
static void job(uint32_t what, unsigned steps, unsigned status)
{
    command = what;
    expect("action", action(), 0);
    for (cpu = 0; cpu < URDDOLWY_CPUS_MAX; cpu++)
        expect("report", report(), 0);
    expect("tick", tick(), 0);
    for (unsigned i = 0; i < steps; i++) {
        expect("get", get(), 0);
        same("the job is under way", GET_OUT, 4, "\xf5\xff\xff\xff", 4);
        expect("work", work(), 0);
    }
    refused("work", "no job", work, URDDOLWY_INVALID);
    expect("get", get(), 0);
    expect("its status and result", little(lent[GET_OUT].at, 8), status);
}

/* What the eighth payload leaves in records and id store: their last bytes. */
static void last_records(void)
{
    const unsigned payload = PAYLOAD + 7 * PAYLOAD_SIZE, edit = payload + EDIT + LAST * EDIT_SIZE;
    uint8_t id[URDDOLWY_BUILD_ID_MAX];
    field("length of its id", payload + 144, 4, URDDOLWY_BUILD_ID_MAX);
    field("length of its dependency", payload + 148, 4, URDDOLWY_BUILD_ID_MAX);
    same("its dependency", RECORDS, payload + DEPENDENCY, host_id, URDDOLWY_BUILD_ID_MAX);
    field("its edits", payload + EDIT_COUNT, 4, URDDOLWY_EDITS);
    field("offset of the last edit", edit, 4, LAST * FUNCTION_SIZE);
    field("its length", edit + 4, 4, NO_OPS);
    expect("its end", edit + EDIT_SIZE, URDDOLWY_RECORDS_SIZE);
    memset(id, 'a' + 7, sizeof id);
    same("the id store", IDS, 7 * URDDOLWY_BUILD_ID_MAX, id, sizeof id);
}

/* The bytes that the eighth payload's edits cover, 31 bytes each, end the undo store; nothing else is in it. */
static void last_undo(void)
{
    expect("edits of the others are saved", all_zero(UNDO, 0, 31 * URDDOLWY_EDITS * 7), 1);
    for (unsigned i = 0; i < URDDOLWY_EDITS; i++) {
        uint8_t saved[31] = {0};
        memcpy(saved, original + i * FUNCTION_SIZE, i % 2 == 0 ? JUMP : NO_OPS);
        same("the bytes that an edit covers", UNDO, 31 * (URDDOLWY_EDITS * 7 + i), saved, sizeof saved);
    }
}

static void eight(void)
{
    full_host();
    for (int slot = 0; slot < URDDOLWY_PAYLOADS; slot++) {
        set_full_payload(slot, 64, 64);
        expect("upload", upload(), 0);
    }
    last_records();
    set_name("p8");
    refused("upload", "a ninth payload", upload, URDDOLWY_NO_ROOM);
    for (int slot = 0; slot < URDDOLWY_PAYLOADS - 1; slot++) {
        set_full_payload(slot, 64, 64);
        job(URDDOLWY_APPLY, 32, URDDOLWY_APPLIED);
    }
    set_name("p7");
    job(URDDOLWY_REPLACE, 256, URDDOLWY_APPLIED);
    last_undo();
    expect("top build-id", top_build_id(), 0);
    same("top build-id: the id store from 448 on, 64 bytes", TOP_OUT, 0, "\x01\0\0\0\xc0\x01\0\0\x40\0\0\0", 12);
    expect("list", list(), 0);
    same("listed", LIST_OUT, 0, "\x08\0\0\0\0\0\0\0\x08\0\0\0", 12);
    job(URDDOLWY_REVERT, 32, URDDOLWY_CHECKED);
    expect("the text is another", memcmp(text, original, sizeof text) != 0, 0);
    expect("the undo store is not zero", all_zero(UNDO, 0, URDDOLWY_UNDO_SIZE), 1);
}

int main(void)
{
    numbers();
    uploads();
    prepares();
    eight();
    return closing_line();
}
