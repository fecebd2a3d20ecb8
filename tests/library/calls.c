/* calls PAYLOAD BOUND BOUND BOUND: calls the functions for payload authors, urddolwy_check_symbols, urddolwy_check_file and
 * urddolwy_prepare, as harness.h has it. */
#define _GNU_SOURCE
#include "urddolwy.h"

struct buffers {
    uint8_t image[URDDOLWY_IMAGE_SIZE];
    uint8_t edits[URDDOLWY_EDITS * URDDOLWY_EDIT_SIZE];
    uint8_t summary[URDDOLWY_SUMMARY_SIZE];
};

#include "harness.h"

static struct function functions[] = {
    {"urddolwy_check_symbols", (void (*)(void))urddolwy_check_symbols, 0, URDDOLWY_CHECK_SYMBOLS_STACK, 0, 0},
    {"urddolwy_check_file", (void (*)(void))urddolwy_check_file, 0, URDDOLWY_CHECK_FILE_STACK, 0, 0},
    {"urddolwy_prepare", (void (*)(void))urddolwy_prepare, 56, URDDOLWY_PREPARE_STACK, 0, 0},
};

struct input {
    const uint8_t *file;
    size_t file_len;
    const uint8_t *list;
    size_t list_len;
    uint64_t text_base, text_len, slot_base;
    size_t image_len;
};

static void check_symbols(const char *what, const struct input *in, uint64_t want)
{
    uint64_t arguments[ARGUMENTS] = {(uintptr_t)in->list, in->list_len};
    buffers = initial;
    same(&functions[0], what, arguments, urddolwy_check_symbols(in->list, in->list_len), want);
}

static void check_file(const char *what, const struct input *in, uint64_t want)
{
    uint64_t arguments[ARGUMENTS] = {(uintptr_t)in->file, in->file_len};
    buffers = initial;
    same(&functions[1], what, arguments, urddolwy_check_file(in->file, in->file_len), want);
}

static void prepare(const char *what, const struct input *in, uint64_t want)
{
    uint64_t arguments[ARGUMENTS] = {
        (uintptr_t)in->file, in->file_len, (uintptr_t)in->list, in->list_len, in->text_base, in->text_len, in->slot_base,
        (uintptr_t)buffers.image, in->image_len,
        (uintptr_t)buffers.edits, sizeof buffers.edits,
        (uintptr_t)buffers.summary, sizeof buffers.summary};
    uint64_t got;
    buffers = initial;
    got = urddolwy_prepare(in->file, in->file_len, in->list, in->list_len, in->text_base, in->text_len, in->slot_base,
                           buffers.image, in->image_len, buffers.edits, sizeof buffers.edits, buffers.summary, sizeof buffers.summary);
    same(&functions[2], what, arguments, got, want);
}

/* ---- the inputs */

/* The same without printk. */
static const uint8_t short_list[] = "\x00\x00\x00\x1d\x01\x00\x01\xff\xff\x82\xd0\x80\x13\x96\x3c\x11xen_extra_version";

enum { SHORT_LIST = sizeof short_list - 1 };

static uint64_t little(const uint8_t *at, int n)
{
    uint64_t x = 0;
    while (n-- > 0)
        x = x << 8 | at[n];
    return x;
}

/* The first section of a type, and its header. */
static unsigned section(uint8_t *file, unsigned type, uint8_t **header)
{
    unsigned i = 0, count = (unsigned)little(file + 60, 2);
    for (*header = file + little(file + 40, 8); i < count && little(*header + 4, 4) != type; i++)
        *header += 64;
    if (i == count) {
        printf("calls: the payload has no section of type %u\n", type);
        exit(2);
    }
    return i;
}

static struct input whole(const uint8_t *file, size_t n)
{
    struct input in = {file, n, list, LIST, 0xffff82d080000000, 16777216, 0xffff82d0a0000000, URDDOLWY_IMAGE_SIZE};
    return in;
}

static void accepted(const uint8_t *file, size_t n)
{
    static const uint8_t printk[21] = "\xb9\xfb\x15\x80\xd0\x82\xff\xff\x09\0\0\0\x90\x90\x90\x90\x90\x90\x90\x90\x90";
    static uint8_t both[FILE_MAX];
    struct input in = whole(file, n);
    check_symbols("accepted", &in, 0);
    check_file("accepted", &in, 0);
    prepare("accepted", &in, 0);
    expect("urddolwy_prepare", "accepted", "the number of edits", little(wanted.summary + 4, 4), URDDOLWY_EDITS);
    expect("urddolwy_prepare", "accepted", "the second edit differs",
           memcmp(wanted.edits + URDDOLWY_EDIT_SIZE, printk, sizeof printk) != 0, 0);

    /* the list as a part of the file */
    memcpy(both, file, n);
    memcpy(both + n, list, LIST);
    in.file = both;
    in.file_len = n + LIST;
    in.list = both + n;
    prepare("file and list overlap", &in, 0);
}

static void refused(const uint8_t *file, size_t n)
{
    struct input in = whole(file, n);
    in.list_len = LIST - 1;
    check_symbols("a list cut short", &in, nowhere(URDDOLWY_INVALID));
    prepare("a list cut short", &in, nowhere(URDDOLWY_INVALID));

    in = whole(file, n);
    in.image_len = URDDOLWY_IMAGE_SIZE - 1;
    prepare("an image too short", &in, nowhere(URDDOLWY_INVALID));

    in = whole(file, 63);
    check_file("a file cut short", &in, nowhere(URDDOLWY_BAD_HEADER));
    prepare("a file cut short", &in, nowhere(URDDOLWY_BAD_HEADER));

    in = whole(file, n);
    in.list = short_list;
    in.list_len = SHORT_LIST;
    prepare("a name that is not listed", &in, refusal(URDDOLWY_NOT_LISTED, URDDOLWY_RELOCATION, 2, 1));

    in = whole(file, n);
    in.slot_base = 4096;
    prepare("a slot too far", &in, refusal(URDDOLWY_OUT_OF_RANGE, URDDOLWY_RELOCATION, 2, 1));

    in = whole(file, n);
    in.text_len--;
    prepare("a function past the text", &in, refusal(URDDOLWY_INVALID, URDDOLWY_RECORD, 2, 0));
}

/* One byte changed in the header of the first section of a type, which is then refused: by the file alone, or later. */
static void changed(const char *what, const uint8_t *file, size_t n, unsigned type, int field, uint8_t value,
                    enum urddolwy_reason number, int by_file)
{
    static uint8_t other[FILE_MAX];
    uint8_t *header;
    struct input in = whole(other, n);
    uint64_t want;
    memcpy(other, file, n);
    want = refusal(number, URDDOLWY_SECTION, section(other, type, &header), 0);
    header[field] = value;
    check_file(what, &in, by_file ? want : 0);
    prepare(what, &in, want);
}

/* Lengths of 0 with null pointers. */
static void nulls(const uint8_t *file, size_t n)
{
    struct input in = whole(NULL, 0);
    check_file("no file", &in, nowhere(URDDOLWY_BAD_HEADER));
    prepare("no file", &in, nowhere(URDDOLWY_BAD_HEADER));
    in.list = NULL;
    in.list_len = 0;
    check_symbols("no list", &in, nowhere(URDDOLWY_INVALID));
    prepare("no file and no list", &in, nowhere(URDDOLWY_INVALID));
    in.file = file;
    in.file_len = n;
    prepare("no list", &in, nowhere(URDDOLWY_INVALID));
    in = whole(file, n);
    expect("urddolwy_prepare", "no buffers", "the answer",
           urddolwy_prepare(file, n, list, LIST, in.text_base, in.text_len, in.slot_base, NULL, 0, NULL, 0, NULL, 0),
           nowhere(URDDOLWY_INVALID));
}

int main(int argc, char **argv)
{
    take(argc, argv, functions, 3);
    memset(&initial, 0xa5, sizeof initial);
    accepted(file, file_len);
    refused(file, file_len);
    changed("an alignment of 3", file, file_len, 8, 48, 3, URDDOLWY_INVALID, 1);
    changed("an entry size of 25", file, file_len, 4, 56, 25, URDDOLWY_INVALID, 1);
    changed("a section of unknown type", file, file_len, 8, 4, 5, URDDOLWY_UNSUPPORTED, 1);
    changed("placed bytes over 8,192", file, file_len, 8, 33, 0x20, URDDOLWY_NO_ROOM, 0);
    nulls(file, file_len);
    stacks(functions, 3);
    return closing_line();
}
