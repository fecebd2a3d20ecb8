/* The C boundary, called from C: known answers, and that nothing is read past what is given. */
#include "expect.h"
#include "urddolwy.h"

#include <stdlib.h>
#include <string.h>

/* The bytes in a block of just their size, so that a checker of memory sees a read past them. */
static uint8_t *exact(const void *bytes, size_t n)
{
    uint8_t *block = malloc(n ? n : 1);
    if (block == NULL)
        exit(2);
    memcpy(block, bytes, n);
    return block;
}

static uint64_t list_answer(const void *bytes, size_t n)
{
    uint8_t *list = exact(bytes, n);
    uint64_t answer = urddolwy_check_symbols(list, n);
    free(list);
    return answer;
}

static uint64_t file_answer(const void *bytes, size_t n)
{
    uint8_t *file = exact(bytes, n);
    uint64_t answer = urddolwy_check_file(file, n);
    free(file);
    return answer;
}

/* The list of one name that document 01 gives, 33 bytes. */
static const uint8_t example[] = "\x00\x00\x00\x1d\x01\x00\x01\xff\xff\x82\xd0\x80\x13\x96\x3c\x11xen_extra_version";

static void lists(void)
{
    uint8_t other[33];
    expect("the example list", list_answer(example, 33), 0);
    for (size_t n = 0; n < 33; n++)
        expect("a list cut short", list_answer(example, n), 22);
    memcpy(other, example, 33);
    other[4] = 2;
    expect("a list of version 2", list_answer(other, 33), 22);
    expect("the empty list", list_answer("\x00\x00\x00\x03\x01\x00\x00", 7), 0);
}

/* A header that is right, with one section of type 0 behind it. */
static void smallest(uint8_t file[128])
{
    static const uint8_t front[24] = "\x7f" "ELF\x02\x01\x01\0\0\0\0\0\0\0\0\0\x01\0\x3e\0\x01\0\0";
    memset(file, 0, 128);
    memcpy(file, front, 24);
    file[40] = 64;
    file[58] = 64;
    file[60] = 1;
}

static void files(void)
{
    uint8_t file[128];
    smallest(file);
    for (size_t n = 0; n < 128; n++)
        expect("a file cut short", file_answer(file, n), 8);
    expect("a name table of type 0", file_answer(file, 128), 22);
    file[64 + 4] = 3;
    expect("section 0 of type 3", file_answer(file, 128), 22 + (1u << 8));
    file[18] = 0xb7;
    expect("another machine", file_answer(file, 128), 8);
}

struct buffers {
    uint8_t image[URDDOLWY_IMAGE_SIZE];
    uint8_t edits[URDDOLWY_EDITS * URDDOLWY_EDIT_SIZE];
    uint8_t summary[URDDOLWY_SUMMARY_SIZE];
};

/* One refused preparation: its answer, and that no buffer was written. */
static void refused(const char *what, const uint8_t *file, size_t n, size_t list_len, uint64_t text_len, uint64_t slot_base,
                    size_t image_len, uint64_t want)
{
    struct buffers b, before;
    memset(&b, 0xa5, sizeof b);
    before = b;
    expect(what,
           urddolwy_prepare(file, n, example, list_len, 0xffff82d080000000, text_len, slot_base, b.image, image_len, b.edits,
                            sizeof b.edits, b.summary, sizeof b.summary),
           want);
    expect("the buffers of a refusal", (uint64_t)memcmp(&b, &before, sizeof b), 0);
}

static void preparations(void)
{
    const uint64_t text = 16777216, slot = 0xffff82d0a0000000;
    uint8_t file[128];
    smallest(file);
    refused("a name table of type 0", file, 128, 33, text, slot, URDDOLWY_IMAGE_SIZE, 22);
    refused("a short file", file, 63, 33, text, slot, URDDOLWY_IMAGE_SIZE, 8);
    refused("no symbol list", file, 63, 32, text, slot, URDDOLWY_IMAGE_SIZE, 22);
    refused("no text", file, 63, 33, 0, slot, URDDOLWY_IMAGE_SIZE, 22);
    refused("a text too long", file, 63, 33, text + 1, slot, URDDOLWY_IMAGE_SIZE, 22);
    refused("a slot at 0", file, 63, 33, text, 0, URDDOLWY_IMAGE_SIZE, 22);
    refused("a slot past the last address", file, 63, 33, text, UINT64_MAX - 8190, URDDOLWY_IMAGE_SIZE, 22);
    refused("a slot at no multiple of 4,096", file, 63, 33, text, slot + 2048, URDDOLWY_IMAGE_SIZE, 22);
    refused("a slot over the text's last bytes", file, 63, 33, text, 0xffff82d080fff000, URDDOLWY_IMAGE_SIZE, 22);
    refused("a slot over the text's first bytes", file, 63, 33, text, 0xffff82d07ffff000, URDDOLWY_IMAGE_SIZE, 22);
    refused("a slot right behind the text", file, 63, 33, text, 0xffff82d081000000, URDDOLWY_IMAGE_SIZE, 8);
    refused("a slot right before the text", file, 63, 33, text, 0xffff82d07fffe000, URDDOLWY_IMAGE_SIZE, 8);
    refused("the last slot", file, 63, 33, text, UINT64_MAX - 8191, URDDOLWY_IMAGE_SIZE, 8);
    refused("an image too short", file, 63, 33, text, slot, URDDOLWY_IMAGE_SIZE - 1, 22);
}

int main(void)
{
    lists();
    files();
    preparations();
    expect("the number", URDDOLWY_NUMBER(34 + 512 + (5u << 16) + (7ull << 32)), 34);
    expect("the entry", URDDOLWY_SECOND(34 + 512 + (5u << 16) + (7ull << 32)), 7);
    return closing_line();
}
