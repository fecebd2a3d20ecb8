/* prepare PAYLOAD SYMBOLS TEXT_BASE TEXT_LEN SLOT_BASE: what the payload would place and change, or why it is refused and where.
 * The numbers are hexadecimal. Exit status 1 where it is refused, 2 where an argument is missing, no number or no file.
 *
 *   ./build
 *   cc -Iinclude examples/prepare.c target/lib/liburddolwy.a -o target/prepare
 */
#include "common.h"

#include <ctype.h>

static const char *const arguments[] = {"prepare", "PAYLOAD", "SYMBOLS", "TEXT_BASE", "TEXT_LEN", "SLOT_BASE"};

/* An argument as a hexadecimal number of 64 bits; where it is none, says so and ends with status 2. */
static uint64_t hexadecimal(char **argv, int index)
{
    char *end;
    errno = 0;
    unsigned long long x = strtoull(argv[index], &end, 16);
    /* strtoull also takes spaces and signs before a number */
    if (!isxdigit((unsigned char)argv[index][0]) || *end != '\0' || errno != 0) {
        fprintf(stderr, "prepare: %s is '%s', which is no hexadecimal number of 64 bits\n", arguments[index], argv[index]);
        exit(2);
    }
    return x;
}

static void print_line(const char *what, const uint8_t *at, uint64_t n)
{
    printf("%s", what);
    print_hex(stdout, (struct bytes){at, (size_t)n});
    printf("\n");
}

static void print_accepted(const uint8_t *edits, const uint8_t *summary)
{
    unsigned count = (unsigned)little(summary + 4, 4);
    printf("accepted: %u bytes placed, %u edit%s\n", (unsigned)little(summary, 4), count, count == 1 ? "" : "s");
    print_line("id", summary + 16, little(summary + 8, 4));
    print_line("depends on", summary + 16 + URDDOLWY_BUILD_ID_MAX, little(summary + 12, 4));
    for (unsigned i = 0; i < count; i++) {
        const uint8_t *e = edits + i * URDDOLWY_EDIT_SIZE;
        printf("edit at %llx", (unsigned long long)little(e, 8));
        print_line(":", e + 12, little(e + 8, 4));
    }
}

int main(int argc, char **argv)
{
    static uint8_t image[URDDOLWY_IMAGE_SIZE];
    static uint8_t edits[URDDOLWY_EDITS * URDDOLWY_EDIT_SIZE];
    static uint8_t summary[URDDOLWY_SUMMARY_SIZE];
    if (argc != 6) {
        fprintf(stderr, "usage: prepare PAYLOAD SYMBOLS TEXT_BASE TEXT_LEN SLOT_BASE\n");
        return 2;
    }
    uint64_t text_base = hexadecimal(argv, 3), text_len = hexadecimal(argv, 4), slot_base = hexadecimal(argv, 5);
    struct bytes file = read_file(argv[1]), list = read_file(argv[2]);
    uint64_t answer = urddolwy_prepare(file.at, file.len, list.at, list.len, text_base, text_len, slot_base, image, sizeof image,
                                       edits, sizeof edits, summary, sizeof summary);
    if (answer == 0)
        print_accepted(edits, summary);
    else
        print_why(stdout, file, list, argv[2], answer);
    return answer != 0;
}
