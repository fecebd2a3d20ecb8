/* The words that the examples have for a refusal, on damaged payloads: nothing outside the file is read. Each file lies next to
 * a page that cannot be read, once before it and once after it.
 *
 *   damaged PAYLOAD
 */
#define _DEFAULT_SOURCE
#include "../../examples/common.h"

#include <sys/mman.h>
#include <unistd.h>

static FILE *nowhere;
static uint8_t *pages; /* one that cannot be read, the room, one that cannot be read */
static size_t page, room;

/* A seeded generator of pseudo-random numbers (splitmix64). */
static uint64_t state = 1;
static uint64_t any(void)
{
    uint64_t mixed = state += 0x9e3779b97f4a7c15;
    mixed = (mixed ^ mixed >> 30) * 0xbf58476d1ce4e5b9;
    mixed = (mixed ^ mixed >> 27) * 0x94d049bb133111eb;
    return mixed ^ mixed >> 31;
}

/* One answer in words, with the file at the end of the room and at its front. */
static void say(const uint8_t *bytes, size_t len, uint64_t answer)
{
    uint8_t *ends[] = {pages + page + room - len, pages + page};
    for (int i = 0; i < 2; i++) {
        memcpy(ends[i], bytes, len);
        print_refusal(nowhere, (struct bytes){ends[i], len}, answer);
    }
}

/* Every number and place, with sections, entries and records that the file may or may not have. */
static void say_all(const uint8_t *bytes, size_t len)
{
    static const unsigned numbers[] = {3, 8, 12, 17, 22, 34, 95};
    for (uint64_t place = 0; place < 5; place++)
        for (uint64_t first = 0; first < 20; first++)
            say(bytes, len, numbers[any() % 6] | place << 8 | first << 16 | any() % 4 << 32);
    say(bytes, len, any());
}

/* Offsets, widths and largest values, so that many a changed number is one that nearly fits. */
static void damage(uint8_t *bytes, size_t len)
{
    static const int fields[] = {40, 58, 60, 62}, of_section[] = {0, 4, 24, 32, 40, 44, 56};
    uint64_t values[] = {0, 1, any() % 64, any() % 2048, len - any() % 64, UINT64_MAX - any() % 64, UINT64_MAX / 2, any()};
    uint64_t table = len >= 64 ? little(bytes + 40, 8) : 0;
    uint64_t at = any() % len;
    if (any() % 4 == 0)
        at = (uint64_t)fields[any() % 4];
    else if (any() % 2 == 0)
        at = table + 64 * (any() % 16) + (uint64_t)of_section[any() % 7];
    uint64_t value = values[any() % 8];
    for (unsigned i = 0, width = 1u << any() % 4; i < width; i++)
        if (at < len && i < len - at)
            bytes[at + i] = (uint8_t)(value >> 8 * i);
}

int main(int argc, char **argv)
{
    if (argc != 2)
        return 2;
    struct bytes file = read_file(argv[1]);
    page = (size_t)sysconf(_SC_PAGESIZE);
    room = (file.len / page + 1) * page;
    pages = mmap(NULL, room + 2 * page, PROT_NONE, MAP_PRIVATE | MAP_ANONYMOUS, -1, 0);
    nowhere = fopen("/dev/null", "w");
    uint8_t *copy = malloc(file.len);
    if (pages == MAP_FAILED || nowhere == NULL || copy == NULL || mprotect(pages + page, room, PROT_READ | PROT_WRITE) != 0)
        return 2;
    for (size_t len = 0; len <= file.len; len++)
        say_all(file.at, len);
    for (int i = 0; i < 4000; i++) {
        memcpy(copy, file.at, file.len);
        for (uint64_t times = 1 + any() % 6; times > 0; times--)
            damage(copy, file.len);
        say_all(copy, file.len);
    }
    /* a read outside would have ended the program: one test for the lengths, one for the damage */
    printf("2 passed, 0 failed\n");
    return 0;
}
