/* The second payload, which stands on the first: constants, data with a pointer, zeroed data. Its first record is for a function that the
 * first payload changes too. */
#include "livepatch.h"

static const char letters[] = "livepatch";
static const char *volatile chosen = letters;
static volatile int base = 100;
static volatile int calls;

int second_version(void)
{
    return 3;
}

int second_letter(int i)
{
    return chosen[i];
}

int second_count(void)
{
    calls++;
    return base + calls;
}

RECORDS = {
    {.version = 1, .name = "version", .new_addr = second_version, .new_size = 6, .old_size = SIZE_version},
    {.version = 1, .name = "letter", .new_addr = second_letter, .new_size = 5, .old_size = SIZE_letter},
    {.version = 1, .name = "count", .new_addr = second_count, .new_size = 5, .old_size = SIZE_count},
};
