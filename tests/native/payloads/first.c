/* The first payload: a function by name; one by address, whose new code calls back into the text; no-ops in the place of an
 * instruction. */
#include "livepatch.h"

extern int scaled(int x);

int first_version(void)
{
    return 2;
}

int first_total(int n)
{
    return 1000 + scaled(n);
}

RECORDS = {
    {.version = 1, .name = "version", .new_addr = first_version, .new_size = 6, .old_size = SIZE_version},
    {.version = 1, .old_addr = (void *)AT_total, .new_addr = first_total, .new_size = 5, .old_size = SIZE_total},
    {.version = 1, .name = "denied", .new_size = SIZE_denied, .old_size = SIZE_denied},
};
