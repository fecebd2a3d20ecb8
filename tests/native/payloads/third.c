/* The third payload, which replaces the others: it stands on the hypervisor. The text's own `total` calls the function that its last
 * record changes, and its new code asks for two names that need not be there: `letter` is, `rounded` is not. */
#include "livepatch.h"

typedef int (*function)(int x);

extern int letter(int i) __attribute__((weak));
extern int rounded(int x) __attribute__((weak));

static function volatile wanted[] = {rounded, letter};

int third_version(void)
{
    return 4;
}

int third_scaled(int x)
{
    function found = wanted[0];
    if (found)
        return found(x);
    return wanted[1] ? x + 1 : 0;
}

RECORDS = {
    {.version = 1, .name = "version", .new_addr = third_version, .new_size = 6, .old_size = SIZE_version},
    {.version = 1, .name = "scaled", .new_addr = third_scaled, .new_size = 5, .old_size = SIZE_scaled},
};
