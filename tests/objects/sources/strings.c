/* Strings of which a linker would keep one: the same in both objects, and ends of others. */
#include "livepatch.h"

extern const char *other(int which);

APART const char *word(int which)
{
    switch (which) {
    case 0: return "Hello World";
    case 1: return "World";
    case 2: return "";
    case 3: return "the same in both";
    case 4: return "both";
    default: return other(which);
    }
}

const char *const words[] = {"Hello World", "o World", "the same in both", "only here"};

RECORDS = {
    {.version = 1, .name = "xen_extra_version", .new_addr = word, .new_size = 16, .old_size = 13},
    {.version = 1, .name = "do_domctl", .new_addr = other, .new_size = 16, .old_size = 13},
};
