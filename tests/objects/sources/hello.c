/* The example of Xen's live patching design, by name, or by address where OLD_ADDRESS is given. */
#include "livepatch.h"

const char *xen_hello_world(void)
{
    return "Hello World";
}

static char patch_this_fnc[] = "xen_extra_version";

#ifndef OLD_ADDRESS
#define OLD_ADDRESS 0
#endif
#ifndef OLD_SIZE
#define OLD_SIZE 13
#endif

RECORDS = {
    {
        .version = 1,
        .name = patch_this_fnc,
        .new_addr = xen_hello_world,
        .old_addr = (void *)OLD_ADDRESS,
        .new_size = 8,
        .old_size = OLD_SIZE,
    },
};
