/* Against Debian's Xen: functions that call it and read its data. */
#include "livepatch.h"

extern void printk(const char *format, ...);
extern long get_sec(void);
extern unsigned long max_page;

APART const char *new_extra_version(void)
{
    printk("%lu pages at %ld\n", max_page, get_sec());
    return "-patched";
}

void (*const printer)(const char *, ...) = printk;

RECORDS = {
    {.version = 1, .name = "xen_extra_version", .new_addr = new_extra_version, .new_size = 16, .old_size = OLD_SIZE},
};
