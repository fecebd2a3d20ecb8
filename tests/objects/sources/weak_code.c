/* The same names, their addresses in the code itself: for -mcmodel=large, without which gcc asks for a global offset table. */
#include "livepatch.h"

extern int printk(const char *format, ...) __attribute__((weak));
extern int trace_event(int event) __attribute__((weak));
extern unsigned long event_counts[4] __attribute__((weak));

APART int announced_directly(int event)
{
    if (event_counts)
        event_counts[3]++;
    if (trace_event)
        return trace_event(event);
    return printk ? printk("event %d\n", event) : -1;
}

RECORDS = {
    {.version = 1, .name = "xen_extra_version", .new_addr = announced_directly, .new_size = 16, .old_size = 64},
};
