/* Names outside that need not be there: `printk` is, the others are not. Their addresses stand in data, and code tests
 * what it reads there. */
#include "livepatch.h"

typedef int (*hook)(int event);

extern int printk(const char *format, ...) __attribute__((weak));
extern int trace_event(int event) __attribute__((weak));
extern unsigned long event_counts[4] __attribute__((weak));

static hook volatile hooks[] = {trace_event, (hook)printk};
static unsigned long *volatile counts[] = {event_counts, event_counts + 3};

APART int announced(int event)
{
    hook trace = hooks[0];
    if (counts[0])
        ++*counts[1];
    return trace ? trace(event) : -1;
}

RECORDS = {
    {.version = 1, .name = "do_domctl", .new_addr = announced, .new_size = 16, .old_size = 64},
};
