/* Functions that call each other, before and after their own place, and functions of the hypervisor. */
#include "livepatch.h"

extern int printk(const char *format, ...);
extern void *memcpy_from(void *to, const void *from, unsigned long length);
extern unsigned long jiffies;

int later(int depth);
static int calls;

APART static int counted(int by)
{
    calls += by;
    return printk("counted %d at %lu\n", calls, jiffies);
}

APART int first(int depth)
{
    if (depth == 0)
        return counted(1);
    return later(depth - 1) + first(depth / 2);
}

APART int later(int depth)
{
    char copy[16];
    memcpy_from(copy, "a string of 15.", sizeof copy);
    return counted(copy[depth & 15]) + first(depth - 1);
}

APART int tail(int depth)
{
    return later(depth + 1);
}

typedef int (*step)(int);

/* The addresses of a function here and of one outside, taken by code. */
APART step chosen(int which)
{
    return which ? first : (step)printk;
}

RECORDS = {
    {.version = 1, .name = "do_domctl", .new_addr = first, .new_size = 16, .old_size = 64},
    {.version = 1, .name = "printk", .new_addr = later, .new_size = 16, .old_size = 5},
    {.version = 1, .old_addr = (void *)0xffff82d080110000, .new_addr = tail, .new_size = 5, .old_size = 5},
    {.version = 1, .old_addr = (void *)0xffff82d080100000, .new_addr = chosen, .new_size = 5, .old_size = 4096},
};
