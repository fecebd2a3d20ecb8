/* Several records: jumps by name and by address, a fill; calls of listed functions, data, zeroed data, tables. */
struct livepatch_func {
    const char *name;
    void *new_addr;
    void *old_addr;
    unsigned int new_size;
    unsigned int old_size;
    unsigned char version;
    unsigned char pad[31];
};

extern int printk(const char *format, ...) __attribute__((visibility("hidden")));
extern void *memcpy_from(void *to, const void *from, unsigned long length) __attribute__((visibility("hidden")));

static int calls = 3;
static char kept[200];
static const char *const words[] = {"zero", "one", "two"};

int new_domctl(int number)
{
    calls += number;
    memcpy_from(kept, words[number % 3], 4);
    return printk("domctl %d: %s\n", calls, kept);
}

int new_version(void)
{
    return calls + kept[7];
}

struct livepatch_func records[] __attribute__((__section__(".livepatch.funcs"))) = {
    {.version = 1, .name = "do_domctl", .new_addr = new_domctl, .new_size = 16, .old_size = 64},
    {.version = 1, .new_addr = 0, .old_addr = (void *)0xffff82d080110000, .new_size = 9, .old_size = 9},
    {.version = 1, .new_addr = new_version, .old_addr = (void *)0xffff82d080120000, .new_size = 7, .old_size = 5},
};
