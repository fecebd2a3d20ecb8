/* The example of the Xen design, with what makes it acceptable: the attribute before the initialiser, padding named. */
struct livepatch_func {
    const char *name;
    void *new_addr;
    void *old_addr;
    unsigned int new_size;
    unsigned int old_size;
    unsigned char version;
    unsigned char pad[31];
};

const char *xen_hello_world(void)
{
    return "Hello World";
}

static char patch_this_fnc[] = "xen_extra_version";

struct livepatch_func livepatch_hello_world __attribute__((__section__(".livepatch.funcs"))) = {
    .version = 1,
    .name = patch_this_fnc,
    .new_addr = xen_hello_world,
#ifdef BY_ADDRESS
    .old_addr = (void *)0xffff82d08013963c,
#endif
    .new_size = 5,
    .old_size = 13,
};

#ifdef MISSING
extern int missing(void) MISSING;
int (*tested)(void) = missing;
#endif

#ifdef HOOK
static void loaded(void) {}
static void *load_hook __attribute__((__section__(".livepatch.hooks.load"), used)) = loaded;
#endif
