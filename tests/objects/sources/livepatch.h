/* What every payload here includes. */
#pragma GCC visibility push(hidden)

/* A function record: 64 bytes. */
struct livepatch_func {
    const char *name;
    const void *new_addr;
    const void *old_addr;
    unsigned int new_size;
    unsigned int old_size;
    unsigned char version;
    unsigned char opaque[31];
};
_Static_assert(sizeof(struct livepatch_func) == 64, "a record has 64 bytes");

#define RECORDS __attribute__((section(".livepatch.funcs"), used)) static struct livepatch_func records[]
#define APART __attribute__((noinline, noclone, used))
