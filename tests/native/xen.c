/* xen FOLDER TEXT_ADDRESS RODATA_ADDRESS: the example of Xen's live patching design on Debian's Xen. Its text and constants, which `run` took
 * from the image, are mapped as far from each other as they are there, and `xen_extra_version` is called: it gives the version, then
 * "Hello World", then the version again. */
#define _GNU_SOURCE
#include "host.h"

#include <stdio.h>
#include <stdlib.h>
#include <string.h>
#include <unistd.h>

static const uint64_t text_base = 0x40000000, arena_base = 0x50000000;

static const char *original;

static const char *extra_version(void)
{
    return ((const char *(*)(void))function("xen_extra_version"))();
}

static void hello(unsigned step)
{
    const char *want = step == 0 ? original : "Hello World", *got = extra_version();
    check(strcmp(got, want) == 0, "step %u: xen_extra_version() is \"%s\", and not \"%s\"", step, got, want);
}

static void no_hello(unsigned step)
{
    hello(1 - step);
}

int main(int argc, char **argv)
{
    if (argc != 4 || chdir(argv[1]) != 0)
        return 2;
    uint64_t shift = text_base - strtoull(argv[2], NULL, 16), rodata_base = strtoull(argv[3], NULL, 16) + shift;
    struct bytes rodata = read_file("xen.rodata");
    take_symbols("xen.symbols", shift);
    part("Debian's Xen");
    executable(rodata_base, rodata);
    start(text_base, read_file("xen.text"), arena_base, read_file("xen.id"));
    original = extra_version();
    check((uint64_t)original - rodata_base < rodata.len && strlen(original) > 0, "xen_extra_version() is no string of the image");
    printf("xen_extra_version() is \"%s\"\n", original);
    upload("hello", read_file("hello.payload"));
    hello(0);
    time_out(URDDOLWY_APPLY, "hello", hello);
    job(URDDOLWY_APPLY, "hello", 1, hello);
    printf("xen_extra_version() is \"%s\"\n", extra_version());
    job(URDDOLWY_REVERT, "hello", 1, no_hello);
    unload("hello");
    expect_original();
    expect_empty();
    hello(0);
    return closing_line();
}
