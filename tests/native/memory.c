/* The host of the native runs: checks, files, executable memory, names. */
#define _GNU_SOURCE
#include "host.h"

#include <errno.h>
#include <stdarg.h>
#include <stdio.h>
#include <stdlib.h>
#include <string.h>
#include <sys/mman.h>

/* ---- checks */

static int passed, failed;
static const char *current = "";

void part(const char *name)
{
    current = name;
    printf("%s\n", name);
}

void check(int right, const char *what, ...)
{
    va_list words;
    if (right) {
        passed++;
        return;
    }
    failed++;
    printf("FAILED: %s: ", current);
    va_start(words, what);
    vprintf(what, words);
    va_end(words);
    printf("\n");
}

void expect(const char *what, uint64_t got, uint64_t want)
{
    check(got == want, "%s: 0x%llx, and not 0x%llx", what, (unsigned long long)got, (unsigned long long)want);
}

int closing_line(void)
{
    printf("%d passed, %d failed\n", passed, failed);
    return failed != 0;
}

/* ---- memory */

static void give_up(const char *what)
{
    printf("%s: %s\n", what, strerror(errno));
    exit(2);
}

struct bytes read_file(const char *name)
{
    FILE *f = fopen(name, "rb");
    if (f == NULL || fseek(f, 0, SEEK_END) != 0)
        give_up(name);
    long end = ftell(f);
    struct bytes file = {malloc((size_t)end + 1), (size_t)end};
    rewind(f);
    if (file.at == NULL || fread(file.at, 1, file.len, f) != file.len)
        give_up(name);
    fclose(f);
    file.at[file.len] = 0;
    return file;
}

uint8_t *executable(uint64_t address, struct bytes contents)
{
    uint64_t start = address & ~(uint64_t)4095;
    void *at = mmap((void *)start, address - start + contents.len, PROT_READ | PROT_WRITE | PROT_EXEC,
                    MAP_PRIVATE | MAP_ANONYMOUS | MAP_FIXED_NOREPLACE, -1, 0);
    if (at == MAP_FAILED && (errno == EACCES || errno == EPERM)) {
        printf("no executable memory: %s\n", strerror(errno));
        exit(77);
    }
    if (at != (void *)start)
        give_up("mmap");
    memcpy((void *)address, contents.at, contents.len);
    return (uint8_t *)address;
}

/* ---- names */

static struct {
    struct bytes list; /* as the loader takes it */
    struct {
        char name[128];
        uint64_t address;
    } at[65535];
    unsigned count;
} names;

static void big_endian(uint8_t *to, uint64_t x, int n)
{
    while (n-- > 0) {
        to[n] = (uint8_t)x;
        x >>= 8;
    }
}

/* The list: a count of what follows, version 1, the number of entries; each is an address, the length of a name, the name. */
static void encode(void)
{
    uint8_t *to = malloc(7 + names.count * (size_t)(9 + 127));
    if (to == NULL)
        give_up("the symbol list");
    names.list = (struct bytes){to, 7};
    for (unsigned i = 0; i < names.count; i++) {
        size_t length = strlen(names.at[i].name);
        uint8_t *entry = to + names.list.len;
        big_endian(entry, names.at[i].address, 8);
        entry[8] = (uint8_t)length;
        memcpy(entry + 9, names.at[i].name, length);
        names.list.len += 9 + length;
    }
    big_endian(to, names.list.len - 4, 4);
    to[4] = 1;
    big_endian(to + 5, names.count, 2);
}

void take_symbols(const char *file, uint64_t shift)
{
    unsigned long long address;
    FILE *f = fopen(file, "r");
    if (f == NULL)
        give_up(file);
    while (names.count < 65535 && fscanf(f, "%llx %127s", &address, names.at[names.count].name) == 2)
        names.at[names.count++].address = address + shift;
    fclose(f);
    encode();
}

struct bytes symbol_list(void)
{
    return names.list;
}

void (*function(const char *name))(void)
{
    for (unsigned i = 0; i < names.count; i++)
        if (strcmp(names.at[i].name, name) == 0)
            return (void (*)(void))names.at[i].address;
    printf("%s is no name of the text\n", name);
    exit(2);
}
