/* The symbol list format, in big-endian numbers: the count of the bytes that follow (4 bytes), version 1 (1), the number of
 * entries (2), then for each entry its address (8), the length of its name (1) and the name. */
#include "symbols.h"

#include <inttypes.h>

static uint8_t *put_big(uint8_t *to, uint64_t x, int n)
{
    while (n-- > 0)
        *to++ = (uint8_t)(x >> 8 * n);
    return to;
}

static uint64_t big(const uint8_t *at, int n)
{
    uint64_t x = 0;
    while (n-- > 0)
        x = x << 8 | *at++;
    return x;
}

struct bytes encode(const struct table *table)
{
    size_t len = 7;
    for (size_t i = 0; i < table->count; i++)
        len += 9 + table->at[i].name.len;
    uint8_t *list = malloc(len), *to = list;
    if (list == NULL)
        cannot("urddolwy-symbols", "there is no memory");
    to = put_big(to, len - 4, 4);
    to = put_big(to, 1, 1);
    to = put_big(to, table->count, 2);
    for (size_t i = 0; i < table->count; i++) {
        struct bytes name = table->at[i].name;
        to = put_big(to, table->at[i].address, 8);
        to = put_big(to, name.len, 1);
        memcpy(to, name.at, name.len);
        to += name.len;
    }
    return (struct bytes){list, len};
}

void print_list(struct bytes list)
{
    const uint8_t *entry = list.at + 7;
    for (uint64_t count = big(list.at + 5, 2); count > 0; count--) {
        printf("%016" PRIx64, big(entry, 8));
        print_name(stdout, " ? ", (struct bytes){entry + 9, entry[8]}, "\n");
        entry += 9 + entry[8];
    }
}
