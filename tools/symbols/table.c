/* The names that go into a list. */
#include "symbols.h"

void add_name(struct table *table, struct bytes name, uint64_t address)
{
    if (table->count == table->room) {
        table->room = table->room == 0 ? 1024 : 2 * table->room;
        table->at = realloc(table->at, table->room * sizeof *table->at);
        if (table->at == NULL)
            cannot("urddolwy-symbols", "there is no memory");
    }
    table->at[table->count++] = (struct named){name, address};
}

/* Bytewise, unsigned, a proper prefix being smaller. */
static int compare_names(struct bytes a, struct bytes b)
{
    int order = memcmp(a.at, b.at, a.len < b.len ? a.len : b.len);
    return order != 0 ? order : (a.len > b.len) - (a.len < b.len);
}

/* By name, then by address. */
static int compare(const void *left, const void *right)
{
    const struct named *a = left, *b = right;
    int order = compare_names(a->name, b->name);
    return order != 0 ? order : (a->address > b->address) - (a->address < b->address);
}

struct left_out settle(struct table *table, int aloud)
{
    struct left_out left = {0, 0};
    size_t kept = 0, next;
    if (table->count > 0)
        qsort(table->at, table->count, sizeof *table->at, compare);
    for (size_t i = 0; i < table->count; i = next) {
        struct named first = table->at[i];
        for (next = i + 1; next < table->count && compare_names(table->at[next].name, first.name) == 0; next++)
            ;
        int too_long = first.name.len > 127, differ = table->at[next - 1].address != first.address;
        if (!too_long && !differ)
            table->at[kept++] = first;
        else if (aloud)
            print_name(stderr, "", first.name, too_long ? ": more than 127 bytes\n" : ": more than one address\n");
        left.too_long += (size_t)too_long;
        left.with_addresses += (size_t)(!too_long && differ);
    }
    table->count = kept;
    return left;
}
