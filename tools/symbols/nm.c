/* The output of nm: lines ADDRESS TYPE NAME. The map that Xen's build writes has the same, with 0x before the address. */
#include "symbols.h"

#include <ctype.h>

/* Whether the bytes from an offset on are a type, of one character, a space and a name without control characters. */
static int is_typed_name(struct bytes line, size_t at)
{
    if (line.len < at + 3 || !isgraph(line.at[at]) || line.at[at + 1] != ' ')
        return 0;
    for (size_t i = at + 2; i < line.len; i++)
        if (line.at[i] < ' ' || line.at[i] == 0x7f)
            return 0;
    return 1;
}

/* Reads a line; 0 where it is none of nm's. Symbols without a section are passed over: undefined ones, which have no address,
 * absolute ones (A) and those in common storage (C), whose number is a size. */
static int read_nm_line(struct table *table, struct bytes line)
{
    uint64_t address = 0;
    size_t digits = 0, spaces = 0;
    if (line.len > 2 && memcmp(line.at, "0x", 2) == 0 && isxdigit(line.at[2]))
        line = part(line, 2, line.len - 2);
    while (digits < line.len && digits < 17 && isxdigit(line.at[digits]))
        digits++;
    while (digits + spaces < line.len && line.at[digits + spaces] == ' ')
        spaces++;
    size_t type = digits + spaces;
    if (spaces == 0 || digits > 16 || (digits > 0 && spaces > 1) || !is_typed_name(line, type))
        return 0;
    if (digits == 0)
        return strchr("Uwv", line.at[type]) != NULL;
    for (size_t i = 0; i < digits; i++)
        address = address << 4 | (uint64_t)(isdigit(line.at[i]) ? line.at[i] - '0' : (line.at[i] | 0x20) - 'a' + 10);
    if (strchr("AaCc", line.at[type]) == NULL)
        add_name(table, (struct bytes){line.at + type + 2, line.len - type - 2}, address);
    return 1;
}

const char *read_nm(struct table *table, struct bytes input)
{
    static char wrong[64];
    size_t number = 0, next;
    for (size_t at = 0; at < input.len; at = next) {
        const uint8_t *end = memchr(input.at + at, '\n', input.len - at);
        size_t stop = end == NULL ? input.len : (size_t)(end - input.at);
        next = stop + 1;
        number++;
        if (stop > at && !read_nm_line(table, (struct bytes){input.at + at, stop - at})) {
            snprintf(wrong, sizeof wrong, "line %zu is not ADDRESS TYPE NAME", number);
            return wrong;
        }
    }
    return NULL;
}
