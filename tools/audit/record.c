/* Function records as a payload's file has them: before relocation, so that an address is a number or a symbol. */
#include "audit.h"

#include <inttypes.h>

/* The section of the function records. */
static unsigned records_section(struct bytes file)
{
    unsigned index = 0;
    while (index < section_count(file) && !is_word(section_name(file, index), ".livepatch.funcs"))
        index++;
    return index;
}

/* The last entry of type 1 that fills the 8 bytes at an offset of a section; its bytes are none where no entry does. */
static struct entry filling(struct bytes file, unsigned section, uint64_t offset)
{
    struct entry found = {{NULL, 0}, {{NULL, 0}, {NULL, 0}}};
    for (unsigned s = 0; s < section_count(file); s++) {
        if (section_field(file, s, SECTION_TYPE) != 4 || section_field(file, s, SECTION_INFO) != section)
            continue;
        uint64_t e = 0;
        for (struct entry next; (next = entry_at(file, s, e)).raw.at != NULL; e++)
            if (little(next.raw.at, 8) == offset && little(next.raw.at + 8, 4) == 1)
                found = next;
    }
    return found;
}

/* The string that an entry's address is that of. */
static struct bytes pointed_to(struct bytes file, struct entry entry)
{
    struct bytes none = {NULL, 0};
    if (entry.symbol.raw.at == NULL)
        return none;
    struct bytes section = section_contents(file, symbol_section(entry.symbol));
    return string_at(section, symbol_value(entry.symbol) + little(entry.raw.at + 16, 8));
}

/* Prints an address of a record: the symbol and addend that fill it, or the number in the file. */
static void print_address(FILE *to, struct bytes file, struct entry entry, const uint8_t *field)
{
    struct bytes name = {NULL, 0};
    if (entry.raw.at != NULL)
        name = entry_name(file, entry);
    if (name.len == 0) {
        fprintf(to, "0x%" PRIx64, little(field, 8));
        return;
    }
    print_name(to, "", name, "");
    int64_t addend = (int64_t)little(entry.raw.at + 16, 8);
    if (addend != 0)
        fprintf(to, "%+" PRId64, addend);
}

void print_record(FILE *to, const char *before, struct bytes file, unsigned record)
{
    static const char *const addresses[] = {"name", "new_addr", "old_addr"};
    unsigned section = records_section(file);
    struct bytes bytes = part(section_contents(file, section), 64 * (uint64_t)record, 64);
    if (bytes.at == NULL)
        return;
    fprintf(to, "%srecord %u: ", before, record);
    for (unsigned i = 0; i < 3; i++) {
        struct entry entry = filling(file, section, 64 * (uint64_t)record + 8 * i);
        struct bytes string = i == 0 ? pointed_to(file, entry) : (struct bytes){NULL, 0};
        fprintf(to, "%s ", addresses[i]);
        if (string.len > 0)
            print_name(to, "", string, "");
        else
            print_address(to, file, entry, bytes.at + 8 * i);
        fputs(", ", to);
    }
    fprintf(to, "new_size %u, old_size %u, version %u\n", (unsigned)little(bytes.at + 24, 4),
            (unsigned)little(bytes.at + 28, 4), bytes.at[32]);
}
