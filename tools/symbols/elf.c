/* The symbol table of a linked ELF file. */
#include "elf.h"
#include "symbols.h"

/* Takes a symbol with a name and a section. */
static void take(struct table *table, struct bytes file, struct symbol symbol)
{
    unsigned section = symbol_section(symbol);
    if (section > 0 && section < section_count(file) && symbol.name.len > 0)
        add_name(table, symbol.name, symbol_value(symbol));
}

const char *read_elf(struct table *table, struct bytes input)
{
    unsigned index = 0;
    if (input.len < 64 || memcmp(input.at, "\x7f" "ELF\x02\x01", 6) != 0 || little(input.at + 58, 2) != 64)
        return "it is no 64-bit little-endian ELF file";
    if (little(input.at + 16, 2) == 1)
        return "it is not linked, so that its symbols have no addresses";
    while (index < section_count(input) && section_field(input, index, SECTION_TYPE) != 2)
        index++;
    if (section_contents(input, index).at == NULL)
        return "it has no symbol table";
    struct symbol symbol;
    for (uint64_t i = 1; (symbol = symbol_at(input, index, i)).raw.at != NULL; i++)
        take(table, input, symbol);
    return NULL;
}
