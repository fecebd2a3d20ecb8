/* What names a 64-bit little-endian ELF file has for its sections, symbols and relocation entries: for reports, never for a
 * decision about a payload. The file may be damaged: each offset is held to the file's length first, and what is not there is
 * left out. */
#ifndef ELF_H
#define ELF_H

#include "bytes.h"

/* The section header's fields. */
enum { SECTION_NAME = 0, SECTION_TYPE = 4, SECTION_FLAGS = 8, SECTION_OFFSET = 24, SECTION_SIZE = 32, SECTION_LINK = 40,
       SECTION_INFO = 44, SECTION_ALIGNMENT = 48 };

/* The number of sections. */
static inline unsigned section_count(struct bytes file)
{
    return file.len < 64 ? 0 : (unsigned)little(file.at + 60, 2);
}

/* The header of a section, 64 bytes. */
static inline struct bytes section_header(struct bytes file, uint64_t index)
{
    struct bytes none = {NULL, 0};
    if (index >= section_count(file))
        return none;
    uint64_t table = little(file.at + 40, 8);
    return table > file.len ? none : part(file, table + 64 * index, 64);
}

/* A number of the section's header: 0 where there is no such section. */
static inline uint64_t section_field(struct bytes file, uint64_t index, int field)
{
    int wide = field == SECTION_FLAGS || field == SECTION_OFFSET || field == SECTION_SIZE || field == SECTION_ALIGNMENT;
    struct bytes header = section_header(file, index);
    return header.at == NULL ? 0 : little(header.at + field, wide ? 8 : 4);
}

/* The contents of a section; none for type 8. */
static inline struct bytes section_contents(struct bytes file, uint64_t index)
{
    struct bytes none = {NULL, 0};
    if (section_header(file, index).at == NULL || section_field(file, index, SECTION_TYPE) == 8)
        return none;
    return part(file, section_field(file, index, SECTION_OFFSET), section_field(file, index, SECTION_SIZE));
}

static inline struct bytes section_name(struct bytes file, uint64_t index)
{
    struct bytes none = {NULL, 0};
    if (section_header(file, index).at == NULL)
        return none;
    return string_at(section_contents(file, little(file.at + 62, 2)), section_field(file, index, SECTION_NAME));
}

/* A symbol: its 24 bytes, none where the table does not have them, and its name. */
struct symbol {
    struct bytes raw, name;
};

static inline struct symbol symbol_at(struct bytes file, uint64_t table, uint64_t index)
{
    struct symbol symbol = {part(section_contents(file, table), 24 * index, 24), {NULL, 0}};
    if (symbol.raw.at != NULL)
        symbol.name = string_at(section_contents(file, section_field(file, table, SECTION_LINK)), little(symbol.raw.at, 4));
    return symbol;
}

/* The section of a symbol that is there, by its index, and its value. */
static inline unsigned symbol_section(struct symbol symbol)
{
    return (unsigned)little(symbol.raw.at + 6, 2);
}

static inline uint64_t symbol_value(struct symbol symbol)
{
    return little(symbol.raw.at + 8, 8);
}

/* Whether its binding is weak. */
static inline int symbol_weak(struct symbol symbol)
{
    return symbol.raw.at[4] >> 4 == 2;
}

/* An entry of a relocation section: its 24 bytes, none where the section does not have them, and its symbol. */
struct entry {
    struct bytes raw;
    struct symbol symbol;
};

static inline struct entry entry_at(struct bytes file, uint64_t section, uint64_t index)
{
    struct entry entry = {part(section_contents(file, section), 24 * index, 24), {{NULL, 0}, {NULL, 0}}};
    if (entry.raw.at != NULL)
        entry.symbol = symbol_at(file, section_field(file, section, SECTION_LINK), little(entry.raw.at + 12, 4));
    return entry;
}

/* The name of the symbol that an entry uses; that of its section where it has none, as the symbols of sections have it. */
static inline struct bytes entry_name(struct bytes file, struct entry entry)
{
    if (entry.symbol.raw.at == NULL || entry.symbol.name.len > 0)
        return entry.symbol.name;
    return section_name(file, symbol_section(entry.symbol));
}

#endif
