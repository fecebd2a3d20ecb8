/* What the file has at the place of a refusal, and the rule group of its number. */
#include "audit.h"

#include <inttypes.h>

/* Words for numbers, up to one without a word. */
struct word {
    unsigned number;
    const char *word;
};

static const struct word groups[] = {
    {URDDOLWY_NOT_LISTED, "not listed: a used symbol that is not weak, or a function name, is not in the list"},
    {URDDOLWY_BAD_HEADER, "bad header: file size or header"},
    {URDDOLWY_NO_ROOM, "no room: placed bytes over 8,192"},
    {URDDOLWY_INVALID, "invalid: every other broken rule"},
    {URDDOLWY_OUT_OF_RANGE, "out of range: a 4-byte value out of range"},
    {URDDOLWY_UNSUPPORTED, "unsupported: an unknown section type, flag, kind, relocation type or symbol index"},
    {0, NULL},
};

static const struct word section_types[] = {
    {0, "NULL"}, {1, "PROGBITS"}, {2, "SYMTAB"},      {3, "STRTAB"}, {4, "RELA"},  {7, "NOTE"},
    {8, "NOBITS"}, {9, "REL"},    {14, "INIT_ARRAY"}, {17, "GROUP"}, {0, NULL},
};

static const struct word relocation_types[] = {
    {0, "R_X86_64_NONE"},       {1, "R_X86_64_64"},        {2, "R_X86_64_PC32"},      {3, "R_X86_64_GOT32"},
    {4, "R_X86_64_PLT32"},      {9, "R_X86_64_GOTPCREL"},  {10, "R_X86_64_32"},       {11, "R_X86_64_32S"},
    {24, "R_X86_64_PC64"},      {25, "R_X86_64_GOTOFF64"}, {26, "R_X86_64_GOTPC32"},  {27, "R_X86_64_GOT64"},
    {29, "R_X86_64_GOTPC64"},   {31, "R_X86_64_PLTOFF64"}, {41, "R_X86_64_GOTPCRELX"}, {42, "R_X86_64_REX_GOTPCRELX"},
    {0, NULL},
};

/* Prints a number, and the word for it where there is one. */
static void print_word(FILE *to, const struct word *words, uint64_t number, const char *before, const char *after)
{
    fprintf(to, "%" PRIu64, number);
    while (words->word != NULL && words->number != number)
        words++;
    if (words->word != NULL)
        fprintf(to, "%s%s%s", before, words->word, after);
}

/* Prints the index and name of a section. */
static void print_section_name(FILE *to, struct bytes file, uint64_t index)
{
    fprintf(to, "section %" PRIu64, index);
    print_name(to, " ", section_name(file, index), "");
}

static void print_section(FILE *to, struct bytes file, unsigned index)
{
    if (section_header(file, index).at == NULL)
        return;
    fputs("  ", to);
    print_section_name(to, file, index);
    fputs(": type ", to);
    print_word(to, section_types, section_field(file, index, SECTION_TYPE), " (", ")");
    fprintf(to, ", flags 0x%" PRIx64, section_field(file, index, SECTION_FLAGS));
    fprintf(to, ", alignment %" PRIu64, section_field(file, index, SECTION_ALIGNMENT));
    fprintf(to, ", size %" PRIu64, section_field(file, index, SECTION_SIZE));
    if (section_field(file, index, SECTION_TYPE) == 4) {
        fputs(", of ", to);
        print_section_name(to, file, section_field(file, index, SECTION_INFO));
    }
    fputc('\n', to);
}

/* Prints where a symbol is defined. */
static void print_home(FILE *to, struct bytes file, struct symbol symbol)
{
    unsigned section = symbol_section(symbol);
    if (section == 0) {
        fputs(symbol_weak(symbol) ? " (undefined, weak)" : " (undefined)", to);
    } else if (section >= 0xff00) {
        fprintf(to, " (section index 0x%x, value 0x%" PRIx64 ")", section, symbol_value(symbol));
    } else {
        fputs(" (", to);
        print_section_name(to, file, section);
        fprintf(to, ", value 0x%" PRIx64 ")", symbol_value(symbol));
    }
}

static void print_entry(FILE *to, struct bytes file, unsigned section, unsigned index)
{
    struct entry entry = entry_at(file, section, index);
    if (entry.raw.at == NULL)
        return;
    fprintf(to, "  entry %u: type ", index);
    print_word(to, relocation_types, little(entry.raw.at + 8, 4), " (", ")");
    fprintf(to, ", offset 0x%" PRIx64 ", symbol %" PRIu64, little(entry.raw.at, 8), little(entry.raw.at + 12, 4));
    print_name(to, " ", entry.symbol.name, "");
    if (entry.symbol.raw.at != NULL)
        print_home(to, file, entry.symbol);
    fprintf(to, ", addend %" PRId64 "\n", (int64_t)little(entry.raw.at + 16, 8));
}

/* Prints what the file gets without list, text and slot. */
static void print_alone(FILE *to, struct bytes file, uint64_t answer)
{
    uint64_t alone = urddolwy_check_file(file.at, file.len);
    fputs("  the file alone: ", to);
    if (alone == 0 || alone == answer)
        fputs(alone == 0 ? "accepted\n" : "refused for the same\n", to);
    else
        print_refusal(to, file, alone);
}

void print_details(FILE *to, struct bytes file, uint64_t answer)
{
    enum urddolwy_place place = URDDOLWY_PLACE(answer);
    unsigned first = URDDOLWY_FIRST(answer);
    fputs("  ", to);
    print_word(to, groups, URDDOLWY_NUMBER(answer), " ", "");
    fputc('\n', to);
    print_alone(to, file, answer);
    if (place == URDDOLWY_SECTION || place == URDDOLWY_RELOCATION)
        print_section(to, file, first);
    if (place == URDDOLWY_RELOCATION)
        print_entry(to, file, first, URDDOLWY_SECOND(answer));
    if (place == URDDOLWY_RECORD)
        print_record(to, "  ", file, first);
}
