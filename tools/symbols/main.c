/* urddolwy-symbols: makes the symbol list of a hypervisor, from what nm prints or from its ELF file, and prints a list. */
#include "options.h"
#include "symbols.h"
#include "urddolwy.h"

static const char usage[] =
    "usage: urddolwy-symbols [--strict] (--nm FILE | --elf FILE) --out LIST\n"
    "       urddolwy-symbols --print LIST\n"
    "  --nm FILE     take the names from what nm printed, lines ADDRESS TYPE NAME\n"
    "  --elf FILE    take them from the symbol table of a linked ELF file, 64-bit and little-endian\n"
    "  --out LIST    write the symbol list there\n"
    "  --strict      refuse names that a list cannot have: with more than one address, or over 127 bytes.\n"
    "                Otherwise they are left out, and counted on stderr\n"
    "  --print LIST  print a list in nm's form, with ? for the type\n"
    "What is read may be -, the standard input. Symbols without a section are not taken, absolute ones among them.\n"
    "Exit status: 0 done, 1 the input is refused, 2 bad usage or a file that cannot be read or written.\n";

enum { NM, ELF, OUT, STRICT, PRINT };
static struct option options[] = {{"--nm", 0, NULL},     {"--elf", 0, NULL},   {"--out", 0, NULL},
                                  {"--strict", 1, NULL}, {"--print", 0, NULL}, {0}};
static struct command_line line = {usage, options, NULL, 0, 0};

static struct bytes read_input(const char *name)
{
    return strcmp(name, "-") == 0 ? read_stream(stdin, "stdin") : read_file(name);
}

/* Says why an input is refused. */
static int refuse(const char *name, const char *why)
{
    fprintf(stderr, "%s: %s\n", name, why);
    return 1;
}

static int print(const char *name)
{
    struct bytes list = read_input(name);
    int refused = urddolwy_check_symbols(list.at, list.len) != 0;
    if (refused)
        refuse(name, "it is no symbol list");
    else
        print_list(list);
    free((void *)list.at);
    return refused;
}

/* Checks the names and writes their list. */
static int write_list(const char *name, const struct table *table, const char *out)
{
    if (table->count == 0)
        return refuse(name, "it has no symbol for a list");
    if (table->count > 65535)
        return refuse(name, "it has more than 65,535 names, the most that a list can have");
    struct bytes list = encode(table);
    int refused = urddolwy_check_symbols(list.at, list.len) != 0;
    if (refused) {
        refuse(name, "the list of its names is refused");
    } else {
        write_file(out, list);
        printf("%s: %zu name%s, %zu bytes\n", out, table->count, table->count == 1 ? "" : "s", list.len);
    }
    free((void *)list.at);
    return refused;
}

/* Says how many names are left out, or stand in the way where that is refused. */
static void count_aloud(const char *name, const char *what, size_t count, int strict)
{
    if (count > 0)
        fprintf(stderr, "%s: names %s: %zu%s\n", name, what, count, strict ? "" : ", left out");
}

static int make(const char *name, const char *(*reader)(struct table *, struct bytes), int strict, const char *out)
{
    struct table table = {NULL, 0, 0};
    struct bytes input = read_input(name);
    const char *wrong = reader(&table, input);
    int refused = wrong != NULL && refuse(name, wrong);
    if (!refused) {
        struct left_out left = settle(&table, strict);
        count_aloud(name, "with more than one address", left.with_addresses, strict);
        count_aloud(name, "of more than 127 bytes", left.too_long, strict);
        refused = (strict && left.with_addresses + left.too_long > 0) || write_list(name, &table, out);
    }
    free(table.at);
    free((void *)input.at);
    return refused;
}

int main(int argc, char **argv)
{
    read_line(&line, argc, argv);
    int sources = (options[NM].value != NULL) + (options[ELF].value != NULL);
    if (sources + (options[PRINT].value != NULL) != 1)
        bad_usage(&line, "one of --nm, --elf and --print is needed");
    if (sources == 0 && (options[OUT].value != NULL || options[STRICT].value != NULL))
        bad_usage(&line, "--print takes no other option");
    if (sources == 1 && options[OUT].value == NULL)
        bad_usage(&line, "--out LIST is missing");
    if (sources == 0)
        return printed(print(options[PRINT].value));
    if (options[NM].value != NULL)
        return printed(make(options[NM].value, read_nm, options[STRICT].value != NULL, options[OUT].value));
    return printed(make(options[ELF].value, read_elf, options[STRICT].value != NULL, options[OUT].value));
}
