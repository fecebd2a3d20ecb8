/* What an accepted payload places and changes. */
#include "audit.h"

#include <inttypes.h>

/* An edit: the entry that urddolwy_prepare wrote for a record. */
struct edit {
    uint64_t address;
    struct bytes bytes;
};

static struct edit edit_at(const struct prepared *prepared, unsigned index)
{
    const uint8_t *entry = prepared->edits + index * URDDOLWY_EDIT_SIZE;
    return (struct edit){little(entry, 8), {entry + 12, (size_t)little(entry + 8, 4)}};
}

static unsigned edit_count(const struct prepared *prepared)
{
    return (unsigned)little(prepared->summary + 4, 4);
}

/* The name of the file of an edit, which the caller frees. */
static char *edit_file(const char *prefix, unsigned index)
{
    size_t room = strlen(prefix) + 16;
    char *name = malloc(room);
    if (name == NULL)
        cannot(prefix, "there is no memory");
    snprintf(name, room, "%s.%u", prefix, index);
    return name;
}

void write_results(const struct arguments *given, const struct prepared *prepared)
{
    if (given->image != NULL)
        write_file(given->image, (struct bytes){prepared->image, sizeof prepared->image});
    for (unsigned i = 0; given->objdump != NULL && i < edit_count(prepared); i++) {
        char *name = edit_file(given->objdump, i);
        write_file(name, edit_at(prepared, i).bytes);
        free(name);
    }
}

/* Prints a file's name for a shell: in quotes, those in the name apart. */
static void print_quoted(const char *name)
{
    putchar('\'');
    for (; *name != '\0'; name++)
        printf(*name == '\'' ? "'\\%c'" : "%c", *name);
    putchar('\'');
}

/* Prints a command that disassembles a file of bytes as they stand at an address. */
static void print_objdump(uint64_t address, const char *name)
{
    printf("    objdump -D -b binary -mi386:x86-64 --adjust-vma=0x%" PRIx64 " ", address);
    print_quoted(name);
    printf("\n");
}

static void print_id(const char *what, const uint8_t *at, uint64_t len)
{
    printf("%s:", what);
    print_hex(stdout, (struct bytes){at, (size_t)len});
    printf("\n");
}

/* Prints the placed sections, as document 01 places them: in index order, each at the next multiple of its alignment from the
 * slot's start. In an accepted payload every section with flag 0x2 is placed, but for those of type 0. */
static void print_placed(struct bytes file, uint64_t slot)
{
    uint64_t end = 0;
    for (unsigned i = 0; i < section_count(file); i++) {
        uint64_t alignment = section_field(file, i, SECTION_ALIGNMENT), size = section_field(file, i, SECTION_SIZE);
        if (section_field(file, i, SECTION_TYPE) == 0 || (section_field(file, i, SECTION_FLAGS) & 2) == 0)
            continue;
        if (alignment > 1)
            end = (end + alignment - 1) / alignment * alignment;
        printf("  0x%016" PRIx64 " %5" PRIu64 " bytes: section %u", slot + end, size, i);
        print_name(stdout, " ", section_name(file, i), "");
        printf("\n");
        end += size;
    }
}

static void print_edit(const struct arguments *given, struct bytes file, const struct prepared *prepared, unsigned index)
{
    struct edit edit = edit_at(prepared, index);
    printf("  edit %u: %zu byte%s at 0x%" PRIx64, index, edit.bytes.len, edit.bytes.len == 1 ? "" : "s", edit.address);
    if (edit.bytes.at[0] == 0xe9)
        printf(", a jump to 0x%" PRIx64, edit.address + 5 + (uint64_t)(int32_t)little(edit.bytes.at + 1, 4));
    printf("\n");
    print_record(stdout, "    ", file, index);
    printf("    %" PRIx64 ":", edit.address);
    print_hex(stdout, edit.bytes);
    printf("\n");
    if (given->objdump != NULL) {
        char *name = edit_file(given->objdump, index);
        print_objdump(edit.address, name);
        free(name);
    }
}

void print_accepted(const struct arguments *given, struct bytes file, const struct prepared *prepared)
{
    const uint8_t *summary = prepared->summary;
    printf("accepted\n");
    print_id("id", summary + 16, little(summary + 8, 4));
    print_id("depends on", summary + 16 + URDDOLWY_BUILD_ID_MAX, little(summary + 12, 4));
    printf("placed: %u bytes, the sections by this tool's own sums, after document 01's rule\n", (unsigned)little(summary, 4));
    print_placed(file, given->slot);
    printf("edits: %u\n", edit_count(prepared));
    for (unsigned i = 0; i < edit_count(prepared); i++)
        print_edit(given, file, prepared, i);
    if (given->image != NULL && given->objdump != NULL) {
        printf("slot:\n");
        print_objdump(given->slot, given->image);
    }
}
