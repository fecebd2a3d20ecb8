/* Makes a payload in memory: the ELF object that gcc and binutils would write, with new code as bytes and no more sections than a payload
 * must have. How to make one from C, with the tools, is told in docs/payload-authors.md.
 *
 *   1 .text                  the new code of all changes
 *   2 .rodata                the names of the functions that they change
 *   3 .livepatch.funcs       a function record for each change
 *   4 .rela.livepatch.funcs  the pointers in the records, which depend on where the payload is placed
 *   5 .note.gnu.build-id     the payload's own id
 *   6 .livepatch.depends     the id of what it has to be applied on
 *   7 .symtab                the starts of .text and .rodata, for the relocations
 *   8 .strtab                the names of all sections
 */
#ifndef PAYLOAD_H
#define PAYLOAD_H

#include <stdint.h>
#include <stdlib.h>
#include <string.h>

/* A function of the text gets new code; or, where there is none, its first `new_size` bytes become no-op instructions. */
struct change {
    const char *function; /* as in the symbol list */
    uint32_t old_size;
    const uint8_t *code;
    uint32_t new_size;
};

/* Four parts may be as long as the records; the others, the header and the section table have less than two of these together. */
enum { ID_SIZE = 4, CHANGES_MAX = 32, PART_MAX = 64 * CHANGES_MAX, PAYLOAD_MAX = 6 * PART_MAX };

struct patch {
    uint8_t id[ID_SIZE], depends[ID_SIZE];
    unsigned count;
    struct change changes[CHANGES_MAX];
};

/* A part of the file that grows. */
struct part {
    uint8_t bytes[PART_MAX];
    size_t len;
};

/* The part, longer by n zero bytes; where they begin. */
static uint8_t *grow(struct part *p, size_t n)
{
    if (n > sizeof p->bytes - p->len)
        abort();
    p->len += n;
    return memset(p->bytes + p->len - n, 0, n);
}

static void add_bytes(struct part *p, const void *bytes, size_t n)
{
    memcpy(grow(p, n), bytes, n);
}

/* A number of n bytes, little-endian. */
static void add_number(struct part *p, uint64_t x, size_t n)
{
    uint8_t *at = grow(p, n);
    for (; x > 0 && n > 0; n--, x >>= 8)
        *at++ = (uint8_t)x;
}

/* ---- sections */

/* Types of sections. */
enum { PROGBITS = 1, SYMBOLS = 2, STRINGS = 3, RELOCATIONS = 4, NOTE = 7 };

struct object {
    uint8_t *file;
    size_t len;
    struct part headers, names;
    unsigned count;
};

/* What a section is, but for its contents. */
struct kind {
    const char *name;
    unsigned type, flags, link, info, entry;
};

/* Adds a section: its contents to the file, at a multiple of 8, and its header to the table. */
static void add_section(struct object *o, struct kind kind, const struct part *contents)
{
    size_t at = (o->len + 7) / 8 * 8;
    add_number(&o->headers, o->names.len, 4);
    add_bytes(&o->names, kind.name, strlen(kind.name) + 1); /* into `contents`, where these are the names */
    add_number(&o->headers, kind.type, 4);
    add_number(&o->headers, kind.flags, 8);
    add_number(&o->headers, 0, 8); /* address */
    add_number(&o->headers, at, 8);
    add_number(&o->headers, contents->len, 8);
    add_number(&o->headers, kind.link, 4);
    add_number(&o->headers, kind.info, 4);
    add_number(&o->headers, kind.type == NOTE ? 4 : 8, 8); /* alignment */
    add_number(&o->headers, kind.entry, 8);
    memcpy(o->file + at, contents->bytes, contents->len);
    o->len = at + contents->len;
    o->count++;
}

/* The section table after the last section, and the header at the front. */
static size_t finish(struct object *o)
{
    struct part header = {{0}, 0};
    size_t table = (o->len + 7) / 8 * 8;
    memcpy(o->file + table, o->headers.bytes, o->headers.len);
    add_bytes(&header, "\x7f" "ELF\x02\x01\x01\0\0\0\0\0\0\0\0\0", 16);
    add_number(&header, 1, 2);  /* relocatable */
    add_number(&header, 62, 2); /* x86-64 */
    add_number(&header, 1, 4);
    add_number(&header, 0, 16);
    add_number(&header, table, 8);
    add_number(&header, 0, 4);
    add_number(&header, 64, 2); /* size of this header; then program headers, of which there are none */
    add_number(&header, 0, 4);
    add_number(&header, 64, 2);
    add_number(&header, o->count, 2);
    add_number(&header, o->count - 1, 2);
    memcpy(o->file, header.bytes, header.len);
    return table + o->headers.len;
}

/* ---- their contents */

enum { TEXT = 1, RODATA, FUNCS, RELA_FUNCS, BUILD_ID, DEPENDS, SYMTAB, STRTAB };

static struct part note(const uint8_t id[ID_SIZE])
{
    struct part p = {{0}, 0};
    add_number(&p, 4, 4);
    add_number(&p, ID_SIZE, 4);
    add_number(&p, 3, 4);
    add_bytes(&p, "GNU", 4);
    add_bytes(&p, id, ID_SIZE);
    return p;
}

/* A relocation of type 1: a field gets the address of a section (symbol 1: .text, symbol 2: .rodata) and an addend. */
static void add_relocation(struct part *p, size_t field, uint64_t symbol, size_t addend)
{
    add_number(p, field, 8);
    add_number(p, symbol << 32 | 1, 8);
    add_number(p, addend, 8);
}

/* Code, name, record and relocations of one change. */
static void add_change(struct part parts[], const struct change *c)
{
    size_t record = parts[FUNCS].len;
    add_relocation(&parts[RELA_FUNCS], record, 2, parts[RODATA].len);
    add_bytes(&parts[RODATA], c->function, strlen(c->function) + 1);
    if (c->code != NULL) {
        add_relocation(&parts[RELA_FUNCS], record + 8, 1, parts[TEXT].len);
        add_bytes(&parts[TEXT], c->code, c->new_size);
    }
    add_number(&parts[FUNCS], 0, 24); /* name, new_addr, old_addr: relocated, or 0 */
    add_number(&parts[FUNCS], c->new_size, 4);
    add_number(&parts[FUNCS], c->old_size, 4);
    add_number(&parts[FUNCS], 1, 32); /* version 1, 31 zero bytes */
}

static void add_symbol(struct part *p, unsigned section)
{
    add_number(p, 0, 4);                    /* no name */
    add_number(p, section == 0 ? 0 : 3, 2); /* a section's symbol */
    add_number(p, section, 2);
    add_number(p, 0, 16);
}

/* Writes the payload to the file and answers its length. */
static size_t make_payload(uint8_t file[PAYLOAD_MAX], const struct patch *patch)
{
    static const struct kind kinds[] = {
        {"", 0, 0, 0, 0, 0},
        {".text", PROGBITS, 6, 0, 0, 0},
        {".rodata", PROGBITS, 2, 0, 0, 0},
        {".livepatch.funcs", PROGBITS, 3, 0, 0, 0},
        {".rela.livepatch.funcs", RELOCATIONS, 0, SYMTAB, FUNCS, 24},
        {".note.gnu.build-id", NOTE, 2, 0, 0, 0},
        {".livepatch.depends", NOTE, 2, 0, 0, 0},
        {".symtab", SYMBOLS, 0, STRTAB, 3, 24},
        {".strtab", STRINGS, 0, 0, 0, 0},
    };
    struct object o = {file, 64, {{0}, 0}, {{0}, 0}, 0};
    struct part parts[STRTAB] = {{{0}, 0}};
    for (unsigned i = 0; i < patch->count; i++)
        add_change(parts, &patch->changes[i]);
    for (unsigned section = 0; section <= RODATA; section++)
        add_symbol(&parts[SYMTAB], section);
    parts[BUILD_ID] = note(patch->id);
    parts[DEPENDS] = note(patch->depends);
    memset(file, 0, PAYLOAD_MAX);
    for (unsigned section = 0; section < STRTAB; section++)
        add_section(&o, kinds[section], &parts[section]);
    add_section(&o, kinds[STRTAB], &o.names);
    return finish(&o);
}

#endif
