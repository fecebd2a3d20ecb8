/* A refusal in words, with the names that the payload's file has for its place. */
#ifndef REFUSAL_H
#define REFUSAL_H

#include "elf.h"
#include "urddolwy.h"

/* What a refusal's number says of its place. */
static inline const char *meaning(unsigned number, enum urddolwy_place place)
{
    int nowhere = place == URDDOLWY_NOWHERE, of_entry = place == URDDOLWY_RELOCATION, of_record = place == URDDOLWY_RECORD;
    switch (number) {
    case 3:
        return of_record ? "the function that it names is not in the symbol list" : "its symbol is not in the symbol list";
    case 8:
        return "the file has not the size or the header of a payload";
    case 12:
        return nowhere ? "no slot is free" : "with it, more than 8,192 bytes are to be placed";
    case 17:
        return "a payload of that name is loaded";
    case 22:
        return nowhere ? "the name table or a section that there must be once is missing, or there twice" : "it breaks a rule";
    case 34:
        return of_record ? "its jump does not reach" : "its value does not fit into 4 bytes";
    case 95:
        return of_entry ? "its type or its symbol's section is not known" : "its type, flags or name are not known";
    default:
        return "a number that no rule gives";
    }
}

/* Prints number, place and meaning of a refusal of this file. */
static inline void print_refusal(FILE *to, struct bytes file, uint64_t answer)
{
    unsigned number = URDDOLWY_NUMBER(answer), first = URDDOLWY_FIRST(answer);
    enum urddolwy_place place = URDDOLWY_PLACE(answer);
    fprintf(to, "refused with %u", number);
    if (place == URDDOLWY_RECORD)
        fprintf(to, " at record %u", first);
    if (place == URDDOLWY_RELOCATION)
        fprintf(to, " at entry %u", URDDOLWY_SECOND(answer));
    if (place == URDDOLWY_SECTION || place == URDDOLWY_RELOCATION) {
        fprintf(to, "%s section %u", place == URDDOLWY_SECTION ? " at" : " of", first);
        print_name(to, " (", section_name(file, first), ")");
    }
    if (place == URDDOLWY_RELOCATION)
        print_name(to, ", symbol ", entry_name(file, entry_at(file, first, URDDOLWY_SECOND(answer))), "");
    fprintf(to, ": %s\n", meaning(number, place));
}

/* Why a preparation was refused: the symbol list, the text or the slot where they are at fault, else the payload. */
static inline void print_why(FILE *to, struct bytes file, struct bytes list, const char *list_name, uint64_t answer)
{
    if (urddolwy_check_symbols(list.at, list.len) != 0)
        fprintf(to, "refused with %u: %s is no symbol list\n", URDDOLWY_NUMBER(answer), list_name);
    else if (URDDOLWY_PLACE(answer) == URDDOLWY_NOWHERE && answer != urddolwy_check_file(file.at, file.len))
        fprintf(to, "refused with %u: there can be no such text, or no such slot\n", URDDOLWY_NUMBER(answer));
    else
        print_refusal(to, file, answer);
}

#endif
