/* The example hypervisor: 48 bytes of text with three functions, its symbol list, and the memory that it lends to the loader. Its addresses
 * are those at which such code would run; the bytes stand in plain arrays, and a small CPU runs them. */
#ifndef HYPERVISOR_H
#define HYPERVISOR_H

#include "common.h"

enum { CPUS = 2, TEXT_LEN = 48 };

static const uint64_t text_base = 0xffff82d080200000, arena_base = 0xffff82d080400000;

/* Three functions: mov $1,%eax; ret. mov $10,%eax; ret. mov $1,%eax; mov $0,%eax; ret. Between them int3. */
#define INT3_5 "\xcc\xcc\xcc\xcc\xcc"
static const uint8_t original[TEXT_LEN] = "\xb8\x01\0\0\0\xc3" INT3_5 INT3_5
                                          "\xb8\x0a\0\0\0\xc3" INT3_5 INT3_5
                                          "\xb8\x01\0\0\0\xb8\0\0\0\0\xc3" INT3_5;

/* Where they are, as a symbol list; `denied` is the second instruction of `allowed`. */
#define AT(low) "\xff\xff\x82\xd0\x80\x20\x00" low
static const uint8_t symbols[] = "\0\0\0\x40\x01\0\x04" AT("\x20") "\x07" "allowed" AT("\x25") "\x06" "denied"
                                 AT("\x10") "\x05" "limit" AT("\x00") "\x07" "version";

static const uint8_t build_id[4] = "hype";

static uint8_t text[TEXT_LEN];
static uint8_t arena[URDDOLWY_ARENA_SIZE];
static uint8_t undo[URDDOLWY_UNDO_SIZE];
static uint8_t ids[URDDOLWY_IDS_SIZE];
static uint8_t records[URDDOLWY_RECORDS_SIZE];

/* What a function returns, run by a CPU that knows mov, jmp, nop and ret, in text and arena; -1 where it meets anything else. */
static int returned(uint64_t at)
{
    int eax = -1;
    for (int steps = 0; steps < 32; steps++) {
        int in_text = at - text_base < TEXT_LEN - 4;
        if (!in_text && at - arena_base >= URDDOLWY_ARENA_SIZE - 4)
            break;
        const uint8_t *code = in_text ? text + (at - text_base) : arena + (at - arena_base);
        if (code[0] == 0xc3)
            return eax;
        if (code[0] == 0xb8)
            eax = (int)little(code + 1, 4);
        else if (code[0] != 0xe9 && code[0] != 0x90)
            break;
        at += code[0] == 0x90 ? 1 : 5;
        if (code[0] == 0xe9)
            at += (uint64_t)(int64_t)(int32_t)little(code + 1, 4);
    }
    return -1;
}

#endif
