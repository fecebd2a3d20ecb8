/* The upload of docs/integrators.md, on a stack of its own: it is accepted, and refused when made again, and the stack of the caller is as
 * before. Linked with the two files that stand in that paper. */
#include "expect.h"
#include "payload.h"
#include "urddolwy.h"

uint8_t records[URDDOLWY_RECORDS_SIZE], arena[URDDOLWY_ARENA_SIZE], ids[URDDOLWY_IDS_SIZE];

struct request {
    const uint8_t *name, *symbols, *file;
    size_t name_len, symbols_len, file_len;
};

uint64_t upload(struct request *r);

int main(void)
{
    static const uint8_t list[] = "\0\0\0\x0d\x01\0\x01\xff\xff\x82\xd0\x80\x20\0\0\x01" "f";
    static const struct patch patch = {"one", "hv", 1, {{"f", 8, (const uint8_t *)"\xb8\x02\0\0\0\xc3", 6}}};
    static uint8_t text[16], undo[URDDOLWY_UNDO_SIZE], file[PAYLOAD_MAX];
    volatile uint64_t mine[64];
    struct request r = {(const uint8_t *)"p1", list, file, 3, sizeof list - 1, make_payload(file, &patch)};
    for (int i = 0; i < 64; i++)
        mine[i] = (uint64_t)i * 0x0101010101010101u;
    expect("upload before start", upload(&r), URDDOLWY_INVALID);
    expect("start", urddolwy_start(records, sizeof records, text, sizeof text, 0xffff82d080200000, arena, sizeof arena,
                                   0xffff82d080400000, undo, sizeof undo, ids, sizeof ids, patch.depends, ID_SIZE, 1), 0);
    expect("upload", upload(&r), 0);
    expect("upload again", upload(&r), URDDOLWY_LOADED);
    for (int i = 0; i < 64; i++)
        expect("the caller's stack", mine[i], (uint64_t)i * 0x0101010101010101u);
    return closing_line();
}
