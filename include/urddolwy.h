/* The C boundary of Urddolwy, a live-patch loader whose functions are proved to meet their contracts.
 *
 * Link with target/lib/liburddolwy.a, which ./build writes. Every function answers whatever bytes it is given, keeps no memory and
 * writes nothing but what it says. Calls may run at the same time where what they write is separate: calls on the same records
 * come one after the other. docs/integrators.md tells how to use them in a hypervisor, and examples/session.c does so.
 *
 * What a call needs of its host
 *   functions   memcpy and memset. Nothing else is called, and nothing is allocated.
 *   registers   general registers only. Vector, MMX and x87 registers and their control words are neither read nor written; see
 *               to it that memcpy and memset keep to that too.
 *   stack       as many bytes as the URDDOLWY_.._STACK below say, aligned to 8. No byte below the stack pointer is used (no red
 *               zone), so an interrupt may take the same stack; what it needs comes on top.
 *   flags       the direction flag clear, as for every C function.
 *   pointers    each one to as many bytes as the length beside it says. With a length of 0 the pointer is not used and may be null.
 *               What is written (in the declarations: what is not const) shares no byte with another buffer; what is only read
 *               (const) may overlap.
 *   branches    direct ones only, no indirect jump or call, and no landing pads (endbr64): call the functions directly where indirect
 *               branch tracking (IBT) is enforced.
 *
 * An answer is 0, or a refusal in one number: its number in bits 0 to 7, the kind of its place in bits 8 to 15, and the place's
 * first and second number from bits 16 and 32 on.
 */
#ifndef URDDOLWY_H
#define URDDOLWY_H

#include <stddef.h>
#include <stdint.h>

#ifdef __cplusplus
extern "C" {
#endif

/* The number of a refusal, by document 01's table "When the loader says no". Which of them a function gives stands with it. */
enum urddolwy_reason {
    URDDOLWY_NOT_LOADED = 2,    /* no payload of that name */
    URDDOLWY_NOT_LISTED = 3,    /* a used symbol that is not weak, or a function name, is not in the list */
    URDDOLWY_TOO_MANY = 7,      /* list with nr over 8 */
    URDDOLWY_BAD_HEADER = 8,    /* file size or header */
    URDDOLWY_NO_ROOM = 12,      /* no free slot; placed bytes over 8,192 */
    URDDOLWY_BUSY = 16,         /* a job stands: actions 2 to 4, or unload of its payload; work before all are held */
    URDDOLWY_LOADED = 17,       /* name loaded already */
    URDDOLWY_INVALID = 22,      /* every other broken rule; wrong status, idx or CPU number; report, tick or work with no job */
    URDDOLWY_WRONG_BASE = 33,   /* wrong dependency; revert of one that is not top */
    URDDOLWY_OUT_OF_RANGE = 34, /* a 4-byte value out of range */
    URDDOLWY_UNSUPPORTED = 95   /* an unknown section type, flag, kind, relocation type or symbol index */
};

/* The kind of its place. All count from 0. */
enum urddolwy_place {
    URDDOLWY_NOWHERE = 0,
    URDDOLWY_SECTION = 1,    /* first: the section */
    URDDOLWY_RELOCATION = 2, /* first: the relocation section, second: the entry */
    URDDOLWY_RECORD = 3      /* first: the function record */
};

/* The parts of an answer. The number is 0 where the answer is 0, and only there. */
#define URDDOLWY_NUMBER(answer) ((unsigned)((answer) & 0xff))
#define URDDOLWY_PLACE(answer) ((enum urddolwy_place)(((answer) >> 8) & 0xff))
#define URDDOLWY_FIRST(answer) ((unsigned)(((answer) >> 16) & 0xffff))
#define URDDOLWY_SECOND(answer) ((unsigned)(((answer) >> 32) & 0xffff))

/* The stack that a call takes, in bytes: its arguments, its return address and 256 bytes for memcpy and memset are in it.
 * tests/library/run measures it. */
#define URDDOLWY_CHECK_SYMBOLS_STACK 1024
#define URDDOLWY_CHECK_FILE_STACK 16384
#define URDDOLWY_PREPARE_STACK 53248
#define URDDOLWY_RECORDS_SIZE_STACK 1024
#define URDDOLWY_START_STACK 17408
#define URDDOLWY_UPLOAD_STACK 54272
#define URDDOLWY_GET_STACK 3072
#define URDDOLWY_LIST_STACK 26624
#define URDDOLWY_ACTION_STACK 50176
#define URDDOLWY_REPORT_STACK 3072
#define URDDOLWY_TICK_STACK 3072
#define URDDOLWY_WORK_STACK 3072
#define URDDOLWY_TOP_BUILD_ID_STACK 33792

/* The limits; the sizes of buffers below are computed from them. Of a payload: its function records, each of which asks for one edit; the
 * bytes of an id (its own, that of its dependency, the hypervisor's), of its slot, and of its name with the ending zero. Then the bytes
 * of the text, and how many payloads and CPUs there may be. tests/c/run holds limits and sizes against the library. */
#define URDDOLWY_EDITS 32
#define URDDOLWY_BUILD_ID_MAX 64
#define URDDOLWY_IMAGE_SIZE 8192
#define URDDOLWY_NAME_SIZE 128
#define URDDOLWY_TEXT_MAX 16777216
#define URDDOLWY_PAYLOADS 8
#define URDDOLWY_CPUS_MAX 64

/* ---- A payload by itself: no memory is lent, nothing is kept. */

/* Whether the bytes are a symbol list: 0, or 22 nowhere. */
uint64_t urddolwy_check_symbols(const uint8_t *list, size_t list_len);

/* Whether a payload's file keeps the rules that the file alone decides: its size and header, its sections, their counts,
 * the headers of its relocation sections and its two notes. 0, or the first rule that is broken. */
uint64_t urddolwy_check_file(const uint8_t *file, size_t file_len);

/* The sizes of the buffers of urddolwy_prepare, in bytes: URDDOLWY_IMAGE_SIZE for the image; URDDOLWY_EDITS entries of this size for the
 * edits; the summary. */
#define URDDOLWY_EDIT_SIZE 48
#define URDDOLWY_SUMMARY_SIZE (16 + 2 * URDDOLWY_BUILD_ID_MAX)

/* Prepares a payload for the slot at `slot_base`, against the text of `text_len` bytes at `text_base` and the symbol list. It says
 * what an upload would place and what its function records would change, and changes nothing else.
 *
 * Accepted, it returns 0 and writes
 *   image    the slot's 8,192 bytes
 *   edits    32 entries of 48 bytes: address (8 bytes, little-endian), length (4), then the edit's bytes, zeros after them
 *   summary  placed length, number of edits, length of the id, length of the dependency (4 bytes each, little-endian), then the
 *            id and the dependency in 64 bytes each, zeros after them
 * Refused, it returns the refusal and leaves all three as they were. Buffers of other sizes, a text or slot that does not end at
 * 2^64 or before, a text of no byte or over 16,777,216, a slot at 0, at no multiple of 4,096 or with a byte of the text, and bytes that are
 * no symbol list get 22, nowhere. */
uint64_t urddolwy_prepare(const uint8_t *file, size_t file_len, const uint8_t *symbols, size_t symbols_len, uint64_t text_base,
                          uint64_t text_len, uint64_t slot_base, uint8_t *image, size_t image_len, uint8_t *edits, size_t edits_len,
                          uint8_t *summary, size_t summary_len);

/* ---- The loader: its memory, its records and its calls.
 *
 * The host lends all memory, with each call the part that the call needs, each time the same bytes as the call before left them:
 *   text      1 to 16,777,216 bytes: the hypervisor's code. Written by urddolwy_work alone
 *   arena     65,536 bytes at a multiple of 4,096, not 0 and apart from the text: eight slots of 8,192 for payloads. Code runs there,
 *             at the addresses that begin at arena_base; lay it within 2 GiB of the text, so that jumps and calls reach
 *   undo      the undo store, 7,936 bytes: the text that edits have covered
 *   ids       the id store, 512 bytes: the ids of the payloads
 *   build_id  the hypervisor's build-id, 1 to 64 bytes, always the same
 *   records   7,044 bytes: all that the loader keeps between two calls
 * Only the calls write arena, undo, ids and records; but the code of a payload may write its own data in its slot. Of the text
 * nobody else may write what a payload's edits cover.
 *
 * Records are to be kept, once, and handed on: an older copy put back does not fit the memory any more. Their layout, for those who
 * look at them in a dump, stands in docs/integrators.md; in short, little-endian: start-up's numbers (32 bytes), the numbers of
 * payloads loaded and applied (8 each), the version (4), the job (16, and a byte for each of 64 CPUs), the applied slots (8 of 4),
 * then eight payloads of 860 bytes in upload order.
 *
 * The first check of every call is that of its buffers and records: a buffer of another size than the one named for it (a text or
 * build-id of another length than at start-up), or records that hold a number out of its range, get 22, nowhere. Records of zeros are
 * out of range: there is no call before start-up. Places other than nowhere come from urddolwy_upload alone.
 *
 * A refusal changes no byte of any buffer, but for one case: where urddolwy_action refuses with 22 for a payload's status, or with 33,
 * it sets that payload's last result to -22 or -33. `out` is written by accepted calls alone. */

/* The sizes of what is lent, in bytes: a slot for each payload; 31 bytes for each of its edits; its id; and the records: numbers, a byte
 * for each CPU, the applied slots, then for each payload its name, seven numbers, its dependency and its edits of 20 bytes. */
#define URDDOLWY_ARENA_SIZE (URDDOLWY_PAYLOADS * URDDOLWY_IMAGE_SIZE)
#define URDDOLWY_UNDO_SIZE (URDDOLWY_PAYLOADS * URDDOLWY_EDITS * 31)
#define URDDOLWY_IDS_SIZE (URDDOLWY_PAYLOADS * URDDOLWY_BUILD_ID_MAX)
#define URDDOLWY_RECORDS_SIZE \
    (68 + URDDOLWY_CPUS_MAX + 4 * URDDOLWY_PAYLOADS + \
     URDDOLWY_PAYLOADS * (URDDOLWY_NAME_SIZE + 7 * 4 + URDDOLWY_BUILD_ID_MAX + 20 * URDDOLWY_EDITS))
/* The sizes of one entry in the buffers of urddolwy_list, in bytes: URDDOLWY_NAME_SIZE for a name, and these for the other two. */
#define URDDOLWY_STATUS_SIZE 8
#define URDDOLWY_LENGTH_SIZE 4
/* The size of `out`. */
#define URDDOLWY_GET_OUT_SIZE 8
#define URDDOLWY_LIST_OUT_SIZE 12
#define URDDOLWY_TOP_BUILD_ID_OUT_SIZE 12

/* A payload's status. */
enum urddolwy_status {
    URDDOLWY_CHECKED = 1, /* uploaded, or reverted, or replaced by another */
    URDDOLWY_APPLIED = 2
};

/* A payload's last result: that of its last action, as a signed number of 32 bits. */
enum urddolwy_result {
    URDDOLWY_DONE = 0,           /* the last job has ended well, or there was none */
    URDDOLWY_UNDER_WAY = -11,    /* it is the payload of the job */
    URDDOLWY_TIMED_OUT = -16,    /* the job ended before all CPUs were held; nothing was changed */
    URDDOLWY_WRONG_STATUS = -22, /* the last action was refused with 22, for its status */
    URDDOLWY_WRONG_TOP = -33     /* the last action was refused with 33 */
};

/* The commands of urddolwy_action. */
enum urddolwy_command { URDDOLWY_UNLOAD = 1, URDDOLWY_REVERT = 2, URDDOLWY_APPLY = 3, URDDOLWY_REPLACE = 4 };

/* The size that records must have: URDDOLWY_RECORDS_SIZE. */
uint64_t urddolwy_records_size(void);

/* Start-up: no payload is loaded. What records hold before does not matter. Accepted, it zeroes arena, undo and ids and writes
 * records; refused with 22, it changes nothing. `text_base` and `arena_base` are the addresses at which the code runs.
 *   22  a size; cpus not 1 to 64; arena_base 0 or no multiple of 4,096; a range past 2^64; text and arena share an address
 * It does not restore a text that payloads have changed: revert all of them, or restore the text, before a second start-up. */
uint64_t urddolwy_start(uint8_t *records, size_t records_len, const uint8_t *text, size_t text_len, uint64_t text_base,
                        uint8_t *arena, size_t arena_len, uint64_t arena_base, uint8_t *undo, size_t undo_len, uint8_t *ids,
                        size_t ids_len, const uint8_t *build_id, size_t build_id_len, uint32_t cpus);

/* Loads a payload under a name: 2 to 128 bytes, the last zero and no other. It is placed and relocated in the lowest free slot, has
 * status 1 and result 0, and comes last in the list. Text and running code stay as they are, so it may be called at any time, also
 * while a job stands.
 *   22  sizes or records; the name; symbols that are no symbol list; else as urddolwy_prepare
 *   17  the name is loaded
 *   12  nowhere: eight payloads are loaded. At a section: placed bytes over 8,192
 *   3, 8, 34, 95  as urddolwy_prepare, with the place in the file */
uint64_t urddolwy_upload(uint8_t *records, size_t records_len, uint8_t *arena, size_t arena_len, uint8_t *ids, size_t ids_len,
                         const uint8_t *name, size_t name_len, const uint8_t *symbols, size_t symbols_len, const uint8_t *file,
                         size_t file_len);

/* Status and last result of a payload: `out` gets 8 bytes, the two numbers in 4 each, little-endian; the result is signed. Read the
 * two together: a refused action may leave -22 with a payload that is applied and well.
 *   22  sizes or records; the name     2  no payload of that name */
uint64_t urddolwy_get(const uint8_t *records, size_t records_len, const uint8_t *name, size_t name_len, uint8_t *out,
                      size_t out_len);

/* The payloads in upload order, from number `idx` on, at most `nr`. Each buffer has room for nr entries or more, however many are left:
 *   statuses  8 bytes each: status and last result, as urddolwy_get gives them
 *   names     128 bytes each: the name, zeros after it
 *   lengths   4 bytes each: the length of the name with its ending zero
 *   out       12 bytes: entries written, entries left after them, version; 4 bytes each
 * Other bytes stay. The version grows by 1 with each accepted upload and unload: two lists of one version have the same payloads.
 *   22  sizes or records     7  nr over 8     22  idx over the number of payloads; a buffer without room */
uint64_t urddolwy_list(const uint8_t *records, size_t records_len, uint32_t idx, uint32_t nr, uint8_t *statuses,
                       size_t statuses_len, uint8_t *names, size_t names_len, uint8_t *lengths, size_t lengths_len, uint8_t *out,
                       size_t out_len);

/* Unloads a payload, at once, or begins the job that reverts or applies it, or replaces all that is applied by it. `time` is the
 * number of ticks that the job may wait for CPUs; 0 means 30. Unload does not use it.
 *   22  sizes or records; the name            2  no payload of that name
 *   22  no such command                       16 a job stands (for unload: that of this payload)
 *   22  status: revert needs an applied payload, the others one that is not. Its last result is then -22
 *   33  revert: another was applied after it. Apply: its dependency is not the top build-id. Replace: its dependency is not the
 *       hypervisor's build-id. Its last result is then -33
 * in this order. The job stands when revert, apply or replace are accepted: the payload's result is -11 until it has ended.
 *
 * How to drive a job
 *   1. urddolwy_action, accepted.
 *   2. Bring the CPUs to the rendezvous. Each one that has arrived, and will run nothing but its waiting loop till it is let go, is
 *      reported: urddolwy_report, once or more.
 *   3. Meanwhile urddolwy_tick for each unit of time that passes. The last tick ends the job: result -16, status as before, text as
 *      before. Let all CPUs go, and try again later with another action.
 *   4. When all are reported, urddolwy_work, until the job has ended: it makes one edit with each call, 256 at most, and the call
 *      with the last edit ends the job. Its end shows in urddolwy_get and urddolwy_list: the result is no longer -11. Another call of
 *      urddolwy_work would be refused with 22, and nothing changed: there is no job.
 *   5. Let all CPUs go, each after it has serialised its instruction stream.
 * Once complete, the rendezvous has no time limit: ticks do nothing, and the job can only be worked to its end. */
uint64_t urddolwy_action(uint8_t *records, size_t records_len, uint8_t *arena, size_t arena_len, uint8_t *undo, size_t undo_len,
                         uint8_t *ids, size_t ids_len, const uint8_t *build_id, size_t build_id_len, const uint8_t *name,
                         size_t name_len, uint32_t command, uint32_t time);

/* A CPU is held, 0 to cpus - 1. To report it again changes nothing.
 *   22  records; no job; cpu not below the number at start-up */
uint64_t urddolwy_report(uint8_t *records, size_t records_len, uint32_t cpu);

/* A unit of time has passed. Where CPUs are missing, it takes 1 from the job's time; at 0 the job ends with result -16.
 *   22  records; no job */
uint64_t urddolwy_tick(uint8_t *records, size_t records_len);

/* One step of the job, when all CPUs are held: it takes an edit off the text or lays one. Revert and replace take edits off, newest
 * payload first, last record first; then apply and replace lay the payload's, in the order of its records.
 *   22  sizes or records; no job     16  CPUs are missing */
uint64_t urddolwy_work(uint8_t *records, size_t records_len, uint8_t *text, size_t text_len, uint8_t *undo, size_t undo_len);

/* The id that the next payload has to depend on to be applied: that of the payload applied last, or the hypervisor's. It is a part of
 * one of the two buffers; `out` gets 12 bytes: 0 for build_id or 1 for ids, offset in it, length; 4 bytes each.
 *   22  sizes or records */
uint64_t urddolwy_top_build_id(const uint8_t *records, size_t records_len, const uint8_t *build_id, size_t build_id_len,
                               const uint8_t *ids, size_t ids_len, uint8_t *out, size_t out_len);

#ifdef __cplusplus
}
#endif

#endif
