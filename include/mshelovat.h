/* Mshelovat for C: the calls of the proved crate `exported`, linked from libexported.a (tools/archive exported). The
 * archive is x86-64 and does not link into native programs on Arm.
 *
 * Each call returns a number and writes its values to the front of the numbers lent to it; what stands behind them
 * stays as it was, and so it is with lent bytes and entries. Numbers: 0 is yes; 1 to 9 refuse the log, 7, 9, 10 and 11
 * a write, 20 to 28 the slips, 12, MSHELOVAT_SCRATCH, and 28 a step over a ring, 30, MSHELOVAT_LINE, a text, and 31,
 * MSHELOVAT_TRAY, a tray, as docs/FORMAT.md lists them; MSHELOVAT_ROOM says that too few numbers were lent, or too few
 * bytes: where too few numbers, nothing is written; MSHELOVAT_DONE is the log's end, MSHELOVAT_OTHER an object of
 * another type.
 *
 * The place of 1 to 9 is the byte of the log at fault: the first of the wrong field, or the first wrong one of reserved
 * bytes and padding; for 1 it is the position, for 5 the log's length (docs/FORMAT.md, "Order and place"). The position
 * to go on from is the one before. On writing the place is 0.
 *
 * No call asks for more than what C itself asks: a pointer is not null and its bytes are readable (what is lent to be
 * written, writable) for the call's time, also where the length is 0; lent numbers, entries and time stamps stand on 8
 * bytes, ids on 4; and what a call writes lies apart from all else that is handed to it. No call keeps a pointer,
 * allocates, or writes anything but what is lent for it. */
#ifndef MSHELOVAT_H
#define MSHELOVAT_H

#include <stddef.h>
#include <stdint.h>

#define MSHELOVAT_ROOM 10
#define MSHELOVAT_SCRATCH 12
#define MSHELOVAT_LINE 30
#define MSHELOVAT_TRAY 31
#define MSHELOVAT_DONE 100
#define MSHELOVAT_OTHER 101

/* The places of mshelovat_step's values. */
enum { MSHELOVAT_START, MSHELOVAT_SIZE, MSHELOVAT_KIND, MSHELOVAT_NEXT, MSHELOVAT_STEP };

/* The place of what mshelovat_ring_step tells behind these four, where the object lies; and how many it tells. */
enum { MSHELOVAT_LIES = MSHELOVAT_STEP, MSHELOVAT_RING_STEP };

/* What stands there: in the first segment, in the second, or in both; 0 where there is no object. */
enum { MSHELOVAT_FIRST = 1, MSHELOVAT_SECOND, MSHELOVAT_BOTH };

/* How many numbers an entry of mshelovat_list has, in the same order: start, size, type. */
enum { MSHELOVAT_ENTRY = 3 };

/* The places of mshelovat_list's values. */
enum { MSHELOVAT_LISTED, MSHELOVAT_GO_ON, MSHELOVAT_PLACE, MSHELOVAT_LIST };

/* How many bytes a CAN message has, which has no padding: under the first header and under the second. */
enum { MSHELOVAT_MESSAGE_FIRST = 48, MSHELOVAT_MESSAGE_SECOND = 56 };

/* No line has more bytes than this, CR LF included: lent so many, mshelovat_line and mshelovat_line_at have room. */
enum { MSHELOVAT_LONGEST_LINE = 134 };

/* The places of what mshelovat_read_line tells: of every line its object's type (1, 3 or 4), the time in whole seconds
 * and the nanoseconds over, and the channel; of a message the id without bit 31, whether that bit is set, Tx, remote,
 * the DLC and the eight bytes; of a statistic the load in 1/100 percent and the six counters in the object's order. */
enum {
    MSHELOVAT_TOLD_KIND,
    MSHELOVAT_TOLD_SECONDS,
    MSHELOVAT_TOLD_NANOSECONDS,
    MSHELOVAT_TOLD_CHANNEL,
    MSHELOVAT_TOLD_ID,
    MSHELOVAT_TOLD_EXTENDED,
    MSHELOVAT_TOLD_SENT,
    MSHELOVAT_TOLD_REMOTE,
    MSHELOVAT_TOLD_DLC,
    MSHELOVAT_TOLD_BYTE_0,
    MSHELOVAT_TOLD_BYTE_1,
    MSHELOVAT_TOLD_BYTE_2,
    MSHELOVAT_TOLD_BYTE_3,
    MSHELOVAT_TOLD_BYTE_4,
    MSHELOVAT_TOLD_BYTE_5,
    MSHELOVAT_TOLD_BYTE_6,
    MSHELOVAT_TOLD_BYTE_7,
    MSHELOVAT_TOLD_LOAD,
    MSHELOVAT_TOLD_STANDARD_DATA,
    MSHELOVAT_TOLD_EXTENDED_DATA,
    MSHELOVAT_TOLD_STANDARD_REMOTE,
    MSHELOVAT_TOLD_EXTENDED_REMOTE,
    MSHELOVAT_TOLD_ERRORS,
    MSHELOVAT_TOLD_OVERLOADS,
    MSHELOVAT_TOLD
};

#ifdef __cplusplus
extern "C" {
#endif

/* The whole log. Returns 0 and out[0] is the count of its objects; or 1 to 9, the first refusal, and out[0] is its
 * place. Lend one number. */
uint32_t mshelovat_walk(const uint8_t *log, size_t log_length, uint64_t *out, size_t out_count);

/* The object at position `at`, which may be any number. Lend four.
 * 0: out is its start, its size without padding, its type, and the position behind its padding.
 * MSHELOVAT_DONE: `at` is exactly the log's end; out is at, 0, 0, at.
 * 1 to 9: the object is refused; out is the byte at fault, 0, 0, at. */
uint32_t mshelovat_step(const uint8_t *log, size_t log_length, size_t at, uint64_t *out, size_t out_count);

/* The objects from position `at` on, three numbers each: start, size without padding, type. `entries_count` counts
 * numbers; one or two behind the last whole entry are left alone. Lend three numbers in out: how many objects were
 * listed, the position where the next call goes on, and the place of a refusal, which is 0 where there is none.
 * 0: there is no room for another object, whether or not one is there.
 * MSHELOVAT_DONE: all objects up to the log's end are listed.
 * 1 to 9: the object at that position is refused, and out[2] is the byte at fault; those before it are listed. */
uint32_t mshelovat_list(const uint8_t *log, size_t log_length, size_t at, uint64_t *entries, size_t entries_count,
                        uint64_t *out, size_t out_count);

/* The object at position `at`, which may be any number, of a log in two segments, the older first, as a ring memory
 * hands it over. Positions and places count in the joined log, and all is as mshelovat_step tells it of that log, but
 * for two refusals. Either segment may be empty. Lend five numbers.
 * 0: out is its start, its size without padding, its type, the position behind its padding, and where it lies:
 *   MSHELOVAT_FIRST: whole in the first segment, from first[start] on;
 *   MSHELOVAT_SECOND: whole in the second, from second[start - first_length] on;
 *   MSHELOVAT_BOTH: it begins in the first and ends in the second, and is copied to the front of `scratch`.
 * MSHELOVAT_DONE: `at` is exactly the joined log's end; out is at, 0, 0, at, 0.
 * 28: the joined log has 4,294,967,296 bytes or more; out is 0, 0, 0, at, 0.
 * 1 to 9: the object is refused; out is the byte at fault, 0, 0, at, 0.
 * MSHELOVAT_SCRATCH: 1 to 6 let it through, it lies in both segments and is longer than `scratch`; out is its start, 0,
 * 0, at, 0.
 * Nothing but the copy is written to `scratch`, and that only where 0 is told. */
uint32_t mshelovat_ring_step(const uint8_t *first, size_t first_length, const uint8_t *second, size_t second_length,
                             size_t at, uint8_t *scratch, size_t scratch_length, uint64_t *out, size_t out_count);

/* Whether the slips of the bundle name the objects of the log, each exactly once. Returns 0 and out[0] is the count of
 * objects; or 28, 20 to 24, 1 to 9, 25 to 27, and out[0] is the place: in the bundle for 20 to 24, else in the log.
 * Lend one number. */
uint32_t mshelovat_check(const uint8_t *log, size_t log_length, const uint8_t *bundle, size_t bundle_length,
                         uint64_t *out, size_t out_count);

/* The object of type `kind` at position `at`, copied to the front of `bytes` without its padding, in its type's layout
 * and under the header that it has in the log, of 32 or of 40 bytes (docs/FORMAT.md). Lend two numbers.
 * 0: out is its size and the position behind its padding.
 * MSHELOVAT_OTHER: an object of another type was let through; out is 0 and the position behind its padding.
 * MSHELOVAT_DONE: `at` is exactly the log's end; out is 0 and at.
 * 1 to 9: the object is refused; out is the byte at fault and at.
 * MSHELOVAT_ROOM: fewer than two numbers, or `bytes` is shorter than the object; nothing is written to either. */
uint32_t mshelovat_read(const uint8_t *log, size_t log_length, size_t at, uint32_t kind, uint8_t *bytes,
                        size_t bytes_length, uint64_t *out, size_t out_count);

/* Writes an object, handed in as its bytes without padding, with its padding to the front of `bytes`: one of the
 * thirteen types as its record, any other as foreign. Of the thirteen only what the record holds is taken from the
 * object, zeros where it is too short: signature, sizes and reserved bytes are written as the layout has them. The
 * record is read and written under the second header where the object says header size 40 and version 2, else under the
 * first, whatever it says there. Lend one number.
 * 0: out[0] is how many bytes were used: the size of the object as it is written, and its padding, which is what that
 * size leaves over when divided by four. Three bytes more than that size are always room enough.
 * 7 or 9: the record is refused; 11: the bytes are no foreign object; 10: `bytes` has no room; out[0] is 0, and `bytes`
 * is as it was. Where no number is lent the answer is 10 too, and nothing is written. */
uint32_t mshelovat_write(const uint8_t *object, size_t object_length, uint8_t *bytes, size_t bytes_length,
                         uint64_t *out, size_t out_count);

/* Writes a tray of CAN messages, one for each id, one behind the other to the front of `bytes`, under the first header:
 * each with its id, its time stamp, its eight bytes of the data, and all else in common. What is written is what
 * mshelovat_write would write one by one. `ids_count` and `stamps_count` count numbers, `data_length` bytes. Lend one
 * number: out[0] is how many messages were written.
 * 0: all of them; where there is no id and no other slice has anything, none, whatever the unit and the room.
 * MSHELOVAT_TRAY: the time stamps are not as many as the ids, or the data bytes not eight times as many; out[0] is 0,
 * and `bytes` is as it was. This is tried before all else.
 * 7: the time unit is neither ten microseconds nor nanoseconds; 10: `bytes` has no room for the next message. Those
 * before it stand, MSHELOVAT_MESSAGE_FIRST bytes each, and every byte behind them is as it was. The place is 0 for all
 * three and not told. Where no number is lent the answer is 10 too, and nothing is written. */
uint32_t mshelovat_tray_first(uint32_t unit, uint16_t client, uint16_t version, uint16_t channel, uint8_t flags,
                              uint8_t dlc, const uint32_t *ids, size_t ids_count, const uint64_t *stamps,
                              size_t stamps_count, const uint8_t *data, size_t data_length, uint8_t *bytes,
                              size_t bytes_length, uint64_t *out, size_t out_count);

/* The same under the second header, whose time stamp status and original time stamp are one for all messages. A message
 * has MSHELOVAT_MESSAGE_SECOND bytes. */
uint32_t mshelovat_tray_second(uint32_t unit, uint8_t status, uint16_t version, uint64_t original, uint16_t channel,
                               uint8_t flags, uint8_t dlc, const uint32_t *ids, size_t ids_count,
                               const uint64_t *stamps, size_t stamps_count, const uint8_t *data, size_t data_length,
                               uint8_t *bytes, size_t bytes_length, uint64_t *out, size_t out_count);

/* The line of an object (types 1, 3 and 4), handed in as its bytes without padding, written to the front of `bytes`.
 * Lend one number.
 * 0: out[0] is how many bytes the line has, CR LF included; 0 for an object of another type and for bytes that are no
 * object.
 * 7: the time unit is neither ten microseconds nor nanoseconds; 10: `bytes` has no room; out[0] is 0, and `bytes` is as
 * it was. Where no number is lent the answer is 10 too, and nothing is written. */
uint32_t mshelovat_line(const uint8_t *object, size_t object_length, uint8_t *bytes, size_t bytes_length, uint64_t *out,
                        size_t out_count);

/* The line of the object at position `at`, which may be any number, written to the front of `bytes`. Lend two numbers.
 * 0: out is how many bytes the line has, 0 for an object of another type, and the position behind the object's padding.
 * MSHELOVAT_DONE: `at` is exactly the log's end; out is 0 and at.
 * 1 to 9: the object is refused; out is the byte at fault and at.
 * MSHELOVAT_ROOM: `bytes` is shorter than the line; out is 0 and at, and `bytes` is as it was. Where fewer than two
 * numbers are lent the answer is the same, and nothing is written to either. */
uint32_t mshelovat_line_at(const uint8_t *log, size_t log_length, size_t at, uint8_t *bytes, size_t bytes_length,
                           uint64_t *out, size_t out_count);

/* A text read as one line, its CR LF included. Lend MSHELOVAT_TOLD numbers.
 * 0: it is a line; out is what it tells, zeros for what it does not tell, and behind the bytes that stand in it.
 * MSHELOVAT_LINE: it is none that an object can have; all these numbers are 0.
 * MSHELOVAT_ROOM: fewer numbers were lent; nothing is written. */
uint32_t mshelovat_read_line(const uint8_t *text, size_t text_length, uint64_t *out, size_t out_count);

#ifdef __cplusplus
}
#endif

#endif
