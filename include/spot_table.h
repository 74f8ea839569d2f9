/* The spot table: up to 65,520 spots (a place, a rank, a track number) in lent memory; messages, lists of changes to a table; and pressed tours, read-only tables of up to
 * 512 spots.
 *
 * Every call ends on any bytes and arguments, touches nothing but the memory lent to it, allocates nothing and keeps nothing between calls.
 *
 * Lent memory. A slice is a pointer and a length: in bytes, and for ranges and counts in elements.
 *   - The slices of one call must not overlap. A work area that is the table destroys the table.
 *   - During a call nothing else may write the table, the tour, the spots to be pressed, the changes, the message, the ranges, the counts, the output, the read map or the work
 *     area; during spot_format, spot_add, spot_withdraw, spot_rebuild and spot_apply nothing else may read the table either, during spot_press the tour, during
 *     spot_write_message the message and during spot_read_message the changes. Any number of calls may read one table, tour or message at the same time.
 *   - A pointer may be NULL only with length 0. The bytes need no alignment; ranges and counts have that of their types.
 *   - The ceiling of spot_top_within is a result: one number, in no lent slice, which every call sets. Its pointer is not NULL.
 *
 * The answer is number * 2^32 + detail (spot_number, spot_detail). Number 0 is an accepted call; detail is the number of spots for spot_report, spot_report_many, spot_top,
 * spot_top_within, spot_tour_report and spot_count, of blocks for spot_blocks_read, 1 or 0 for spot_check's yes or no, else 0. The other numbers are refusals (enum
 * spot_error), asked in their order, but 6, 7, 8 and 9 after 2 and before 3; spot_write_message and spot_read_message ask 8, then 2, then 9. After a refusal every lent byte is
 * as it was, but for a work area after 3: its first table-length bytes are zero then, as after an accepted call.
 *
 * Places lie from SPOT_LOWEST_PLACE to SPOT_HIGHEST_PLACE, in centimetres. spot_add, spot_withdraw, spot_apply, spot_write_message, spot_read_message and spot_press refuse
 * another one with 9, and one that is stored in a table or a tour breaks a rule. So every spot that an accepted call gives has its place there, whatever the table or the tour
 * holds, and the difference of two of these places fits int32_t. The ends of a range may be any numbers.
 *
 * The archive is for x86-64 Linux; `make TARGET=..` makes it of the same proved module for other processors (cross/README.md). Lengths have 64 bits on each of them (spot_len). Of the
 * C library it needs memcpy, memmove, memset and memcmp at most, and on ARM of 32 bits __aeabi_uldivmod, which comes with the compiler.
 *
 * The format of a table is version 1 (byte 4 of block 0). Tables of version 1 stay readable and writable by all later versions of this library; another layout would
 * have another version number, which this library refuses with 3. A place outside the limits that 0.1.0 stored breaks a rule now: calls that read it are refused with 3.
 * The format of a tour is version 1, too (byte 4 of its block 0, the catalogue), and stays readable in the same way, and so is that of a message (its byte 4).
 *
 * A message is a list of changes as it goes over the air: its whole length in 4 bytes, version 1 in one, the number of changes in 2, and then for each change a kind and the
 * change as on the card: 1 with place, rank and track (13 bytes in all) or 2 with place and rank (9), big-endian. It has one spelling: a message that is read is what
 * spot_write_message makes of its changes, byte for byte. It does NOT carry a sender, a seal or a place among other messages: bytes that were changed on the way may be a
 * message still, and one that comes late or twice is applied like any other. Whoever sends messages over the air signs them on the way and keeps their order, and applies only
 * what that lets through.
 *
 * What a call costs, in blocks of 2,048 bytes; h is the number of levels, 1 to 7:
 *   spot_format     writes every block.
 *   spot_count      reads block 0 and every node block that has spots.
 *   spot_check      reads block 0 and every node block.
 *   spot_report     reads at most 1 + 36h + 9 * (spots div 16) blocks on a sound table, and marks exactly those; each once up to 128 spots, twice above, to count and to write.
 *   spot_report_many
 *                   reads for each range what spot_report reads for it, and marks what it reads for any of them: block 0, and at most 36h + 9 * (spots div 16) a range.
 *   spot_top        reads the blocks of the report from the rank of the last of its k spots (from the least rank, if there are fewer), and marks exactly those;
 *                   only block 0 for k = 0. Each once up to 512 spots, twice above.
 *   spot_top_within reads block 0 and the first of the node blocks that spot_top reads, at most as many as are allowed, and marks exactly those; only block 0 for k = 0 or an
 *                   allowance of 0. Each once up to 512 spots, twice above.
 *   spot_blocks_read
 *                   reads no block, but the 512 bytes of a read map.
 *   spot_add        reads block 0 and the h blocks on the way down, and writes block 0 and the root where the root has room. Where it has none, changes go down in batches:
 *   spot_withdraw   some more blocks a level. Rarely, where no block is spare, all is laid out anew as by spot_rebuild. Both zero as much of the work area as the table is
 *                   long, which is most of their time on a large table. A withdrawal that finds nothing writes nothing to the table.
 *   spot_rebuild    reads every node block that has spots and writes as many as the spots need.
 *   spot_apply      with one change what spot_add or spot_withdraw costs. With more, all is laid out anew, as by spot_rebuild: on the largest table 256 changes take its time, 4,096 up
 *                   to 1.6 times that; 2.3 times, and spot_check's time, where the table is so full that it is checked and each change looked up first. Up to about 18 changes, single calls take less time, but are not
 *                   all or nothing. It zeroes as much of the work area as the table is long. A message refused with 8 or 9 costs no more than reading it.
 *   spot_write_message, spot_read_message
 *                   read their input three to four times and write their output once.
 *   spot_press      reads the spots once for each of them and writes each block of the tour once: up to 8 for the spots in place order, up to 7 fused ones, the catalogue.
 *   spot_tour_report
 *                   reads the catalogue and at most 3 + 2 * (spots div 64) other blocks of a pressed tour, 4 + 2 * (spots div 64) for a range past the door, each once, and marks
 *                   exactly those.
 * Memory: the output takes 12 bytes for each spot, the counts 4 for each range, the read map 512, the work area as many as the table has, a tour to be pressed
 * SPOT_TOUR_BYTES, a list of changes SPOT_CHANGE_BYTES for each, a message SPOT_MESSAGE_BYTES at most. Stack: SPOT_STACK_... below.
 */
#ifndef SPOT_TABLE_H
#define SPOT_TABLE_H

#include <stddef.h>
#include <stdint.h>

#ifdef __cplusplus
extern "C" {
#endif

/* The version of the library. The number stands here alone: CHANGELOG.md says what each brought, README.md when it moves. SPOT_VERSION is its text, SPOT_VERSION_NUMBER is for #if. */
#define SPOT_VERSION_MAJOR 0
#define SPOT_VERSION_MINOR 2
#define SPOT_VERSION_PATCH 0
#define SPOT_VERSION_NUMBER (SPOT_VERSION_MAJOR * 1000000 + SPOT_VERSION_MINOR * 1000 + SPOT_VERSION_PATCH)
#define SPOT_VERSION SPOT_VERSION_TEXT(SPOT_VERSION_MAJOR, SPOT_VERSION_MINOR, SPOT_VERSION_PATCH)
#define SPOT_VERSION_TEXT(major, minor, patch) SPOT_VERSION_JOINED(major, minor, patch)
#define SPOT_VERSION_JOINED(major, minor, patch) #major "." #minor "." #patch
#define SPOT_FORMAT_VERSION 1

#define SPOT_BLOCK_BYTES 2048
#define SPOT_FEWEST_BLOCKS 9
#define SPOT_MOST_BLOCKS 4096
#define SPOT_BYTES 12
#define SPOT_MAP_BYTES 512
#define SPOT_MOST_RANGES 64
#define SPOT_LOWEST_PLACE (-1000000)
#define SPOT_HIGHEST_PLACE 1000000
#define SPOT_TOUR_BYTES 32768
#define SPOT_TOUR_BLOCKS 16
#define SPOT_TOUR_SPOTS 512
#define SPOT_MOST_CHANGES 4096
#define SPOT_CHANGE_BYTES 13
#define SPOT_MESSAGE_BYTES 53255

/* Bytes of stack that suffice for a call on any table or tour, return address included, on every target. They are computed from the built archives, for x86-64 by measure/stack and
 * for the other targets by cross/stack, which fail where one is too low; cross/README.md has each target's own. In WebAssembly it is a part of the module's memory, kept in
 * spot_table.wasm; what the engine takes for calls beside it is not known. */
#define SPOT_STACK_FORMAT 8192
#define SPOT_STACK_COUNT 24576
#define SPOT_STACK_CHECK 24576
#define SPOT_STACK_REPORT 24576
#define SPOT_STACK_REPORT_MANY 147456
#define SPOT_STACK_TOP 172032
#define SPOT_STACK_TOP_WITHIN 163840
#define SPOT_STACK_BLOCKS_READ 8192
#define SPOT_STACK_ADD 327680
#define SPOT_STACK_WITHDRAW 327680
#define SPOT_STACK_REBUILD 32768
#define SPOT_STACK_APPLY 393216
#define SPOT_STACK_WRITE_MESSAGE 8192
#define SPOT_STACK_READ_MESSAGE 8192
#define SPOT_STACK_PRESS 8192
#define SPOT_STACK_TOUR_REPORT 24576

enum spot_error {
    SPOT_OK = 0,
    /* the table is not a whole number of blocks, or has under 9 or over 4,096; the tour is not 1 to 16 whole blocks */
    SPOT_TABLE_LENGTH = 1,
    /* the read map isn't 512 bytes, the work area is shorter than the table, there are not as many counts as ranges, a tour is to be pressed into under SPOT_TOUR_BYTES, or a
     * message or its changes are to be written to fewer bytes than they have (asked after 8) */
    SPOT_LENT_LENGTH = 2,
    /* block 0, or a node block that is read, breaks a rule that it and the entry leading to it can show; never on a sound table. A call reads only some blocks, so an
     * answer of 0 doesn't say that the table is sound: spot_check does. Of a tour: the catalogue, or a block that is read, breaks the layout; never on a pressed one */
    SPOT_BROKEN = 3,
    /* spot_add and spot_apply only: 16 live spots for each block after the first, and the new place and rank not among them. Of a message, detail is the position, from 0, of
     * the first addition that finds the table so after the changes before it; none of them is applied then */
    SPOT_FULL = 4,
    /* spot_report, spot_report_many, spot_top, spot_top_within and spot_tour_report only: more spots than output length div 12; detail is their number */
    SPOT_OUTPUT = 5,
    /* spot_report_many only: more than 64 ranges; asked after 2 and before 3, detail 0 */
    SPOT_TOO_MANY_RANGES = 6,
    /* spot_press only: more than SPOT_TOUR_SPOTS spots, the last is cut short, or place and rank don't strictly rise; asked after 2 and before 9 and 3, detail 0 */
    SPOT_NOT_PRESSABLE = 7,
    /* spot_apply, spot_read_message and spot_write_message only: the bytes are no message (its length is not the lent one, its version not 1, a kind neither 1 nor 2, its number of
     * changes over 4,096 or not that of those that stand there) or no list of changes (their length is no multiple of 13, they are over 4,096, a kind is neither 1 nor 2, a
     * withdrawal isn't filled up with zeros); asked after spot_apply's 2 and before 9 and 3, and before the others' 2, detail 0 */
    SPOT_NOT_A_MESSAGE = 8,
    /* spot_add, spot_withdraw, spot_apply, spot_read_message, spot_write_message and spot_press only: a place is below SPOT_LOWEST_PLACE or above SPOT_HIGHEST_PLACE; asked after 2
     * and before 3. Of changes, detail is the position, from 0, of the first such one, else 0 */
    SPOT_PLACE_OUTSIDE = 9
};

/* A length has 64 bits on every target, also where size_t has 32. */
typedef uint64_t spot_len;

/* The place, in centimetres, lies from SPOT_LOWEST_PLACE to SPOT_HIGHEST_PLACE. */
struct spot {
    int32_t place;
    int32_t rank;
    uint32_t track;
};

/* A change: the kind, and the spot that is added, or the place and rank of the one that is withdrawn; its track is 0 then. */
enum spot_kind { SPOT_ADD = 1, SPOT_WITHDRAW = 2 };
struct spot_change {
    enum spot_kind kind;
    struct spot spot;
};

/* Two places and a lowest rank. The places may lie outside the limits. */
struct spot_range {
    int32_t x1, x2, y;
};

/* C has one cast, and C++ warns of it. */
#ifdef __cplusplus
#define SPOT_CAST(type, value) static_cast<type>(value)
#else
#define SPOT_CAST(type, value) ((type)(value))
#endif

static inline uint32_t spot_number(uint64_t answer) { return SPOT_CAST(uint32_t, answer >> 32); }
static inline uint32_t spot_detail(uint64_t answer) { return SPOT_CAST(uint32_t, answer & 0xffffffffu); }

/* What a number says, in words. */
static inline const char *spot_error_text(uint32_t number) {
    switch (number) {
    case SPOT_OK: return "accepted";
    case SPOT_TABLE_LENGTH: return "the table is not 9 to 4,096 whole blocks of 2,048 bytes, or the tour is not 1 to 16";
    case SPOT_LENT_LENGTH: return "the read map isn't 512 bytes, the work area is shorter than the table, there are not as many counts as ranges, under 32,768 bytes are lent for a tour, or too few for a message or its changes";
    case SPOT_BROKEN: return "block 0, or a block that was read, breaks a rule of the layout";
    case SPOT_FULL: return "the table is full, and has no spot of this place and rank";
    case SPOT_OUTPUT: return "there are more spots than the output has room for";
    case SPOT_TOO_MANY_RANGES: return "there are more than 64 ranges";
    case SPOT_NOT_PRESSABLE: return "there are more than 512 spots, the last is cut short, or they don't strictly rise by place, then rank";
    case SPOT_NOT_A_MESSAGE: return "the bytes are no message, or no list of changes";
    case SPOT_PLACE_OUTSIDE: return "a place does not lie from -1,000,000 to 1,000,000 cm";
    default: return "no number of the spot table";
    }
}

/* The most live spots of a table of this many bytes. */
static inline size_t spot_capacity(size_t table_len) {
    return table_len < SPOT_BLOCK_BYTES ? 0 : 16 * (table_len / SPOT_BLOCK_BYTES - 1);
}

static inline uint32_t spot_read_u32(const uint8_t *bytes) {
    return SPOT_CAST(uint32_t, bytes[0]) << 24 | SPOT_CAST(uint32_t, bytes[1]) << 16 | SPOT_CAST(uint32_t, bytes[2]) << 8 | SPOT_CAST(uint32_t, bytes[3]);
}

static inline int32_t spot_read_i32(const uint8_t *bytes) {
    uint32_t v = spot_read_u32(bytes);
    return v < 0x80000000u ? SPOT_CAST(int32_t, v) : SPOT_CAST(int32_t, v - 0x80000000u) - 2147483647 - 1;
}

/* The spot in 12 bytes of an output. */
static inline struct spot spot_read(const uint8_t *bytes) {
    struct spot s;
    s.place = spot_read_i32(bytes);
    s.rank = spot_read_i32(bytes + 4);
    s.track = spot_read_u32(bytes + 8);
    return s;
}

/* Writes the spot to 12 bytes, as spot_press takes them. */
static inline void spot_write(uint8_t *bytes, struct spot s) {
    const uint32_t words[3] = {SPOT_CAST(uint32_t, s.place), SPOT_CAST(uint32_t, s.rank), s.track};
    int i;
    for (i = 0; i < SPOT_BYTES; i++) bytes[i] = SPOT_CAST(uint8_t, words[i / 4] >> (24 - 8 * (i % 4)) & 0xffu);
}

/* The length of the tour at the front of these bytes, as its first four say it: whole blocks, and never more than the bytes available; 0 where no whole tour stands there. What was
 * received as a tour is lent to spot_tour_report with the number of bytes received, which refuses it where that differs. */
static inline size_t spot_tour_len(const uint8_t *bytes, size_t available) {
    const size_t len = available < 4 ? 0 : spot_read_u32(bytes);
    return len > available || len % SPOT_BLOCK_BYTES != 0 ? 0 : len;
}

/* The change in 13 bytes of a list, as spot_read_message gives them. */
static inline struct spot_change spot_read_change(const uint8_t *bytes) {
    struct spot_change c;
    c.kind = bytes[0] == SPOT_ADD ? SPOT_ADD : SPOT_WITHDRAW;
    c.spot = spot_read(bytes + 1);
    return c;
}

/* Writes the change to 13 bytes of a list, as spot_write_message takes them; the track of a withdrawal is left out. */
static inline void spot_write_change(uint8_t *bytes, struct spot_change c) {
    bytes[0] = SPOT_CAST(uint8_t, c.kind);
    if (c.kind != SPOT_ADD) c.spot.track = 0;
    spot_write(bytes + 1, c.spot);
}

/* The length of the message at the front of these bytes, as its first four say it: at least 7, and never more than the bytes available; 0 where no whole message stands there. It parts
 * messages that stand one behind the other. What was received as one message is lent to spot_apply and spot_read_message with the number of bytes received: they refuse it with 8 where
 * its own length differs. */
static inline size_t spot_message_len(const uint8_t *bytes, size_t available) {
    const size_t len = available < 4 ? 0 : spot_read_u32(bytes);
    return len > available || len < 7 ? 0 : len;
}

/* The number of changes that a message says it has, which is right where spot_read_message accepts it; 0 of under 7 bytes. */
static inline size_t spot_message_changes(const uint8_t *message, size_t message_len) {
    return message_len < 7 ? 0 : SPOT_CAST(size_t, message[5]) << 8 | message[6];
}

/* Marks the block in a map of 512 bytes; none from 4,096 on. */
static inline void spot_mark(uint8_t *map, size_t block) {
    if (block < SPOT_MOST_BLOCKS) map[block / 8] = SPOT_CAST(uint8_t, map[block / 8] | 1u << (block % 8));
}

/* Marks in a map of 512 bytes exactly the blocks in which two tables of one length differ, and gives their number. Where `before` is what the card has and `after` what a change has
 * left, these are the blocks to write back: docs/GUIDES.md says how, so that a power cut loses nothing. The map is cleared first. */
static inline size_t spot_mark_changed(const uint8_t *before, const uint8_t *after, size_t table_len, uint8_t *map) {
    size_t block, i, changed = 0;
    for (i = 0; i < SPOT_MAP_BYTES; i++) map[i] = 0;
    for (block = 0; block < SPOT_MOST_BLOCKS && block < table_len / SPOT_BLOCK_BYTES; block++) {
        const size_t at = block * SPOT_BLOCK_BYTES;
        uint8_t differ = 0;
        for (i = 0; i < SPOT_BLOCK_BYTES; i++) differ = SPOT_CAST(uint8_t, differ | (before[at + i] ^ after[at + i]));
        if (differ == 0) continue;
        spot_mark(map, block);
        changed++;
    }
    return changed;
}

/* Whether a read map of 512 bytes marks the block: the bit of value 2^(block mod 8) in byte block div 8. No block from 4,096 on is marked. */
static inline int spot_marked(const uint8_t *map, size_t block) {
    return block < SPOT_MOST_BLOCKS && (map[block / 8] >> (block % 8) & 1) != 0;
}

/* Makes the empty table. */
uint64_t spot_format(uint8_t *table, spot_len table_len);

/* The number of live spots. */
uint64_t spot_count(const uint8_t *table, spot_len table_len);

/* Detail 1 if the table is sound, else 0. */
uint64_t spot_check(const uint8_t *table, spot_len table_len);

/* All live spots with x1 <= place <= x2 and rank >= y, rising in place order (by place, then by rank), 12 bytes each: place, rank, track, big-endian.
 * If x1 is greater than x2, the range runs on past the door: the spots of all places from x1 up come first, followed by those of all places up to x2.
 * The read map marks the blocks read. The rest of the output stays as it was. */
uint64_t spot_report(const uint8_t *table, spot_len table_len, int32_t x1, int32_t x2, int32_t y,
                     uint8_t *output, spot_len output_len, uint8_t *read_map, spot_len read_map_len);

/* Up to 64 reports in one call: the spots of each range as spot_report gives them, in the order handed in, one range's behind the other's; spots of several ranges are
 * repeated. counts[i] is the number of spots of ranges[i]; detail, also after 5, is their sum. There are as many counts as ranges. The read map marks block 0 and the blocks
 * that any of the reports reads. Without ranges only block 0 is read, and the call is accepted with detail 0 if block 0 breaks no rule. */
#define SPOT_STACK_BLOCKS_READ 8192
uint64_t spot_report_many(const uint8_t *table, spot_len table_len, const struct spot_range *ranges, spot_len ranges_len, uint32_t *counts, spot_len counts_len,
                          uint8_t *output, spot_len output_len, uint8_t *read_map, spot_len read_map_len);

/* Of the live spots with x1 <= place <= x2 the k of highest rank, the highest first; all, if fewer. Of equal ranks the lower place comes first, and stays where k cuts
 * between them. If x1 is greater than x2, the range runs on past the door as for spot_report; the order is the same. Output as for spot_report. The read map marks the
 * blocks that spot_report over the same places, from the rank of the last of the k spots, marks (from the least rank, if there are fewer than k), and for k = 0 block 0
 * alone. */
uint64_t spot_top(const uint8_t *table, spot_len table_len, int32_t x1, int32_t x2, uint32_t k,
                  uint8_t *output, spot_len output_len, uint8_t *read_map, spot_len read_map_len);

/* spot_top with a limit on the node blocks read: the root, which counts, then always the unread child with spots, in range, whose entry shows the highest rank (of equal ranks
 * the lower block number), until the allowance is used, k spots are given or no such child is left. It gives, in spot_top's order and up to k, the live spots found in range
 * whose rank is above that of every such child: always the first of those that spot_top gives. The ceiling is the highest rank of such a child or of a live spot found in range
 * and not given, else INT32_MIN: no other live spot of the range has a rank above it. A larger allowance never gives fewer spots nor a higher ceiling; one of as many node blocks
 * as spot_top reads gives spot_top's answer. With an allowance or a k of 0 block 0 alone is read, no spot is given, and the ceiling is INT32_MAX; after a refusal it is 0.
 * Refusal 5 is about the spots that this call gives. Output as for spot_report. The read map marks the blocks read. */
uint64_t spot_top_within(const uint8_t *table, spot_len table_len, int32_t x1, int32_t x2, uint32_t k, uint32_t allowance,
                         uint8_t *output, spot_len output_len, uint8_t *read_map, spot_len read_map_len, int32_t *ceiling);

/* The number of blocks that were read, block 0 included: those that a read map marks, as an accepted spot_report, spot_report_many, spot_top, spot_top_within or
 * spot_tour_report has left it. Refused with 2 where the map isn't 512 bytes. The map of blocks in use, 512 bytes from byte 12 of a table, is laid out the same, and its blocks
 * are counted the same. */
uint64_t spot_blocks_read(const uint8_t *read_map, spot_len read_map_len);

/* Puts the spot in; one of the same place and rank is replaced. A place outside the limits is refused with 9, also where the table is full. */
uint64_t spot_add(uint8_t *table, spot_len table_len, uint8_t *work, spot_len work_len, int32_t place, int32_t rank, uint32_t track);

/* Takes out the spot of this place and rank; where there is none the spots stay as they are, and the call is accepted. A place outside the limits is refused with 9. */
uint64_t spot_withdraw(uint8_t *table, spot_len table_len, uint8_t *work, spot_len work_len, int32_t place, int32_t rank);

/* Lays the live spots out anew: no change waits in the table then. */
uint64_t spot_rebuild(uint8_t *table, spot_len table_len, uint8_t *work, spot_len work_len);

/* Applies a message: its changes one after another, as spot_add and spot_withdraw would, or none of them. Of several changes to one place and rank the last decides. If one would be
 * turned down, the table stays as it was, and the number is that one's, with its position from 0 as detail: 4 for the first addition that finds no room, judged on the spots as the
#define SPOT_STACK_BLOCKS_READ 8192
 * changes before it leave them, even if all would fit in the end. The slice is the message and nothing behind it: message_len is the length in its first four bytes. Asked in this
 * order: 1, 2 (the work area), 8, 9 with a position, 3, 4 with a position. After 4, 8 and 9 the work area is as it was, too. */
uint64_t spot_apply(uint8_t *table, spot_len table_len, uint8_t *work, spot_len work_len, const uint8_t *message, spot_len message_len);

/* The message of up to 4,096 changes, SPOT_CHANGE_BYTES each (spot_write_change). It stands at the front of the lent bytes, 7 bytes and 13 for each addition and 9 for each withdrawal
 * (spot_message_len); those behind it stay as they were. Asked in this order: 8, 2 (the message finds no room), 9 with a position. */
uint64_t spot_write_message(const uint8_t *changes, spot_len changes_len, uint8_t *message, spot_len message_len);

/* The changes of a message, SPOT_CHANGE_BYTES each (spot_read_change), spot_message_changes of them, at the front of the lent bytes; those behind them stay as they were. The slice is
 * the message and nothing behind it. Asked in this order: 8, 2 (the changes find no room), 9 with a position. */
uint64_t spot_read_message(const uint8_t *message, spot_len message_len, uint8_t *changes, spot_len changes_len);

/* Presses a tour, a read-only table for a show that is hung once: up to 512 spots, 12 bytes each as spot_report gives them, strictly rising in place order (by place, then by
 * rank). At least SPOT_TOUR_BYTES are lent. The tour stands at their front: 1 block for no spots, else 2 for each 64 spots or part of them, 16 at most; its first four bytes are
#define SPOT_STACK_BLOCKS_READ 8192
 * its length in bytes (spot_tour_len). The bytes behind it stay as they were. The same spots always give the same bytes. */
uint64_t spot_press(const uint8_t *spots, spot_len spots_len, uint8_t *tour, spot_len tour_len);

/* spot_report on a tour: the same spots in the same order, and the same for a range past the door. The slice is the tour and nothing behind it: tour_len is the length in its first
 * four bytes. Bytes that spot_press didn't make are refused with 3, or answered with spots of the range from the blocks marked, of which there may be up to 960. */
uint64_t spot_tour_report(const uint8_t *tour, spot_len tour_len, int32_t x1, int32_t x2, int32_t y,
                          uint8_t *output, spot_len output_len, uint8_t *read_map, spot_len read_map_len);

#undef SPOT_CAST

#ifdef __cplusplus
}
#endif
#endif
