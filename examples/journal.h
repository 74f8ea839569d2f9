/* A card that survives a power cut: a table, and a journal of the blocks that the last change wrote. docs/GUIDES.md, part 6, says why this holds; test_cuts.c cuts the power at every step.
 *
 * The device has blocks of 2,048 bytes: the state (0), the head of the journal (1), the n blocks of the table, and room for n blocks in the journal. A change
 *   1. writes the blocks that it changed to the journal's room, and the head, which names them, has the new state and a sum of all this; and waits until they are there. The change is made.
 *   2. writes the same blocks to the table, and the new state; and waits.
 * When the guide is switched on, step 2 is done again if the head is whole, its blocks too, and it is one change ahead of block 0 or the table is not as block 0 says. A head that isn't whole
 * never was.
 *
 * Two things are asked of the device: what was written before a sync that succeeded stays as it is, and a write that is cut short spoils no block but those written since then. */
#ifndef JOURNAL_H
#define JOURNAL_H

#include <string.h>

#include "spot_table.h"

/* Each call gives 0, or something else where it failed. */
struct journal_device {
    void *self;
    int (*read)(void *self, uint32_t block, uint8_t *bytes);
    int (*write)(void *self, uint32_t block, const uint8_t *bytes);
    int (*sync)(void *self);
};

enum journal_error {
    JOURNAL_OK = 0,
    JOURNAL_DEVICE = 1,    /* the device failed: whether the change is made is known after the next journal_open */
    JOURNAL_NO_CARD = 2,   /* block 0 has no state that is whole */
    JOURNAL_TOO_LARGE = 3, /* the table has more bytes than are lent for it */
    JOURNAL_DAMAGED = 4    /* the table is not as block 0 says */
};

struct journal_state {
    uint32_t blocks;  /* of the table */
    uint32_t sum;     /* CRC-32 of the table */
    uint64_t change;  /* the number of the last change */
    uint64_t message; /* the number of the last message applied: it moves with the table, or not at all */
};

enum {
    JOURNAL_HEAD = 1,
    JOURNAL_TABLE = 2,
    JOURNAL_STATE_BYTES = 36, /* of which the last four are a sum of the others */
    JOURNAL_MAP = JOURNAL_STATE_BYTES,
    JOURNAL_SUM = JOURNAL_MAP + SPOT_MAP_BYTES /* of the head up to here and of the blocks that it names */
};

static const char journal_state_name[] = "spotcard", journal_head_name[] = "spotjrnl";

static inline uint32_t journal_blocks_of_device(uint32_t blocks) { return JOURNAL_TABLE + 2 * blocks; }

/* CRC-32 of all bytes so far, the first time 0. Many processors have it built in. */
static inline uint32_t journal_sum(uint32_t sum, const uint8_t *bytes, size_t n) {
    static const uint32_t part[16] = {0x00000000u, 0x1db71064u, 0x3b6e20c8u, 0x26d930acu, 0x76dc4190u, 0x6b6b51f4u, 0x4db26158u, 0x5005713cu,
                                      0xedb88320u, 0xf00f9344u, 0xd6d6a3e8u, 0xcb61b38cu, 0x9b64c2b0u, 0x86d3d2d4u, 0xa00ae278u, 0xbdbdf21cu};
    size_t i;
    sum = ~sum;
    for (i = 0; i < n; i++) {
        sum ^= bytes[i];
        sum = sum >> 4 ^ part[sum & 15];
        sum = sum >> 4 ^ part[sum & 15];
    }
    return ~sum;
}

static inline void journal_put(uint8_t *bytes, uint64_t value, int n) {
    while (n-- > 0) {
        bytes[n] = (uint8_t)(value & 0xff);
        value >>= 8;
    }
}

static inline uint64_t journal_get(const uint8_t *bytes, int n) {
    uint64_t value = 0;
    int i;
    for (i = 0; i < n; i++) value = value << 8 | bytes[i];
    return value;
}

static inline void journal_write_state(uint8_t *bytes, const char *name, const struct journal_state *s) {
    memcpy(bytes, name, 8);
    journal_put(bytes + 8, s->blocks, 4);
    journal_put(bytes + 12, s->sum, 4);
    journal_put(bytes + 16, s->change, 8);
    journal_put(bytes + 24, s->message, 8);
    journal_put(bytes + 32, journal_sum(0, bytes, 32), 4);
}

/* Whether the bytes are a state of this name; a table has 9 to 4,096 blocks. */
static inline int journal_read_state(const uint8_t *bytes, const char *name, struct journal_state *s) {
    s->blocks = (uint32_t)journal_get(bytes + 8, 4);
    s->sum = (uint32_t)journal_get(bytes + 12, 4);
    s->change = journal_get(bytes + 16, 8);
    s->message = journal_get(bytes + 24, 8);
    return memcmp(bytes, name, 8) == 0 && journal_get(bytes + 32, 4) == journal_sum(0, bytes, 32) && s->blocks >= SPOT_FEWEST_BLOCKS && s->blocks <= SPOT_MOST_BLOCKS;
}

/* Step 2: the marked blocks into the table, from the bytes of a table or, where these are NULL, from the journal's room; and the state. */
static inline int journal_carry_out(const struct journal_device *d, const uint8_t *map, const struct journal_state *s, const uint8_t *table) {
    uint8_t bytes[SPOT_BLOCK_BYTES];
    uint32_t b;
    for (b = 0; b < s->blocks; b++) {
        if (!spot_marked(map, b)) continue;
        if (table == NULL && d->read(d->self, JOURNAL_TABLE + s->blocks + b, bytes) != 0) return JOURNAL_DEVICE;
        if (d->write(d->self, JOURNAL_TABLE + b, table == NULL ? bytes : table + (size_t)b * SPOT_BLOCK_BYTES) != 0) return JOURNAL_DEVICE;
    }
    memset(bytes, 0, sizeof bytes);
    journal_write_state(bytes, journal_state_name, s);
    return d->write(d->self, 0, bytes) != 0 || d->sync(d->self) != 0 ? JOURNAL_DEVICE : JOURNAL_OK;
}

/* Both steps, and how many blocks the change has touched. `kept` is what the card has: a copy in memory, or the card itself where it is mapped into it. After an error the card is to be
 * opened again. */
static inline int journal_commit(const struct journal_device *d, const uint8_t *kept, const uint8_t *table, uint64_t message, struct journal_state *state, size_t *changed) {
    const size_t len = (size_t)state->blocks * SPOT_BLOCK_BYTES;
    const struct journal_state next = {state->blocks, journal_sum(0, table, len), state->change + 1, message};
    uint8_t head[SPOT_BLOCK_BYTES];
    uint32_t b, sum;
    memset(head, 0, sizeof head);
    journal_write_state(head, journal_head_name, &next);
    *changed = spot_mark_changed(kept, table, len, head + JOURNAL_MAP);
    sum = journal_sum(0, head, JOURNAL_SUM);
    for (b = 0; b < next.blocks; b++) {
        const uint8_t *own = table + (size_t)b * SPOT_BLOCK_BYTES;
        if (!spot_marked(head + JOURNAL_MAP, b)) continue;
        if (d->write(d->self, JOURNAL_TABLE + next.blocks + b, own) != 0) return JOURNAL_DEVICE;
        sum = journal_sum(sum, own, SPOT_BLOCK_BYTES);
    }
    journal_put(head + JOURNAL_SUM, sum, 4);
    if (d->write(d->self, JOURNAL_HEAD, head) != 0 || d->sync(d->self) != 0) return JOURNAL_DEVICE;
    if (journal_carry_out(d, head + JOURNAL_MAP, &next, table) != JOURNAL_OK) return JOURNAL_DEVICE;
    *state = next;
    return JOURNAL_OK;
}

/* Whether the head is whole, with the blocks that it names. */
static inline int journal_read_head(const struct journal_device *d, uint8_t *head, struct journal_state *s, int *failed) {
    uint8_t bytes[SPOT_BLOCK_BYTES];
    uint32_t b, sum;
    *failed = d->read(d->self, JOURNAL_HEAD, head) != 0;
    if (*failed || !journal_read_state(head, journal_head_name, s)) return 0;
    sum = journal_sum(0, head, JOURNAL_SUM);
    for (b = 0; b < s->blocks; b++) {
        if (!spot_marked(head + JOURNAL_MAP, b)) continue;
        *failed = d->read(d->self, JOURNAL_TABLE + s->blocks + b, bytes) != 0;
        if (*failed) return 0;
        sum = journal_sum(sum, bytes, SPOT_BLOCK_BYTES);
    }
    return journal_get(head + JOURNAL_SUM, 4) == sum;
}

/* The state and the table as they stand. */
static inline int journal_load(const struct journal_device *d, uint8_t *table, size_t room, struct journal_state *state) {
    uint8_t bytes[SPOT_BLOCK_BYTES];
    uint32_t b;
    if (d->read(d->self, 0, bytes) != 0) return JOURNAL_DEVICE;
    if (!journal_read_state(bytes, journal_state_name, state)) return JOURNAL_NO_CARD;
    if (room / SPOT_BLOCK_BYTES < state->blocks) return JOURNAL_TOO_LARGE;
    for (b = 0; b < state->blocks; b++)
        if (d->read(d->self, JOURNAL_TABLE + b, table + (size_t)b * SPOT_BLOCK_BYTES) != 0) return JOURNAL_DEVICE;
    return journal_sum(0, table, (size_t)state->blocks * SPOT_BLOCK_BYTES) == state->sum ? JOURNAL_OK : JOURNAL_DAMAGED;
}

/* The card as the last change left it that was made: its table in the lent bytes, and its state. */
static inline int journal_open(const struct journal_device *d, uint8_t *table, size_t room, struct journal_state *state) {
    uint8_t head[SPOT_BLOCK_BYTES];
    struct journal_state made;
    int failed, whole = journal_read_head(d, head, &made, &failed);
    int as_it_stands = failed ? JOURNAL_DEVICE : journal_load(d, table, room, state);
    if (as_it_stands == JOURNAL_DEVICE || as_it_stands == JOURNAL_TOO_LARGE || !whole) return as_it_stands;
    if (as_it_stands != JOURNAL_NO_CARD) {
        /* the head has a say if it is one change ahead of block 0, or of the same change where the table is not as block 0 says */
        const uint64_t ahead = made.change - state->change;
        if (made.blocks != state->blocks || ahead > 1 || (ahead == 0 && as_it_stands == JOURNAL_OK)) return as_it_stands;
    }
    if (journal_carry_out(d, head + JOURNAL_MAP, &made, NULL) != JOURNAL_OK) return JOURNAL_DEVICE;
    return journal_load(d, table, room, state);
}

/* A card with this table. The old journal goes first, and the state comes last: until then there is no card. */
static inline int journal_format(const struct journal_device *d, const uint8_t *table, uint32_t blocks, struct journal_state *state) {
    static const uint8_t zeros[SPOT_BLOCK_BYTES];
    const struct journal_state first = {blocks, journal_sum(0, table, (size_t)blocks * SPOT_BLOCK_BYTES), 0, 0};
    uint8_t all[SPOT_MAP_BYTES];
    memset(all, 0xff, sizeof all);
    if (d->write(d->self, JOURNAL_HEAD, zeros) != 0 || d->sync(d->self) != 0) return JOURNAL_DEVICE;
    if (d->write(d->self, 0, zeros) != 0 || d->sync(d->self) != 0) return JOURNAL_DEVICE;
    *state = first;
    return journal_carry_out(d, all, &first, table);
}

#endif
