/* Cuts the power at every step of journal.h. The device keeps what was written since the last sync apart; when the power is cut, each of these blocks is lost, written or torn, as chance has
 * it, and so may be the one that is being written. After each cut the card is opened again, with another cut in the middle of that: it has to be the one before the change or the one after
 * it, and the one after it where the change was said to be made. Then bytes of the card are changed: a card that opens has the table that was written. */
#include <stdio.h>
#include <stdlib.h>

#include "journal.h"
#include "packet.h"

enum { BLOCKS = 24, TIMES = 4 /* that chance has at each step */, LEN = BLOCKS * SPOT_BLOCK_BYTES, DEVICE = 2 + 2 * BLOCKS };

#define CHECK(what) ((what) ? (void)0 : failed(__LINE__, #what))

static uint8_t stable[DEVICE][SPOT_BLOCK_BYTES], waiting[DEVICE][SPOT_BLOCK_BYTES], saved[DEVICE][SPOT_BLOCK_BYTES];
static int waits[DEVICE];
static long until_cut = -1; /* steps of the device; under 0 there is no cut */
static int off;
static unsigned long cuts, writes;
static uint32_t seed = 7;

static void failed(int line, const char *what) {
    fprintf(stderr, "test_cuts.c:%d: %s (cut %lu)\n", line, what, cuts);
    exit(1);
}

static uint32_t below(uint32_t n) {
    seed = seed * 1664525u + 1013904223u;
    return (seed >> 8) % n;
}

/* A block as chance leaves it: as it was, as it should be, or some of its bytes. */
static void by_chance(uint32_t block) {
    const uint32_t how = below(4), end = below(SPOT_BLOCK_BYTES);
    if (how == 0) memcpy(stable[block], waiting[block], SPOT_BLOCK_BYTES);
    if (how == 1) memcpy(stable[block], waiting[block], end);
    if (how == 2) memcpy(stable[block] + end, waiting[block] + end, SPOT_BLOCK_BYTES - end);
}

/* Whether the power is cut at this step. */
static int cut(void) {
    uint32_t b;
    if (off) return 1;
    if (until_cut < 0 || until_cut-- > 0) return 0;
    for (b = 0; b < DEVICE; b++)
        if (waits[b]) by_chance(b);
    memset(waits, 0, sizeof waits);
    off = 1;
    cuts++;
    return 1;
}

static int read_block(void *self, uint32_t block, uint8_t *bytes) {
    (void)self;
    CHECK(block < DEVICE);
    memcpy(bytes, waits[block] ? waiting[block] : stable[block], SPOT_BLOCK_BYTES);
    return off;
}

static int write_block(void *self, uint32_t block, const uint8_t *bytes) {
    (void)self;
    CHECK(block < DEVICE);
    if (off) return 1;
    memcpy(waiting[block], bytes, SPOT_BLOCK_BYTES);
    waits[block] = 1;
    writes++;
    return cut();
}

static int sync_blocks(void *self) {
    uint32_t b;
    (void)self;
    if (cut()) return 1;
    for (b = 0; b < DEVICE; b++)
        if (waits[b]) memcpy(stable[b], waiting[b], SPOT_BLOCK_BYTES);
    memset(waits, 0, sizeof waits);
    return 0;
}

static const struct journal_device device = {NULL, read_block, write_block, sync_blocks};
static uint8_t table[LEN], kept[LEN], work[LEN], found[LEN];

static void power_on(long steps) {
    off = 0;
    until_cut = steps;
}

static int is(const struct journal_state *a, const uint8_t *bytes, const struct journal_state *b, const uint8_t *others) {
    return a->change == b->change && a->message == b->message && a->sum == b->sum && memcmp(bytes, others, LEN) == 0;
}

/* Commits the change from `kept` to `table` with a cut after so many steps. Whether it went through without one. */
static int commit_and_cut(const struct journal_state *before, uint64_t message, long steps) {
    struct journal_state state = *before, after, opened;
    size_t changed;
    int made;
    after = *before;
    after.change++;
    after.message = message;
    after.sum = journal_sum(0, table, LEN);
    memcpy(stable, saved, sizeof stable);
    power_on(steps);
    made = journal_commit(&device, kept, table, message, &state, &changed) == JOURNAL_OK;
    if (made && !off) return 1;
    CHECK(off);
    while (off) {
        power_on((long)below(below(2) == 0 ? 6 : 2 * BLOCKS));
        if (journal_open(&device, found, sizeof found, &opened) == JOURNAL_OK) break;
        CHECK(off);
    }
    CHECK(is(&opened, found, &after, table) || (!made && is(&opened, found, before, kept)));
    power_on(-1);
    CHECK(journal_open(&device, found, sizeof found, &opened) == JOURNAL_OK);
    CHECK(is(&opened, found, &after, table) || (!made && is(&opened, found, before, kept)));
    return 0;
}

/* Another table: one spot more or less, several changes at once, or all laid out anew. */
static void change_table(int round) {
    int i, n = round % 10 == 9 ? 60 : 1;
    if (round % 25 == 24) CHECK(spot_number(spot_rebuild(table, LEN, work, LEN)) == SPOT_OK);
    for (i = 0; i < n; i++) {
        const int32_t place = (int32_t)below(300), rank = (int32_t)below(3);
        const uint64_t answer =
            below(5) < 3 ? spot_add(table, LEN, work, LEN, place, rank, below(1000)) : spot_withdraw(table, LEN, work, LEN, place, rank);
        CHECK(spot_number(answer) == SPOT_OK || spot_number(answer) == SPOT_FULL);
    }
}

static void damage(const struct journal_state *state) {
    struct journal_state opened;
    int i, refused = 0;
    memcpy(saved, stable, sizeof saved);
    for (i = 0; i < 2000; i++) {
        uint8_t *bytes = stable[below(DEVICE)];
        int k, n = 1 + (int)below(3);
        for (k = 0; k < n; k++) bytes[below(SPOT_BLOCK_BYTES)] ^= (uint8_t)(1 + below(255));
        if (journal_open(&device, found, sizeof found, &opened) == JOURNAL_OK)
            CHECK(is(&opened, found, state, table));
        else
            refused++;
        memcpy(stable, saved, sizeof stable);
        memset(waits, 0, sizeof waits);
    }
    CHECK(refused > 0 && refused < 2000);
}

static void seals(void) {
    /* RFC 4231, cases 2 and 6, and FIPS 180-4's "abc" by way of the inner digest */
    static const uint8_t two[32] = {0x5b, 0xdc, 0xc1, 0x46, 0xbf, 0x60, 0x75, 0x4e, 0x6a, 0x04, 0x24, 0x26, 0x08, 0x95, 0x75, 0xc7,
                                    0x5a, 0x00, 0x3f, 0x08, 0x9d, 0x27, 0x39, 0x83, 0x9d, 0xec, 0x58, 0xb9, 0x64, 0xec, 0x38, 0x43};
    static const uint8_t six[32] = {0x60, 0xe4, 0x31, 0x59, 0x1e, 0xe0, 0xb6, 0x7f, 0x0d, 0x8a, 0x26, 0xaa, 0xcb, 0xf5, 0xb7, 0x7f,
                                    0x8e, 0x0b, 0xc6, 0x21, 0x37, 0x28, 0xc5, 0x14, 0x05, 0x46, 0x04, 0x0f, 0x0e, 0xe3, 0x7f, 0x54};
    static const char *const words = "what do ya want for nothing?", *const larger = "Test Using Larger Than Block-Size Key - Hash Key First";
    uint8_t seal[PACKET_SEAL], key[131], sealed[PACKET_NUMBER + 7 + PACKET_SEAL] = {0, 0, 0, 0, 0, 0, 0, 9, 0, 0, 0, 7, 1};
    size_t i;
    packet_seal((const uint8_t *)"Jefe", 4, (const uint8_t *)words, strlen(words), seal);
    CHECK(memcmp(seal, two, sizeof seal) == 0);
    memset(key, 0xaa, sizeof key);
    packet_seal(key, sizeof key, (const uint8_t *)larger, strlen(larger), seal);
    CHECK(memcmp(seal, six, sizeof seal) == 0);
    packet_seal(key, 20, sealed, PACKET_NUMBER + 7, sealed + PACKET_NUMBER + 7);
    CHECK(packet_genuine(key, 20, sealed, sizeof sealed) && packet_number(sealed) == 9);
    for (i = 0; i < sizeof sealed; i++) {
        CHECK(!packet_genuine(key, 20, sealed, i));
        sealed[i] ^= 1;
        CHECK(!packet_genuine(key, 20, sealed, sizeof sealed));
        sealed[i] ^= 1;
    }
    CHECK(!packet_genuine(key, 19, sealed, sizeof sealed));
}

int main(int n, char **args) {
    const int changes = n > 1 ? atoi(args[1]) : 100;
    struct journal_state state;
    size_t changed;
    int round;
    seals();
    CHECK(journal_open(&device, found, sizeof found, &state) == JOURNAL_NO_CARD);
    CHECK(spot_number(spot_format(table, LEN)) == SPOT_OK);
    for (round = 0; round < 5; round++) change_table(9);
    CHECK(journal_format(&device, table, BLOCKS, &state) == JOURNAL_OK);
    CHECK(journal_open(&device, found, LEN - 1, &state) == JOURNAL_TOO_LARGE);
    writes = 0;
    for (round = 0; round < changes; round++) {
        const uint64_t message = state.message + (round % 3 == 0);
        long steps;
        memcpy(kept, table, LEN);
        memcpy(saved, stable, sizeof saved);
        change_table(round);
        for (steps = 0; !commit_and_cut(&state, message, steps / TIMES); steps++) {
        }
        memcpy(stable, saved, sizeof stable);
        power_on(-1);
        CHECK(journal_commit(&device, kept, table, message, &state, &changed) == JOURNAL_OK);
    }
    damage(&state);
    printf("test_cuts.c: %d changes, the power cut at every step of each, %lu cuts\n", changes, cuts);
    return 0;
}
