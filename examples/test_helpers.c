/* Tests the helpers of the header. Every buffer has exactly the bytes that the helper is told of, and the address sanitizer watches over them: examples/check builds this with it where a
 * compiler has one. */
#include <stdio.h>
#include <stdlib.h>
#include <string.h>

#include "spot_table.h"

#define CHECK(what) ((what) ? (void)0 : failed(__LINE__, #what))

static unsigned long checks;

static void failed(int line, const char *what) {
    fprintf(stderr, "test_helpers.c:%d: %s\n", line, what);
    exit(1);
}

/* A copy in memory of its own, exactly as long. */
static uint8_t *exactly(const uint8_t *bytes, size_t n) {
    uint8_t *copy = (uint8_t *)malloc(n == 0 ? 1 : n);
    if (copy == NULL) exit(2);
    if (n == 0) {
        free(copy);
        return NULL;
    }
    memcpy(copy, bytes, n);
    return copy;
}

static uint8_t table[SPOT_FEWEST_BLOCKS * SPOT_BLOCK_BYTES];
static uint8_t work[sizeof table];

static uint64_t apply(const uint8_t *message, size_t n) { return spot_apply(table, sizeof table, work, sizeof work, message, n); }

/* A message of two changes whose length field says `said`, of which `received` bytes came. */
static void one_message(uint32_t said, size_t received) {
    static const uint8_t whole[] = {0, 0, 0, 29, 1, 0, 2, 2, 0, 0, 2, 88, 255, 255, 255, 253, 1, 0, 0, 0, 0, 0, 0, 0, 5, 0, 0, 0, 9, 77, 77, 77};
    uint8_t bytes[sizeof whole], *own;
    const uint64_t due = said == 29 && received == 29 ? SPOT_OK : SPOT_NOT_A_MESSAGE;
    size_t len, i;
    memcpy(bytes, whole, sizeof whole);
    for (i = 0; i < 4; i++) bytes[i] = (uint8_t)(said >> (24 - 8 * i) & 0xffu);
    own = exactly(bytes, received);
    len = spot_message_len(own, received);
    CHECK(len <= received);
    CHECK(len == (received >= 4 && said >= 7 && said <= received ? said : 0));
    CHECK(spot_message_changes(own, received) == (received < 7 ? 0u : 2u));
    CHECK(spot_number(apply(own, received)) == due);
    CHECK(spot_number(apply(own, len)) == (len == 29 ? SPOT_OK : SPOT_NOT_A_MESSAGE));
    free(own);
    checks++;
}

static void messages(void) {
    static const uint32_t lies[] = {0, 1, 3, 4, 6, 7, 8, 28, 29, 30, 31, 32, 33, 2048, 53255, 53256, 0x7fffffffu, 0x80000000u, 0xfffffff9u, 0xffffffffu};
    size_t i, received;
    CHECK(spot_number(spot_format(table, sizeof table)) == SPOT_OK);
    for (i = 0; i < sizeof lies / sizeof lies[0]; i++)
        for (received = 0; received <= 32; received++) one_message(lies[i], received);
    CHECK(spot_detail(spot_count(table, sizeof table)) == 1);
}

/* Messages one behind the other, the last cut short: each is applied, and the rest is left. */
static void stream(void) {
    uint8_t list[SPOT_CHANGE_BYTES], bytes[3 * 20], *own;
    struct spot_change change = {SPOT_ADD, {0, 7, 1}};
    size_t at = 0, left, len, applied = 0;
    int i;
    CHECK(spot_number(spot_format(table, sizeof table)) == SPOT_OK);
    for (i = 0; i < 3; i++, change.spot.place += 10) {
        spot_write_change(list, change);
        CHECK(spot_number(spot_write_message(list, sizeof list, bytes + 20 * i, 20)) == SPOT_OK);
    }
    left = sizeof bytes - 1;
    own = exactly(bytes, left);
    while ((len = spot_message_len(own + at, left)) != 0) {
        CHECK(spot_number(apply(own + at, len)) == SPOT_OK);
        at += len;
        left -= len;
        applied++;
    }
    CHECK(applied == 2 && left == 19 && spot_detail(spot_count(table, sizeof table)) == 2);
    free(own);
    checks++;
}

static void one_tour(const uint8_t *tour, uint32_t said, size_t received) {
    uint8_t *own = exactly(tour, received), output[SPOT_BYTES], map[SPOT_MAP_BYTES];
    size_t len, i;
    uint32_t number;
    for (i = 0; i < 4 && i < received; i++) own[i] = (uint8_t)(said >> (24 - 8 * i) & 0xffu);
    len = spot_tour_len(own, received);
    CHECK(len <= received);
    CHECK(len == (received >= 4 && said % SPOT_BLOCK_BYTES == 0 && said <= received ? said : 0));
    number = spot_number(spot_tour_report(own, received, 0, 9, 0, output, sizeof output, map, sizeof map));
    if (received == said && said == 4096) {
        CHECK(number == SPOT_OK);
    } else {
        CHECK(number == (received % SPOT_BLOCK_BYTES == 0 && received != 0 ? SPOT_BROKEN : SPOT_TABLE_LENGTH));
    }
    free(own);
    checks++;
}

static void tours(void) {
    static const uint32_t lies[] = {0, 1, 4, 2047, 2048, 2049, 4095, 4096, 4097, 6144, 32768, 34816, 0x80000000u, 0xfffff800u, 0xffffffffu};
    static const size_t received[] = {0, 1, 3, 4, 5, 7, 2047, 2048, 2049, 4095, 4096, 4097, 6144};
    static uint8_t tour[SPOT_TOUR_BYTES];
    uint8_t spot[SPOT_BYTES];
    const struct spot s = {5, 7, 1};
    size_t i, k;
    spot_write(spot, s);
    CHECK(spot_number(spot_press(spot, sizeof spot, tour, sizeof tour)) == SPOT_OK);
    CHECK(spot_tour_len(tour, sizeof tour) == 4096);
    for (i = 0; i < sizeof lies / sizeof lies[0]; i++)
        for (k = 0; k < sizeof received / sizeof received[0]; k++) one_tour(tour, lies[i], received[k]);
}

/* The marked blocks, and no others, are those in which the tables differ; written back, they make one the other. */
static void one_change(const uint8_t *before, const uint8_t *after, size_t len) {
    uint8_t map[SPOT_MAP_BYTES], *own = exactly(before, len);
    size_t block, marked = 0;
    memset(map, 0xa5, sizeof map);
    CHECK(spot_mark_changed(before, after, len, map) <= len / SPOT_BLOCK_BYTES);
    for (block = 0; block < SPOT_MOST_BLOCKS + 9; block++) {
        const size_t at = block * SPOT_BLOCK_BYTES;
        CHECK(spot_marked(map, block) == (at < len && memcmp(before + at, after + at, SPOT_BLOCK_BYTES) != 0));
        if (!spot_marked(map, block)) continue;
        memcpy(own + at, after + at, SPOT_BLOCK_BYTES);
        marked++;
    }
    CHECK(memcmp(own, after, len) == 0 && spot_mark_changed(before, after, len, map) == marked);
    free(own);
    checks++;
}

static void changes(void) {
    enum { LEN = 40 * SPOT_BLOCK_BYTES };
    static uint8_t own[LEN], before[LEN], area[LEN], map[SPOT_MAP_BYTES];
    uint32_t random = 1;
    size_t i;
    int32_t n;
    CHECK(spot_number(spot_format(own, sizeof own)) == SPOT_OK);
    for (n = 0; n < 900; n++) {
        memcpy(before, own, sizeof own);
        random = random * 1664525u + 1013904223u;
        CHECK(spot_number(spot_add(own, sizeof own, area, sizeof area, n * 7919 % 1000, (int32_t)(random >> 16), 1)) == (n < 624 ? SPOT_OK : SPOT_FULL));
        one_change(before, own, sizeof own);
    }
    CHECK(spot_number(spot_rebuild(own, sizeof own, area, sizeof area)) == SPOT_OK);
    one_change(before, own, sizeof own);
    for (i = 0; i < sizeof own; i += 997) {
        memcpy(before, own, sizeof own);
        before[i] ^= 1;
        CHECK(spot_mark_changed(before, own, sizeof own, map) == 1 && spot_marked(map, i / SPOT_BLOCK_BYTES));
        one_change(before, own, sizeof own);
    }
    spot_mark(map, SPOT_MOST_BLOCKS);
    CHECK(spot_mark_changed(own, own, sizeof own, map) == 0);
}

static void version(void) {
    char text[40];
    sprintf(text, "%d.%d.%d", SPOT_VERSION_MAJOR, SPOT_VERSION_MINOR, SPOT_VERSION_PATCH);
    CHECK(strcmp(text, SPOT_VERSION) == 0);
#if SPOT_VERSION_NUMBER < 2000
#error "the number is not that of 0.2.0 or a later version"
#endif
}

int main(void) {
    version();
    messages();
    stream();
    tours();
    changes();
    printf("test_helpers.c: %lu cases\n", checks);
    return 0;
}
