/* Prints the table of docs/GUIDES.md, part 3: how many blocks calls read and changes write, on cards of three sizes that are nine tenths full and in use. No times: those are in
 * docs/PERFORMANCE.md. */
#include <inttypes.h>
#include <stdio.h>
#include <stdlib.h>
#include <string.h>

#include "spot_table.h"

enum { ROUNDS = 1000, ROUTE = 200000 /* centimetres */, RANKS = 100 };

static uint8_t *table, *kept, *work, *output;
static size_t len, output_len;
static uint8_t map[SPOT_MAP_BYTES], list[SPOT_MOST_CHANGES * SPOT_CHANGE_BYTES], message[SPOT_MESSAGE_BYTES];
static uint32_t counted[ROUNDS], seed = 1;

static int32_t below(int32_t n) {
    seed = seed * 1664525u + 1013904223u;
    return (int32_t)((seed >> 4) % (uint32_t)n);
}

static uint32_t accepted(uint64_t answer) {
    if (spot_number(answer) != SPOT_OK) {
        fprintf(stderr, "figures: %s\n", spot_error_text(spot_number(answer)));
        exit(1);
    }
    return spot_detail(answer);
}

static uint32_t marked(void) {
    uint32_t n = 0;
    size_t block;
    for (block = 0; block < SPOT_MOST_BLOCKS; block++) n += spot_marked(map, block) != 0;
    return n;
}

static void print_number(uint32_t n) {
    if (n < 1000)
        printf("| %" PRIu32 " ", n);
    else
        printf("| %" PRIu32 ",%03" PRIu32 " ", n / 1000, n % 1000);
}

static int by_size(const void *a, const void *b) { return *(const uint32_t *)a < *(const uint32_t *)b ? -1 : *(const uint32_t *)a > *(const uint32_t *)b; }

/* Of the blocks counted: the mean, what 99 of 100 calls don't exceed, and the most. */
static void print_counted(void) {
    unsigned long sum = 0;
    int i;
    for (i = 0; i < ROUNDS; i++) sum += counted[i];
    qsort(counted, ROUNDS, sizeof counted[0], by_size);
    printf("| %.1f, %" PRIu32 ", %" PRIu32 " ", (double)sum / ROUNDS, counted[ROUNDS * 99 / 100], counted[ROUNDS - 1]);
}

static struct spot some_spot(void) {
    struct spot s;
    s.place = below(ROUTE);
    s.rank = below(RANKS);
    s.track = (uint32_t)below(1000000);
    return s;
}

/* Any live spot, by the report of a place and those behind it. */
static struct spot a_live_spot(void) {
    const int32_t place = below(ROUTE);
    accepted(spot_report(table, len, place, ROUTE, 0, output, output_len, map, sizeof map));
    return spot_read(output);
}

/* A change that was made: the blocks that it touched, which are then as the card has them. */
static uint32_t written_back(void) {
    const size_t n = spot_mark_changed(kept, table, len, map);
    size_t block;
    for (block = 0; block < len / SPOT_BLOCK_BYTES; block++)
        if (spot_marked(map, block)) memcpy(kept + block * SPOT_BLOCK_BYTES, table + block * SPOT_BLOCK_BYTES, SPOT_BLOCK_BYTES);
    return (uint32_t)n;
}

/* Additions of so many spots, as a message or one by one. */
static uint32_t add_random(size_t n, int one_by_one) {
    struct spot_change c;
    size_t i;
    for (i = 0; i < n; i++) {
        c.kind = SPOT_ADD;
        c.spot = some_spot();
        spot_write_change(list + SPOT_CHANGE_BYTES * i, c);
        if (one_by_one) accepted(spot_add(table, len, work, len, c.spot.place, c.spot.rank, c.spot.track));
    }
    if (!one_by_one) {
        accepted(spot_write_message(list, SPOT_CHANGE_BYTES * n, message, sizeof message));
        accepted(spot_apply(table, len, work, len, message, spot_message_len(message, sizeof message)));
    }
    return written_back();
}

static void fill(void) {
    const size_t due = spot_capacity(len) * 9 / 10;
    size_t live = 0;
    accepted(spot_format(table, len));
    memcpy(kept, table, len);
    while (live < due) {
        add_random(due - live < SPOT_MOST_CHANGES ? due - live : SPOT_MOST_CHANGES, 0);
        live = accepted(spot_count(table, len));
    }
}

static void changes(void) {
    int i;
    for (i = 0; i < ROUNDS; i++) {
        const struct spot s = i % 2 == 0 ? some_spot() : a_live_spot();
        accepted(i % 2 == 0 ? spot_add(table, len, work, len, s.place, s.rank, s.track) : spot_withdraw(table, len, work, len, s.place, s.rank));
        counted[i] = written_back();
    }
    print_counted();
}

static void questions(void) {
    struct spot_range ranges[8];
    uint32_t counts[8];
    int32_t ceiling;
    int i, k;
    for (i = 0; i < ROUNDS; i++) {
        const int32_t place = below(ROUTE);
        accepted(spot_top_within(table, len, place - 240, place + 240, 1, 4, output, output_len, map, sizeof map, &ceiling));
        counted[i] = marked();
    }
    print_counted();
    for (i = 0; i < ROUNDS; i++) {
        const int32_t place = below(ROUTE);
        accepted(spot_report(table, len, place, place + 2000, RANKS / 2, output, output_len, map, sizeof map));
        counted[i] = marked();
    }
    print_counted();
    for (i = 0; i < ROUNDS; i++) {
        const int32_t place = below(ROUTE);
        for (k = 0; k < 8; k++) {
            ranges[k].x1 = place + 500 * k;
            ranges[k].x2 = place + 500 * k + 400;
            ranges[k].y = RANKS / 2;
        }
        accepted(spot_report_many(table, len, ranges, 8, counts, 8, output, output_len, map, sizeof map));
        counted[i] = marked();
    }
    print_counted();
}

int main(void) {
    static const size_t sizes[] = {64, 512, 4096};
    size_t i;
    printf("| blocks | spots | Add or Withdraw: written | 16 of them | a message of 16 | best of 4.8 m: read | report of 20 m: read | 8 walls of 4 m: read |\n|---|---|---|---|---|---|---|---|\n");
    for (i = 0; i < sizeof sizes / sizeof sizes[0]; i++) {
        len = sizes[i] * SPOT_BLOCK_BYTES;
        output_len = 8 * spot_capacity(len) * SPOT_BYTES;
        table = (uint8_t *)malloc(len), kept = (uint8_t *)malloc(len), work = (uint8_t *)malloc(len), output = (uint8_t *)malloc(output_len);
        if (table == NULL || kept == NULL || work == NULL || output == NULL) return 2;
        fill();
        print_number((uint32_t)sizes[i]);
        print_number(accepted(spot_count(table, len)));
        changes();
        print_number(add_random(16, 1));
        print_number(add_random(16, 0));
        questions();
        printf("|\n");
        free(table), free(kept), free(work), free(output);
    }
    return 0;
}
