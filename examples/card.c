/* A card with four spots: made, filled, asked, printed; a tour pressed from what is left; and a message applied. Compiles as C99 and as C++:
 *   cc -std=c99 card.c $(pkg-config --cflags --libs spot_table)
 */
#include <inttypes.h>
#include <stdio.h>
#include <stdlib.h>

#include "spot_table.h"

#define BLOCKS 9
#define ROOM 128 /* 16 spots for each block after the first */
#define RANGES 2
#define CHANGES 2

static uint8_t table[BLOCKS * SPOT_BLOCK_BYTES];
static uint8_t work[BLOCKS * SPOT_BLOCK_BYTES];
static uint8_t output[ROOM * SPOT_BYTES];
static uint8_t read_map[SPOT_MAP_BYTES];
static uint8_t tour[SPOT_TOUR_BYTES];
static uint8_t listed[3 * SPOT_BYTES];
static uint8_t list[CHANGES * SPOT_CHANGE_BYTES];
static uint8_t message[SPOT_MESSAGE_BYTES];

/* The detail of an accepted call; a refusal ends the program. */
static uint32_t accepted(const char *call, uint64_t answer) {
    if (spot_number(answer) != SPOT_OK) {
        fprintf(stderr, "%s: %s\n", call, spot_error_text(spot_number(answer)));
        exit(1);
    }
    return spot_detail(answer);
}

static void print_from(uint32_t first, uint32_t n) {
    uint32_t i;
    for (i = first; i < first + n; i++) {
        struct spot s = spot_read(output + SPOT_BYTES * i);
        printf("  place %" PRId32 " cm, rank %" PRId32 ", track %" PRIu32 "\n", s.place, s.rank, s.track);
    }
}

static void print(uint32_t n) { print_from(0, n); }

int main(void) {
    static const struct spot spots[] = {{0, 5, 1}, {240, 7, 2}, {-120, 7, 3}, {600, -3, 4}};
    static const struct spot_range ranges[RANGES] = {{-200, 300, 0}, {100, 700, -5}};
    static const struct spot_change changes[CHANGES] = {{SPOT_WITHDRAW, {600, -3, 0}}, {SPOT_ADD, {0, 5, 9}}};
    static const struct spot_change too_far = {SPOT_ADD, {SPOT_HIGHEST_PLACE + 1, 5, 9}};
    uint32_t counts[RANGES];
    uint64_t answer;
    uint32_t n, first;
    int32_t ceiling;
    unsigned long i, len;

    accepted("format", spot_format(table, sizeof table));
    for (i = 0; i < sizeof spots / sizeof spots[0]; i++)
        accepted("add", spot_add(table, sizeof table, work, sizeof work, spots[i].place, spots[i].rank, spots[i].track));
    accepted("withdraw", spot_withdraw(table, sizeof table, work, sizeof work, 0, 5));

    n = accepted("report", spot_report(table, sizeof table, -200, 700, 0, output, sizeof output, read_map, sizeof read_map));
    printf("%" PRIu32 " spots from -200 to 700 cm with rank 0 or more:\n", n);
    print(n);
    printf("blocks read:");
    for (i = 0; i < SPOT_MOST_BLOCKS; i++)
        if (spot_marked(read_map, i)) printf(" %lu", i);
    printf("\n");

    n = accepted("report", spot_report(table, sizeof table, 240, -120, 0, output, sizeof output, read_map, sizeof read_map));
    printf("%" PRIu32 " spots from 240 cm on past the door to -120 cm with rank 0 or more:\n", n);
    print(n);

    n = accepted("report_many", spot_report_many(table, sizeof table, ranges, RANGES, counts, RANGES, output, sizeof output, read_map, sizeof read_map));
    printf("%d ranges in one call, %" PRIu32 " spots:\n", RANGES, n);
    for (i = 0, first = 0; i < RANGES; first += counts[i++]) {
        printf(" %" PRIu32 " from %" PRId32 " to %" PRId32 " cm with rank %" PRId32 " or more:\n", counts[i], ranges[i].x1, ranges[i].x2, ranges[i].y);
        print_from(first, counts[i]);
    }

    n = accepted("top", spot_top(table, sizeof table, INT32_MIN, INT32_MAX, 1, output, sizeof output, read_map, sizeof read_map));
    printf("the best of all:\n");
    print(n);

    n = accepted("top_within", spot_top_within(table, sizeof table, INT32_MIN, INT32_MAX, 2, 1, output, sizeof output, read_map, sizeof read_map, &ceiling));
    printf("of the best two, %" PRIu32 " are certain once one node block is read; no other spot has a rank above %" PRId32 ":\n", n, ceiling);
    print(n);

    answer = spot_report(table, sizeof table, -200, 700, 0, output, SPOT_BYTES, read_map, sizeof read_map);
    printf("with room for one: %" PRIu32 ", %s (%" PRIu32 ")\n", spot_number(answer), spot_error_text(spot_number(answer)), spot_detail(answer));

    answer = spot_add(table, sizeof table, work, sizeof work, SPOT_HIGHEST_PLACE + 1, 5, 5);
    printf("a spot one centimetre too far: %" PRIu32 ", %s\n", spot_number(answer), spot_error_text(spot_number(answer)));

    n = accepted("report", spot_report(table, sizeof table, INT32_MIN, INT32_MAX, INT32_MIN, listed, sizeof listed, read_map, sizeof read_map));
    accepted("press", spot_press(listed, SPOT_BYTES * n, tour, sizeof tour));
    len = spot_tour_len(tour, sizeof tour);
    printf("a tour of the %" PRIu32 " spots of the table: %lu blocks\n", n, len / SPOT_BLOCK_BYTES);
    n = accepted("tour_report", spot_tour_report(tour, len, 200, -100, -5, output, sizeof output, read_map, sizeof read_map));
    printf("%" PRIu32 " of them from 200 cm on past the door to -100 cm with rank -5 or more:\n", n);
    print(n);
    spot_write(listed, spots[3]);
    answer = spot_press(listed, sizeof listed, tour, sizeof tour);
    printf("with the last spot first: %" PRIu32 ", %s\n", spot_number(answer), spot_error_text(spot_number(answer)));

    for (i = 0; i < CHANGES; i++) spot_write_change(list + SPOT_CHANGE_BYTES * i, changes[i]);
    accepted("write_message", spot_write_message(list, sizeof list, message, sizeof message));
    len = spot_message_len(message, sizeof message);
    printf("a message of %d changes, %lu bytes, is sent\n", CHANGES, len);
    /* Whoever receives it passes the number of bytes that came, not the length that stands in them. */
    answer = spot_apply(table, sizeof table, work, sizeof work, message, len - 1);
    printf("with its last byte lost: %" PRIu32 ", %s\n", spot_number(answer), spot_error_text(spot_number(answer)));
    accepted("apply", spot_apply(table, sizeof table, work, sizeof work, message, len));
    printf("whole; after it:\n");
    n = accepted("report", spot_report(table, sizeof table, INT32_MIN, INT32_MAX, INT32_MIN, output, sizeof output, read_map, sizeof read_map));
    print(n);
    accepted("read_message", spot_read_message(message, len, list, sizeof list));
    printf("its first change %s rank %" PRId32 "\n", spot_read_change(list).kind == SPOT_ADD ? "adds" : "withdraws", spot_read_change(list).spot.rank);
    spot_write_change(list + SPOT_CHANGE_BYTES, too_far);
    answer = spot_write_message(list, sizeof list, message, sizeof message);
    printf("with its second one centimetre too far: %" PRIu32 " (%" PRIu32 "), %s\n", spot_number(answer), spot_detail(answer), spot_error_text(spot_number(answer)));

    n = accepted("check", spot_check(table, sizeof table));
    printf("%" PRIu32 " live spots, %s\n", accepted("count", spot_count(table, sizeof table)), n ? "sound" : "not sound");
    return n ? 0 : 1;
}
