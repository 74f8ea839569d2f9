/* The loop of an audio guide: what a visitor hears, the plan of a room, messages of the house, and a pressed tour to fall back on. docs/GUIDES.md walks through it.
 *   guide CARD TOUR KEY < events
 * CARD is a card as journal.h lays it out, TOUR a pressed tour, KEY the key of the house (office.c makes all three). The events stand for sensors and radio, one a line:
 *   at PLACE      the visitor stands there        ahead PLACE    which tracks are to be fetched next
 *   room          a plan of the room is drawn     tour PLACE     the visitor chose the permanent tour
 *   packet FILE   a packet came over the air
 */
#define _POSIX_C_SOURCE 200809L
#include <inttypes.h>
#include <stdio.h>
#include <stdlib.h>

#include "file_device.h"
#include "packet.h"

#define MEMORY (64 * SPOT_BLOCK_BYTES) /* for the table; a card of fewer blocks is taken, too */
#define SPOTS (16 * 63)                /* that such a table holds */
#define WALLS 4
#define REACH 240  /* centimetres: what is heard from where one stands */
#define AHEAD 2000 /* centimetres: what is fetched */
#define LEAST 3    /* the lowest rank that is fetched */
#define HURRY 4    /* node blocks that may be read before something has to be played */
#define SHORT 16   /* changes of a message that is carried out one by one */

/* The walls of the room; the last runs on past the door. */
static const struct spot_range room[WALLS] = {{0, 1500, LEAST}, {1500, 2000, LEAST}, {2000, 3500, LEAST + 2}, {9500, 300, LEAST}};

static uint8_t table[MEMORY], kept[MEMORY], work[MEMORY]; /* the table, what the card has of it, and the work area of changes */
static uint8_t output[WALLS * SPOTS * SPOT_BYTES], read_map[SPOT_MAP_BYTES];
static uint8_t tour[SPOT_TOUR_BYTES], packet[PACKET_MOST + 1], key[64];
static size_t tour_len, key_len;

struct guide {
    struct journal_device device;
    struct journal_state state;
    size_t table_len;
    int card_is_good; /* else only the tour is asked */
};

static unsigned blocks_read(void) {
    unsigned n = 0;
    size_t block;
    for (block = 0; block < SPOT_MOST_BLOCKS; block++) n += spot_marked(read_map, block) != 0;
    return n;
}

static void card_is_bad(struct guide *g, const char *why) {
    printf("the card is not used: %s; the tour goes on\n", why);
    g->card_is_good = 0;
}

/* Whether a question was answered. A table that breaks a rule where it was sound when the guide was switched on: memory or card are failing. No other refusal is possible here. */
static int answered(struct guide *g, uint64_t answer) {
    if (spot_number(answer) == SPOT_OK) return 1;
    card_is_bad(g, spot_error_text(spot_number(answer)));
    return 0;
}

static void open_card(struct guide *g) {
    static const char *const why[] = {"", "it can't be read", "it is no card of a guide", "it is larger than the memory", "its bytes have changed"};
    const int error = journal_open(&g->device, table, sizeof table, &g->state);
    uint64_t sound;
    g->card_is_good = error == JOURNAL_OK;
    if (error != JOURNAL_OK) {
        card_is_bad(g, why[error]);
        return;
    }
    g->table_len = (size_t)g->state.blocks * SPOT_BLOCK_BYTES;
    memcpy(kept, table, g->table_len);
    sound = spot_check(table, g->table_len);
    if (spot_number(sound) != SPOT_OK || spot_detail(sound) != 1) {
        card_is_bad(g, "its table is not sound");
        return;
    }
    printf("card: message %" PRIu64 ", %" PRIu32 " spots, sum %08" PRIx32 "\n", g->state.message, spot_detail(spot_count(table, g->table_len)), g->state.sum);
}

static void print_spots(uint32_t first, uint32_t n) {
    uint32_t i;
    for (i = first; i < first + n; i++) {
        const struct spot s = spot_read(output + SPOT_BYTES * i);
        printf(" %" PRIu32 " (%" PRId32 " cm, rank %" PRId32 ")", s.track, s.place, s.rank);
    }
}

/* The tour around a place: all its spots there. */
static void from_tour(int32_t place) {
    const uint64_t answer = spot_tour_report(tour, tour_len, place - REACH, place + REACH, LEAST, output, sizeof output, read_map, sizeof read_map);
    printf("tour %" PRId32 ":", place);
    if (spot_number(answer) == SPOT_OK)
        print_spots(0, spot_detail(answer));
    else
        printf(" %s", spot_error_text(spot_number(answer)));
    printf("\n");
}

/* The best spot within reach, with little reading: what is certain by then is played. Where nothing is, but something may stand here, as where many have one rank, all is read. */
static void visitor_at(struct guide *g, int32_t place) {
    const int32_t from = place - REACH, to = place + REACH;
    int32_t ceiling;
    uint64_t answer = spot_top_within(table, g->table_len, from, to, 1, HURRY, output, sizeof output, read_map, sizeof read_map, &ceiling);
    const unsigned in_a_hurry = blocks_read();
    if (spot_number(answer) == SPOT_OK && spot_detail(answer) == 0 && ceiling != INT32_MIN)
        answer = spot_top(table, g->table_len, from, to, 1, output, sizeof output, read_map, sizeof read_map);
    if (!answered(g, answer)) {
        from_tour(place);
        return;
    }
    printf("at %" PRId32 ": play", place);
    print_spots(0, spot_detail(answer));
    printf("%s; %u blocks read", spot_detail(answer) == 0 ? " nothing" : "", in_a_hurry);
    if (blocks_read() > in_a_hurry) printf(", and then %u", blocks_read());
    printf("\n");
}

static void ahead_of(struct guide *g, int32_t place) {
    const uint64_t answer = spot_report(table, g->table_len, place, place + AHEAD, LEAST, output, sizeof output, read_map, sizeof read_map);
    if (!answered(g, answer)) return;
    printf("ahead of %" PRId32 ": fetch", place);
    print_spots(0, spot_detail(answer));
    printf("; %u blocks read\n", blocks_read());
}

static void plan_of_room(struct guide *g) {
    uint32_t counts[WALLS], first = 0;
    const uint64_t answer = spot_report_many(table, g->table_len, room, WALLS, counts, WALLS, output, sizeof output, read_map, sizeof read_map);
    int i;
    if (!answered(g, answer)) return;
    printf("room: %u blocks read\n", blocks_read());
    for (i = 0; i < WALLS; first += counts[i++]) {
        printf("  wall %d:", i + 1);
        print_spots(first, counts[i]);
        printf("\n");
    }
}

/* A message of few changes by single calls: they touch few blocks, where spot_apply lays all out anew. All or nothing all the same: what was done before a refusal is taken back from what
 * the card has. The detail of a refusal is the position of the change, as spot_apply has it. */
static uint64_t apply_one_by_one(const struct guide *g, const uint8_t *message, size_t message_len) {
    uint8_t list[SHORT * SPOT_CHANGE_BYTES];
    const size_t n = spot_message_changes(message, message_len), len = g->table_len;
    uint64_t answer = spot_read_message(message, message_len, list, sizeof list);
    uint32_t i;
    for (i = 0; i < n && spot_number(answer) == SPOT_OK; i++) {
        const struct spot_change c = spot_read_change(list + SPOT_CHANGE_BYTES * i);
        answer = c.kind == SPOT_ADD ? spot_add(table, len, work, len, c.spot.place, c.spot.rank, c.spot.track) : spot_withdraw(table, len, work, len, c.spot.place, c.spot.rank);
        if (spot_number(answer) == SPOT_FULL) answer += i;
    }
    if (spot_number(answer) != SPOT_OK) memcpy(table, kept, len);
    return answer;
}

/* The number of bytes received, not what stands in them, is the length of the message. */
static uint64_t apply_message(const struct guide *g, const uint8_t *message, size_t received) {
    if (spot_message_changes(message, received) <= SHORT) return apply_one_by_one(g, message, received);
    return spot_apply(table, g->table_len, work, g->table_len, message, received);
}

/* Only what the house sealed, each message once and in its order; the table and the number of the message are written as one. */
static void packet_came(struct guide *g, size_t received) {
    const uint64_t number = received < PACKET_NUMBER ? 0 : packet_number(packet);
    uint64_t answer;
    size_t changed;
    if (!packet_genuine(key, key_len, packet, received)) {
        printf("packet: not sealed by the house, dropped\n");
        return;
    }
    if (number != g->state.message + 1) {
        printf("message %" PRIu64 ": %s, dropped\n", number, number <= g->state.message ? "came before" : "one before it is missing");
        return;
    }
    answer = apply_message(g, packet + PACKET_NUMBER, received - PACKET_NUMBER - PACKET_SEAL);
    if (spot_number(answer) == SPOT_BROKEN) {
        card_is_bad(g, spot_error_text(SPOT_BROKEN));
    } else if (spot_number(answer) != SPOT_OK) {
        printf("message %" PRIu64 ": refused, %s (%" PRIu32 "); the table is as it was\n", number, spot_error_text(spot_number(answer)), spot_detail(answer));
    } else if (journal_commit(&g->device, kept, table, number, &g->state, &changed) != JOURNAL_OK) {
        printf("message %" PRIu64 ": the card can't be written; opened again\n", number);
        open_card(g);
    } else {
        memcpy(kept, table, g->table_len);
        printf("message %" PRIu64 ": applied, %" PRIu32 " spots, sum %08" PRIx32 ", %u of %" PRIu32 " blocks changed\n", number, spot_detail(spot_count(table, g->table_len)),
               g->state.sum, (unsigned)changed, g->state.blocks);
    }
}

/* Up to so many bytes of a file; 0 where it can't be read. */
static size_t read_file(const char *name, uint8_t *bytes, size_t most) {
    FILE *f = fopen(name, "rb");
    const size_t n = f == NULL ? 0 : fread(bytes, 1, most, f);
    if (f == NULL) printf("%s can't be read\n", name);
    if (f != NULL) fclose(f);
    return n;
}

/* Whether the line is this event, with a place that there is. */
static int is_event(const char *line, const char *word, int32_t *place) {
    const size_t n = strlen(word);
    char *end;
    long value;
    if (strncmp(line, word, n) != 0) return 0;
    value = strtol(line + n, &end, 10);
    if (end == line + n || *end != '\n' || value < SPOT_LOWEST_PLACE || value > SPOT_HIGHEST_PLACE) return 0;
    *place = (int32_t)value;
    return 1;
}

static void loop(struct guide *g) {
    char line[300], name[256];
    int32_t place;
    while (fgets(line, sizeof line, stdin) != NULL) {
        if (is_event(line, "tour ", &place) || (!g->card_is_good && is_event(line, "at ", &place)))
            from_tour(place);
        else if (!g->card_is_good)
            printf("no card\n");
        else if (is_event(line, "at ", &place))
            visitor_at(g, place);
        else if (is_event(line, "ahead ", &place))
            ahead_of(g, place);
        else if (strcmp(line, "room\n") == 0)
            plan_of_room(g);
        else if (sscanf(line, "packet %255s", name) == 1)
            packet_came(g, read_file(name, packet, sizeof packet));
        else
            printf("no event: %s", line);
        fflush(stdout);
    }
}

int main(int n, char **args) {
    struct guide g;
    int file;
    if (n != 4) {
        fprintf(stderr, "usage: guide CARD TOUR KEY < events\n");
        return 2;
    }
    file = open(args[1], O_RDWR);
    g.device = file_device(&file);
    tour_len = read_file(args[2], tour, sizeof tour);
    key_len = read_file(args[3], key, sizeof key);
    if (key_len < PACKET_LEAST_KEY) {
        fprintf(stderr, "guide: the key has under %d bytes\n", PACKET_LEAST_KEY);
        return 2;
    }
    open_card(&g);
    fflush(stdout);
    loop(&g);
    if (file >= 0) close(file);
    return 0;
}
