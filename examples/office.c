/* The house's side of guide.c: an empty card, a pressed tour, and messages of changes, numbered and sealed.
 *   office card FILE BLOCKS               an empty card for journal.h
 *   office tour FILE < spots              a line each: PLACE RANK TRACK, in place order
 *   office packet FILE KEY NUMBER < changes    a line each: + PLACE RANK TRACK or - PLACE RANK
 */
#define _POSIX_C_SOURCE 200809L
#include <inttypes.h>
#include <stdio.h>
#include <stdlib.h>

#include "file_device.h"
#include "packet.h"

static uint8_t list[SPOT_MOST_CHANGES * SPOT_CHANGE_BYTES], packet[PACKET_MOST], tour[SPOT_TOUR_BYTES];

static int failed(const char *what) {
    fprintf(stderr, "office: %s\n", what);
    return 1;
}

static int save(const char *name, const uint8_t *bytes, size_t n) {
    FILE *f = fopen(name, "wb");
    if (f == NULL || fwrite(bytes, 1, n, f) != n || fclose(f) != 0) return failed("the file can't be written");
    return 0;
}

/* The whole numbers of a text, exactly so many with nothing behind them. */
static int read_numbers(const char *text, int n, long long *numbers) {
    char *end;
    int i;
    for (i = 0; i < n; i++, text = end) {
        errno = 0;
        numbers[i] = strtoll(text, &end, 10);
        if (end == text || errno != 0) return 0;
    }
    return text[strspn(text, " \t\r\n")] == '\0';
}

/* PLACE RANK TRACK, or for a withdrawal PLACE RANK. The library says whether the place is one. */
static int read_spot(const char *text, int n, struct spot *s) {
    long long number[3] = {0, 0, 0};
    if (!read_numbers(text, n, number)) return 0;
    s->place = (int32_t)number[0];
    s->rank = (int32_t)number[1];
    s->track = (uint32_t)number[2];
    return s->place == number[0] && s->rank == number[1] && s->track == number[2];
}

static int failed_line(size_t n, const char *what) {
    fprintf(stderr, "office: line %lu %s\n", (unsigned long)n + 1, what);
    return 1;
}

static int make_card(const char *name, const char *text) {
    long long blocks = 0;
    uint8_t *table = read_numbers(text, 1, &blocks) && blocks > 0 && blocks <= SPOT_MOST_BLOCKS ? (uint8_t *)malloc((size_t)blocks * SPOT_BLOCK_BYTES) : NULL;
    struct journal_state state;
    struct journal_device device;
    int file, done;
    if (table == NULL || spot_number(spot_format(table, (size_t)blocks * SPOT_BLOCK_BYTES)) != SPOT_OK) return failed(spot_error_text(SPOT_TABLE_LENGTH));
    file = open(name, O_RDWR | O_CREAT | O_EXCL, 0644);
    if (file < 0) return failed("the file is there already, or can't be made");
    device = file_device(&file);
    done = ftruncate(file, (off_t)journal_blocks_of_device((uint32_t)blocks) * SPOT_BLOCK_BYTES) == 0 &&
           journal_format(&device, table, (uint32_t)blocks, &state) == JOURNAL_OK;
    free(table);
    return close(file) == 0 && done ? 0 : failed("the card can't be written");
}

static int make_tour(const char *name) {
    char line[200];
    struct spot s;
    size_t n;
    uint64_t answer;
    for (n = 0; fgets(line, sizeof line, stdin) != NULL; n++) {
        if (n == SPOT_TOUR_SPOTS) return failed_line(n, "is one too many: a tour has 512 spots at most");
        if (!read_spot(line, 3, &s)) return failed_line(n, "is not PLACE RANK TRACK");
        spot_write(list + SPOT_BYTES * n, s);
    }
    answer = spot_press(list, SPOT_BYTES * n, tour, sizeof tour);
    if (spot_number(answer) != SPOT_OK) return failed(spot_error_text(spot_number(answer)));
    return save(name, tour, spot_tour_len(tour, sizeof tour));
}

/* The message of the changes on standard input, behind the number of the packet. Its length, or 0. */
static size_t write_message(void) {
    char line[200];
    struct spot_change c;
    size_t n;
    uint64_t answer;
    for (n = 0; fgets(line, sizeof line, stdin) != NULL; n++) {
        c.kind = line[0] == '+' ? SPOT_ADD : SPOT_WITHDRAW;
        if (n == SPOT_MOST_CHANGES) {
            failed_line(n, "is one too many: a message has 4,096 changes at most");
            return 0;
        }
        if ((line[0] != '+' && line[0] != '-') || !read_spot(line + 1, c.kind == SPOT_ADD ? 3 : 2, &c.spot)) {
            failed_line(n, "is neither + PLACE RANK TRACK nor - PLACE RANK");
            return 0;
        }
        spot_write_change(list + SPOT_CHANGE_BYTES * n, c);
    }
    answer = spot_write_message(list, SPOT_CHANGE_BYTES * n, packet + PACKET_NUMBER, SPOT_MESSAGE_BYTES);
    if (spot_number(answer) == SPOT_OK) return spot_message_len(packet + PACKET_NUMBER, SPOT_MESSAGE_BYTES);
    failed_line(spot_detail(answer), spot_error_text(spot_number(answer)));
    return 0;
}

static int make_packet(const char *name, const char *key_name, const char *text) {
    long long number = 0;
    uint8_t key[64];
    size_t key_len, len;
    FILE *f = fopen(key_name, "rb");
    if (f == NULL) return failed("the key can't be read");
    key_len = fread(key, 1, sizeof key, f);
    fclose(f);
    if (key_len < PACKET_LEAST_KEY) return failed("the key is too short");
    if (!read_numbers(text, 1, &number) || number < 1) return failed("messages are numbered from 1");
    len = write_message();
    if (len == 0) return 1;
    journal_put(packet, (uint64_t)number, PACKET_NUMBER);
    packet_seal(key, key_len, packet, PACKET_NUMBER + len, packet + PACKET_NUMBER + len);
    return save(name, packet, PACKET_NUMBER + len + PACKET_SEAL);
}

int main(int n, char **args) {
    if (n == 4 && strcmp(args[1], "card") == 0) return make_card(args[2], args[3]);
    if (n == 3 && strcmp(args[1], "tour") == 0) return make_tour(args[2]);
    if (n == 5 && strcmp(args[1], "packet") == 0) return make_packet(args[2], args[3], args[4]);
    fprintf(stderr, "usage: office card FILE BLOCKS | office tour FILE < spots | office packet FILE KEY NUMBER < changes\n");
    return 2;
}
