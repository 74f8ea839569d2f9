/* The rows of crates/vectors/stdin, carried out by the C calls: what this prints is crates/vectors/stdout, byte for byte. The letters and signs of the rows are explained in
 * crates/vectors/src, whose functions those below follow.
 *   vectors < crates/vectors/stdin | cmp - crates/vectors/stdout
 */
#include <inttypes.h>
#include <stdio.h>
#include <string.h>

#include "spot_table.h"

#define BYTES 65536
#define COUNTS 66
#define BYTE 165
#define COUNT 77

/* A row: its letter or sign, whether it has no label, and its numbers: x, y and z, or n where the third is unsigned. */
struct row {
    int op, quiet;
    int32_t x, y, z;
    uint32_t n;
};

static uint8_t script[BYTES], table[BYTES], scratch[BYTES], work[BYTES], copy[BYTES];
static uint8_t output[53261], map[513], marks[SPOT_MAP_BYTES], kept[SPOT_MAP_BYTES];
static uint32_t counts[COUNTS];
static struct spot_range ranges[COUNTS];
static size_t ranges_len, table_len, room, map_len, listed;
static uint32_t allowance;

static size_t plain(int32_t x) { return (uint32_t)x & 0x7fffffffu; }
static size_t least(size_t a, size_t b) { return a < b ? a : b; }

static void show(uint64_t answer) { printf(": %" PRIu32 " %" PRIu32 "\n", spot_number(answer), spot_detail(answer)); }

static void show_spot(size_t i) {
    struct spot s = spot_read(output + SPOT_BYTES * i);
    printf("    %" PRId32 " %" PRId32 " %" PRIu32 "\n", s.place, s.rank, s.track);
}

static size_t changed(const uint8_t *bytes, size_t from, size_t end) {
    size_t n = 0;
    for (; from < end; from++) n += bytes[from] != BYTE;
    return n;
}

static unsigned ones(const uint8_t *a, const uint8_t *without) {
    unsigned n = 0;
    size_t b;
    for (b = 0; b < SPOT_MOST_BLOCKS; b++) n += spot_marked(a, b) && !(without && spot_marked(without, b));
    return n;
}

static void set_bytes(uint8_t *bytes, size_t len, size_t at, size_t n, int value) {
    if (at + n <= len) memset(bytes + at, value, n);
}

/* The marks of a call; a refusal has none. */
static void keep_marks(uint64_t answer) {
    if (spot_number(answer) == SPOT_OK)
        memcpy(marks, map, sizeof marks);
    else
        memset(marks, 0, sizeof marks);
}

static void show_blocks(void) {
    size_t b;
    printf("    blocks");
    for (b = 0; b < SPOT_MOST_BLOCKS; b++)
        if (spot_marked(map, b)) printf(" %u", (unsigned)b);
    printf("\n");
}

/* The capital letters. */
static void call(struct row r) {
    uint64_t a;
    if (r.op < 'A' || 'Z' < r.op) return;
    if (r.op == 'A') a = spot_add(table, table_len, scratch, BYTES, r.x, r.y, r.n);
    else if (r.op == 'W') a = spot_withdraw(table, table_len, scratch, BYTES, r.x, r.y);
    else if (r.op == 'R') a = spot_rebuild(table, table_len, scratch, BYTES);
    else if (r.op == 'F') a = spot_format(table, table_len);
    else if (r.op == 'C') a = spot_check(table, table_len);
    else a = spot_count(table, table_len);
    if (!r.quiet) show(a);
}

/* The small letters. */
static void ask(struct row r) {
    int op = r.op;
    size_t i, o = op == 'v' || op == 'w' ? 120 : op == 'o' || op == 'p' ? 12 : op == 'a' ? 4096 : op == 'x' ? 1 : 24;
    size_t m = op == 's' ? 511 : op == 'l' ? 513 : 512;
    uint64_t a;
    if (op < 'a') return;
    memset(output, 0, 4096);
    memset(map, 0, sizeof map);
    a = op == 't' || op == 'w' || op == 'p' ? spot_top(table, table_len, r.x, r.y, r.n, output, o, map, m)
                                            : spot_report(table, table_len, r.x, r.y, r.z, output, o, map, m);
    show(a);
    for (i = 0; op != 'a' && spot_number(a) == SPOT_OK && i < spot_detail(a); i++) show_spot(i);
    memcpy(marks, map, sizeof marks);
}

static void hang(struct row r) {
    uint32_t refused = 0, i;
    if (r.op != '+' && r.op != '*') return;
    for (i = 0; i < plain(r.y); i++) {
        int32_t place = r.op == '*' ? (int32_t)(i * 77 % 1024) : (int32_t)(r.x + (int32_t)i);
        int32_t rank = r.op == '*' ? (int32_t)(i * 31 % 64) : r.z;
        refused += spot_number(spot_add(table, table_len, scratch, BYTES, place, rank, i));
    }
    if (!r.quiet) printf(": %" PRIu32 "\n", refused);
}

/* Many ranges. */
static void ask_many(struct row r) {
    size_t i, c = least(plain(r.x), COUNTS), o = least(plain(r.y), 4096), m = least(plain(r.z), sizeof map), end = 0, others = 0;
    uint64_t a;
    if (r.op != ']') return;
    for (i = 0; i < COUNTS; i++) counts[i] = COUNT;
    memset(output, BYTE, 4096);
    memset(map, 0, sizeof map);
    a = spot_report_many(table, table_len, ranges, ranges_len, counts, c, output, o, map, m);
    show(a);
    if (spot_number(a) == SPOT_OK) {
        printf("    counts");
        for (i = 0; i < ranges_len; i++) printf(" %" PRIu32, counts[i]);
        printf("\n");
        for (i = 0; i < spot_detail(a); i++) show_spot(i);
        end = SPOT_BYTES * (size_t)spot_detail(a);
    }
    for (i = spot_number(a) == SPOT_OK ? ranges_len : 0; i < COUNTS; i++) others += counts[i] != COUNT;
    printf("    others changed: %u\n", (unsigned)(others + changed(output, end, 4096)));
    memcpy(marks, map, sizeof marks);
}

/* Top with an allowance of node blocks. */
static void ask_within(struct row r) {
    int32_t ceiling = 77;
    size_t i, end;
    uint64_t a;
    int ok;
    if (r.op != '@') return;
    memset(output, BYTE, 4096);
    memset(map, BYTE, sizeof map);
    a = spot_top_within(table, table_len, r.x, r.y, r.n, allowance, output, least(room, 4096), map, least(map_len, sizeof map), &ceiling);
    ok = spot_number(a) == SPOT_OK;
    show(a);
    for (i = 0; ok && i < spot_detail(a); i++) show_spot(i);
    end = ok ? SPOT_BYTES * (size_t)spot_detail(a) : 0;
    printf("    ceiling %" PRId32 ", others changed: %u\n", ceiling, (unsigned)(changed(output, end, 4096) + changed(map, ok ? 512 : 0, sizeof map)));
    if (ok) show_blocks();
    keep_marks(a);
}

/* A tour, in the table's bytes: pressed, summed, asked. */
static void press(struct row r) {
    uint64_t a, sum = UINT64_C(14695981039346656037);
    size_t i;
    if (r.op == ':') {
        a = spot_press(scratch, listed, table, table_len);
        if (r.quiet) return;
        show(a);
        if (spot_number(a) == SPOT_OK && table_len >= 4) printf("    blocks %u\n", (unsigned)(spot_read_u32(table) / SPOT_BLOCK_BYTES));
    }
    if (r.op == ';') {
        for (i = plain(r.x); i < table_len; i++) sum = (sum ^ table[i]) * UINT64_C(1099511628211);
        printf(": %08" PRIx32 "%08" PRIx32 "\n", (uint32_t)(sum >> 32), (uint32_t)sum);
    }
}

static void ask_tour(struct row r) {
    size_t i, n, end = 0;
    uint64_t a;
    int ok;
    if (r.op != '>') return;
    memset(output, BYTE, 6156);
    memset(map, BYTE, sizeof map);
    a = spot_tour_report(table, table_len, r.x, r.y, r.z, output, least(room, 6156), map, least(map_len, sizeof map));
    ok = spot_number(a) == SPOT_OK;
    show(a);
    n = ok ? spot_detail(a) : 0;
    for (i = 0; i < n; i++)
        if (n <= 8 || i == 0 || i == n - 1) show_spot(i);
    end = SPOT_BYTES * n;
    printf("    others changed: %u\n", (unsigned)(changed(output, end, 6156) + changed(map, ok ? 512 : 0, sizeof map)));
    if (ok) show_blocks();
    keep_marks(a);
}

/* The list of spots, the list of changes or the message in the scratch bytes. */
static void put(int kind, int32_t place, int32_t rank, uint32_t track) {
    struct spot s;
    size_t w = kind ? SPOT_CHANGE_BYTES : SPOT_BYTES;
    if (BYTES - w < listed) return;
    s.place = place, s.rank = rank, s.track = track;
    if (kind) scratch[listed] = (uint8_t)kind;
    spot_write(scratch + listed + (kind ? 1 : 0), s);
    listed += w;
}

static void list(struct row r) {
    int32_t i;
    if (r.op == '(') {
        listed = least(plain(r.x), listed);
        for (i = 0; i < (int32_t)plain(r.y); i++) put(0, 5 + 10 * i, 1 + 37 * i % 512, (uint32_t)i);
    }
    if (r.op == ')') put(0, r.x, r.y, r.n);
    if (r.op == '1' || r.op == '2') put(r.op % 16, r.x, r.y, r.n);
    if (r.op == '4')
        for (i = 0; i < (int32_t)plain(r.x); i++) put(2, i, 0, 0);
    if (r.op == '3' && plain(r.x) + plain(r.y) <= BYTES) {
        set_bytes(scratch, BYTES, plain(r.x), plain(r.y), r.z & 255);
        if (listed < plain(r.x) + plain(r.y)) listed = plain(r.x) + plain(r.y);
    }
}

/* What comes of the list or the message, in its place. */
static void recode(struct row r) {
    size_t o = least(plain(r.x), sizeof output), n = 0;
    uint64_t a;
    if (r.op != '5' && r.op != '6') return;
    memset(output, BYTE, sizeof output);
    a = r.op == '5' ? spot_write_message(scratch, listed, output, o) : spot_read_message(scratch, listed, output, o);
    if (spot_number(a) == SPOT_OK) n = r.op == '5' ? spot_read_u32(output) : SPOT_CHANGE_BYTES * (size_t)(scratch[5] << 8 | scratch[6]);
    if (!r.quiet) {
        show(a);
        printf("    others changed: %u\n", (unsigned)changed(output, n, sizeof output));
    }
    if (spot_number(a) != SPOT_OK) return;
    memcpy(scratch, output, n);
    listed = n;
}

static void apply(struct row r) {
    size_t i, zeros = 0, differing = 0;
    uint64_t a;
    if (r.op == '8') {
        printf(":");
        for (i = 0; i < least(plain(r.x), listed); i++) printf(" %u", scratch[i]);
        printf("\n");
    }
    if (r.op != '7') return;
    memset(work, BYTE, BYTES);
    memcpy(copy, table, table_len);
    a = spot_apply(table, table_len, work, least(plain(r.x), BYTES), scratch, listed);
    show(a);
    while (zeros < BYTES && work[zeros] == 0) zeros++;
    printf("    zeros: %u, others changed: %u", (unsigned)zeros, (unsigned)changed(work, zeros, BYTES));
    for (i = 0; i < table_len; i++) differing += table[i] != copy[i];
    if (spot_number(a) != SPOT_OK) printf(", of the table: %u", (unsigned)differing);
    printf("\n");
}

/* What is kept from row to row. */
static void keep(struct row r) {
    if (r.op == '<') table_len = plain(r.x) % (BYTES + 1);
    if (r.op == '[') {
        ranges_len = least(plain(r.x), COUNTS);
        memset(ranges, 0, sizeof ranges);
    }
    if (r.op == ',' && ranges_len < SPOT_MOST_RANGES) {
        ranges[ranges_len].x1 = r.x;
        ranges[ranges_len].x2 = r.y;
        ranges[ranges_len++].y = r.z;
    }
    if (r.op == '/') {
        room = plain(r.x);
        map_len = plain(r.y);
        allowance = r.n;
    }
}

/* Bytes that are set, marks, bytes that are printed. */
static void look(struct row r) {
    size_t b;
    if (r.op == '!') set_bytes(table, table_len, plain(r.x), plain(r.y), r.z & 255);
    for (b = 0; r.op == '$' && b < table_len / SPOT_BLOCK_BYTES; b++)
        if (!spot_marked(marks, b)) set_bytes(table, table_len, SPOT_BLOCK_BYTES * b, SPOT_BLOCK_BYTES, r.x & 255);
    if (r.op == '%') printf(": %u\n", ones(marks, NULL));
    if (r.op == '-') printf(": %u\n", ones(kept, marks));
    if (r.op == '&') memcpy(kept, marks, sizeof kept);
    if (r.op == '=') printf("\n");
    if (r.op == '.' && plain(r.x) < table_len) printf("%u", table[plain(r.x)]);
}

static void obey(struct row r) {
    keep(r);
    list(r);
    recode(r);
    call(r);
    hang(r);
    ask(r);
    ask_many(r);
    ask_within(r);
    press(r);
    ask_tour(r);
    apply(r);
    look(r);
}

/* The number behind the next space, if there is one; both signs wrap into 32 bits. */
static uint32_t next_number(const char **at, const char *end) {
    uint32_t n = 0;
    int minus;
    while (*at < end && **at != ' ') ++*at;
    minus = *at + 1 < end && (*at)[1] == '-';
    for (*at += 1 + minus; *at < end && **at != ' '; ++*at) n = 10 * n + (uint32_t)(**at - '0');
    return minus ? 0 - n : n;
}

/* A row as a line of the bench program has it: a sign, and two or three numbers behind it; without them all are 0. */
static struct row row_of(const char *line, const char *bar) {
    struct row r = {0, 0, 0, 0, 0, 0};
    const char *at = line + 1;
    uint32_t third;
    r.op = (unsigned char)line[0];
    r.quiet = bar[1] == 0;
    r.x = (int32_t)next_number(&at, bar);
    r.y = (int32_t)next_number(&at, bar);
    third = next_number(&at, bar);
    if (line[1] == '?') r.z = (int32_t)third;
    if (line[1] == '+' || line[1] == '^') r.n = third;
    return r;
}

int main(void) {
    size_t end = fread(script, 1, BYTES - 1, stdin);
    char *line = (char *)script, *bar, *next;
    memset(table, BYTE, BYTES);
    memset(scratch, BYTE, BYTES);
    for (script[end] = 0; *line; line = next) {
        next = strchr(line, '\n');
        if (next) *next++ = 0;
        else next = line + strlen(line);
        bar = strchr(line, '|');
        if (!bar || bar == line) continue;
        printf("%s", bar + 1);
        obey(row_of(line, bar));
    }
    return 0;
}
