/* The time of a Report beside the same walk in plain C (walk.h), in turns, on this processor or its emulator: prints for each call the spots and the library's time divided by the
 * walk's, the median of seven rounds. Both give the same bytes.
 *   times [MILLISECONDS]      of a turn, 200 by default
 */
#include <stdio.h>
#include <stdlib.h>
#include <time.h>

#include "spot_table.h"
#include "walk.h"

#define BLOCKS 300
#define SPOTS (16 * (BLOCKS - 1))
#define ROUNDS 7

static uint8_t table[2048 * BLOCKS], work[2048 * BLOCKS], output[2][12 * SPOTS], map[2][512], changes[13 * 4096], message[SPOT_MESSAGE_BYTES];
static uint64_t state = UINT64_C(0x7135);
static int32_t from, last, least;
static uint32_t found[2];

static uint32_t draw(void) {
    state ^= state << 13;
    state ^= state >> 7;
    state ^= state << 17;
    return (uint32_t)(state >> 32);
}

/* The processor time of this program; in node and on bare metal the time of day, which other programs disturb. */
static double seconds(void) {
#if defined(__wasi__)
    struct timespec t;
    clock_gettime(CLOCK_MONOTONIC, &t);
    return (double)t.tv_sec + (double)t.tv_nsec * 1e-9;
#else
    return (double)clock() / CLOCKS_PER_SEC;
#endif
}

static void fail(const char *what) {
    printf("%s\n", what);
    exit(1);
}

/* A table at capacity, laid out anew by messages: random places and ranks. */
static void fill(void) {
    uint32_t n = 0, i;
    if (spot_format(table, sizeof table) != 0) fail("format");
    while (n < SPOTS) {
        uint32_t part = SPOTS - n < 4096 ? SPOTS - n : 4096;
        for (i = 0; i < part; i++) {
            struct spot_change c;
            c.kind = SPOT_ADD;
            c.spot.place = (int32_t)(draw() % 2000001) - 1000000;
            c.spot.rank = (int32_t)draw();
            c.spot.track = draw();
            spot_write_change(changes + 13 * i, c);
        }
        if (spot_write_message(changes, 13 * part, message, sizeof message) != 0) fail("write_message");
        if (spot_apply(table, sizeof table, work, sizeof work, message, spot_read_u32(message)) != 0) fail("apply");
        n += part;
    }
    if (spot_rebuild(table, sizeof table, work, sizeof work) != 0) fail("rebuild");
}

static void ask(int who) {
    if (who == 0) found[0] = spot_detail(spot_report(table, sizeof table, from, last, least, output[0], sizeof output[0], map[0], 512));
    else found[1] = (uint32_t)plain_report(table, BLOCKS, from, last, least, output[1], sizeof output[1], map[1]);
}

/* Seconds a call, in a turn of about this length. */
static double turn(int who, double length) {
    double start = seconds(), now;
    long n = 0, i;
    do {
        for (i = 0; i < 8; i++) ask(who);
        n += 8;
        now = seconds();
    } while (now - start < length);
    return (now - start) / (double)n;
}

static int rising(const void *a, const void *b) { return *(const double *)a < *(const double *)b ? -1 : *(const double *)a > *(const double *)b; }

static void compare(const char *name, double length) {
    double ratios[ROUNDS];
    int r;
    ask(0);
    ask(1);
    if (found[0] != found[1] || memcmp(output[0], output[1], 12 * found[0]) != 0 || memcmp(map[0], map[1], 512) != 0) fail("the walks differ");
    for (r = 0; r < ROUNDS; r++) {
        double library = turn(0, length);
        ratios[r] = library / turn(1, length);
    }
    qsort(ratios, ROUNDS, sizeof ratios[0], rising);
    printf("%s; %u; %.2f\n", name, (unsigned)found[0], ratios[ROUNDS / 2]);
}

int main(int argc, char **argv) {
    double length = (argc > 1 ? atoi(argv[1]) : 200) * 1e-3;
    fill();
    from = 100000, last = 102000, least = INT32_MIN;
    compare("0.1 % of the route", length);
    last = 120000;
    compare("1 %", length);
    last = 300000;
    compare("a tenth", length);
    from = INT32_MIN, last = INT32_MAX;
    compare("everything", length);
    least = INT32_MAX - 18000000;
    compare("the highest ranks", length);
    return 0;
}
