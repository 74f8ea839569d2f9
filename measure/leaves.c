// Leaves and the validation of a block beside plain C in the same run. Prints ns and ratios; tests nothing.
#include <stdint.h>
#include <stdio.h>
#include <stdlib.h>
#include <string.h>
#include <time.h>

uint64_t perf_sum_keys(const uint8_t *s, size_t n);
void perf_zero(uint8_t *s, size_t n);
void perf_copy(const uint8_t *from, size_t n, uint8_t *to, size_t m);
uint8_t perf_node_ok(const uint8_t *s, size_t n, size_t blocks, size_t level, size_t size, uint64_t low, uint64_t top, uint64_t bottom);

static double now(void) {
    struct timespec t;
    clock_gettime(CLOCK_MONOTONIC, &t);
    return t.tv_sec * 1e9 + t.tv_nsec;
}

__attribute__((noinline)) static uint64_t c_sum_keys(const uint8_t *s, size_t n) {
    uint64_t sum = 0;
    for (size_t i = 0; i + 8 <= n; i += 8) {
        uint64_t x;
        memcpy(&x, s + i, 8);
        sum += __builtin_bswap64(x) ^ 0x8000000080000000ull;
    }
    return sum;
}

__attribute__((noinline)) static uint64_t c_sum_bytes(const uint8_t *s, size_t n) {
    uint64_t sum = 0;
    for (size_t i = 0; i < n; i++) sum += s[i];
    return sum;
}

static void put(uint8_t *s, int n, uint64_t v) {
    for (int i = n - 1; i >= 0; i--) {
        s[i] = v & 255;
        v >>= 8;
    }
}

// place and rank as they stand on the card; biased both are v ^ 2^31
static void put_key(uint8_t *s, uint32_t place, uint32_t rank) {
    put(s, 4, place);
    put(s + 4, 4, rank);
}

static uint64_t key(uint32_t place, uint32_t rank) {
    return ((uint64_t)(place ^ 0x80000000u) << 32) | (rank ^ 0x80000000u);
}

// A full inner node: P 64, I 64, D 16, 8 entries.
static void full_node(uint8_t *s) {
    memset(s, 0, 2048);
    put(s, 2, 1896);
    s[2] = 1;
    s[3] = 1;
    s[4] = 64;
    s[5] = 64;
    s[6] = 16;
    s[7] = 8;
    for (int i = 0; i < 8; i++) {
        uint8_t *e = s + 8 + 28 * i;
        put(e, 2, 2 + i);
        e[2] = 40;
        if (i) put_key(e + 4, 1000 * i, 0);
        put_key(e + 12, 1000 * i + 5, 300 + i);
        put_key(e + 20, 1000 * i + 7, 100 + i);
    }
    uint8_t *p = s + 8 + 28 * 8;
    for (int i = 0; i < 64; i++, p += 12) put_key(p, 100 * i, 1000 + i), put(p + 8, 4, i);
    for (int i = 0; i < 64; i++, p += 12) put_key(p, 100 * i + 1, 500 + i), put(p + 8, 4, i);
    for (int i = 0; i < 16; i++, p += 8) put_key(p, 100 * i + 2, 400 + i);
}

static volatile uint64_t sink;
#define TIME(out, reps, body)                                                  \
    do {                                                                       \
        double best = 1e30;                                                    \
        for (int round = 0; round < 9; round++) {                              \
            double t0 = now();                                                 \
            for (int rep = 0; rep < (reps); rep++) { body; }                   \
            double took = (now() - t0) / (reps);                                 \
            if (took < best) best = took;                                      \
        }                                                                      \
        out = best;                                                            \
    } while (0)

int main(void) {
    size_t big = 8 << 20;
    uint8_t *a = malloc(big), *b = malloc(big);
    for (size_t i = 0; i < big; i++) a[i] = (uint8_t)(i * 2654435761u >> 13), b[i] = 1;
    // keys that may be read: places inside the limits
    for (size_t i = 0; i < 65536; i += 8) put_key(a + i, (uint32_t)i * 2654435761u % 2000001 - 1000000, (uint32_t)i * 2246822519u);
    double ours, c;
    if (perf_sum_keys(a, 65536) != c_sum_keys(a, 65536)) return puts("keys differ"), 1;
    TIME(ours, 2000, sink += perf_sum_keys(a, 65536));
    TIME(c, 2000, sink += c_sum_keys(a, 65536));
    printf("key read        %8.3f ns a key   C %8.3f   ratio %.2f\n", ours / 8192, c / 8192, ours / c);
    TIME(ours, 20, perf_zero(b, big));
    TIME(c, 20, memset(b, 0, big));
    printf("zero 8 MB       %8.1f us         C %8.1f   ratio %.2f\n", ours / 1e3, c / 1e3, ours / c);
    TIME(ours, 20, perf_copy(a, big, b, big));
    TIME(c, 20, memcpy(b, a, big));
    printf("copy 8 MB       %8.1f us         C %8.1f   ratio %.2f\n", ours / 1e3, c / 1e3, ours / c);
    uint8_t *s = malloc(2048);
    full_node(s);
    uint64_t top = key(6300, 1063), bottom = key(0, 1000);
    if (!perf_node_ok(s, 2048, 4096, 1, 64, 0, top, bottom)) return puts("the node is refused"), 1;
    s[1895] ^= 255;
    s[1895] ^= 255;
    TIME(ours, 20000, sink += perf_node_ok(s, 2048, 4096, 1, 64, 0, top, bottom));
    TIME(c, 20000, sink += c_sum_bytes(s, 2048));
    printf("validate a node %8.1f ns         C sum of its bytes %8.1f   ratio %.2f\n", ours, c, ours / c);
    return 0;
}
