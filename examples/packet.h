/* Messages on the way: a number that counts them, the message, and a seal over both: HMAC-SHA-256 under a key that the house and its guides share. A message itself carries none of these.
 * Where guides may be taken apart, put a signature (Ed25519, say) in the seal's place: then no guide has the key that seals. */
#ifndef PACKET_H
#define PACKET_H

#include <string.h>

#include "spot_table.h"

enum { PACKET_NUMBER = 8, PACKET_SEAL = 32, PACKET_MOST = PACKET_NUMBER + SPOT_MESSAGE_BYTES + PACKET_SEAL, PACKET_LEAST_KEY = 16 };

struct sha256 {
    uint32_t h[8];
    uint64_t bytes;
    uint8_t block[64];
};

static inline uint32_t sha256_turn(uint32_t x, int n) { return x >> n | x << (32 - n); }

static inline void sha256_block(struct sha256 *s) {
    static const uint32_t k[64] = {
        0x428a2f98u, 0x71374491u, 0xb5c0fbcfu, 0xe9b5dba5u, 0x3956c25bu, 0x59f111f1u, 0x923f82a4u, 0xab1c5ed5u, 0xd807aa98u, 0x12835b01u, 0x243185beu, 0x550c7dc3u, 0x72be5d74u,
        0x80deb1feu, 0x9bdc06a7u, 0xc19bf174u, 0xe49b69c1u, 0xefbe4786u, 0x0fc19dc6u, 0x240ca1ccu, 0x2de92c6fu, 0x4a7484aau, 0x5cb0a9dcu, 0x76f988dau, 0x983e5152u, 0xa831c66du,
        0xb00327c8u, 0xbf597fc7u, 0xc6e00bf3u, 0xd5a79147u, 0x06ca6351u, 0x14292967u, 0x27b70a85u, 0x2e1b2138u, 0x4d2c6dfcu, 0x53380d13u, 0x650a7354u, 0x766a0abbu, 0x81c2c92eu,
        0x92722c85u, 0xa2bfe8a1u, 0xa81a664bu, 0xc24b8b70u, 0xc76c51a3u, 0xd192e819u, 0xd6990624u, 0xf40e3585u, 0x106aa070u, 0x19a4c116u, 0x1e376c08u, 0x2748774cu, 0x34b0bcb5u,
        0x391c0cb3u, 0x4ed8aa4au, 0x5b9cca4fu, 0x682e6ff3u, 0x748f82eeu, 0x78a5636fu, 0x84c87814u, 0x8cc70208u, 0x90befffau, 0xa4506cebu, 0xbef9a3f7u, 0xc67178f2u};
    uint32_t w[64], v[8];
    int i;
    for (i = 0; i < 16; i++) w[i] = spot_read_u32(s->block + 4 * i);
    for (; i < 64; i++) {
        const uint32_t a = w[i - 15], b = w[i - 2];
        w[i] = w[i - 16] + (sha256_turn(a, 7) ^ sha256_turn(a, 18) ^ a >> 3) + w[i - 7] + (sha256_turn(b, 17) ^ sha256_turn(b, 19) ^ b >> 10);
    }
    memcpy(v, s->h, sizeof v);
    for (i = 0; i < 64; i++) {
        const uint32_t one = v[7] + (sha256_turn(v[4], 6) ^ sha256_turn(v[4], 11) ^ sha256_turn(v[4], 25)) + ((v[4] & v[5]) ^ (~v[4] & v[6])) + k[i] + w[i];
        const uint32_t two = (sha256_turn(v[0], 2) ^ sha256_turn(v[0], 13) ^ sha256_turn(v[0], 22)) + ((v[0] & v[1]) ^ (v[0] & v[2]) ^ (v[1] & v[2]));
        memmove(v + 1, v, 7 * sizeof v[0]);
        v[4] += one;
        v[0] = one + two;
    }
    for (i = 0; i < 8; i++) s->h[i] += v[i];
}

static inline void sha256_begin(struct sha256 *s) {
    static const uint32_t h[8] = {0x6a09e667u, 0xbb67ae85u, 0x3c6ef372u, 0xa54ff53au, 0x510e527fu, 0x9b05688cu, 0x1f83d9abu, 0x5be0cd19u};
    memcpy(s->h, h, sizeof h);
    s->bytes = 0;
}

static inline void sha256_add(struct sha256 *s, const uint8_t *bytes, size_t n) {
    size_t i;
    for (i = 0; i < n; i++) {
        s->block[s->bytes++ % 64] = bytes[i];
        if (s->bytes % 64 == 0) sha256_block(s);
    }
}

static inline void sha256_end(struct sha256 *s, uint8_t *digest) {
    static const uint8_t one = 0x80, zero = 0;
    const uint64_t bits = 8 * s->bytes;
    uint8_t length[8];
    int i;
    for (i = 0; i < 8; i++) length[i] = (uint8_t)(bits >> (56 - 8 * i) & 0xff);
    sha256_add(s, &one, 1);
    while (s->bytes % 64 != 56) sha256_add(s, &zero, 1);
    sha256_add(s, length, sizeof length);
    for (i = 0; i < 32; i++) digest[i] = (uint8_t)(s->h[i / 4] >> (24 - 8 * (i % 4)) & 0xffu);
}

/* HMAC-SHA-256 (RFC 2104) of the bytes. */
static inline void packet_seal(const uint8_t *key, size_t key_len, const uint8_t *bytes, size_t n, uint8_t *seal) {
    uint8_t pad[64] = {0};
    struct sha256 s;
    int i;
    sha256_begin(&s);
    if (key_len > sizeof pad) {
        sha256_add(&s, key, key_len);
        sha256_end(&s, pad);
        sha256_begin(&s);
    } else {
        memcpy(pad, key, key_len);
    }
    for (i = 0; i < 64; i++) pad[i] ^= 0x36;
    sha256_add(&s, pad, sizeof pad);
    sha256_add(&s, bytes, n);
    sha256_end(&s, seal);
    for (i = 0; i < 64; i++) pad[i] ^= 0x36 ^ 0x5c;
    sha256_begin(&s);
    sha256_add(&s, pad, sizeof pad);
    sha256_add(&s, seal, PACKET_SEAL);
    sha256_end(&s, seal);
}

/* Whether the bytes received are a packet that the house sealed. Nothing in them is believed before. The message stands behind the number, of PACKET_NUMBER bytes, and ends before the
 * seal. All bytes of the seals are compared, so that the time says nothing. */
static inline int packet_genuine(const uint8_t *key, size_t key_len, const uint8_t *packet, size_t received) {
    uint8_t seal[PACKET_SEAL];
    int i, differ = 0;
    if (received < PACKET_NUMBER + PACKET_SEAL || received > PACKET_MOST) return 0;
    packet_seal(key, key_len, packet, received - PACKET_SEAL, seal);
    for (i = 0; i < PACKET_SEAL; i++) differ |= seal[i] ^ packet[received - PACKET_SEAL + (size_t)i];
    return differ == 0;
}

static inline uint64_t packet_number(const uint8_t *packet) { return (uint64_t)spot_read_u32(packet) << 32 | spot_read_u32(packet + 4); }

#endif
