/* SHA-256 by plain C, as programs that are measured beside hostext take it: begin_hash, hash and end_hash, after make_tables. */
#include <stdint.h>
#include <string.h>

static uint32_t rounds[64], state[8];
static unsigned char block[64];
static uint64_t hashed;

/* The first 32 bits of the fractional parts of the cube roots, or square roots, of the first primes. */
static uint32_t root_of(int prime, int power) {
    __float128 low = 1, high = 20;
    for (int step = 0; step < 100; step++) {
        __float128 middle = (low + high) / 2;
        if ((power == 3 ? middle * middle * middle : middle * middle) <= prime) low = middle;
        else high = middle;
    }
    return (uint32_t)((low - (int)low) * 4294967296.0);
}

static uint32_t start[8];

static void make_tables(void) {
    for (int prime = 2, count = 0; count < 64; prime++) {
        int is_prime = 1;
        for (int by = 2; by * by <= prime; by++) is_prime &= prime % by != 0;
        if (!is_prime) continue;
        if (count < 8) start[count] = root_of(prime, 2);
        rounds[count++] = root_of(prime, 3);
    }
}

#define TURN(word, by) ((word) >> (by) | (word) << (32 - (by)))

static void compress(const unsigned char *from) {
    uint32_t word[64], s[8];
    for (int at = 0; at < 16; at++)
        word[at] = (uint32_t)from[4 * at] << 24 | from[4 * at + 1] << 16 | from[4 * at + 2] << 8 | from[4 * at + 3];
    for (int at = 16; at < 64; at++) {
        uint32_t a = word[at - 15], b = word[at - 2];
        word[at] = word[at - 16] + word[at - 7] + (TURN(a, 7) ^ TURN(a, 18) ^ a >> 3) + (TURN(b, 17) ^ TURN(b, 19) ^ b >> 10);
    }
    memcpy(s, state, sizeof s);
    for (int at = 0; at < 64; at++) {
        uint32_t e = s[4], a = s[0];
        uint32_t one = s[7] + (TURN(e, 6) ^ TURN(e, 11) ^ TURN(e, 25)) + ((e & s[5]) ^ (~e & s[6])) + rounds[at] + word[at];
        uint32_t two = (TURN(a, 2) ^ TURN(a, 13) ^ TURN(a, 22)) + ((a & s[1]) ^ (a & s[2]) ^ (s[1] & s[2]));
        memmove(s + 1, s, 7 * sizeof *s);
        s[4] += one;
        s[0] = one + two;
    }
    for (int at = 0; at < 8; at++) state[at] += s[at];
}

static void hash(const unsigned char *bytes, size_t count) {
    while (count > 0) {
        size_t held = hashed % 64, more = 64 - held < count ? 64 - held : count;
        memcpy(block + held, bytes, more);
        hashed += more, bytes += more, count -= more;
        if (hashed % 64 == 0) compress(block);
    }
}

static void begin_hash(void) {
    memcpy(state, start, sizeof state);
    hashed = 0;
}

static void end_hash(void) {
    uint64_t bits = hashed * 8;
    unsigned char end[8];
    hash((const unsigned char *)"\x80", 1);
    while (hashed % 64 != 56) hash((const unsigned char *)"", 1);
    for (int at = 0; at < 8; at++) end[at] = (unsigned char)(bits >> (56 - 8 * at));
    hash(end, 8);
}
