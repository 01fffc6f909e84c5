/* AES-256-XTS decryption by four tables, a yardstick of bench/measure.
 *
 *     xts BYTES COUNT
 *
 * decrypts COUNT data units of BYTES bytes under the numbers from 0. The tables are computed from the field, and an
 * example of IEEE 1619 is checked first. */
#include <stdint.h>
#include <stdio.h>
#include <stdlib.h>
#include <string.h>

enum { ROUNDS = 14, WORDS = 4 * (ROUNDS + 1) };

static uint8_t sbox[256], inv_sbox[256];
static uint32_t enc[4][256], dec[4][256];

static uint8_t times_x(uint8_t b) { return (uint8_t)(b << 1 ^ (b >> 7) * 0x1b); }

static uint8_t product(uint8_t a, uint8_t b) {
    uint8_t result = 0;
    for (; a; a >>= 1, b = times_x(b))
        if (a & 1) result ^= b;
    return result;
}

static uint8_t rotated(uint8_t b, int by) { return (uint8_t)(b << by | b >> (8 - by)); }
static uint32_t rotated_word(uint32_t w, int by) { return w << by | w >> (32 - by) % 32; }

static void make_tables(void) {
    for (int b = 0; b < 256; b++) {
        uint8_t a = 0;
        for (int c = 1; b && c < 256; c++)
            if (product((uint8_t)b, (uint8_t)c) == 1) a = (uint8_t)c;
        uint8_t s = (uint8_t)(a ^ rotated(a, 1) ^ rotated(a, 2) ^ rotated(a, 3) ^ rotated(a, 4) ^ 0x63);
        sbox[b] = s;
        inv_sbox[s] = (uint8_t)b;
    }
    for (int b = 0; b < 256; b++) {
        uint8_t s = sbox[b], d = inv_sbox[b];
        enc[0][b] = (uint32_t)product(2, s) | (uint32_t)s << 8 | (uint32_t)s << 16 | (uint32_t)product(3, s) << 24;
        dec[0][b] = (uint32_t)product(14, d) | (uint32_t)product(9, d) << 8 | (uint32_t)product(13, d) << 16
            | (uint32_t)product(11, d) << 24;
        for (int t = 1; t < 4; t++) {
            enc[t][b] = rotated_word(enc[0][b], 8 * t);
            dec[t][b] = rotated_word(dec[0][b], 8 * t);
        }
    }
}

static uint32_t load(const uint8_t *p) {
    return (uint32_t)p[0] | (uint32_t)p[1] << 8 | (uint32_t)p[2] << 16 | (uint32_t)p[3] << 24;
}

static void store(uint8_t *p, uint32_t w) {
    for (int i = 0; i < 4; i++) p[i] = (uint8_t)(w >> 8 * i);
}

static uint32_t substituted(const uint8_t *box, uint32_t w) {
    return (uint32_t)box[w & 255] | (uint32_t)box[w >> 8 & 255] << 8 | (uint32_t)box[w >> 16 & 255] << 16
        | (uint32_t)box[w >> 24] << 24;
}

static void expand(const uint8_t key[32], uint32_t w[WORDS]) {
    uint8_t constant = 1;
    for (int i = 0; i < WORDS; i++) {
        if (i < 8) { w[i] = load(key + 4 * i); continue; }
        uint32_t t = w[i - 1];
        if (i % 8 == 0) {
            t = substituted(sbox, rotated_word(t, 24)) ^ constant;
            constant = times_x(constant);
        } else if (i % 8 == 4) {
            t = substituted(sbox, t);
        }
        w[i] = w[i - 8] ^ t;
    }
}

/* The round keys of the equivalent inverse cipher. */
static void expand_inverse(const uint8_t key[32], uint32_t w[WORDS]) {
    expand(key, w);
    for (int i = 4; i < WORDS - 4; i++) {
        uint32_t s = substituted(sbox, w[i]);
        w[i] = dec[0][s & 255] ^ dec[1][s >> 8 & 255] ^ dec[2][s >> 16 & 255] ^ dec[3][s >> 24];
    }
}

/* A column from the four columns whose bytes it has, in the order of the rows. */
#define MIXED(table, a, b, c, d) \
    (table[0][(a) & 255] ^ table[1][(b) >> 8 & 255] ^ table[2][(c) >> 16 & 255] ^ table[3][(d) >> 24])
#define LAST(box, a, b, c, d)                                                                  \
    ((uint32_t)box[(a) & 255] | (uint32_t)box[(b) >> 8 & 255] << 8 | (uint32_t)box[(c) >> 16 & 255] << 16 \
        | (uint32_t)box[(d) >> 24] << 24)

static inline const uint32_t *forwards(const uint32_t *w, int round) { return w + 4 * round; }
static inline const uint32_t *backwards(const uint32_t *w, int round) { return w + 4 * (ROUNDS - round); }

#define CIPHER(name, table, box, round_key, X, Y)                                              \
    static void name(const uint32_t *w, const uint32_t in[4], uint32_t out[4]) {               \
        const uint32_t *k = round_key(w, 0);                                                   \
        uint32_t s[4] = {in[0] ^ k[0], in[1] ^ k[1], in[2] ^ k[2], in[3] ^ k[3]}, t[4];        \
        for (int r = 1; r < ROUNDS; r++) {                                                     \
            k = round_key(w, r);                                                               \
            t[0] = MIXED(table, s[0], s[X], s[2], s[Y]) ^ k[0];                                \
            t[1] = MIXED(table, s[1], s[(1 + X) % 4], s[3], s[(1 + Y) % 4]) ^ k[1];            \
            t[2] = MIXED(table, s[2], s[(2 + X) % 4], s[0], s[(2 + Y) % 4]) ^ k[2];            \
            t[3] = MIXED(table, s[3], s[(3 + X) % 4], s[1], s[(3 + Y) % 4]) ^ k[3];            \
            s[0] = t[0], s[1] = t[1], s[2] = t[2], s[3] = t[3];                                \
        }                                                                                      \
        k = round_key(w, ROUNDS);                                                              \
        out[0] = LAST(box, s[0], s[X], s[2], s[Y]) ^ k[0];                                     \
        out[1] = LAST(box, s[1], s[(1 + X) % 4], s[3], s[(1 + Y) % 4]) ^ k[1];                 \
        out[2] = LAST(box, s[2], s[(2 + X) % 4], s[0], s[(2 + Y) % 4]) ^ k[2];                 \
        out[3] = LAST(box, s[3], s[(3 + X) % 4], s[1], s[(3 + Y) % 4]) ^ k[3];                 \
    }

CIPHER(encrypt, enc, sbox, forwards, 1, 3)
CIPHER(decrypt, dec, inv_sbox, backwards, 3, 1)

static inline void decrypt_unit(const uint32_t *data_key, const uint32_t *tweak_key, uint64_t number, uint8_t *unit,
                                size_t length) {
    uint32_t tweak[4] = {(uint32_t)number, (uint32_t)(number >> 32), 0, 0};
    encrypt(tweak_key, tweak, tweak);
    for (size_t at = 0; at < length; at += 16) {
        uint32_t block[4];
        for (int c = 0; c < 4; c++) block[c] = load(unit + at + 4 * c) ^ tweak[c];
        decrypt(data_key, block, block);
        for (int c = 0; c < 4; c++) store(unit + at + 4 * c, block[c] ^ tweak[c]);
        uint32_t carried = tweak[3] >> 31;
        for (int c = 3; c > 0; c--) tweak[c] = tweak[c] << 1 | tweak[c - 1] >> 31;
        tweak[0] = tweak[0] << 1 ^ carried * 0x87;
    }
}

int main(int argc, char **argv) {
    if (argc != 3) { fprintf(stderr, "usage: xts BYTES COUNT\n"); return 1; }
    size_t length = strtoull(argv[1], NULL, 10);
    uint64_t count = strtoull(argv[2], NULL, 10);
    static const uint8_t key[64] = {
        0x27, 0x18, 0x28, 0x18, 0x28, 0x45, 0x90, 0x45, 0x23, 0x53, 0x60, 0x28, 0x74, 0x71, 0x35, 0x26,
        0x62, 0x49, 0x77, 0x57, 0x24, 0x70, 0x93, 0x69, 0x99, 0x59, 0x57, 0x49, 0x66, 0x96, 0x76, 0x27,
        0x31, 0x41, 0x59, 0x26, 0x53, 0x58, 0x97, 0x93, 0x23, 0x84, 0x62, 0x64, 0x33, 0x83, 0x27, 0x95,
        0x02, 0x88, 0x41, 0x97, 0x16, 0x93, 0x99, 0x37, 0x51, 0x05, 0x82, 0x09, 0x74, 0x94, 0x45, 0x92};
    /* Vector 10 of IEEE 1619, annex B: the first two blocks of the data unit with number ff are 00 to 1f. */
    static const uint8_t example[32] = {
        0x1c, 0x3b, 0x3a, 0x10, 0x2f, 0x77, 0x03, 0x86, 0xe4, 0x83, 0x6c, 0x99, 0xe3, 0x70, 0xcf, 0x9b,
        0xea, 0x00, 0x80, 0x3f, 0x5e, 0x48, 0x23, 0x57, 0xa4, 0xae, 0x12, 0xd4, 0x14, 0xa3, 0xe6, 0x3b};
    make_tables();
    uint32_t data_key[WORDS], tweak_key[WORDS];
    expand_inverse(key, data_key);
    expand(key + 32, tweak_key);
    uint8_t tried[32];
    memcpy(tried, example, sizeof tried);
    decrypt_unit(data_key, tweak_key, 0xff, tried, sizeof tried);
    for (int i = 0; i < 32; i++)
        if (tried[i] != i) { fprintf(stderr, "xts: the example fails\n"); return 2; }
    if (length % 16 != 0 || length == 0 || length > 4096) { fprintf(stderr, "xts: no data unit\n"); return 1; }
    static uint8_t unit[4096];
    for (uint64_t i = 0; i < count; i++) decrypt_unit(data_key, tweak_key, i, unit, length);
    fprintf(stderr, "%u\n", unit[0]);
    return 0;
}
