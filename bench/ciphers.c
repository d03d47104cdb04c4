/* The ciphers and digests as portable C, for bench/ciphers: AES-128 with one table of 256 bytes, AES-128 with four
   tables of 32-bit words, GCM with each of them and four bits of the product at a time, CRC-32C by a table of bytes
   and by slicing by eight, and HMAC with SHA-256.
   Each measurement is one function, and a line of `main`. It prints NAME BYTES NANOSECONDS SUM. */
#include <stdint.h>
#include <stdio.h>
#include <stdlib.h>
#include <string.h>
#include <time.h>

enum { BLOCKS = 20000, SHORT = 4096, LONG = 1048576, TURNS = 15 };

static uint8_t sbox[256], inverse_sbox[256];
static uint32_t table[4][256];
static uint8_t key_bytes[11][16];
static uint32_t key_words[44];

static uint8_t doubled(uint8_t a) { return (uint8_t)((a << 1) ^ ((a >> 7) * 0x1b)); }

static uint8_t product(uint8_t a, uint8_t b) {
    uint8_t sum = 0;
    for (; b; b >>= 1, a = doubled(a))
        if (b & 1) sum ^= a;
    return sum;
}

static void make_tables(void) {
    for (int a = 0; a < 256; a++) {
        uint8_t inverse = 0;
        for (int b = 1; b < 256; b++)
            if (product((uint8_t)a, (uint8_t)b) == 1) inverse = (uint8_t)b;
        uint8_t s = 0x63;
        for (int i = 0; i < 5; i++) s ^= (uint8_t)(inverse << i | inverse >> (8 - i));
        sbox[a] = s;
        inverse_sbox[s] = (uint8_t)a;
        uint32_t word = (uint32_t)product(s, 2) << 24 | (uint32_t)s << 16 | (uint32_t)s << 8 | product(s, 3);
        for (int r = 0; r < 4; r++) table[r][a] = r ? word >> (8 * r) | word << (32 - 8 * r) : word;
    }
}

static uint32_t load(const uint8_t *p) { return (uint32_t)p[0] << 24 | p[1] << 16 | p[2] << 8 | p[3]; }

static void store(uint8_t *p, uint32_t v) {
    p[0] = (uint8_t)(v >> 24);
    p[1] = (uint8_t)(v >> 16);
    p[2] = (uint8_t)(v >> 8);
    p[3] = (uint8_t)v;
}

static void expand(const uint8_t *key) {
    memcpy(key_bytes[0], key, 16);
    uint8_t constant = 1;
    for (int n = 1; n < 11; n++, constant = doubled(constant)) {
        const uint8_t *p = key_bytes[n - 1];
        uint8_t *q = key_bytes[n];
        for (int i = 0; i < 4; i++) q[i] = p[i] ^ sbox[p[12 + (i + 1) % 4]];
        q[0] ^= constant;
        for (int i = 4; i < 16; i++) q[i] = p[i] ^ q[i - 4];
    }
    for (int i = 0; i < 44; i++) key_words[i] = load(&key_bytes[0][0] + 4 * i);
}

/* one table of bytes */
__attribute__((noinline)) static void encrypt(const uint8_t *in, uint8_t *out) {
    uint8_t s[16], t[16];
    for (int i = 0; i < 16; i++) s[i] = in[i] ^ key_bytes[0][i];
    for (int r = 1; r < 10; r++) {
        for (int i = 0; i < 16; i++) t[i] = sbox[s[(i + 4 * (i % 4)) % 16]];
        for (int c = 0; c < 16; c += 4) {
            uint8_t a = t[c], b = t[c + 1], d = t[c + 2], e = t[c + 3], all = a ^ b ^ d ^ e;
            s[c] = a ^ all ^ doubled(a ^ b) ^ key_bytes[r][c];
            s[c + 1] = b ^ all ^ doubled(b ^ d) ^ key_bytes[r][c + 1];
            s[c + 2] = d ^ all ^ doubled(d ^ e) ^ key_bytes[r][c + 2];
            s[c + 3] = e ^ all ^ doubled(e ^ a) ^ key_bytes[r][c + 3];
        }
    }
    for (int i = 0; i < 16; i++) out[i] = sbox[s[(i + 4 * (i % 4)) % 16]] ^ key_bytes[10][i];
}

__attribute__((noinline)) static void decrypt(const uint8_t *in, uint8_t *out) {
    uint8_t s[16], t[16];
    for (int i = 0; i < 16; i++) s[i] = in[i] ^ key_bytes[10][i];
    for (int r = 9; r > 0; r--) {
        for (int i = 0; i < 16; i++) t[i] = inverse_sbox[s[(i + 12 * (i % 4)) % 16]] ^ key_bytes[r][i];
        for (int c = 0; c < 16; c += 4) {
            uint8_t a = t[c], b = t[c + 1], d = t[c + 2], e = t[c + 3];
            uint8_t u = doubled(doubled(a ^ d)), v = doubled(doubled(b ^ e));
            a ^= u, b ^= v, d ^= u, e ^= v;
            uint8_t all = a ^ b ^ d ^ e;
            s[c] = a ^ all ^ doubled(a ^ b);
            s[c + 1] = b ^ all ^ doubled(b ^ d);
            s[c + 2] = d ^ all ^ doubled(d ^ e);
            s[c + 3] = e ^ all ^ doubled(e ^ a);
        }
    }
    for (int i = 0; i < 16; i++) out[i] = inverse_sbox[s[(i + 12 * (i % 4)) % 16]] ^ key_bytes[0][i];
}

/* four tables of words */
#define MIXED(p, q, r, s, k) \
    (table[0][p >> 24] ^ table[1][q >> 16 & 255] ^ table[2][r >> 8 & 255] ^ table[3][s & 255] ^ key_words[k])
#define LAST(p, q, r, s, k) \
    (((uint32_t)sbox[p >> 24] << 24 | sbox[q >> 16 & 255] << 16 | sbox[r >> 8 & 255] << 8 | sbox[s & 255]) ^ key_words[k])

__attribute__((noinline)) static void encrypt_by_words(const uint8_t *in, uint8_t *out) {
    uint32_t a = load(in) ^ key_words[0], b = load(in + 4) ^ key_words[1];
    uint32_t c = load(in + 8) ^ key_words[2], d = load(in + 12) ^ key_words[3];
    for (int r = 1; r < 10; r++) {
        uint32_t w = MIXED(a, b, c, d, 4 * r), x = MIXED(b, c, d, a, 4 * r + 1);
        uint32_t y = MIXED(c, d, a, b, 4 * r + 2), z = MIXED(d, a, b, c, 4 * r + 3);
        a = w, b = x, c = y, d = z;
    }
    store(out, LAST(a, b, c, d, 40));
    store(out + 4, LAST(b, c, d, a, 41));
    store(out + 8, LAST(c, d, a, b, 42));
    store(out + 12, LAST(d, a, b, c, 43));
}

/* GCM with four bits at a time */
static uint64_t high[16], low[16];
static const uint16_t reduced[16] = {0x0000, 0x1c20, 0x3840, 0x2460, 0x7080, 0x6ca0, 0x48c0, 0x54e0,
                                     0xe100, 0xfd20, 0xd940, 0xc560, 0x9180, 0x8da0, 0xa9c0, 0xb5e0};

static void make_multiples(const uint8_t *h) {
    uint64_t vh = (uint64_t)load(h) << 32 | load(h + 4), vl = (uint64_t)load(h + 8) << 32 | load(h + 12);
    high[0] = low[0] = 0;
    for (int i = 8; i > 0; i >>= 1) {
        high[i] = vh, low[i] = vl;
        uint64_t out = vl & 1;
        vl = vh << 63 | vl >> 1;
        vh = vh >> 1 ^ out * 0xe100000000000000u;
    }
    for (int i = 2; i < 16; i <<= 1)
        for (int j = 1; j < i; j++) high[i + j] = high[i] ^ high[j], low[i + j] = low[i] ^ low[j];
}

static void multiply(uint8_t *x) {
    uint64_t zh = 0, zl = 0;
    for (int k = 0; k < 32; k++) {
        unsigned bits = x[15 - k / 2] >> (4 * (k % 2)) & 15, rest = zl & 15;
        zl = zh << 60 | zl >> 4;
        zh = zh >> 4 ^ (uint64_t)reduced[rest] << 48;
        zh ^= high[bits], zl ^= low[bits];
    }
    store(x, (uint32_t)(zh >> 32)), store(x + 4, (uint32_t)zh), store(x + 8, (uint32_t)(zl >> 32)), store(x + 12, (uint32_t)zl);
}

typedef void cipher_of_block(const uint8_t *, uint8_t *);

static void seal(cipher_of_block *encrypt, const uint8_t *nonce, uint8_t *bytes, size_t length, uint8_t *tag) {
    uint8_t counter[16], mask[16], zero[16] = {0};
    encrypt(zero, mask);
    make_multiples(mask);
    memcpy(counter, nonce, 12);
    memset(tag, 0, 16);
    for (size_t at = 0; at < length; at += 16) {
        store(counter + 12, (uint32_t)(at / 16 + 2));
        encrypt(counter, mask);
        size_t n = length - at < 16 ? length - at : 16;
        for (size_t i = 0; i < n; i++) {
            bytes[at + i] ^= mask[i];
            tag[i] ^= bytes[at + i];
        }
        multiply(tag);
    }
    uint64_t bits = 8 * (uint64_t)length;
    for (int i = 0; i < 8; i++) tag[8 + i] ^= (uint8_t)(bits >> (56 - 8 * i));
    multiply(tag);
    store(counter + 12, 1);
    encrypt(counter, mask);
    for (int i = 0; i < 16; i++) tag[i] ^= mask[i];
}

/* CRC-32C by a table of bytes, and by slicing by eight */
static uint32_t crc_table[256], crc_tables[8][256];

static void make_crc_table(void) {
    for (uint32_t i = 0; i < 256; i++) {
        uint32_t state = i;
        for (int bit = 0; bit < 8; bit++) state = (state >> 1) ^ (state & 1 ? 0x82f63b78u : 0);
        crc_table[i] = crc_tables[0][i] = state;
    }
    for (int k = 1; k < 8; k++)
        for (int i = 0; i < 256; i++)
            crc_tables[k][i] = (crc_tables[k - 1][i] >> 8) ^ crc_table[crc_tables[k - 1][i] & 0xff];
}

__attribute__((noinline)) static uint32_t crc32c(uint32_t state, const uint8_t *bytes, size_t length) {
    for (size_t i = 0; i < length; i++) state = (state >> 8) ^ crc_table[(state ^ bytes[i]) & 0xff];
    return state;
}

__attribute__((noinline)) static uint32_t crc32c_by_eight(uint32_t state, const uint8_t *bytes, size_t length) {
    for (; length >= 8; bytes += 8, length -= 8) {
        uint32_t a = state ^ (bytes[0] | bytes[1] << 8 | bytes[2] << 16 | (uint32_t)bytes[3] << 24);
        state = crc_tables[7][a & 0xff] ^ crc_tables[6][a >> 8 & 0xff] ^ crc_tables[5][a >> 16 & 0xff] ^ crc_tables[4][a >> 24] ^
                crc_tables[3][bytes[4]] ^ crc_tables[2][bytes[5]] ^ crc_tables[1][bytes[6]] ^ crc_tables[0][bytes[7]];
    }
    return crc32c(state, bytes, length);
}

/* SHA-256 (FIPS 180-4) and HMAC (RFC 2104) */
static const uint32_t sha_k[64] = {
    0x428a2f98, 0x71374491, 0xb5c0fbcf, 0xe9b5dba5, 0x3956c25b, 0x59f111f1, 0x923f82a4, 0xab1c5ed5, 0xd807aa98, 0x12835b01, 0x243185be,
    0x550c7dc3, 0x72be5d74, 0x80deb1fe, 0x9bdc06a7, 0xc19bf174, 0xe49b69c1, 0xefbe4786, 0x0fc19dc6, 0x240ca1cc, 0x2de92c6f, 0x4a7484aa,
    0x5cb0a9dc, 0x76f988da, 0x983e5152, 0xa831c66d, 0xb00327c8, 0xbf597fc7, 0xc6e00bf3, 0xd5a79147, 0x06ca6351, 0x14292967, 0x27b70a85,
    0x2e1b2138, 0x4d2c6dfc, 0x53380d13, 0x650a7354, 0x766a0abb, 0x81c2c92e, 0x92722c85, 0xa2bfe8a1, 0xa81a664b, 0xc24b8b70, 0xc76c51a3,
    0xd192e819, 0xd6990624, 0xf40e3585, 0x106aa070, 0x19a4c116, 0x1e376c08, 0x2748774c, 0x34b0bcb5, 0x391c0cb3, 0x4ed8aa4a, 0x5b9cca4f,
    0x682e6ff3, 0x748f82ee, 0x78a5636f, 0x84c87814, 0x8cc70208, 0x90befffa, 0xa4506ceb, 0xbef9a3f7, 0xc67178f2};

static uint32_t turned(uint32_t x, int n) { return x >> n | x << (32 - n); }

static void sha_block(uint32_t *h, const uint8_t *p) {
    uint32_t w[64], v[8];
    for (int i = 0; i < 16; i++) w[i] = load(p + 4 * i);
    for (int i = 16; i < 64; i++)
        w[i] = w[i - 16] + w[i - 7] + (turned(w[i - 15], 7) ^ turned(w[i - 15], 18) ^ w[i - 15] >> 3) +
               (turned(w[i - 2], 17) ^ turned(w[i - 2], 19) ^ w[i - 2] >> 10);
    memcpy(v, h, sizeof v);
    for (int i = 0; i < 64; i++) {
        uint32_t t = v[7] + (turned(v[4], 6) ^ turned(v[4], 11) ^ turned(v[4], 25)) + ((v[4] & v[5]) ^ (~v[4] & v[6])) + sha_k[i] + w[i];
        uint32_t u = (turned(v[0], 2) ^ turned(v[0], 13) ^ turned(v[0], 22)) + ((v[0] & v[1]) ^ (v[0] & v[2]) ^ (v[1] & v[2]));
        memmove(v + 1, v, 28);
        v[4] += t, v[0] = t + u;
    }
    for (int i = 0; i < 8; i++) h[i] += v[i];
}

/* of a block of 64 bytes and the bytes behind it */
static void sha_behind(const uint8_t *first, const uint8_t *bytes, size_t length, uint8_t *out) {
    uint32_t h[8] = {0x6a09e667, 0xbb67ae85, 0x3c6ef372, 0xa54ff53a, 0x510e527f, 0x9b05688c, 0x1f83d9ab, 0x5be0cd19};
    uint8_t last[128] = {0};
    uint64_t bits = 8 * (uint64_t)(64 + length);
    sha_block(h, first);
    for (; length >= 64; bytes += 64, length -= 64) sha_block(h, bytes);
    memcpy(last, bytes, length);
    last[length] = 0x80;
    size_t end = length < 56 ? 64 : 128;
    for (int i = 0; i < 8; i++) last[end - 8 + i] = (uint8_t)(bits >> (56 - 8 * i));
    for (size_t at = 0; at < end; at += 64) sha_block(h, last + at);
    for (int i = 0; i < 8; i++) store(out + 4 * i, h[i]);
}

__attribute__((noinline)) static void hmac(const uint8_t *key, size_t key_length, const uint8_t *bytes, size_t length, uint8_t *out) {
    uint8_t inner[64], outer[64], digest[32];
    for (size_t i = 0; i < 64; i++) inner[i] = (i < key_length ? key[i] : 0) ^ 0x36, outer[i] = (i < key_length ? key[i] : 0) ^ 0x5c;
    sha_behind(inner, bytes, length, digest);
    sha_behind(outer, digest, 32, out);
}

/* measurements */
static double begun;
static void start(void) {
    struct timespec t;
    clock_gettime(CLOCK_MONOTONIC, &t);
    begun = (double)t.tv_sec * 1e9 + (double)t.tv_nsec;
}
static void report(const char *name, double bytes, unsigned sum) {
    double from = begun;
    start();
    printf("%s %.0f %.0f %u\n", name, bytes, begun - from, sum);
}

static void measure_blocks(const char *name, void (*cipher)(const uint8_t *, uint8_t *)) {
    uint8_t block[16];
    memset(block, 1, 16);
    start();
    for (int n = 0; n < BLOCKS; n++) cipher(block, block);
    report(name, 16.0 * BLOCKS, block[0]);
}

static void measure_seal(const char *name, cipher_of_block *cipher, size_t length, int times) {
    uint8_t nonce[12], tag[16];
    uint8_t *bytes = calloc(length, 1);
    if (!bytes) exit(1);
    memset(nonce, 9, 12);
    start();
    for (int n = 0; n < times; n++) seal(cipher, nonce, bytes, length, tag);
    report(name, (double)length * times, tag[0]);
    free(bytes);
}

static void measure_crc32c(const char *name, uint32_t (*sum_of)(uint32_t, const uint8_t *, size_t), size_t length, int times) {
    uint8_t *bytes = malloc(length);
    if (!bytes) exit(1);
    memset(bytes, 90, length);
    uint32_t sum = 0xffffffffu;
    start();
    for (int n = 0; n < times; n++) sum = sum_of(sum, bytes, length);
    report(name, (double)length * times, sum);
    free(bytes);
}

static void measure_hmac(const char *name, size_t length, int times) {
    uint8_t key[20], code[32] = {0};
    uint8_t *bytes = malloc(length);
    if (!bytes) exit(1);
    memset(key, 9, 20);
    memset(bytes, 90, length);
    start();
    for (int n = 0; n < times; n++) hmac(key, 20, bytes, length, code);
    report(name, (double)length * times, code[0]);
    free(bytes);
}

int main(void) {
    uint8_t key[16];
    make_tables();
    make_crc_table();
    memset(key, 7, 16);
    expand(key);
    for (int turn = 0; turn < TURNS; turn++) {
        measure_blocks("aes_encrypt", encrypt);
        measure_blocks("aes_encrypt_by_words", encrypt_by_words);
        measure_blocks("aes_decrypt", decrypt);
        measure_seal("gcm_seal_64", encrypt, 64, 2000);
        measure_seal("gcm_seal_4_KiB", encrypt, SHORT, 32);
        measure_seal("gcm_seal_4_KiB_by_words", encrypt_by_words, SHORT, 32);
        measure_seal("gcm_seal_1_MiB", encrypt, LONG, 1);
        measure_seal("gcm_seal_1_MiB_by_words", encrypt_by_words, LONG, 1);
        measure_crc32c("crc32c_64_KiB", crc32c, 65536, 64);
        measure_crc32c("crc32c_64_KiB_by_eight", crc32c_by_eight, 65536, 64);
        measure_hmac("hmac_64_KiB", 65536, 64);
    }
    return 0;
}
