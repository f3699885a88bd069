/* Chained AES-128 blocks: the proved cipher, a T-table AES, and, with OPENSSL defined, OpenSSL's CBC over zeros, which is the
 * same chain. */
#define _POSIX_C_SOURCE 200112L
#ifdef OPENSSL
#include <openssl/evp.h>
#endif
#include <stdint.h>
#include <stdio.h>
#include <stdlib.h>
#include <string.h>
#include <time.h>

uint32_t cipher_chain(uint8_t x, uint64_t n);

/* ---- a T-table AES: four tables of 256 words, and the S-box for the last round */
static uint8_t S[256];
static uint32_t T0[256], T1[256], T2[256], T3[256];

static uint8_t twice(uint8_t x) { return (uint8_t)(x << 1 ^ (x >> 7) * 0x1b); }
static uint8_t turned(uint8_t x, int k) { return (uint8_t)(x << k | x >> (8 - k)); }

static void tables(void) {
    uint8_t p = 1, q = 1;
    do {
        p = (uint8_t)(p ^ twice(p));
        q = (uint8_t)(q ^ q << 1);
        q = (uint8_t)(q ^ q << 2);
        q = (uint8_t)(q ^ q << 4);
        q = (uint8_t)(q ^ (q >> 7) * 0x09);
        S[p] = (uint8_t)(q ^ turned(q, 1) ^ turned(q, 2) ^ turned(q, 3) ^ turned(q, 4) ^ 0x63);
    } while (p != 1);
    S[0] = 0x63;
    for (int i = 0; i < 256; i++) {
        uint32_t s = S[i], d = twice(S[i]), t = d ^ s;
        T0[i] = d | s << 8 | s << 16 | t << 24;
        T1[i] = T0[i] << 8 | T0[i] >> 24;
        T2[i] = T0[i] << 16 | T0[i] >> 16;
        T3[i] = T0[i] << 24 | T0[i] >> 8;
    }
}

/* words least byte first, as x86-64 has them: byte by byte, gcc's code is a quarter slower */
static uint32_t load(const uint8_t *b) {
    uint32_t w;
    memcpy(&w, b, 4);
    return w;
}

static void store(uint8_t *b, uint32_t w) { memcpy(b, &w, 4); }

static void expand(uint32_t w[44], const uint8_t key[16]) {
    uint8_t c = 1;
    for (int i = 0; i < 4; i++) w[i] = load(key + 4 * i);
    for (int i = 4; i < 44; i++) {
        uint32_t t = w[i - 1];
        if (i % 4 == 0) {
            t = (uint32_t)(S[t >> 8 & 255] ^ c) | (uint32_t)S[t >> 16 & 255] << 8 | (uint32_t)S[t >> 24] << 16 |
                (uint32_t)S[t & 255] << 24;
            c = twice(c);
        }
        w[i] = w[i - 4] ^ t;
    }
}

#define FULL(a, b, c, d, k) (T0[a & 255] ^ T1[b >> 8 & 255] ^ T2[c >> 16 & 255] ^ T3[d >> 24] ^ k)
#define LAST(a, b, c, d, k)                                                                               \
    (((uint32_t)S[a & 255] | (uint32_t)S[b >> 8 & 255] << 8 | (uint32_t)S[c >> 16 & 255] << 16 |          \
      (uint32_t)S[d >> 24] << 24) ^ k)

static void encrypt(const uint32_t w[44], const uint8_t in[16], uint8_t out[16]) {
    uint32_t a = load(in) ^ w[0], b = load(in + 4) ^ w[1], c = load(in + 8) ^ w[2], d = load(in + 12) ^ w[3];
    for (int r = 1; r < 10; r++) {
        const uint32_t *k = w + 4 * r;
        uint32_t e = FULL(a, b, c, d, k[0]), f = FULL(b, c, d, a, k[1]);
        uint32_t g = FULL(c, d, a, b, k[2]), h = FULL(d, a, b, c, k[3]);
        a = e, b = f, c = g, d = h;
    }
    store(out, LAST(a, b, c, d, w[40]));
    store(out + 4, LAST(b, c, d, a, w[41]));
    store(out + 8, LAST(c, d, a, b, w[42]));
    store(out + 12, LAST(d, a, b, c, w[43]));
}

static uint32_t table_chain(uint8_t x, uint64_t n) {
    uint32_t w[44];
    uint8_t s[16];
    memset(s, x, 16);
    expand(w, s);
    for (uint64_t i = 0; i < n; i++) encrypt(w, s, s);
    return load(s);
}

/* ---- OpenSSL: CBC over zeros from the block as IV */
#ifdef OPENSSL
#define PART 65536
static uint8_t zeros[PART], out[PART + 16];

static uint32_t openssl_chain(uint8_t x, uint64_t n) {
    uint8_t s[16];
    int got;
    memset(s, x, 16);
    EVP_CIPHER_CTX *ctx = EVP_CIPHER_CTX_new();
    if (!ctx || !EVP_EncryptInit_ex(ctx, EVP_aes_128_cbc(), NULL, s, s)) exit(2);
    EVP_CIPHER_CTX_set_padding(ctx, 0);
    for (uint64_t left = n * 16; left > 0;) {
        int part = left < PART ? (int)left : PART;
        if (!EVP_EncryptUpdate(ctx, out, &got, zeros, part) || got != part) exit(2);
        memcpy(s, out + part - 16, 16);
        left -= (uint64_t)part;
    }
    EVP_CIPHER_CTX_free(ctx);
    return load(s);
}
#endif

static double seconds(uint32_t (*chain)(uint8_t, uint64_t), uint8_t x, uint64_t n, uint32_t *result) {
    struct timespec a, b;
    clock_gettime(CLOCK_PROCESS_CPUTIME_ID, &a);
    *result = chain(x, n);
    clock_gettime(CLOCK_PROCESS_CPUTIME_ID, &b);
    return (double)(b.tv_sec - a.tv_sec) + 1e-9 * (double)(b.tv_nsec - a.tv_nsec);
}

static const struct {
    uint32_t (*chain)(uint8_t, uint64_t);
    const char *name; /* NULL: the second argument */
} ciphers[] = {
    {table_chain, "T-table AES in C"},
    {cipher_chain, "proved cipher"},
#ifdef OPENSSL
    {openssl_chain, NULL},
#endif
};

enum { CIPHERS = sizeof ciphers / sizeof *ciphers };

int main(int argc, char **argv) {
    uint64_t n = argc > 1 ? strtoull(argv[1], NULL, 10) : 200000;
    double best[CIPHERS];
    tables();
    /* they take turns, and the best of 25 turns counts, in processor time */
    for (int turn = 0; turn < 25; turn++) {
        uint32_t r[CIPHERS];
        for (int i = 0; i < CIPHERS; i++) {
            double t = seconds(ciphers[i].chain, (uint8_t)(turn * 29 + 3), n, &r[i]);
            if (turn == 0 || t < best[i]) best[i] = t;
            if (r[i] != r[0]) {
                printf("the chains differ\n");
                return 1;
            }
        }
    }
    for (int i = 0; i < CIPHERS; i++)
        printf("%-30s %7.1f ns a block, %5.2f of the T-table AES\n",
               ciphers[i].name != NULL ? ciphers[i].name : argc > 2 ? argv[2] : "OpenSSL", best[i] / (double)n * 1e9,
               best[i] / best[0]);
    return 0;
}
