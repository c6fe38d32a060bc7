/* The calls of plain.h: SHA-256, LM-OTS and LMS in plain C. */
#include "plain.h"

#include <string.h>

/* SHA-256 (FIPS 180-4) */

static const uint32_t INITIAL[8] = {
    0x6a09e667, 0xbb67ae85, 0x3c6ef372, 0xa54ff53a, 0x510e527f, 0x9b05688c, 0x1f83d9ab, 0x5be0cd19,
};

static const uint32_t K[64] = {
    0x428a2f98, 0x71374491, 0xb5c0fbcf, 0xe9b5dba5, 0x3956c25b, 0x59f111f1, 0x923f82a4, 0xab1c5ed5,
    0xd807aa98, 0x12835b01, 0x243185be, 0x550c7dc3, 0x72be5d74, 0x80deb1fe, 0x9bdc06a7, 0xc19bf174,
    0xe49b69c1, 0xefbe4786, 0x0fc19dc6, 0x240ca1cc, 0x2de92c6f, 0x4a7484aa, 0x5cb0a9dc, 0x76f988da,
    0x983e5152, 0xa831c66d, 0xb00327c8, 0xbf597fc7, 0xc6e00bf3, 0xd5a79147, 0x06ca6351, 0x14292967,
    0x27b70a85, 0x2e1b2138, 0x4d2c6dfc, 0x53380d13, 0x650a7354, 0x766a0abb, 0x81c2c92e, 0x92722c85,
    0xa2bfe8a1, 0xa81a664b, 0xc24b8b70, 0xc76c51a3, 0xd192e819, 0xd6990624, 0xf40e3585, 0x106aa070,
    0x19a4c116, 0x1e376c08, 0x2748774c, 0x34b0bcb5, 0x391c0cb3, 0x4ed8aa4a, 0x5b9cca4f, 0x682e6ff3,
    0x748f82ee, 0x78a5636f, 0x84c87814, 0x8cc70208, 0x90befffa, 0xa4506ceb, 0xbef9a3f7, 0xc67178f2,
};

#define ROTR(x, n) (((x) >> (n)) | ((x) << (32 - (n))))
#define CH(x, y, z) ((z) ^ ((x) & ((y) ^ (z))))
#define MAJ(x, y, z) (((x) & (y)) | ((z) & ((x) | (y))))
#define SUM0(x) (ROTR(x, 2) ^ ROTR(x, 13) ^ ROTR(x, 22))
#define SUM1(x) (ROTR(x, 6) ^ ROTR(x, 11) ^ ROTR(x, 25))
#define SIGMA0(x) (ROTR(x, 7) ^ ROTR(x, 18) ^ ((x) >> 3))
#define SIGMA1(x) (ROTR(x, 17) ^ ROTR(x, 19) ^ ((x) >> 10))

/* The eight variables keep their places; from round to round their names turn. */
#define ROUND(a, b, c, d, e, f, g, h, constant, word)                        \
    do {                                                                     \
        uint32_t t1 = h + SUM1(e) + CH(e, f, g) + (constant) + (word);       \
        d += t1;                                                             \
        h = t1 + SUM0(a) + MAJ(a, b, c);                                     \
    } while (0)

#define EIGHT_ROUNDS(k, word, at)                                            \
    do {                                                                     \
        ROUND(a, b, c, d, e, f, g, h, (k)[(at) + 0], word((at) + 0));        \
        ROUND(h, a, b, c, d, e, f, g, (k)[(at) + 1], word((at) + 1));        \
        ROUND(g, h, a, b, c, d, e, f, (k)[(at) + 2], word((at) + 2));        \
        ROUND(f, g, h, a, b, c, d, e, (k)[(at) + 3], word((at) + 3));        \
        ROUND(e, f, g, h, a, b, c, d, (k)[(at) + 4], word((at) + 4));        \
        ROUND(d, e, f, g, h, a, b, c, (k)[(at) + 5], word((at) + 5));        \
        ROUND(c, d, e, f, g, h, a, b, (k)[(at) + 6], word((at) + 6));        \
        ROUND(b, c, d, e, f, g, h, a, (k)[(at) + 7], word((at) + 7));        \
    } while (0)

/* The last sixteen words of the schedule are enough to make the next. */
#define GIVEN(i) w[i]
#define MADE(i) (w[i] += SIGMA1(w[((i) + 14) & 15]) + w[((i) + 9) & 15] + SIGMA0(w[((i) + 1) & 15]))

static void compress(uint32_t state[8], const uint32_t block[16])
{
    uint32_t w[16];
    uint32_t a = state[0], b = state[1], c = state[2], d = state[3];
    uint32_t e = state[4], f = state[5], g = state[6], h = state[7];

    memcpy(w, block, sizeof w);
    EIGHT_ROUNDS(K, GIVEN, 0);
    EIGHT_ROUNDS(K, GIVEN, 8);
    for (int t = 16; t < 64; t += 16) {
        EIGHT_ROUNDS(K + t, MADE, 0);
        EIGHT_ROUNDS(K + t, MADE, 8);
    }
    state[0] += a;
    state[1] += b;
    state[2] += c;
    state[3] += d;
    state[4] += e;
    state[5] += f;
    state[6] += g;
    state[7] += h;
}

static uint32_t get32(const uint8_t *at)
{
    return (uint32_t)at[0] << 24 | (uint32_t)at[1] << 16 | (uint32_t)at[2] << 8 | at[3];
}

static void put32(uint8_t *at, uint32_t value)
{
    at[0] = (uint8_t)(value >> 24);
    at[1] = (uint8_t)(value >> 16);
    at[2] = (uint8_t)(value >> 8);
    at[3] = (uint8_t)value;
}

static void get_words(uint32_t *words, const uint8_t *bytes, int count)
{
    for (int i = 0; i < count; i++)
        words[i] = get32(bytes + 4 * i);
}

static void put_words(uint8_t *bytes, const uint32_t *words, int count)
{
    for (int i = 0; i < count; i++)
        put32(bytes + 4 * i, words[i]);
}

static void compress_bytes(uint32_t state[8], const uint8_t block[64])
{
    uint32_t words[16];
    get_words(words, block, 16);
    compress(state, words);
}

struct sha256 {
    uint32_t state[8];
    uint8_t tail[64];
    uint64_t length;
};

static void sha256_start(struct sha256 *hash)
{
    memcpy(hash->state, INITIAL, sizeof INITIAL);
    hash->length = 0;
}

static void sha256_add(struct sha256 *hash, const uint8_t *bytes, size_t count)
{
    size_t held = hash->length % 64;
    hash->length += count;
    if (held > 0) {
        size_t taken = count < 64 - held ? count : 64 - held;
        memcpy(hash->tail + held, bytes, taken);
        if (held + taken < 64)
            return;
        compress_bytes(hash->state, hash->tail);
        bytes += taken;
        count -= taken;
    }
    for (; count >= 64; bytes += 64, count -= 64)
        compress_bytes(hash->state, bytes);
    memcpy(hash->tail, bytes, count);
}

static void sha256_end(struct sha256 *hash, uint8_t digest[32])
{
    size_t held = hash->length % 64;
    hash->tail[held++] = 0x80;
    if (held > 56) {
        memset(hash->tail + held, 0, 64 - held);
        compress_bytes(hash->state, hash->tail);
        held = 0;
    }
    memset(hash->tail + held, 0, 56 - held);
    put32(hash->tail + 56, (uint32_t)(hash->length >> 29));
    put32(hash->tail + 60, (uint32_t)(hash->length << 3));
    compress_bytes(hash->state, hash->tail);
    put_words(digest, hash->state, 8);
}

/* LM-OTS and LMS (RFC 8554) */

enum {
    N = 32,
    IDENTIFIER = 16,
    PUBLIC_KEY = 24 + N,
    MAX_CHAINS = 67,
    MAX_MESSAGE = 65535,
    HEIGHT = 10,
    LEAVES = 1 << HEIGHT,
    CHAINS = 34,
    TREE = 2 * LEAVES * N,
    SIGNATURE = 12 + N * (CHAINS + 1) + N * HEIGHT,
    D_PBLC = 0x8080,
    D_MESG = 0x8181,
    D_LEAF = 0x8282,
    D_INTR = 0x8383,
    TYPE_H5 = 5,
    TYPE_H10 = 6,
    TYPE_W4 = 3,
    TYPE_W8 = 4
};

/* Every hash but those of the chains starts with I, q or a node's number, and a two-byte separator. */
static void hash_start(struct sha256 *hash, const uint8_t *identifier, uint32_t number, uint32_t separator)
{
    uint8_t prefix[IDENTIFIER + 6];
    memcpy(prefix, identifier, IDENTIFIER);
    put32(prefix + IDENTIFIER, number);
    prefix[IDENTIFIER + 4] = (uint8_t)(separator >> 8);
    prefix[IDENTIFIER + 5] = (uint8_t)separator;
    sha256_start(hash);
    sha256_add(hash, prefix, sizeof prefix);
}

static void hash_leaf(uint8_t node[N], const uint8_t *identifier, uint32_t number, const uint8_t key[N])
{
    struct sha256 hash;
    hash_start(&hash, identifier, number, D_LEAF);
    sha256_add(&hash, key, N);
    sha256_end(&hash, node);
}

static void hash_inner(uint8_t node[N], const uint8_t *identifier, uint32_t number,
                       const uint8_t left[N], const uint8_t right[N])
{
    struct sha256 hash;
    hash_start(&hash, identifier, number, D_INTR);
    sha256_add(&hash, left, N);
    sha256_add(&hash, right, N);
    sha256_end(&hash, node);
}

/* The digits of a message: its digest, then the checksum, which width 4 shifts left by one digit. */
static void hash_message(uint8_t digits[N + 2], const uint8_t *identifier, uint32_t q, const uint8_t *randomizer,
                         const uint8_t *message, size_t message_len, int width)
{
    struct sha256 hash;
    uint32_t sum = 0;
    hash_start(&hash, identifier, q, D_MESG);
    sha256_add(&hash, randomizer, N);
    sha256_add(&hash, message, message_len);
    sha256_end(&hash, digits);
    for (int i = 0; i < N; i++)
        sum += width == 8 ? 255u - digits[i] : 30u - (digits[i] >> 4) - (digits[i] & 15);
    if (width == 4)
        sum <<= 4;
    digits[N] = (uint8_t)(sum >> 8);
    digits[N + 1] = (uint8_t)sum;
}

static uint32_t digit(const uint8_t *digits, int i, int width)
{
    if (width == 8)
        return digits[i];
    return i % 2 == 0 ? digits[i / 2] >> 4 : digits[i / 2] & 15;
}

/* The block of a chain's hash: I, q, i, j, a value, and the padding of 55 bytes. */
static void chain_block(uint32_t block[16], const uint8_t *identifier, uint32_t q)
{
    get_words(block, identifier, 4);
    block[4] = q;
    block[14] = 0;
    block[15] = 8 * 55;
}

static void chain_hash(uint32_t value[8], uint32_t block[16], uint32_t i, uint32_t j)
{
    block[5] = i << 16 | j << 8 | value[0] >> 24;
    for (int k = 0; k < 7; k++)
        block[6 + k] = value[k] << 8 | value[k + 1] >> 24;
    block[13] = value[7] << 8 | 0x80;
    memcpy(value, INITIAL, sizeof INITIAL);
    compress(value, block);
}

static void chain_walk(uint32_t value[8], uint32_t block[16], uint32_t i, uint32_t from, uint32_t to)
{
    for (uint32_t j = from; j < to; j++)
        chain_hash(value, block, i, j);
}

static void chain_start(uint32_t value[8], uint32_t block[16], uint32_t i, const uint32_t seed[8])
{
    memcpy(value, seed, N);
    chain_hash(value, block, i, 0xff);
}

static void make_leaf(uint8_t node[N], const uint8_t *identifier, uint32_t q, const uint32_t seed[8])
{
    struct sha256 hash;
    uint32_t block[16], value[8];
    uint8_t end[N];
    hash_start(&hash, identifier, q, D_PBLC);
    chain_block(block, identifier, q);
    for (int i = 0; i < CHAINS; i++) {
        chain_start(value, block, i, seed);
        chain_walk(value, block, i, 0, 255);
        put_words(end, value, 8);
        sha256_add(&hash, end, N);
    }
    sha256_end(&hash, end);
    hash_leaf(node, identifier, LEAVES + q, end);
}

static struct plain_written refused(uint32_t number)
{
    return (struct plain_written){ number, 0 };
}

struct plain_written plain_make_key(const uint8_t *seed, size_t seed_len,
                                    const uint8_t *identifier, size_t identifier_len,
                                    uint8_t *tree, size_t tree_len,
                                    uint8_t *out, size_t out_len)
{
    uint32_t seed_words[8];
    if (out_len < PUBLIC_KEY)
        return refused(7);
    if (seed_len != N || identifier_len != IDENTIFIER || tree_len != TREE)
        return refused(16);

    get_words(seed_words, seed, 8);
    for (uint32_t q = 0; q < LEAVES; q++)
        make_leaf(tree + N * (LEAVES + q), identifier, q, seed_words);
    for (uint32_t r = LEAVES - 1; r > 0; r--)
        hash_inner(tree + N * r, identifier, r, tree + N * (2 * r), tree + N * (2 * r + 1));

    put32(out, TYPE_H10);
    put32(out + 4, TYPE_W8);
    memcpy(out + 8, identifier, IDENTIFIER);
    memcpy(out + 24, tree + N, N);
    return (struct plain_written){ 0, PUBLIC_KEY };
}

struct plain_written plain_sign(uint32_t leaf,
                                const uint8_t *seed, size_t seed_len,
                                const uint8_t *identifier, size_t identifier_len,
                                const uint8_t *randomizer, size_t randomizer_len,
                                const uint8_t *tree, size_t tree_len,
                                const uint8_t *message, size_t message_len,
                                uint8_t *out, size_t out_len)
{
    uint32_t seed_words[8], block[16], value[8];
    uint8_t digits[N + 2];
    uint8_t *at = out;
    if (leaf >= LEAVES)
        return refused(3);
    if (out_len < SIGNATURE)
        return refused(7);
    if (message_len > MAX_MESSAGE)
        return refused(9);
    if (seed_len != N || identifier_len != IDENTIFIER || randomizer_len != N || tree_len != TREE)
        return refused(16);

    get_words(seed_words, seed, 8);
    hash_message(digits, identifier, leaf, randomizer, message, message_len, 8);
    put32(at, leaf);
    put32(at + 4, TYPE_W8);
    memcpy(at + 8, randomizer, N);
    at += 8 + N;
    chain_block(block, identifier, leaf);
    for (int i = 0; i < CHAINS; i++, at += N) {
        chain_start(value, block, i, seed_words);
        chain_walk(value, block, i, 0, digits[i]);
        put_words(at, value, 8);
    }
    put32(at, TYPE_H10);
    at += 4;
    for (uint32_t node = LEAVES + leaf; node > 1; node /= 2, at += N)
        memcpy(at, tree + N * (node ^ 1), N);
    return (struct plain_written){ 0, SIGNATURE };
}

uint32_t plain_check_signature(const uint8_t *key, size_t key_len,
                               const uint8_t *message, size_t message_len,
                               const uint8_t *signature, size_t signature_len)
{
    struct sha256 hash;
    uint32_t block[16], value[8], lms_type, ots_type, q, node;
    uint8_t digits[N + 2], tmp[N];
    int width, height, chains;
    size_t path;

    if (key_len != PUBLIC_KEY)
        return 5;
    lms_type = get32(key);
    ots_type = get32(key + 4);
    if ((lms_type != TYPE_H5 && lms_type != TYPE_H10) || (ots_type != TYPE_W4 && ots_type != TYPE_W8))
        return 5;
    if (message_len > MAX_MESSAGE)
        return 9;

    height = lms_type == TYPE_H5 ? 5 : HEIGHT;
    width = ots_type == TYPE_W4 ? 4 : 8;
    chains = ots_type == TYPE_W4 ? MAX_CHAINS : CHAINS;
    path = 12 + N * ((size_t)chains + 1);
    if (signature_len != path + N * (size_t)height)
        return 14;
    q = get32(signature);
    if (q >> height != 0 || get32(signature + 4) != ots_type || get32(signature + path - 4) != lms_type)
        return 14;

    hash_message(digits, key + 8, q, signature + 8, message, message_len, width);
    hash_start(&hash, key + 8, q, D_PBLC);
    chain_block(block, key + 8, q);
    for (int i = 0; i < chains; i++) {
        get_words(value, signature + 8 + N * (i + 1), 8);
        chain_walk(value, block, i, digit(digits, i, width), (1u << width) - 1);
        put_words(tmp, value, 8);
        sha256_add(&hash, tmp, N);
    }
    sha256_end(&hash, tmp);

    node = (1u << height) + q;
    hash_leaf(tmp, key + 8, node, tmp);
    for (const uint8_t *sibling = signature + path; node > 1; node /= 2, sibling += N) {
        if (node % 2 == 1)
            hash_inner(tmp, key + 8, node / 2, sibling, tmp);
        else
            hash_inner(tmp, key + 8, node / 2, tmp, sibling);
    }
    return memcmp(tmp, key + 24, N) == 0 ? 0 : 14;
}

uint32_t plain_sha256(const uint8_t *message, size_t message_len, uint8_t *out, size_t out_len)
{
    struct sha256 hash;
    if (out_len < N)
        return 7;
    sha256_start(&hash);
    sha256_add(&hash, message, message_len);
    sha256_end(&hash, out);
    return 0;
}

uint32_t plain_compress_many(uint32_t count,
                             const uint8_t *state, size_t state_len,
                             const uint8_t *block, size_t block_len,
                             uint8_t *out, size_t out_len)
{
    uint32_t state_words[8], block_words[16];
    (void)state_len;
    (void)block_len;
    if (out_len < N)
        return 7;
    get_words(state_words, state, 8);
    get_words(block_words, block, 16);
    for (uint32_t i = 0; i < count; i++)
        compress(state_words, block_words);
    put_words(out, state_words, 8);
    return 0;
}
