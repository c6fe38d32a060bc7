/* OpenSSL's libcrypto behind the face of plain.h: its digest and its block function. */
#define OPENSSL_SUPPRESS_DEPRECATED
#include <openssl/sha.h>
#include <stddef.h>
#include <stdint.h>

uint32_t crypto_sha256(const uint8_t *message, size_t message_len, uint8_t *out, size_t out_len)
{
    if (out_len < SHA256_DIGEST_LENGTH)
        return 7;
    SHA256(message, message_len, out);
    return 0;
}

uint32_t crypto_compress_many(uint32_t count,
                              const uint8_t *state, size_t state_len,
                              const uint8_t *block, size_t block_len,
                              uint8_t *out, size_t out_len)
{
    SHA256_CTX hash;
    (void)state_len;
    (void)block_len;
    if (out_len < SHA256_DIGEST_LENGTH)
        return 7;
    SHA256_Init(&hash);
    for (int i = 0; i < 8; i++)
        hash.h[i] = (uint32_t)state[4 * i] << 24 | (uint32_t)state[4 * i + 1] << 16 | (uint32_t)state[4 * i + 2] << 8 | state[4 * i + 3];
    for (uint32_t i = 0; i < count; i++)
        SHA256_Transform(&hash, block);
    for (int i = 0; i < 32; i++)
        out[i] = (uint8_t)(hash.h[i / 4] >> (24 - 8 * (i % 4)));
    return 0;
}
