/* Plain C for the measure of speed: the library's calls as a C programmer would write them, without intrinsics.
   A slice passes as pointer and length; refusals are document 01's numbers. */
#ifndef PLAIN_H
#define PLAIN_H

#include <stddef.h>
#include <stdint.h>

struct plain_written {
    uint32_t number;
    uint32_t written;
};

uint32_t plain_check_signature(const uint8_t *key, size_t key_len,
                               const uint8_t *message, size_t message_len,
                               const uint8_t *signature, size_t signature_len);

struct plain_written plain_make_key(const uint8_t *seed, size_t seed_len,
                                    const uint8_t *identifier, size_t identifier_len,
                                    uint8_t *tree, size_t tree_len,
                                    uint8_t *out, size_t out_len);

struct plain_written plain_sign(uint32_t leaf,
                                const uint8_t *seed, size_t seed_len,
                                const uint8_t *identifier, size_t identifier_len,
                                const uint8_t *randomizer, size_t randomizer_len,
                                const uint8_t *tree, size_t tree_len,
                                const uint8_t *message, size_t message_len,
                                uint8_t *out, size_t out_len);

/* The layers below the calls. They answer 0, or 7 when out is shorter than 32 bytes.
   A state is eight big-endian words in 32 bytes, a block 64 bytes. */
uint32_t plain_sha256(const uint8_t *message, size_t message_len, uint8_t *out, size_t out_len);

/* The same block taken in `count` times, each time into the state that came out before. */
uint32_t plain_compress_many(uint32_t count,
                             const uint8_t *state, size_t state_len,
                             const uint8_t *block, size_t block_len,
                             uint8_t *out, size_t out_len);

#endif
