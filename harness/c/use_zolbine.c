/* The library from C: a line for each step, and an end with 1 at the first that fails. */
#include "zolbine.h"

#include <stdio.h>
#include <string.h>

/* Seed, identifier and public key of vectors/bc-vectors.txt, types 6 and 4: Bouncy Castle made the key. */
static const uint8_t SEED[ZOLBINE_SEED_LEN] = {
    0x9d, 0x0e, 0xce, 0x55, 0xbb, 0xba, 0x22, 0x55, 0x28, 0x3a, 0xc2, 0x39, 0x0d, 0xa9, 0xcb, 0x95,
    0x2a, 0xdb, 0x6a, 0x3d, 0xa5, 0x52, 0x65, 0xa1, 0x7a, 0xe4, 0xf4, 0xb6, 0xf9, 0x65, 0xe9, 0x33,
};
static const uint8_t IDENTIFIER[ZOLBINE_IDENTIFIER_LEN] = {
    0xde, 0x69, 0xee, 0x54, 0x82, 0xdd, 0x58, 0x59, 0xb0, 0xf1, 0xcb, 0x8e, 0x21, 0xe7, 0xb5, 0x72,
};
static const uint8_t PUBLIC[ZOLBINE_KEY_LEN] = {
    0x00, 0x00, 0x00, 0x06, 0x00, 0x00, 0x00, 0x04,
    0xde, 0x69, 0xee, 0x54, 0x82, 0xdd, 0x58, 0x59, 0xb0, 0xf1, 0xcb, 0x8e, 0x21, 0xe7, 0xb5, 0x72,
    0x70, 0x43, 0x7c, 0x4e, 0x84, 0xcb, 0x9a, 0x8d, 0x95, 0x88, 0xe2, 0x0b, 0x42, 0x84, 0xea, 0x42,
    0x49, 0x00, 0x5c, 0xba, 0xab, 0x11, 0x5e, 0x4e, 0xb5, 0x75, 0x16, 0xb1, 0xa7, 0xbd, 0x1b, 0x59,
};
static const uint8_t RANDOMIZER[ZOLBINE_RANDOMIZER_LEN] = { 1, 2, 3, 4 };
static const uint8_t MESSAGE[ZOLBINE_SIGNED_LEN] = { ZOLBINE_SUBMIT, 0x00, 0x05, 0x00, 0xaa };

static int step(const char *what, struct zolbine_written answer, uint32_t number, uint32_t written)
{
    int right = answer.number == number && answer.written == written;
    printf("%-40s %2u %4u  %s\n", what, (unsigned)answer.number, (unsigned)answer.written, right ? "right" : "WRONG");
    return right;
}

/* The check answers a number alone. */
static int check(const char *what, const uint8_t *key, const uint8_t *signature, uint32_t number)
{
    struct zolbine_written answer = { 0, 0 };
    answer.number = zolbine_check_signature(key, ZOLBINE_KEY_LEN, MESSAGE, sizeof MESSAGE, signature, ZOLBINE_SIGNATURE_LEN);
    return step(what, answer, number, 0);
}

static struct zolbine_written make_key(uint8_t *tree, uint8_t *out, size_t out_len)
{
    return zolbine_make_key(SEED, sizeof SEED, IDENTIFIER, sizeof IDENTIFIER, tree, ZOLBINE_TREE_LEN, out, out_len);
}

static struct zolbine_written sign(uint32_t leaf, const uint8_t *tree, uint8_t *out, size_t out_len)
{
    return zolbine_sign(leaf, SEED, sizeof SEED, IDENTIFIER, sizeof IDENTIFIER, RANDOMIZER, sizeof RANDOMIZER,
                        tree, ZOLBINE_TREE_LEN, MESSAGE, sizeof MESSAGE, out, out_len);
}

int main(void)
{
    static uint8_t tree[ZOLBINE_TREE_LEN];
    uint8_t key[ZOLBINE_KEY_LEN], signature[ZOLBINE_SIGNATURE_LEN];

    if (!step("make a key into 55 bytes", make_key(tree, key, ZOLBINE_KEY_LEN - 1), ZOLBINE_OUT, 0))
        return 1;
    if (!step("make a key", make_key(tree, key, ZOLBINE_KEY_LEN), 0, ZOLBINE_KEY_LEN))
        return 1;
    if (memcmp(key, PUBLIC, ZOLBINE_KEY_LEN) != 0) {
        printf("another key than Bouncy Castle's\n");
        return 1;
    }
    if (!step("sign with leaf 1024", sign(ZOLBINE_LAST_LEAF + 1, tree, signature, ZOLBINE_SIGNATURE_LEN), ZOLBINE_ROUND, 0))
        return 1;
    if (!step("sign into 1451 bytes", sign(5, tree, signature, ZOLBINE_SIGNATURE_LEN - 1), ZOLBINE_OUT, 0))
        return 1;
    if (!step("sign", sign(5, tree, signature, ZOLBINE_SIGNATURE_LEN), 0, ZOLBINE_SIGNATURE_LEN))
        return 1;
    if (!check("check", key, signature, 0))
        return 1;
    signature[ZOLBINE_SIGNATURE_LEN - 1] ^= 1;
    if (!check("check the signature with a bit turned", key, signature, ZOLBINE_SIGNATURE))
        return 1;
    signature[ZOLBINE_SIGNATURE_LEN - 1] ^= 1;
    key[3] = 7;
    if (!check("check under a key of type 7", key, signature, ZOLBINE_KEYS))
        return 1;
    return 0;
}
