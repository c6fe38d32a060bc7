/* Zolbine: the accountable confirmer of a fleet link. The C interface of libzolbine.a.
 *
 * Every call takes numbers and lent bytes, a pointer and a length, keeps nothing between calls, and allocates nothing. A pointer
 * is never NULL, also where the length is 0, and a buffer that is written overlaps no other. A call that may refuse answers a
 * refusal's number, 0 where nothing is refused; a refusal changes no byte of any buffer.
 */
#ifndef ZOLBINE_H
#define ZOLBINE_H

#include <stdbool.h>
#include <stddef.h>
#include <stdint.h>

#ifdef __cplusplus
extern "C" {
#endif

/* The interface's version: a change of a call, a struct or a length raises it. zolbine_version answers that of the archive: a
 * program that was compiled with this header runs with an archive of the same version alone.
 */
#define ZOLBINE_VERSION 6

uint32_t zolbine_version(void);

/* Refusals. A call answers the first whose condition holds, in the order in which its comment below lists them. */
enum {
    ZOLBINE_SIZE = 1,          /* n outside 1 to 32 */
    ZOLBINE_SEAT = 2,          /* own seat at or above n (opening) */
    ZOLBINE_ROUND = 3,         /* a round or leaf above 1,023 */
    ZOLBINE_NOTE = 17,         /* no note: not 118 bytes, another command than 0x20, both heard flags or an unknown flag set */
    ZOLBINE_RECORD = 4,        /* impossible record, or impossible dispatcher */
    ZOLBINE_KEYS = 5,          /* key table not 56 x n bytes, or a type not allowed */
    ZOLBINE_STORE = 6,         /* store too short */
    ZOLBINE_OUT = 7,           /* out shorter than the length stated for the call */
    ZOLBINE_SAID = 8,          /* submit a second time */
    ZOLBINE_GARBLED = 9,       /* wrong command, length, count or entry command; a message too long to check or sign */
    ZOLBINE_OTHER_ROUND = 10,  /* the message's round is not the caller's */
    ZOLBINE_STRANGER = 11,     /* a seat in a message at or above n */
    ZOLBINE_DISORDER = 12,     /* entry seats don't rise */
    ZOLBINE_EARLY = 13,        /* retired: no call answers it any more, and the number isn't used again */
    ZOLBINE_SIGNATURE = 14,    /* a signature doesn't check, or its leaf isn't the round */
    ZOLBINE_NO_CONFLICT = 15,  /* evidence with an entry whose values are equal or not lower first; certificates of equal values */
    ZOLBINE_KEY_MATERIAL = 16, /* seed, identifier, randomizer or tree of another length */
    ZOLBINE_LANE = 18,         /* the round is not among the dispatcher's eight; two of the eight are equal (opening one) */
    ZOLBINE_FULL_LANE = 19     /* 16 tickets wait in that lane */
};

/* Commands: the first byte of a message. docs/PROTOCOL.md has the bytes after it. */
enum {
    ZOLBINE_SUBMIT = 0x01,             /* a seat signs a value */
    ZOLBINE_NOTICE = 0x02,             /* a seat has confirmed a value */
    ZOLBINE_FULL = 0x03,               /* the signatures of k seats over one value */
    ZOLBINE_FULL_ENTRY = 0x04,         /* first byte of an entry of a FULL */
    ZOLBINE_OLD_EVIDENCE = 0x05,       /* EVIDENCE in the old form, one pair of values for all seats: no call writes it */
    ZOLBINE_OLD_EVIDENCE_ENTRY = 0x06, /* first byte of an entry of an EVIDENCE in the old form */
    ZOLBINE_EVIDENCE = 0x07,           /* seats that signed two values, each with its own pair */
    ZOLBINE_EVIDENCE_ENTRY = 0x08      /* first byte of an entry of an EVIDENCE */
};

/* Lengths in bytes, and the last leaf. In a message the command, a seat and a count have 1 byte, the round has 2. A name that ends
 * with _AT is a place, counted from the first byte.
 */
enum {
    ZOLBINE_SEED_LEN = 32,
    ZOLBINE_IDENTIFIER_LEN = 16,
    ZOLBINE_RANDOMIZER_LEN = 32,
    ZOLBINE_KEY_LEN = 56,
    ZOLBINE_TREE_LEN = 65536,
    ZOLBINE_SIGNATURE_LEN = 1452,
    ZOLBINE_LEAF_LEN = 4, /* the leaf, high byte first, with which a signature starts */
    ZOLBINE_MESSAGE_MAX = 65535, /* the longest that zolbine_check_signature and zolbine_sign take; an EVIDENCE may be longer */
    ZOLBINE_LAST_LEAF = 1023,
    ZOLBINE_MOST_SEATS = 32,
    ZOLBINE_LANES = 8,        /* rounds that a dispatcher follows */
    ZOLBINE_LANE_PLACES = 16, /* tickets that may wait in each */
    ZOLBINE_VALUE_LEN = 32,
    ZOLBINE_ROUND_AT = 1, /* in every command: after its one byte */
    ZOLBINE_SEAT_AT = 1 + 2, /* in the signed bytes, SUBMIT, NOTICE and FULL: after command and round */
    ZOLBINE_VALUE_AT = 1 + 2 + 1, /* in the same: after the seat */
    ZOLBINE_SIGNED_LEN = 1 + 2 + 1 + ZOLBINE_VALUE_LEN,              /* what a seat signs: 0x01, round, seat, value */
    ZOLBINE_SUBMIT_LEN = ZOLBINE_SIGNED_LEN + ZOLBINE_SIGNATURE_LEN, /* the signed bytes, signature */
    ZOLBINE_NOTICE_LEN = 1 + 2 + 1 + ZOLBINE_VALUE_LEN,              /* command, round, seat, value */
    ZOLBINE_FULL_COUNT_AT = 1 + 2 + 1 + ZOLBINE_VALUE_LEN,           /* in FULL: after the value */
    ZOLBINE_FULL_HEAD_LEN = 1 + 2 + 1 + ZOLBINE_VALUE_LEN + 1,       /* command, round, sender's seat, value, count */
    ZOLBINE_FULL_ENTRY_LEN = 1 + 1 + ZOLBINE_SIGNATURE_LEN,          /* command, seat, signature */
    ZOLBINE_OLD_EVIDENCE_COUNT_AT = 1 + 2 + 2 * ZOLBINE_VALUE_LEN,      /* in EVIDENCE of the old form: after the two values */
    ZOLBINE_OLD_EVIDENCE_HEAD_LEN = 1 + 2 + 2 * ZOLBINE_VALUE_LEN + 1,  /* command, round, two values, count */
    ZOLBINE_OLD_EVIDENCE_ENTRY_LEN = 1 + 1 + 2 * ZOLBINE_SIGNATURE_LEN, /* command, seat, two signatures */
    ZOLBINE_EVIDENCE_COUNT_AT = 1 + 2,                               /* in EVIDENCE: after the round */
    ZOLBINE_EVIDENCE_HEAD_LEN = 1 + 2 + 1,                           /* command, round, count */
    ZOLBINE_EVIDENCE_ENTRY_LEN =                                     /* command, seat, two values, two signatures */
        1 + 1 + 2 * ZOLBINE_VALUE_LEN + 2 * ZOLBINE_SIGNATURE_LEN,
    ZOLBINE_NOTE_LEN = 1 + 1 + 1 + 2 + 1 + 4 * 4 + 3 * ZOLBINE_VALUE_LEN /* command, n, seat, round, flags, masks, values */
};

/* A number of any integer type as a size_t, for the lengths below. */
#ifdef __cplusplus
#define ZOLBINE_AS_SIZE(number) static_cast<size_t>(number)
#else
#define ZOLBINE_AS_SIZE(number) ((size_t)(number))
#endif

/* Lengths by n, the number of seats, from 1 to 32. It takes the signatures of k = n - t0 seats to confirm a value, and more than
 * t0 double signers, t0 = n/3 rounded up, less one, to have two confirmed. An EVIDENCE of either form is as long as its count of
 * entries, 1 to n, makes it. Each takes a number of any integer type and is a size_t, a constant where the number is one.
 */
#define ZOLBINE_T0(n) ((ZOLBINE_AS_SIZE(n) + 2) / 3 - 1)
#define ZOLBINE_K(n) (ZOLBINE_AS_SIZE(n) - ZOLBINE_T0(n))
#define ZOLBINE_KEYS_LEN(n) (ZOLBINE_KEY_LEN * ZOLBINE_AS_SIZE(n))
#define ZOLBINE_STORE_LEN(n) ((3 * ZOLBINE_SIGNATURE_LEN + ZOLBINE_VALUE_LEN) * ZOLBINE_AS_SIZE(n))
#define ZOLBINE_FULL_LEN(n) (ZOLBINE_FULL_HEAD_LEN + ZOLBINE_FULL_ENTRY_LEN * ZOLBINE_K(n))
#define ZOLBINE_EVIDENCE_LEN(count) (ZOLBINE_EVIDENCE_HEAD_LEN + ZOLBINE_EVIDENCE_ENTRY_LEN * ZOLBINE_AS_SIZE(count))
#define ZOLBINE_OLD_EVIDENCE_LEN(count) \
    (ZOLBINE_OLD_EVIDENCE_HEAD_LEN + ZOLBINE_OLD_EVIDENCE_ENTRY_LEN * ZOLBINE_AS_SIZE(count))
#define ZOLBINE_EVIDENCE_OUT_LEN(n) ZOLBINE_EVIDENCE_LEN(ZOLBINE_K(n)) /* out of zolbine_make_evidence */
#define ZOLBINE_JOINED_OUT_LEN(n) ZOLBINE_EVIDENCE_LEN(n) /* out of zolbine_join_evidence: room for every seat */
/* out of zolbine_submit and of the steps: room for one message of each kind */
#define ZOLBINE_OUT_LEN(n) (ZOLBINE_SUBMIT_LEN + ZOLBINE_NOTICE_LEN + ZOLBINE_FULL_LEN(n) + ZOLBINE_EVIDENCE_OUT_LEN(n))

/* The length of the first message in a buffer, for splitting the bytes that a call wrote into messages: 0 where no message of a
 * fleet of n seats stands there whole, with its command, length, count and entry commands right. Also 0 for n outside 1 to 32.
 * Seats, round, values and signatures aren't looked at. EVIDENCE in the old form is a message too.
 */
uint32_t zolbine_message_length(uint32_t n, const uint8_t *bytes, size_t bytes_len);

struct zolbine_written {
    uint32_t number;  /* the refusal's number, or 0 */
    uint32_t written; /* bytes written from the start of out; the bytes beyond them keep what they held */
};

/* The check of one signature by RFC 8554: a public key of 56 bytes (LMS_SHA256_M32_H5 or H10, types 5 and 6, with
 * LMOTS_SHA256_N32_W4 or W8, types 3 and 4, in any pairing), a message of up to 65,535 bytes, and the signature.
 * Answers 0 where the standard accepts it, else ZOLBINE_KEYS, ZOLBINE_GARBLED (message too long) or ZOLBINE_SIGNATURE.
 */
uint32_t zolbine_check_signature(const uint8_t *key, size_t key_len,
                                 const uint8_t *message, size_t message_len,
                                 const uint8_t *signature, size_t signature_len);

/* The key maker: from a seed of 32 secret bytes and an identifier of 16 it fills the tree, 65,536 bytes, node r at byte 32 * r
 * (bytes 0 to 31 keep what they held), and writes the public key of 56 bytes (types 6 and 4) to out, of 56 bytes or more.
 * It takes some nine million hashes. Refusals: ZOLBINE_OUT, ZOLBINE_KEY_MATERIAL.
 */
struct zolbine_written zolbine_make_key(const uint8_t *seed, size_t seed_len,
                                        const uint8_t *identifier, size_t identifier_len,
                                        uint8_t *tree, size_t tree_len,
                                        uint8_t *out, size_t out_len);

/* The signer: writes the signature of 1,452 bytes over the message to out, of 1,452 bytes or more, with the leaf of that seed and
 * identifier, a randomizer of 32 fresh random bytes, and the tree that zolbine_make_key filled. It reads the tree and doesn't
 * compare it with the seed. Refusals: ZOLBINE_ROUND (leaf), ZOLBINE_OUT, ZOLBINE_GARBLED (message too long),
 * ZOLBINE_KEY_MATERIAL.
 *
 * WARNING: of one leaf never more than one signature is to leave the boat. Two over different messages let anyone forge others
 * under it, and in a round they make the seat a double signer. Mark the leaf as used BEFORE the signature leaves; docs/HOST.md
 * ("The leaf") says what holds after a power cut.
 */
struct zolbine_written zolbine_sign(uint32_t leaf,
                                    const uint8_t *seed, size_t seed_len,
                                    const uint8_t *identifier, size_t identifier_len,
                                    const uint8_t *randomizer, size_t randomizer_len,
                                    const uint8_t *tree, size_t tree_len,
                                    const uint8_t *message, size_t message_len,
                                    uint8_t *out, size_t out_len);

struct zolbine_verdict {
    uint32_t number; /* the refusal's number, or 0 */
    uint32_t mask;   /* the seats that the evidence names, seat s being bit s; 0 with a refusal */
};

/* The evidence check: an EVIDENCE command, in the old form too, of a fleet of n seats in a round, under the fleet's key table
 * (56 * n bytes, seat s's key at byte 56 * s, types 6 and 4). Accepted evidence names double signers: each seat in the mask signed
 * two layouts in the round. Refusals: ZOLBINE_SIZE, ZOLBINE_ROUND, ZOLBINE_KEYS, ZOLBINE_GARBLED, ZOLBINE_OTHER_ROUND,
 * ZOLBINE_STRANGER, ZOLBINE_DISORDER, ZOLBINE_SIGNATURE (of any entry), ZOLBINE_NO_CONFLICT (of any entry). Signatures are checked
 * only where none of the refusals before ZOLBINE_SIGNATURE applies; the values are compared after them.
 */
struct zolbine_verdict zolbine_check_evidence(uint32_t n, uint32_t round,
                                              const uint8_t *keys, size_t keys_len,
                                              const uint8_t *evidence, size_t evidence_len);

/* Evidence from two FULL commands in hand, given in either order, whose values differ: writes the EVIDENCE command that names
 * the seats they share to out, of ZOLBINE_EVIDENCE_OUT_LEN(n) bytes or more. zolbine_check_evidence accepts what it writes.
 * Refusals: ZOLBINE_SIZE, ZOLBINE_ROUND, ZOLBINE_KEYS, ZOLBINE_OUT, then of the first and then of the second ZOLBINE_GARBLED,
 * ZOLBINE_OTHER_ROUND, ZOLBINE_STRANGER, ZOLBINE_DISORDER, ZOLBINE_SIGNATURE, and of both ZOLBINE_NO_CONFLICT (equal values).
 */
struct zolbine_written zolbine_make_evidence(uint32_t n, uint32_t round,
                                             const uint8_t *keys, size_t keys_len,
                                             const uint8_t *first, size_t first_len,
                                             const uint8_t *second, size_t second_len,
                                             uint8_t *out, size_t out_len);

/* One pack from two EVIDENCE commands of a round that the check accepts, for whoever collects the boats' evidence: writes the
 * EVIDENCE command that names the seats of either, rising, to out, of ZOLBINE_JOINED_OUT_LEN(n) bytes or more, whatever the two
 * name. A seat that both name has its pair of the first. zolbine_check_evidence accepts what it writes, and its mask is the two
 * masks together. The two may be the same bytes. EVIDENCE in the old form is garbled here. Refusals: ZOLBINE_SIZE, ZOLBINE_ROUND,
 * ZOLBINE_KEYS, ZOLBINE_OUT, then of the first and then of the second ZOLBINE_GARBLED, ZOLBINE_OTHER_ROUND, ZOLBINE_STRANGER,
 * ZOLBINE_DISORDER, ZOLBINE_SIGNATURE, ZOLBINE_NO_CONFLICT: every refusal of the first comes before any of the second.
 */
struct zolbine_written zolbine_join_evidence(uint32_t n, uint32_t round,
                                             const uint8_t *keys, size_t keys_len,
                                             const uint8_t *first, size_t first_len,
                                             const uint8_t *second, size_t second_len,
                                             uint8_t *out, size_t out_len);

/* A unit's record in a round. It goes in and comes back by value, or is lent, and is to be read and never written by the host: a
 * record that no call gave may be refused (ZOLBINE_RECORD), or go with a store that doesn't hold what it says. A value is 32 bytes,
 * zeros where it isn't set; a set of seats is a mask, seat s being bit s.
 *
 * It has 140 bytes and is aligned to 4. Numbers are in the processor's own byte order. Nine bytes are padding, three after
 * own.value, three after confirmed and three after sent: they mean nothing, and a copy of a record may have others there. So two
 * records are compared field by field. A record is kept as its note (zolbine_write_note).
 */
struct zolbine_own {
    bool submitted;                   /* whether the unit has submitted */
    uint8_t value[ZOLBINE_VALUE_LEN]; /* the value submitted */
    uint32_t collected;               /* the seats whose signatures over it are collected, the own one among them */
};

struct zolbine_notices {
    uint32_t heard;                   /* values heard in NOTICE and FULL, the own one counting once the unit has confirmed: 0 for
                                         none, 1 for one, 2 for two different ones */
    uint8_t value[ZOLBINE_VALUE_LEN]; /* the first of them */
};

struct zolbine_first {
    uint8_t value[ZOLBINE_VALUE_LEN]; /* the value of the first certificate held */
    uint32_t seats;                   /* its seats, 0 where none is held */
};

struct zolbine_record {
    uint32_t n;                     /* seats of the fleet, 1 to 32 */
    uint32_t seat;                  /* the own seat, below n */
    uint32_t round;                 /* 0 to 1,023 */
    struct zolbine_own own;         /* the own submission */
    bool confirmed;                 /* whether the unit has confirmed its value */
    struct zolbine_notices notices; /* notices heard */
    struct zolbine_first first;     /* the first certificate held */
    bool sent;                      /* whether FULL was sent */
    uint32_t guilty;                /* seats shown to have signed two values: those that the EVIDENCEs written so far name */
    uint32_t kept;                  /* seats whose SUBMIT came before the own submit and is kept in the store; none after it */
};

struct zolbine_opened {
    uint32_t number;              /* the refusal's number, or 0 */
    struct zolbine_record record; /* the unit's record, zeros with a refusal */
};

struct zolbine_stepped {
    uint32_t number;              /* the refusal's number, or 0 */
    uint32_t written;             /* bytes written from the start of out; the bytes beyond them keep what they held */
    struct zolbine_record record; /* the record after the call; with a refusal as it was given */
};

/* A dispatcher: eight rounds followed together, a lane for each, and whose turn it is. It goes in and comes back by value. Lane l
 * is that of rounds[l]; `rounds` and `counts` are the host's to read, and nothing in it is the host's to write: a dispatcher that no
 * call gave may be refused (ZOLBINE_RECORD). It has 388 bytes, without padding, and is aligned to 4.
 */
struct zolbine_eight {
    uint32_t round[ZOLBINE_LANES]; /* eight different rounds, 0 to 1,023, in any order */
};

struct zolbine_dispatcher {
    uint32_t rounds[ZOLBINE_LANES]; /* the round of each lane */
    uint32_t counts[ZOLBINE_LANES]; /* the tickets waiting in each lane, 0 to 16 */
    uint32_t heads[ZOLBINE_LANES];  /* the place of each lane's oldest ticket, modulo 16 */
    uint32_t served;                /* how many lanes have ever been served */
    uint32_t order[ZOLBINE_LANES];  /* those lanes, served longest ago first; entries beyond `served` mean nothing */
    uint16_t tickets[ZOLBINE_LANES * ZOLBINE_LANE_PLACES]; /* lane l's 16 places from 16 * l on, used round and round */
};

struct zolbine_dispatched {
    uint32_t number;                      /* the refusal's number, or 0 */
    struct zolbine_dispatcher dispatcher; /* after the call; with a refusal as it was given, of an opening zeros */
};

struct zolbine_turn {
    uint32_t number;                      /* the refusal's number, or 0 */
    bool given;                           /* whether a ticket is given out: false with a refusal, and where none waits */
    uint32_t round;                       /* the round of its lane; 0 where none is given */
    uint32_t ticket;                      /* the ticket, as it was added; 0 where none is given */
    struct zolbine_dispatcher dispatcher; /* after the turn; as it was given where no ticket is */
};

/* The archive's structs are laid out so. A compiler that lays them out otherwise stops here. */
#ifdef __cplusplus
#define ZOLBINE_ASSERT(what) static_assert(what, #what)
#define ZOLBINE_ALIGNED(type) alignof(type)
#else
#define ZOLBINE_ASSERT(what) _Static_assert(what, #what)
#define ZOLBINE_ALIGNED(type) _Alignof(type)
#endif
ZOLBINE_ASSERT(sizeof(bool) == 1 && sizeof(uint32_t) == 4);
ZOLBINE_ASSERT(offsetof(struct zolbine_own, submitted) == 0);
ZOLBINE_ASSERT(offsetof(struct zolbine_own, value) == 1);
ZOLBINE_ASSERT(offsetof(struct zolbine_own, collected) == 36);
ZOLBINE_ASSERT(sizeof(struct zolbine_own) == 40);
ZOLBINE_ASSERT(offsetof(struct zolbine_notices, heard) == 0);
ZOLBINE_ASSERT(offsetof(struct zolbine_notices, value) == 4);
ZOLBINE_ASSERT(sizeof(struct zolbine_notices) == 36);
ZOLBINE_ASSERT(offsetof(struct zolbine_first, value) == 0);
ZOLBINE_ASSERT(offsetof(struct zolbine_first, seats) == 32);
ZOLBINE_ASSERT(sizeof(struct zolbine_first) == 36);
ZOLBINE_ASSERT(offsetof(struct zolbine_record, n) == 0);
ZOLBINE_ASSERT(offsetof(struct zolbine_record, seat) == 4);
ZOLBINE_ASSERT(offsetof(struct zolbine_record, round) == 8);
ZOLBINE_ASSERT(offsetof(struct zolbine_record, own) == 12);
ZOLBINE_ASSERT(offsetof(struct zolbine_record, confirmed) == 52);
ZOLBINE_ASSERT(offsetof(struct zolbine_record, notices) == 56);
ZOLBINE_ASSERT(offsetof(struct zolbine_record, first) == 92);
ZOLBINE_ASSERT(offsetof(struct zolbine_record, sent) == 128);
ZOLBINE_ASSERT(offsetof(struct zolbine_record, guilty) == 132);
ZOLBINE_ASSERT(offsetof(struct zolbine_record, kept) == 136);
ZOLBINE_ASSERT(sizeof(struct zolbine_record) == 140 && ZOLBINE_ALIGNED(struct zolbine_record) == 4);
ZOLBINE_ASSERT(sizeof(struct zolbine_written) == 8 && sizeof(struct zolbine_verdict) == 8);
ZOLBINE_ASSERT(offsetof(struct zolbine_opened, record) == 4 && sizeof(struct zolbine_opened) == 144);
ZOLBINE_ASSERT(offsetof(struct zolbine_stepped, record) == 8 && sizeof(struct zolbine_stepped) == 148);
ZOLBINE_ASSERT(sizeof(struct zolbine_eight) == 32);
ZOLBINE_ASSERT(offsetof(struct zolbine_dispatcher, rounds) == 0);
ZOLBINE_ASSERT(offsetof(struct zolbine_dispatcher, counts) == 32);
ZOLBINE_ASSERT(offsetof(struct zolbine_dispatcher, heads) == 64);
ZOLBINE_ASSERT(offsetof(struct zolbine_dispatcher, served) == 96);
ZOLBINE_ASSERT(offsetof(struct zolbine_dispatcher, order) == 100);
ZOLBINE_ASSERT(offsetof(struct zolbine_dispatcher, tickets) == 132);
ZOLBINE_ASSERT(sizeof(struct zolbine_dispatcher) == 388 && ZOLBINE_ALIGNED(struct zolbine_dispatcher) == 4);
ZOLBINE_ASSERT(offsetof(struct zolbine_dispatched, dispatcher) == 4 && sizeof(struct zolbine_dispatched) == 392);
ZOLBINE_ASSERT(offsetof(struct zolbine_turn, given) == 4 && offsetof(struct zolbine_turn, round) == 8);
ZOLBINE_ASSERT(offsetof(struct zolbine_turn, ticket) == 12 && offsetof(struct zolbine_turn, dispatcher) == 16);
ZOLBINE_ASSERT(sizeof(struct zolbine_turn) == 404);
#undef ZOLBINE_ALIGNED
#undef ZOLBINE_ASSERT

/* Opening: the record of a unit at its seat in a fleet of n, for one round. The key table has ZOLBINE_KEYS_LEN(n) bytes, seat
 * s's key at byte 56 * s, types 6 and 4. Refusals: ZOLBINE_SIZE, ZOLBINE_SEAT, ZOLBINE_ROUND, ZOLBINE_KEYS.
 */
struct zolbine_opened zolbine_open(uint32_t n, uint32_t seat, uint32_t round,
                                   const uint8_t *keys, size_t keys_len);

/* Submit: the unit's own value, 32 bytes, with its own signature, 1,452 bytes, over the 36 bytes 0x01, round (2, high byte
 * first), seat (1), value. After the own signature, those kept of other seats over the same value are collected, in rising seat
 * order until k are; they were checked when they came, and aren't checked again. With k the unit confirms in this very call. The
 * store has ZOLBINE_STORE_LEN(n) bytes or more and holds the signatures that the record speaks of: the two belong together, and a
 * round's first call takes a store of any bytes. Out has ZOLBINE_OUT_LEN(n) bytes or more. Everything written to out is to be
 * sent, in its order, each message by itself: zolbine_message_length tells where one ends. SUBMIT, NOTICE and FULL are written once
 * in a round at most. EVIDENCE may be written in several calls of a round, t0 + 1 at most: each certificate, heard or the own one,
 * that shows more double signers brings one. It names those seats alone; the first in a round names t0 + 1 or more. Calls that are
 * lost in a power cut don't count. Refusals: ZOLBINE_RECORD, ZOLBINE_KEYS, ZOLBINE_STORE, ZOLBINE_OUT, ZOLBINE_SAID,
 * ZOLBINE_GARBLED (a length), ZOLBINE_SIGNATURE (the own one).
 */
struct zolbine_stepped zolbine_submit(struct zolbine_record record,
                                      const uint8_t *keys, size_t keys_len,
                                      uint8_t *store, size_t store_len,
                                      const uint8_t *value, size_t value_len,
                                      const uint8_t *signature, size_t signature_len,
                                      uint8_t *out, size_t out_len);

/* A step: a SUBMIT, NOTICE or FULL heard, with store and out as for zolbine_submit. EVIDENCE goes to zolbine_check_evidence, and
 * is garbled here. Each message is given when it comes, also before the own submit: of each seat the first SUBMIT that checks is
 * then kept, with its value, for the own submit to collect. A second SUBMIT of a seat that is kept or collected is checked and
 * changes nothing. Refusals: ZOLBINE_RECORD, ZOLBINE_KEYS, ZOLBINE_STORE, ZOLBINE_OUT, ZOLBINE_GARBLED, ZOLBINE_OTHER_ROUND,
 * ZOLBINE_STRANGER, ZOLBINE_DISORDER, ZOLBINE_SIGNATURE. Signatures are checked only after everything cheaper has passed.
 */
struct zolbine_stepped zolbine_step(struct zolbine_record record,
                                    const uint8_t *keys, size_t keys_len,
                                    uint8_t *store, size_t store_len,
                                    const uint8_t *message, size_t message_len,
                                    uint8_t *out, size_t out_len);

/* The same step with the record lent: it is overwritten with the record after the call, which with a refusal is as it was. */
struct zolbine_written zolbine_step_lent(struct zolbine_record *record,
                                         const uint8_t *keys, size_t keys_len,
                                         uint8_t *store, size_t store_len,
                                         const uint8_t *message, size_t message_len,
                                         uint8_t *out, size_t out_len);

/* The note of a record, for a unit that may lose power during a round: ZOLBINE_NOTE_LEN bytes at the start of out, which has as
 * many or more. It is the same on every processor; docs/PROTOCOL.md has its bytes. Refusals: ZOLBINE_RECORD, ZOLBINE_OUT.
 *
 * WARNING: keep note and store, both of them or neither, BEFORE anything that the calls since the last note wrote is sent. Keep
 * with them the bytes written: no call writes them again. The unit goes on from its newest note with the store kept with it, as if
 * the calls after that note had never been made. One that goes on from an older note, or with another store, may sign a second
 * layout, or write evidence that is refused.
 */
struct zolbine_written zolbine_write_note(struct zolbine_record record, uint8_t *out, size_t out_len);

/* The record that a note came from. Only notes that zolbine_write_note could have written are taken. Refusals: ZOLBINE_NOTE, then
 * ZOLBINE_RECORD (the note of an impossible record).
 */
struct zolbine_opened zolbine_read_note(const uint8_t *note, size_t note_len);

/* The dispatcher, for a unit that follows eight rounds together and must not let a noisy one keep the others waiting. The host
 * keeps the messages that it hears, adds a ticket, a 16-bit number of its own, for each to the lane of its round, and at each turn
 * gives the message of the ticket that it gets to zolbine_step with that round's record. Each call takes the dispatcher that the
 * call before gave back. Then a lane with a ticket waits through at most seven turns of other lanes, and the tickets of a lane come
 * out in the order in which they went in, none lost, none twice.
 *
 * Opening: a dispatcher of eight rounds in which no ticket waits and no lane has been served. Refusals: ZOLBINE_ROUND, ZOLBINE_LANE
 * (two rounds are equal).
 */
struct zolbine_dispatched zolbine_open_dispatcher(struct zolbine_eight rounds);

/* A ticket added to the lane of its round. One that is refused because the lane is full is the host's to keep and to add again, or
 * to drop: a turn of that lane makes room. Refusals: ZOLBINE_ROUND, ZOLBINE_RECORD (an impossible dispatcher), ZOLBINE_LANE (not one
 * of the eight), ZOLBINE_FULL_LANE.
 */
struct zolbine_dispatched zolbine_add_ticket(struct zolbine_dispatcher dispatcher, uint32_t round, uint16_t ticket);

/* A turn: gives out the oldest ticket of the waiting lane that was served longest ago. A lane never served counts as served longest
 * ago, and among those the lowest round goes first. The ticket's place is free again. Where no ticket waits none is given and
 * nothing changes. Refusal: ZOLBINE_RECORD (an impossible dispatcher).
 */
struct zolbine_turn zolbine_take_turn(struct zolbine_dispatcher dispatcher);

#ifdef __cplusplus
}
#endif

#endif
