/* The lengths of include/zolbine.h against those that the calls ask for, for every n: a byte less is refused, and a byte more
 * where a length is exact. Its places against those where the calls read, and the lanes of a dispatcher. Prints the number of
 * comparisons, and ends with 1 at the first that fails. C11 that is C++ too.
 */
#include "zolbine.h"

#include <stdio.h>
#include <stdlib.h>
#include <string.h>

enum { N = ZOLBINE_MOST_SEATS, ROUND = 5, OTHER_ROUND = 6 };

static uint8_t keys[ZOLBINE_KEYS_LEN(N) + 1], store[ZOLBINE_STORE_LEN(N)], out[ZOLBINE_OUT_LEN(N)];
static uint8_t message[ZOLBINE_EVIDENCE_LEN(N + 1)], long_message[ZOLBINE_MESSAGE_MAX + 1], tree[ZOLBINE_TREE_LEN + 1];
static uint8_t material[ZOLBINE_SEED_LEN + ZOLBINE_IDENTIFIER_LEN + ZOLBINE_RANDOMIZER_LEN], signature[ZOLBINE_SIGNATURE_LEN + 1];
static uint8_t value[ZOLBINE_VALUE_LEN + 1];
static unsigned long compared;

static void is(const char *what, uint32_t n, uint32_t answer, uint32_t expected)
{
    if (answer != expected) {
        printf("%s, n %u: %u, not %u\n", what, (unsigned)n, (unsigned)answer, (unsigned)expected);
        exit(1);
    }
    compared++;
}

/* The command and round of a message. The round is another than the unit's: a message of the right form is refused for that. */
static void start(uint8_t command)
{
    memset(message, 0, sizeof message);
    message[0] = command;
    message[ZOLBINE_ROUND_AT + 1] = OTHER_ROUND;
}

/* A message of so many entries, all zeros but for their command. */
static void with_entries(uint8_t command, size_t count_at, size_t head_len, size_t entry_len, uint8_t entry_command, uint32_t count)
{
    uint32_t i;

    start(command);
    message[count_at] = (uint8_t)count;
    for (i = 0; i < count; i++)
        message[head_len + entry_len * i] = entry_command;
}

static void full(uint32_t n)
{
    with_entries(ZOLBINE_FULL, ZOLBINE_FULL_COUNT_AT, ZOLBINE_FULL_HEAD_LEN, ZOLBINE_FULL_ENTRY_LEN, ZOLBINE_FULL_ENTRY,
                 (uint32_t)ZOLBINE_K(n));
}

static void evidence(uint32_t count)
{
    with_entries(ZOLBINE_EVIDENCE, ZOLBINE_EVIDENCE_COUNT_AT, ZOLBINE_EVIDENCE_HEAD_LEN, ZOLBINE_EVIDENCE_ENTRY_LEN,
                 ZOLBINE_EVIDENCE_ENTRY, count);
}

static void old_evidence(uint32_t count)
{
    with_entries(ZOLBINE_OLD_EVIDENCE, ZOLBINE_OLD_EVIDENCE_COUNT_AT, ZOLBINE_OLD_EVIDENCE_HEAD_LEN,
                 ZOLBINE_OLD_EVIDENCE_ENTRY_LEN, ZOLBINE_OLD_EVIDENCE_ENTRY, count);
}

static uint32_t stepped(struct zolbine_record record, size_t len, size_t store_len, size_t out_len)
{
    struct zolbine_record lent = record;
    size_t keys_len = ZOLBINE_KEYS_LEN(record.n);
    uint32_t number = zolbine_step(record, keys, keys_len, store, store_len, message, len, out, out_len).number;

    is("the step with the record lent", record.n,
       zolbine_step_lent(&lent, keys, keys_len, store, store_len, message, len, out, out_len).number, number);
    return number;
}

static uint32_t submitted(struct zolbine_record record, size_t value_len, size_t signature_len, size_t store_len, size_t out_len)
{
    return zolbine_submit(record, keys, ZOLBINE_KEYS_LEN(record.n), store, store_len, value, value_len, signature, signature_len,
                          out, out_len).number;
}

static uint32_t made_evidence(uint32_t n, size_t len, size_t out_len)
{
    return zolbine_make_evidence(n, ROUND, keys, ZOLBINE_KEYS_LEN(n), message, len, message, len, out, out_len).number;
}

static uint32_t joined(uint32_t n, size_t len, size_t out_len)
{
    return zolbine_join_evidence(n, ROUND, keys, ZOLBINE_KEYS_LEN(n), message, len, message, len, out, out_len).number;
}

/* The message in the buffer has this length for the helper, and for a step or the evidence check. */
static void message_is(const char *what, struct zolbine_record record, size_t len)
{
    uint32_t n = record.n;
    size_t tried;

    is(what, n, zolbine_message_length(n, message, len), (uint32_t)len);
    is(what, n, zolbine_message_length(n, message, sizeof message), (uint32_t)len);
    is(what, n, zolbine_message_length(n, message, len - 1), 0);
    is(what, 0, zolbine_message_length(0, message, sizeof message), 0);
    for (tried = len - 1; tried <= len + 1; tried++) {
        uint32_t expected = tried == len ? ZOLBINE_OTHER_ROUND : ZOLBINE_GARBLED;
        uint32_t number = message[0] == ZOLBINE_EVIDENCE || message[0] == ZOLBINE_OLD_EVIDENCE
            ? zolbine_check_evidence(n, ROUND, keys, ZOLBINE_KEYS_LEN(n), message, tried).number
            : stepped(record, tried, ZOLBINE_STORE_LEN(n), ZOLBINE_OUT_LEN(n));
        is(what, n, number, expected);
    }
}

/* Round, seat and value of a NOTICE, and a FULL's, stand where the header says. */
static void places(struct zolbine_record record)
{
    uint32_t n = record.n;
    struct zolbine_stepped answer;

    start(ZOLBINE_NOTICE);
    message[ZOLBINE_ROUND_AT + 1] = ROUND;
    message[ZOLBINE_SEAT_AT] = (uint8_t)n;
    is("a stranger's seat", n, stepped(record, ZOLBINE_NOTICE_LEN, ZOLBINE_STORE_LEN(n), ZOLBINE_OUT_LEN(n)), ZOLBINE_STRANGER);
    message[ZOLBINE_SEAT_AT]--;
    memset(message + ZOLBINE_VALUE_AT, 0xff, ZOLBINE_VALUE_LEN);
    answer = zolbine_step(record, keys, ZOLBINE_KEYS_LEN(n), store, ZOLBINE_STORE_LEN(n), message, ZOLBINE_NOTICE_LEN, out,
                          ZOLBINE_OUT_LEN(n));
    is("round and seat", n, answer.number, 0);
    is("value", n, memcmp(answer.record.notices.value, message + ZOLBINE_VALUE_AT, ZOLBINE_VALUE_LEN) == 0, true);
    full(n);
    message[ZOLBINE_ROUND_AT + 1] = ROUND;
    message[ZOLBINE_SEAT_AT] = (uint8_t)n;
    is("a stranger's FULL", n, stepped(record, ZOLBINE_FULL_LEN(n), ZOLBINE_STORE_LEN(n), ZOLBINE_OUT_LEN(n)), ZOLBINE_STRANGER);
}

/* The note of a record, in an out of its length, a byte less and a byte more, and read in the same lengths. */
static void notes(struct zolbine_record record)
{
    uint32_t n = record.n;
    size_t len;

    for (len = ZOLBINE_NOTE_LEN - 1; len <= ZOLBINE_NOTE_LEN + 1; len++) {
        bool room = len >= ZOLBINE_NOTE_LEN;
        struct zolbine_written noted = zolbine_write_note(record, out, len);

        is("out, note", n, noted.number, room ? 0 : ZOLBINE_OUT);
        is("note", n, noted.written, room ? ZOLBINE_NOTE_LEN : 0);
    }
    for (len = ZOLBINE_NOTE_LEN - 1; len <= ZOLBINE_NOTE_LEN + 1; len++) {
        struct zolbine_opened back = zolbine_read_note(out, len);

        is("note", n, back.number, len == ZOLBINE_NOTE_LEN ? 0 : ZOLBINE_NOTE);
        is("n of a note", n, back.record.n, len == ZOLBINE_NOTE_LEN ? n : 0);
    }
    record.n = N + 1;
    is("a record's n", n, zolbine_write_note(record, out, ZOLBINE_NOTE_LEN).number, ZOLBINE_RECORD);
}

static void by_n(uint32_t n)
{
    size_t keys_len = ZOLBINE_KEYS_LEN(n), store_len = ZOLBINE_STORE_LEN(n), out_len = ZOLBINE_OUT_LEN(n);
    size_t full_len = ZOLBINE_FULL_LEN(n), making_len = ZOLBINE_EVIDENCE_OUT_LEN(n), joined_len = ZOLBINE_JOINED_OUT_LEN(n);
    struct zolbine_record record = zolbine_open(n, 0, ROUND, keys, keys_len).record;
    uint32_t count;

    is("keys", n, zolbine_open(n, 0, ROUND, keys, keys_len).number, 0);
    is("keys", n, zolbine_open(n, 0, ROUND, keys, keys_len - 1).number, ZOLBINE_KEYS);
    is("keys", n, zolbine_open(n, 0, ROUND, keys, keys_len + 1).number, ZOLBINE_KEYS);

    is("store, submit", n, submitted(record, 0, 0, store_len - 1, out_len), ZOLBINE_STORE);
    is("out, submit", n, submitted(record, 0, 0, store_len, out_len - 1), ZOLBINE_OUT);
    is("value", n, submitted(record, ZOLBINE_VALUE_LEN - 1, ZOLBINE_SIGNATURE_LEN, store_len, out_len), ZOLBINE_GARBLED);
    is("value", n, submitted(record, ZOLBINE_VALUE_LEN + 1, ZOLBINE_SIGNATURE_LEN, store_len, out_len), ZOLBINE_GARBLED);
    is("signature", n, submitted(record, ZOLBINE_VALUE_LEN, ZOLBINE_SIGNATURE_LEN - 1, store_len, out_len), ZOLBINE_GARBLED);
    is("signature", n, submitted(record, ZOLBINE_VALUE_LEN, ZOLBINE_SIGNATURE_LEN + 1, store_len, out_len), ZOLBINE_GARBLED);
    is("submit", n, submitted(record, ZOLBINE_VALUE_LEN, ZOLBINE_SIGNATURE_LEN, store_len, out_len), ZOLBINE_SIGNATURE);

    start(ZOLBINE_NOTICE);
    is("store, step", n, stepped(record, ZOLBINE_NOTICE_LEN, store_len - 1, out_len), ZOLBINE_STORE);
    is("out, step", n, stepped(record, ZOLBINE_NOTICE_LEN, store_len, out_len - 1), ZOLBINE_OUT);
    message_is("NOTICE", record, ZOLBINE_NOTICE_LEN);
    start(ZOLBINE_SUBMIT);
    message_is("SUBMIT", record, ZOLBINE_SUBMIT_LEN);
    places(record);
    notes(record);
    full(n);
    message_is("FULL", record, full_len);
    is("out, evidence", n, made_evidence(n, full_len, making_len - 1), ZOLBINE_OUT);
    is("out, evidence", n, made_evidence(n, full_len, making_len), ZOLBINE_OTHER_ROUND);
    is("another fleet's n", n, zolbine_message_length(N + 1, message, sizeof message), 0);
    message[ZOLBINE_FULL_COUNT_AT]++;
    is("a count that isn't k", n, zolbine_message_length(n, message, sizeof message), 0);
    for (count = 1; count <= n; count++) {
        evidence(count);
        message_is("EVIDENCE", record, ZOLBINE_EVIDENCE_LEN(count));
        is("out, joined", n, joined(n, ZOLBINE_EVIDENCE_LEN(count), joined_len - 1), ZOLBINE_OUT);
        is("out, joined", n, joined(n, ZOLBINE_EVIDENCE_LEN(count), joined_len), ZOLBINE_OTHER_ROUND);
        is("EVIDENCE, joined", n, joined(n, ZOLBINE_EVIDENCE_LEN(count) - 1, joined_len), ZOLBINE_GARBLED);
        message[ZOLBINE_EVIDENCE_HEAD_LEN + ZOLBINE_EVIDENCE_ENTRY_LEN * (count - 1)] ^= 1;
        is("an entry command", n, zolbine_message_length(n, message, sizeof message), 0);
        old_evidence(count);
        message_is("old EVIDENCE", record, ZOLBINE_OLD_EVIDENCE_LEN(count));
        is("old EVIDENCE, joined", n, joined(n, ZOLBINE_OLD_EVIDENCE_LEN(count), joined_len), ZOLBINE_GARBLED);
        message[ZOLBINE_OLD_EVIDENCE_HEAD_LEN + ZOLBINE_OLD_EVIDENCE_ENTRY_LEN * (count - 1)] ^= 1;
        is("an old entry command", n, zolbine_message_length(n, message, sizeof message), 0);
    }
    evidence(n + 1);
    is("a count above n", n, zolbine_message_length(n, message, sizeof message), 0);
    evidence(0);
    is("a count of 0", n, zolbine_message_length(n, message, sizeof message), 0);
    old_evidence(n + 1);
    is("an old count above n", n, zolbine_message_length(n, message, sizeof message), 0);
    old_evidence(0);
    is("an old count of 0", n, zolbine_message_length(n, message, sizeof message), 0);
    start(ZOLBINE_FULL_ENTRY);
    is("no command", n, zolbine_message_length(n, message, sizeof message), 0);
    is("no byte", n, zolbine_message_length(n, message, 0), 0);
}

/* The header's lengths of a number that has one byte, and as constants. */
static void by_byte(uint8_t n)
{
    enum { CONSTANT = ZOLBINE_OUT_LEN(N) };
    uint32_t wide = n;

    is("t0", n, ZOLBINE_T0(n) == ZOLBINE_T0(wide), true);
    is("k", n, ZOLBINE_K(n) == ZOLBINE_K(wide), true);
    is("keys", n, ZOLBINE_KEYS_LEN(n) == ZOLBINE_KEYS_LEN(wide), true);
    is("store", n, ZOLBINE_STORE_LEN(n) == ZOLBINE_STORE_LEN(wide), true);
    is("FULL", n, ZOLBINE_FULL_LEN(n) == ZOLBINE_FULL_LEN(wide), true);
    is("EVIDENCE", n, ZOLBINE_EVIDENCE_LEN(n) == ZOLBINE_EVIDENCE_LEN(wide), true);
    is("old EVIDENCE", n, ZOLBINE_OLD_EVIDENCE_LEN(n) == ZOLBINE_OLD_EVIDENCE_LEN(wide), true);
    is("out, evidence", n, ZOLBINE_EVIDENCE_OUT_LEN(n) == ZOLBINE_EVIDENCE_OUT_LEN(wide), true);
    is("out, joined", n, ZOLBINE_JOINED_OUT_LEN(n) == ZOLBINE_JOINED_OUT_LEN(wide), true);
    is("out", n, ZOLBINE_OUT_LEN(n) == ZOLBINE_OUT_LEN(wide), true);
    is("out", n, ZOLBINE_OUT_LEN(n) == CONSTANT, n == N);
}

static uint32_t checked(size_t key_len, size_t message_len)
{
    return zolbine_check_signature(keys, key_len, long_message, message_len, signature, ZOLBINE_SIGNATURE_LEN);
}

static uint32_t key_made(size_t seed_len, size_t identifier_len, size_t tree_len, size_t out_len)
{
    return zolbine_make_key(material, seed_len, material, identifier_len, tree, tree_len, out, out_len).number;
}

static uint32_t signed_by(size_t seed_len, size_t identifier_len, size_t randomizer_len, size_t tree_len)
{
    return zolbine_sign(ROUND, material, seed_len, material, identifier_len, material, randomizer_len, tree, tree_len,
                        long_message, ZOLBINE_MESSAGE_MAX, out, ZOLBINE_SIGNATURE_LEN).number;
}

static uint32_t signed_with(uint32_t leaf, size_t message_len, size_t out_len)
{
    return zolbine_sign(leaf, material, ZOLBINE_SEED_LEN, material, ZOLBINE_IDENTIFIER_LEN, material, ZOLBINE_RANDOMIZER_LEN,
                        tree, ZOLBINE_TREE_LEN, long_message, message_len, out, out_len).number;
}

static void of_signatures(void)
{
    size_t seed = ZOLBINE_SEED_LEN, name = ZOLBINE_IDENTIFIER_LEN, fresh = ZOLBINE_RANDOMIZER_LEN, whole = ZOLBINE_TREE_LEN;
    size_t i;

    is("message", 0, checked(ZOLBINE_KEY_LEN, ZOLBINE_MESSAGE_MAX), ZOLBINE_SIGNATURE);
    is("message", 0, checked(ZOLBINE_KEY_LEN, ZOLBINE_MESSAGE_MAX + 1), ZOLBINE_GARBLED);
    is("out, key", 0, key_made(seed, name, whole, ZOLBINE_KEY_LEN - 1), ZOLBINE_OUT);
    is("out, signature", 0, signed_with(ZOLBINE_LAST_LEAF, 0, ZOLBINE_SIGNATURE_LEN - 1), ZOLBINE_OUT);
    is("signature", 0, signed_with(ZOLBINE_LAST_LEAF, ZOLBINE_MESSAGE_MAX, ZOLBINE_SIGNATURE_LEN), 0);
    is("message", 0, signed_with(ZOLBINE_LAST_LEAF, ZOLBINE_MESSAGE_MAX + 1, ZOLBINE_SIGNATURE_LEN), ZOLBINE_GARBLED);
    is("leaf", 0, signed_with(ZOLBINE_LAST_LEAF + 1, 0, ZOLBINE_SIGNATURE_LEN), ZOLBINE_ROUND);
    for (i = 0; i < 2; i++) {
        size_t off = 2 * i; /* a byte less, then a byte more */

        is("key", 0, checked(ZOLBINE_KEY_LEN - 1 + off, 0), ZOLBINE_KEYS);
        is("seed", 0, key_made(seed - 1 + off, name, whole, ZOLBINE_KEY_LEN), ZOLBINE_KEY_MATERIAL);
        is("identifier", 0, key_made(seed, name - 1 + off, whole, ZOLBINE_KEY_LEN), ZOLBINE_KEY_MATERIAL);
        is("tree", 0, key_made(seed, name, whole - 1 + off, ZOLBINE_KEY_LEN), ZOLBINE_KEY_MATERIAL);
        is("seed", 0, signed_by(seed - 1 + off, name, fresh, whole), ZOLBINE_KEY_MATERIAL);
        is("identifier", 0, signed_by(seed, name - 1 + off, fresh, whole), ZOLBINE_KEY_MATERIAL);
        is("randomizer", 0, signed_by(seed, name, fresh - 1 + off, whole), ZOLBINE_KEY_MATERIAL);
        is("tree", 0, signed_by(seed, name, fresh, whole - 1 + off), ZOLBINE_KEY_MATERIAL);
    }
}

/* Eight lanes, each with the places that the header says, in rounds up to the last. */
static void of_dispatchers(void)
{
    struct zolbine_eight rounds;
    struct zolbine_dispatched answer;
    struct zolbine_turn turn;
    uint32_t lane, place;

    for (lane = 0; lane < ZOLBINE_LANES; lane++)
        rounds.round[lane] = ZOLBINE_LAST_LEAF - lane;
    answer = zolbine_open_dispatcher(rounds);
    is("opening of a dispatcher", 0, answer.number, 0);
    for (lane = 0; lane < ZOLBINE_LANES; lane++)
        for (place = 0; place <= ZOLBINE_LANE_PLACES; place++) {
            bool room = place < ZOLBINE_LANE_PLACES;

            answer = zolbine_add_ticket(answer.dispatcher, rounds.round[lane], (uint16_t)(100 * lane + place));
            is("a ticket", 0, answer.number, room ? 0 : ZOLBINE_FULL_LANE);
            is("a lane's round", 0, answer.dispatcher.rounds[lane], rounds.round[lane]);
            is("tickets counted", 0, answer.dispatcher.counts[lane], room ? place + 1 : place);
        }
    is("another round", 0, zolbine_add_ticket(answer.dispatcher, 0, 1).number, ZOLBINE_LANE);
    is("a round above the last", 0, zolbine_add_ticket(answer.dispatcher, ZOLBINE_LAST_LEAF + 1, 1).number, ZOLBINE_ROUND);
    turn.dispatcher = answer.dispatcher;
    for (place = 0; place < ZOLBINE_LANE_PLACES; place++)
        for (lane = ZOLBINE_LANES; lane-- > 0;) { /* the last has the lowest round */
            turn = zolbine_take_turn(turn.dispatcher);
            is("a turn", 0, turn.number, 0);
            is("a ticket given", 0, turn.given, true);
            is("its round", 0, turn.round, rounds.round[lane]);
            is("a ticket given", 0, turn.ticket, 100 * lane + place);
        }
    turn = zolbine_take_turn(turn.dispatcher);
    is("a turn with no ticket", 0, turn.number, 0);
    is("a turn with no ticket", 0, turn.given, false);
    turn.dispatcher.counts[0] = ZOLBINE_LANE_PLACES + 1;
    is("a count above the places", 0, zolbine_take_turn(turn.dispatcher).number, ZOLBINE_RECORD);
    rounds.round[1] = rounds.round[0];
    is("equal rounds", 0, zolbine_open_dispatcher(rounds).number, ZOLBINE_LANE);
    rounds.round[1] = ZOLBINE_LAST_LEAF + 1;
    is("a round above the last", 0, zolbine_open_dispatcher(rounds).number, ZOLBINE_ROUND);
}

int main(void)
{
    uint32_t n;

    is("version", 0, zolbine_version(), ZOLBINE_VERSION);
    for (n = 0; n < N; n++) {
        keys[ZOLBINE_KEYS_LEN(n) + 3] = 6;
        keys[ZOLBINE_KEYS_LEN(n) + 7] = 4;
    }
    for (n = 1; n <= N; n++) {
        by_n(n);
        by_byte((uint8_t)n);
    }
    of_signatures();
    of_dispatchers();
    printf("%lu\n", compared);
    return 0;
}
