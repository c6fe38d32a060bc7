/* A unit that goes on with its round after a power cut: what it has stands in a file before anything leaves.
 *
 *     gcc -std=c11 -Iinclude examples/lasting_unit.c target/staticlib/libzolbine.a -o lasting_unit
 *     ./lasting_unit MEMORY INPUTS >AIR
 *
 * MEMORY is a folder, the boat's lasting memory, for one program at a time. Its file `key` has the boat's seed (32 bytes),
 * identifier (16) and tree (65,536). In round 5 the program makes the file `round-0005`: the unit's note (118 bytes), its store,
 * each message that it has written, and a checksum (8). INPUTS is like the file of unit.c, but for 0x12, which has the own layout
 * alone: the program signs it. The messages that are sent go to standard output. Started again, with these or other inputs, the
 * program goes on from the file.
 *
 * The order is always: the call; note, store and messages into the file, all or none; only then the messages on the air. A call
 * that has changed nothing costs no writing.
 */
#define _POSIX_C_SOURCE 200809L

#include "zolbine.h"

#include <errno.h>
#include <fcntl.h>
#include <stdio.h>
#include <stdlib.h>
#include <string.h>
#include <unistd.h>

/* A point between two steps. harness/tests/power_cuts.rs kills the program at each of them. */
#ifndef CUT
#define CUT(point) ((void)0)
#endif

#define SUM_LEN 8

/* The most bytes that a unit writes in a round: SUBMIT, NOTICE and FULL once each, and up to t0 + 1 EVIDENCEs. Each EVIDENCE names
 * seats that none before it names, all of them among the k of the first certificate held. So together they have k entries at most,
 * and a head each; ZOLBINE_OUT_LEN(n) has room for k entries and one head.
 */
#define ROUND_LEN(n) (ZOLBINE_OUT_LEN(n) + ZOLBINE_T0(n) * ZOLBINE_EVIDENCE_HEAD_LEN)

struct key {
    uint8_t seed[ZOLBINE_SEED_LEN];
    uint8_t identifier[ZOLBINE_IDENTIFIER_LEN];
    uint8_t tree[ZOLBINE_TREE_LEN];
};

/* One round of one boat. The file's bytes lie in one piece: note, store, messages, sum. A call writes after the last message. */
struct unit {
    struct zolbine_record record;
    uint8_t *keys, *lasting, *store, *messages;
    size_t keys_len, store_len, messages_len, room; /* room: for all messages */
    char file[16];
    int folder;
};

static void stop(const char *why)
{
    fprintf(stderr, "lasting_unit: %s\n", why);
    exit(1);
}

static uint8_t *buffer(size_t len)
{
    uint8_t *bytes = calloc(len, 1);
    if (bytes == NULL)
        stop("no memory");
    return bytes;
}

static void read_bytes(FILE *file, uint8_t *bytes, size_t len)
{
    if (fread(bytes, 1, len, file) != len)
        stop("a file ends too early");
}

static unsigned number(const uint8_t *bytes)
{
    return 256u * bytes[0] + bytes[1];
}

static void write_part(int to, const uint8_t *bytes, size_t len)
{
    while (len > 0) {
        ssize_t done = write(to, bytes, len);
        if (done < 0)
            stop("a write fails");
        bytes += done;
        len -= (size_t)done;
    }
}

/* In two parts, for the point between them. */
static void write_bytes(int to, const uint8_t *bytes, size_t len)
{
    write_part(to, bytes, len / 2);
    CUT("half of it written");
    write_part(to, bytes + len / 2, len - len / 2);
}

static void flush(int file)
{
    if (fsync(file) != 0)
        stop("a flush fails");
}

/* The checksum: FNV-1a of 64 bits. */
static void write_sum(const uint8_t *bytes, size_t len, uint8_t *out)
{
    uint64_t sum = UINT64_C(0xcbf29ce484222325);

    for (size_t i = 0; i < len; i++)
        sum = (sum ^ bytes[i]) * UINT64_C(0x100000001b3);
    for (int i = 0; i < SUM_LEN; i++)
        out[i] = (uint8_t)(sum >> 8 * i);
}

/* Note, store and messages go into the file together: written aside, flushed, and renamed over the former file. A cut at any point
 * leaves the former file whole, or the new one. What it leaves aside is written over the next time.
 */
static void keep(struct unit *unit, const uint8_t *note)
{
    size_t len = ZOLBINE_NOTE_LEN + unit->store_len + unit->messages_len;
    int aside;

    memcpy(unit->lasting, note, ZOLBINE_NOTE_LEN);
    write_sum(unit->lasting, len, unit->lasting + len);
    aside = open("aside", O_WRONLY | O_CREAT | O_TRUNC, 0600);
    if (aside < 0)
        stop("no file aside");
    CUT("aside opened");
    write_bytes(aside, unit->lasting, len + SUM_LEN);
    CUT("aside written");
    flush(aside);
    CUT("aside flushed");
    close(aside);
    if (rename("aside", unit->file) != 0)
        stop("no renaming");
    CUT("renamed");
    flush(unit->folder);
    CUT("folder flushed");
}

/* Sends the messages from a place on, each by itself. */
static void send_from(const struct unit *unit, size_t place)
{
    uint32_t len;

    for (; place < unit->messages_len; place += len) {
        const uint8_t *message = unit->messages + place;

        len = zolbine_message_length(unit->record.n, message, unit->messages_len - place);
        if (len == 0)
            stop("bytes that no call writes");
        CUT("before a message");
        write_bytes(STDOUT_FILENO, message, len);
        CUT("message sent");
    }
}

/* After each call. A refusal has changed nothing; nor has a call after which the note is still that of the file. A number below 8 is
 * about the record, the keys or a buffer, and so a fault of this program or its memory.
 */
static void answered(struct unit *unit, uint32_t number, uint32_t written)
{
    size_t sent = unit->messages_len;
    uint8_t note[ZOLBINE_NOTE_LEN];

    CUT("after a call");
    if (number != 0 && number < ZOLBINE_SAID)
        stop("a call refuses the record, the keys or a buffer");
    if (number != 0)
        return;
    if (zolbine_write_note(unit->record, note, sizeof note).number != 0)
        stop("the note is refused");
    CUT("note written");
    if (written == 0 && memcmp(note, unit->lasting, sizeof note) == 0)
        return;
    unit->messages_len += written;
    keep(unit, note);
    send_from(unit, sent);
}

static void hear(struct unit *unit, const uint8_t *message, size_t len)
{
    struct zolbine_written answer;

    CUT("before a step");
    answer = zolbine_step_lent(&unit->record, unit->keys, unit->keys_len, unit->store, unit->store_len, message, len,
                               unit->messages + unit->messages_len, unit->room - unit->messages_len);
    answered(unit, answer.number, answer.written);
}

/* A randomizer is fresh for each signature. */
static void draw(uint8_t *bytes, size_t len)
{
    FILE *source = fopen("/dev/urandom", "rb");
    if (source == NULL)
        stop("no random source");
    read_bytes(source, bytes, len);
    fclose(source);
}

/* The own layout, signed and submitted: once in a round, whatever layout is wanted after a power cut.
 *
 * The note that says `submitted` is the mark that the round's leaf is used. It is in the file before the SUBMIT leaves. Where a cut
 * comes before that, no byte of the signature has left the boat: it counts as never made, and the leaf is free.
 */
static void submit(struct unit *unit, const struct key *key, const uint8_t *layout)
{
    uint8_t said[ZOLBINE_SIGNED_LEN], signature[ZOLBINE_SIGNATURE_LEN], randomizer[ZOLBINE_RANDOMIZER_LEN];
    struct zolbine_written made;
    struct zolbine_stepped answer;

    if (unit->record.own.submitted)
        return;
    CUT("before signing");
    said[0] = ZOLBINE_SUBMIT;
    said[ZOLBINE_ROUND_AT] = (uint8_t)(unit->record.round >> 8);
    said[ZOLBINE_ROUND_AT + 1] = (uint8_t)unit->record.round;
    said[ZOLBINE_SEAT_AT] = (uint8_t)unit->record.seat;
    memcpy(said + ZOLBINE_VALUE_AT, layout, ZOLBINE_VALUE_LEN);
    draw(randomizer, sizeof randomizer);
    made = zolbine_sign(unit->record.round, key->seed, sizeof key->seed, key->identifier, sizeof key->identifier,
                        randomizer, sizeof randomizer, key->tree, sizeof key->tree, said, sizeof said,
                        signature, sizeof signature);
    if (made.number != 0)
        stop("the layout isn't signed");
    CUT("signed");
    answer = zolbine_submit(unit->record, unit->keys, unit->keys_len, unit->store, unit->store_len,
                            layout, ZOLBINE_VALUE_LEN, signature, sizeof signature,
                            unit->messages + unit->messages_len, unit->room - unit->messages_len);
    unit->record = answer.record;
    answered(unit, answer.number, answer.written);
}

/* Whether the file is there; its bytes are then in memory. A file that can't be read, or is damaged, is no reason to begin anew. */
static bool has_file(struct unit *unit)
{
    FILE *file = fopen(unit->file, "rb");
    size_t pair = ZOLBINE_NOTE_LEN + unit->store_len, len;
    uint8_t sum[SUM_LEN];

    if (file == NULL && errno == ENOENT)
        return false;
    if (file == NULL)
        stop("the round's file isn't read");
    len = fread(unit->lasting, 1, pair + unit->room + SUM_LEN, file);
    if (len < pair + SUM_LEN || getc(file) != EOF)
        stop("the round's file isn't whole: the boat sits out the round");
    len -= SUM_LEN;
    write_sum(unit->lasting, len, sum);
    if (memcmp(sum, unit->lasting + len, SUM_LEN) != 0)
        stop("the round's file is damaged: the boat sits out the round");
    unit->messages_len = len - pair;
    fclose(file);
    return true;
}

/* The unit as the file has it; blank, with a store of any bytes, where there is no file. */
static void open_unit(struct unit *unit, FILE *inputs)
{
    uint8_t head[4];
    struct zolbine_opened opened;
    uint32_t n, seat, round;

    read_bytes(inputs, head, sizeof head);
    n = head[0];
    seat = head[1];
    round = number(head + 2);
    unit->keys_len = ZOLBINE_KEYS_LEN(n);
    unit->keys = buffer(unit->keys_len);
    read_bytes(inputs, unit->keys, unit->keys_len);
    opened = zolbine_open(n, seat, round, unit->keys, unit->keys_len);
    if (opened.number != 0)
        stop("the opening is refused");
    unit->store_len = ZOLBINE_STORE_LEN(n);
    unit->room = ROUND_LEN(n) + ZOLBINE_OUT_LEN(n); /* all that a round writes, and the out buffer of a call after that */
    unit->lasting = buffer(ZOLBINE_NOTE_LEN + unit->store_len + unit->room + SUM_LEN);
    unit->store = unit->lasting + ZOLBINE_NOTE_LEN;
    unit->messages = unit->store + unit->store_len;
    unit->messages_len = 0;
    snprintf(unit->file, sizeof unit->file, "round-%04u", (unsigned)round);
    if (has_file(unit))
        opened = zolbine_read_note(unit->lasting, ZOLBINE_NOTE_LEN);
    if (opened.number != 0 || opened.record.n != n || opened.record.seat != seat || opened.record.round != round)
        stop("the note isn't one of this unit: the boat sits out the round");
    unit->record = opened.record;
}

static void read_key(struct key *key)
{
    FILE *file = fopen("key", "rb");
    if (file == NULL)
        stop("no key");
    read_bytes(file, key->seed, sizeof key->seed);
    read_bytes(file, key->identifier, sizeof key->identifier);
    read_bytes(file, key->tree, sizeof key->tree);
    fclose(file);
}

static void take(struct unit *unit, const struct key *key, FILE *inputs, int command)
{
    static uint8_t bytes[ZOLBINE_MESSAGE_MAX];
    uint8_t head[2];
    size_t len;

    if (command == 0x11) {
        read_bytes(inputs, head, sizeof head);
        len = number(head);
        read_bytes(inputs, bytes, len);
        hear(unit, bytes, len); /* EVIDENCE is refused here: it is for the evidence check, as in unit.c */
    } else if (command == 0x12) {
        read_bytes(inputs, bytes, ZOLBINE_VALUE_LEN);
        submit(unit, key, bytes);
    } else {
        stop("an unknown command in the inputs");
    }
}

int main(int argc, char **argv)
{
    static struct key key;
    struct unit unit;
    FILE *inputs = argc == 3 ? fopen(argv[2], "rb") : NULL;

    if (zolbine_version() != ZOLBINE_VERSION)
        stop("the archive is of another version than the header");
    if (inputs == NULL || chdir(argv[1]) != 0)
        stop("lasting memory and inputs are needed: lasting_unit MEMORY INPUTS");
    unit.folder = open(".", O_RDONLY);
    if (unit.folder < 0)
        stop("lasting memory isn't opened");
    if (getc(inputs) != 0x10)
        stop("inputs start with an opening");
    CUT("started");
    read_key(&key);
    open_unit(&unit, inputs);
    CUT("brought back");
    flush(unit.folder); /* where the program was stopped and not the power, the file read may not be lasting yet */
    CUT("folder flushed again");
    send_from(&unit, 0); /* nobody knows which of them left; one heard twice changes nothing */
    for (int command = getc(inputs); command != EOF; command = getc(inputs))
        take(&unit, &key, inputs, command);
    CUT("at the end");
    fprintf(stderr, "%s; double signers 0x%08x\n", unit.record.confirmed ? "confirmed" : "not confirmed",
            (unsigned)unit.record.guilty);
    fclose(inputs);
    close(unit.folder);
    free(unit.keys);
    free(unit.lasting);
    return 0;
}
