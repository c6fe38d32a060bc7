/* A unit's loop over a recorded round, as a display's firmware runs it with libzolbine.a.
 *
 *     gcc -std=c11 -Iinclude examples/unit.c target/staticlib/libzolbine.a -o unit && ./unit examples/round.bin
 *
 * The file holds the inputs of one boat, in order: 0x10 with n (1 byte), own seat (1), round (2) and the fleet's n public keys;
 * then 0x12 with the own layout and the signature over it, or 0x11 with the length (2) of a message heard and its bytes. A
 * display gets the same from its plotter, its signer and its radio. harness/data/yard/radio.txt is this round to read, and
 * unit.txt the program's output.
 */
#include "zolbine.h"

#include <stdio.h>
#include <stdlib.h>

/* One round of one boat. Record and store belong together: they are kept together and given to every call together. */
struct unit {
    struct zolbine_record record;
    uint8_t *keys, *store, *out;
    size_t keys_len, store_len, out_len;
};

static void stop(const char *why)
{
    fprintf(stderr, "unit: %s\n", why);
    exit(1);
}

static uint8_t *buffer(size_t len)
{
    uint8_t *bytes = malloc(len > 0 ? len : 1); /* a pointer is never NULL, also where the length is 0 */
    if (bytes == NULL)
        stop("no memory");
    return bytes;
}

static void read_bytes(FILE *file, uint8_t *bytes, size_t len)
{
    if (fread(bytes, 1, len, file) != len)
        stop("the recorded round ends too early");
}

static unsigned number(const uint8_t *bytes)
{
    return 256u * bytes[0] + bytes[1];
}

static void open_unit(struct unit *unit, FILE *file)
{
    uint8_t head[4];
    uint32_t n, seat, round;
    struct zolbine_opened opened;

    read_bytes(file, head, sizeof head);
    n = head[0];
    seat = head[1];
    round = number(head + 2);
    unit->keys_len = ZOLBINE_KEYS_LEN(n);
    unit->keys = buffer(unit->keys_len);
    read_bytes(file, unit->keys, unit->keys_len);
    opened = zolbine_open(n, seat, round, unit->keys, unit->keys_len);
    printf("open n %u, seat %u, round %u: %u\n", (unsigned)n, (unsigned)seat, (unsigned)round, (unsigned)opened.number);
    if (opened.number != 0)
        stop("the opening is refused");
    unit->record = opened.record;
    unit->store_len = ZOLBINE_STORE_LEN(n);
    unit->store = buffer(unit->store_len); /* any bytes will do */
    unit->out_len = ZOLBINE_OUT_LEN(n);
    unit->out = buffer(unit->out_len);
}

static const char *name_of(const uint8_t *message, size_t len)
{
    switch (len > 0 ? message[0] : 0) {
    case ZOLBINE_SUBMIT: return "SUBMIT";
    case ZOLBINE_NOTICE: return "NOTICE";
    case ZOLBINE_FULL: return "FULL";
    case ZOLBINE_EVIDENCE: return "EVIDENCE";
    case ZOLBINE_OLD_EVIDENCE: return "old EVIDENCE";
    default: return "garbled";
    }
}

/* Sends all of the bytes written, each message by itself. Here the messages' names are printed. */
static void send_all(uint32_t n, const uint8_t *out, uint32_t written)
{
    uint32_t len;

    for (; written > 0; out += len, written -= len) {
        len = zolbine_message_length(n, out, written);
        if (len == 0)
            stop("bytes that no call writes");
        printf("  sends %s, %u bytes\n", name_of(out, len), (unsigned)len);
    }
}

/* A refusal has changed nothing: record and store go on as they are, and nothing was written. Otherwise the record's note, the
 * store and the bytes written are kept in lasting memory here, before the first byte leaves: see lasting_unit.c.
 */
static void answered(const struct unit *unit, const char *what, uint32_t number, uint32_t written)
{
    printf("%s: %u\n", what, (unsigned)number);
    send_all(unit->record.n, unit->out, written);
}

static void submit(struct unit *unit, FILE *file)
{
    uint8_t *value = buffer(ZOLBINE_VALUE_LEN), *signature = buffer(ZOLBINE_SIGNATURE_LEN);
    struct zolbine_stepped answer;

    read_bytes(file, value, ZOLBINE_VALUE_LEN);
    read_bytes(file, signature, ZOLBINE_SIGNATURE_LEN);
    answer = zolbine_submit(unit->record, unit->keys, unit->keys_len, unit->store, unit->store_len,
                            value, ZOLBINE_VALUE_LEN, signature, ZOLBINE_SIGNATURE_LEN, unit->out, unit->out_len);
    unit->record = answer.record; /* with a refusal it is as it was given */
    answered(unit, "submit", answer.number, answer.written);
    free(value);
    free(signature);
}

/* Every message goes to the unit when it comes, before the own submit too: the unit keeps what it needs. */
static void step(struct unit *unit, const uint8_t *message, size_t len)
{
    uint32_t kept = unit->record.kept;
    struct zolbine_written answer = zolbine_step_lent(&unit->record, unit->keys, unit->keys_len, unit->store,
                                                      unit->store_len, message, len, unit->out, unit->out_len);

    answered(unit, name_of(message, len), answer.number, answer.written);
    if (unit->record.kept != kept)
        printf("  kept for the own submit\n");
}

/* EVIDENCE, in the form that units write or in the old one, is for the evidence check; every other message is for the unit. */
static void hear(struct unit *unit, FILE *file)
{
    uint8_t head[2], *message;
    size_t len;

    read_bytes(file, head, sizeof head);
    len = number(head);
    message = buffer(len);
    read_bytes(file, message, len);
    if (len > 0 && (message[0] == ZOLBINE_EVIDENCE || message[0] == ZOLBINE_OLD_EVIDENCE)) {
        struct zolbine_verdict verdict = zolbine_check_evidence(unit->record.n, unit->record.round, unit->keys,
                                                                unit->keys_len, message, len);
        printf("%s: %u, seats 0x%08x\n", name_of(message, len), (unsigned)verdict.number, (unsigned)verdict.mask);
    } else {
        step(unit, message, len);
    }
    free(message);
}

int main(int argc, char **argv)
{
    struct unit unit;
    FILE *file = argc == 2 ? fopen(argv[1], "rb") : NULL;

    if (zolbine_version() != ZOLBINE_VERSION)
        stop("the archive is of another version than the header");
    if (file == NULL)
        stop("a recorded round is needed: unit FILE");
    if (getc(file) != 0x10)
        stop("a recorded round starts with an opening");
    open_unit(&unit, file);
    for (int command = getc(file); command != EOF; command = getc(file)) {
        if (command == 0x11)
            hear(&unit, file);
        else if (command == 0x12)
            submit(&unit, file);
        else
            stop("an unknown command in the recorded round");
    }
    printf("%s; double signers 0x%08x\n", unit.record.confirmed ? "confirmed" : "not confirmed",
           (unsigned)unit.record.guilty);
    fclose(file);
    free(unit.keys);
    free(unit.store);
    free(unit.out);
    return 0;
}
