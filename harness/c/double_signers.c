/* A round in which two double signers split a fleet of four: two honest boats confirm different layouts, and each then holds
 * evidence that names both. Each honest boat loses power once on the way. At the end the harbour office makes one pack of the two. It is
 * written from include/zolbine.h, docs/HOST.md and docs/PROTOCOL.md alone, as a display's firmware would be, in C11 that is C++ too.
 * It prints what happens, and ends with 1 if something goes wrong.
 */
#include "zolbine.h"

#include <stdio.h>
#include <stdlib.h>
#include <string.h>

enum { N = 4, ROUND = 258, HONEST = 2, AIR = 16 };

#define DOUBLE_SIGNERS UINT32_C(0x0000000c) /* the seats 2 and 3 */

/* A boat's key. A display keeps the seed secret. */
struct signer {
    uint8_t seed[ZOLBINE_SEED_LEN];
    uint8_t identifier[ZOLBINE_IDENTIFIER_LEN];
    uint8_t tree[ZOLBINE_TREE_LEN];
    unsigned signatures; /* each draws its own randomizer */
};

/* What stays when the power goes. In a display note and store are kept so that it finds both of them or neither. Here every message
 * has arrived before a cut, so the bytes written aren't kept; a display keeps them too (HOST).
 */
struct kept {
    uint8_t note[ZOLBINE_NOTE_LEN];
    uint8_t store[ZOLBINE_STORE_LEN(N)];
    bool leaf_used;
};

/* An honest boat's display. Record and store belong together. */
struct display {
    struct zolbine_record record;
    uint8_t store[ZOLBINE_STORE_LEN(N)];
    uint8_t out[ZOLBINE_OUT_LEN(N)];
    struct kept kept;
    uint8_t evidence[ZOLBINE_EVIDENCE_LEN(N)]; /* written by this boat: one in this round, which names both */
    size_t evidence_len;
};

/* A message on the air, from an honest boat to all others. */
struct message {
    uint32_t from;
    size_t len;
    uint8_t bytes[ZOLBINE_EVIDENCE_LEN(N)];
};

static struct signer signers[N];
static struct display displays[HONEST];
static struct message air[AIR];
static size_t on_air, heard;
static uint8_t keys[ZOLBINE_KEYS_LEN(N)];

static void stop(const char *what, uint32_t number)
{
    printf("STOP: %s (%u)\n", what, (unsigned)number);
    exit(1);
}

static const char *name_of(uint8_t command)
{
    switch (command) {
    case ZOLBINE_SUBMIT: return "SUBMIT";
    case ZOLBINE_NOTICE: return "NOTICE";
    case ZOLBINE_FULL: return "FULL";
    case ZOLBINE_EVIDENCE: return "EVIDENCE";
    default: return "unknown";
    }
}

/* In a display: 32 bytes of its random source. Here the same in every run. */
static void draw(uint8_t *bytes, size_t len, unsigned which)
{
    size_t i;

    for (i = 0; i < len; i++)
        bytes[i] = (uint8_t)(37 * which + 11 * i + 1);
}

static void make_key(uint32_t seat)
{
    struct signer *signer = &signers[seat];
    struct zolbine_written made;

    draw(signer->seed, sizeof signer->seed, 100 + seat);
    draw(signer->identifier, sizeof signer->identifier, 200 + seat);
    made = zolbine_make_key(signer->seed, sizeof signer->seed, signer->identifier, sizeof signer->identifier,
                            signer->tree, sizeof signer->tree, keys + ZOLBINE_KEYS_LEN(seat), ZOLBINE_KEY_LEN);
    if (made.number != 0 || made.written != ZOLBINE_KEY_LEN)
        stop("making a key", made.number);
}

/* A SUBMIT: the 36 signed bytes, then the signature over them with the round's leaf. */
static void make_submit(uint32_t seat, const uint8_t *layout, uint8_t *submit)
{
    struct signer *signer = &signers[seat];
    uint8_t randomizer[ZOLBINE_RANDOMIZER_LEN];
    struct zolbine_written made;

    submit[0] = ZOLBINE_SUBMIT;
    submit[ZOLBINE_ROUND_AT] = ROUND >> 8;
    submit[ZOLBINE_ROUND_AT + 1] = ROUND & 0xff;
    submit[ZOLBINE_SEAT_AT] = (uint8_t)seat;
    memcpy(submit + ZOLBINE_VALUE_AT, layout, ZOLBINE_VALUE_LEN);
    draw(randomizer, sizeof randomizer, 300 + 10 * seat + signer->signatures++);
    made = zolbine_sign(ROUND, signer->seed, sizeof signer->seed, signer->identifier, sizeof signer->identifier,
                        randomizer, sizeof randomizer, signer->tree, sizeof signer->tree,
                        submit, ZOLBINE_SIGNED_LEN, submit + ZOLBINE_SIGNED_LEN, ZOLBINE_SIGNATURE_LEN);
    if (made.number != 0 || made.written != ZOLBINE_SIGNATURE_LEN)
        stop("signing", made.number);
}

/* Sends the messages that a call wrote, one by one. */
static void send_all(uint32_t seat, uint32_t written)
{
    struct display *display = &displays[seat];
    const uint8_t *bytes = display->out;
    uint32_t len;

    for (; written > 0; bytes += len, written -= len) {
        len = zolbine_message_length(N, bytes, written);
        if (len == 0 || on_air == AIR)
            stop("no message in out, or no room on the air", written);
        printf("    boat %u sends %s, %u bytes\n", (unsigned)seat, name_of(bytes[0]), (unsigned)len);
        air[on_air].from = seat;
        air[on_air].len = len;
        memcpy(air[on_air].bytes, bytes, len);
        on_air++;
        if (bytes[0] == ZOLBINE_EVIDENCE) {
            if (display->evidence_len != 0)
                stop("EVIDENCE a second time", seat);
            memcpy(display->evidence, bytes, len);
            display->evidence_len = len;
        }
    }
}

/* Keeps the unit as it is: before anything of it is sent. */
static void keep(uint32_t seat)
{
    struct display *display = &displays[seat];
    struct zolbine_written noted = zolbine_write_note(display->record, display->kept.note, sizeof display->kept.note);

    if (noted.number != 0 || noted.written != ZOLBINE_NOTE_LEN)
        stop("noting", noted.number);
    memcpy(display->kept.store, display->store, sizeof display->store);
}

/* The memory is lost. The unit goes on from its newest note, with the store kept with it. */
static void lose_power(uint32_t seat)
{
    struct display *display = &displays[seat];
    struct zolbine_opened back;

    memset(&display->record, 0xff, sizeof display->record);
    memset(display->store, 0xff, sizeof display->store);
    memset(display->out, 0xff, sizeof display->out);
    back = zolbine_read_note(display->kept.note, sizeof display->kept.note);
    printf("boat %u loses power and comes back: %u\n", (unsigned)seat, (unsigned)back.number);
    if (back.number != 0)
        stop("a note that isn't taken", back.number);
    display->record = back.record;
    memcpy(display->store, display->kept.store, sizeof display->store);
}

/* After a call that wasn't refused: the display's own news, then all that was written, once the unit is kept. */
static void answered(uint32_t seat, bool was_confirmed, uint32_t written)
{
    keep(seat);
    if (displays[seat].record.confirmed && !was_confirmed)
        printf("    boat %u: CONFIRMED\n", (unsigned)seat);
    send_all(seat, written);
}

static void hear(uint32_t seat, const uint8_t *bytes, size_t len)
{
    struct display *display = &displays[seat];
    struct zolbine_written answer;
    bool was_confirmed = display->record.confirmed;

    printf("boat %u hears %s", (unsigned)seat, name_of(bytes[0]));
    if (bytes[0] == ZOLBINE_EVIDENCE) {
        struct zolbine_verdict verdict = zolbine_check_evidence(N, ROUND, keys, sizeof keys, bytes, len);

        printf(": %u, seats 0x%08x\n", (unsigned)verdict.number, (unsigned)verdict.mask);
        if (verdict.number != 0 || verdict.mask != DOUBLE_SIGNERS)
            stop("evidence that isn't accepted", verdict.number);
        return;
    }
    answer = zolbine_step_lent(&display->record, keys, sizeof keys, display->store, sizeof display->store,
                               bytes, len, display->out, sizeof display->out);
    printf(": %u\n", (unsigned)answer.number);
    if (answer.number != 0)
        stop("a refusal that this round has not", answer.number);
    answered(seat, was_confirmed, answer.written);
}

/* Submits the own layout: the leaf is marked as used, then signed with. It may confirm, by SUBMITs that came before. */
static void submit(uint32_t seat, const uint8_t *layout)
{
    struct display *display = &displays[seat];
    uint8_t own[ZOLBINE_SUBMIT_LEN];
    struct zolbine_stepped answer;

    if (display->kept.leaf_used)
        stop("a second signature in a round", seat);
    display->kept.leaf_used = true;
    make_submit(seat, layout, own);
    answer = zolbine_submit(display->record, keys, sizeof keys, display->store, sizeof display->store,
                            layout, ZOLBINE_VALUE_LEN, own + ZOLBINE_SIGNED_LEN, ZOLBINE_SIGNATURE_LEN,
                            display->out, sizeof display->out);
    printf("boat %u submits: %u\n", (unsigned)seat, (unsigned)answer.number);
    if (answer.number != 0)
        stop("the own submit", answer.number);
    display->record = answer.record;
    if (answer.written < ZOLBINE_SUBMIT_LEN || memcmp(display->out, own, ZOLBINE_SUBMIT_LEN) != 0)
        stop("another SUBMIT than the one signed", answer.written);
    answered(seat, false, answer.written);
}

/* A double signer gives one honest boat a SUBMIT that the other doesn't get. */
static void deceive(uint32_t signer, uint32_t seat, const uint8_t *layout)
{
    uint8_t bytes[ZOLBINE_SUBMIT_LEN];

    printf("(seat %u signs for boat %u)\n", (unsigned)signer, (unsigned)seat);
    make_submit(signer, layout, bytes);
    hear(seat, bytes, sizeof bytes);
}

/* Gives every message on the air to the other honest boat, and the answers in turn. */
static void deliver(void)
{
    uint32_t seat;

    for (; heard < on_air; heard++)
        for (seat = 0; seat < HONEST; seat++)
            if (seat != air[heard].from)
                hear(seat, air[heard].bytes, air[heard].len);
}

/* The harbour office makes one pack of the two boats'. Both name the same seats, so that every pair is the first boat's. */
static void join_at_the_office(void)
{
    static uint8_t pack[ZOLBINE_JOINED_OUT_LEN(N)];
    const struct display *first = &displays[0], *second = &displays[1];
    struct zolbine_written joined = zolbine_join_evidence(N, ROUND, keys, sizeof keys, first->evidence, first->evidence_len,
                                                          second->evidence, second->evidence_len, pack, sizeof pack);
    struct zolbine_verdict verdict = zolbine_check_evidence(N, ROUND, keys, sizeof keys, pack, joined.written);

    printf("the office joins both packs: %u, %u bytes", (unsigned)joined.number, (unsigned)joined.written);
    printf(", evidence against 0x%08x\n", (unsigned)verdict.mask);
    if (joined.number != 0 || joined.written != first->evidence_len || memcmp(pack, first->evidence, joined.written) != 0)
        stop("another pack than the first boat's", joined.number);
    if (verdict.number != 0 || verdict.mask != DOUBLE_SIGNERS)
        stop("a joined pack that isn't accepted", verdict.number);
}

int main(void)
{
    static const uint8_t north[ZOLBINE_VALUE_LEN] = { 'n', 'o', 'r', 't', 'h' };
    static const uint8_t south[ZOLBINE_VALUE_LEN] = { 's', 'o', 'u', 't', 'h' };
    uint32_t seat;

    if (zolbine_version() != ZOLBINE_VERSION)
        stop("an archive of another version", zolbine_version());
    for (seat = 0; seat < N; seat++)
        make_key(seat);
    for (seat = 0; seat < HONEST; seat++) {
        struct zolbine_opened opened = zolbine_open(N, seat, ROUND, keys, sizeof keys);

        if (opened.number != 0)
            stop("opening", opened.number);
        displays[seat].record = opened.record;
        keep(seat);
    }

    deceive(2, 1, south); /* boat 1 has no layout yet, so its unit keeps these two SUBMITs */
    deceive(3, 1, south);
    lose_power(1);
    submit(0, north);
    submit(1, south);     /* with the two kept it has three signatures, and confirms in this very call */
    deceive(2, 0, north);
    deliver();            /* boat 0 hears of the other layout before it confirms: its next call writes two messages */
    lose_power(0);        /* it has submitted, and knows that it has */
    deceive(3, 0, north);
    deliver();

    for (seat = 0; seat < HONEST; seat++) {
        const struct display *display = &displays[seat];
        struct zolbine_verdict verdict;

        if (!display->record.confirmed || memcmp(display->record.own.value, seat == 0 ? north : south, ZOLBINE_VALUE_LEN) != 0)
            stop("a boat that hasn't confirmed its layout", seat);
        if (display->record.guilty != DOUBLE_SIGNERS || display->evidence_len == 0)
            stop("a boat without evidence", seat);
        verdict = zolbine_check_evidence(N, ROUND, keys, sizeof keys, display->evidence, display->evidence_len);
        if (verdict.number != 0 || verdict.mask != DOUBLE_SIGNERS)
            stop("evidence that isn't accepted", verdict.number);
        printf("boat %u: %.5s confirmed, evidence against 0x%08x\n", (unsigned)seat, (const char *)display->record.own.value,
               (unsigned)verdict.mask);
    }
    join_at_the_office();
    return 0;
}
