/* A mother ship that follows eight rounds of a fleet of seven together. A dispatcher says whose turn it is, so that a noisy boat in
 * one round doesn't keep the other seven waiting.
 *
 *     gcc -std=c11 -Iinclude examples/mother_ship.c target/staticlib/libzolbine.a -o mother_ship
 *     ./mother_ship examples/eight_rounds.bin
 *
 * The file holds the fleet's public keys and, of each round, its number, the ship's own layout and signature, and the SUBMITs of
 * the other six boats; a ship gets the same from its plotter, its signer and its radio. The program's first half is the ship. The
 * second half stands for the radio: it plays the rounds three times, without a flood and with one, and prints in which turn each
 * round confirms. mother_ship.txt is its output.
 */
#include "zolbine.h"

#include <stdio.h>
#include <stdlib.h>
#include <string.h>

enum {
    N = 7,
    OWN_SEAT = 0,
    LANES = ZOLBINE_LANES,
    BUFFERS = LANES * ZOLBINE_LANE_PLACES /* one for each ticket that can wait: a lane with room finds a buffer */
};

/* A message heard that waits for its turn. Its ticket is its place in the pool. */
struct message {
    size_t len;
    uint8_t bytes[ZOLBINE_EVIDENCE_LEN(N)]; /* no message is longer */
};

/* The ship in one round. Record and store belong together. */
struct unit {
    struct zolbine_record record;
    uint8_t store[ZOLBINE_STORE_LEN(N)];
};

struct ship {
    uint8_t keys[ZOLBINE_KEYS_LEN(N)];
    struct zolbine_dispatcher dispatcher;
    struct unit units[LANES];        /* in the order of the dispatcher's rounds */
    uint8_t out[ZOLBINE_OUT_LEN(N)]; /* serves all of them, one call after the other */
    struct message pool[BUFFERS];
    uint16_t free[BUFFERS]; /* the tickets whose buffers are free */
    size_t free_count;
    unsigned sent; /* messages */
};

/* The file, byte for byte. The other boats have the seats from 1 on. */
struct recorded_round {
    uint8_t round[2];
    uint8_t layout[ZOLBINE_VALUE_LEN];
    uint8_t signature[ZOLBINE_SIGNATURE_LEN];
    uint8_t submits[N - 1][ZOLBINE_SUBMIT_LEN];
};

struct recorded {
    uint8_t keys[ZOLBINE_KEYS_LEN(N)];
    struct recorded_round rounds[LANES];
};

static void stop(const char *why, uint32_t number)
{
    fprintf(stderr, "mother_ship: %s (%u)\n", why, (unsigned)number);
    exit(1);
}

static uint32_t number(const uint8_t *bytes)
{
    return 256u * bytes[0] + bytes[1];
}

/* Sends the bytes that a call wrote, each message by itself. Here they are counted. */
static void send_all(struct ship *ship, uint32_t written)
{
    const uint8_t *bytes = ship->out;
    uint32_t len;

    for (; written > 0; bytes += len, written -= len) {
        len = zolbine_message_length(N, bytes, written);
        if (len == 0)
            stop("bytes that no call writes", written);
        ship->sent++;
    }
}

/* After a submit or a step. A number below 8 is about the record, the keys or a buffer, and so a fault of this program or its
 * memory. Any other refusal is about the message, and has changed nothing. Where nothing is refused, the record's note, the store
 * and the bytes written are kept in lasting memory here, before the first byte leaves: see lasting_unit.c.
 */
static void answered(struct ship *ship, struct unit *unit, struct zolbine_stepped answer)
{
    if (answer.number != 0 && answer.number < ZOLBINE_SAID)
        stop("a call refuses the record, the keys or a buffer", answer.number);
    unit->record = answer.record;
    send_all(ship, answer.written);
}

static void open_unit(struct ship *ship, struct unit *unit, uint32_t round)
{
    struct zolbine_opened opened = zolbine_open(N, OWN_SEAT, round, ship->keys, sizeof ship->keys);

    if (opened.number != 0)
        stop("an opening is refused", opened.number);
    unit->record = opened.record;
}

static void submit(struct ship *ship, struct unit *unit, const uint8_t *layout, const uint8_t *signature)
{
    struct zolbine_stepped answer = zolbine_submit(unit->record, ship->keys, sizeof ship->keys,
                                                   unit->store, sizeof unit->store, layout, ZOLBINE_VALUE_LEN,
                                                   signature, ZOLBINE_SIGNATURE_LEN, ship->out, sizeof ship->out);

    if (answer.number != 0)
        stop("the own submit is refused", answer.number);
    answered(ship, unit, answer);
}

/* The ship in eight rounds, with its own layout submitted in each. No message waits and every buffer is free. After a loss of power
 * the units come back from their notes, and the dispatcher is opened anew: a message that waited was never heard.
 */
static void open_ship(struct ship *ship, const struct recorded *recorded)
{
    struct zolbine_eight eight;
    struct zolbine_dispatched opened;

    for (size_t lane = 0; lane < LANES; lane++)
        eight.round[lane] = number(recorded->rounds[lane].round);
    opened = zolbine_open_dispatcher(eight);
    if (opened.number != 0)
        stop("the dispatcher's opening is refused", opened.number);
    ship->dispatcher = opened.dispatcher;
    ship->free_count = BUFFERS;
    for (size_t ticket = 0; ticket < BUFFERS; ticket++)
        ship->free[ticket] = (uint16_t)ticket;
    ship->sent = 0;
    memcpy(ship->keys, recorded->keys, sizeof ship->keys);
    for (size_t lane = 0; lane < LANES; lane++) {
        open_unit(ship, &ship->units[lane], eight.round[lane]);
        submit(ship, &ship->units[lane], recorded->rounds[lane].layout, recorded->rounds[lane].signature);
    }
}

/* A message from the radio. Its ticket goes to the lane of the round that it says, and its bytes to the pool. False where it is
 * dropped: it says no round, or none of the eight, or 16 messages of its round wait, and it has to be sent again. Its buffer then
 * stays free. A link that acknowledges a message does so when its turn has been and the unit is kept, not here.
 */
static bool hear(struct ship *ship, const uint8_t *bytes, size_t len)
{
    struct zolbine_dispatched added;
    struct message *message;
    uint16_t ticket;

    if (len < ZOLBINE_ROUND_AT + 2 || len > sizeof message->bytes || ship->free_count == 0)
        return false;
    ticket = ship->free[ship->free_count - 1];
    added = zolbine_add_ticket(ship->dispatcher, number(bytes + ZOLBINE_ROUND_AT), ticket);
    if (added.number == ZOLBINE_RECORD)
        stop("the dispatcher is damaged", added.number);
    if (added.number != 0)
        return false;
    ship->dispatcher = added.dispatcher;
    ship->free_count--;
    message = &ship->pool[ticket];
    message->len = len;
    memcpy(message->bytes, bytes, len);
    return true;
}

/* A message whose turn it is. EVIDENCE is for the evidence check, and is kept where it is accepted; any other is for the unit. */
static void serve(struct ship *ship, struct unit *unit, const struct message *message)
{
    if (message->bytes[0] == ZOLBINE_EVIDENCE || message->bytes[0] == ZOLBINE_OLD_EVIDENCE) {
        struct zolbine_verdict verdict = zolbine_check_evidence(N, unit->record.round, ship->keys, sizeof ship->keys,
                                                                message->bytes, message->len);
        if (verdict.number == 0)
            printf("round %u: evidence against 0x%08x\n", (unsigned)unit->record.round, (unsigned)verdict.mask);
    } else {
        answered(ship, unit, zolbine_step(unit->record, ship->keys, sizeof ship->keys, unit->store, sizeof unit->store,
                                          message->bytes, message->len, ship->out, sizeof ship->out));
    }
}

/* A turn: the message of the ticket given out goes to the unit of its round, and its buffer is free again. Answers the lane, or
 * LANES where no message waits.
 */
static size_t take_turn(struct ship *ship)
{
    struct zolbine_turn turn = zolbine_take_turn(ship->dispatcher);
    size_t lane = 0;

    if (turn.number != 0)
        stop("the dispatcher is damaged", turn.number);
    ship->dispatcher = turn.dispatcher;
    if (!turn.given)
        return LANES;
    while (turn.dispatcher.rounds[lane] != turn.round)
        lane++;
    serve(ship, &ship->units[lane], &ship->pool[turn.ticket]);
    ship->free[ship->free_count++] = (uint16_t)turn.ticket;
    return lane;
}

/* The second half: the radio, with turns as its clock. Two boats speak before the first turn, then one more every eight turns. Each
 * sends its SUBMIT of every round, and sends it again before each turn until there is room for it.
 *
 * So in every round a message waits at each of the first 40 turns, flood or not. Whose turn it is goes by the lanes that wait and
 * the order in which they were served, and not by how many messages a lane has: the flood changes nobody's turn.
 */
enum {
    TURNS = 200,
    NOISY_LANE = 6,
    NOISY_SEAT = 6,
    NOISY_TURNS = 40,
    NOISE = 20 /* SUBMITs before each of these turns, ahead of everyone else's */
};

enum traffic {
    SILENT, /* nobody speaks in the round of the noisy lane */
    USUAL,  /* each boat speaks once in each round */
    FLOODED /* besides, the flood */
};

struct count {
    unsigned confirmed[LANES], own_turns[LANES]; /* the turn in which it confirmed, or 0; how many turns the lane had by then */
    unsigned longest_wait; /* of a lane with a message, in turns of other lanes */
    unsigned busy;         /* at each turn up to this one a message waited in the noisy lane */
    unsigned noise_taken, sent;
};

static unsigned speaks_from(uint32_t seat)
{
    return seat < 2 ? 1 : 8 * (seat - 2) + 1;
}

/* The noisy boat repeats its SUBMIT: whole, with a byte changed, without its last byte. */
static bool hear_noise(struct ship *ship, const struct recorded *recorded, unsigned which)
{
    uint8_t bytes[ZOLBINE_SUBMIT_LEN];

    memcpy(bytes, recorded->rounds[NOISY_LANE].submits[NOISY_SEAT - 1], sizeof bytes);
    if (which % 3 == 1)
        bytes[ZOLBINE_SIGNED_LEN + 100] ^= 1;
    return hear(ship, bytes, which % 3 == 2 ? sizeof bytes - 1 : sizeof bytes);
}

/* What comes before a turn. `heard` has the SUBMITs for which there was room. */
static void hear_radio(struct ship *ship, const struct recorded *recorded, enum traffic traffic, unsigned turn,
                       bool heard[LANES][N], struct count *count)
{
    for (unsigned i = 0; traffic == FLOODED && turn <= NOISY_TURNS && i < NOISE; i++)
        count->noise_taken += hear_noise(ship, recorded, NOISE * (turn - 1) + i);
    for (uint32_t seat = 1; seat < N && speaks_from(seat) <= turn; seat++)
        for (size_t lane = 0; lane < LANES; lane++)
            if (!heard[lane][seat] && !(traffic == SILENT && lane == NOISY_LANE))
                heard[lane][seat] = hear(ship, recorded->rounds[lane].submits[seat - 1], ZOLBINE_SUBMIT_LEN);
}

static struct count play(struct ship *ship, const struct recorded *recorded, enum traffic traffic)
{
    struct count count = { 0 };
    bool heard[LANES][N] = { 0 };
    unsigned turns[LANES] = { 0 }, waits[LANES] = { 0 };

    open_ship(ship, recorded);
    for (unsigned turn = 1; turn <= TURNS; turn++) {
        size_t served;

        hear_radio(ship, recorded, traffic, turn, heard, &count);
        if (count.busy == turn - 1 && ship->dispatcher.counts[NOISY_LANE] > 0)
            count.busy = turn;
        served = take_turn(ship);
        if (served == LANES)
            continue;
        turns[served]++;
        if (count.confirmed[served] == 0 && ship->units[served].record.confirmed) {
            count.confirmed[served] = turn;
            count.own_turns[served] = turns[served];
        }
        for (size_t lane = 0; lane < LANES; lane++) {
            waits[lane] = lane != served && ship->dispatcher.counts[lane] > 0 ? waits[lane] + 1 : 0;
            if (count.longest_wait < waits[lane])
                count.longest_wait = waits[lane];
        }
    }
    count.sent = ship->sent;
    return count;
}

static void print_confirmed(const struct count *count, size_t lane)
{
    char cell[32] = "-";

    if (count->confirmed[lane] != 0)
        snprintf(cell, sizeof cell, "%u (%u)", count->confirmed[lane], count->own_turns[lane]);
    printf("%11s", cell);
}

static void print_row(const char *title, unsigned silent, unsigned usual, unsigned flooded)
{
    printf("%-32s%11u%11u%11u\n", title, silent, usual, flooded);
}

static void print_table(const struct recorded *recorded, const struct count *silent, const struct count *usual,
                        const struct count *flooded)
{
    unsigned noisy = (unsigned)number(recorded->rounds[NOISY_LANE].round);

    printf("In which turn each round confirms, and in brackets how many turns of its own that took.\n");
    printf("silent:  nobody speaks in the noisy round, %u\n", noisy);
    printf("usual:   each boat speaks once in each round\n");
    printf("flooded: besides, boat %u sends %u SUBMITs in round %u before each of the first %u turns\n\n",
           (unsigned)NOISY_SEAT, (unsigned)NOISE, noisy, (unsigned)NOISY_TURNS);
    printf("%-32s%11s%11s%11s\n", "round", "silent", "usual", "flooded");
    for (size_t lane = 0; lane < LANES; lane++) {
        printf("%-32u", (unsigned)number(recorded->rounds[lane].round));
        print_confirmed(silent, lane);
        print_confirmed(usual, lane);
        print_confirmed(flooded, lane);
        printf("\n");
    }
    print_row("longest wait, in turns of others", silent->longest_wait, usual->longest_wait, flooded->longest_wait);
    print_row("noisy round waits at turns 1 to", silent->busy, usual->busy, flooded->busy);
    print_row("taken in of the flood", silent->noise_taken, usual->noise_taken, flooded->noise_taken);
    print_row("messages sent", silent->sent, usual->sent, flooded->sent);
}

int main(int argc, char **argv)
{
    static struct ship ship;
    static struct recorded recorded;
    FILE *file = argc == 2 ? fopen(argv[1], "rb") : NULL;
    struct count silent, usual, flooded;

    if (zolbine_version() != ZOLBINE_VERSION)
        stop("the archive is of another version than the header", zolbine_version());
    if (file == NULL || fread(&recorded, sizeof recorded, 1, file) != 1)
        stop("eight recorded rounds are needed: mother_ship FILE", 0);
    fclose(file);
    silent = play(&ship, &recorded, SILENT);
    usual = play(&ship, &recorded, USUAL);
    flooded = play(&ship, &recorded, FLOODED);
    print_table(&recorded, &silent, &usual, &flooded);
    return 0;
}
