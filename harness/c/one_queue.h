/* One queue for all rounds in place of the dispatcher, for harness/tests/mother_ship.rs, included before the first line of
 * examples/mother_ship.c. It has as many places as all lanes together.
 */
#include "zolbine.h"

static struct {
    uint16_t lanes[ZOLBINE_LANES * ZOLBINE_LANE_PLACES], tickets[ZOLBINE_LANES * ZOLBINE_LANE_PLACES];
    size_t first, count;
} queue;

static struct zolbine_dispatched queue_open(struct zolbine_eight rounds)
{
    queue.first = queue.count = 0;
    return zolbine_open_dispatcher(rounds);
}

static struct zolbine_dispatched queue_add(struct zolbine_dispatcher dispatcher, uint32_t round, uint16_t ticket)
{
    size_t places = sizeof queue.lanes / sizeof queue.lanes[0], place = (queue.first + queue.count) % places;
    struct zolbine_dispatched added = { 0, dispatcher };
    uint16_t lane = 0;

    while (lane < ZOLBINE_LANES && dispatcher.rounds[lane] != round)
        lane++;
    added.number = lane == ZOLBINE_LANES ? ZOLBINE_LANE : queue.count == places ? ZOLBINE_FULL_LANE : 0;
    if (added.number == 0) {
        queue.lanes[place] = lane;
        queue.tickets[place] = ticket;
        queue.count++;
        added.dispatcher.counts[lane]++;
    }
    return added;
}

static struct zolbine_turn queue_turn(struct zolbine_dispatcher dispatcher)
{
    struct zolbine_turn turn = { 0, queue.count > 0, 0, 0, dispatcher };

    if (turn.given) {
        uint16_t lane = queue.lanes[queue.first];

        turn.round = dispatcher.rounds[lane];
        turn.ticket = queue.tickets[queue.first];
        turn.dispatcher.counts[lane]--;
        queue.first = (queue.first + 1) % (sizeof queue.lanes / sizeof queue.lanes[0]);
        queue.count--;
    }
    return turn;
}

#define zolbine_open_dispatcher queue_open
#define zolbine_add_ticket queue_add
#define zolbine_take_turn queue_turn
