//! Document 02's item 6: eight rounds followed together.

use super::calls::MAX_LEAF;
use super::record::{Dispatched, Dispatcher, Eight, Turn, LANES, PLACES};
use super::refusals::{pass, row};

/// "a refused opening gives one of zeros"
pub fn open_dispatcher(Eight { round: rounds }: Eight) -> Dispatched {
    match pass([row(3, || rounds.iter().any(|&round| round > MAX_LEAF)), row(18, || has_equals(&rounds))]) {
        Ok(()) => Dispatched { number: 0, dispatcher: Dispatcher { rounds, ..Dispatcher::default() } },
        Err(number) => Dispatched { number, dispatcher: Dispatcher::default() },
    }
}

pub fn add_ticket(mut dispatcher: Dispatcher, round: u32, ticket: u16) -> Dispatched {
    let lane = dispatcher.rounds.iter().position(|&followed| followed == round);
    let passed = pass([
        row(3, || round > MAX_LEAF),
        row(4, || impossible(&dispatcher)),
        row(18, || lane.is_none()),
        row(19, || lane.is_some_and(|lane| waiting(&dispatcher, lane).len() == PLACES)),
    ]);
    if let Err(number) = passed {
        return Dispatched { number, dispatcher };
    }
    put(&mut dispatcher, lane.expect("another round is refused"), ticket);
    Dispatched { number: 0, dispatcher }
}

/// "A turn with no ticket waiting gives none and changes nothing."
pub fn take_turn(dispatcher: Dispatcher) -> Turn {
    let none = Turn { number: 0, given: false, round: 0, ticket: 0, dispatcher };
    if let Err(number) = pass([row(4, || impossible(&dispatcher))]) {
        return Turn { number, ..none };
    }
    let Some(lane) = next(&dispatcher) else {
        return none;
    };
    let oldest = waiting(&dispatcher, lane)[0];
    let (round, ticket) = (dispatcher.rounds[lane], oldest.into());
    Turn { number: 0, given: true, round, ticket, dispatcher: serve(dispatcher, lane) }
}

fn impossible(dispatcher: &Dispatcher) -> bool {
    !causes(dispatcher).is_empty()
}

/// The causes that hold. Whatever else a dispatcher holds is possible.
pub fn causes(dispatcher: &Dispatcher) -> Vec<&'static str> {
    let Dispatcher { rounds, counts, served, .. } = dispatcher;
    let order = order(dispatcher);
    let tests = [
        ("two of the rounds are equal", has_equals(rounds)),
        ("a round is above 1,023", rounds.iter().any(|&round| round > MAX_LEAF)),
        ("a lane counts more than 16 tickets", counts.iter().any(|&count| count as usize > PLACES)),
        ("the order names a lane twice", has_equals(&order)),
        ("the order names a lane outside the eight", order.iter().any(|&lane| lane as usize >= LANES)),
        ("the order names more than eight", *served as usize > LANES),
    ];
    tests.into_iter().filter(|(_, holds)| *holds).map(|(cause, _)| cause).collect()
}

fn has_equals(list: &[u32]) -> bool {
    list.iter().enumerate().any(|(place, item)| list[..place].contains(item))
}

/// The lanes served, longest ago first, as far as there is room for them.
fn order(dispatcher: &Dispatcher) -> Vec<u32> {
    dispatcher.order.into_iter().take(dispatcher.served as usize).collect()
}

/// "the waiting lane served longest ago; never served counts as longest, and among those the lowest round goes first"
fn next(dispatcher: &Dispatcher) -> Option<usize> {
    let order = order(dispatcher);
    // A lane that was never served has no place, and none is before the first.
    let place = |lane: usize| order.iter().position(|&served| served as usize == lane);
    let waiting = (0..LANES).filter(|&lane| !waiting(dispatcher, lane).is_empty());
    waiting.min_by_key(|&lane| (place(lane), dispatcher.rounds[lane]))
}

/// The lane's places, turned so that the oldest ticket's comes first.
fn turned(dispatcher: &Dispatcher, lane: usize) -> [u16; PLACES] {
    let mut places = dispatcher.tickets[lane];
    places.rotate_left(head(dispatcher, lane));
    places
}

fn head(dispatcher: &Dispatcher, lane: usize) -> usize {
    dispatcher.heads[lane] as usize % PLACES
}

/// The lane's tickets, oldest first.
fn waiting(dispatcher: &Dispatcher, lane: usize) -> Vec<u16> {
    turned(dispatcher, lane)[..dispatcher.counts[lane] as usize].to_vec()
}

/// The ticket stands behind those that wait.
fn put(dispatcher: &mut Dispatcher, lane: usize, ticket: u16) {
    let mut places = turned(dispatcher, lane);
    places[dispatcher.counts[lane] as usize] = ticket;
    places.rotate_right(head(dispatcher, lane));
    dispatcher.tickets[lane] = places;
    dispatcher.counts[lane] += 1;
}

/// The lane's oldest ticket is given out: its place is the last to be used again, and no lane was served later.
fn serve(mut dispatcher: Dispatcher, lane: usize) -> Dispatcher {
    dispatcher.counts[lane] -= 1;
    dispatcher.heads[lane] = ((head(&dispatcher, lane) + 1) % PLACES) as u32;
    let mut order = order(&dispatcher);
    order.retain(|&served| served as usize != lane);
    order.push(lane as u32);
    dispatcher.served = order.len() as u32;
    dispatcher.order[..order.len()].copy_from_slice(&order);
    dispatcher
}

#[cfg(test)]
mod tests {
    use super::*;

    /// Of eight rounds that don't rise.
    fn opened() -> Dispatcher {
        let Dispatched { number, dispatcher } = open_dispatcher(Eight { round: [7, 3, 1023, 0, 9, 5, 8, 2] });
        assert_eq!(number, 0);
        dispatcher
    }

    fn add(dispatcher: &mut Dispatcher, round: u32, ticket: u16) {
        let answer = add_ticket(*dispatcher, round, ticket);
        assert_eq!(answer.number, 0, "round {round}, ticket {ticket}");
        *dispatcher = answer.dispatcher;
    }

    /// The round of the next turn and its ticket.
    fn turn(dispatcher: &mut Dispatcher) -> Option<(u32, u32)> {
        let Turn { number, given, round, ticket, dispatcher: after } = take_turn(*dispatcher);
        assert_eq!(number, 0);
        *dispatcher = after;
        given.then_some((round, ticket))
    }

    fn turns(dispatcher: &mut Dispatcher) -> Vec<(u32, u32)> {
        std::iter::from_fn(|| turn(dispatcher)).collect()
    }

    /// Lanes never served go by their rounds; then each has its turn after seven others.
    #[test]
    fn a_lane_waits_through_seven_turns() {
        let mut dispatcher = opened();
        for (round, ticket) in [(1023, 1), (7, 2), (9, 3), (0, 4), (3, 5), (8, 6), (2, 7), (5, 8)] {
            add(&mut dispatcher, round, ticket);
            add(&mut dispatcher, round, 100 + ticket);
        }
        let rising = [(0, 4), (2, 7), (3, 5), (5, 8), (7, 2), (8, 6), (9, 3), (1023, 1)];
        let again = rising.map(|(round, ticket)| (round, 100 + ticket));
        assert_eq!(turns(&mut dispatcher), [rising, again].concat());
    }

    /// Rounds 3, 2, 3 and 0 were served: of these 2 was served longest ago, and not 3.
    #[test]
    fn the_last_turn_of_a_lane_counts() {
        let mut dispatcher = opened();
        for round in [3, 2, 3, 0] {
            add(&mut dispatcher, round, 1);
            assert_eq!(turn(&mut dispatcher), Some((round, 1)));
        }
        for round in [0, 3, 2] {
            add(&mut dispatcher, round, 2);
        }
        assert_eq!(turns(&mut dispatcher), [(2, 2), (3, 2), (0, 2)]);
        for round in [0, 2, 1023, 9] {
            add(&mut dispatcher, round, 3);
        }
        assert_eq!(turns(&mut dispatcher), [(9, 3), (1023, 3), (2, 3), (0, 3)]);
        assert_eq!((dispatcher.served, &dispatcher.order[..5]), (5, &[1, 4, 2, 7, 3][..]));
    }

    /// "A place given out is used again."
    #[test]
    fn places_are_used_again() {
        let mut dispatcher = opened();
        (1..=16).for_each(|ticket| add(&mut dispatcher, 9, ticket));
        assert_eq!(add_ticket(dispatcher, 9, 17), Dispatched { number: 19, dispatcher });
        assert_eq!(turn(&mut dispatcher), Some((9, 1)));
        add(&mut dispatcher, 9, 17);
        assert_eq!((dispatcher.counts, dispatcher.heads), ([0, 0, 0, 0, 16, 0, 0, 0], [0, 0, 0, 0, 1, 0, 0, 0]));
        assert_eq!(dispatcher.tickets[4], [17, 2, 3, 4, 5, 6, 7, 8, 9, 10, 11, 12, 13, 14, 15, 16]);
        let rest: Vec<(u32, u32)> = (2..=17).map(|ticket| (9, ticket)).collect();
        assert_eq!(turns(&mut dispatcher), rest);
        let idle = take_turn(dispatcher);
        assert_eq!(idle, Turn { number: 0, given: false, round: 0, ticket: 0, dispatcher });
    }

    #[test]
    fn refusals_come_in_their_order() {
        let zeros = Dispatcher::default();
        for (round, number) in [
            ([7, 3, 1024, 0, 9, 5, 8, 2], 3),
            ([7, 3, 1024, 0, 9, 5, 1024, 2], 3),
            ([7, 3, 2000, 0, 9, 5, 3, 2], 3),
            ([7, 3, 1023, 0, 9, 5, 8, 7], 18),
        ] {
            assert_eq!(open_dispatcher(Eight { round }), Dispatched { number, dispatcher: zeros });
        }
        let full = Dispatcher { counts: [16; LANES], ..opened() };
        let wrong = Dispatcher { counts: [16, 16, 16, 16, 16, 16, 16, 17], ..full };
        for (dispatcher, round, number) in
            [(wrong, 1024, 3), (wrong, 4, 4), (wrong, 7, 4), (full, 1024, 3), (full, 4, 18), (full, 7, 19)]
        {
            assert_eq!(add_ticket(dispatcher, round, 1), Dispatched { number, dispatcher });
        }
        let refused = Turn { number: 4, given: false, round: 0, ticket: 0, dispatcher: wrong };
        assert_eq!(take_turn(wrong), refused);
    }
}
