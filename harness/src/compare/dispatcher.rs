//! The dispatcher (document 02, item 6): openings, long random lists of calls, lists that start from any possible dispatcher, and
//! each operand made wrong. The subject keeps step with the reference, and both with what the list of calls comes to by the item's
//! sentences. What these tell apart is counted, and all of it must be reached.

use std::collections::BTreeSet;

use super::refusals::{spoiled, spoiler, Spoiler};
use super::{count, covered, equal, long, noise, run, sized, Tally};
use crate::confirmer::Dispatching;
use crate::reference::dispatcher::{add_ticket, causes, open_dispatcher, take_turn};
use crate::reference::record::{Dispatched, Dispatcher, Eight, Turn, LANES, PLACES};
use crate::rng::{seed, Rng};

/// What the lists must come by, besides the turns that a lane waits through.
const ALL: [&str; 30] = [
    "start: opened",
    "start: possible",
    "start: a head above 15",
    "start: an entry beyond those served is no lane",
    "start: an entry beyond those served names a served lane",
    "add: to an empty lane",
    "add: behind others",
    "add: the sixteenth",
    "add: to a place given out",
    "add: the ticket before it again",
    "add: to a round above 1,023",
    "add: to another round",
    "add: to a full lane",
    "turn: none waits, none was served",
    "turn: none waits, after servings",
    "turn: one lane waits",
    "turn: all eight wait",
    "turn: several never served wait",
    "turn: never served, before one that was",
    "turn: never served, before one of a lower round that was",
    "turn: served longest ago, before one of a lower round",
    "turn: served longest ago of those that wait, and not of all",
    "turn: served, and one never served has no ticket",
    "turn: the lane served last again",
    "turn: the eighth lane served",
    "turn: before a full lane",
    "turn: of a full lane",
    "turn: the last of its lane",
    "turn: a ticket in a place used before",
    "turn: all eight have been served",
];

/// A lane that waits through so many turns of others before its own.
fn waited(turns: usize) -> String {
    format!("turn: after {turns} of other lanes")
}

fn both_open(subject: &dyn Dispatching, round: [u32; LANES]) -> Result<Dispatched, String> {
    let expected = open_dispatcher(Eight { round });
    equal("the opening", subject.open_dispatcher(Eight { round }), expected)?;
    Ok(expected)
}

fn both_add(subject: &dyn Dispatching, dispatcher: Dispatcher, round: u32, ticket: u16) -> Result<Dispatched, String> {
    let expected = add_ticket(dispatcher, round, ticket);
    equal("the ticket added", subject.add_ticket(dispatcher, round, ticket), expected)?;
    Ok(expected)
}

fn both_turn(subject: &dyn Dispatching, dispatcher: Dispatcher) -> Result<Turn, String> {
    let expected = take_turn(dispatcher);
    equal("the turn", subject.take_turn(dispatcher), expected)?;
    Ok(expected)
}

pub fn battery(subject: &dyn Dispatching) {
    openings(subject);
    refusals(subject);
    lists(subject);
}

/// Items in any order.
fn shuffled<T>(mut items: Vec<T>, rng: &mut Rng) -> Vec<T> {
    let mut shuffled = Vec::new();
    while !items.is_empty() {
        shuffled.push(items.swap_remove(rng.below(items.len())));
    }
    shuffled
}

/// Eight different rounds in any order: any ones, neighbours, the first, the last, or such that several share their low byte.
fn any_rounds(rng: &mut Rng) -> [u32; LANES] {
    let low = rng.below(255) as u32;
    let all: Vec<u32> = match rng.below(5) {
        0 => (low..low + 8).collect(),
        1 => (0..8).collect(),
        2 => (1016..1024).collect(),
        3 => (0..8).map(|place| low + 256 * (place / 2) + place % 2).collect(),
        _ => (0..1024).collect(),
    };
    shuffled(all, rng)[..LANES].try_into().expect("eight")
}

/// A round that isn't among the eight, and differs from one of them in a bit.
fn another_round(rounds: &[u32; LANES], rng: &mut Rng) -> u32 {
    loop {
        let round = rng.pick(rounds) ^ 1 << rng.below(10);
        if !rounds.contains(&round) {
            return round;
        }
    }
}

/// Numbers above the last round, those among them that a narrower type would cut down to the round.
fn rounds_above(round: u32) -> [u32; 6] {
    [1024, 1024 + round, 65_535, 65_536 + round, 1 << 31 | round, u32::MAX]
}

/// A possible dispatcher, whatever calls would have led to it. What the item doesn't speak of is any number.
fn any_possible(rng: &mut Rng) -> Dispatcher {
    let counts = [0; LANES].map(|_: u32| {
        let any = rng.below(PLACES + 1) as u32;
        *rng.pick(&[0, 0, 1, 15, 16, any])
    });
    let heads = [0; LANES].map(|_: u32| {
        let any = rng.u32();
        *rng.pick(&[any % 16, any % 16, any, 15, 16, 17, u32::MAX - 15, u32::MAX])
    });
    let served = rng.below(LANES + 1);
    let mut order = [0; LANES].map(|_: u32| noise::number(8, rng));
    order[..served].copy_from_slice(&shuffled((0..8).collect(), rng)[..served]);
    let tickets = [[0; PLACES]; LANES].map(|places| places.map(|_: u16| rng.u32() as u16));
    Dispatcher { rounds: any_rounds(rng), counts, heads, served: served as u32, order, tickets }
}

/// Each two of the eight.
fn pairs() -> impl Iterator<Item = (usize, usize)> {
    (0..LANES).flat_map(|other| (0..other).map(move |one| (one, other)))
}

/// "two of the eight are equal at opening" is 18, and a round above 1,023 is 3, whatever the others.
fn openings(subject: &dyn Dispatching) {
    let mut rng = Rng::new(seed(), "openings of dispatchers");
    let mut spoilers: Vec<Spoiler<[u32; LANES]>> = Vec::new();
    for (place, kind) in (0..LANES).flat_map(|place| (0..rounds_above(0).len()).map(move |kind| (place, kind))) {
        let above =
            move |rounds: &mut [u32; LANES], _: &mut Rng| rounds[place] = rounds_above(rounds[place] % 1024)[kind];
        spoilers.push(spoiler(3, format!("round {place} too large"), above));
    }
    for (one, other) in pairs() {
        let made_equal = move |rounds: &mut [u32; LANES], _: &mut Rng| rounds[one] = rounds[other];
        spoilers.push(spoiler(18, format!("rounds {one} and {other} equal"), made_equal));
    }
    let mut cases: Vec<(String, [u32; LANES], u32)> = Vec::new();
    cases.extend((0..sized(400)).map(|_| ("right".to_string(), any_rounds(&mut rng), 0)));
    for wrong in spoiled(&spoilers, sized(800), &mut rng, any_rounds) {
        cases.push((wrong.what.clone(), wrong.case, wrong.number()));
    }
    run("open_dispatcher", &cases, |(what, rounds, number), _| {
        let dispatcher = match number {
            0 => Dispatcher { rounds: *rounds, ..Dispatcher::default() },
            _ => Dispatcher::default(),
        };
        let told = || {
            let answer = both_open(subject, *rounds)?;
            equal("the reference's answer", answer, Dispatched { number: *number, dispatcher })
        };
        told().map_err(|difference| format!("{rounds:?}, {what}: {difference}"))
    });
}

type Edit = Box<dyn Fn(&mut Dispatcher)>;

/// What makes a possible dispatcher impossible, each edit with its cause. Numbers out of range are also such that a narrower type
/// would cut down to right ones.
fn impossible() -> Vec<(&'static str, String, Edit)> {
    let mut list: Vec<(&'static str, String, Edit)> = Vec::new();
    let mut wrong = |cause, what: String, edit: Edit| list.push((cause, what, edit));
    for (one, other) in pairs() {
        let equal_rounds = move |it: &mut Dispatcher| it.rounds[one] = it.rounds[other];
        wrong("two of the rounds are equal", format!("rounds {one} and {other} equal"), Box::new(equal_rounds));
        let twice = move |it: &mut Dispatcher| {
            entry(it, other);
            it.order[other] = it.order[one];
        };
        wrong("the order names a lane twice", format!("entries {one} and {other} equal"), Box::new(twice));
    }
    for place in 0..LANES {
        for above in [1024, 65_536, 65_536 + 5, 1 << 31, u32::MAX] {
            let edit = move |it: &mut Dispatcher| it.rounds[place] = above;
            wrong("a round is above 1,023", format!("round {above} at {place}"), Box::new(edit));
        }
        for above in [17, 18, 32, 256, 256 + 16, 65_536 + 1, u32::MAX] {
            let edit = move |it: &mut Dispatcher| it.counts[place] = above;
            wrong("a lane counts more than 16 tickets", format!("{above} tickets in lane {place}"), Box::new(edit));
        }
        for above in [8, 9, 255, 256, 65_536 + 7, 1 << 31, u32::MAX] {
            let edit = move |it: &mut Dispatcher| *entry(it, place) = above;
            wrong("the order names a lane outside the eight", format!("lane {above} at {place}"), Box::new(edit));
        }
    }
    for above in [9, 10, 16, 255, 256, 256 + 8, 65_536 + 3, 1 << 31, u32::MAX] {
        let edit = move |it: &mut Dispatcher| {
            entry(it, LANES - 1);
            it.served = above;
        };
        wrong("the order names more than eight", format!("{above} served"), Box::new(edit));
    }
    list
}

/// An entry of the order, which names different lanes up to it.
fn entry(dispatcher: &mut Dispatcher, place: usize) -> &mut u32 {
    let served = dispatcher.served as usize;
    if served <= place {
        let others: Vec<u32> = (0..8).filter(|lane| !dispatcher.order[..served].contains(lane)).collect();
        dispatcher.order[served..=place].copy_from_slice(&others[..=place - served]);
        dispatcher.served = place as u32 + 1;
    }
    &mut dispatcher.order[place]
}

/// A dispatcher, and a ticket that it takes.
struct Case {
    dispatcher: Dispatcher,
    round: u32,
    ticket: u16,
}

impl Case {
    fn right(rng: &mut Rng) -> Case {
        let mut dispatcher = any_possible(rng);
        let lane = rng.below(LANES);
        dispatcher.counts[lane] = dispatcher.counts[lane].min(15);
        Case { dispatcher, round: dispatcher.rounds[lane], ticket: rng.u32() as u16 }
    }
}

fn refusals(subject: &dyn Dispatching) {
    let mut rng = Rng::new(seed(), "refusals of dispatchers");
    let mut spoilers: Vec<Spoiler<Case>> = Vec::new();
    for (cause, what, edit) in impossible() {
        let mut dispatcher = any_possible(&mut rng);
        assert_eq!(causes(&dispatcher), [""; 0], "{dispatcher:?}");
        edit(&mut dispatcher);
        assert_eq!(causes(&dispatcher), [cause], "{what}: {dispatcher:?}");
        spoilers.push(spoiler(4, what, move |case: &mut Case, _| edit(&mut case.dispatcher)));
    }
    let turns = spoiled(&spoilers, sized(800), &mut rng, Case::right);
    run("take_turn, refused", &turns, |wrong, _| {
        let dispatcher = wrong.case.dispatcher;
        let told = || {
            let answer = both_turn(subject, dispatcher)?;
            let refused = Turn { number: 4, given: false, round: 0, ticket: 0, dispatcher };
            equal("the reference's answer", answer, refused)
        };
        told().map_err(|difference| format!("{}, {dispatcher:?}: {difference}", wrong.what))
    });
    for kind in 0..rounds_above(0).len() {
        let above = move |case: &mut Case, _: &mut Rng| case.round = rounds_above(case.round)[kind];
        spoilers.push(spoiler(3, "a round too large", above));
    }
    let another = |case: &mut Case, rng: &mut Rng| case.round = another_round(&case.dispatcher.rounds, rng);
    spoilers.push(spoiler(18, "another round", another));
    spoilers.push(spoiler(19, "the lane full", |case: &mut Case, _| {
        let lane = case.dispatcher.rounds.iter().position(|round| *round == case.round);
        case.dispatcher.counts[lane.expect("a lane's round")] = 16;
    }));
    spoilers.push(spoiler(19, "all lanes full", |case: &mut Case, _| case.dispatcher.counts = [16; LANES]));
    let adds = spoiled(&spoilers, sized(800), &mut rng, Case::right);
    run("add_ticket, refused", &adds, |wrong, _| {
        let Case { dispatcher, round, ticket } = wrong.case;
        let told = || {
            let answer = both_add(subject, dispatcher, round, ticket)?;
            equal("the reference's answer", answer, Dispatched { number: wrong.number(), dispatcher })
        };
        told().map_err(|difference| format!("{}, round {round}, {dispatcher:?}: {difference}", wrong.what))
    });
}

/// A list's calls are drawn in parts.
struct Part {
    calls: usize,
    /// Of sixteen calls so many add a ticket.
    adds: usize,
    /// The lanes that they go to; one that is named often gets many.
    lanes: Vec<usize>,
}

impl Part {
    /// Tickets for all lanes, for some or for one, or a flood of one beside the others, and turns: none, few, many or nothing else.
    fn any(rng: &mut Rng) -> Part {
        let lanes = *rng.pick(&[1, 2, 3, 4, 7, 8, 8]);
        let mut lanes = shuffled((0..LANES).collect(), rng)[..lanes].to_vec();
        if rng.one_in(3) {
            lanes.extend([lanes[0]; 16]);
        }
        Part { calls: 1 + rng.below(60), adds: *rng.pick(&[0, 2, 6, 8, 8, 10, 14, 16]), lanes }
    }
}

fn lists(subject: &dyn Dispatching) {
    // From an opening, or from any dispatcher.
    let lists: usize = if long() { 4000 } else { 400 };
    let plans: Vec<(bool, usize)> = (0..lists).map(|list| (list.is_multiple_of(2), 1 + list % 25)).collect();
    let tallies = run("dispatchers", &plans, |&(opened, parts), rng| {
        let mut list = if opened { List::opened(subject, rng)? } else { List::started(subject, any_possible(rng)) };
        list.play(parts, rng).map_err(|difference| {
            let List { history, calls, .. } = &list;
            format!("from {:?}, call {calls}: {difference}", history.start)
        })?;
        Ok(list.tally)
    });
    covered("dispatchers", tallies, ALL.map(String::from).into_iter().chain((0..LANES).map(waited)));
}

/// A lane of a list.
struct Lane {
    round: u32,
    /// Its tickets in the order in which they went in, and those that came out.
    added: Vec<u16>,
    given: Vec<u16>,
    /// The turns of other lanes that it has waited through.
    waited: usize,
}

impl Lane {
    fn waiting(&self) -> usize {
        self.added.len() - self.given.len()
    }
}

/// What a list of calls comes to. It is told by the item's sentences from the dispatcher that the list started with and from the
/// calls alone.
struct History {
    start: Dispatcher,
    lanes: Vec<Lane>,
    /// The lane of each turn.
    servings: Vec<usize>,
}

impl History {
    fn of(start: Dispatcher) -> History {
        let lane = |lane: usize| {
            let place = |number: u32| (u64::from(start.heads[lane]) + u64::from(number)) as usize % PLACES;
            let added = (0..start.counts[lane]).map(|number| start.tickets[lane][place(number)]).collect();
            Lane { round: start.rounds[lane], added, given: Vec::new(), waited: 0 }
        };
        let servings = start.order[..start.served as usize].iter().map(|&lane| lane as usize).collect();
        History { start, lanes: (0..LANES).map(lane).collect(), servings }
    }

    fn lane_of(&self, round: u32) -> Option<usize> {
        self.lanes.iter().position(|lane| lane.round == round)
    }

    fn waiting(&self) -> Vec<usize> {
        (0..LANES).filter(|&lane| self.lanes[lane].waiting() > 0).collect()
    }

    fn last_serving(&self, lane: usize) -> Option<usize> {
        self.servings.iter().rposition(|&served| served == lane)
    }

    /// "served longest ago; never served counts as longest, and among those the lowest round goes first"
    fn goes_before(&self, one: usize, other: usize) -> bool {
        match (self.last_serving(one), self.last_serving(other)) {
            (None, None) => self.lanes[one].round < self.lanes[other].round,
            (None, Some(_)) => true,
            (Some(_), None) => false,
            (Some(one), Some(other)) => one < other,
        }
    }

    /// The dispatcher by the list: each lane's tickets stand in its places one after another, and lanes in the order by their last
    /// servings.
    fn dispatcher(&self) -> Dispatcher {
        let mut dispatcher = self.start;
        for (place, Lane { added, given, .. }) in self.lanes.iter().enumerate() {
            let head = self.start.heads[place] as usize % PLACES;
            for (number, &ticket) in added.iter().enumerate().skip(added.len().saturating_sub(PLACES)) {
                dispatcher.tickets[place][(head + number) % PLACES] = ticket;
            }
            dispatcher.counts[place] = (added.len() - given.len()) as u32;
            if !given.is_empty() {
                dispatcher.heads[place] = ((head + given.len()) % PLACES) as u32;
            }
        }
        let mut served: Vec<(usize, usize)> =
            (0..LANES).filter_map(|lane| Some((self.last_serving(lane)?, lane))).collect();
        served.sort();
        dispatcher.served = served.len() as u32;
        for (entry, (_, lane)) in dispatcher.order.iter_mut().zip(served) {
            *entry = lane as u32;
        }
        dispatcher
    }
}

/// "A dispatcher whose rounds aren't eight different ones up to 1,023, that counts more than 16 tickets in a lane, or whose order of
/// serving names a lane twice or one outside the eight is impossible"
fn is_possible(Dispatcher { rounds, counts, served, order, .. }: &Dispatcher) -> bool {
    let different = |numbers: &[u32], below: u32| {
        let set: BTreeSet<u32> = numbers.iter().copied().filter(|&number| number < below).collect();
        set.len() == numbers.len()
    };
    let order = order.get(..*served as usize);
    different(rounds, 1024) && counts.iter().all(|&count| count <= 16) && order.is_some_and(|order| different(order, 8))
}

/// A list of calls, each with the dispatcher that the one before gave back.
struct List<'a> {
    subject: &'a dyn Dispatching,
    dispatcher: Dispatcher,
    history: History,
    calls: usize,
    tally: Tally,
}

impl<'a> List<'a> {
    fn opened(subject: &'a dyn Dispatching, rng: &mut Rng) -> Result<List<'a>, String> {
        let Dispatched { number, dispatcher } = both_open(subject, any_rounds(rng))?;
        equal("the number", number, 0)?;
        let mut list = List::new(subject, dispatcher);
        list.count("start: opened");
        Ok(list)
    }

    fn started(subject: &'a dyn Dispatching, dispatcher: Dispatcher) -> List<'a> {
        let mut list = List::new(subject, dispatcher);
        let Dispatcher { heads, served, order, .. } = dispatcher;
        let (served, beyond) = order.split_at(served as usize);
        for (what, reached) in [
            ("possible", true),
            ("a head above 15", heads.iter().any(|&head| head > 15)),
            ("an entry beyond those served is no lane", beyond.iter().any(|&lane| lane >= 8)),
            ("an entry beyond those served names a served lane", beyond.iter().any(|lane| served.contains(lane))),
        ] {
            list.count_if(reached, &format!("start: {what}"));
        }
        list
    }

    fn new(subject: &'a dyn Dispatching, dispatcher: Dispatcher) -> List<'a> {
        List { subject, dispatcher, history: History::of(dispatcher), calls: 0, tally: Tally::new() }
    }

    fn count(&mut self, what: &str) {
        count(&mut self.tally, what);
    }

    fn count_if(&mut self, reached: bool, what: &str) {
        if reached {
            self.count(what);
        }
    }

    /// The parts, then turns until no ticket waits: by then each has come out.
    fn play(&mut self, parts: usize, rng: &mut Rng) -> Result<(), String> {
        self.turn()?;
        for _ in 0..parts {
            let part = Part::any(rng);
            for _ in 0..part.calls {
                if rng.below(16) < part.adds {
                    let round = self.any_round(&part.lanes, rng);
                    self.add(round, self.any_ticket(round, rng))?;
                } else {
                    self.turn()?;
                }
            }
        }
        while self.turn()? {}
        for Lane { round, added, given, .. } in &self.history.lanes {
            equal(&format!("the tickets of round {round} in their order"), given, added)?;
        }
        self.turn().map(drop)
    }

    /// Mostly that of one of the lanes.
    fn any_round(&self, lanes: &[usize], rng: &mut Rng) -> u32 {
        let rounds = &self.history.start.rounds;
        let round = rounds[*rng.pick(lanes)];
        match rng.below(24) {
            0 => another_round(rounds, rng),
            1 => *rng.pick(&rounds_above(round)),
            _ => round,
        }
    }

    /// Any ticket, now and then the one added to the lane before it.
    fn any_ticket(&self, round: u32, rng: &mut Rng) -> u16 {
        let last = self.history.lane_of(round).and_then(|lane| self.history.lanes[lane].added.last());
        match (rng.below(16), last) {
            (0, Some(&last)) => last,
            (1, _) => *rng.pick(&[0, u16::MAX]),
            _ => rng.u32() as u16,
        }
    }

    fn add(&mut self, round: u32, ticket: u16) -> Result<(), String> {
        self.calls += 1;
        let lane = self.history.lane_of(round);
        let waiting = lane.map(|lane| self.history.lanes[lane].waiting());
        let (number, what) = match waiting {
            _ if round > 1023 => (3, "to a round above 1,023"),
            None => (18, "to another round"),
            Some(PLACES..) => (19, "to a full lane"),
            Some(0) => (0, "to an empty lane"),
            Some(_) => (0, "behind others"),
        };
        let answer = both_add(self.subject, self.dispatcher, round, ticket)?;
        equal(&format!("a ticket {what}"), answer.number, number)?;
        self.count(&format!("add: {what}"));
        if let Some(lane) = lane.filter(|_| number == 0) {
            let Lane { added, .. } = &self.history.lanes[lane];
            for (what, reached) in [
                ("the sixteenth", waiting == Some(15)),
                ("to a place given out", added.len() >= PLACES),
                ("the ticket before it again", added.last() == Some(&ticket)),
            ] {
                if reached {
                    count(&mut self.tally, format!("add: {what}"));
                }
            }
            self.history.lanes[lane].added.push(ticket);
        }
        self.take(answer.dispatcher)
    }

    /// A turn, and whether it gave a ticket.
    fn turn(&mut self) -> Result<bool, String> {
        self.calls += 1;
        let waiting = self.history.waiting();
        let Turn { number, given, round, ticket, dispatcher } = both_turn(self.subject, self.dispatcher)?;
        equal("the turn's number, and whether it gives", (number, given), (0, !waiting.is_empty()))?;
        if given {
            self.given(&waiting, round, ticket)?;
        } else {
            equal("round and ticket where none waits", (round, ticket), (0, 0))?;
            let fresh = self.history.servings.is_empty();
            self.count(if fresh { "turn: none waits, none was served" } else { "turn: none waits, after servings" });
        }
        self.take(dispatcher)?;
        Ok(given)
    }

    /// "it gives out the oldest ticket of the waiting lane served longest ago"; "a lane with a ticket waits through at most seven
    /// turns of other lanes"
    fn given(&mut self, waiting: &[usize], round: u32, ticket: u32) -> Result<(), String> {
        let lane = self.history.lane_of(round).ok_or("a ticket of no lane")?;
        equal("a ticket of a waiting lane", waiting.contains(&lane), true)?;
        let others: Vec<usize> = waiting.iter().copied().filter(|&other| other != lane).collect();
        for &other in &others {
            let what = format!("round {round} goes before {}", self.history.lanes[other].round);
            equal(&what, self.history.goes_before(lane, other), true)?;
        }
        let Lane { added, given, .. } = &self.history.lanes[lane];
        equal("the oldest ticket", ticket, added[given.len()].into())?;
        self.count_turn(lane, &others);
        let History { lanes, servings, .. } = &mut self.history;
        lanes[lane].given.push(ticket as u16);
        lanes[lane].waited = 0;
        servings.push(lane);
        for other in others {
            lanes[other].waited += 1;
            equal("waits through at most seven turns", lanes[other].waited <= 7, true)?;
        }
        Ok(())
    }

    fn count_turn(&mut self, lane: usize, others: &[usize]) {
        let History { lanes, servings, .. } = &self.history;
        let Lane { round, given, waited, .. } = &lanes[lane];
        let last = |lane: usize| self.history.last_serving(lane);
        let never = |lane: usize| last(lane).is_none();
        let lower = |other: usize| lanes[other].round < *round;
        let without = (0..LANES).filter(|other| *other != lane && !others.contains(other)).collect::<Vec<_>>();
        let situations = [
            ("one lane waits", others.is_empty()),
            ("all eight wait", others.len() == 7),
            ("several never served wait", never(lane) && others.iter().any(|&other| never(other))),
            ("never served, before one that was", never(lane) && others.iter().any(|&other| !never(other))),
            (
                "never served, before one of a lower round that was",
                never(lane) && others.iter().any(|&other| !never(other) && lower(other)),
            ),
            (
                "served longest ago, before one of a lower round",
                !never(lane) && others.iter().any(|&other| lower(other)),
            ),
            (
                "served longest ago of those that wait, and not of all",
                without.iter().any(|&other| !never(other) && last(other) < last(lane)),
            ),
            ("served, and one never served has no ticket", !never(lane) && without.iter().any(|&other| never(other))),
            ("the lane served last again", servings.last() == Some(&lane)),
            ("the eighth lane served", never(lane) && (0..LANES).filter(|&other| never(other)).count() == 1),
            ("all eight have been served", (0..LANES).all(|other| !never(other))),
            ("before a full lane", others.iter().any(|&other| lanes[other].waiting() == PLACES)),
            ("of a full lane", lanes[lane].waiting() == PLACES),
            ("the last of its lane", lanes[lane].waiting() == 1),
            ("a ticket in a place used before", given.len() >= PLACES),
        ];
        let reached = situations.into_iter().filter(|(_, reached)| *reached).map(|(what, _)| format!("turn: {what}"));
        for what in reached.chain([self::waited(*waited)]).collect::<Vec<_>>() {
            self.count(&what);
        }
    }

    /// The dispatcher that a call gave back: what the list comes to, and possible.
    fn take(&mut self, dispatcher: Dispatcher) -> Result<(), String> {
        equal("the dispatcher by the list of calls", dispatcher, self.history.dispatcher())?;
        equal("a possible dispatcher", is_possible(&dispatcher), true)?;
        self.dispatcher = dispatcher;
        Ok(())
    }
}

/// Eight rounds, now and then too large or equal.
pub fn noise_open(subject: &dyn Dispatching, rng: &mut Rng) -> Result<u32, String> {
    Ok(both_open(subject, [0; LANES].map(|_: u32| noise::number(1024, rng)))?.number)
}

/// Any numbers, or a possible dispatcher with one of its numbers changed at times.
fn noise_dispatcher(rng: &mut Rng) -> Dispatcher {
    let mut dispatcher = any_possible(rng);
    let place = rng.below(LANES);
    match rng.below(12) {
        0 => dispatcher.rounds[place] = noise::number(1024, rng),
        1 => dispatcher.counts[place] = noise::number(17, rng),
        2 => dispatcher.served = noise::number(9, rng),
        3 => dispatcher.order[place] = noise::number(8, rng),
        4 => {
            let any = [[0; LANES]; 4].map(|eight| eight.map(|_: u32| rng.u32()));
            let [rounds, counts, heads, order] = any;
            dispatcher = Dispatcher { rounds, counts, heads, served: rng.u32(), order, ..dispatcher };
        }
        _ => (),
    }
    dispatcher
}

/// A ticket to a dispatcher of random numbers, mostly to one of its rounds.
pub fn noise_add(subject: &dyn Dispatching, rng: &mut Rng) -> Result<u32, String> {
    let dispatcher = noise_dispatcher(rng);
    let round = if rng.one_in(4) { noise::number(1024, rng) } else { *rng.pick(&dispatcher.rounds) };
    Ok(both_add(subject, dispatcher, round, rng.u32() as u16)?.number)
}

pub fn noise_turn(subject: &dyn Dispatching, rng: &mut Rng) -> Result<u32, String> {
    Ok(both_turn(subject, noise_dispatcher(rng))?.number)
}
