//! Records: states of a unit, possible ones that no list of calls reaches, and impossible ones, each cause alone.

use super::{both, Call, Case, Conflict, Subject};
use crate::air;
use crate::compare::{count, covered, equal, long, noise, run, sized, Tally};
use crate::fleet::{layouts, rounds, some_layouts, some_seats, Fleet};
use crate::reference::impossible::causes;
use crate::reference::layout::{self, SIGNATURE, VALUE};
use crate::reference::messages::{Value, EVIDENCE, FULL, NOTICE, OLD_EVIDENCE, SUBMIT};
use crate::reference::quorum;
use crate::reference::record::{First, Notices, Own, Record};
use crate::reference::seats::mask;
use crate::rng::{seed, Rng};

/// An opened unit.
pub fn opened(fleet: Fleet, seat: u32) -> Record {
    Record { n: fleet.n, seat, round: fleet.round, ..Record::default() }
}

/// A unit that has submitted, and confirmed where one signature is enough.
pub fn submitted(fleet: Fleet, seat: u32, value: Value) -> Record {
    let own = Own { submitted: true, value, collected: mask(&[seat]) };
    match fleet.k() {
        1 => confirmed(fleet, seat, value, &[seat]),
        _ => Record { own, ..opened(fleet, seat) },
    }
}

/// A unit that has confirmed and holds its own certificate.
pub fn confirmed(fleet: Fleet, seat: u32, value: Value, seats: &[u32]) -> Record {
    Record {
        own: Own { submitted: true, value, collected: mask(seats) },
        confirmed: true,
        notices: Notices { heard: 1, value },
        first: First { value, seats: mask(seats) },
        ..opened(fleet, seat)
    }
}

/// k seats, the given one among them.
pub fn seats_with(fleet: Fleet, seat: u32, rng: &mut Rng) -> Vec<u32> {
    let mut seats = some_seats(fleet.n, fleet.k(), rng);
    if !seats.contains(&seat) {
        let place = rng.below(seats.len());
        seats[place] = seat;
        seats.sort();
    }
    seats
}

/// Impossible records of a fleet, each with the cause that makes it so; the strangers need n below 32, and more than k
/// seats need t0 above 0.
pub fn impossible(fleet: Fleet, rng: &mut Rng) -> Vec<(&'static str, Record)> {
    let Fleet { n, .. } = fleet;
    let k = fleet.k();
    let seat = rng.below(n as usize) as u32;
    let value = *rng.pick(&layouts()[1..]);
    let quorum = seats_with(fleet, seat, rng);
    let others: Vec<u32> = quorum.iter().copied().filter(|&other| other != seat).collect();
    let opened = opened(fleet, seat);
    let submitted = submitted(fleet, seat, value);
    let confirmed = confirmed(fleet, seat, value, &quorum);
    let held = Record { own: Own::default(), confirmed: false, ..confirmed };
    let with_collected = |record: Record, collected: u32| Record { own: Own { collected, ..record.own }, ..record };
    let with_first = |record: Record, seats: u32| Record { first: First { seats, ..record.first }, ..record };
    let mut list = vec![
        ("n is out of range", Record { n: 0, ..opened }),
        ("n is out of range", Record { n: 33, ..opened }),
        ("n is out of range", Record { n: 256 + n, ..opened }),
        ("n is out of range", Record { n: u32::MAX, ..confirmed }),
        ("the seat is out of range", Record { seat: n, ..opened }),
        ("the seat is out of range", Record { seat: 32, ..opened }),
        ("the seat is out of range", Record { seat: 256 + seat, ..held }),
        ("the seat is out of range", Record { seat: u32::MAX, ..opened }),
        ("the round is out of range", Record { round: 1024, ..opened }),
        ("the round is out of range", Record { round: 65_536 | fleet.round, ..confirmed }),
        ("the round is out of range", Record { round: u32::MAX, ..opened }),
        ("confirmed without a first certificate", Record { first: First::default(), ..confirmed }),
        ("guilty seats without a first certificate", Record { guilty: mask(&[seat]), ..opened }),
        ("FULL was sent unconfirmed", Record { sent: true, ..opened }),
        ("FULL was sent unconfirmed", Record { sent: true, ..held }),
        ("the own value is not zero and unset", Record { own: Own { value, ..Own::default() }, ..held }),
        ("the heard value is not zero and unset", Record { notices: Notices { heard: 0, value }, ..confirmed }),
        ("the first certificate's value is not zero and unset", Record { first: First { value, seats: 0 }, ..opened }),
        ("notices heard are no case", Record { notices: Notices { heard: 3, value }, ..confirmed }),
        ("notices heard are no case", Record { notices: Notices { heard: 256, value }, ..opened }),
        ("notices heard are no case", Record { notices: Notices { heard: u32::MAX, value }, ..held }),
        ("seats are kept after a submission", Record { kept: mask(&[seat]), ..submitted }),
        ("seats are kept after a submission", Record { kept: mask(&fleet.seats()), ..submitted }),
        ("seats are kept after a submission", Record { kept: mask(&quorum[..1]), ..confirmed }),
    ];
    if k > 1 {
        list.extend([
            ("seats are collected without a submission", with_collected(opened, mask(&[seat]))),
            ("collected seats lack the own", with_collected(submitted, 0)),
            ("collected seats lack the own", with_collected(submitted, mask(&others))),
            ("k seats are collected without confirmed", with_collected(submitted, mask(&quorum))),
            ("confirmed without k seats collected", with_collected(confirmed, mask(&[seat]))),
            ("the first certificate has neither 0 nor k seats", with_first(held, mask(&quorum[1..]))),
            ("the first certificate has neither 0 nor k seats", with_first(held, mask(&quorum[..1]))),
        ]);
    }
    if k < n {
        let missing = fleet.seats().into_iter().find(|seat| !quorum.contains(seat)).expect("one outside k");
        let more = mask(&quorum) | mask(&[missing]);
        list.extend([
            ("more than k seats are collected", with_collected(submitted, more)),
            ("the first certificate has neither 0 nor k seats", with_first(held, more)),
            ("a guilty seat is outside the first certificate", Record { guilty: mask(&[missing]), ..confirmed }),
            ("a guilty seat is outside the first certificate", Record { guilty: more, ..held }),
        ]);
    }
    if n < 32 {
        let stranger = mask(&[n]);
        list.push(("the first certificate names a stranger", with_first(held, mask(&quorum[1..]) | stranger)));
        list.push(("the first certificate names a stranger", with_first(held, mask(&quorum[1..]) | 1 << 31)));
        list.push(("kept seats name a stranger", Record { kept: stranger, ..opened }));
        list.push(("kept seats name a stranger", Record { kept: mask(&quorum) | 1 << 31, ..held }));
    }
    if n < 32 && k > 2 {
        list.push(("collected seats name a stranger", with_collected(submitted, mask(&[seat, n]))));
        list.push(("collected seats name a stranger", with_collected(submitted, mask(&[seat, 31]))));
    }
    list
}

/// Records with a guilty seat at or above n, outside the first certificate or a stranger in it too.
pub fn guilty_strangers(fleet: Fleet, rng: &mut Rng) -> Vec<Record> {
    if fleet.n == 32 {
        return Vec::new();
    }
    let value = *rng.pick(&layouts());
    let quorum = seats_with(fleet, 0, rng);
    let outside = Record { guilty: mask(&[fleet.n]), ..confirmed(fleet, 0, value, &quorum) };
    let seats = mask(&quorum[1..]) | mask(&[fleet.n]);
    vec![outside, Record { first: First { value, seats }, ..outside }]
}

/// A record made impossible by one of the causes, for use in a list of calls.
pub fn any_impossible(fleet: Fleet, rng: &mut Rng) -> Record {
    let list = impossible(fleet, rng);
    rng.pick(&list).1
}

/// A possible record, whatever calls would have led to it: the values, the masks and the flags are chosen freely where the
/// documents' lists leave them free.
pub fn any_possible(fleet: Fleet, values: &[Value], rng: &mut Rng) -> Record {
    let Fleet { n, .. } = fleet;
    let k = fleet.k();
    let seat = rng.below(n as usize) as u32;
    let mut record = opened(fleet, seat);
    if rng.below(4) > 0 {
        // About every other unit stands just before its last signature or after it.
        let mut collected = seats_with(fleet, seat, rng);
        let fewer = [0, 0, 1, 1, rng.below(k as usize)];
        for _ in 0..*rng.pick(&fewer) {
            let others: Vec<usize> = (0..collected.len()).filter(|&place| collected[place] != seat).collect();
            if !others.is_empty() {
                collected.remove(*rng.pick(&others));
            }
        }
        record.own = Own { submitted: true, value: *rng.pick(values), collected: mask(&collected) };
        record.confirmed = collected.len() as u32 == k;
        record.sent = record.confirmed && rng.one_in(3);
    } else {
        record.kept = mask(&some_seats(n, rng.below(n as usize + 1) as u32, rng));
    }
    if record.confirmed || rng.one_in(2) {
        let seats = some_seats(n, k, rng);
        record.first = First { value: *rng.pick(values), seats: mask(&seats) };
        if rng.one_in(4) {
            let guilty = some_seats(k, 1 + rng.below(k as usize) as u32, rng);
            record.guilty = guilty.into_iter().map(|place| mask(&[seats[place as usize]])).sum();
        }
    }
    let heard = rng.below(3) as u32;
    if heard > 0 {
        record.notices = Notices { heard, value: *rng.pick(values) };
    }
    record
}

/// A call that fits a possible record.
pub fn any_call(fleet: Fleet, record: &Record, values: &[Value], rng: &mut Rng) -> Call {
    let seat = rng.below(fleet.n as usize) as u32;
    let value = if rng.one_in(2) { record.own.value } else { *rng.pick(values) };
    let hand = rng.below(2) as u32;
    let message = match rng.below(if record.own.submitted { 6 } else { 8 }) {
        0 | 1 => fleet.submit(seat, &value, hand).write(),
        2 => fleet.notice(seat, &value).write(),
        3..=5 => fleet.full(seat, &value, &some_seats(fleet.n, fleet.k(), rng), hand).write(),
        _ => {
            let seat = record.seat.min(fleet.n - 1);
            return Call::Submit { value: value.to_vec(), signature: fleet.signature(seat, &value, hand) };
        }
    };
    Call::Step { message }
}

/// Keys, store and out for a call. The store has any signatures, and for each seat one of the values as the kept one's.
fn case(fleet: Fleet, record: Record, values: &[Value], call: Call, rng: &mut Rng) -> Case {
    let spare = *rng.pick(&[0, 0, 1, 50]);
    let mut store = rng.bytes(layout::store(fleet.n) + spare);
    for seat in fleet.seats() {
        store[layout::kept_value(fleet.n, seat)].copy_from_slice(rng.pick(values).as_slice());
    }
    Case { record, keys: fleet.key_table(), store, call, out: rng.bytes(layout::out(fleet.n) + spare) }
}

/// A submit with random bytes.
pub fn noise_submit(subject: Subject, rng: &mut Rng) -> Result<u32, String> {
    let case = noise_case(rng, |record, rng| {
        let mut signature = noise::bytes(SIGNATURE, rng);
        if rng.one_in(50) {
            noise::set(&mut signature, 0, &record.round.to_be_bytes());
        }
        Call::Submit { value: noise::bytes(VALUE, rng), signature }
    });
    Ok(both(subject, &case, rng)?.number)
}

/// A step with random bytes: a message of some command in its right length, or of any.
pub fn noise_step(subject: Subject, rng: &mut Rng) -> Result<u32, String> {
    let case = noise_case(rng, |record, rng| {
        let k = quorum::k(record.n.clamp(1, 3));
        let (command, length) = *rng.pick(&[
            (SUBMIT, layout::SUBMIT),
            (NOTICE, layout::NOTICE),
            (FULL, layout::full(k)),
            (EVIDENCE, layout::evidence(1)),
            (OLD_EVIDENCE, layout::old_evidence(1)),
        ]);
        let mut message = noise::bytes(length, rng);
        if !rng.one_in(16) {
            noise::head(&mut message, command, record.round, rng);
        }
        if command == FULL && !rng.one_in(16) {
            noise::certificate(&mut message, k, rng);
        }
        Call::Step { message }
    });
    Ok(both(subject, &case, rng)?.number)
}

/// Random keys, store and out, mostly of the right lengths, and a record that is possible, nearly possible or random.
fn noise_case(rng: &mut Rng, call: impl Fn(&Record, &mut Rng) -> Call) -> Case {
    let n = 1 + rng.below(3) as u32;
    let fleet = Fleet { n, round: noise::number(1024, rng) };
    let record = match rng.below(8) {
        0 => any_record(rng),
        1 => any_impossible(fleet, rng),
        2 | 3 => opened(fleet, rng.below(n as usize) as u32),
        _ => any_possible(fleet, &layouts(), rng),
    };
    let (store, out) = (noise::bytes(layout::store(n), rng), noise::bytes(layout::out(n), rng));
    Case { record, keys: noise::keys(n, rng), store, call: call(&record, rng), out }
}

/// Any bytes, but for the flags, which are 0 or 1.
pub fn any_record(rng: &mut Rng) -> Record {
    let mut value = || rng.bytes(32).try_into().expect("32 bytes");
    let values: [Value; 3] = [value(), value(), value()];
    Record {
        n: noise::number(33, rng),
        seat: noise::number(32, rng),
        round: noise::number(1024, rng),
        own: Own { submitted: rng.one_in(2), value: values[0], collected: rng.u32() },
        confirmed: rng.one_in(2),
        notices: Notices { heard: noise::number(3, rng), value: values[1] },
        first: First { value: values[2], seats: rng.u32() },
        sent: rng.one_in(2),
        guilty: rng.u32(),
        kept: rng.u32(),
    }
}

/// Impossible records are refused by 4, and possible ones never are.
pub fn battery(subject: Subject) {
    let mut rng = Rng::new(seed(), "records");
    let (mut cases, mut alone) = (Vec::new(), Vec::new());
    let values = layouts();
    let sizes: Vec<u32> = if long() { (1..=32).collect() } else { vec![1, 2, 3, 4, 5, 6, 7, 10, 31, 32] };
    for n in sizes {
        let fleet = Fleet { n, round: *rng.pick(&rounds()) };
        alone.extend((0..4).map(|_| guilty_alone(fleet, &values, &mut rng)));
        for _ in 0..4 {
            let case = guilty_apart(fleet, &values, &mut rng);
            assert_eq!(causes(&case.record), [""; 0], "n = {n}: {:?}", case.record);
            cases.push(("guilty seats apart".to_string(), false, case));
        }
        for (cause, record) in impossible(fleet, &mut rng) {
            assert_eq!(causes(&record), [cause], "n = {n}: {record:?}");
            let call = any_call(fleet, &record, &values, &mut rng);
            cases.push((cause.to_string(), true, case(fleet, record, &values, call, &mut rng)));
        }
        for record in guilty_strangers(fleet, &mut rng) {
            assert_eq!(causes(&record).len(), 2, "n = {n}: {record:?}");
            let call = any_call(fleet, &record, &values, &mut rng);
            cases.push(("guilty strangers".to_string(), true, case(fleet, record, &values, call, &mut rng)));
        }
        let (count, values) = match (n <= 7, long()) {
            (true, _) => (sized(300), &values[..]),
            (false, true) => (100, &values[..3]),
            (false, false) => (10, &values[..3]),
        };
        for _ in 0..count {
            let record = any_possible(fleet, values, &mut rng);
            assert_eq!(causes(&record), [""; 0], "n = {n}: {record:?}");
            let call = any_call(fleet, &record, values, &mut rng);
            cases.push(("a possible record".to_string(), false, case(fleet, record, values, call, &mut rng)));
        }
    }
    let tallies = run("records", &cases, |(what, impossible, case), rng| {
        let mut told = || {
            let after = both(subject, case, rng)?;
            equal("refused by 4", after.number == 4, *impossible)?;
            let mut tally = Tally::new();
            if let Some(Conflict { shared, found }) = after.conflict.filter(|_| case.record.guilty != 0) {
                let what = match found {
                    0 => "no seat added",
                    _ if found == shared => "seats added, none of those shared guilty before",
                    _ => "seats added, some of those shared guilty before",
                };
                count(&mut tally, what);
            }
            Ok(tally)
        };
        told().map_err(|difference: String| format!("{what}, {:?}: {difference}", case.record))
    });
    let conflicts = [
        "no seat added",
        "seats added, none of those shared guilty before",
        "seats added, some of those shared guilty before",
    ];
    covered("records", tallies, conflicts.map(String::from));
    run("guilty seats alone", &alone, |case, rng| {
        let after = both(subject, case, rng)?;
        equal("the seats newly found", after.conflict.map(|conflict| conflict.found), Some(0))?;
        let messages = air::messages(case.record.n, &after.written);
        let commands: Vec<u8> = messages.iter().map(|message| message[0]).collect();
        equal("the commands written", commands, vec![FULL])
    });
}

/// A unit that has confirmed and heard no value but its own, and a certificate of another value that it shares guilty seats alone
/// with. It counts as a notice, so that FULL is written, and EVIDENCE isn't.
fn guilty_alone(fleet: Fleet, values: &[Value], rng: &mut Rng) -> Case {
    let [value, other] = some_layouts(rng);
    let seat = rng.below(fleet.n as usize) as u32;
    let quorum = seats_with(fleet, seat, rng);
    let full = fleet.full(seat, &other, &some_seats(fleet.n, fleet.k(), rng), 0);
    let mut record = confirmed(fleet, seat, value, &quorum);
    let more = if rng.one_in(2) { mask(&[*rng.pick(&quorum)]) } else { 0 };
    record.guilty = mask(&quorum) & mask(&full.seats()) | more;
    if rng.one_in(2) {
        record.notices = Notices::default();
    }
    case(fleet, record, values, Call::Step { message: full.write() }, rng)
}

/// The same with the other seats of the first certificate guilty instead, which the two don't share. No list comes to such a
/// record (culprits.rs). Where every seat is shared, none is guilty.
fn guilty_apart(fleet: Fleet, values: &[Value], rng: &mut Rng) -> Case {
    let mut apart = guilty_alone(fleet, values, rng);
    apart.record.guilty ^= apart.record.first.seats;
    apart
}
