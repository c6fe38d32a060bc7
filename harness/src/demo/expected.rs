//! Promises to a fleet for a round in which every message arrives in the end, compared with the round as it was played.

use super::round::{Certificate, Event, Given, Pack, Played};
use crate::air;
use crate::fleet::fewest_to_split;
use crate::reference::layout::{SIGNED, VALUE_AT};
use crate::reference::quorum::k;
use crate::reference::record::{Record, Verdict};
use crate::reference::seats::{mask, size};
use crate::words::boats_of;

/// The promises that the round broke.
pub fn faults(played: &Played) -> Vec<String> {
    let mut faults: Vec<String> =
        played.stages().into_iter().flat_map(|stage| &stage.events).filter_map(refusal).collect();
    let mut expect = |holds: bool, fault: String| {
        if !holds {
            faults.push(fault);
        }
    };
    for seat in played.honest() {
        expect(confirms_in_time(played, seat), format!("boat {seat} has kept enough and doesn't confirm"));
    }
    for event in &played.again.events {
        let silent = event.answer.as_ref().is_some_and(|answer| answer.written.is_empty());
        expect(silent, format!("boat {} answers a message that it has heard before", event.seat));
    }
    for side in &played.sides {
        let (name, signers) = (side.layout.name, size(side.signers()));
        let due = signers >= k(played.n);
        for &seat in &side.honest {
            let confirms = if due { "doesn't confirm" } else { "confirms" };
            let fault = format!("boat {seat} {confirms} {name}, which {signers} boats have signed");
            expect(played.late.record(seat).confirmed == due, fault);
        }
    }
    for pack in &played.evidence {
        expect(names_new(played, pack), refused(pack));
    }
    for seat in played.honest() {
        let [names, shows] = [played.named(seat), shown(played, seat)].map(boats_of);
        expect(names == shows, format!("boat {seat} names {names}, and its certificates show {shows}"));
    }
    if let Err(fault) = &played.joined {
        expect(false, format!("at the harbour office, {fault}"));
    }
    if is_split(&played.late.records) {
        for seat in played.honest() {
            expect(holds(played, seat), format!("boat {seat} holds no evidence that the check accepts"));
        }
    } else {
        expect(played.evidence.is_empty(), "there is evidence, and nobody has confirmed another layout".into());
    }
    faults.into_iter().map(|fault| format!("round {}: {fault}", played.number)).collect()
}

/// Whether a boat that was given the good SUBMITs of k - 1 others over its layout before its own submit confirmed in that very
/// call. Each boat sends it one SUBMIT.
fn confirms_in_time(played: &Played, seat: u32) -> bool {
    let submits = &played.submits;
    let own = submits.of(seat).find(|event| matches!(event.given, Given::Own)).and_then(|event| event.answer.as_ref());
    let Some(own) = own else { return false };
    let before = submits.of(seat).take_while(|event| !matches!(event.given, Given::Own));
    let good = before.filter(|event| event.answer.is_some()).filter_map(Event::message).filter(|sent| !sent.forged);
    let same = good.filter(|sent| sent.bytes[VALUE_AT..SIGNED] == own.after.own.value);
    own.after.confirmed || (same.count() as u32) < k(played.n) - 1
}

/// Whether two honest boats have confirmed different layouts.
pub fn is_split(records: &[Record]) -> bool {
    let mut values: Vec<_> = records.iter().filter(|record| record.confirmed).map(|record| record.own.value).collect();
    values.dedup();
    values.len() > 1
}

/// Whether a boat has sent evidence that the check accepts, and whose first names as many double signers as two sets of k share.
pub fn holds(played: &Played, seat: u32) -> bool {
    let enough = |first: &Pack| size(first.verdict.mask) >= fewest_to_split(played.n) && names_new(played, first);
    played.packs(seat).next().is_some_and(enough)
}

/// Whether the check accepts an EVIDENCE, and it names those whom the unit found in that call, one or more and none of them honest.
fn names_new(played: &Played, pack: &Pack) -> bool {
    let Verdict { number, mask: named } = pack.verdict;
    number == 0 && named == pack.found() && named != 0 && named & mask(&played.honest()) == 0
}

/// The double signers whom a boat can show: they stand in the first certificate that it held, and in one of another layout that it
/// has heard or confirmed by.
fn shown(played: &Played, seat: u32) -> u32 {
    let record = played.late.record(seat);
    let heard = played.stages().into_iter().flat_map(|stage| stage.of(seat)).filter_map(Event::certificate);
    let own = record.confirmed.then_some(Certificate::own(record));
    let others = heard.chain(own).filter(|other| other.value != record.first.value);
    others.fold(0, |shown, other| shown | other.seats & record.first.seats)
}

fn refused(pack: &Pack) -> String {
    let (boat, found, Verdict { number, mask }) = (pack.sent.from, boats_of(pack.found()), pack.verdict);
    format!("boat {boat} has found {found}, and of its evidence the check says number {number}, mask {mask:#x}")
}

/// A refusal that isn't due, or one that is due and doesn't come.
fn refusal(event: &Event) -> Option<String> {
    let answer = event.answer.as_ref()?;
    let due = match &event.given {
        Given::Message(sent) if sent.forged => 14,
        _ => 0,
    };
    let what = event
        .message()
        .map_or("its own layout".to_string(), |sent| format!("{} of boat {}", air::name(&sent.bytes), sent.from));
    (answer.number != due).then(|| format!("boat {} answers {} to {what}, and not {due}", event.seat, answer.number))
}
