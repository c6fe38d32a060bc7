//! The stack that the calls need against docs/HOST.md's figures.
#![cfg(feature = "zolbine")]

use std::cell::RefCell;
use std::collections::BTreeMap;

use harness::compare::messages::PACKS;
use harness::compare::progress;
use harness::confirmer::{Dispatching, Engine, EvidenceCheck, Framing, Joining, LentStep, Making, Notes};
use harness::fleet::{layouts, Fleet};
use harness::library::Library;
use harness::reference::calls::{MAX_LEAF, MAX_MESSAGE, TREE};
use harness::reference::layout::{
    self, ENTRY_SEAT_AT, EVIDENCE_ENTRIES_AT, EVIDENCE_ENTRY, FULL_ENTRIES_AT, FULL_ENTRY, NOTE_N_AT, ROUND_AT,
    SEAT_AT, SIGNATURE, SIGNED,
};
use harness::reference::lms::{IDENTIFIER, N, PUBLIC_KEY};
use harness::reference::messages::{Evidence, Value};
use harness::reference::record::{Dispatcher, Eight, Record, LANES, PLACES};
use harness::stack::used;
use harness::subject::Calls;

/// In KiB, as in docs/HOST.md: for any call, and for one that comes to no signature.
const STATED: usize = 40;
const UNSIGNED: usize = 4;

/// The answers that a call gives before it comes to a signature, and the stack stated for them. Each is measured; any other answer
/// may take the stack stated for a call. Of two certificates or packs the second is looked at after the first one's signatures.
const BEFORE_SIGNATURES: [(&str, &[u32], usize); 21] = [
    ("version", &[0], UNSIGNED),
    ("message_length", &[0], UNSIGNED),
    ("check_signature", &[5, 9], UNSIGNED),
    ("make_key", &[7, 16], STATED),
    ("sign", &[3, 7, 9, 16], STATED),
    ("check_evidence", &[1, 3, 5, 9, 10, 11, 12], UNSIGNED),
    ("make_evidence", &[1, 3, 5, 7, 9, 10, 11, 12], UNSIGNED),
    ("join_evidence", &[1, 3, 5, 7, 9, 10, 11, 12], UNSIGNED),
    ("open", &[0, 1, 2, 3, 5], UNSIGNED),
    ("submit", &[4, 5, 6, 7, 8, 9], UNSIGNED),
    ("step, SUBMIT", &[4, 5, 6, 7, 9, 10, 11], UNSIGNED),
    ("step, NOTICE", &[0, 4, 5, 6, 7, 9, 10, 11], UNSIGNED),
    ("step, FULL", &[4, 5, 6, 7, 9, 10, 11, 12], UNSIGNED),
    ("step_lent, SUBMIT", &[4, 5, 6, 7, 9, 10, 11], UNSIGNED),
    ("step_lent, NOTICE", &[0, 4, 5, 6, 7, 9, 10, 11], UNSIGNED),
    ("step_lent, FULL", &[4, 5, 6, 7, 9, 10, 11, 12], UNSIGNED),
    ("write_note", &[0, 4, 7], UNSIGNED),
    ("read_note", &[0, 4, 17], UNSIGNED),
    ("open_dispatcher", &[0, 3, 18], UNSIGNED),
    ("add_ticket", &[0, 3, 4, 18, 19], UNSIGNED),
    ("take_turn", &[0, 4], UNSIGNED),
];

/// The greatest depth of each call, by the number that it answered.
#[derive(Default)]
struct Depths(RefCell<BTreeMap<(String, u32), usize>>);

impl Depths {
    /// The work answers with its number first.
    fn of<R>(&self, call: &str, work: impl FnOnce() -> (u32, R)) -> (u32, R) {
        let mut result = None;
        let depth = used(|| result = Some(work()));
        let answer = result.expect("the work was done");
        let mut depths = self.0.borrow_mut();
        let deepest = depths.entry((call.to_string(), answer.0)).or_default();
        *deepest = depth.max(*deepest);
        answer
    }

    fn refused(&self, call: &str, number: u32, work: impl FnOnce() -> u32) {
        assert_eq!(self.of(call, || (work(), ())).0, number, "{call}");
    }
}

#[test]
fn the_stated_stack_is_enough() {
    let depths = Depths::default();
    depths.of("version", || (0, Library.version()));
    signatures(&depths);
    dispatchers(&depths);
    for n in [1, 4, 32] {
        let fleet = Fleet { n, round: 5 };
        message_lengths(&depths, fleet);
        round(&depths, fleet);
        slow(&depths, fleet);
        culprits(&depths, fleet);
        over_two(&depths, fleet);
        refused_arguments(&depths, fleet);
        refused_steps(&depths, fleet);
    }
    let depths = depths.0.into_inner();
    progress(&format!("bytes of stack: {depths:?}"));
    for (call, numbers, _) in BEFORE_SIGNATURES {
        for &number in numbers {
            assert!(depths.contains_key(&(call.to_string(), number)), "{call} was never answered {number}");
        }
    }
    for ((call, number), depth) in &depths {
        let mut rows = BEFORE_SIGNATURES.iter().filter(|(name, numbers, _)| name == call && numbers.contains(number));
        let stated = rows.next().map_or(STATED, |(_, _, stated)| *stated);
        assert!(
            *depth <= 1024 * stated,
            "{call} that answers {number} takes {depth} bytes of stack, and docs/HOST.md states {stated} KiB"
        );
    }
    for stated in
        [format!("Each call gets by with {STATED} KiB of stack"), format!("no signature is checked {UNSIGNED} KiB do")]
    {
        assert!(include_str!("../../docs/HOST.md").contains(&stated), "docs/HOST.md hasn't: {stated}");
    }
}

/// The signature calls, right and refused.
fn signatures(depths: &Depths) {
    let (seed, identifier, randomizer) = ([1; N], [2; IDENTIFIER], [4; N]);
    let (mut tree, mut public, mut signature) = (vec![0; TREE], [0; PUBLIC_KEY], [0; SIGNATURE]);
    depths.refused("make_key", 0, || Library.make_key(&seed, &identifier, &mut tree, &mut public).number);
    depths.refused("make_key", 7, || Library.make_key(&seed, &identifier, &mut tree, &mut [0; PUBLIC_KEY - 1]).number);
    depths.refused("make_key", 16, || Library.make_key(&seed[1..], &identifier, &mut tree, &mut public).number);
    for length in [0, SIGNED, MAX_MESSAGE] {
        let message = vec![3; length];
        depths.refused("sign", 0, || {
            Library.sign(5, &seed, &identifier, &randomizer, &tree, &message, &mut signature).number
        });
        depths.refused("check_signature", 0, || Library.check_signature(&public, &message, &signature));
        depths.refused("check_signature", 14, || Library.check_signature(&public, &message, &signature[1..]));
        depths.refused("check_signature", 5, || Library.check_signature(&public[1..], &message, &signature));
    }
    let long = vec![3; MAX_MESSAGE + 1];
    depths.refused("check_signature", 9, || Library.check_signature(&public, &long, &signature));
    let short = &mut [0; SIGNATURE - 1];
    let out = &mut signature;
    depths.refused("sign", 3, || Library.sign(MAX_LEAF + 1, &seed, &identifier, &randomizer, &tree, &[], out).number);
    depths.refused("sign", 7, || Library.sign(5, &seed, &identifier, &randomizer, &tree, &[], short).number);
    depths.refused("sign", 9, || Library.sign(5, &seed, &identifier, &randomizer, &tree, &long, out).number);
    depths.refused("sign", 16, || Library.sign(5, &seed, &identifier, &randomizer, &tree[1..], &[], out).number);
}

/// A dispatcher of eight lanes, filled and emptied, and the refusals.
fn dispatchers(depths: &Depths) {
    let right = [7, 3, 1023, 0, 9, 5, 8, 2];
    let open = |round: [u32; LANES]| {
        depths.of("open_dispatcher", || {
            let answer = Library.open_dispatcher(Eight { round });
            (answer.number, answer.dispatcher)
        })
    };
    let add = |dispatcher: Dispatcher, round: u32| {
        depths.of("add_ticket", || {
            let answer = Library.add_ticket(dispatcher, round, 1);
            (answer.number, answer.dispatcher)
        })
    };
    let turn = |dispatcher: Dispatcher| {
        depths.of("take_turn", || {
            let answer = Library.take_turn(dispatcher);
            (answer.number, (answer.given, answer.dispatcher))
        })
    };
    assert_eq!(open([7, 3, 1023, 0, 9, 5, 8, 1024]).0, 3);
    assert_eq!(open([7, 3, 1023, 0, 9, 5, 8, 8]).0, 18);
    let (number, mut dispatcher) = open(right);
    assert_eq!(number, 0);
    for round in [right; PLACES].concat() {
        let (number, after) = add(dispatcher, round);
        assert_eq!(number, 0);
        dispatcher = after;
    }
    let impossible = Dispatcher { served: 9, ..dispatcher };
    for (number, dispatcher, round) in
        [(3, dispatcher, 1024), (4, impossible, 7), (18, dispatcher, 1), (19, dispatcher, 2)]
    {
        assert_eq!(add(dispatcher, round).0, number);
    }
    assert_eq!(turn(impossible).0, 4);
    for given in (0..=LANES * PLACES).map(|taken| taken < LANES * PLACES) {
        let (number, (is_given, after)) = turn(dispatcher);
        assert_eq!((number, is_given), (0, given));
        dispatcher = after;
    }
}

/// Two layouts of a round.
fn two_layouts() -> [Value; 2] {
    [layouts()[0], layouts()[4]]
}

/// The seats that make up a certificate.
fn quorum(fleet: Fleet) -> Vec<u32> {
    (0..fleet.k()).collect()
}

/// The length of each message, and of bytes that are none. It refuses nothing.
fn message_lengths(depths: &Depths, fleet: Fleet) {
    let n = fleet.n;
    let [value, other] = two_layouts();
    let mut messages = vec![
        fleet.submit(0, &value, 0).write(),
        fleet.notice(0, &value).write(),
        fleet.full(0, &value, &quorum(fleet), 0).write(),
    ];
    messages.extend(PACKS.map(|pack| (pack.write)(&fleet.evidence((&value, 0), (&other, 0), &fleet.seats()))));
    let length = |n: u32, bytes: &[u8]| depths.of("message_length", || (0, Library.message_length(n, bytes))).1;
    for message in messages {
        assert_eq!(length(n, &message), message.len() as u32);
        assert_eq!((length(n, &message[1..]), length(33, &message)), (0, 0));
    }
    assert_eq!(length(n, &[]), 0);
}

struct Unit {
    record: Record,
    keys: Vec<u8>,
    store: Vec<u8>,
    out: Vec<u8>,
}

impl Unit {
    fn open(depths: &Depths, fleet: Fleet) -> Unit {
        let Fleet { n, round } = fleet;
        let keys = fleet.key_table();
        let (_, record) = depths.of("open", || {
            let opened = Library.open(n, 0, round, &keys);
            (opened.number, opened.record)
        });
        Unit { record, keys, store: vec![0; layout::store(n)], out: vec![0; layout::out(n)] }
    }

    fn submit(&mut self, depths: &Depths, value: &[u8], signature: &[u8]) -> (u32, u32) {
        let Unit { record, keys, store, out } = self;
        let (number, answer) = depths.of("submit", || {
            let answer = Library.submit(*record, keys, store, value, signature, out);
            (answer.number, answer)
        });
        self.record = answer.record;
        self.note(depths);
        (number, answer.written)
    }

    /// The record noted and read back, and the refusals of both.
    fn note(&self, depths: &Depths) {
        let mut out = [0; layout::NOTE];
        let (number, written) = depths.of("write_note", || {
            let answer = Library.write_note(self.record, &mut out);
            (answer.number, answer.written as usize)
        });
        if number != 0 {
            return assert_eq!((number, self.record.n), (4, 33));
        }
        assert_eq!(written, layout::NOTE);
        let read = |note: &[u8]| {
            depths.of("read_note", || {
                let answer = Library.read_note(note);
                (answer.number, answer.record)
            })
        };
        assert_eq!(read(&out), (0, self.record));
        assert_eq!(read(&out[1..]), (17, Record::default()));
        assert_eq!(read(&with(&out, NOTE_N_AT, 0)), (4, Record::default()));
        depths.refused("write_note", 7, || Library.write_note(self.record, &mut out[1..]).number);
    }

    /// A step by value, and on copies the one that is lent its record.
    fn hear(&mut self, depths: &Depths, kind: &str, message: &[u8]) -> (u32, u32) {
        let Unit { record, keys, store, out } = self;
        let (mut lent, mut lent_store) = (*record, store.clone());
        depths.of(&format!("step_lent, {kind}"), || {
            let answer = Library.step_lent(&mut lent, keys, &mut lent_store, message, out);
            (answer.number, ())
        });
        let (number, answer) = depths.of(&format!("step, {kind}"), || {
            let answer = Library.step(*record, keys, store, message, out);
            (answer.number, answer)
        });
        self.record = answer.record;
        self.note(depths);
        (number, answer.written)
    }
}

/// A unit that hears another certificate before it confirms, so that its last call writes all that a call can write; then its
/// evidence checked.
fn round(depths: &Depths, fleet: Fleet) {
    let Fleet { n, round } = fleet;
    let [value, other] = two_layouts();
    let quorum = quorum(fleet);
    let mut unit = Unit::open(depths, fleet);
    assert_eq!(unit.hear(depths, "NOTICE", &fleet.notice(0, &other).write()).0, 0);
    assert_eq!(unit.hear(depths, "FULL", &fleet.full(0, &other, &quorum, 0).write()).0, 0);
    let (mut number, mut written) = unit.submit(depths, &value, &fleet.signature(0, &value, 0));
    for &seat in &quorum[1..] {
        assert_eq!(number, 0);
        let wrong = fleet.submit(seat, &value, 0).write();
        assert_eq!(unit.hear(depths, "SUBMIT", &[&wrong[..wrong.len() - 1], &[0xff]].concat()).0, 14);
        (number, written) = unit.hear(depths, "SUBMIT", &fleet.submit(seat, &value, 0).write());
    }
    let first = written as usize - layout::evidence(fleet.k());
    let evidence = unit.out[first..written as usize].to_vec();
    let old = Evidence::read(&evidence, n).expect("evidence").write_old();
    for evidence in [evidence, old] {
        let (number, named) = depths.of("check_evidence", || {
            let verdict = Library.check_evidence(n, round, &unit.keys, &evidence);
            (verdict.number, verdict.mask)
        });
        assert_eq!((number, named.count_ones()), (0, fleet.k()));
    }
}

/// n, round, keys, two messages and `out`; answers the number.
type Call = fn(u32, u32, &[u8], &[u8], &[u8], &mut [u8]) -> u32;

/// A call over two messages in hand.
struct OverTwo {
    name: &'static str,
    call: Call,
    out: fn(u32) -> usize,
    messages: [Vec<u8>; 2],
    /// The place of the entries, and the length of one.
    entries: (usize, usize),
    /// The answer to the same message twice.
    same: u32,
}

/// The calls over two messages: right in both orders, the same message twice, and each operand wrong.
fn over_two(depths: &Depths, fleet: Fleet) {
    let Fleet { n, round } = fleet;
    let keys = fleet.key_table();
    let [value, other] = two_layouts();
    let pack = |seats: &[u32]| fleet.evidence((&value, 0), (&other, 0), seats).write();
    let making = OverTwo {
        name: "make_evidence",
        call: |n, round, keys, first, second, out| Library.make_evidence(n, round, keys, first, second, out).number,
        out: layout::evidence_out,
        messages: [value, other].map(|value| fleet.full(0, &value, &quorum(fleet), 0).write()),
        entries: (FULL_ENTRIES_AT, FULL_ENTRY),
        same: 15,
    };
    let joining = OverTwo {
        name: "join_evidence",
        call: |n, round, keys, first, second, out| Library.join_evidence(n, round, keys, first, second, out).number,
        out: layout::joined_out,
        messages: [pack(&quorum(fleet)), pack(&fleet.seats())],
        entries: (EVIDENCE_ENTRIES_AT, EVIDENCE_ENTRY),
        same: 0,
    };
    for OverTwo { name, call, out, messages: [one, another], entries, same } in [making, joining] {
        let mut out = vec![0; out(n)];
        for (number, n, round, keys) in wrong_arguments(fleet, &keys) {
            depths.refused(name, number, || call(n, round, keys, &one, &another, &mut out));
        }
        depths.refused(name, 7, || call(n, round, &keys, &one, &another, &mut out[1..]));
        for (number, wrong) in wrong_messages(fleet, &one, entries.0, entries.1) {
            depths.refused(name, number, || call(n, round, &keys, &wrong, &another, &mut out));
        }
        // The second one's refusals come after the first one's signatures.
        let after = format!("{name}, after signatures");
        let mut call = |number: u32, first: &[u8], second: &[u8]| {
            depths.refused(&after, number, || call(n, round, &keys, first, second, &mut out));
        };
        call(0, &one, &another);
        call(0, &another, &one);
        call(same, &one, &one);
        call(9, &one, &another[1..]);
        call(14, &with(&one, one.len() - 1, !one[one.len() - 1]), &another);
    }
}

/// A unit that has kept k - 1 SUBMITs and holds another certificate when it submits, so that this call writes all that a call can
/// write.
fn slow(depths: &Depths, fleet: Fleet) {
    let [value, other] = two_layouts();
    let quorum = quorum(fleet);
    let mut unit = Unit::open(depths, fleet);
    for &seat in &quorum[1..] {
        assert_eq!(unit.hear(depths, "SUBMIT", &fleet.submit(seat, &value, 0).write()), (0, 0));
    }
    assert_eq!(unit.hear(depths, "FULL", &fleet.full(0, &other, &quorum, 0).write()), (0, 0));
    let written = layout::out(fleet.n) as u32;
    assert_eq!(unit.submit(depths, &value, &fleet.signature(0, &value, 0)), (0, written));
}

/// A unit that hears three certificates: the second shows as few seats as can be, and the third the others, where there are any.
fn culprits(depths: &Depths, fleet: Fleet) {
    let [value, other] = two_layouts();
    let (k, outside) = (fleet.k(), fleet.n - fleet.k());
    let last: Vec<u32> = (outside..fleet.n).collect();
    let mut unit = Unit::open(depths, fleet);
    for (value, seats, named) in
        [(other, quorum(fleet), 0), (value, last, k - outside), (value, quorum(fleet), outside)]
    {
        let written = if named == 0 { 0 } else { layout::evidence(named) as u32 };
        assert_eq!(unit.hear(depths, "FULL", &fleet.full(0, &value, &seats, 0).write()), (0, written));
    }
}

/// Refusals of opening and of the evidence check, before they come to a signature.
fn refused_arguments(depths: &Depths, fleet: Fleet) {
    let Fleet { n, round } = fleet;
    let keys = fleet.key_table();
    let [value, other] = two_layouts();
    for (number, n, round, keys) in wrong_arguments(fleet, &keys) {
        depths.refused("open", number, || Library.open(n, 0, round, keys).number);
    }
    depths.refused("open", 2, || Library.open(n, n, round, &keys).number);

    for pack in PACKS {
        let evidence = (pack.write)(&fleet.evidence((&value, 0), (&other, 0), &quorum(fleet)));
        for (number, n, round, keys) in wrong_arguments(fleet, &keys) {
            depths.refused("check_evidence", number, || Library.check_evidence(n, round, keys, &evidence).number);
        }
        for (number, wrong) in wrong_messages(fleet, &evidence, pack.entries_at, pack.entry) {
            depths.refused("check_evidence", number, || Library.check_evidence(n, round, &keys, &wrong).number);
        }
    }
}

/// n, round or key table wrong, with the refusal.
fn wrong_arguments(Fleet { n, round }: Fleet, keys: &[u8]) -> [(u32, u32, u32, &[u8]); 3] {
    [(1, 33, round, keys), (3, n, MAX_LEAF + 1, keys), (5, n, round, &keys[1..])]
}

/// A message with entries, cut short, of another round, with a stranger and, where it has two entries, with a seat twice.
fn wrong_messages(fleet: Fleet, right: &[u8], entries: usize, entry: usize) -> Vec<(u32, Vec<u8>)> {
    let last = right.len() - entry + ENTRY_SEAT_AT;
    let mut wrong = vec![
        (9, right[..right.len() - 1].to_vec()),
        (10, with(right, ROUND_AT, !right[ROUND_AT])),
        (11, with(right, last, fleet.n as u8)),
    ];
    if right.len() - entries > entry {
        wrong.push((12, with(right, last, right[last - entry])));
    }
    wrong
}

fn with(message: &[u8], at: usize, byte: u8) -> Vec<u8> {
    let mut changed = message.to_vec();
    changed[at] = byte;
    changed
}

/// Refusals of submit and step before they come to a signature.
fn refused_steps(depths: &Depths, fleet: Fleet) {
    let n = fleet.n;
    let [value, _] = two_layouts();
    let signature = fleet.signature(0, &value, 0);
    let full = fleet.full(0, &value, &quorum(fleet), 0).write();
    let headed = |right: Vec<u8>| {
        vec![
            (9, right[1..].to_vec()),
            (10, with(&right, ROUND_AT, !right[ROUND_AT])),
            (11, with(&right, SEAT_AT, n as u8)),
        ]
    };
    let submit = fleet.submit(0, &value, 0).write();
    let notice = fleet.notice(0, &value).write();
    let kinds = [
        ("SUBMIT", submit.clone(), headed(submit)),
        ("NOTICE", notice.clone(), headed(notice)),
        ("FULL", full.clone(), wrong_messages(fleet, &full, FULL_ENTRIES_AT, FULL_ENTRY)),
    ];
    type Spoil = fn(&mut Unit);
    let wrong_units: [(u32, Spoil); 4] = [
        (4, |unit| unit.record.n = 33),
        (5, |unit| unit.keys.truncate(unit.keys.len() - 1)),
        (6, |unit| unit.store.truncate(unit.store.len() - 1)),
        (7, |unit| unit.out.truncate(unit.out.len() - 1)),
    ];
    for (number, spoil) in wrong_units {
        let mut unit = Unit::open(depths, fleet);
        spoil(&mut unit);
        assert_eq!(unit.submit(depths, &value, &signature).0, number);
        for (kind, right, _) in &kinds {
            assert_eq!(unit.hear(depths, kind, right).0, number, "{kind}");
        }
    }
    let mut unit = Unit::open(depths, fleet);
    for (kind, _, wrong) in &kinds {
        for (number, message) in wrong {
            assert_eq!(unit.hear(depths, kind, message).0, *number, "{kind}");
        }
    }
    assert_eq!(unit.submit(depths, &value[1..], &signature).0, 9);
    assert_eq!(unit.submit(depths, &value, &signature[1..]).0, 9);
    assert_eq!(unit.submit(depths, &value, &signature).0, 0);
    assert_eq!(unit.submit(depths, &value, &signature).0, 8);
}

/// The header declares no call that isn't measured here.
#[test]
fn each_call_is_measured() {
    let header = include_str!("../../include/zolbine.h");
    let code: String = header.split("/*").flat_map(|part| part.rsplit("*/").next()).collect();
    let before_parentheses = code.split('(').flat_map(|part| part.split_whitespace().last());
    let mut declared: Vec<&str> = before_parentheses.filter_map(|word| word.strip_prefix("zolbine_")).collect();
    declared.sort();
    let mut measured: Vec<&str> = BEFORE_SIGNATURES.iter().flat_map(|(call, ..)| call.split(',').next()).collect();
    measured.sort();
    measured.dedup();
    assert_eq!(declared, measured);
}
