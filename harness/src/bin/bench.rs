//! The proved code beside plain C, and under the feature `libcrypto` beside OpenSSL's block function; the round constants beside the
//! check that works them out; a submit with 31 seats kept beside one with none; and two packs joined beside the checks of the two. The
//! verdict is the ratio; nanoseconds are printed for information. `bench WORD` runs only the contests whose names contain the word.

use harness::contest::Contest;
use harness::library;
use harness::plain::Plain;
use harness::reference::calls::TREE;
use harness::reference::layout::{SIGNATURE, SIGNED};
use harness::reference::lms::{Types, IDENTIFIER, N, PUBLIC_KEY};
use harness::reference::record::Written;
use harness::rng::{seed, Rng};
use harness::subject::{Calls, Hashes};
use harness::vectors;

fn main() {
    let word = std::env::args().nth(1).unwrap_or_default();
    println!("plain C: {}", env!("PLAIN_C"));
    head("proved", "plain");
    let hashes = hash_contests();
    hashes.iter().for_each(|contest| hold(&word, contest, library::hashes(), &Plain));
    if hashes.iter().any(|contest| contest.name.ends_with('*') && contest.name.contains(&word)) {
        println!("* proved: with the round constants worked out in each call; plain C has them as a table");
    }
    call_contests().iter().for_each(|contest| hold(&word, contest, library::calls(), &Plain));
    #[cfg(all(feature = "libcrypto", feature = "probes"))]
    beside_libcrypto(&word);
    #[cfg(all(feature = "zolbine", feature = "probes"))]
    constants_beside_check(&word);
    #[cfg(feature = "zolbine")]
    kept_beside_none(&word);
    #[cfg(feature = "zolbine")]
    joined_beside_checks(&word);
}

fn head(one: &str, other: &str) {
    let [pair, time, other_time] = [format!("{one} : {other}"), format!("{one}, ns"), format!("{other}, ns")];
    println!("{pair:<32} {:>7} {:>16} {time:>15} {other_time:>15}", "ratio", "quartiles");
}

/// The round constants, which a check works out once.
#[cfg(all(feature = "zolbine", feature = "probes"))]
fn constants_beside_check(word: &str) {
    use harness::library::Library;
    use harness::subject::Constants;

    // So that a run is long beside the clock's step.
    const TURNS: usize = 20;
    head("constants", "check");
    for check in check_contests() {
        let operations = TURNS * check.operations;
        let constants = || (0..operations).for_each(|_| assert_eq!(Library.round_constants(&mut [0; 256]), 0));
        let checks = || (0..TURNS).for_each(|_| (check.work)(&Library));
        let name = format!("{}: constants", check.name);
        let both = contest::<dyn Fn() + '_>(name, operations, 31, |side| side());
        hold(word, &both, Some(&constants), &checks);
    }
}

/// The submit of boat 0 in a fleet of 32, with the SUBMITs of all other seats kept and with none.
#[cfg(feature = "zolbine")]
fn kept_beside_none(word: &str) {
    use harness::confirmer::Engine;
    use harness::fleet::{layouts, Fleet};
    use harness::library::Library;
    use harness::reference::layout;
    use harness::reference::record::{Record, Stepped};

    const FLEET: Fleet = Fleet { n: 32, round: 5 };
    struct Unit {
        record: Record,
        store: Vec<u8>,
    }

    let (keys, value, mut out) = (FLEET.key_table(), layouts()[5], vec![0; layout::out(FLEET.n)]);
    let record = Library.open(FLEET.n, 0, FLEET.round, &keys).record;
    let none = Unit { record, store: vec![0; layout::store(FLEET.n)] };
    let mut all = Unit { record, store: none.store.clone() };
    for seat in 1..FLEET.n {
        let message = FLEET.submit(seat, &value, 0).write();
        let Stepped { number, record, .. } = Library.step(all.record, &keys, &mut all.store, &message, &mut out);
        assert_eq!(number, 0);
        all.record = record;
    }
    let signature = FLEET.signature(0, &value, 0);
    head("31 kept", "none");
    let submits = contest::<Unit>("submit", 1, 301, move |unit| {
        let (mut store, mut out) = (unit.store.clone(), vec![0; layout::out(FLEET.n)]);
        let stepped = Library.submit(unit.record, &keys, &mut store, &value, &signature, &mut out);
        assert_eq!((stepped.number, stepped.record.confirmed), (0, unit.record.kept != 0));
    });
    hold(word, &submits, Some(&all), &none);
}

/// Two packs of 11 seats each, as many as a first pack of 32 boats has at least: joined, and each checked.
#[cfg(feature = "zolbine")]
fn joined_beside_checks(word: &str) {
    use harness::confirmer::{EvidenceCheck, Joining};
    use harness::fleet::{layouts, Fleet};
    use harness::library::Library;
    use harness::reference::layout;

    const FLEET: Fleet = Fleet { n: 32, round: 5 };
    let (keys, values) = (FLEET.key_table(), layouts());
    let pack = |seats: std::ops::Range<u32>| {
        FLEET.evidence((&values[0], 0), (&values[4], 0), &seats.collect::<Vec<_>>()).write()
    };
    let packs = [pack(0..11), pack(11..22)];
    let joins = || {
        let mut out = vec![0; layout::joined_out(FLEET.n)];
        let answer = Library.join_evidence(FLEET.n, FLEET.round, &keys, &packs[0], &packs[1], &mut out);
        assert_eq!(answer, Written { number: 0, written: layout::evidence(22) as u32 });
    };
    let checks = || {
        for pack in &packs {
            assert_eq!(Library.check_evidence(FLEET.n, FLEET.round, &keys, pack).mask.count_ones(), 11);
        }
    };
    head("joined", "checks");
    let both = contest::<dyn Fn() + '_>("two packs", 1, 101, |side| side());
    hold(word, &both, Some(&joins), &checks);
}

/// Hashes of one block: in the proved code one by one and in lanes, in libcrypto by its block function.
#[cfg(all(feature = "libcrypto", feature = "probes"))]
fn beside_libcrypto(word: &str) {
    use harness::crypto::Libcrypto;
    use harness::library::Library;

    /// The hashes of 34 chains of 256, as many as a leaf's key takes.
    trait Blocks {
        fn blocks(&self);
    }

    impl Blocks for Library {
        fn blocks(&self) {
            assert_eq!(self.signed(1, &[2; IDENTIFIER], &[3; N], &[255; 34], &mut [0; 34 * N]), 0);
        }
    }

    impl Blocks for Libcrypto {
        fn blocks(&self) {
            assert_eq!(self.compress_many(34 * 256, &[2; 32], &[3; 64], &mut [0; 32]), 0);
        }
    }

    head("proved", "libcrypto");
    hold(word, &hash_contests()[0], library::hashes(), &Libcrypto);
    let lanes = contest::<dyn Blocks>("compression in lanes", 34 * 256, 301, |subject| subject.blocks());
    hold::<dyn Blocks>(word, &lanes, Some(&Library), &Libcrypto);
}

fn hold<S: ?Sized>(word: &str, contest: &Contest<S>, proved: Option<&S>, plain: &S) {
    if !contest.name.contains(word) {
        return;
    }
    let times = contest.run(proved, plain);
    let [ratio, quartiles, nanoseconds] = match times.proved {
        Some(proved) => {
            let [lower, median, upper] = proved.ratio;
            let digits = if median < 0.1 { 4 } else { 2 };
            let quartiles = format!("{lower:.digits$} to {upper:.digits$}");
            [format!("{median:.digits$}"), quartiles, format!("{:.1}", proved.time)]
        }
        None => ["-", "-", "not linked"].map(str::to_string),
    };
    println!("{:<32} {ratio:>7} {quartiles:>16} {nanoseconds:>15} {:>15.1}", contest.name, times.plain);
}

fn contest<S: ?Sized>(
    name: impl Into<String>,
    operations: usize,
    repetitions: usize,
    work: impl Fn(&S) + 'static,
) -> Contest<S> {
    Contest { name: name.into(), operations, repetitions, work: Box::new(work) }
}

fn hash_contests() -> Vec<Contest<dyn Hashes>> {
    let mut rng = Rng::new(seed(), "bench hashes");
    let (state, block) = (rng.bytes(32), rng.bytes(64));
    let mut contests = vec![contest::<dyn Hashes>("compression", 10_000, 301, move |subject| {
        assert_eq!(subject.compress_many(10_000, &state, &block, &mut [0; 32]), 0);
    })];
    for (length, calls) in [(55, 2000), (1024, 200), (65_535, 4)] {
        let message = rng.bytes(length);
        contests.push(contest::<dyn Hashes>(format!("sha256 of {length} bytes *"), calls, 301, move |subject| {
            for _ in 0..calls {
                assert_eq!(subject.sha256(&message, &mut [0; 32]), 0);
            }
        }));
    }
    contests
}

fn check_contests() -> Vec<Contest<dyn Calls>> {
    let mut contests = Vec::new();
    for types in Types::all() {
        let of_types = |record: &vectors::Record| record.made.as_ref().is_some_and(|made| made.types == types);
        let records: Vec<_> = vectors::lines("bc-vectors.txt").into_iter().filter(of_types).collect();
        let name = format!("check, types {} and {}", types.lms, types.ots);
        contests.push(contest::<dyn Calls>(name, records.len(), 301, move |subject| {
            for record in &records {
                assert_eq!(subject.check_signature(&record.key, &record.message, &record.signature), 0);
            }
        }));
    }
    contests
}

fn call_contests() -> Vec<Contest<dyn Calls>> {
    let mut rng = Rng::new(seed(), "bench calls");
    let mut contests = check_contests();
    let (seed, identifier, randomizer, tree) = (rng.bytes(N), rng.bytes(IDENTIFIER), rng.bytes(N), rng.bytes(TREE));
    let messages: Vec<Vec<u8>> = (0..8).map(|_| rng.bytes(SIGNED)).collect();
    let (key_seed, key_identifier) = (seed.clone(), identifier.clone());
    contests.push(contest::<dyn Calls>("sign", messages.len(), 301, move |subject| {
        for (leaf, message) in (0..).zip(&messages) {
            let answer = subject.sign(leaf, &seed, &identifier, &randomizer, &tree, message, &mut [0; SIGNATURE]);
            assert_eq!(answer, Written { number: 0, written: SIGNATURE as u32 });
        }
    }));
    contests.push(contest::<dyn Calls>("make_key", 1, 7, move |subject| {
        let answer = subject.make_key(&key_seed, &key_identifier, &mut vec![0; TREE], &mut [0; PUBLIC_KEY]);
        assert_eq!(answer, Written { number: 0, written: PUBLIC_KEY as u32 });
    }));
    contests
}
