//! Batteries of cases: each one is given to a subject and to the reference, and every byte that comes out is compared.

mod arguments;
pub mod check_signature;
pub mod dispatcher;
pub mod engine;
pub mod evidence;
pub mod framing;
pub mod hashes;
pub mod joining;
pub mod make_key;
pub mod making;
pub mod messages;
pub mod noise;
pub mod notes;
mod refusals;
pub mod sign;
mod two;

use std::collections::BTreeMap;
use std::io::Write;
use std::sync::atomic::{AtomicUsize, Ordering};
use std::sync::OnceLock;

use crate::keys::Key;
use crate::parallel;
use crate::reference::lms::Types;
use crate::rng::{seed, Rng};

/// A line on standard error, also where the test's own output is kept back.
pub fn progress(line: &str) {
    writeln!(std::io::stderr(), "{line}").expect("standard error");
}

/// ZOLBINE_LONG=1 asks for the long batteries.
fn long() -> bool {
    std::env::var("ZOLBINE_LONG").is_ok_and(|value| value == "1")
}

/// This many cases in the long batteries, half as many otherwise.
fn sized(count: usize) -> usize {
    if long() {
        count
    } else {
        count / 2
    }
}

/// Every buffer of the confirmer's calls at every length around its own, for each n. The batteries of the signature calls and of
/// notes have theirs.
pub fn lengths(subjects: noise::Subjects) {
    for_each_n("buffer lengths", |n, rng| {
        let mut calls = engine::refusals::lengths_around(subjects.engine, n, rng)?;
        calls += evidence::lengths_around(subjects.evidence, n, rng)?;
        calls += making::lengths_around(subjects.making, n, rng)?;
        calls += joining::lengths_around(subjects.joining, n, rng)?;
        Ok(calls)
    });
}

/// Runs a comparison for each n, and prints the number of its calls.
fn for_each_n(title: &str, compare: impl Fn(u32, &mut Rng) -> Result<usize, String> + Sync) {
    let sizes: Vec<u32> = (1..=32).rev().collect();
    let calls = run(&format!("{title}, for each n"), &sizes, |&n, rng| compare(n, rng));
    progress(&format!("{title}: {} calls", calls.into_iter().sum::<usize>()));
}

/// Differences after which the other cases are passed over.
const ENOUGH: usize = 5;

/// Runs all cases in parallel, and fails with the first differences and the seed, or returns the cases' results.
fn run<C: Sync, R: Send>(
    title: &str,
    cases: &[C],
    compare: impl Fn(&C, &mut Rng) -> Result<R, String> + Sync,
) -> Vec<R> {
    let numbered: Vec<(usize, &C)> = cases.iter().enumerate().collect();
    let (differences, done) = (AtomicUsize::new(0), AtomicUsize::new(0));
    let results = parallel::map(&numbered, |(number, case)| {
        if differences.load(Ordering::Relaxed) >= ENOUGH {
            return None;
        }
        let result = compare(case, &mut Rng::new(seed(), &format!("{title} {number}")));
        differences.fetch_add(usize::from(result.is_err()), Ordering::Relaxed);
        let done = done.fetch_add(1, Ordering::Relaxed) + 1;
        if long() && 10 * done / cases.len() > 10 * (done - 1) / cases.len() {
            progress(&format!("{title}: {done} of {} cases done", cases.len()));
        }
        Some(result)
    });
    let (mut given, mut failures) = (Vec::new(), Vec::new());
    for result in results.into_iter().flatten() {
        match result {
            Ok(result) => given.push(result),
            Err(difference) => failures.push(difference),
        }
    }
    progress(&format!("{title}: {} of {} cases agree (ZOLBINE_SEED={})", given.len(), cases.len(), seed()));
    let first: Vec<&str> = failures.iter().take(ENOUGH).map(String::as_str).collect();
    assert!(
        failures.is_empty(),
        "{title}: {} differ with ZOLBINE_SEED={}:\n{}",
        failures.len(),
        seed(),
        first.join("\n")
    );
    given
}

/// How often the cases came by each thing.
type Tally = BTreeMap<String, usize>;

fn count(tally: &mut Tally, what: impl Into<String>) {
    *tally.entry(what.into()).or_default() += 1;
}

/// The cases' counts added up and printed. Fails unless they came by all of these.
fn covered(title: &str, tallies: Vec<Tally>, all: impl IntoIterator<Item = String>) -> Tally {
    let mut tally = Tally::new();
    for (what, times) in tallies.into_iter().flatten() {
        *tally.entry(what).or_default() += times;
    }
    let told: Vec<String> = tally.iter().map(|(what, times)| format!("{what}: {times}")).collect();
    progress(&format!("{title}: {}", told.join(", ")));
    for what in all {
        assert!(tally.contains_key(&what), "{title}: no case came by `{what}`");
    }
    tally
}

pub fn equal<T: PartialEq + std::fmt::Debug>(name: &str, is: T, expected: T) -> Result<(), String> {
    if is == expected {
        Ok(())
    } else {
        Err(format!("{name}: {is:?} where {expected:?} is right"))
    }
}

/// Keys of every pairing, made once a run.
pub fn keys() -> &'static [Key] {
    static KEYS: OnceLock<Vec<Key>> = OnceLock::new();
    KEYS.get_or_init(|| {
        let mut rng = Rng::new(seed(), "keys");
        let mut keys = Vec::new();
        for types in Types::all() {
            for _ in 0..sized(if types.h == 5 { 4 } else { 2 }) {
                keys.push(Key::random(types, &mut rng));
                progress(&format!("the reference made a key of types {} and {}", types.lms, types.ots));
            }
        }
        keys
    })
}

/// The length of a signature of the other height.
const LOWER_TREE: usize = Types::of(5, 4).unwrap().signature();

/// Message lengths around every edge of the padding (54 bytes go before the message), and the longest.
fn message_lengths(rng: &mut Rng) -> Vec<usize> {
    let mut lengths: Vec<usize> = (0..=140).collect();
    for blocks in [4, 16, 17, 100, 1024] {
        lengths.extend(64 * blocks - 54 - 10..=64 * blocks - 54 + 1);
    }
    lengths.extend((0..10).map(|_| rng.below(65_536)));
    lengths.extend([65_534, 65_535]);
    lengths
}

fn flip_bit(bytes: &mut [u8], rng: &mut Rng) {
    let at = rng.below(bytes.len());
    bytes[at] ^= 1 << rng.below(8);
}

fn change_byte(bytes: &mut [u8], rng: &mut Rng) {
    let at = rng.below(bytes.len());
    bytes[at] ^= 1 + rng.below(255) as u8;
}

/// The bytes cut off or lengthened with random ones.
fn resized(bytes: &[u8], length: usize, rng: &mut Rng) -> Vec<u8> {
    let kept = &bytes[..length.min(bytes.len())];
    [kept, &rng.bytes(length - kept.len())].concat()
}
