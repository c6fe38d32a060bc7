//! The key maker: whole trees and public keys byte by byte, and each refusal alone and with others.

use super::refusals::{lengths, spoiled, Spoiler};
use super::{equal, long, noise, progress, run, sized};
use crate::guarded::Guarded;
use crate::memo::Memo;
use crate::reference::calls::{self, TREE};
use crate::reference::lms::{IDENTIFIER, N, PUBLIC_KEY};
use crate::reference::record::Written;
use crate::rng::{seed, Rng};
use crate::subject::Calls;

struct Case {
    what: String,
    seed: Vec<u8>,
    identifier: Vec<u8>,
    tree: Vec<u8>,
    out: Vec<u8>,
    /// The refusal where the case's making fixes it.
    expected: Option<u32>,
}

fn compare(subject: &dyn Calls, case: &Case, rng: &mut Rng) -> Result<u32, String> {
    let (reference, reference_tree, reference_out) = reference(case);
    let seed = Guarded::new(&case.seed, rng);
    let identifier = Guarded::new(&case.identifier, rng);
    let mut tree = Guarded::new(&case.tree, rng);
    let mut out = Guarded::new(&case.out, rng);
    let answer = subject.make_key(seed.lent(), identifier.lent(), tree.lent_mut(), out.lent_mut());
    let told = || {
        equal("the reference's refusal", reference.number, case.expected.unwrap_or(reference.number))?;
        equal("the answer", answer, reference)?;
        seed.expect("seed", &case.seed)?;
        identifier.expect("identifier", &case.identifier)?;
        tree.expect("tree", &reference_tree)?;
        out.expect("out", &reference_out)
    };
    told().map(|()| reference.number).map_err(|difference| format!("{}: {difference}", case.what))
}

/// An answer, and tree and out after it.
type Made = (Written, Vec<u8>, Vec<u8>);

/// Result of the reference. A whole key takes long, so it is made once.
fn reference(case: &Case) -> Made {
    static WHOLE: Memo<[Vec<u8>; 4], Made> = Memo::new();
    let Case { seed, identifier, tree, out, .. } = case;
    let make = || {
        let (mut tree, mut out) = (tree.clone(), out.clone());
        (calls::make_key(seed, identifier, &mut tree, &mut out), tree, out)
    };
    match case.expected {
        Some(0) => WHOLE.answer([seed, identifier, tree, out].map(Vec::clone), |_| make()),
        _ => make(),
    }
}

pub fn battery(subject: &dyn Calls) {
    let mut rng = Rng::new(seed(), "make_key");
    let mut cases = vec![
        right("a random key", &mut rng),
        Case {
            seed: vec![0xff; N],
            identifier: vec![0xff; IDENTIFIER],
            tree: vec![0xff; TREE],
            out: vec![0xff; PUBLIC_KEY + 1],
            ..right("all bytes 255", &mut rng)
        },
    ];
    if long() {
        let spare = rng.bytes(PUBLIC_KEY + 100);
        cases.push(Case { out: spare, ..right("a random key, 100 bytes to spare", &mut rng) });
    }
    progress(&format!("make_key: {} whole keys", cases.len()));
    cases.extend(refusals(&mut rng));
    run("make_key", &cases, |case, rng| compare(subject, case, rng));
}

/// A call with random bytes, and a short tree: one of the right length would have a key made.
pub fn noise(subject: &dyn Calls, rng: &mut Rng) -> Result<u32, String> {
    let tree = rng.below(200);
    let case = Case {
        what: "random bytes".to_string(),
        seed: noise::bytes(N, rng),
        identifier: noise::bytes(IDENTIFIER, rng),
        tree: rng.bytes(tree),
        out: noise::bytes(PUBLIC_KEY, rng),
        expected: None,
    };
    compare(subject, &case, rng)
}

fn right(what: &str, rng: &mut Rng) -> Case {
    Case {
        what: what.to_string(),
        seed: rng.bytes(N),
        identifier: rng.bytes(IDENTIFIER),
        tree: rng.bytes(TREE),
        out: rng.bytes(PUBLIC_KEY),
        expected: Some(0),
    }
}

fn spoilers() -> Vec<Spoiler<Case>> {
    let mut spoilers: Vec<Spoiler<Case>> = Vec::new();
    spoilers.extend(lengths(7, "out", &[0, 1, 31, 32, PUBLIC_KEY - 1], |case: &mut Case| &mut case.out));
    spoilers.extend(lengths(16, "seed", &[0, 1, N - 1, N + 1, 2 * N], |case: &mut Case| &mut case.seed));
    spoilers.extend(lengths(
        16,
        "identifier",
        &[0, 1, IDENTIFIER - 1, IDENTIFIER + 1, 2 * IDENTIFIER],
        |case: &mut Case| &mut case.identifier,
    ));
    spoilers.extend(lengths(
        16,
        "tree",
        &[0, N, TREE / 2, TREE - N, TREE - 1, TREE + 1, TREE + N, 2 * TREE],
        |case: &mut Case| &mut case.tree,
    ));
    spoilers
}

fn refusals(rng: &mut Rng) -> Vec<Case> {
    let spoiled = spoiled(&spoilers(), sized(200), rng, |rng| right("", rng));
    spoiled.into_iter().map(|wrong| Case { expected: Some(wrong.number()), what: wrong.what, ..wrong.case }).collect()
}
