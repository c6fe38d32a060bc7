//! The signer: whole signatures byte by byte, any tree lent, and each refusal alone and with others.

use crate::reference::layout::{SIGNATURE, SIGNED};
use std::sync::{Arc, OnceLock};

use super::refusals::{lengths, spoiled, spoiler, Spoiler};
use super::{equal, keys, message_lengths, noise, run, sized, LOWER_TREE};
use crate::guarded::Guarded;
use crate::keys::Key;
use crate::reference::calls::{self, MAX_LEAF, MAX_MESSAGE, TREE};
use crate::reference::lms::{self, Types, IDENTIFIER, N, PUBLIC_KEY};
use crate::rng::{seed, Rng};
use crate::subject::Calls;

struct Case {
    what: String,
    leaf: u32,
    seed: Vec<u8>,
    identifier: Vec<u8>,
    randomizer: Vec<u8>,
    tree: Arc<Vec<u8>>,
    message: Vec<u8>,
    out: Vec<u8>,
    /// The refusal where the case's making fixes it.
    expected: Option<u32>,
    /// The public key that must accept the signature.
    public: Option<Vec<u8>>,
}

fn compare(subject: &dyn Calls, case: &Case, rng: &mut Rng) -> Result<u32, String> {
    let mut reference_out = case.out.clone();
    let reference = calls::sign(
        case.leaf,
        &case.seed,
        &case.identifier,
        &case.randomizer,
        &case.tree,
        &case.message,
        &mut reference_out,
    );
    let seed = Guarded::new(&case.seed, rng);
    let identifier = Guarded::new(&case.identifier, rng);
    let randomizer = Guarded::new(&case.randomizer, rng);
    let tree = Guarded::new(&case.tree, rng);
    let message = Guarded::new(&case.message, rng);
    let mut out = Guarded::new(&case.out, rng);
    let answer = subject.sign(
        case.leaf,
        seed.lent(),
        identifier.lent(),
        randomizer.lent(),
        tree.lent(),
        message.lent(),
        out.lent_mut(),
    );
    let told = || {
        equal("the reference's refusal", reference.number, case.expected.unwrap_or(reference.number))?;
        equal("the answer", answer, reference)?;
        seed.expect("seed", &case.seed)?;
        identifier.expect("identifier", &case.identifier)?;
        randomizer.expect("randomizer", &case.randomizer)?;
        tree.expect("tree", &case.tree)?;
        message.expect("message", &case.message)?;
        out.expect("out", &reference_out)?;
        match &case.public {
            Some(key) => equal("accepted", lms::verify(key, &case.message, &out.lent()[..SIGNATURE]), true),
            None => Ok(()),
        }
    };
    told().map(|()| reference.number).map_err(|difference| format!("{}: {difference}", case.what))
}

pub fn battery(subject: &dyn Calls) {
    static CASES: OnceLock<Vec<Case>> = OnceLock::new();
    run("sign", CASES.get_or_init(cases), |case, rng| compare(subject, case, rng));
}

fn cases() -> Vec<Case> {
    let mut rng = Rng::new(seed(), "sign");
    let keys: Vec<&Key> = keys().iter().filter(|key| key.types == Types::ENGINE).collect();
    let mut cases = honest(&keys, &mut rng);
    cases.extend(any_tree(&mut rng));
    cases.extend(refusals(&mut rng));
    cases
}

/// Signatures by a key and its tree, which are accepted.
fn honest(keys: &[&Key], rng: &mut Rng) -> Vec<Case> {
    let trees: Vec<Arc<Vec<u8>>> = keys.iter().map(|key| Arc::new(key.lent_tree(&rng.bytes(N)))).collect();
    let mut cases = Vec::new();
    for (number, length) in message_lengths(rng).into_iter().enumerate() {
        let which = number % keys.len();
        let leaf = match number % 10 {
            place @ 0..=4 => [0, 1, 511, 512, 1023][place],
            _ => rng.below(1024) as u32,
        };
        let spare = *rng.pick(&[0, 0, 1, 100]);
        cases.push(Case {
            what: format!("leaf {leaf}, message of {length} bytes, {spare} bytes to spare"),
            leaf,
            seed: keys[which].seed.clone(),
            identifier: keys[which].identifier.clone(),
            randomizer: rng.bytes(N),
            tree: trees[which].clone(),
            message: rng.bytes(length),
            out: rng.bytes(SIGNATURE + spare),
            expected: Some(0),
            public: Some(keys[which].public.clone()),
        });
    }
    cases
}

fn any_operands(what: impl Into<String>, tree: &Arc<Vec<u8>>, rng: &mut Rng) -> Case {
    let length = rng.below(200);
    Case {
        what: what.into(),
        leaf: rng.below(1024) as u32,
        seed: rng.bytes(N),
        identifier: rng.bytes(IDENTIFIER),
        randomizer: rng.bytes(N),
        tree: tree.clone(),
        message: rng.bytes(length),
        out: rng.bytes(SIGNATURE),
        expected: Some(0),
        public: None,
    }
}

/// A call with random bytes; seldom with a tree of the right length.
pub fn noise(subject: &dyn Calls, rng: &mut Rng) -> Result<u32, String> {
    let tree = if rng.one_in(50) { TREE } else { rng.below(200) };
    let case = Case {
        what: "random bytes".to_string(),
        leaf: noise::number(1024, rng),
        seed: noise::bytes(N, rng),
        identifier: noise::bytes(IDENTIFIER, rng),
        randomizer: noise::bytes(N, rng),
        tree: Arc::new(rng.bytes(tree)),
        message: noise::bytes(SIGNED, rng),
        out: noise::bytes(SIGNATURE, rng),
        expected: None,
        public: None,
    };
    compare(subject, &case, rng)
}

/// The tree is read and never compared with the seed.
fn any_tree(rng: &mut Rng) -> Vec<Case> {
    let mut cases = Vec::new();
    for number in 0..sized(20) {
        let tree = Arc::new(rng.bytes(TREE));
        cases.extend((0..5).map(|_| any_operands(format!("random tree {number}"), &tree, rng)));
    }
    for byte in [0x00, 0xff] {
        let tree = Arc::new(vec![byte; TREE]);
        cases.push(Case {
            seed: vec![byte; N],
            identifier: vec![byte; IDENTIFIER],
            randomizer: vec![byte; N],
            message: vec![byte; SIGNED],
            ..any_operands(format!("all bytes {byte}"), &tree, rng)
        });
    }
    cases
}

fn spoilers() -> Vec<Spoiler<Case>> {
    let mut spoilers: Vec<Spoiler<Case>> = Vec::new();
    for leaf in [MAX_LEAF + 1, 1025, 2047, 2048, 65_535, 65_536, 65_541, 1 << 31, u32::MAX - 1023, u32::MAX] {
        spoilers.push(spoiler(3, format!("leaf {leaf}"), move |case: &mut Case, _| case.leaf = leaf));
    }
    spoilers.extend(lengths(7, "out", &[0, 1, N - 1, PUBLIC_KEY, LOWER_TREE, SIGNATURE - 1], |case: &mut Case| {
        &mut case.out
    }));
    spoilers.extend(lengths(9, "message", &[MAX_MESSAGE + 1, MAX_MESSAGE + 2, 100_000], |case: &mut Case| {
        &mut case.message
    }));
    spoilers.extend(lengths(16, "seed", &[0, 1, N - 1, N + 1, 2 * N], |case: &mut Case| &mut case.seed));
    spoilers.extend(lengths(16, "randomizer", &[0, 1, N - 1, N + 1, 2 * N], |case: &mut Case| &mut case.randomizer));
    spoilers.extend(lengths(
        16,
        "identifier",
        &[0, 1, IDENTIFIER - 1, IDENTIFIER + 1, 2 * IDENTIFIER],
        |case: &mut Case| &mut case.identifier,
    ));
    for length in [0, N, TREE / 2, TREE - N, TREE - 1, TREE + 1, TREE + N, 2 * TREE] {
        spoilers.push(spoiler(16, format!("tree of {length} bytes"), move |case: &mut Case, rng| {
            case.tree = Arc::new(rng.bytes(length))
        }));
    }
    spoilers
}

fn refusals(rng: &mut Rng) -> Vec<Case> {
    let tree = Arc::new(rng.bytes(TREE));
    let spoiled = spoiled(&spoilers(), sized(400), rng, |rng| any_operands("", &tree, rng));
    spoiled.into_iter().map(|wrong| Case { expected: Some(wrong.number()), what: wrong.what, ..wrong.case }).collect()
}
