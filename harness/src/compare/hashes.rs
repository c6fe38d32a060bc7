//! SHA-256, its compression and its round constants.

use super::{equal, run};
use crate::digests;
use crate::guarded::Guarded;
use crate::reference::sha256;
use crate::rng::{seed, Rng};
use crate::subject::{Constants, Hashes};

const DIGEST: usize = 32;
const BLOCK: usize = 64;

/// Lengths of `out` for so many bytes: too short, just right, and with bytes to spare.
fn out_lengths(needed: usize, rng: &mut Rng) -> [usize; 4] {
    [rng.below(needed), needed - 1, needed, needed + 1 + rng.below(64)]
}

/// Calls with `out` of each length: the expected bytes are written and no others, or the answer is 7 and nothing changes.
fn written(
    expected: &[u8],
    lent: &[(&str, &Guarded, &[u8])],
    rng: &mut Rng,
    call: impl Fn(&mut [u8]) -> u32,
) -> Result<(), String> {
    for length in out_lengths(expected.len(), rng) {
        let before = rng.bytes(length);
        let mut out = Guarded::new(&before, rng);
        let answer = call(out.lent_mut());
        if length < expected.len() {
            equal("the answer", answer, 7)?;
            out.expect("out", &before)?;
        } else {
            equal("the answer", answer, 0)?;
            out.expect("out", &[expected, &before[expected.len()..]].concat())?;
        }
    }
    lent.iter().try_for_each(|(name, buffer, contents)| buffer.expect(name, contents))
}

/// The known digests, then messages of every length to 300 and random ones above.
pub fn digests(subject: &dyn Hashes) {
    let mut rng = Rng::new(seed(), "digests");
    let mut cases = digests::known();
    for number in 0..1000 {
        let length = if number <= 300 { number } else { rng.below(10_000) };
        let message = rng.bytes(length);
        let digest = sha256::digest(&message);
        cases.push((message, digest));
    }
    run("sha256", &cases, |(contents, digest), rng| {
        let message = Guarded::new(contents, rng);
        written(digest, &[("message", &message, contents)], rng, |out| subject.sha256(message.lent(), out))
            .map_err(|difference| format!("message of {} bytes: {difference}", contents.len()))
    });
}

pub fn compressions(subject: &dyn Hashes) {
    let mut rng = Rng::new(seed(), "compressions");
    let mut cases: Vec<(u32, Vec<u8>, Vec<u8>)> = Vec::new();
    for byte in [0x00, 0x80, 0xff] {
        cases.push((1, vec![byte; DIGEST], vec![byte; BLOCK]));
    }
    for number in 0..3000 {
        let count = if number < 2000 { 1 } else { number % 40 };
        cases.push((count, rng.bytes(DIGEST), rng.bytes(BLOCK)));
    }
    cases.push((10_000, rng.bytes(DIGEST), rng.bytes(BLOCK)));
    run("compress", &cases, |(count, state_bytes, block_bytes), rng| {
        let state = Guarded::new(state_bytes, rng);
        let block = Guarded::new(block_bytes, rng);
        let mut words = sha256::state_of(state_bytes);
        for _ in 0..*count {
            words = sha256::compress(words, block_bytes);
        }
        let expected = sha256::bytes_of(&words);
        let lent = [("state", &state, state_bytes.as_slice()), ("block", &block, block_bytes.as_slice())];
        let many = |out: &mut [u8]| subject.compress_many(*count, state.lent(), block.lent(), out);
        written(&expected, &lent, rng, many).map_err(|difference| format!("{count} times: {difference}"))
    });
}

pub fn round_constants(subject: &dyn Constants) {
    let expected = sha256::bytes_of(&sha256::K);
    run("round constants", &[()], |(), rng| written(&expected, &[], rng, |out| subject.round_constants(out)));
}
