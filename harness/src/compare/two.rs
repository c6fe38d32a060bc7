//! Calls over two messages in hand, which write to `out`: each given to a subject and to the reference.

use super::arguments::{untouched, Arguments};
use super::{equal, noise, resized};
use crate::guarded::Guarded;
use crate::reference::record::Written;
use crate::rng::Rng;

/// n, round, keys, the two messages and `out`.
type Call<'a> = &'a dyn Fn(u32, u32, &[u8], &[u8], &[u8], &mut [u8]) -> Written;

/// The answer of the reference and the subject with `out` after it, or their difference. Equal messages are lent in one buffer
/// too.
pub fn both(
    [subject, reference]: [Call; 2],
    arguments: &Arguments,
    [first, second]: &[Vec<u8>; 2],
    out: &[u8],
    rng: &mut Rng,
) -> Result<(Written, Vec<u8>), String> {
    let Arguments { n, round, keys } = arguments;
    let mut expected_out = out.to_vec();
    let expected = reference(*n, *round, keys, first, second, &mut expected_out);
    let lent_keys = Guarded::new(keys, rng);
    let lent = [Guarded::new(first, rng), Guarded::new(second, rng)];
    let mut lend = |one: &Guarded, other: &Guarded| {
        let mut lent_out = Guarded::new(out, rng);
        let answer = subject(*n, *round, lent_keys.lent(), one.lent(), other.lent(), lent_out.lent_mut());
        equal("the answer", answer, expected)?;
        lent_out.expect("out", &expected_out)
    };
    lend(&lent[0], &lent[1])?;
    if first == second {
        lend(&lent[0], &lent[0]).map_err(|difference| format!("one buffer lent twice: {difference}"))?;
    }
    untouched(&[("keys", &lent_keys, keys), ("first", &lent[0], first), ("second", &lent[1], second)])?;
    Ok((expected, expected_out))
}

/// Compares a call with every buffer of every length around its own, and gives the number of calls.
pub fn lengths_around(
    arguments: &Arguments,
    messages: &[Vec<u8>; 2],
    out: &[u8],
    rng: &mut Rng,
    compare: impl Fn(&Arguments, &[Vec<u8>; 2], &[u8], &mut Rng) -> Result<(Written, Vec<u8>), String>,
) -> Result<usize, String> {
    let mut calls = 0;
    for length in noise::around(arguments.keys.len()) {
        let keys = resized(&arguments.keys, length, rng);
        compare(&Arguments { keys, ..arguments.clone() }, messages, out, rng)?;
        calls += 1;
    }
    for which in [0, 1] {
        for length in noise::around(messages[which].len()) {
            let mut messages = messages.clone();
            messages[which] = resized(&messages[which], length, rng);
            compare(arguments, &messages, out, rng)?;
            calls += 1;
        }
    }
    for length in noise::around(out.len()) {
        compare(arguments, messages, &rng.bytes(length), rng)?;
        calls += 1;
    }
    Ok(calls)
}
